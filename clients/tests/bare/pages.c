/* SPDX-License-Identifier: Apache-2.0 OR MIT */
/* pages.c: requests in pages, and their answers, as the daemon has them. */
#include "bare.h"

#include <errno.h>
#include <linux/futex.h>
#include <string.h>
#include <sys/syscall.h>
#include <unistd.h>

static void answer(struct thread *thread, struct page_answer answer)
{
    struct page *page = thread->page;
    const uint32_t none = 0;
    page->answer = answer;
    atomic_store(&page->state, PAGE_ANSWERED);
    if (atomic_load(&page->is_long))
        packet_send(thread->link, &none, sizeof none, NULL, 0);
    else
        syscall(SYS_futex, &page->state, FUTEX_WAKE, 1, NULL, NULL, 0);
}

static void ring(struct thread *thread)
{
    bool rings = thread->size || calls_wait(thread);
    char byte = 0;
    if (thread->doorbell[0] < 0 || thread->is_rung == rings)
        return;
    thread->is_rung = rings;
    CHECK((rings ? send(thread->doorbell[0], &byte, 1, MSG_DONTWAIT) : recv(thread->doorbell[1], &byte, 1, MSG_DONTWAIT)) == 1,
          "a doorbell");
}

static void put_doorbells_right(struct process *process)
{
    for (struct thread *thread = process->threads; thread; thread = thread->next)
        ring(thread);
}

/* Answers the read that waits, if there is something to be read. */
static void try_read(struct thread *thread)
{
    uint32_t first = BR_NOOP;
    if (!thread->size && calls_wait(thread))
        calls_take(thread);
    if (!thread->size)
        return;
    CHECK(sizeof first + thread->size <= thread->room, "no room for the returns");
    memcpy(thread->page->returns, &first, sizeof first);
    memcpy(thread->page->returns + sizeof first, thread->returns, thread->size);
    const struct page_answer read = {.consumed = thread->consumed, .returns_size = sizeof first + thread->size};
    thread->size = thread->room = 0;
    put_doorbells_right(thread->process);
    answer(thread, read);
}

void settle(struct process *process)
{
    for (struct thread *thread = process->threads; thread; thread = thread->next)
        if (thread->room)
            try_read(thread);
    put_doorbells_right(process);
}

static void write_read(struct thread *thread, const struct page_request *request)
{
    calls_run(thread, thread->page->stream, request->stream_size);
    if (!request->room) {
        put_doorbells_right(thread->process);
        answer(thread, (struct page_answer){.consumed = request->stream_size});
        return;
    }
    thread->room = request->room;
    thread->consumed = request->stream_size;
    try_read(thread);
}

static void give_doorbell(struct thread *thread)
{
    uint32_t count = 1;
    CHECK(!socketpair(AF_UNIX, SOCK_STREAM | SOCK_CLOEXEC, 0, thread->doorbell), "no doorbell");
    packet_send(thread->link, &count, sizeof count, &thread->doorbell[1], 1);
    ring(thread);
    answer(thread, (struct page_answer){.descriptors = 1});
}

static void do_request(struct thread *thread, const struct page_request *request)
{
    switch (request->op) {
    case PAGE_WRITE_READ:
        write_read(thread, request);
        return;
    case PAGE_DOORBELL:
        give_doorbell(thread);
        return;
    case PAGE_SET_MANAGER:
        calls_set_manager(thread->process);
        break;
    }
    answer(thread, (struct page_answer){0});
}

void page_rung(struct thread *thread)
{
    struct page *page = thread->page;
    uint32_t freed = atomic_load_explicit(&page->freed, memory_order_acquire);
    for (; thread->freed != freed; thread->freed++)
        calls_free(thread->process, page->frees[thread->freed % PAGE_FREES]);
    atomic_store_explicit(&page->taken, freed, memory_order_release);
    if (thread->room) {
        if (!atomic_load(&page->cancel))
            return;
        thread->room = 0;
        answer(thread, (struct page_answer){.error = EINTR});
    } else if (atomic_load_explicit(&page->state, memory_order_acquire) == PAGE_ASKED) {
        const struct page_request request = page->request;
        do_request(thread, &request);
    }
}
