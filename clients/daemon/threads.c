/* SPDX-License-Identifier: Apache-2.0 OR MIT */
/* threads.c: a thread of a client, from its first ioctl until the end of its link. */
#include "daemon.h"

#include <errno.h>
#include <fcntl.h>
#include <stdlib.h>
#include <sys/epoll.h>
#include <sys/eventfd.h>
#include <sys/mman.h>
#include <sys/socket.h>
#include <unistd.h>

#define THREADS_MAX 4096u

/* What a new thread's descriptors are, for as long as one of them may still fail. */
struct parts {
    int link[2];
    int memory;
    int bell;
    struct page *page;
};

/* Whether the thread ends with its process. That ends as one then: who hears of the thread's end may ask at once for what the process had. */
static bool has_gone(const struct process *process)
{
    char byte;
    return !process->is_ending && recv(process->control.fd, &byte, sizeof byte, MSG_PEEK | MSG_DONTWAIT) == 0;
}

/* It is only waited for its end. The thread may have asked for something without waiting for it. */
static void link_ready(struct watch *watch)
{
    struct thread *thread = container_of(watch, struct thread, link);
    struct engine *engine = thread->process->engine;
    if (!turns_are_ending(&engine->loop.turns, watch)) {
        turns_want_end(&engine->loop.turns, watch);
        return;
    }
    if (!thread->process->is_ending)
        page_rung(thread);
    if (thread->writing) {
        turns_want(&engine->loop.turns, watch);
        return;
    }
    if (has_gone(thread->process)) {
        process_end(thread->process);
        return;
    }
    thread_end(thread);
    settle_some(engine);
    seats_retry(engine);
}

static void bell_ready(struct watch *watch)
{
    struct thread *thread = container_of(watch, struct thread, bell);
    struct engine *engine = thread->process->engine;
    loop_listen(&engine->loop, watch);
    if (thread->process->is_ending)
        return;
    page_rung(thread);
    seats_retry(engine);
}

/* The page's size is sealed: no access of the daemon's can go past its end. Of its area little is mapped here, so that looking at what its
   client has left empty fills no more of it. */
static struct page *make_page(int *memory)
{
    *memory = memfd_create("hullpippin-page", MFD_CLOEXEC | MFD_ALLOW_SEALING);
    if (*memory < 0)
        return NULL;
    if (ftruncate(*memory, sizeof(struct page)) || fcntl(*memory, F_ADD_SEALS, F_SEAL_SHRINK | F_SEAL_GROW | F_SEAL_SEAL))
        return NULL;
    void *at = mmap(NULL, PAGE_MAPPED, PROT_READ | PROT_WRITE, MAP_SHARED, *memory, 0);
    return at == MAP_FAILED ? NULL : at;
}

/* What the daemon sends there waits in the kernel's memory for a client that may never take it: that are some packets. */
static bool make_link(int link[2])
{
    static const int least = 1;
    return socketpair(AF_UNIX, SOCK_SEQPACKET | SOCK_CLOEXEC, 0, link) == 0
           && setsockopt(link[0], SOL_SOCKET, SO_SNDBUF, &least, sizeof least) == 0;
}

static bool make_parts(struct parts *parts)
{
    *parts = (struct parts){{-1, -1}, -1, -1, NULL};
    if (!make_link(parts->link))
        return false;
    parts->bell = eventfd(0, EFD_CLOEXEC | EFD_NONBLOCK);
    return parts->bell >= 0 && (parts->page = make_page(&parts->memory));
}

static void free_parts(struct parts *parts)
{
    if (parts->page)
        munmap(parts->page, PAGE_MAPPED);
    descriptor_close(&parts->link[0]);
    descriptor_close(&parts->link[1]);
    descriptor_close(&parts->memory);
    descriptor_close(&parts->bell);
}

static struct thread *new_thread(struct process *process, uint64_t tid, const struct parts *parts)
{
    struct thread *thread = calloc(1, sizeof *thread);
    if (!thread)
        return NULL;
    thread->link = (struct watch){.fd = parts->link[0], .ready = link_ready};
    thread->bell = (struct watch){.fd = parts->bell, .ready = bell_ready};
    thread->process = process;
    thread->told_tid = tid;
    thread->page = parts->page;
    thread->memory = parts->memory;
    thread->seat = NO_SEAT;
    thread->doorbell = thread->doorbell_end = -1;
    list_append(&process->threads, &thread->in_process);
    list_begin(&thread->in_idle);
    list_begin(&thread->in_woken);
    list_begin(&thread->in_touched);
    list_begin(&thread->in_seatless);
    process->thread_count++;
    return thread;
}

static void give_share(struct account *account)
{
    account_give(account, SHARED_THREADS, 1);
    account_give(account, SHARED_DESCRIPTORS, THREAD_DESCRIPTORS);
}

static bool take_share(struct account *account)
{
    if (!account_take(account, SHARED_DESCRIPTORS, THREAD_DESCRIPTORS))
        return false;
    if (account_take(account, SHARED_THREADS, 1))
        return true;
    account_give(account, SHARED_DESCRIPTORS, THREAD_DESCRIPTORS);
    return false;
}

int thread_join(struct process *process, uint64_t tid, int fds[3])
{
    struct parts parts;
    if (!process->engine)
        return EINVAL;
    if (process->thread_count >= THREADS_MAX || !take_share(process->account))
        return EMFILE;
    struct thread *thread = make_parts(&parts) ? new_thread(process, tid, &parts) : NULL;
    if (!thread) {
        free_parts(&parts);
        give_share(process->account);
        return ENOMEM;
    }
    struct loop *loop = process->loop;
    struct client *client = process->client;
    /* A bell is never emptied: each time it is rung there is an event. Of the link only its end makes one. */
    if (!loop_add_client(loop, &thread->link, client, EPOLLRDHUP) || !loop_add_client(loop, &thread->bell, client, EPOLLIN)) {
        descriptor_close(&parts.link[1]);
        thread_free(thread);
        return ENOMEM;
    }
    fds[0] = parts.link[1];
    fds[1] = parts.memory;
    fds[2] = parts.bell;
    return 0;
}

/* Descriptors that it hasn't handed over go to nobody. */
static void end_landing(struct thread *thread)
{
    if (thread->landing)
        tickets_end(thread->process->engine, thread->landing->step);
}

struct landing *thread_landing(struct thread *thread)
{
    end_landing(thread);
    if (!thread->landing)
        return thread->landing = calloc(1, sizeof *thread->landing);
    thread->landing->is_on_way = false;
    thread->landing->count = 0;
    return thread->landing;
}

void thread_end(struct thread *thread)
{
    if (!thread->process->is_ending)
        seat_return(thread);
    thread_free(thread);
}

/* A client that lives on, as where the daemon ends, is told. It asks and then looks whether this is the end; here it's the
   other way round, so that one of the two sees the other. */
static void tell_end(struct thread *thread)
{
    atomic_store(&thread->page->ended, 1);
    if (!thread->waits.is_reading)
        thread->answer = (struct page_answer){0};
    if (thread->waits.is_reading || atomic_load(&thread->page->state) == PAGE_ASKED)
        page_interrupt(thread, ENODEV);
}

void thread_free(struct thread *thread)
{
    struct loop *loop = thread->process->loop;
    descriptors_close_for(thread->process->account);
    page_forget(thread);
    tell_end(thread);
    seat_forget(thread);
    doorbell_free(thread);
    end_landing(thread);
    free(thread->landing);
    loop_drop(loop, &thread->link);
    loop_drop(loop, &thread->bell);
    munmap(thread->page, PAGE_MAPPED);
    descriptor_close(&thread->memory);
    list_remove(&thread->in_woken);
    list_remove(&thread->in_touched);
    list_remove(&thread->in_seatless);
    list_remove(&thread->in_process);
    owed_end(thread);
    flight_end(thread);
    give_share(thread->process->account);
    thread->process->thread_count--;
    free(thread);
}
