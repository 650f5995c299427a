/* SPDX-License-Identifier: Apache-2.0 OR MIT */
/*
 * page.c: requests in pages. A page belongs to its client as much as to the daemon, so each word of it is copied
 * once, and only the copy is looked at; no request leaves the daemon waiting, and where nothing is asked, a bell is a
 * bell.
 */
#include "daemon.h"

#include <errno.h>
#include <linux/futex.h>
#include <stdlib.h>
#include <string.h>
#include <sys/syscall.h>
#include <unistd.h>

void page_copy(void *to, const void *from, size_t size)
{
    memcpy(to, from, size);
    __asm__ volatile("" ::: "memory");
}

/* Where the socket is full nothing can be sent; then what lies in it unread wakes the client, and so do descriptors that come with the
   answer. Whether the client has taken earlier ones can't be told once there is a packet behind them. */
static void wake(struct thread *thread)
{
    const uint32_t none = 0;
    if (!atomic_load(&thread->page->is_long)) {
        syscall(SYS_futex, &thread->page->state, FUTEX_WAKE, 1, NULL, NULL, 0);
    } else if (!thread->answer.descriptors) {
        flight_look(thread);
        packet_send(thread->link.fd, &none, sizeof none, NULL, 0, MSG_DONTWAIT);
    }
}

void page_put(struct thread *thread, uint32_t at, const void *returns, uint32_t size)
{
    memcpy(thread->page->returns + at, returns, size);
}

/* The state is set and then it is looked how the client waits; there it's the other way round, so that one of the two sees the
   other. */
void page_answer(struct thread *thread, uint32_t size)
{
    struct page *page = thread->page;
    thread->answer.returns_size = size;
    thread->answer.refused = thread->reader.refusal != HULLPIPPIN_REFUSAL_NONE;
    page->answer = thread->answer;
    atomic_store(&page->state, PAGE_ANSWERED);
    wake(thread);
}

static void answer_error(struct thread *thread, int error)
{
    thread->answer.error = error;
    page_answer(thread, 0);
}

void page_interrupt(struct thread *thread, int error)
{
    waiting_stop(thread);
    waiting_ring(thread);
    answer_error(thread, error);
}

/* Fetches the descriptors that come with a request, of which the library says how many it keeps. */
static int fetch_descriptors(struct thread *thread, uint32_t wanted, bool is_run, struct hand *hand)
{
    uint32_t told;
    hand->count = hand->taken = 0;
    if (!wanted)
        return 0;
    int received = packet_receive(thread->link.fd, &told, sizeof told, hand->fds, DESCRIPTORS_MAX, &hand->count, MSG_DONTWAIT);
    if (received < 0 && errno == EMFILE)
        return EMFILE;
    uint32_t kept = hullpippin_descriptors_kept(wanted, hand->count, received == 1, is_run);
    descriptors_close(hand->fds + kept, hand->count - kept);
    hand->count = kept;
    return kept == wanted ? 0 : EINVAL;
}

static void close_left(struct hand *hand)
{
    descriptors_close(hand->fds + hand->taken, hand->count - hand->taken);
}

/* The request isn't run: it keeps none. */
static void drop_descriptors(struct thread *thread, uint32_t wanted)
{
    struct hand hand;
    fetch_descriptors(thread, wanted, false, &hand);
}

void page_refuse(struct thread *thread, int error)
{
    struct page *page = thread->page;
    uint32_t wanted;
    list_remove(&thread->in_seatless);
    if (atomic_load_explicit(&page->state, memory_order_acquire) != PAGE_ASKED)
        return;
    page_copy(&wanted, &page->request.descriptors, sizeof wanted);
    drop_descriptors(thread, wanted);
    page_interrupt(thread, error);
}

/* Whether the thread's read is to come back at once. */
static bool is_to_return(struct thread *thread)
{
    return atomic_load(&thread->page->cancel) == CANCEL_RETURN;
}

/* What no errno is: the request isn't done in this turn. */
enum { UNDONE = -1 };

/* The write goes on with the thread's next turn. */
static int put_off(struct thread *thread, struct writing *writing)
{
    if (!thread->writing) {
        thread->writing = malloc(sizeof *writing);
        if (!thread->writing) {
            close_left(&writing->hand);
            return ENOMEM;
        }
        *thread->writing = *writing;
    }
    return UNDONE;
}

void page_forget(struct thread *thread)
{
    if (thread->writing)
        close_left(&thread->writing->hand);
    free(thread->writing);
    thread->writing = NULL;
}

/* Runs the write half, or what is left of it, and begins the read half. */
static inline int write_on(struct thread *thread, struct writing *writing)
{
    const struct page_request *request = &writing->request;
    int error = commands_run(thread, writing->stream, request->stream_size, &writing->hand);
    if (!error && !thread->answer.refused && thread->answer.consumed < request->stream_size)
        return put_off(thread, writing);
    close_left(&writing->hand);
    if (!error && request->room) {
        thread->waits.is_reading = true;
        thread->room = request->room;
    }
    return error;
}

static int write_read(struct thread *thread, const struct page_request *request)
{
    struct writing writing;
    bool fits = request->stream_size <= PAGE_STREAM && request->room <= PAGE_RETURNS;
    writing.request = *request;
    int error = fetch_descriptors(thread, request->descriptors, fits, &writing.hand);
    if (error || !fits)
        return fits ? error : EINVAL;
    if (request->stream_size)
        page_copy(writing.stream, thread->page->stream, request->stream_size);
    return write_on(thread, &writing);
}

/* Whether a user's process may be the context manager: root's and the daemon's own user's may always, so that nobody who was it first
   keeps them out. Else it is who was chosen, or as with the kernel's driver the user of the one before. */
static bool may_manage(const struct engine *engine, uid_t euid)
{
    const struct daemon *daemon = engine->daemon;
    bool is_chosen = daemon->has_chosen_manager ? euid == daemon->manager : !engine->has_had_manager || euid == engine->manager_euid;
    return is_chosen || user_is_own(euid);
}

/* One that has gone makes room for another; who asks is ended here by nobody but its own turn. */
static int set_manager(struct thread *thread, uint32_t flags)
{
    struct process *process = thread->process;
    struct engine *engine = process->engine;
    uid_t euid;
    if (engine->manager && engine->manager != process && process_has_gone(engine->manager))
        process_end(engine->manager);
    bool may = caller_euid(&process->caller, &euid) && may_manage(engine, euid);
    if (!may && !engine->manager)
        return EPERM;
    int error = engine_set_manager(engine, thread->seat);
    if (!error && engine->answer.kind != HULLPIPPIN_SET)
        return EBUSY;
    if (error)
        return error;
    engine->manager = process;
    hullpippin_live_manager_object(&engine->live, &engine->manager_object);
    engine->manager_euid = euid;
    engine->has_had_manager = true;
    engine->manager_takes_descriptors = flags & PAGE_TAKES_DESCRIPTORS;
    log_event("process %d is the context manager of %s", process->pid, engine->device);
    return 0;
}

static void exit_thread(struct thread *thread)
{
    seat_return(thread);
    thread->pending_size = 0;
    thread->reader.is_prompt = thread->has_looped = false;
}

static int give_doorbell(struct thread *thread)
{
    if (!doorbell_make(thread))
        return EMFILE;
    if (!flight_send(thread, &thread->doorbell_end, 1))
        return EAGAIN;
    thread->answer.descriptors = 1;
    return 0;
}

/* Does what a request asks for: 0 or an errno. Where it has begun a read, `settle` answers. What came with it stays in the link in no case:
   else it would be taken for what comes with the thread's next one. */
static int do_request(struct thread *thread, const struct page_request *request)
{
    bool is_mapped = thread->process->engine_pid;
    if (!is_mapped || request->op != PAGE_WRITE_READ)
        drop_descriptors(thread, request->descriptors);
    if (!is_mapped)
        return EINVAL;
    switch (request->op) {
    case PAGE_EXIT_THREAD:
        return exit_thread(thread), 0;
    case PAGE_WRITE_READ:
        return write_read(thread, request);
    case PAGE_SET_MANAGER:
        return set_manager(thread, request->flags);
    case PAGE_DOORBELL:
        return give_doorbell(thread);
    case PAGE_PLACE:
        flight_look(thread);
        return parcel_place(thread, request->stream_size), 0;
    default:
        return EINVAL;
    }
}

/* Frees what the client gives back without waiting, as much as a turn has time for. What no memory is there for is tried again.
   Whether all are seen to. */
static bool free_buffers(struct thread *thread, uint32_t freed)
{
    struct page *page = thread->page;
    int error = 0;
    bool is_over = false;
    if (freed - thread->freed > PAGE_FREES) /* a lie */
        thread->freed = freed;
    while (thread->freed != freed && !error && !is_over) {
        uint64_t pointer;
        page_copy(&pointer, &page->frees[thread->freed % PAGE_FREES], sizeof pointer);
        error = command_free(thread, pointer);
        thread->freed += !error;
        is_over = turns_is_over(&thread->process->engine->loop.turns);
    }
    atomic_store_explicit(&page->taken, thread->freed, memory_order_release);
    return thread->freed == freed || error;
}

/* A read comes back with what there is, which may be the completion of a call whose reply it waits for. */
static void come_back(struct thread *thread)
{
    struct engine *engine = thread->process->engine;
    int error = hullpippin_live_ready(&engine->live, thread->seat) ? returns_fetch(thread) : 0;
    if (error)
        page_interrupt(thread, error);
    else
        returns_deliver(thread);
    settle_some(engine);
}

_Static_assert(CANCEL_INTERRUPTED == 1 && CANCEL_RETURN == 2, "hullpippin_request_cancels takes a page's word as it is");

/* A thread that was interrupted while its request waits. */
static void cancel(struct thread *thread)
{
    switch (hullpippin_request_cancels(thread->waits.is_reading, atomic_load(&thread->page->cancel))) {
    case HULLPIPPIN_CANCEL_COMES_BACK:
        come_back(thread);
        break;
    case HULLPIPPIN_CANCEL_INTERRUPTS:
        page_interrupt(thread, EINTR);
        break;
    case HULLPIPPIN_CANCEL_REFUSES:
        page_refuse(thread, EINTR);
        break;
    }
}

static bool is_ready(struct thread *thread)
{
    struct engine *engine = thread->process->engine;
    engine->looks++;
    return hullpippin_live_ready(&engine->live, thread->seat);
}

/* How the thread's read begins, as the library says: HULLPIPPIN_READ_WAITS .. */
static uint32_t begin_read(struct thread *thread, uint32_t flags)
{
    uint32_t begins = hullpippin_read_begins(&thread->reader, thread->pending_size, returns_are_there(thread), !(flags & PAGE_NONBLOCK),
                                             is_to_return(thread));
    if (begins != HULLPIPPIN_READ_LOOKS)
        return begins;
    return is_ready(thread) ? HULLPIPPIN_READ_FETCHES : HULLPIPPIN_READ_WAITS;
}

/* It is read until all is there that is told together. */
static int read_at_once(struct thread *thread, uint32_t begins)
{
    int error = begins == HULLPIPPIN_READ_FETCHES ? returns_fetch(thread) : 0;
    while (!error && !returns_are_whole(thread) && is_ready(thread))
        error = returns_fetch(thread);
    return error == EAGAIN ? 0 : error;
}

/* The bridge is told of it once all others are seen to. */
static int begin_to_wait(struct thread *thread)
{
    int error = waiting_note(thread);
    if (error && !thread->waits.is_reading)
        waiting_hear(thread, true); /* nobody would tell: it may look for itself */
    if (thread->process->engine->is_left)
        settle_some(thread->process->engine);
    return error;
}

/* Ends a request as the library says; `error` is what its commands have come to, and `why` its read. */
static void end_request(struct thread *thread, const hullpippin_ending *ending, int error, int why)
{
    switch (hullpippin_request_ends(ending)) {
    case HULLPIPPIN_REQUEST_GOES_ON:
        turns_want(&thread->process->engine->loop.turns, &thread->bell);
        break;
    case HULLPIPPIN_REQUEST_TELLS:
        answer_error(thread, error);
        break;
    case HULLPIPPIN_REQUEST_FAILS:
        page_interrupt(thread, why);
        break;
    case HULLPIPPIN_REQUEST_ANSWERS:
        returns_deliver(thread);
        break;
    case HULLPIPPIN_REQUEST_WOULD_BLOCK:
        page_interrupt(thread, EAGAIN);
        break;
    case HULLPIPPIN_REQUEST_WAITS:
        if (begin_to_wait(thread))
            page_interrupt(thread, ENOMEM);
        break;
    }
}

/* Answers a request that has come to this. All that its steps bring about for others comes before. A read that waits is
   answered by what makes it ready. */
static void answer_request(struct thread *thread, int error, uint32_t flags)
{
    hullpippin_ending ending = {.is_put_off = error == UNDONE, .reads = thread->waits.is_reading, .may_wait = !(flags & PAGE_NONBLOCK)};
    uint32_t begins = ending.reads ? begin_read(thread, flags) : HULLPIPPIN_READ_WAITS;
    ending.is_at_once = begins != HULLPIPPIN_READ_WAITS;
    int why = ending.is_at_once ? read_at_once(thread, begins) : 0;
    settle_some(thread->process->engine);
    if (!ending.is_at_once)
        why = begin_to_wait(thread);
    ending.has_failed = why;
    ending.is_reading = thread->waits.is_reading;
    ending.is_there = ending.is_at_once && returns_are_there(thread);
    ending.is_to_return = is_to_return(thread);
    end_request(thread, &ending, error, why);
    if (ending.reads && thread->waits.is_reading && atomic_load(&thread->page->cancel))
        cancel(thread); /* its ring may have been one with that for the request */
}

static void go_on_writing(struct thread *thread)
{
    uint32_t flags = thread->writing->request.flags;
    int error = write_on(thread, thread->writing);
    if (error != UNDONE) {
        free(thread->writing);
        thread->writing = NULL;
    }
    answer_request(thread, error, flags);
}

/* What is asked for, once the thread has a seat and has given back what it wanted to. */
static void run_asked(struct thread *thread, const struct page_request *request)
{
    thread->answer = (struct page_answer){0};
    int error = do_request(thread, request);
    answer_request(thread, error, request->flags);
}

void page_rung(struct thread *thread)
{
    struct page *page = thread->page;
    struct page_request request;
    descriptors_close_for(thread->process->account);
    if (thread->writing) {
        go_on_writing(thread);
        return;
    }
    if (thread->waits.is_reading || !list_is_empty(&thread->in_seatless)) {
        cancel(thread);
        return;
    }
    bool is_asked = atomic_load_explicit(&page->state, memory_order_acquire) == PAGE_ASKED;
    uint32_t freed = atomic_load_explicit(&page->freed, memory_order_acquire);
    if (is_asked)
        page_copy(&request, &page->request, sizeof request);
    if (!is_asked && freed == thread->freed)
        return;
    bool steps = !is_asked || request.op != PAGE_PLACE; /* numbers are placed without a seat */
    if (thread->process->engine_pid && steps) {
        if (!seat_lend(thread)) {
            thread->answer = (struct page_answer){0};
            seat_await(thread);
            return;
        }
        if (!free_buffers(thread, freed)) {
            settle_some(thread->process->engine);
            turns_want(&thread->process->engine->loop.turns, &thread->bell);
            return;
        }
    }
    if (is_asked)
        run_asked(thread, &request);
    else
        settle_some(thread->process->engine);
}
