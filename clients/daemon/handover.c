/* SPDX-License-Identifier: Apache-2.0 OR MIT */
/*
 * handover.c: the thread of a device, and how clients come to it. The daemon's first thread takes connections; once one says which
 * device it opens, it goes to that one's thread, which has all of it from then on. Devices share nothing but what is counted in
 * shares.c.
 */
#include "objects.h"

#include <malloc.h>
#include <sys/epoll.h>
#include <sys/eventfd.h>
#include <sys/mman.h>
#include <unistd.h>

/* Thread-local memory and what a turn needs are small; most of this is never touched. */
#define STACK_BYTES ((size_t)1 << 20)

/* After so many bytes of parcels there may be memory that is worth to be given back. */
#define LARGE_BYTES (1u << 20)

static void ring(struct engine *engine)
{
    const uint64_t one = 1;
    if (write(engine->inbox.bell.fd, &one, sizeof one) != sizeof one)
        log_event("%s: the bell is full", engine->device); /* then it rings already */
}

static bool is_asked_to_stop(struct engine *engine)
{
    pthread_mutex_lock(&engine->inbox.lock);
    bool stops = engine->inbox.is_to_stop;
    pthread_mutex_unlock(&engine->inbox.lock);
    return stops;
}

static struct process *next_handed_over(struct engine *engine)
{
    struct process *process = NULL;
    pthread_mutex_lock(&engine->inbox.lock);
    if (!list_is_empty(&engine->inbox.processes)) {
        process = container_of(engine->inbox.processes.next, struct process, in_engine);
        list_remove(&process->in_engine);
    }
    pthread_mutex_unlock(&engine->inbox.lock);
    return process;
}

static void inbox_ready(struct watch *watch)
{
    struct engine *engine = container_of(watch, struct engine, inbox.bell);
    struct process *process;
    uint64_t times;
    if (read(watch->fd, &times, sizeof times) != sizeof times)
        return;
    while ((process = next_handed_over(engine)))
        process_arrive(process);
    if (is_asked_to_stop(engine))
        engine->loop.is_stopped = true;
}

/* Ends a client of a device that is over. */
static void end_one(struct engine *engine)
{
    if (list_is_empty(&engine->processes))
        engine->loop.is_stopped = true;
    else
        process_end(container_of(engine->processes.next, struct process, in_engine));
}

/* What there isn't to be done between most turns: the end of a client of a device that is over; or else a look at some. */
static __attribute__((noinline)) bool see_to_rest(struct engine *engine)
{
    if (engine->is_over) {
        end_one(engine);
        return true;
    }
    bool has_more = settle_some(engine);
    turns_note_time(&engine->loop.turns);
    return has_more;
}

static bool between(void *context)
{
    struct engine *engine = context;
    bool has_more = (engine->is_over || engine->is_left) && see_to_rest(engine);
    ring_put_turns(engine);
    return has_more;
}

static void give_memory_back(struct engine *engine)
{
    if (engine->copied - engine->trimmed > LARGE_BYTES) {
        malloc_trim(0);
        madvise(engine->bench, sizeof *engine->bench, MADV_DONTNEED);
    }
    engine->trimmed = engine->copied;
}

static bool idle(void *context)
{
    struct engine *engine = context;
    engine->rests++;
    engine->left_idle += hullpippin_bridge_suspects(&engine->live);
    seats_regain(engine);
    seats_refuse(engine);
    give_memory_back(engine);
    engine_begin_anew(engine);
    reserve_regain(engine);
    return engine->lost_count > 0 || engine->uses_reserve;
}

/* Nobody comes any more; who has come meanwhile is told by the end of the connection. */
static void close_inbox(struct engine *engine)
{
    pthread_mutex_lock(&engine->inbox.lock);
    engine->inbox.is_closed = true;
    pthread_mutex_unlock(&engine->inbox.lock);
    struct process *process;
    while ((process = next_handed_over(engine)))
        process_arrive(process);
}

static void *run(void *with)
{
    struct engine *engine = with;
    if (!loop_run(&engine->loop))
        engine_end(engine, "it can't wait");
    close_inbox(engine);
    while (!list_is_empty(&engine->processes))
        process_end(container_of(engine->processes.next, struct process, in_engine));
    engine_conclude(engine);
    return NULL;
}

bool engine_start(struct engine *engine)
{
    struct inbox *inbox = &engine->inbox;
    pthread_attr_t attributes;
    list_begin(&inbox->processes);
    pthread_mutex_init(&inbox->lock, NULL);
    inbox->bell = (struct watch){.fd = eventfd(0, EFD_CLOEXEC | EFD_NONBLOCK), .ready = inbox_ready};
    if (!loop_begin(&engine->loop) || inbox->bell.fd < 0 || !loop_add(&engine->loop, &inbox->bell, EPOLLIN))
        return false;
    engine->loop.between = between;
    engine->loop.idle = idle;
    engine->loop.context = engine;
    pthread_attr_init(&attributes);
    pthread_attr_setstacksize(&attributes, STACK_BYTES);
    engine->has_thread = pthread_create(&engine->thread, &attributes, run, engine) == 0;
    pthread_attr_destroy(&attributes);
    return engine->has_thread;
}

void engine_stop(struct engine *engine)
{
    if (engine->has_thread) {
        pthread_mutex_lock(&engine->inbox.lock);
        engine->inbox.is_to_stop = true;
        pthread_mutex_unlock(&engine->inbox.lock);
        ring(engine);
        pthread_join(engine->thread, NULL);
    }
    if (engine->inbox.bell.fd >= 0)
        loop_drop(&engine->loop, &engine->inbox.bell);
    loop_end(&engine->loop);
}

bool engine_hand_over(struct engine *engine, struct process *process)
{
    pthread_mutex_lock(&engine->inbox.lock);
    bool is_open = !engine->inbox.is_closed;
    if (is_open)
        list_append(&engine->inbox.processes, &process->in_engine);
    pthread_mutex_unlock(&engine->inbox.lock);
    if (is_open)
        ring(engine);
    return is_open;
}
