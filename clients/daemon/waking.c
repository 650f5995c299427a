/* SPDX-License-Identifier: Apache-2.0 OR MIT */
/*
 * waking.c: does what the bridge tells: answers reads with what was read for them, and rings doorbells. Proved is that whoever waits is informed
 * where it says that nobody is left to be looked at (docs/PROMISES.md, "For bridges"). What the bridge knows nothing of is seen to here: what
 * one thread's read has brought for another, and death notifications that were taken back for a process.
 */
#include "daemon.h"

#include <errno.h>

/* So many looks, each at one thread, are made whatever they take, in a turn and between two; further ones while the turn has time. Who is
   left is looked at later. */
#define LOOKS_AT_ONCE 16

/* It is answered once the doorbells of its process are right. */
static void queue(struct thread *thread)
{
    thread->waits.is_woken = true;
    if (list_is_empty(&thread->in_woken))
        list_append(&thread->process->engine->woken, &thread->in_woken);
}

/* Does with a thread what the library says: 0 or an errno. `error` is what it fails with. */
static int do_with(struct thread *thread, uint32_t doing, int error)
{
    switch (doing) {
    case HULLPIPPIN_DO_NOTE:
        return waiting_note(thread);
    case HULLPIPPIN_DO_ANSWER:
        return returns_deliver(thread), 0;
    case HULLPIPPIN_DO_QUEUE:
        return queue(thread), 0;
    case HULLPIPPIN_DO_FAIL:
        return error;
    default:
        return 0;
    }
}

static void answer_woken(struct engine *engine)
{
    while (!list_is_empty(&engine->woken)) {
        struct thread *thread = container_of(engine->woken.next, struct thread, in_woken);
        list_remove(&thread->in_woken);
        returns_deliver(thread);
    }
}

void settle_touch(struct thread *thread)
{
    if (!thread->process->is_ending && list_is_empty(&thread->in_touched))
        list_append(&thread->process->engine->touched, &thread->in_touched);
}

void settle_clear(struct process *process)
{
    if (!process->is_ending && list_is_empty(&process->in_clearing))
        list_append(&process->engine->clearing, &process->in_clearing);
}

/* It may have all that it waits for by what another has read. */
static void see_to_touched(struct thread *thread)
{
    list_remove(&thread->in_touched);
    int error = do_with(thread, hullpippin_waits_touched(&thread->waits, returns_are_whole(thread), thread->process->pollers), 0);
    if (error && thread->waits.is_reading)
        page_interrupt(thread, error);
    waiting_ring(thread);
}

/* Who reads next there is told. */
static void see_to_cleared(struct process *process)
{
    struct thread *thread;
    list_remove(&process->in_clearing);
    while (process->cleared.count && (thread = waiting_first(process))
           && hullpippin_waits_answered(&thread->waits, returns_are_there(thread)))
        returns_deliver(thread);
    waiting_ring_all(process, process->rings);
}

static __attribute__((noinline)) void see_to_each(struct engine *engine)
{
    while (!list_is_empty(&engine->touched))
        see_to_touched(container_of(engine->touched.next, struct thread, in_touched));
    while (!list_is_empty(&engine->clearing))
        see_to_cleared(container_of(engine->clearing.next, struct process, in_clearing));
}

static void see_to_others(struct engine *engine)
{
    if (!list_is_empty(&engine->touched) || !list_is_empty(&engine->clearing))
        see_to_each(engine);
}

static uint32_t taken(const struct thread *thread, int error, bool wakes, bool is_behind)
{
    uint32_t outcome = !error ? HULLPIPPIN_TOOK_SOMETHING : error == EAGAIN ? HULLPIPPIN_TOOK_NOTHING : HULLPIPPIN_TOOK_FAILED;
    return hullpippin_waits_taken(outcome, wakes, is_behind, !thread->pending_size, thread->process->pollers);
}

/* What was read for a thread. */
static void take_read(struct thread *thread, bool wakes, int error)
{
    if (wakes)
        waiting_woken(thread);
    if (!error)
        error = returns_take(thread);
    uint32_t doing = taken(thread, error, wakes, thread->reader.is_behind);
    if (doing == HULLPIPPIN_DO_FETCH) {
        returns_fetch_sent(thread);
        doing = taken(thread, error, wakes, false);
    }
    error = do_with(thread, doing, error);
    if (error)
        page_interrupt(thread, error);
}

static uint32_t heard(const struct thread *thread, bool rings)
{
    const hullpippin_facts facts = returns_facts(thread);
    return hullpippin_waits_heard(&thread->waits, &facts, rings, returns_are_there(thread));
}

/* The bridge has told that a thread's doorbell rings, or is silent. */
static void hear(struct thread *thread, bool rings)
{
    uint32_t doing = heard(thread, rings);
    if (doing == HULLPIPPIN_HEARD_FULL) {
        thread->reader.is_full = true;
        returns_deliver(thread);
        doing = heard(thread, rings);
    }
    if (doing == HULLPIPPIN_HEARD_FETCHES && !returns_fetch_deferred(thread))
        waiting_hear_anew(thread);
    else
        waiting_hear(thread, rings);
}

/* Looks at one of those who may have something. */
static void look(struct engine *engine)
{
    hullpippin_signal signal;
    int error = engine_look(engine, &signal);
    if (signal.kind == HULLPIPPIN_SIGNAL_READ)
        take_read(engine->lent[signal.seat], signal.wakes, error);
    else if (signal.kind == HULLPIPPIN_SIGNAL_BELL)
        hear(engine->lent[signal.seat], signal.rings);
}

bool settle_some(struct engine *engine)
{
    see_to_others(engine);
    engine->is_left = engine->is_left && hullpippin_bridge_suspects(&engine->live);
    for (int looks = 0; engine->is_left; looks++) {
        if (looks >= LOOKS_AT_ONCE && turns_is_over(&engine->loop.turns))
            break;
        look(engine);
        see_to_others(engine);
    }
    answer_woken(engine);
    return engine->is_left;
}
