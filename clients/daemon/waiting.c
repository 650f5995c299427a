/* SPDX-License-Identifier: Apache-2.0 OR MIT */
/*
 * waiting.c: tells the bridge who waits (include/hullpippin.h, "Bridges"), as the library says ("Waiting threads"). It is told of each thread that
 * reads or polls, but of idle ones, which are in the loop, serve nothing and are in no call, of one of a process alone, its herald: what comes for
 * any of them comes to the process (docs/RULES.md, "Work items and reading"), so that one is ready where another is.
 */
#include "daemon.h"

#include <errno.h>

/* Whether it has something to read that isn't the process's. */
static bool has_own(const struct thread *thread)
{
    hullpippin_work work;
    return hullpippin_live_unread_of_thread(&thread->process->engine->live, thread->seat, 0, &work);
}

/* The same where that is asked; of who has no doorbell it need not be. */
static bool may_have_own(const struct thread *thread)
{
    return thread->waits.polls && has_own(thread);
}

/* Whether it is to be looked at the bridge has found by now. */
static void note_left(struct engine *engine)
{
    engine->is_left = engine->is_left || hullpippin_bridge_suspects(&engine->live);
}

static uint32_t tell_read(struct thread *thread)
{
    struct engine *engine = thread->process->engine;
    hullpippin_waits *waits = &thread->waits;
    uint32_t status = hullpippin_bridge_wait(&engine->live, thread->seat, waits->calls.limit, waits->calls.defers);
    if (status != HULLPIPPIN_DONE)
        return status;
    note_left(engine);
    waits->calls.reads = false;
    waits->told.reads = true;
    waits->told.limit = waits->calls.limit;
    waits->told.defers = waits->calls.defers;
    return HULLPIPPIN_DONE;
}

static uint32_t tell_bell(struct thread *thread)
{
    struct engine *engine = thread->process->engine;
    uint32_t status = hullpippin_bridge_give_doorbell(&engine->live, thread->seat);
    if (status != HULLPIPPIN_DONE)
        return status;
    note_left(engine);
    thread->waits.calls.gives_bell = false;
    thread->waits.told.has_bell = true;
    thread->waits.rings = false;
    return HULLPIPPIN_DONE;
}

/* What the bridge was told by these the library has taken back already. */
static void tell_no_more(struct thread *thread)
{
    hullpippin_live *live = &thread->process->engine->live;
    hullpippin_calls *calls = &thread->waits.calls;
    if (calls->stops_waiting) {
        hullpippin_bridge_stop_waiting(live, thread->seat);
        thread->waits.rings = false;
    }
    if (calls->stops_reading)
        hullpippin_bridge_stop_reading(live, thread->seat);
    calls->stops_waiting = calls->stops_reading = false;
}

/* Makes the calls of the bridge that are still to be made. */
static uint32_t try_to_tell(struct thread *thread)
{
    const hullpippin_calls *calls = &thread->waits.calls;
    tell_no_more(thread);
    uint32_t status = calls->gives_bell ? tell_bell(thread) : HULLPIPPIN_DONE;
    return calls->reads && status == HULLPIPPIN_DONE ? tell_read(thread) : status;
}

static int tell(struct thread *thread)
{
    if (try_to_tell(thread) == HULLPIPPIN_DONE)
        return 0;
    reserve_use(thread->process->engine);
    return try_to_tell(thread) == HULLPIPPIN_DONE ? 0 : ENOMEM;
}

/* --- Doorbells. --- */

void waiting_ring(struct thread *thread)
{
    if (thread->doorbell >= 0)
        doorbell_set(thread, hullpippin_waits_ring(&thread->waits, thread->process->rings, returns_are_there(thread)));
}

void waiting_ring_all(struct process *process, bool rings)
{
    process->rings = rings;
    if (!process->pollers)
        return;
    for (struct list *entry = process->idle.next; entry != &process->idle; entry = entry->next)
        waiting_ring(container_of(entry, struct thread, in_idle));
}

void waiting_hear(struct thread *thread, bool rings)
{
    thread->waits.rings = rings;
    if (thread->waits.is_herald)
        waiting_ring_all(thread->process, rings);
    waiting_ring(thread);
}

void waiting_hear_anew(struct thread *thread)
{
    const hullpippin_facts facts = returns_facts(thread);
    hullpippin_waits_tell_anew(&thread->waits, &facts, thread->reader.calling, may_have_own(thread));
    if (tell(thread))
        thread->waits.rings = true; /* nobody would tell: it may look for itself */
    waiting_ring(thread);
}

/* --- Idle threads. --- */

struct thread *waiting_first(const struct process *process)
{
    return list_is_empty(&process->idle) ? NULL : container_of(process->idle.next, struct thread, in_idle);
}

static void leave_idle(struct thread *thread)
{
    list_remove(&thread->in_idle);
    if (thread->process->herald == thread)
        thread->process->herald = NULL;
    thread->waits.is_idle = thread->waits.is_herald = false;
}

static void join_idle(struct thread *thread, uint32_t place)
{
    struct process *process = thread->process;
    if (place == HULLPIPPIN_PLACE_FIRST)
        list_append(process->idle.next, &thread->in_idle);
    else if (place == HULLPIPPIN_PLACE_LAST)
        list_append(&process->idle, &thread->in_idle);
}

/* Another one is the herald. */
static void retire(struct thread *thread)
{
    hullpippin_waits_hand_over(&thread->waits, has_own(thread));
    if (!thread->waits.is_idle)
        list_remove(&thread->in_idle);
    tell(thread);
}

static int take_over(struct thread *thread)
{
    const hullpippin_facts facts = returns_facts(thread);
    hullpippin_waits_take_over(&thread->waits, &facts, thread->reader.calling, may_have_own(thread));
    return tell(thread);
}

/* There is no memory for telling of the herald: that is tried again, and then its read is answered so; and who polls may look for itself. */
static void lose_herald(struct process *process)
{
    if (process->herald->waits.is_reading)
        settle_touch(process->herald);
    else
        waiting_ring_all(process, true);
}

/* Of the one for whom it is done the caller tells the bridge. */
static void choose_herald(struct process *process, const struct thread *noted)
{
    struct thread *first = waiting_first(process), *before = process->herald;
    if (!first || !hullpippin_waits_herald_changes(first == before, process->is_ending))
        return;
    process->herald = first;
    waiting_ring_all(process, first->waits.rings); /* it may be the same one again */
    if (before)
        retire(before);
    if (first != noted && take_over(first))
        lose_herald(process);
}

int waiting_note(struct thread *thread)
{
    struct process *process = thread->process;
    const hullpippin_facts facts = returns_facts(thread);
    leave_idle(thread);
    join_idle(thread, hullpippin_waits_note(&thread->waits, &facts, thread->reader.calling, may_have_own(thread), list_is_empty(&process->idle),
                                            process->is_ending));
    choose_herald(process, thread);
    return tell(thread);
}

void waiting_stop(struct thread *thread)
{
    hullpippin_waits *waits = &thread->waits;
    waits->is_reading = waits->is_woken = false;
    list_remove(&thread->in_woken);
    if (!waits->told.reads && !waits->told.has_bell && !waits->polls && !waits->is_idle)
        return; /* there is nothing to be told */
    if (waiting_note(thread))
        waits->rings = true; /* nobody would tell: it may look for itself */
}

void waiting_woken(struct thread *thread)
{
    thread->waits.told.reads = false;
    leave_idle(thread);
    choose_herald(thread->process, thread);
}

void waiting_forget(struct thread *thread)
{
    leave_idle(thread);
    if (thread->seat != NO_SEAT)
        hullpippin_bridge_stop_waiting(&thread->process->engine->live, thread->seat);
    thread->waits.told = (hullpippin_told){0};
    thread->waits.rings = false;
    choose_herald(thread->process, thread);
}
