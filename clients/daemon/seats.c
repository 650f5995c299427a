/* SPDX-License-Identifier: Apache-2.0 OR MIT */
/*
 * seats.c: a thread has a seat from its first request on, until it ends. Where all seats are lent, that of a thread
 * about which the engine has nothing to remember goes to another.
 */
#include "daemon.h"

#include <errno.h>

/* The seat is a thread's from the next step on, or nobody's: of that step it is told already, beside a journal and in the ring, whose
   it is. */
static void note(struct engine *engine, uint32_t seat, struct thread *thread)
{
    engine->lent[seat] = thread;
    journal_note_seat(&engine->journal, &engine->live, seat, thread ? thread->process->pid : 0, thread ? &thread->name : NULL);
}

static void count_lent(struct engine *engine, bool is_one_more)
{
    engine->lent_count += is_one_more ? 1u : -1u;
    ring_count_lent(&engine->ring, engine->lent_count);
}

/* The thread has no seat any more, and nothing is to be looked at for it. */
static void take_away(struct thread *thread)
{
    sendings_end(thread);
    note(thread->process->engine, thread->seat, NULL);
    count_lent(thread->process->engine, false);
    waiting_forget(thread);
    thread->seat = NO_SEAT;
    thread->waits.has_seat = false;
    thread->is_looper = false;
    thread->reader = (hullpippin_reader){0};
    doorbell_set(thread, false);
}

static void put_back(struct thread *thread)
{
    struct engine *engine = thread->process->engine;
    engine->free_seats[engine->free_count++] = thread->seat;
    take_away(thread);
}

static void lose(struct engine *engine, uint32_t seat)
{
    log_line("%s: seat %u is lost until there is memory", engine->device, seat);
    engine->lost_seats[engine->lost_count++] = seat;
}

/* Whether the thread would lose nothing with its seat. */
static bool is_idle(struct engine *engine, const struct thread *thread)
{
    return !thread->is_looper && !thread->reader.serving && !thread->reader.calling && !thread->waits.is_reading && thread->doorbell < 0
           && !thread->pending_size && !thread->writing && !hullpippin_live_ready(&engine->live, thread->seat);
}

/* Takes the seat of an idle thread back. False where there is none, or it is lost. */
static bool recycle(struct engine *engine)
{
    for (uint32_t seat = 1; seat < engine->seats; seat++) {
        struct thread *thread = engine->lent[seat];
        if (thread && is_idle(engine, thread)) {
            log_event("%s: seat %u is recycled", engine->device, seat);
            seat_return(thread);
            return engine->free_count > 0;
        }
    }
    return false;
}

/* Has the thread attach with a seat, which is its own from that step on, where it comes off. */
static bool attach(struct thread *thread, uint32_t seat)
{
    struct process *process = thread->process;
    struct engine *engine = process->engine;
    name_find(&thread->name, &process->caller, thread->told_tid);
    note(engine, seat, thread);
    if (engine_attach(engine, seat, process->engine_pid)) {
        note(engine, seat, NULL);
        return false;
    }
    engine->free_count--;
    if (engine->answer.kind != HULLPIPPIN_OPENED) { /* a process has it that couldn't be ended for want of memory */
        note(engine, seat, NULL);
        lose(engine, seat);
        return false;
    }
    count_lent(engine, true);
    thread->waits.has_seat = true;
    thread->seat = seat;
    return true;
}

static __attribute__((noinline)) bool lend(struct thread *thread)
{
    struct engine *engine = thread->process->engine;
    if (!engine->free_count && !recycle(engine)) {
        log_event("%s: all %u seats are busy", engine->device, engine->seats - 1);
        return false;
    }
    return attach(thread, engine->free_seats[engine->free_count - 1]);
}

bool seat_lend(struct thread *thread)
{
    return thread->seat != NO_SEAT || lend(thread);
}

void seat_await(struct thread *thread)
{
    if (list_is_empty(&thread->in_seatless))
        list_append(&thread->process->engine->seatless, &thread->in_seatless);
}

static struct thread *first_seatless(struct engine *engine)
{
    return list_is_empty(&engine->seatless) ? NULL : container_of(engine->seatless.next, struct thread, in_seatless);
}

static __attribute__((noinline)) void lend_to_seatless(struct engine *engine)
{
    struct thread *thread;
    while ((thread = first_seatless(engine)) && (thread->process->is_ending || seat_lend(thread))) {
        list_remove(&thread->in_seatless);
        turns_want(&engine->loop.turns, &thread->bell);
    }
}

void seats_retry(struct engine *engine)
{
    if (!list_is_empty(&engine->seatless))
        lend_to_seatless(engine);
}

/* Whose process has ended meanwhile has no thread any more, and the engine says so. */
void seats_regain(struct engine *engine)
{
    uint32_t lost = engine->lost_count;
    while (engine->lost_count && !engine_exit_thread(engine, engine->lost_seats[engine->lost_count - 1]))
        engine->free_seats[engine->free_count++] = engine->lost_seats[--engine->lost_count];
    if (engine->lost_count == lost)
        return;
    log_line("%s: %u lost seats are back", engine->device, lost - engine->lost_count);
    settle_some(engine);
    seats_retry(engine);
}

void seats_refuse(struct engine *engine)
{
    struct thread *thread;
    while ((thread = first_seatless(engine)))
        page_refuse(thread, EMFILE);
}

void seat_return(struct thread *thread)
{
    struct engine *engine = thread->process->engine;
    if (thread->seat == NO_SEAT)
        return;
    /* Without memory the engine keeps the thread, and the seat with it. */
    if (engine_exit_thread(engine, thread->seat)) {
        lose(engine, thread->seat);
        take_away(thread);
        return;
    }
    put_back(thread);
}

void seat_forget(struct thread *thread)
{
    if (thread->seat != NO_SEAT)
        put_back(thread);
}
