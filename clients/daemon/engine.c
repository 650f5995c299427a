/* SPDX-License-Identifier: Apache-2.0 OR MIT */
/*
 * engine.c: the engine of one device name. All steps are made here, and each goes to the journal.
 */
#include "objects.h"

#include <errno.h>
#include <malloc.h>
#include <stdlib.h>
#include <string.h>
#include <sys/mman.h>

static bool make_seats(struct engine *engine, uint32_t seats)
{
    engine->seats = seats;
    engine->lent = calloc(seats, sizeof *engine->lent);
    engine->free_seats = calloc(seats, sizeof *engine->free_seats);
    engine->lost_seats = calloc(seats, sizeof *engine->lost_seats);
    if (!engine->lent || !engine->free_seats || !engine->lost_seats)
        return false;
    for (uint32_t seat = seats - 1; seat > 0; seat--)
        engine->free_seats[engine->free_count++] = seat;
    return true;
}

static bool begin_journal(struct engine *engine, struct device *device)
{
    return !device->journal || journal_open(&engine->journal, device, &engine->live, engine->seats);
}

struct engine *engine_new(struct daemon *daemon, struct device *device)
{
    struct engine *engine = calloc(1, sizeof *engine);
    if (!engine)
        return NULL;
    engine->daemon = daemon;
    engine->inbox.bell.fd = engine->loop.epoll = -1;
    void *bytes = mmap(NULL, sizeof(struct workbench), PROT_READ | PROT_WRITE, MAP_PRIVATE | MAP_ANONYMOUS | MAP_NORESERVE, -1, 0);
    engine->bench = bytes == MAP_FAILED ? NULL : bytes;
    snprintf(engine->device, sizeof engine->device, "%s", device->name);
    list_begin(&engine->processes);
    list_begin(&engine->seatless);
    list_begin(&engine->woken);
    list_begin(&engine->touched);
    list_begin(&engine->clearing);
    for (size_t i = 0; i < sizeof engine->by_pid / sizeof *engine->by_pid; i++)
        list_begin(&engine->by_pid[i]);
    if (!ring_make(&engine->ring, engine->device, daemon->seats))
        log_line("%s: there is no memory for the latest steps, and nobody can look at them", engine->device);
    if (engine->bench && reserve_take(engine) && sent_all_begin(&engine->sent)
        && hullpippin_tickets_new(&engine->tickets) == HULLPIPPIN_DONE && make_seats(engine, daemon->seats)
        && hullpippin_bridge_new(engine->seats, &engine->live) == HULLPIPPIN_DONE && begin_journal(engine, device) && engine_start(engine))
        return engine;
    engine_free(engine);
    return NULL;
}

/* What the tests judge where they have no clock. */
static void tell_counts(struct engine *engine)
{
    const struct turns *turns = &engine->loop.turns;
    log_line("%s: %llu steps", engine->device, (unsigned long long)engine->steps);
    log_line("%s: turns %llu, longest %u steps, waited %llu turns, looks %llu, copied %llu, took %llu us at most", engine->device,
             (unsigned long long)turns->count, turns->longest_turn, (unsigned long long)turns->longest_wait,
             (unsigned long long)engine->looks, (unsigned long long)engine->copied, (unsigned long long)turns->longest_time / 1000);
}

void engine_conclude(struct engine *engine)
{
    if (!journal_close(&engine->journal, &engine->live))
        engine->daemon->has_failed = true;
    ring_conclude(&engine->ring);
    tell_counts(engine);
    hullpippin_free_live(&engine->live);
    reserve_free(engine);
}

void engine_free(struct engine *engine)
{
    engine_stop(engine);
    if (engine->live.at)
        engine_conclude(engine);
    tickets_end_all(engine);
    sent_all_end(&engine->sent);
    reserve_free(engine);
    ring_free(&engine->ring);
    if (engine->bench)
        munmap(engine->bench, sizeof *engine->bench);
    free(engine->lent);
    free(engine->free_seats);
    free(engine->lost_seats);
    free(engine);
}

/* So many steps of a device that nobody has open aren't worth it. */
#define STEPS_WORTH 4096u

/* Seats that were lost are free in a new engine. */
static void find_lost_seats(struct engine *engine)
{
    while (engine->lost_count)
        engine->free_seats[engine->free_count++] = engine->lost_seats[--engine->lost_count];
}

void engine_begin_anew(struct engine *engine)
{
    bool is_worth_it = hullpippin_live_len(&engine->live) > STEPS_WORTH && !engine->journal.recorder && !engine->is_over;
    if (!is_worth_it || !list_is_empty(&engine->processes))
        return;
    engine->before += hullpippin_live_len(&engine->live);
    hullpippin_free_live(&engine->live);
    if (hullpippin_bridge_new(engine->seats, &engine->live) != HULLPIPPIN_DONE) {
        reserve_use(engine);
        if (hullpippin_bridge_new(engine->seats, &engine->live) != HULLPIPPIN_DONE) {
            engine_end(engine, "there is no memory for a new engine");
            return;
        }
    }
    find_lost_seats(engine);
    malloc_trim(0);
    log_event("%s: nobody has it open, and it begins anew", engine->device);
}

void engine_end(struct engine *engine, const char *why)
{
    if (!engine->is_over)
        log_line("%s: %s, the device ends", engine->device, why);
    engine->is_over = true;
    engine->daemon->has_failed = true;
}

static void count_step(struct engine *engine)
{
    engine->steps++;
    turns_count_step(&engine->loop.turns);
}

/* Of a recording nobody has more than a share: who asks for more waits, and all others' steps find room there. What is sent counts for who
   sends it, also once more as it is read. */
static void record(struct engine *engine, const struct step *step, uint64_t time)
{
    size_t size = journal_append(&engine->journal, &engine->live, time);
    if (!size || step->kind != RING_COMMAND)
        return;
    const struct recording recording = recorder_look(engine->journal.recorder);
    const struct payer *payer = turns_count_recorded(&engine->loop.turns, 2 * size, &recording, time);
    if (payer)
        log_line_at_once("%s: account %llu records more than its share of %llu MiB that are left, and has to wait", engine->journal.path,
                         (unsigned long long)payer->account, (unsigned long long)recording.left >> 20);
}

/* Keeps what was done, for who asks later and who looks now. */
static void tell_step(struct engine *engine, const struct step *step)
{
    uint64_t time = turns_read_clock(&engine->loop.turns);
    if (engine->journal.recorder)
        record(engine, step, time);
    if (engine->ring.heading)
        ring_put(engine, step, time);
}

/* What a step's status is for the client; a step that was made goes to the journal and the ring. A history is full by a handle behind the
   last of its process: no device makes 2^64 steps. */
static int stepped(struct engine *engine, const struct step *step, uint32_t status)
{
    if (status != HULLPIPPIN_DONE)
        return status == HULLPIPPIN_NO_MEMORY || status == HULLPIPPIN_HISTORY_FULL ? ENOMEM : EINVAL; /* NO_COMMAND */
    tell_step(engine, step);
    count_step(engine);
    engine->is_left = true; /* the bridge may have somebody to look at */
    return 0;
}

/* A buffer ends by being given back, which is a command, and with a thread or a process. Which ones have, the library says. */
static int stepped_to_end(struct engine *engine, const struct step *step, uint32_t status)
{
    int error = stepped(engine, step, status);
    if (!error)
        sent_see_ended(engine);
    return error;
}

int engine_open(struct engine *engine, uint32_t seat, uint32_t pid, uint32_t euid, uint32_t window)
{
    const struct step step = {.kind = RING_OPEN, .seat = seat, .pid = pid, .euid = euid, .window = window};
    return stepped(engine, &step, hullpippin_live_open(&engine->live, seat, pid, euid, window, &engine->answer));
}

int engine_attach(struct engine *engine, uint32_t seat, uint32_t pid)
{
    const struct step step = {.kind = RING_ATTACH, .seat = seat, .pid = pid};
    return stepped(engine, &step, hullpippin_live_attach(&engine->live, seat, pid, &engine->answer));
}

int engine_pass(struct engine *engine)
{
    engine->answer = (hullpippin_answer){.kind = HULLPIPPIN_WROTE};
    return 0;
}

int engine_set_manager(struct engine *engine, uint32_t seat)
{
    const struct step step = {.kind = RING_SET_MANAGER, .seat = seat};
    return stepped(engine, &step, hullpippin_live_manager(&engine->live, seat, &engine->answer));
}

int engine_set_spam(struct engine *engine, uint32_t seat, bool on)
{
    const struct step step = {.kind = RING_SET_SPAM, .seat = seat, .on = on};
    return stepped(engine, &step, hullpippin_live_set_spam(&engine->live, seat, on, &engine->answer));
}

/* With what a thread leaves unread, handles of its process may go. */
int engine_exit_thread(struct engine *engine, uint32_t seat)
{
    const struct step step = {.kind = RING_EXIT_THREAD, .seat = seat};
    int error = stepped_to_end(engine, &step, hullpippin_live_exit_thread(&engine->live, seat, &engine->answer));
    if (!error && engine->lent[seat])
        engine->lent[seat]->process->objects_let_go++;
    return error;
}

int engine_exit_process(struct engine *engine, uint32_t seat)
{
    const struct step step = {.kind = RING_EXIT_PROCESS, .seat = seat};
    return stepped_to_end(engine, &step, hullpippin_live_exit_process(&engine->live, seat, &engine->answer));
}

/* Fetches what was read. A page has room for no more than there is for it here. */
static void fetch_returns(struct engine *engine, bool are_there)
{
    size_t size = are_there ? hullpippin_live_bytes(&engine->live, HULLPIPPIN_STREAM, engine->returns, sizeof engine->returns) : 0;
    engine->returns_size = size <= sizeof engine->returns ? (uint32_t)size : 0;
}

int engine_read(struct engine *engine, uint32_t seat, uint32_t limit)
{
    const struct step step = {.kind = RING_READ, .seat = seat, .limit = limit};
    uint32_t status = hullpippin_live_read(&engine->live, seat, limit, &engine->answer);
    fetch_returns(engine, status == HULLPIPPIN_DONE && engine->answer.kind == HULLPIPPIN_GOT);
    return stepped(engine, &step, status);
}

/* The bridge looks at so many in one call, where none of them is to be told anything. */
#define LOOKS_OF_ONE_CALL 8u

int engine_look(struct engine *engine, hullpippin_signal *signal)
{
    struct step step = {.kind = RING_READ};
    int error = 0;
    engine->looks++;
    hullpippin_bridge_settle(&engine->live, LOOKS_OF_ONE_CALL, signal);
    if (signal->kind == HULLPIPPIN_SIGNAL_READ) {
        step.seat = signal->seat;
        step.limit = engine->lent[signal->seat]->waits.told.limit;
        engine->answer = signal->answer;
        fetch_returns(engine, signal->status == HULLPIPPIN_DONE && signal->answer.kind == HULLPIPPIN_GOT);
        error = stepped(engine, &step, signal->status);
    }
    engine->is_left = signal->is_left;
    return error;
}

int engine_command(struct engine *engine, uint32_t seat, const void *command, size_t size)
{
    const struct step step = {.kind = RING_COMMAND, .seat = seat, .command = command};
    return stepped_to_end(engine, &step, hullpippin_live_command(&engine->live, seat, command, size, HULLPIPPIN_NOWHERE, 0,
                                                                HULLPIPPIN_NOWHERE, 0, &engine->answer));
}

int engine_call(struct engine *engine, uint32_t seat, const struct target *target, const void *command, size_t size, const uint8_t *data,
                size_t data_size, const uint8_t *offsets, size_t offsets_size)
{
    const struct step step = {.kind = RING_COMMAND, .seat = seat, .command = command, .data = data, .data_size = data_size, .target = target};
    return stepped(engine, &step, hullpippin_live_command(&engine->live, seat, command, size,
                                                         data_size ? data : HULLPIPPIN_NOWHERE, data_size,
                                                         offsets_size ? offsets : HULLPIPPIN_NOWHERE, offsets_size,
                                                         &engine->answer));
}
