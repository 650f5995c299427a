/* SPDX-License-Identifier: Apache-2.0 OR MIT */
/* Requests by the steps of a live engine, a write command by command. */
#include "refusals.h"
#include "run.h"
#include "space.h"

enum { MOST_STREAM = 4096, HEADING = 16, UNTOLD = 7777 };

/* ---- what comes behind each step */

static uint32_t write_heading(struct run *run, uint32_t count)
{
    size_t size = 0;
    uint32_t status = hullpippin_live_heading(&run->live, count, run->journal, HEADING, &size);
    if (size != (status == HULLPIPPIN_DONE ? HEADING : 0))
        fails("another heading");
    return status;
}

/* An entry is spelled into the memory that it's asked for, and takes none. */
static bool append_entry(struct run *run)
{
    size_t size = 0, room = MOST_JOURNAL - run->journal_size;
    long before = requests();
    uint32_t status = hullpippin_live_entry(&run->live, run->journal + run->journal_size, room, &size);
    if (status != HULLPIPPIN_DONE || size == 0 || size > room)
        return fails("another entry");
    run->journal_size += size;
    return took_none(before);
}

/* Looks whether each seat has come to have something to read, or has no longer. */
static uint32_t poll(struct run *run, uint32_t unused)
{
    uint32_t seats[MOST_SEATS], changed[MOST_SEATS];
    size_t count = MOST_SEATS + 1;
    (void)unused;
    for (uint32_t i = 0; i < run->script->seats; i++)
        seats[i] = i;
    uint32_t status = hullpippin_live_poll(&run->live, seats, run->script->seats, &count);
    if (status != HULLPIPPIN_DONE)
        return count == MOST_SEATS + 1 || fails("a poll that isn't made counts") ? status : HULLPIPPIN_MISUSE;
    if (hullpippin_live_changed(&run->live, changed, MOST_SEATS) != count)
        fails("another number of changes");
    for (size_t i = 0; i < count && i < MOST_SEATS; i++)
        run->polled = added(run->polled, changed[i]);
    run->polled = added(run->polled, count);
    return status;
}

/* Which lists were filled or emptied. Their order isn't promised, so each is summed up by itself. */
static uint32_t ask_reached(struct run *run, uint32_t unused)
{
    hullpippin_todo_list list = {UNTOLD, UNTOLD};
    size_t count = UNTOLD;
    uint64_t lists = 0;
    (void)unused;
    uint32_t status = hullpippin_live_ask_reached(&run->live, &count);
    if (status != HULLPIPPIN_DONE)
        return count == UNTOLD || fails("lists are counted that aren't found") ? status : HULLPIPPIN_MISUSE;
    long before = requests();
    for (size_t i = 0; i < count && hullpippin_live_reached(&run->live, i, &list); i++)
        lists += added(added(NO_SUM, list.kind), list.number);
    if (hullpippin_live_reached(&run->live, count, &list))
        fails("another number of lists");
    run->reached = added(added(run->reached, lists), count);
    return took_none(before) ? status : HULLPIPPIN_MISUSE;
}

/* All looks, which take no memory. */
static uint64_t looked(struct run *run)
{
    long before = requests();
    uint64_t sum = sum_of(&run->live, run->script, 0);
    took_none(before);
    return sum;
}

static bool comes_after(struct run *run)
{
    uint64_t length = hullpippin_live_len(&run->live);
    if (length > MOST_STEPS)
        return fails("too many steps");
    if (!run->undisturbed)
        run->sums[length] = looked(run);
    return length == 0
           || (append_entry(run) && makes(run, "live_poll", poll, 0)
               && makes(run, "live_ask_reached", ask_reached, 0));
}

/* ---- begin and end */

static uint32_t make_live(struct run *run, uint32_t seats)
{
    return hullpippin_live_new(seats, &run->live);
}

static bool begin(struct run *run)
{
    run->polled = run->reached = NO_SUM;
    run->journal_size = HEADING;
    return makes(run, "live_new", make_live, run->script->seats) && makes(run, "live_heading", write_heading, UINT32_MAX)
           && comes_after(run);
}

/* What all looks tell is what they told undisturbed. */
static bool end(struct run *run)
{
    uint64_t length = hullpippin_live_len(&run->live);
    if (run->undisturbed && looked(run) != run->undisturbed->sums[length])
        return fails("the engine has come to something else");
    return makes(run, "live_heading", write_heading, (uint32_t)length) && !complaint;
}

/* ---- steps */

static uint32_t ask(hullpippin_live *live, const struct line *line, hullpippin_answer *answer)
{
    const hullpippin_request *request = &line->request;
    switch (request->kind) {
    case HULLPIPPIN_OPEN:
        return hullpippin_live_open(live, line->seat, request->pid, request->euid, request->window, answer);
    case HULLPIPPIN_ATTACH:
        return hullpippin_live_attach(live, line->seat, request->pid, answer);
    case HULLPIPPIN_MANAGER:
        return hullpippin_live_manager(live, line->seat, answer);
    case HULLPIPPIN_READ:
        return hullpippin_live_read(live, line->seat, request->limit, answer);
    case HULLPIPPIN_EXIT_THREAD:
        return hullpippin_live_exit_thread(live, line->seat, answer);
    case HULLPIPPIN_EXIT_PROCESS:
        return hullpippin_live_exit_process(live, line->seat, answer);
    default:
        return hullpippin_live_set_spam(live, line->seat, request->on, answer);
    }
}

static uint32_t step(struct run *run, const struct line *line, struct outcome *outcome)
{
    hullpippin_answer *answer = &outcome->answer;
    uint32_t status = ask(&run->live, line, answer);
    const size_t sizes[PARTS] = {answer->stream, answer->data, answer->offsets};
    if (status != HULLPIPPIN_DONE)
        return status;
    for (uint32_t part = 0; part < PARTS; part++)
        if (hullpippin_live_bytes(&run->live, part, outcome->parts[part], MOST_GOT) != sizes[part] || sizes[part] > MOST_GOT)
            fails("another number of bytes");
    return comes_after(run) ? status : HULLPIPPIN_MISUSE;
}

/* A part of the area, if it lies there. */
static bool cut(struct bytes area, uint64_t start, uint64_t size, struct bytes *part)
{
    *part = (struct bytes){area.at + start, size};
    return size <= area.size && start <= area.size - size;
}

/* Runs a command with the parcel that its record names. Where that isn't in the area the step has none with a driver, and here one of
   other lengths, which is X7 as well. */
static uint32_t run_command(struct run *run, const struct line *line, struct bytes bytes, const hullpippin_command *command,
                            hullpippin_answer *answer)
{
    static const uint8_t byte;
    struct bytes data = {NULL, 0}, offsets = {NULL, 0};
    const hullpippin_transaction *record = &command->transaction;
    bool has_parcel = command->code == HULLPIPPIN_BC_TRANSACTION || command->code == HULLPIPPIN_BC_REPLY;
    if (has_parcel
        && (!cut(line->area, record->buffer, record->data_size, &data)
            || !cut(line->area, record->offsets, record->offsets_size, &offsets))) {
        run->has_other_parcels = true;
        data = (struct bytes){&byte, record->data_size == 0};
        offsets = (struct bytes){NULL, 0};
    }
    return hullpippin_live_command(&run->live, line->seat, bytes.at, bytes.size, data.at, data.size, offsets.at, offsets.size, answer);
}

/* Puts what a command came to behind what a write has come to so far. */
static void add_step(struct outcome *outcome, const hullpippin_answer *step, size_t size)
{
    hullpippin_answer *answer = &outcome->answer;
    if (step->notes > 0 && answer->notes < MOST_NOTES)
        outcome->notes[answer->notes++] = (hullpippin_note){(uint32_t)(answer->to - answer->from), step->number};
    answer->to = step->to;
    answer->kind = step->kind;
    answer->consumed += step->kind == HULLPIPPIN_WROTE ? (uint32_t)size : 0;
    answer->stop = step->stop;
    answer->number = step->notes > 0 ? 0 : step->number;
}

/* Runs the next command of a write. False where that is its last, or there is none. */
static bool goes_on(struct run *run, const struct line *line, struct outcome *outcome)
{
    hullpippin_answer *answer = &outcome->answer, step = FILLER;
    struct bytes rest = {line->stream.at + answer->consumed, line->stream.size - answer->consumed};
    hullpippin_command command;
    if (rest.size == 0)
        return false;
    answer->number = hullpippin_next_command(rest.at, rest.size, &command);
    if (answer->number) {
        answer->stop = HULLPIPPIN_AT_FAULT;
        return false;
    }
    rest.size = command.size;
    uint32_t status = run_command(run, line, rest, &command, &step);
    if (status == HULLPIPPIN_NO_MEMORY && is_filler(&step)) {
        answer->stop = HULLPIPPIN_AT_FAULT;
        answer->number = HULLPIPPIN_FAULT_NO_MEMORY;
        return false;
    }
    add_step(outcome, &step, command.size);
    return (status == HULLPIPPIN_DONE || fails("a command isn't run")) && comes_after(run) && answer->kind == HULLPIPPIN_WROTE
           && answer->stop == HULLPIPPIN_AT_END;
}

/* Answers as a write of all commands does: with nothing where memory was refused to the first. */
static uint32_t write(struct run *run, const struct line *line, struct outcome *outcome)
{
    uint64_t length = hullpippin_live_len(&run->live);
    outcome->answer = (hullpippin_answer){.kind = HULLPIPPIN_WROTE, .from = length, .to = length};
    if (line->stream.size > MOST_STREAM) {
        outcome->answer.kind = HULLPIPPIN_REFUSED;
        outcome->answer.number = HULLPIPPIN_FAULT_STREAM_TOO_LONG;
        return HULLPIPPIN_DONE;
    }
    while (goes_on(run, line, outcome))
        continue;
    if (!is_starved(&outcome->answer) || outcome->answer.to > length)
        return HULLPIPPIN_DONE;
    outcome->answer = FILLER;
    return HULLPIPPIN_NO_MEMORY;
}

static uint32_t attempt(struct run *run, const struct line *line, struct outcome *outcome)
{
    return line->request.kind == HULLPIPPIN_WRITE ? write(run, line, outcome) : step(run, line, outcome);
}

/* Undisturbed nothing is refused, so nothing is looked at; else what all looks told undisturbed after as many steps is what was there. */
static uint64_t seen(struct run *run, uint32_t number)
{
    (void)number;
    return run->undisturbed ? looked(run) : 0;
}

const struct actions BY_STEP = {begin, attempt, seen, end};
