/* SPDX-License-Identifier: Apache-2.0 OR MIT */
#include "run.h"

#include "refusals.h"

const char *complaint;

const hullpippin_answer FILLER = {.kind = 77, .from = 77, .to = 77, .consumed = 77, .notes = 77, .stop = 77,
                                  .number = 77, .why = 77, .stream = 77, .data = 77, .offsets = 77};

bool fails(const char *why)
{
    if (!complaint)
        complaint = why;
    return false;
}

bool took_none(long before)
{
    return requests() == before || fails("a call that takes no memory asks for some");
}

bool is_filler(const hullpippin_answer *answer)
{
    return answer->kind == FILLER.kind && answer->from == FILLER.from && answer->to == FILLER.to && answer->consumed == FILLER.consumed
           && answer->notes == FILLER.notes && answer->stop == FILLER.stop && answer->number == FILLER.number
           && answer->why == FILLER.why && answer->stream == FILLER.stream && answer->data == FILLER.data
           && answer->offsets == FILLER.offsets;
}

/* Whether a call was made all the same: some ask for more than they need, and where that is refused for less. */
static bool is_enough(struct run *run, bool is_made)
{
    if (is_made)
        count(run->way, ENGINE, "enough");
    return is_made;
}

bool makes(struct run *run, const char *name, uint32_t (*call)(struct run *run, uint32_t number), uint32_t number)
{
    uint32_t status = call(run, number);
    if (was_refused() && !is_enough(run, status == HULLPIPPIN_DONE)) {
        if (status != HULLPIPPIN_NO_MEMORY)
            return fails("memory was refused, and a call doesn't say so");
        count(run->way, ENGINE, name);
        status = call(run, number);
    }
    return status == HULLPIPPIN_DONE || fails("a call isn't made");
}

struct text stops;

/* A write that memory stopped stands as the commands that it has run, each a step. */
static bool stands(struct run *run, const struct line *line, const struct outcome *part)
{
    hullpippin_command command;
    const hullpippin_answer *answer = &part->answer;
    uint32_t at = 0;
    for (uint64_t step = answer->from; step < answer->to; step++) {
        if (hullpippin_next_command(line->stream.at + at, line->stream.size - at, &command))
            return fails("a write was stopped behind its end");
        at += (uint32_t)command.size;
    }
    count(run->way, ENGINE, "stop F14");
    say(&stops, line->number, part);
    return (answer->consumed > 0 && answer->consumed == at) || fails("a write that was stopped has run something else");
}

/* Whether a request that memory was refused to says so, and how; nothing has changed but for the commands that were run. */
static bool says_so(struct run *run, const struct line *line, uint32_t status, const struct outcome *part, bool is_same)
{
    if (status == HULLPIPPIN_NO_MEMORY) {
        count(run->way, ENGINE, "NO_MEMORY");
        return (is_filler(&part->answer) || fails("a request that isn't made fills its answer"))
               && (is_same || fails("a request that memory was refused to changes something"));
    }
    if (status != HULLPIPPIN_DONE || !is_starved(&part->answer))
        return fails("memory was refused, and a request doesn't say so");
    if (part->answer.kind == HULLPIPPIN_WROTE)
        return stands(run, line, part);
    count(run->way, ENGINE, "BACK_NO_MEMORY");
    return is_same || fails("a request that comes back changes something");
}

/* What is left of a write after so many bytes. */
static struct line rest_of(const struct line *line, size_t consumed)
{
    struct line rest = *line;
    rest.stream.at += consumed;
    rest.stream.size -= consumed;
    return rest;
}

/* Has the request of a line made, and again, or the rest of it, where memory was refused. It isn't refused again, so the second time there
   is enough. */
static bool makes_whole(struct run *run, const struct actions *actions, const struct line *line, struct outcome *whole)
{
    static struct outcome part;
    struct line rest = *line;
    uint64_t before = actions->seen(run, line->seat);
    part.answer = whole->answer = FILLER;
    uint32_t status = actions->attempt(run, &rest, &part);
    enum who who = status == HULLPIPPIN_NO_MEMORY && run->way != LIVE ? COPIES : ENGINE;
    bool starved = was_refused() && !is_enough(run, status == HULLPIPPIN_DONE && !is_starved(&part.answer));
    if (starved) {
        if (!says_so(run, line, status, &part, actions->seen(run, line->seat) == before))
            return false;
        if (status == HULLPIPPIN_DONE && part.answer.kind == HULLPIPPIN_WROTE) {
            join(whole, &part);
            rest = rest_of(line, part.answer.consumed);
        }
        part.answer = FILLER;
        status = actions->attempt(run, &rest, &part);
    }
    if (status != HULLPIPPIN_DONE || is_starved(&part.answer) || part.answer.kind == HULLPIPPIN_BACK)
        return fails("a request isn't made");
    if (starved)
        count_request(run->way, who, &rest, &part);
    join(whole, &part);
    run->steps = whole->answer.to;
    return !complaint;
}

/* The record of a call without offsets, whose data is what its area begins with: the code, and where the length of its data stands. */
enum { CALL_SIZE = 68, DATA_SIZE_AT = 4 + 32 };

/* What comes before the script: a call that is refused, as the first seat has no process yet. */
static bool comes_ahead(struct run *run, const struct actions *actions, struct outcome *outcome)
{
    static const uint8_t area[FULL];
    uint8_t stream[CALL_SIZE] = {0};
    struct line line = {.request = {.kind = HULLPIPPIN_WRITE}, .stream = {stream, sizeof stream}, .area = {area, run->ahead}};
    if (!run->ahead)
        return true;
    for (int i = 0; i < 4; i++) {
        stream[i] = (uint8_t)(HULLPIPPIN_BC_TRANSACTION >> 8 * i);
        stream[DATA_SIZE_AT + i] = (uint8_t)(run->ahead >> 8 * i);
    }
    return makes_whole(run, actions, &line, outcome);
}

/* Plays a line, and notes which requests for memory it makes where the history grows by it. */
static bool plays_line(struct run *run, const struct actions *actions, const struct line *line, struct outcome *outcome)
{
    long before = requests();
    if (!makes_whole(run, actions, line, outcome))
        return false;
    if (run->ahead && outcome->answer.from <= run->grows_at && outcome->answer.to > run->grows_at) {
        run->growing[0] = before + 1;
        run->growing[1] = requests();
    }
    say(&run->text, line->number, outcome);
    return true;
}

static bool plays(struct run *run, const struct actions *actions)
{
    static struct outcome outcome;
    if (!actions->begin(run) || !comes_ahead(run, actions, &outcome))
        return false;
    for (size_t i = 0; i < run->script->count; i++)
        if (!plays_line(run, actions, &run->script->lines[i], &outcome))
            return false;
    return actions->end(run);
}

bool play(struct run *run)
{
    static const struct actions *const ACTIONS[WAYS] = {[CALL] = &BY_CALL, [HAND_OVER] = &BY_HANDING_OVER, [LIVE] = &BY_STEP};
    complaint = NULL;
    bool done = plays(run, ACTIONS[run->way]);
    for (int i = 0; i < MOST_SEATS; i++)
        hullpippin_free_seat(&run->seats[i]);
    hullpippin_free_driver(&run->driver);
    hullpippin_free_live(&run->live);
    return (blocks() == 0 || fails("memory isn't given back")) && done;
}

bool refuses_seat_counts(void)
{
    hullpippin_driver driver = HULLPIPPIN_NO_DRIVER;
    hullpippin_live live = HULLPIPPIN_NO_LIVE;
    long before = requests();
    complaint = NULL;
    if (hullpippin_new(0, &driver) != HULLPIPPIN_SEAT_COUNT || hullpippin_new(MOST_SEATS + 1, &driver) != HULLPIPPIN_SEAT_COUNT
        || hullpippin_live_new(0, &live) != HULLPIPPIN_SEAT_COUNT || hullpippin_live_new(65537, &live) != HULLPIPPIN_SEAT_COUNT)
        return fails("other numbers of seats");
    return took_none(before);
}
