/* SPDX-License-Identifier: Apache-2.0 OR MIT */
/* Which threads a bridge is told of, and what reads are answered when (include/hullpippin.h, "Waiting threads"). What is wanted was worked out by
   hand. Complains where it is otherwise, and prints nothing else. */
#include "asking.h"

#include <stdio.h>

/* Linux's, which the engine has no command or return for. */
#define BC_REGISTER_LOOPER UINT32_C(0x630b)
#define BR_SPAWN_LOOPER UINT32_C(0x720d)

static const hullpippin_facts IDLE = {.is_idle = true, .has_room = true, .limit = 244};

static hullpippin_waits reading(void)
{
    return (hullpippin_waits){.has_seat = true, .is_reading = true};
}

/* Makes the calls. */
static void made(hullpippin_waits *waits)
{
    if (waits->calls.gives_bell)
        waits->told.has_bell = true;
    if (waits->calls.reads)
        waits->told = (hullpippin_told){waits->told.has_bell, true, waits->calls.limit, waits->calls.defers};
    waits->calls = (hullpippin_calls){0};
}

static bool has_calls(const hullpippin_calls *calls)
{
    return calls->stops_waiting || calls->stops_reading || calls->gives_bell || calls->reads;
}

/* Who reads comes first, who polls last; of who is behind nobody is told, until it takes over. */
static bool stands_in_line(void)
{
    hullpippin_waits first = reading(), polls = {.has_seat = true, .polls = true};
    uint32_t place = hullpippin_waits_note(&polls, &IDLE, 0, 0, 1, 0);
    if (!is(place == HULLPIPPIN_PLACE_LAST && polls.is_herald && polls.calls.gives_bell && !polls.calls.reads, "who polls alone isn't told of"))
        return false;
    made(&polls);
    place = hullpippin_waits_note(&first, &IDLE, 0, 0, 0, 0);
    if (!is(place == HULLPIPPIN_PLACE_FIRST && first.is_herald && first.calls.reads && first.calls.limit == 244, "who reads isn't first"))
        return false;
    hullpippin_waits_hand_over(&polls, 0);
    if (!is(polls.is_idle && polls.calls.stops_waiting && !polls.told.has_bell, "two are told of"))
        return false;
    made(&polls);
    hullpippin_waits_take_over(&polls, &IDLE, 0, 0);
    if (!is(polls.is_herald && polls.calls.gives_bell, "who takes over isn't told of"))
        return false;
    made(&polls);
    hullpippin_waits_hand_over(&polls, 1);
    return is(!polls.is_idle && polls.told.has_bell && !has_calls(&polls.calls), "who has something of its own stands behind another")
           && is(hullpippin_waits_herald_changes(0, 0) && !hullpippin_waits_herald_changes(1, 0) && !hullpippin_waits_herald_changes(0, 1),
                 "another herald");
}

/* In a call, in a read that leaves a completion alone, and then with more or less room. */
static bool is_told_once(void)
{
    hullpippin_facts calls = {.defers = true, .has_room = true, .limit = 100};
    hullpippin_waits waits = reading();
    uint32_t place = hullpippin_waits_note(&waits, &calls, 1, 0, 1, 0);
    if (!is(place == HULLPIPPIN_PLACE_NOWHERE && waits.calls.reads && waits.calls.defers == HULLPIPPIN_LEAVES, "a call's read isn't told of"))
        return false;
    made(&waits);
    hullpippin_waits_note(&waits, &calls, 1, 0, 1, 0);
    if (!is(!has_calls(&waits.calls), "the same is told twice"))
        return false;
    calls.limit = 72;
    hullpippin_waits_note(&waits, &calls, 1, 0, 1, 0);
    if (!is(waits.calls.reads && !waits.calls.stops_reading && waits.calls.limit == 72, "another limit isn't told"))
        return false;
    made(&waits);
    hullpippin_waits_tell_anew(&waits, &calls, 1, 0);
    if (!is(waits.calls.stops_reading && waits.calls.reads && !waits.told.reads, "it isn't told anew"))
        return false;
    made(&waits);
    waits.is_reading = false;
    hullpippin_waits_note(&waits, &calls, 1, 0, 1, 0);
    if (!is(waits.calls.stops_reading && !waits.calls.reads, "a read that has ended waits"))
        return false;
    waits = reading();
    const hullpippin_facts full = {.limit = 72};
    hullpippin_waits_note(&waits, &full, 0, 0, 1, 0);
    return is(waits.calls.gives_bell && !waits.calls.reads, "a read without room isn't told of by a bell")
           && is(hullpippin_waits_note(&waits, &IDLE, 0, 0, 1, 1) == HULLPIPPIN_PLACE_NOWHERE, "who ends is idle");
}

static bool is_answered(void)
{
    const hullpippin_facts full = {.is_idle = true, .limit = 72}, left = {.fetches = true, .has_room = true, .limit = 244};
    hullpippin_waits waits = reading();
    return is(hullpippin_waits_taken(HULLPIPPIN_TOOK_SOMETHING, 1, 0, 0, 0) == HULLPIPPIN_DO_ANSWER
                  && hullpippin_waits_taken(HULLPIPPIN_TOOK_SOMETHING, 1, 0, 0, 2) == HULLPIPPIN_DO_QUEUE
                  && hullpippin_waits_taken(HULLPIPPIN_TOOK_SOMETHING, 1, 1, 1, 0) == HULLPIPPIN_DO_FETCH
                  && hullpippin_waits_taken(HULLPIPPIN_TOOK_SOMETHING, 0, 0, 0, 0) == HULLPIPPIN_DO_NOTE
                  && hullpippin_waits_taken(HULLPIPPIN_TOOK_NOTHING, 1, 1, 0, 0) == HULLPIPPIN_DO_NOTE
                  && hullpippin_waits_taken(HULLPIPPIN_TOOK_FAILED, 1, 0, 0, 0) == HULLPIPPIN_DO_FAIL, "another is done with what was read")
           && is(hullpippin_waits_touched(&waits, 1, 0) == HULLPIPPIN_DO_ANSWER && hullpippin_waits_touched(&waits, 0, 0) == HULLPIPPIN_DO_NOTE,
                 "another is done with what others brought")
           && is(hullpippin_waits_heard(&waits, &full, 1, 0) == HULLPIPPIN_HEARD_FULL && hullpippin_waits_heard(&waits, &full, 0, 0) == HULLPIPPIN_HEARD_RINGS
                     && hullpippin_waits_heard(&waits, &left, 1, 0) == HULLPIPPIN_HEARD_FETCHES
                     && hullpippin_waits_heard(&waits, &left, 1, 1) == HULLPIPPIN_HEARD_RINGS, "another is heard")
           && is(hullpippin_waits_answered(&waits, 1) && !hullpippin_waits_answered(&waits, 0), "it is answered with nothing")
           && is(hullpippin_waits_ring(&waits, 1, 1) && !hullpippin_waits_ring(&waits, 1, 0), "its bell rings for others");
}

/* How requests begin and end. */
static bool comes_back(void)
{
    hullpippin_reader reader = {.untold = 1, .is_prompt = 1};
    hullpippin_ending ending = {.reads = true, .is_reading = true, .is_at_once = true, .may_wait = true};
    if (!is(hullpippin_read_begins(&reader, 0, 0, 1, 0) == HULLPIPPIN_READ_FETCHES, "what it has sent isn't known"))
        return false;
    reader = (hullpippin_reader){.calling = 1};
    if (!is(hullpippin_read_begins(&reader, 0, 0, 1, 0) == HULLPIPPIN_READ_WAITS && hullpippin_read_begins(&reader, 0, 0, 0, 0) == HULLPIPPIN_READ_COMES_BACK
                && hullpippin_read_begins(&reader, 0, 0, 1, 1) == HULLPIPPIN_READ_COMES_BACK, "it waits otherwise for a reply"))
        return false;
    reader.calling = 0;
    if (!is(hullpippin_read_begins(&reader, 0, 0, 1, 0) == HULLPIPPIN_READ_LOOKS, "it doesn't look")
        || !is(hullpippin_request_ends(&ending) == HULLPIPPIN_REQUEST_WAITS, "it doesn't wait"))
        return false;
    ending.may_wait = false;
    if (!is(hullpippin_request_ends(&ending) == HULLPIPPIN_REQUEST_WOULD_BLOCK, "it may not wait, and does"))
        return false;
    ending.is_there = true;
    if (!is(hullpippin_request_ends(&ending) == HULLPIPPIN_REQUEST_ANSWERS, "it isn't answered"))
        return false;
    ending.has_failed = true;
    if (!is(hullpippin_request_ends(&ending) == HULLPIPPIN_REQUEST_FAILS, "it fails otherwise"))
        return false;
    ending = (hullpippin_ending){.is_put_off = true};
    return is(hullpippin_request_ends(&ending) == HULLPIPPIN_REQUEST_GOES_ON, "it is put off for ever")
           && is(hullpippin_request_cancels(1, 1) == HULLPIPPIN_CANCEL_INTERRUPTS && hullpippin_request_cancels(0, 1) == HULLPIPPIN_CANCEL_REFUSES
                     && hullpippin_request_cancels(1, 2) == HULLPIPPIN_CANCEL_COMES_BACK && hullpippin_request_cancels(0, 2) == HULLPIPPIN_CANCEL_RESTS
                     && hullpippin_request_cancels(1, 3) == HULLPIPPIN_CANCEL_RESTS, "another end");
}

static bool is_cleared(void)
{
    hullpippin_cleared cleared = {.place = 7, .oldest = 8, .has_oldest = true};
    if (!is(hullpippin_cleared_next(&cleared, &IDLE) && hullpippin_cleared_there(&cleared, &IDLE), "it isn't told that it was cleared"))
        return false;
    cleared.oldest = 6;
    if (!is(!hullpippin_cleared_next(&cleared, &IDLE) && !hullpippin_cleared_there(&cleared, &IDLE), "it comes before what is older"))
        return false;
    return is(hullpippin_cleared_unread(1, HULLPIPPIN_CLEARED, 0) == HULLPIPPIN_CLEARED_IS_TOLD
                  && hullpippin_cleared_unread(1, HULLPIPPIN_CALL, 0) == HULLPIPPIN_CLEARED_LOOKS_ON
                  && hullpippin_cleared_unread(0, HULLPIPPIN_CLEARED, 0) == HULLPIPPIN_CLEARED_IS_NOT_TOLD
                  && hullpippin_cleared_unread(1, HULLPIPPIN_CALL, 16) == HULLPIPPIN_CLEARED_IS_TOLD, "a list tells otherwise");
}

/* One is asked for at a time, and no more than may come. */
static bool asks_for_threads(void)
{
    hullpippin_loopers loopers = {.max = 1};
    if (!is(!hullpippin_loopers_answer(&loopers, 3, 1, 0) && hullpippin_loopers_answer(&loopers, 4, 0, 0) == HULLPIPPIN_BR_NOOP
                && hullpippin_loopers_answer(&loopers, 4, 1, 1) == HULLPIPPIN_BR_NOOP, "it asks at the wrong time"))
        return false;
    if (!is(hullpippin_loopers_answer(&loopers, 4, 1, 0) == BR_SPAWN_LOOPER && hullpippin_loopers_answer(&loopers, 4, 1, 0) == HULLPIPPIN_BR_NOOP,
            "it asks twice, or not at all"))
        return false;
    hullpippin_loopers_attach(&loopers, HULLPIPPIN_BC_ENTER_LOOPER);
    if (!is(loopers.requested == 1, "it came by itself"))
        return false;
    hullpippin_loopers_attach(&loopers, BC_REGISTER_LOOPER);
    return is(!loopers.requested && loopers.started == 1 && hullpippin_loopers_answer(&loopers, 4, 1, 0) == HULLPIPPIN_BR_NOOP, "too many come")
           && is(hullpippin_loopers_enter(BC_REGISTER_LOOPER) && !hullpippin_loopers_enter(HULLPIPPIN_BC_EXIT_LOOPER), "another is in the loop");
}

int main(void)
{
    bool done = stands_in_line() && is_told_once() && is_answered() && comes_back() && is_cleared() && asks_for_threads();
    if (!done)
        fprintf(stderr, "waiting: %s\n", complaint);
    return !done;
}
