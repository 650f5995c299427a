/* SPDX-License-Identifier: Apache-2.0 OR MIT */
/* Asks for the certificates of a journal whose steps are known: a client sends the context manager an object one-way, calls it and is
   answered; the manager keeps the object's handle and frees the one-way call's buffer. Complains where a certificate says otherwise, or a
   call that certifies nothing writes to what it would fill. Prints nothing else. */
#include "asking.h"

#include <stdio.h>

enum { MANAGER, CLIENT, SEATS };

/* Where the steps stand. */
enum { OPENED_MANAGER, MADE_MANAGER, ENTERED, OPENED_CLIENT, SENT, TOLD, CALL_READ, KEPT, CALLED, SECOND_READ, REPLIED, REPLY_READ, FREED, STEPS };

enum { MANAGER_PID = 100, CLIENT_PID = 200, NOBODY = 300, HANDLE = 1 };

static uint8_t journal[8192];
static size_t size, begins[STEPS + 1];

/* Puts what the library has spelled behind the journal. Arguments are evaluated in any order, so the size is read here, once it is told. */
static bool grows(uint32_t status, const size_t *more)
{
    if (!is_done(status))
        return false;
    size += *more;
    return is(size <= sizeof journal, "the journal has no room");
}

/* Puts the latest step behind the journal. */
static bool is_noted(hullpippin_live *live)
{
    size_t more = 0;
    uint64_t place = hullpippin_live_len(live) - 1;
    begins[place] = size;
    return grows(hullpippin_live_entry(live, journal + size, sizeof journal - size, &more), &more);
}

static bool is_run(hullpippin_live *live, uint32_t seat, const hullpippin_command *command, const uint8_t *data)
{
    return runs(live, seat, command, data) && is_noted(live);
}

static bool is_read(hullpippin_live *live, uint32_t seat)
{
    return reads(live, seat) && is_noted(live);
}

static bool opens(hullpippin_live *live)
{
    static const hullpippin_command enter = {.code = HULLPIPPIN_BC_ENTER_LOOPER};
    hullpippin_answer answer;
    return is_made(hullpippin_live_open(live, MANAGER, MANAGER_PID, 1000, WINDOW, &answer), &answer, HULLPIPPIN_OPENED) && is_noted(live)
           && is_made(hullpippin_live_manager(live, MANAGER, &answer), &answer, HULLPIPPIN_SET) && is_noted(live)
           && is_run(live, MANAGER, &enter, NULL)
           && is_made(hullpippin_live_open(live, CLIENT, CLIENT_PID, 2000, WINDOW, &answer), &answer, HULLPIPPIN_OPENED) && is_noted(live);
}

/* The one-way call, with one object of the client's at the beginning of its data. */
static bool sends(hullpippin_live *live)
{
    uint8_t data[24];
    hullpippin_flat_object object = {.kind = HULLPIPPIN_TYPE_BINDER, .binder = 0x1000, .cookie = 0x2000};
    hullpippin_command command = {.code = HULLPIPPIN_BC_TRANSACTION, .transaction = {.flags = HULLPIPPIN_TF_ONE_WAY, .data_size = 24, .offsets_size = 8}};
    return is(!hullpippin_put_object(&object, data, sizeof data), "the object has no place") && is_run(live, CLIENT, &command, data);
}

/* Where the buffer begins that the latest read got. */
static uint64_t buffer_read(hullpippin_live *live)
{
    uint8_t stream[256];
    size_t length = hullpippin_live_bytes(live, HULLPIPPIN_STREAM, stream, sizeof stream);
    hullpippin_return returned = {0};
    for (size_t at = 0; at < length && returned.code != HULLPIPPIN_BR_TRANSACTION; at += returned.size)
        if (hullpippin_next_return(stream + at, length - at, &returned))
            return 0;
    return returned.transaction.buffer;
}

static bool plays(hullpippin_live *live)
{
    static const hullpippin_command acquire = {.code = HULLPIPPIN_BC_ACQUIRE, .handle = HANDLE};
    static const hullpippin_command call = {.code = HULLPIPPIN_BC_TRANSACTION}, reply = {.code = HULLPIPPIN_BC_REPLY};
    size_t more = 0;
    if (!grows(hullpippin_live_heading(live, STEPS, journal, sizeof journal, &more), &more) || !opens(live) || !sends(live))
        return false;
    if (!is_read(live, CLIENT) || !is_read(live, MANAGER))
        return false;
    hullpippin_command release = {.code = HULLPIPPIN_BC_FREE_BUFFER, .pointer = buffer_read(live)};
    return is_run(live, MANAGER, &acquire, NULL) && is_run(live, CLIENT, &call, NULL) && is_read(live, MANAGER)
           && is_run(live, MANAGER, &reply, NULL) && is_read(live, CLIENT) && is_run(live, MANAGER, &release, NULL)
           && is(hullpippin_live_len(live) == STEPS, "another number of steps");
}

/* ---- what is certified */

static bool has_chain(uint32_t pid, uint32_t handle, size_t wanted, uint32_t place)
{
    uint32_t places[4] = {77, 77, 77, 77};
    size_t count = 77;
    if (!is_done(hullpippin_chain(journal, size, pid, handle, places, 4, &count)))
        return false;
    return is(count == wanted && places[0] == (wanted ? place : 77) && places[wanted] == 77, "another chain");
}

static bool answers(uint32_t place, uint32_t wanted)
{
    uint32_t call = 77;
    return is_done(hullpippin_call_of_reply(journal, size, place, &call)) && is(call == wanted, "another call of a reply");
}

static bool has_turn(uint32_t made, uint32_t handed, uint32_t ended)
{
    hullpippin_turn turns[2] = {{77, 77, 77}, {77, 77, 77}};
    size_t count = 77;
    if (!is_done(hullpippin_turns(journal, size, MADE_MANAGER, 0, turns, 2, &count)))
        return false;
    return is(count == 1 && turns[0].made == made && turns[0].handed == handed && turns[0].ended == ended && turns[1].made == 77, "another turn");
}

static bool has_none(void)
{
    size_t count = 77;
    return is_done(hullpippin_turns(journal, size, SENT, 0, NULL, 0, &count)) && is(count == 0, "a turn of an object that nobody called");
}

/* Without room for them, it is told how many there are. */
static bool needs_room(void)
{
    uint32_t place = 77;
    size_t count = 77;
    return is_done(hullpippin_chain(journal, size, MANAGER_PID, HANDLE, &place, 0, &count))
           && is(count == 1 && place == 77, "a chain without room");
}

static bool is_certified(void)
{
    return has_chain(MANAGER_PID, HANDLE, 1, SENT) && has_chain(MANAGER_PID, HANDLE + 1, 0, 0) && has_chain(NOBODY, HANDLE, 0, 0) && needs_room()
           && answers(REPLY_READ, CALLED) && answers(CALL_READ, HULLPIPPIN_NO_PLACE) && answers(STEPS, HULLPIPPIN_NO_PLACE)
           && has_turn(SENT, CALL_READ, FREED) && has_none();
}

/* Whether nothing is certified of so many of the bytes, for this reason. */
static bool refuses(size_t length, uint32_t reason)
{
    uint32_t place = 77, call = 77;
    hullpippin_turn turn = {77, 77, 77};
    size_t count = 77;
    uint32_t statuses[3] = {hullpippin_chain(journal, length, MANAGER_PID, HANDLE, &place, 1, &count),
                            hullpippin_call_of_reply(journal, length, REPLY_READ, &call),
                            hullpippin_turns(journal, length, MADE_MANAGER, 0, &turn, 1, &count)};
    for (int i = 0; i < 3; i++)
        if (statuses[i] != reason)
            return fails(statuses[i] == HULLPIPPIN_NO_MEMORY ? "no memory" : "another reason");
    return is(place == 77 && call == 77 && turn.made == 77 && count == 77, "what certifies nothing fills something");
}

/* A byte of the client's pid is another: the manager would read another sender. */
static bool is_refused(void)
{
    if (!refuses(size - 1, HULLPIPPIN_NO_JOURNAL) || !refuses(0, HULLPIPPIN_NO_JOURNAL))
        return false;
    journal[begins[OPENED_CLIENT] + 9]++;
    return refuses(size, HULLPIPPIN_UNLAWFUL);
}

int main(void)
{
    hullpippin_live live = HULLPIPPIN_NO_LIVE;
    bool done = is_done(hullpippin_live_new(SEATS, &live)) && plays(&live) && is_certified() && is_refused();
    hullpippin_free_live(&live);
    if (!done)
        fprintf(stderr, "certificates: %s\n", complaint);
    return done ? 0 : 1;
}
