/* SPDX-License-Identifier: Apache-2.0 OR MIT */
/* Reports of one-way flooding: a client asks for them, floods the context manager, and asks for them no longer; of a driver, by a call
   and handed over, and of a live engine, each with as many seats as a journal may have. Numbers that ask for neither are to be refused.
   Complains where an answer isn't the one that docs/RULES.md gives. Prints nothing else. */
#include "asking.h"

#include <stdio.h>

enum { MANAGER, CLIENT, MOST_SEATS = 31 };

/* What a client reads of its calls: a BR_NOOP, and then this. */
static bool is_told(const uint8_t *stream, size_t size, uint32_t code)
{
    uint8_t wanted[8];
    put32(wanted, HULLPIPPIN_BR_NOOP);
    put32(wanted + 4, code);
    return (size == sizeof wanted && !memcmp(stream, wanted, size)) || fails("other returns");
}

static const uint8_t zeros[WINDOW / 4];

/* Numbers that ask for reports neither to be sent nor to be sent no longer. */
static const uint32_t NO_FLAGS[] = {2, 3, 256, UINT32_MAX};

#define NO_FLAG_COUNT (sizeof NO_FLAGS / sizeof NO_FLAGS[0])

static bool is_no_request(uint32_t status)
{
    return status == HULLPIPPIN_NO_SUCH_REQUEST || fails("a number other than 0 and 1 isn't refused");
}

/* ---- a driver */

struct run {
    hullpippin_driver driver;
    hullpippin_seat seats[2];
};

static bool driver_calls(struct run *run, uint32_t data, uint32_t code)
{
    uint8_t command[CALL_SIZE], stream[256];
    hullpippin_answer answer;
    hullpippin_seat *client = &run->seats[CLIENT];
    spell_call(command, data);
    if (!is_made(hullpippin_write(client, command, sizeof command, zeros, sizeof zeros, &answer), &answer, HULLPIPPIN_WROTE))
        return false;
    if (!is_made(hullpippin_read(client, sizeof stream, &answer), &answer, HULLPIPPIN_GOT))
        return false;
    return is_told(stream, hullpippin_answer_bytes(client, HULLPIPPIN_STREAM, stream, sizeof stream), code);
}

static bool opens(struct run *run)
{
    hullpippin_answer answer;
    uint8_t enter[4];
    hullpippin_seat *manager = &run->seats[MANAGER];
    put32(enter, HULLPIPPIN_BC_ENTER_LOOPER);
    return is_made(hullpippin_open(manager, 100, 1000, WINDOW, &answer), &answer, HULLPIPPIN_OPENED)
           && is_made(hullpippin_manager(manager, &answer), &answer, HULLPIPPIN_SET)
           && is_made(hullpippin_write(manager, enter, sizeof enter, NULL, 0, &answer), &answer, HULLPIPPIN_WROTE)
           && is_made(hullpippin_open(&run->seats[CLIENT], 200, 2000, WINDOW, &answer), &answer, HULLPIPPIN_OPENED);
}

/* The client hands over that it asks for reports no longer, and the manager serves it. */
static bool turns_off(struct run *run)
{
    hullpippin_request request = {.kind = HULLPIPPIN_SET_SPAM, .on = 0};
    hullpippin_answer answer;
    uint32_t picked = 0;
    uint32_t status = hullpippin_post(&run->seats[CLIENT], &request, NULL, 0, NULL, 0);
    if (status == HULLPIPPIN_NO_MEMORY)
        return fails("no memory");
    if (status != HULLPIPPIN_DONE || hullpippin_serve(&run->seats[MANAGER], &picked) != HULLPIPPIN_DONE || picked != 1)
        return fails("not served");
    return is_made(hullpippin_collect(&run->seats[CLIENT], &answer), &answer, HULLPIPPIN_SET);
}

/* Neither a call nor a request that is handed over takes another number, and the page tells of no step by them. */
static bool refuses(struct run *run)
{
    hullpippin_seat *client = &run->seats[CLIENT];
    hullpippin_page before, after;
    hullpippin_look(client, &before);
    for (size_t i = 0; i < NO_FLAG_COUNT; i++) {
        hullpippin_request request = {.kind = HULLPIPPIN_SET_SPAM, .on = NO_FLAGS[i]};
        hullpippin_answer answer = BLANK;
        if (!is_no_request(hullpippin_set_spam(client, NO_FLAGS[i], &answer)) || !is_blank(&answer)
            || !is_no_request(hullpippin_post(client, &request, NULL, 0, NULL, 0)))
            return false;
    }
    hullpippin_look(client, &after);
    return after.stamp == before.stamp || fails("a refusal makes a step");
}

/* A quarter of the window isn't reported, and a byte more is, but only while it is asked for. */
static bool floods(struct run *run)
{
    hullpippin_answer answer;
    return opens(run) && refuses(run) && is_made(hullpippin_set_spam(&run->seats[CLIENT], 1, &answer), &answer, HULLPIPPIN_SET)
           && driver_calls(run, WINDOW / 4, HULLPIPPIN_BR_TRANSACTION_COMPLETE) && refuses(run)
           && driver_calls(run, 0, HULLPIPPIN_BR_ONEWAY_SPAM_SUSPECT) && turns_off(run)
           && driver_calls(run, 0, HULLPIPPIN_BR_TRANSACTION_COMPLETE);
}

static bool floods_a_driver(void)
{
    struct run run = {HULLPIPPIN_NO_DRIVER, {HULLPIPPIN_NO_SEAT, HULLPIPPIN_NO_SEAT}};
    if (hullpippin_new(0, &run.driver) != HULLPIPPIN_SEAT_COUNT || hullpippin_new(MOST_SEATS + 1, &run.driver) != HULLPIPPIN_SEAT_COUNT)
        return fails("other numbers of seats");
    if (!is_done(hullpippin_new(MOST_SEATS, &run.driver)))
        return false;
    bool done = is_done(hullpippin_take_seat(&run.driver, &run.seats[MANAGER]))
                && is_done(hullpippin_take_seat(&run.driver, &run.seats[CLIENT])) && floods(&run);
    for (int i = 0; i < 2; i++)
        hullpippin_free_seat(&run.seats[i]);
    hullpippin_free_driver(&run.driver);
    return done;
}

/* ---- a live engine */

static bool live_calls(hullpippin_live *live, uint32_t data, uint32_t code)
{
    uint8_t command[CALL_SIZE], stream[256];
    hullpippin_answer answer;
    spell_call(command, data);
    if (!is_made(hullpippin_live_command(live, CLIENT, command, sizeof command, zeros, data, NULL, 0, &answer), &answer,
                 HULLPIPPIN_WROTE))
        return false;
    if (!is_made(hullpippin_live_read(live, CLIENT, sizeof stream, &answer), &answer, HULLPIPPIN_GOT))
        return false;
    return is_told(stream, hullpippin_live_bytes(live, HULLPIPPIN_STREAM, stream, sizeof stream), code);
}

static bool live_refuses(hullpippin_live *live)
{
    uint64_t before = hullpippin_live_len(live);
    for (size_t i = 0; i < NO_FLAG_COUNT; i++) {
        hullpippin_answer answer = BLANK;
        if (!is_no_request(hullpippin_live_set_spam(live, CLIENT, NO_FLAGS[i], &answer)) || !is_blank(&answer))
            return false;
    }
    return hullpippin_live_len(live) == before || fails("a refusal makes a step");
}

static bool live_floods(hullpippin_live *live)
{
    hullpippin_answer answer;
    return opens_live(live, MANAGER, CLIENT) && is_made(hullpippin_live_set_spam(live, CLIENT, 1, &answer), &answer, HULLPIPPIN_SET)
           && live_calls(live, WINDOW / 4, HULLPIPPIN_BR_TRANSACTION_COMPLETE) && live_refuses(live)
           && live_calls(live, 0, HULLPIPPIN_BR_ONEWAY_SPAM_SUSPECT)
           && is_made(hullpippin_live_set_spam(live, CLIENT, 0, &answer), &answer, HULLPIPPIN_SET)
           && live_calls(live, 0, HULLPIPPIN_BR_TRANSACTION_COMPLETE);
}

/* What a journal of so many seats begins with: another version, of a longer number of entries, for more than a driver may have. */
static bool has_heading(hullpippin_live *live, uint32_t seats)
{
    uint8_t heading[20];
    size_t size = 0;
    uint32_t status = hullpippin_live_heading(live, 0, heading, sizeof heading, &size);
    const char *version = seats > MOST_SEATS ? "BNDJ0003" : "BNDJ0002";
    size_t wanted = seats > MOST_SEATS ? 20 : 16;
    return is_done(status) && ((size == wanted && !memcmp(heading, version, 8)) || fails("another heading"));
}

static bool floods_a_live_engine(uint32_t seats)
{
    hullpippin_live live = HULLPIPPIN_NO_LIVE;
    if (!is_done(hullpippin_live_new(seats, &live)))
        return false;
    bool done = live_floods(&live) && has_heading(&live, seats);
    hullpippin_free_live(&live);
    return done;
}

int main(void)
{
    bool done = floods_a_driver() && floods_a_live_engine(MOST_SEATS) && floods_a_live_engine(MOST_SEATS + 1);
    if (!done)
        fprintf(stderr, "flooding: %s\n", complaint);
    return done ? 0 : 1;
}
