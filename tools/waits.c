/* SPDX-License-Identifier: Apache-2.0 OR MIT */
/* Whom a bridge wakes (include/hullpippin.h, "Bridges"), and who sleeps on without one. Complains where it isn't as it has to be, and prints
   nothing else. */
#include "asking.h"

#include <stdio.h>

/* Two threads of the context manager's process, which are in the loop, two clients, and one that comes late. */
enum { FIRST, SECOND, CLIENT, OTHER, LATE, SEATS };

#define ROOM 256u

/* No step, and no read for anybody. */
static const hullpippin_signal NOTHING = {.kind = HULLPIPPIN_SIGNAL_NONE};

static bool comes(uint32_t (*begin)(uint32_t, hullpippin_live *), hullpippin_live *live)
{
    return is_done(begin(SEATS, live)) && opens_live(live, FIRST, CLIENT) && attaches(live, SECOND, 100) && enters_loop(live, FIRST)
           && enters_loop(live, SECOND) && opens_process(live, OTHER, 300, WINDOW);
}

static bool waits(hullpippin_live *live, uint32_t seat, uint32_t defers)
{
    return is_done(hullpippin_bridge_wait(live, seat, ROOM, defers));
}

/* Whether the next signal is this one, whatever was read. */
static bool tells(hullpippin_live *live, hullpippin_signal wanted)
{
    hullpippin_signal signal;
    if (!is_done(hullpippin_bridge_settle(live, SEATS, &signal)))
        return false;
    if (signal.kind == HULLPIPPIN_SIGNAL_READ && signal.status == HULLPIPPIN_NO_MEMORY)
        return fails("no memory");
    return is(signal.kind == wanted.kind && signal.seat == wanted.seat && signal.wakes == wanted.wakes && signal.rings == wanted.rings,
              "another signal");
}

static bool wakes(hullpippin_live *live, uint32_t seat)
{
    return tells(live, (hullpippin_signal){.kind = HULLPIPPIN_SIGNAL_READ, .seat = seat, .wakes = true});
}

static bool reads_ahead(hullpippin_live *live, uint32_t seat)
{
    return tells(live, (hullpippin_signal){.kind = HULLPIPPIN_SIGNAL_READ, .seat = seat});
}

static bool rings(hullpippin_live *live, uint32_t seat, bool on)
{
    return tells(live, (hullpippin_signal){.kind = HULLPIPPIN_SIGNAL_BELL, .seat = seat, .rings = on});
}

/* Whether nobody is to be told anything more. */
static bool is_settled(hullpippin_live *live)
{
    hullpippin_signal signal;
    return tells(live, NOTHING) && is_done(hullpippin_bridge_settle(live, SEATS, &signal))
           && is(!signal.is_left && hullpippin_bridge_suspects(live) == 0, "somebody is left");
}

/* Without a bridge: wakes a thread that waits for each list that was filled, and doesn't look again. Of two calls the second stays unread,
   though a thread waits that could read it. */
static bool forgets(hullpippin_live *live)
{
    hullpippin_todo_list list;
    bool is_waiting[] = {true, true};
    size_t count;
    if (!is_done(hullpippin_live_ask_reached(live, &count)) || !calls(live, CLIENT, 0, 0) || !calls(live, OTHER, 0, 0)
        || !is_done(hullpippin_live_ask_reached(live, &count)))
        return false;
    for (size_t index = 0; index < count && hullpippin_live_reached(live, index, &list); index++)
        if (list.kind == HULLPIPPIN_LIST_OF_PROCESS) {
            is_waiting[FIRST] = false;
            if (!reads(live, FIRST))
                return false;
        }
    return is(!is_waiting[FIRST] && is_waiting[SECOND], "another thread is woken")
           && is(hullpippin_live_ready(live, SECOND), "nobody is forgotten without a bridge");
}

/* With one both are woken, each once; who waited last reads first. */
static bool wakes_both(hullpippin_live *live)
{
    return waits(live, FIRST, 0) && waits(live, SECOND, 0) && is_settled(live) && calls(live, CLIENT, 0, 0) && calls(live, OTHER, 0, 0)
           && wakes(live, SECOND) && wakes(live, FIRST) && is_settled(live);
}

/* The completion of a call is read ahead, and the call's reply wakes. Who serves nothing and says that it doesn't defer is woken at once. */
static bool defers(hullpippin_live *live)
{
    return waits(live, CLIENT, 1) && reads_ahead(live, CLIENT) && is_settled(live) && replies(live, SECOND) && wakes(live, CLIENT)
           && is_settled(live) && waits(live, OTHER, 0) && wakes(live, OTHER) && is_settled(live);
}

/* The completion of a call is left where it is, and read along with the reply: one read, and one signal. */
static bool leaves(hullpippin_live *live)
{
    return reads(live, SECOND) && calls(live, CLIENT, 0, 0) && waits(live, CLIENT, HULLPIPPIN_LEAVES) && is_settled(live)
           && hullpippin_live_ready(live, CLIENT) && waits(live, SECOND, 0) && wakes(live, SECOND) && is_settled(live)
           && replies(live, SECOND) && wakes(live, CLIENT) && is_settled(live)
           && is(!hullpippin_live_ready(live, CLIENT), "the reply isn't read along with the completion");
}

/* A thread that serves a call within its own reads nothing ahead, whatever it says. */
static bool rings_doorbells(hullpippin_live *live)
{
    return is_done(hullpippin_bridge_give_doorbell(live, FIRST)) && is_settled(live) && replies(live, FIRST) && rings(live, FIRST, true)
           && waits(live, FIRST, 1) && wakes(live, FIRST) && rings(live, FIRST, false) && is_settled(live)
           && is_done(hullpippin_bridge_stop_waiting(live, FIRST));
}

/* Who was interrupted isn't woken. */
static bool is_interrupted(hullpippin_live *live)
{
    return reads(live, SECOND) && waits(live, FIRST, 0) && waits(live, SECOND, 0) && is_done(hullpippin_bridge_stop_reading(live, SECOND))
           && calls(live, CLIENT, 0, HULLPIPPIN_TF_ONE_WAY) && wakes(live, FIRST) && is_settled(live);
}

/* No thread comes to a seat that is noted to wait. */
static bool stays_away(hullpippin_live *live)
{
    hullpippin_answer answer = BLANK;
    if (!waits(live, LATE, 0))
        return false;
    if (hullpippin_live_attach(live, LATE, 100, &answer) != HULLPIPPIN_WAITING || !is_blank(&answer))
        return fails("a thread comes to a seat that waits");
    return is_done(hullpippin_bridge_stop_waiting(live, LATE)) && attaches(live, LATE, 100) && exits_thread(live, LATE);
}

static bool refuses_seats(hullpippin_live *live, uint32_t seat)
{
    return is(hullpippin_bridge_wait(live, seat, ROOM, 0) == HULLPIPPIN_NO_SUCH_SEAT
                  && hullpippin_bridge_give_doorbell(live, seat) == HULLPIPPIN_NO_SUCH_SEAT
                  && hullpippin_bridge_stop_reading(live, seat) == HULLPIPPIN_NO_SUCH_SEAT
                  && hullpippin_bridge_stop_waiting(live, seat) == HULLPIPPIN_NO_SUCH_SEAT,
              "a seat waits that isn't there");
}

/* An engine that is no bridge knows of nobody who waits. */
static bool has_none(hullpippin_live *live)
{
    return refuses_seats(live, FIRST) && tells(live, NOTHING) && is_settled(live);
}

/* The first who is to be looked at has memory asked for: where that is refused, all are looked at, in another order. */
static bool has_all(hullpippin_live *live)
{
    return refuses_seats(live, SEATS) && is_done(hullpippin_bridge_give_doorbell(live, FIRST)) && is_settled(live)
           && is_done(hullpippin_bridge_stop_waiting(live, FIRST))
           && is(hullpippin_bridge_wait(live, FIRST, ROOM, 3) == HULLPIPPIN_NO_SUCH_REQUEST, "a word that is none says something")
           && is_settled(live);
}

int main(void)
{
    hullpippin_live alone = HULLPIPPIN_NO_LIVE, live = HULLPIPPIN_NO_LIVE;
    bool done = comes(hullpippin_live_new, &alone) && forgets(&alone) && has_none(&alone) && comes(hullpippin_bridge_new, &live)
                && has_all(&live) && wakes_both(&live) && defers(&live) && leaves(&live)
                && rings_doorbells(&live) && is_interrupted(&live) && stays_away(&live);
    hullpippin_free_live(&alone);
    hullpippin_free_live(&live);
    if (!done)
        fprintf(stderr, "waits: %s\n", complaint);
    return !done;
}
