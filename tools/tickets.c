/* SPDX-License-Identifier: Apache-2.0 OR MIT */
/* Descriptors go on their way with parcels, and come back once each (include/hullpippin.h). What is wanted was worked out by hand. Complains
   where it is otherwise, and prints nothing else. */
#include "asking.h"

#include <stdio.h>

/* So far apart that they share a list, and a place that needs more than 32 bits. */
enum { APART = 1024, MOST = 4 };
#define FAR (UINT64_C(1) << 40)

static bool comes(hullpippin_tickets *tickets, uint64_t step, const uint32_t *wanted, size_t count)
{
    uint32_t out[MOST] = {77, 77, 77, 77};
    size_t told = 77;
    return is(hullpippin_tickets_take(tickets, step, out, MOST, &told) && told == count && !memcmp(out, wanted, count * sizeof *out),
              "other descriptors come back")
           && is(count == MOST || out[count] == 77, "more than the descriptors is written");
}

static bool is_gone(hullpippin_tickets *tickets, uint64_t step)
{
    uint32_t out[1] = {77};
    size_t told = 77;
    return is(!hullpippin_tickets_take(tickets, step, out, 1, &told) && told == 77 && out[0] == 77, "what is gone comes back");
}

static const uint32_t first[3] = {7, 8, 9}, second[1] = {10}, third[2] = {11, UINT32_MAX};

static bool goes(hullpippin_tickets *tickets)
{
    return is_done(hullpippin_tickets_put(tickets, 3, first, 3)) && is_done(hullpippin_tickets_put(tickets, 3 + APART, second, 1))
           && is_done(hullpippin_tickets_put(tickets, FAR + 3, third, 2)) && is_done(hullpippin_tickets_put(tickets, 4, NULL, 0));
}

/* One of that step is on its way; and there is no room for them. */
static bool is_kept(hullpippin_tickets *tickets)
{
    uint32_t out[2] = {77, 77};
    size_t told = 77;
    return is(hullpippin_tickets_put(tickets, 3, second, 1) == HULLPIPPIN_WAITING, "two parcels of one step are on their way")
           && is(hullpippin_tickets_take(tickets, 3, out, 2, &told) && told == 3 && out[0] == 77, "descriptors come without room");
}

static bool all_come(hullpippin_tickets *tickets)
{
    return comes(tickets, 3 + APART, second, 1) && is_gone(tickets, 3 + APART) && comes(tickets, 3, first, 3) && is_gone(tickets, 3)
           && is_done(hullpippin_tickets_put(tickets, 3, second, 1)) && comes(tickets, 3, second, 1) && comes(tickets, 4, first, 0);
}

/* Whoever ends has all that is left. */
static bool none_is_left(hullpippin_tickets *tickets)
{
    uint64_t step = 77;
    if (!is(hullpippin_tickets_some_step(tickets, &step) && step == FAR + 3, "another step's parcel is left") || !comes(tickets, step, third, 2))
        return false;
    return is(!hullpippin_tickets_some_step(tickets, &step) && step == FAR + 3, "a parcel is left");
}

/* What comes with a request is its own as a whole, or not at all. */
static bool is_whole(void)
{
    return is(hullpippin_descriptors_kept(2, 2, 1, 1) == 2 && !hullpippin_descriptors_kept(2, 3, 1, 1) && !hullpippin_descriptors_kept(3, 2, 1, 1)
                  && !hullpippin_descriptors_kept(2, 2, 0, 1) && !hullpippin_descriptors_kept(2, 2, 1, 0) && !hullpippin_descriptors_kept(0, 0, 1, 1),
              "a request keeps others than its own");
}

static bool run(hullpippin_tickets *tickets)
{
    return is_done(hullpippin_tickets_new(tickets)) && is(hullpippin_tickets_new(tickets) == HULLPIPPIN_MISUSE, "a full handle is filled")
           && goes(tickets) && is_kept(tickets) && all_come(tickets) && none_is_left(tickets);
}

int main(void)
{
    hullpippin_tickets tickets = HULLPIPPIN_NO_TICKETS;
    bool done = run(&tickets) && is_whole();
    hullpippin_free_tickets(&tickets);
    done = done && is(!tickets.at, "what was let go of is there") && is_gone(&tickets, 3)
           && is(hullpippin_tickets_put(&tickets, 3, first, 3) == HULLPIPPIN_MISUSE, "an empty handle takes descriptors");
    hullpippin_free_tickets(&tickets);
    if (!done)
        fprintf(stderr, "tickets: %s\n", complaint);
    return !done;
}
