/* SPDX-License-Identifier: Apache-2.0 OR MIT */
/* Turns go round in rings (include/hullpippin.h). What is wanted was worked out by hand. Complains where it is otherwise, and prints nothing
   else. */
#include "asking.h"

#include <stdio.h>

/* Numbers, in the order in which they are told: a ring of two others, three that stand there, and one that stands below one of these. */
enum { ALL, ONE, TWO, THREE, BELOW, NUMBERS };

static bool adds(hullpippin_rings *rings, uint32_t wanted)
{
    uint32_t number = 77;
    return is_done(hullpippin_rings_add(rings, &number)) && is(number == wanted, "another number is told");
}

static bool has_turn(hullpippin_rings *rings, uint32_t ring, uint32_t wanted)
{
    uint32_t first = 77, one = 77;
    return is(hullpippin_rings_first(rings, ring, &first) && first == wanted, "another has the next turn")
           && is(hullpippin_rings_take(rings, ring, &one) && one == wanted, "another has the turn");
}

static bool is_empty(hullpippin_rings *rings, uint32_t ring)
{
    uint32_t one = 77;
    return is(!hullpippin_rings_first(rings, ring, &one) && !hullpippin_rings_take(rings, ring, &one) && !hullpippin_rings_pass(rings, ring) && one == 77,
              "somebody stands in an empty ring");
}

static bool enters(hullpippin_rings *rings, uint32_t ring, uint32_t one)
{
    return is(hullpippin_rings_enter(rings, ring, one), "one doesn't come");
}

/* The first is passed over, one leaves from the middle and one from the end, and each comes once. */
static bool goes_round(hullpippin_rings *rings)
{
    return is_empty(rings, ALL) && enters(rings, ALL, ONE) && enters(rings, ALL, TWO) && enters(rings, ALL, THREE)
           && is(!hullpippin_rings_enter(rings, ALL, TWO), "one comes twice") && is(hullpippin_rings_pass(rings, ALL), "nobody is passed over")
           && has_turn(rings, ALL, TWO) && enters(rings, ALL, TWO) && has_turn(rings, ALL, THREE) && has_turn(rings, ALL, ONE) && has_turn(rings, ALL, TWO)
           && is_empty(rings, ALL);
}

static bool leaves(hullpippin_rings *rings)
{
    bool came = enters(rings, ALL, ONE) && enters(rings, ALL, TWO) && enters(rings, ALL, THREE);
    hullpippin_rings_leave(rings, TWO);
    hullpippin_rings_leave(rings, TWO);
    if (!came || !has_turn(rings, ALL, ONE) || !enters(rings, ALL, ONE))
        return false;
    hullpippin_rings_leave(rings, ONE);
    return has_turn(rings, ALL, THREE) && is_empty(rings, ALL);
}

/* A ring of one that stands in a ring; and one stands in one ring alone. */
static bool is_apart(hullpippin_rings *rings)
{
    return enters(rings, ONE, BELOW) && enters(rings, ALL, ONE) && enters(rings, ALL, TWO)
           && is(!hullpippin_rings_enter(rings, ALL, BELOW), "one stands in two rings") && has_turn(rings, ALL, ONE) && has_turn(rings, ONE, BELOW)
           && is_empty(rings, ONE) && has_turn(rings, ALL, TWO);
}

/* Numbers that nobody has, and such as are given back. */
static bool is_counted(hullpippin_rings *rings)
{
    if (!enters(rings, ONE, BELOW) || !is(!hullpippin_rings_remove(rings, ONE), "a ring goes in which somebody stands"))
        return false;
    bool went = hullpippin_rings_remove(rings, BELOW);
    hullpippin_rings_leave(rings, NUMBERS);
    return is(went && !hullpippin_rings_remove(rings, BELOW), "one goes twice") && is_empty(rings, ONE) && is_empty(rings, UINT32_MAX)
           && is(!hullpippin_rings_enter(rings, ONE, BELOW) && !hullpippin_rings_enter(rings, BELOW, ONE) && !hullpippin_rings_enter(rings, NUMBERS, ONE)
                     && !hullpippin_rings_enter(rings, ONE, UINT32_MAX) && !hullpippin_rings_remove(rings, NUMBERS),
                 "a number that nobody has is taken")
           && adds(rings, BELOW) && is_empty(rings, BELOW) && enters(rings, ONE, BELOW) && has_turn(rings, ONE, BELOW);
}

static bool run(hullpippin_rings *rings)
{
    if (!is_done(hullpippin_rings_new(rings)) || !is(hullpippin_rings_new(rings) == HULLPIPPIN_MISUSE, "a full handle is filled"))
        return false;
    for (uint32_t i = 0; i < NUMBERS; i++)
        if (!adds(rings, i))
            return false;
    return goes_round(rings) && leaves(rings) && is_apart(rings) && is_counted(rings);
}

int main(void)
{
    hullpippin_rings rings = HULLPIPPIN_NO_RINGS;
    uint32_t number = 77;
    bool done = run(&rings);
    hullpippin_free_rings(&rings);
    done = done && is(!rings.at, "what was let go of is there") && is_empty(&rings, ALL)
           && is(hullpippin_rings_add(&rings, &number) == HULLPIPPIN_MISUSE && number == 77 && !hullpippin_rings_enter(&rings, ALL, ONE), "an empty handle is used");
    hullpippin_free_rings(&rings);
    if (!done)
        fprintf(stderr, "rings: %s\n", complaint);
    return !done;
}
