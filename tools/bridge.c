/* SPDX-License-Identifier: Apache-2.0 OR MIT */
/* What a bridge to other programs asks a live engine after a step: which buffers ended by it, which seats have come to be ready or
   unready, and which lists were filled or emptied. Plays a few one-way calls, and complains where an answer isn't the one that
   docs/RULES.md gives. Prints nothing else. */
#include "asking.h"

#include <stdio.h>

enum { MANAGER, CLIENT, IDLE, CALLERS };

/* A live engine has room for so many lists that were filled or emptied since it was last asked. */
enum { MOST_LISTS = 64 };

/* Lists count that a step may only have filled or emptied: the manager's thread's, say. So many callers surely leave room. */
enum { SURELY = MOST_LISTS - 4 };

enum { SEATS = CALLERS + MOST_LISTS };

/* A buffer at the beginning of a window has this pointer. */
#define FIRST_POINTER 65536u

static bool run(hullpippin_live *live, uint32_t seat, const uint8_t *command, size_t size, size_t data, uint64_t *place)
{
    hullpippin_answer answer = {0};
    uint32_t status = hullpippin_live_command(live, seat, command, size, (const uint8_t *)"hi", data, NULL, 0, &answer);
    bool made = is_made(status, &answer, HULLPIPPIN_WROTE);
    *place = answer.from;
    return made;
}

/* A one-way call to the context manager, with two bytes of data. Tells its place. */
static bool call(hullpippin_live *live, uint64_t *place)
{
    uint8_t command[CALL_SIZE];
    spell_call(command, 2);
    return run(live, CLIENT, command, sizeof command, 2, place);
}

static bool loop(hullpippin_live *live, uint32_t seat)
{
    uint8_t command[4];
    uint64_t place;
    put32(command, HULLPIPPIN_BC_ENTER_LOOPER);
    return run(live, seat, command, sizeof command, 0, &place);
}

static bool free_first(hullpippin_live *live)
{
    uint8_t command[12] = {0};
    uint64_t place;
    put32(command, HULLPIPPIN_BC_FREE_BUFFER);
    put32(command + 4, FIRST_POINTER);
    return run(live, MANAGER, command, sizeof command, 0, &place);
}

/* Whether these numbers are fetched: with no room and with too little nothing is copied, and nothing is lost. */
static bool are_fetched(size_t (*fetch)(hullpippin_live *, uint32_t *, size_t), hullpippin_live *live, const uint32_t *numbers, size_t count)
{
    uint32_t out[4] = {7, 7, 7, 7};
    if (fetch(live, HULLPIPPIN_NO_NUMBERS, 0) != count)
        return fails("another number of numbers");
    if (count > 0 && (fetch(live, out, count - 1) != count || out[0] != 7))
        return fails("numbers without room");
    if (fetch(live, out, 4) != count || memcmp(out, numbers, count * sizeof *numbers) || out[count] != 7)
        return fails("other numbers");
    return true;
}

/* The same of places. */
static bool have_ended(hullpippin_live *live, const uint64_t *places, size_t count)
{
    uint64_t out[4] = {7, 7, 7, 7};
    if (hullpippin_live_ended(live, HULLPIPPIN_NO_PLACES, 0) != count)
        return fails("another number of places");
    if (count > 0 && (hullpippin_live_ended(live, out, count - 1) != count || out[0] != 7))
        return fails("places without room");
    if (hullpippin_live_ended(live, out, 4) != count || memcmp(out, places, count * sizeof *places) || out[count] != 7)
        return fails("other places");
    return true;
}

static bool has_ended_none(hullpippin_live *live)
{
    static const uint64_t none;
    return have_ended(live, &none, 0);
}

/* Whether a look at these seats finds just those changed. */
static bool have_changed(hullpippin_live *live, const uint32_t *seats, size_t count, const uint32_t *changed, size_t changes)
{
    size_t told = 7;
    uint32_t status = hullpippin_live_poll(live, seats, count, &told);
    if (status == HULLPIPPIN_NO_MEMORY)
        return told == 7 ? fails("no memory") : fails("told without memory");
    if (status != HULLPIPPIN_DONE || told != changes)
        return fails("another number of changes");
    return are_fetched(hullpippin_live_changed, live, changed, changes);
}

static bool is_found(hullpippin_live *live, hullpippin_todo_list wanted, size_t count)
{
    hullpippin_todo_list list = {7, 7};
    for (size_t index = 0; index < count; index++)
        if (hullpippin_live_reached(live, index, &list) && list.kind == wanted.kind && list.number == wanted.number)
            return true;
    return fails("another list");
}

/* Whether just these lists are found filled or emptied. The order isn't promised. */
static bool have_reached(hullpippin_live *live, const hullpippin_todo_list *lists, size_t count)
{
    hullpippin_todo_list list = {7, 7};
    size_t told = 7;
    uint32_t status = hullpippin_live_ask_reached(live, &told);
    if (status == HULLPIPPIN_NO_MEMORY)
        return told == 7 ? fails("no memory") : fails("told without memory");
    if (status != HULLPIPPIN_DONE || told != count)
        return fails("another number of lists");
    if (hullpippin_live_reached(live, count, &list) || list.kind != 7 || list.number != 7)
        return fails("a list more than were told");
    for (size_t index = 0; index < count; index++)
        if (!is_found(live, lists[index], count))
            return false;
    return true;
}

/* At first it isn't known which lists they are. Then a call fills the list of its caller and that of its receiver's process; one more,
   which waits for its turn, fills none; and a read that leaves nothing empties the list that it reads. */
static bool names(hullpippin_live *live)
{
    static const hullpippin_todo_list any = {HULLPIPPIN_ANY_LIST, 0}, callers = {HULLPIPPIN_LIST_OF_THREAD, CLIENT};
    hullpippin_thread receiver;
    uint64_t place;
    if (!hullpippin_live_thread(live, MANAGER, &receiver))
        return fails("no thread");
    hullpippin_todo_list both[] = {callers, {HULLPIPPIN_LIST_OF_PROCESS, receiver.process}};
    return have_reached(live, &any, 1) && have_reached(live, NULL, 0) && call(live, &place) && have_reached(live, both, 2)
           && call(live, &place) && have_reached(live, NULL, 0) && reads(live, CLIENT) && have_reached(live, both, 1)
           && reads(live, MANAGER) && have_reached(live, both + 1, 1);
}

/* Callers wait for the manager, whose process ends: all their lists are filled at once, and as long as there is room for them, each is named,
   with the manager's own, which its end empties. With more of them any list may have been. */
static bool name_callers(hullpippin_live *live, uint32_t callers)
{
    static const hullpippin_todo_list any = {HULLPIPPIN_ANY_LIST, 0};
    hullpippin_todo_list lists[MOST_LISTS + 1];
    hullpippin_thread server;
    hullpippin_answer answer;
    bool good = is(hullpippin_live_thread(live, MANAGER, &server), "no thread");
    for (uint32_t i = 0; good && i < callers; i++) {
        lists[i] = (hullpippin_todo_list){HULLPIPPIN_LIST_OF_THREAD, CALLERS + i};
        good = attaches(live, CALLERS + i, 200) && calls(live, CALLERS + i, 0, 0) && reads(live, CALLERS + i);
    }
    lists[callers] = (hullpippin_todo_list){HULLPIPPIN_LIST_OF_PROCESS, server.process};
    size_t told;
    good = good && is_done(hullpippin_live_ask_reached(live, &told)) && have_reached(live, NULL, 0)
           && is_made(hullpippin_live_exit_process(live, MANAGER, &answer), &answer, HULLPIPPIN_EXITED);
    return good && (callers <= SURELY ? have_reached(live, lists, callers + 1) : have_reached(live, &any, 1)) && have_reached(live, NULL, 0);
}

/* The manager frees the buffer in which an object came, and with it goes its only name. The owner still acknowledges nothing, so nobody is told,
   and no notification is lost: no list is named, and any other is known to be as it was. */
static bool names_none(hullpippin_live *live)
{
    uint8_t data[OBJECT_SIZE];
    uint64_t buffer;
    size_t told;
    hullpippin_flat_object object = {.kind = HULLPIPPIN_TYPE_BINDER, .binder = 0x1000};
    hullpippin_command send = {.code = HULLPIPPIN_BC_TRANSACTION,
                               .transaction = {.flags = HULLPIPPIN_TF_ONE_WAY, .data_size = OBJECT_SIZE, .offsets_size = 8}};
    return is(!hullpippin_put_object(&object, data, sizeof data), "the object has no place") && loop(live, CLIENT)
           && runs(live, CLIENT, &send, data) && drains(live, CLIENT) && takes(live, MANAGER, &buffer)
           && is_done(hullpippin_live_ask_reached(live, &told)) && frees(live, MANAGER, buffer) && have_reached(live, NULL, 0);
}

static bool names_two(hullpippin_live *live)
{
    return name_callers(live, 2);
}

static bool names_all_that_fit(hullpippin_live *live)
{
    return name_callers(live, SURELY);
}

static bool names_any_of_more(hullpippin_live *live)
{
    return name_callers(live, MOST_LISTS);
}

/* The call makes both seats ready; each is unready once it has read, and is told so when it is asked about. */
static bool wakes(hullpippin_live *live, uint64_t *place)
{
    static const uint32_t all[] = {CLIENT, IDLE, MANAGER, SEATS}, both[] = {CLIENT, MANAGER}, client[] = {CLIENT}, manager[] = {MANAGER};
    return have_changed(live, all, 4, both, 0) && call(live, place) && has_ended_none(live) && have_changed(live, all, 4, both, 2)
           && have_changed(live, all, 4, both, 0) && reads(live, CLIENT) && reads(live, MANAGER) && have_changed(live, client, 1, client, 1)
           && have_changed(live, all, 4, manager, 1);
}

/* The manager frees the call's buffer; the buffers of two more end with its process, the one that is due and the one that waits. */
static bool ends(hullpippin_live *live, uint64_t first)
{
    hullpippin_answer answer;
    uint64_t others[2];
    return free_first(live) && have_ended(live, &first, 1) && call(live, &others[0]) && has_ended_none(live) && call(live, &others[1])
           && is_made(hullpippin_live_exit_process(live, MANAGER, &answer), &answer, HULLPIPPIN_EXITED) && have_ended(live, others, 2)
           && loop(live, CLIENT) && has_ended_none(live);
}

static bool wakes_and_ends(hullpippin_live *live)
{
    uint64_t place = 0;
    return wakes(live, &place) && ends(live, place);
}

/* Plays with an engine of its own, in which the manager's thread is in the loop. */
static bool plays(bool (*part)(hullpippin_live *))
{
    hullpippin_live live = HULLPIPPIN_NO_LIVE;
    bool done = is_done(hullpippin_live_new(SEATS, &live)) && has_ended_none(&live) && opens_live(&live, MANAGER, CLIENT)
                && loop(&live, MANAGER) && part(&live);
    hullpippin_free_live(&live);
    return done;
}

int main(void)
{
    if (plays(wakes_and_ends) && plays(names) && plays(names_none) && plays(names_two) && plays(names_all_that_fit) && plays(names_any_of_more))
        return 0;
    fprintf(stderr, "bridge: %s\n", complaint);
    return 1;
}
