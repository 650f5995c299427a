/* SPDX-License-Identifier: Apache-2.0 OR MIT */
/* Goes through all processes, handles and buffers of a live engine at two moments of a run whose steps are known: a client sends the
   context manager an object, calls it and is answered, and ends. Complains where another list is told, or a look that finds nothing
   writes to what it would fill. Prints nothing else. */
#include "asking.h"

#include <stdio.h>

enum { MANAGER, CLIENT, SEATS };

/* Where the steps stand. */
enum { OPENED_MANAGER, MADE_MANAGER, OPENED_CLIENT, ENTERED, SENT, CLIENT_READ, MANAGER_READ, KEPT, CALLED, CALL_READ, REPLIED };

enum { MANAGER_PID = 100, CLIENT_PID = 200, NOBODY = 300, UNTOLD = 77 };

static bool sends(hullpippin_live *live)
{
    uint8_t data[24];
    hullpippin_flat_object object = {.kind = HULLPIPPIN_TYPE_BINDER, .binder = 0x1000, .cookie = 0x2000};
    hullpippin_command command = {.code = HULLPIPPIN_BC_TRANSACTION, .transaction = {.flags = HULLPIPPIN_TF_ONE_WAY, .data_size = 24, .offsets_size = 8}};
    return is(!hullpippin_put_object(&object, data, sizeof data), "the object has no place") && runs(live, CLIENT, &command, data);
}

static bool plays(hullpippin_live *live)
{
    static const hullpippin_command enter = {.code = HULLPIPPIN_BC_ENTER_LOOPER}, acquire = {.code = HULLPIPPIN_BC_ACQUIRE, .handle = 1};
    static const hullpippin_command call = {.code = HULLPIPPIN_BC_TRANSACTION}, reply = {.code = HULLPIPPIN_BC_REPLY};
    return opens_live(live, MANAGER, CLIENT) && runs(live, MANAGER, &enter, NULL) && sends(live) && reads(live, CLIENT) && reads(live, MANAGER)
           && runs(live, MANAGER, &acquire, NULL) && runs(live, CLIENT, &call, NULL) && reads(live, MANAGER)
           && runs(live, MANAGER, &reply, NULL) && reads(live, CLIENT);
}

/* A look for the next: `of` is the pid of a process whose handles are looked for, or the place of its open where it is for buffers. */
typedef bool next_look(hullpippin_live *live, uint64_t of, uint64_t from, uint64_t *next);

static bool next_process(hullpippin_live *live, uint64_t of, uint64_t from, uint64_t *place)
{
    (void)of;
    return hullpippin_live_next_process(live, from, place);
}

static bool next_handle(hullpippin_live *live, uint64_t of, uint64_t from, uint64_t *next)
{
    uint32_t handle = UNTOLD, first = from < UINT32_MAX ? (uint32_t)from : UINT32_MAX;
    bool is_there = hullpippin_live_next_handle(live, (uint32_t)of, first, &handle);
    if (is_there || handle != UNTOLD)
        *next = handle;
    return is_there;
}

/* From 0 on these are told, and no more. */
static bool lists(hullpippin_live *live, next_look *look, uint64_t of, const uint64_t *known, size_t count)
{
    uint64_t from = 0, next = UNTOLD;
    for (size_t i = 0; i < count; i++) {
        if (!look(live, of, from, &next) || next != known[i])
            return fails("another list of what there is");
        from = next + 1;
    }
    next = UNTOLD;
    return (!look(live, of, from, &next) && next == UNTOLD && !look(live, of, UINT64_MAX, &next) && next == UNTOLD)
           || fails("more is listed than there is");
}

/* The manager has one name, for what was sent. The client calls number 0 without a name. */
static bool lists_handles(hullpippin_live *live)
{
    static const uint64_t names[] = {1};
    return lists(live, next_handle, MANAGER_PID, names, 1) && lists(live, next_handle, CLIENT_PID, NULL, 0)
           && lists(live, next_handle, NOBODY, NULL, 0);
}

static bool lists_both(hullpippin_live *live)
{
    static const uint64_t opened[] = {OPENED_MANAGER, OPENED_CLIENT}, received[] = {SENT, CALLED}, replied[] = {REPLIED};
    return lists(live, next_process, 0, opened, 2) && lists_handles(live)
           && lists(live, hullpippin_live_next_buffer, OPENED_MANAGER, received, 2)
           && lists(live, hullpippin_live_next_buffer, OPENED_CLIENT, replied, 1)
           && lists(live, hullpippin_live_next_buffer, MADE_MANAGER, NULL, 0);
}

/* Once the client has ended. What it has sent stays where it is. */
static bool lists_one(hullpippin_live *live)
{
    static const uint64_t opened[] = {OPENED_MANAGER}, received[] = {SENT, CALLED};
    hullpippin_answer answer;
    return is_made(hullpippin_live_exit_process(live, CLIENT, &answer), &answer, HULLPIPPIN_EXITED)
           && lists(live, next_process, 0, opened, 1) && lists_handles(live)
           && lists(live, hullpippin_live_next_buffer, OPENED_MANAGER, received, 2)
           && lists(live, hullpippin_live_next_buffer, OPENED_CLIENT, NULL, 0);
}

int main(void)
{
    hullpippin_live live = HULLPIPPIN_NO_LIVE;
    bool done = is_done(hullpippin_live_new(SEATS, &live)) && plays(&live) && lists_both(&live) && lists_one(&live);
    hullpippin_free_live(&live);
    if (!done)
        fprintf(stderr, "lists: %s\n", complaint);
    return done ? 0 : 1;
}
