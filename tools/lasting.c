/* SPDX-License-Identifier: Apache-2.0 OR MIT */
/* Whether what has gone gives its memory back, which no contract says: makes and ends each kind of thing 100,000 times in a live engine,
   and complains where the engine ever has more memory than it had within the first thousand. Linked with malloc, realloc and free
   wrapped (cc -Wl,--wrap=malloc,--wrap=realloc,--wrap=free), by which it counts what is asked for. Last it plays rounds that leave
   something behind, which have to be seen. And a thousand processes get a large parcel each, whose memory has to come back with it. Prints
   nothing but its complaints. */
#include "asking.h"

#include <stdio.h>
#include <stdlib.h>

enum { MANAGER, CLIENT, GUEST, SECOND, SEATS };

enum { MANAGER_PID = 100, CLIENT_PID = 200, GUEST_PID = 300 };

enum { FIRST = 1000, ALL = 100000, LEFT = 5000 };

#define COOKIE 7u

/* The one handle that a process has here beside 0, and one that it hasn't. */
#define HANDLE 1u
#define NO_HANDLE 77u

/* ---- memory */

void *__real_malloc(size_t size);
void *__real_realloc(void *block, size_t size);
void __real_free(void *block);

/* What stands before a block: its size, and alignment. */
#define AHEAD 16

static size_t in_use, highest;

static void *counted(uint8_t *whole, size_t size)
{
    if (!whole)
        return NULL;
    memcpy(whole, &size, sizeof size);
    in_use += size;
    if (in_use > highest)
        highest = in_use;
    return whole + AHEAD;
}

static uint8_t *uncounted(uint8_t *block)
{
    size_t size;
    memcpy(&size, block - AHEAD, sizeof size);
    in_use -= size;
    return block - AHEAD;
}

void *__wrap_malloc(size_t size)
{
    return counted(__real_malloc(size + AHEAD), size);
}

void *__wrap_realloc(void *old, size_t size)
{
    return counted(__real_realloc(old ? uncounted(old) : NULL, size + AHEAD), size);
}

void __wrap_free(void *block)
{
    __real_free(block ? uncounted(block) : NULL);
}

/* ---- steps */

/* A command of the manager's, which looks at the handle and the cookie if it has any. */
static bool makes(hullpippin_live *live, uint32_t code, uint32_t handle, uint64_t cookie)
{
    hullpippin_command command = {.code = code, .handle = handle, .cookie = cookie};
    return runs(live, MANAGER, &command, NULL);
}

static bool is_refused(hullpippin_live *live, uint32_t seat, uint32_t code, uint32_t handle)
{
    hullpippin_answer answer;
    hullpippin_command command = {.code = code, .transaction = {.target = handle}};
    return is_done(step(live, seat, &command, NULL, &answer)) && is(answer.stop == HULLPIPPIN_AT_CAUSE, "a call isn't refused");
}

/* A call or reply with one object in its parcel. */
static bool makes_with_object(hullpippin_live *live, uint32_t seat, uint32_t code, uint32_t flags, uint64_t object)
{
    uint8_t data[OBJECT_SIZE];
    hullpippin_flat_object flat = {.kind = HULLPIPPIN_TYPE_BINDER, .binder = object, .cookie = COOKIE};
    hullpippin_command command = {.code = code, .transaction = {.flags = flags, .data_size = sizeof data, .offsets_size = 8}};
    return is(!hullpippin_put_object(&flat, data, sizeof data), "the object has no place") && runs(live, seat, &command, data);
}

/* The object goes with a one-way call to the manager. */
static bool sends(hullpippin_live *live, uint32_t seat, uint64_t object)
{
    return makes_with_object(live, seat, HULLPIPPIN_BC_TRANSACTION, HULLPIPPIN_TF_ONE_WAY, object);
}

static bool acknowledges(hullpippin_live *live, uint32_t seat, uint64_t object)
{
    hullpippin_command weakly = {.code = HULLPIPPIN_BC_INCREFS_DONE, .pointer = object, .cookie = COOKIE};
    hullpippin_command strongly = {.code = HULLPIPPIN_BC_ACQUIRE_DONE, .pointer = object, .cookie = COOKIE};
    return drains(live, seat) && runs(live, seat, &weakly, NULL) && runs(live, seat, &strongly, NULL);
}

/* ---- rounds: each ends what it makes, and gets an object's ptr that no earlier one had */

static bool process(hullpippin_live *live, uint64_t object)
{
    (void)object;
    return opens_process(live, GUEST, GUEST_PID, WINDOW) && exits_process(live, GUEST);
}

static bool thread(hullpippin_live *live, uint64_t object)
{
    (void)object;
    return attaches(live, SECOND, MANAGER_PID) && exits_thread(live, SECOND);
}

static bool one_way_call(hullpippin_live *live, uint64_t object)
{
    uint64_t buffer;
    (void)object;
    return calls(live, CLIENT, 0, HULLPIPPIN_TF_ONE_WAY) && drains(live, CLIENT) && takes(live, MANAGER, &buffer) && frees(live, MANAGER, buffer);
}

static bool call(hullpippin_live *live, uint64_t object)
{
    uint64_t asked, answered;
    (void)object;
    return calls(live, CLIENT, 0, 0) && drains(live, CLIENT) && takes(live, MANAGER, &asked) && replies(live, MANAGER)
           && frees(live, MANAGER, asked) && takes(live, CLIENT, &answered) && frees(live, CLIENT, answered) && drains(live, MANAGER);
}

static bool refused_call(hullpippin_live *live, uint64_t object)
{
    (void)object;
    return is_refused(live, CLIENT, HULLPIPPIN_BC_TRANSACTION, NO_HANDLE) && drains(live, CLIENT);
}

/* Its caller's thread ends before the reply, which is refused for that. */
static bool call_without_a_caller(hullpippin_live *live, uint64_t object)
{
    uint64_t buffer;
    (void)object;
    return attaches(live, SECOND, CLIENT_PID) && calls(live, SECOND, 0, 0) && takes(live, MANAGER, &buffer) && exits_thread(live, SECOND)
           && is_refused(live, MANAGER, HULLPIPPIN_BC_REPLY, 0) && frees(live, MANAGER, buffer) && drains(live, MANAGER);
}

static bool sent(hullpippin_live *live, uint64_t object, uint64_t *buffer)
{
    return sends(live, CLIENT, object) && acknowledges(live, CLIENT, object) && takes(live, MANAGER, buffer);
}

/* An object, its name, and references of each kind. */
static bool object_and_name(hullpippin_live *live, uint64_t object)
{
    uint64_t buffer;
    return sent(live, object, &buffer) && makes(live, HULLPIPPIN_BC_INCREFS, HANDLE, 0) && makes(live, HULLPIPPIN_BC_ACQUIRE, HANDLE, 0)
           && frees(live, MANAGER, buffer) && makes(live, HULLPIPPIN_BC_RELEASE, HANDLE, 0)
           && makes(live, HULLPIPPIN_BC_DECREFS, HANDLE, 0) && drains(live, CLIENT);
}

static bool death_notification(hullpippin_live *live, uint64_t object)
{
    uint64_t buffer;
    return sent(live, object, &buffer) && makes(live, HULLPIPPIN_BC_REQUEST_DEATH_NOTIFICATION, HANDLE, object)
           && makes(live, HULLPIPPIN_BC_CLEAR_DEATH_NOTIFICATION, HANDLE, object) && drains(live, MANAGER)
           && frees(live, MANAGER, buffer) && drains(live, CLIENT);
}

/* A process that sends the manager an object and doesn't wait for anything. */
static bool visits(hullpippin_live *live, uint64_t object, uint64_t *buffer)
{
    return opens_process(live, GUEST, GUEST_PID, WINDOW) && enters_loop(live, GUEST) && sends(live, GUEST, object)
           && takes(live, MANAGER, buffer);
}

static bool death(hullpippin_live *live, uint64_t object)
{
    uint64_t buffer;
    return visits(live, object, &buffer) && makes(live, HULLPIPPIN_BC_REQUEST_DEATH_NOTIFICATION, HANDLE, object) && exits_process(live, GUEST)
           && drains(live, MANAGER) && makes(live, HULLPIPPIN_BC_DEAD_BINDER_DONE, 0, object) && frees(live, MANAGER, buffer);
}

/* The process ends with the name that a reply gave it, in a buffer that it hasn't freed. */
static bool process_with_a_name(hullpippin_live *live, uint64_t object)
{
    uint64_t asked, kept;
    return opens_process(live, GUEST, GUEST_PID, WINDOW) && calls(live, GUEST, 0, 0) && takes(live, MANAGER, &asked)
           && makes_with_object(live, MANAGER, HULLPIPPIN_BC_REPLY, 0, object) && frees(live, MANAGER, asked)
           && acknowledges(live, MANAGER, object) && takes(live, GUEST, &kept) && exits_process(live, GUEST) && drains(live, MANAGER);
}

/* The process ends with a call that was read, some that weren't, and one whose caller waits. */
static bool process_with_calls(hullpippin_live *live, uint64_t object)
{
    uint64_t buffer, kept;
    return visits(live, object, &buffer) && calls(live, MANAGER, HANDLE, HULLPIPPIN_TF_ONE_WAY) && drains(live, MANAGER) && reads(live, GUEST)
           && takes(live, GUEST, &kept) && calls(live, MANAGER, HANDLE, HULLPIPPIN_TF_ONE_WAY) && calls(live, MANAGER, HANDLE, HULLPIPPIN_TF_ONE_WAY)
           && calls(live, MANAGER, HANDLE, 0) && exits_process(live, GUEST) && drains(live, MANAGER) && frees(live, MANAGER, buffer);
}

/* The manager keeps the object: this isn't to give its room back. */
static bool object_that_stays(hullpippin_live *live, uint64_t object)
{
    uint64_t buffer;
    uint32_t handle = (uint32_t)(object / OBJECT_SIZE);
    return sent(live, object, &buffer) && makes(live, HULLPIPPIN_BC_ACQUIRE, handle, 0) && frees(live, MANAGER, buffer);
}

/* ---- */

struct kind {
    const char *name;
    bool (*round)(hullpippin_live *live, uint64_t object);
};

static const struct kind KINDS[] = {
    {"processes", process},
    {"threads", thread},
    {"one-way calls", one_way_call},
    {"calls", call},
    {"refused calls", refused_call},
    {"calls whose caller has gone", call_without_a_caller},
    {"objects and their names", object_and_name},
    {"death notifications", death_notification},
    {"deaths", death},
    {"processes with a name", process_with_a_name},
    {"processes with calls", process_with_calls},
};

static const struct kind STAYS = {"objects that stay", object_that_stays};

static bool plays(hullpippin_live *live, struct kind kind, uint64_t from, uint64_t to)
{
    for (uint64_t i = from; i < to; i++)
        if (!kind.round(live, (i + 1) * OBJECT_SIZE))
            return false;
    return true;
}

/* How much memory the rounds take at most, the first and all others. */
static bool measures(struct kind kind, uint64_t rounds, size_t *first, size_t *others)
{
    hullpippin_live live = HULLPIPPIN_NO_LIVE;
    size_t before = in_use;
    if (!is_done(hullpippin_live_new(SEATS, &live)))
        return false;
    highest = in_use;
    bool played = opens_live(&live, MANAGER, CLIENT) && enters_loop(&live, MANAGER) && enters_loop(&live, CLIENT)
                  && plays(&live, kind, 0, FIRST);
    *first = highest - before;
    highest = in_use;
    played = played && plays(&live, kind, FIRST, rounds);
    *others = highest - before;
    hullpippin_free_live(&live);
    return played && (in_use == before || fails("an engine that was let go of keeps memory"));
}

static bool grows(struct kind kind, uint64_t rounds, bool wanted)
{
    size_t first, others;
    if (!measures(kind, rounds, &first, &others)) {
        fprintf(stderr, "lasting: %s: %s\n", kind.name, complaint);
        return false;
    }
    if (getenv("FIGURES"))
        fprintf(stderr, "%s: %zu bytes at most in %d rounds, %zu in the other %zu\n", kind.name, first, FIRST, others, (size_t)rounds - FIRST);
    if ((others > first) != wanted)
        fprintf(stderr, "lasting: %s: from %zu bytes to %zu\n", kind.name, first, others);
    return (others > first) == wanted;
}

/* ---- windows, each of which a large parcel was in once */

enum { CROWD = 1000, SMALL = 8, LARGE = 1 << 20, CROWD_WINDOW = 4 << 20 };

/* The manager replies to the process with so many bytes, which it reads and frees. */
static bool is_answered(hullpippin_live *live, uint32_t seat, uint64_t size)
{
    static const uint8_t parcel[LARGE];
    uint64_t asked, answered;
    hullpippin_command reply = {.code = HULLPIPPIN_BC_REPLY, .transaction = {.data_size = size}};
    return calls(live, seat, 0, 0) && drains(live, seat) && takes(live, MANAGER, &asked) && runs(live, MANAGER, &reply, parcel)
           && frees(live, MANAGER, asked) && takes(live, seat, &answered) && frees(live, seat, answered) && drains(live, MANAGER);
}

static bool crowd_opens(hullpippin_live *live)
{
    for (uint32_t i = 0; i < CROWD; i++)
        if (!opens_process(live, SEATS + i, GUEST_PID + i, CROWD_WINDOW))
            return false;
    return true;
}

static bool crowd_is_answered(hullpippin_live *live, uint64_t size)
{
    for (uint32_t i = 0; i < CROWD; i++)
        if (!is_answered(live, SEATS + i, size))
            return false;
    return true;
}

/* How much memory the engine has after a small parcel each, and after a large one. */
static bool measures_windows(size_t *small, size_t *large)
{
    hullpippin_live live = HULLPIPPIN_NO_LIVE;
    if (!is_done(hullpippin_live_new(SEATS + CROWD, &live)))
        return false;
    bool played = opens_live(&live, MANAGER, CLIENT) && enters_loop(&live, MANAGER) && crowd_opens(&live) && crowd_is_answered(&live, SMALL);
    *small = in_use;
    played = played && crowd_is_answered(&live, LARGE);
    *large = in_use;
    hullpippin_free_live(&live);
    return played;
}

/* What all of them share may have become as large as a parcel. */
static bool gives_windows_back(void)
{
    size_t small, large;
    if (!measures_windows(&small, &large)) {
        fprintf(stderr, "lasting: windows: %s\n", complaint);
        return false;
    }
    if (getenv("FIGURES"))
        fprintf(stderr, "windows: %zu bytes after small parcels, %zu after large ones\n", small, large);
    if (large > small + LARGE)
        fprintf(stderr, "lasting: windows: from %zu bytes to %zu\n", small, large);
    return large <= small + LARGE;
}

int main(void)
{
    bool good = gives_windows_back();
    for (size_t i = 0; i < sizeof KINDS / sizeof KINDS[0]; i++)
        good = grows(KINDS[i], ALL, false) && good;
    return grows(STAYS, LEFT, true) && good ? 0 : 1;
}
