/* SPDX-License-Identifier: Apache-2.0 OR MIT */
/* A live engine in which much stands, and rounds that leave it as they found it: bench/crowds counts what they take, and tools/library
   sees that a crowd finds room, which no contract says.

       crowds CROWD NUMBER ROUNDS [stay]

   So many of the crowd stand first. A round is what the context manager's thread does with another process: a one-way call, and a call
   that is answered; where calls are queued, one more of these is made, and the oldest read, too; where holes are, one in their midst is filled
   and emptied. `round_of` alone makes it. At the end the crowd has to be there still: its last comers leave, reply, are read, let go of or
   freed. Then all that is left goes at once: the crowd's process ends, and the context manager; unless it is to stay, as only rounds are
   counted. */
#include "../../tools/asking.h"

#include <stdio.h>
#include <stdlib.h>

enum { MANAGER, CLIENT, SERVER, FIRST, SEATS = 65536 };

enum { MANAGER_PID = 100, CLIENT_PID = 200, SERVER_PID = 300, CROWD_PID = 1000 };

enum { MOST_WINDOW = 4 << 20 };

/* The manager's handles for an object of the server's, and for one of the crowd's. */
enum { SERVER_HANDLE = 1, CROWD_HANDLE = 2 };

static hullpippin_live live;

static bool takes_and_frees(uint32_t seat)
{
    uint64_t buffer;
    return takes(&live, seat, &buffer) && frees(&live, seat, buffer);
}

/* Sends the manager an object, which keeps it by this handle. */
static bool gives(uint32_t seat, uint64_t pointer, uint32_t handle)
{
    uint8_t data[OBJECT_SIZE];
    uint64_t buffer;
    hullpippin_flat_object object = {.kind = HULLPIPPIN_TYPE_BINDER, .binder = pointer};
    hullpippin_command keep = {.code = HULLPIPPIN_BC_ACQUIRE, .handle = handle};
    hullpippin_command send = {.code = HULLPIPPIN_BC_TRANSACTION,
                               .transaction = {.flags = HULLPIPPIN_TF_ONE_WAY, .data_size = OBJECT_SIZE, .offsets_size = 8}};
    return is(!hullpippin_put_object(&object, data, sizeof data), "the object has no place") && runs(&live, seat, &send, data)
           && reads(&live, seat) && takes(&live, MANAGER, &buffer) && runs(&live, MANAGER, &keep, NULL) && frees(&live, MANAGER, buffer);
}

static bool opens(uint32_t seat, uint32_t pid)
{
    return opens_process(&live, seat, pid, MOST_WINDOW);
}

/* ---- crowds */

/* Threads of one process. */
static bool threads(uint32_t number)
{
    bool good = opens(FIRST, CROWD_PID);
    for (uint32_t i = 1; good && i < number; i++)
        good = attaches(&live, FIRST + i, CROWD_PID);
    return good;
}

/* Processes of a thread each. */
static bool processes(uint32_t number)
{
    bool good = true;
    for (uint32_t i = 0; good && i < number; i++)
        good = opens(FIRST + i, CROWD_PID + i);
    return good;
}

/* Threads whose calls to the manager nobody has read. */
static bool callers(uint32_t number)
{
    bool good = threads(number);
    for (uint32_t i = 0; good && i < number; i++)
        good = calls(&live, FIRST + i, 0, 0) && reads(&live, FIRST + i);
    return good;
}

/* Calls that two threads make to and fro, each while it serves the one before. */
static bool nested(uint32_t number)
{
    uint32_t caller = FIRST, server = FIRST + 1;
    bool good = opens(caller, CROWD_PID) && gives(caller, 0x2000, CROWD_HANDLE) && attaches(&live, server, MANAGER_PID)
                && enters_loop(&live, server);
    for (uint32_t i = 0; good && i < number; i++)
        good = i % 2 == 0 ? calls(&live, caller, 0, 0) && reads(&live, caller) && takes_and_frees(server)
                          : calls(&live, server, CROWD_HANDLE, 0) && reads(&live, server) && takes_and_frees(caller);
    return good;
}

/* One-way calls on the manager's object, of which one is due. */
static bool queued(uint32_t number)
{
    bool good = true;
    for (uint32_t i = 0; good && i < number; i++)
        good = calls(&live, CLIENT, 0, HULLPIPPIN_TF_ONE_WAY) && reads(&live, CLIENT);
    return good;
}

/* Objects of one process, each of which the manager keeps by a handle. */
static bool kept(uint32_t number)
{
    bool good = opens(FIRST, CROWD_PID);
    for (uint32_t i = 0; good && i < number; i++)
        good = gives(FIRST, 0x10000 + 16u * (uint64_t)i, CROWD_HANDLE + i);
    return good;
}

/* The same objects, of whose death the manager is to be told. */
static bool watched(uint32_t number)
{
    bool good = kept(number);
    for (uint32_t i = 0; good && i < number; i++) {
        hullpippin_command ask = {.code = HULLPIPPIN_BC_REQUEST_DEATH_NOTIFICATION, .handle = CROWD_HANDLE + i, .cookie = i};
        good = runs(&live, MANAGER, &ask, NULL);
    }
    return good;
}

/* Calls that the manager has read and answered, and whose buffers it hasn't freed. */
static uint64_t buffers[100000];

static bool unfreed(uint32_t number)
{
    bool good = number <= sizeof buffers / sizeof buffers[0];
    for (uint32_t i = 0; good && i < number; i++)
        good = calls(&live, CLIENT, 0, 0) && reads(&live, CLIENT) && takes(&live, MANAGER, &buffers[i]) && replies(&live, MANAGER)
               && reads(&live, MANAGER) && takes_and_frees(CLIENT);
    return good;
}

/* Buffers in the manager's window with a hole behind each: of 8 bytes, as an empty parcel takes, but for one in the midst, which has three times
   as many. */
enum { WIDE_HOLE = 24 };

static bool holes(uint32_t number)
{
    bool good = unfreed(number);
    for (uint32_t i = 1; good && i < number; i += 2)
        good = frees(&live, MANAGER, buffers[i]);
    return good && frees(&live, MANAGER, buffers[number / 4 * 2]);
}

/* ---- that it stands still */

/* So many of those that came last are looked at, at most. */
enum { LAST = 1000 };

static uint32_t looked_at(uint32_t number)
{
    return number < LAST ? number : LAST;
}

/* The last threads end. */
static bool leave(uint32_t number)
{
    bool good = true;
    for (uint32_t i = number - looked_at(number); good && i < number; i++)
        good = exits_thread(&live, FIRST + i);
    return good;
}

/* The last calls are replied to, innermost first. */
static bool unwind(uint32_t number)
{
    uint32_t caller = FIRST, server = FIRST + 1;
    bool good = true;
    for (uint32_t i = number; good && i > number - looked_at(number); i--) {
        uint32_t from = i % 2 == 1 ? server : caller, to = i % 2 == 1 ? caller : server;
        good = replies(&live, from) && reads(&live, from) && takes_and_frees(to);
    }
    return good;
}

/* So many of the calls are read. */
static bool drain(uint32_t number)
{
    bool good = true;
    for (uint32_t i = 0; good && i < looked_at(number); i++)
        good = takes_and_frees(MANAGER);
    return good;
}

/* The last objects are let go of. */
static bool let_go(uint32_t number)
{
    bool good = true;
    for (uint32_t i = number - looked_at(number); good && i < number; i++) {
        hullpippin_command release = {.code = HULLPIPPIN_BC_RELEASE, .handle = CROWD_HANDLE + i};
        good = runs(&live, MANAGER, &release, NULL);
    }
    return good;
}

/* The last notifications are taken back, which is confirmed. */
static bool take_back(uint32_t number)
{
    bool good = true;
    for (uint32_t i = number - looked_at(number); good && i < number; i++) {
        hullpippin_command clear = {.code = HULLPIPPIN_BC_CLEAR_DEATH_NOTIFICATION, .handle = CROWD_HANDLE + i, .cookie = i};
        good = runs(&live, MANAGER, &clear, NULL) && reads(&live, MANAGER);
    }
    return good;
}

/* The last buffers are freed. */
static bool free_last(uint32_t number)
{
    bool good = true;
    for (uint32_t i = number - looked_at(number); good && i < number; i++)
        good = frees(&live, MANAGER, buffers[i]);
    return good;
}

/* The last buffers that are there still are freed. */
static bool free_last_of_holes(uint32_t number)
{
    bool good = true;
    for (uint32_t i = (number - looked_at(number)) / 2 * 2; good && i < number; i += 2)
        good = i == number / 4 * 2 || frees(&live, MANAGER, buffers[i]);
    return good;
}

/* ---- that all of it goes at once: who owns the crowd's objects, and who holds them, is counted */

__attribute__((noinline)) bool owner_goes(void);
bool owner_goes(void)
{
    return exits_process(&live, FIRST);
}

__attribute__((noinline)) bool holder_goes(void);
bool holder_goes(void)
{
    return exits_process(&live, MANAGER);
}

static bool nothing_is_left(uint32_t number)
{
    (void)number;
    return true;
}

static bool both_go(uint32_t number)
{
    (void)number;
    return owner_goes() && holder_goes();
}

/* The last thread that leaves ends its process. */
static bool rest_goes(uint32_t number)
{
    return (looked_at(number) == number || owner_goes()) && holder_goes();
}

static bool each_goes(uint32_t number)
{
    bool good = true;
    for (uint32_t i = 0; good && i < number - looked_at(number); i++)
        good = exits_process(&live, FIRST + i);
    return good && exits_process(&live, MANAGER);
}

static bool client_goes(uint32_t number)
{
    (void)number;
    return exits_process(&live, CLIENT) && exits_process(&live, MANAGER);
}

/* A BR_DEAD_BINDER, with its cookie. */
enum { DEATH_SIZE = 12 };

/* The manager is told of each death, and then goes. */
static bool deaths_are_told(uint32_t number)
{
    uint32_t told = 0;
    bool good = owner_goes();
    while (good && hullpippin_live_ready(&live, MANAGER)) {
        good = reads(&live, MANAGER);
        told += (uint32_t)(hullpippin_live_bytes(&live, HULLPIPPIN_STREAM, NULL, 0) / DEATH_SIZE);
    }
    return good && is(told == number - looked_at(number), "not each death is told") && holder_goes();
}

/* ---- rounds */

static bool calls_server(void)
{
    return calls(&live, MANAGER, SERVER_HANDLE, HULLPIPPIN_TF_ONE_WAY) && reads(&live, MANAGER) && takes_and_frees(SERVER)
           && calls(&live, MANAGER, SERVER_HANDLE, 0) && reads(&live, MANAGER) && takes_and_frees(SERVER) && replies(&live, SERVER)
           && reads(&live, SERVER) && takes_and_frees(MANAGER);
}

static bool queues_one_more(void)
{
    return calls(&live, CLIENT, 0, HULLPIPPIN_TF_ONE_WAY) && reads(&live, CLIENT) && takes_and_frees(MANAGER) && calls_server();
}

/* A parcel that fits the wide hole alone, so that this goes and comes between two others; then one that takes the first hole. */
static bool fills_the_wide_hole(void)
{
    static uint8_t bytes[WIDE_HOLE];
    hullpippin_command send = {.code = HULLPIPPIN_BC_TRANSACTION, .transaction = {.flags = HULLPIPPIN_TF_ONE_WAY, .data_size = WIDE_HOLE}};
    return runs(&live, CLIENT, &send, bytes) && reads(&live, CLIENT) && takes_and_frees(MANAGER) && calls_server();
}

/* The parcel of a round: so many objects, and where each lies. */
enum { MOST_OBJECTS = 8192 };

static uint32_t objects;
static uint8_t data[MOST_OBJECTS * OBJECT_SIZE], offsets[MOST_OBJECTS * 8];

/* One-way parcels are sent from now on. */
static bool parcels(uint32_t number)
{
    objects = number;
    return is(number <= MOST_OBJECTS, "a parcel has fewer objects");
}

/* Objects that nobody has seen, where the crowd is parcels. */
static bool fills_parcel(void)
{
    static uint64_t latest = 0x1000000;
    for (size_t i = 0; i < objects; i++) {
        hullpippin_flat_object object = {.kind = HULLPIPPIN_TYPE_BINDER, .binder = latest += 16};
        uint64_t offset = i * OBJECT_SIZE;
        memcpy(offsets + 8 * i, &offset, sizeof offset);
        if (hullpippin_put_object(&object, data + offset, OBJECT_SIZE))
            return fails("the object has no place");
    }
    return true;
}

/* The manager reads the parcel, and frees it. */
static bool sends_parcel(void)
{
    uint64_t buffer;
    uint8_t bytes[CALL_SIZE];
    hullpippin_answer answer;
    size_t data_size = objects * OBJECT_SIZE, offsets_size = objects * 8;
    hullpippin_command send = {.code = HULLPIPPIN_BC_TRANSACTION,
                               .transaction = {.flags = HULLPIPPIN_TF_ONE_WAY, .data_size = data_size, .offsets_size = offsets_size}};
    size_t size = hullpippin_spell_command(&send, bytes, sizeof bytes);
    uint32_t status = hullpippin_live_command(&live, CLIENT, bytes, size, data, data_size, offsets, offsets_size, &answer);
    return is_made(status, &answer, HULLPIPPIN_WROTE) && reads(&live, CLIENT) && takes(&live, MANAGER, &buffer)
           && frees(&live, MANAGER, buffer);
}

static bool (*make)(void) = calls_server;

/* What is counted. */
__attribute__((noinline)) bool round_of(void);
bool round_of(void)
{
    return make();
}

static const struct {
    const char *name;
    bool (*stand)(uint32_t number);
    bool (*make)(void);
    bool (*end)(uint32_t number);
    bool (*go)(uint32_t number);
} CROWDS[] = {
    {"threads", threads, calls_server, leave, rest_goes},     {"processes", processes, calls_server, leave, each_goes},
    {"callers", callers, calls_server, leave, rest_goes},     {"nested", nested, calls_server, unwind, both_go},
    {"queued", queued, queues_one_more, drain, client_goes}, {"kept", kept, calls_server, let_go, both_go},
    {"watched", watched, calls_server, take_back, deaths_are_told}, {"unfreed", unfreed, calls_server, free_last, client_goes},
    {"holes", holes, fills_the_wide_hole, free_last_of_holes, client_goes},
    {"parcel", parcels, sends_parcel, nothing_is_left, client_goes},
};

static bool (*end)(uint32_t number) = leave;
static bool (*go)(uint32_t number) = both_go;

static bool stands(const char *name, uint32_t number)
{
    bool good = is_done(hullpippin_live_new(SEATS, &live)) && opens(MANAGER, MANAGER_PID) && opens(CLIENT, CLIENT_PID)
                && opens(SERVER, SERVER_PID);
    hullpippin_answer answer;
    good = good && is_made(hullpippin_live_manager(&live, MANAGER, &answer), &answer, HULLPIPPIN_SET) && enters_loop(&live, MANAGER)
           && enters_loop(&live, SERVER) && gives(SERVER, 0x1000, SERVER_HANDLE);
    for (size_t i = 0; i < sizeof CROWDS / sizeof CROWDS[0]; i++)
        if (!strcmp(CROWDS[i].name, name)) {
            make = CROWDS[i].make;
            end = CROWDS[i].end;
            go = CROWDS[i].go;
            return good && CROWDS[i].stand(number);
        }
    return fails("no such crowd");
}

int main(int count, char **words)
{
    bool good = count >= 4 && stands(words[1], (uint32_t)strtoul(words[2], NULL, 10));
    for (unsigned long left = good ? strtoul(words[3], NULL, 10) : 0; good && left > 0; left--)
        good = fills_parcel() && round_of();
    good = good && end((uint32_t)strtoul(words[2], NULL, 10)) && (count > 4 || go((uint32_t)strtoul(words[2], NULL, 10)));
    if (!good)
        fprintf(stderr, "crowds: %s\n", complaint ? complaint : "crowds CROWD NUMBER ROUNDS [stay]");
    return good ? 0 : 1;
}
