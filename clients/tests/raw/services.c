/* SPDX-License-Identifier: Apache-2.0 OR MIT */
/*
 * services [COUNT]: registers so many services, each of a process of its own, with a context manager that speaks AIDL and runs
 * already, finds and lists them all, and calls one. A call takes no longer with all of them than with one; a look-up, whose reply
 * carries an object, not many times as long. When their owners die all are gone.
 */
#include "raw.h"

#include <stdio.h>
#include <stdlib.h>
#include <string.h>
#include <unistd.h>

enum { CHECK_SERVICE = 2, ADD_SERVICE = 3, LIST_SERVICES = 4 };

#define NAME_ROOM 64
#define ROUNDS 3000
#define MOST 1000u

static void write_ascii(struct writer *writer, const char *text)
{
    uint8_t units[2 * NAME_ROOM] = {0};
    size_t length = strlen(text);
    for (size_t i = 0; i < length; i++)
        units[2 * i] = (uint8_t)text[i];
    write_name(writer, units, 2 * length);
}

static struct writer request(void)
{
    struct writer writer = {0};
    write_number(&writer, 0); /* strict mode */
    write_ascii(&writer, "android.os.IServiceManager");
    return writer;
}

static const char *name_of(uint32_t number, char name[NAME_ROOM])
{
    snprintf(name, NAME_ROOM, "test.service.%u", number);
    return name;
}

static void add(struct client *client, uint32_t number)
{
    struct writer writer = request();
    struct binder_transaction_data reply;
    char name[NAME_ROOM];
    write_ascii(&writer, name_of(number, name));
    write_own_object(&writer, 0x1000 + 16 * (uint64_t)number, number);
    CHECK(raw_call_with(&client->looper, (struct call){.code = ADD_SERVICE}, &writer, &reply) == BR_REPLY, "%s", name);
    CHECK(raw_number(&reply) == 0, "%s wasn't added", name);
    looper_free(&client->looper, &reply);
}

/* Tells the number of the object that is called, which its cookie is. */
static void tell_number(struct looper *looper, const struct binder_transaction_data *call)
{
    uint32_t number = (uint32_t)call->cookie;
    raw_answer(looper, &number, sizeof number);
}

static void own(void *with)
{
    struct client client;
    raw_open(&client, WINDOW, tell_number);
    add(&client, *(uint32_t *)with);
    raw_ready();
    looper_run(&client.looper);
}

/* The process that owns each service. */
static pid_t owners[MOST];

static void start_owners(uint32_t from, uint32_t to)
{
    for (uint32_t i = from; i < to; i++)
        owners[i] = raw_start(own, &i);
}

/* The handle of a service, 0 where there is none. */
static uint32_t find(struct client *client, uint32_t number)
{
    struct writer writer = request();
    struct binder_transaction_data reply;
    char name[NAME_ROOM];
    write_ascii(&writer, name_of(number, name));
    CHECK(raw_call_with(&client->looper, (struct call){.code = CHECK_SERVICE}, &writer, &reply) == BR_REPLY, "%s", name);
    uint32_t handle = reply.offsets_size ? raw_keep(&client->looper, &reply) : 0;
    looper_free(&client->looper, &reply);
    return handle;
}

static void let_go(struct client *client, uint32_t handle)
{
    put_handle(&client->looper.commands, BC_RELEASE, handle);
}

/* Whether there is a service of that number in the list; its name doesn't matter. */
static bool listed(struct client *client, uint32_t index)
{
    struct writer writer = request();
    struct binder_transaction_data reply;
    write_number(&writer, index);
    CHECK(raw_call_with(&client->looper, (struct call){.code = LIST_SERVICES}, &writer, &reply) == BR_REPLY, "list %u", index);
    looper_free(&client->looper, &reply);
    return !(reply.flags & TF_STATUS_CODE);
}

static uint32_t count(struct client *client)
{
    uint32_t index = 0;
    while (listed(client, index))
        index++;
    return index;
}

/* Medians: of calls of a service, and of look-ups of one among them all. */
struct cost {
    double call, find;
};

static struct cost measure(struct client *client, uint32_t number, uint32_t handle)
{
    static double calls[ROUNDS], finds[ROUNDS];
    for (size_t i = 0; i < ROUNDS; i++) {
        double start = raw_now();
        CHECK(raw_ask(&client->looper, (struct call){.handle = handle}) == number, "another service was called");
        calls[i] = raw_now() - start;
    }
    for (size_t i = 0; i < ROUNDS; i++) {
        double start = raw_now();
        let_go(client, find(client, number));
        finds[i] = raw_now() - start;
    }
    return (struct cost){raw_spread(calls, ROUNDS).median, raw_spread(finds, ROUNDS).median};
}

static void all_are_there(struct client *client, uint32_t many)
{
    CHECK(count(client) == many, "%u of %u services are listed", count(client), many);
    for (uint32_t i = 0; i < many; i++) {
        uint32_t handle = find(client, i);
        CHECK(handle && raw_ask(&client->looper, (struct call){.handle = handle}) == i, "service %u isn't what it was", i);
        if (i)
            let_go(client, handle);
    }
    CHECK(!find(client, many), "there is a service that nobody added");
}

/* Ends the owners behind the first ones, and sees that their services go, and no others. */
static void all_go(struct client *client, uint32_t many, uint32_t left)
{
    uint32_t there = left + 1;
    for (uint32_t i = left; i < many; i++)
        raw_kill(owners[i]);
    for (int turn = 0; turn < RAW_PATIENCE && there != left; turn++, usleep(1000))
        there = count(client);
    CHECK(there == left, "%u services are left after a death, in place of %u", there, left);
}

int main(int argc, char **argv)
{
    uint32_t many = argc > 1 ? (uint32_t)atoi(argv[1]) : 300;
    struct client client;
    CHECK(many && many <= MOST, "%u services", many);
    raw_begin(170); /* a busy machine takes its time for so many processes */
    start_owners(0, 1);
    raw_open(&client, WINDOW, NULL);
    uint32_t handle = find(&client, 0);
    CHECK(handle, "the first service isn't there");
    struct cost before = measure(&client, 0, handle);
    start_owners(1, many);
    all_are_there(&client, many);
    struct cost after = measure(&client, 0, handle);
    printf("call %.1f then %.1f find %.1f then %.1f with %u services\n", before.call, after.call, before.find, after.find, many);
    all_go(&client, many, 1);
    all_go(&client, 1, 0);
    return 0;
}
