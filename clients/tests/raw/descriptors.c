/* SPDX-License-Identifier: Apache-2.0 OR MIT */
/*
 * descriptors [TIMES]: a descriptor goes to the server, which reads through it and sends one back, as often as asked.
 * In the end nobody has more open than after the first hundred: not the client, the server or the daemon between
 * them. The client has tried before its mmap, and was refused: nothing of that comes with what it sends later. (Linux's driver takes a
 * write then, and refuses this call for the handle, which nobody has.)
 */
#include "raw.h"

#include <errno.h>
#include <fcntl.h>
#include <stdio.h>
#include <stdlib.h>
#include <string.h>
#include <sys/mman.h>
#include <sys/stat.h>
#include <unistd.h>

#define WARM 100

enum { GIVE = 1, PASS, COUNT };

/* The descriptor that a parcel carries; whoever reads the parcel has it open from then on. */
static int received(const struct binder_transaction_data *record)
{
    struct binder_fd_object object;
    CHECK(record->data_size >= sizeof object, "%llu bytes in place of a descriptor", (unsigned long long)record->data_size);
    memcpy(&object, raw_data(record), sizeof object);
    CHECK(object.hdr.type == BINDER_TYPE_FD, "an object of type %x", object.hdr.type);
    return (int)object.fd;
}

/* A pipe's end from which one number can be read. */
static int holding(uint32_t number)
{
    int ends[2];
    CHECK(!pipe2(ends, O_CLOEXEC) && write(ends[1], &number, sizeof number) == sizeof number, "no pipe");
    close(ends[1]);
    return ends[0];
}

static uint32_t taken_from(int descriptor)
{
    uint32_t number;
    CHECK(descriptor > 2 && read(descriptor, &number, sizeof number) == sizeof number, "nothing in descriptor %d", descriptor);
    close(descriptor);
    return number;
}

static void serve(struct looper *looper, const struct binder_transaction_data *call)
{
    struct writer writer = {0};
    int back = -1;
    if (call->code == COUNT) {
        uint32_t count = (uint32_t)raw_descriptors(getpid());
        raw_answer(looper, &count, sizeof count);
        return;
    }
    /* the manager's own object takes no descriptors, so there is another that does */
    if (call->code == GIVE)
        write_own_object(&writer, 0x1000, 0x1000);
    else
        write_descriptor(&writer, back = holding(taken_from(received(call)) + 1));
    struct binder_transaction_data answer = record_of(&writer);
    CHECK(looper_answer(looper, &answer, 0), "can't answer");
    writer_free(&writer);
    if (back >= 0)
        close(back);
}

static void pass(struct client *client, uint32_t handle, uint32_t number)
{
    struct writer writer = {0};
    struct binder_transaction_data reply;
    int given = holding(number);
    write_descriptor(&writer, given);
    CHECK(raw_call_with(&client->looper, (struct call){.handle = handle, .code = PASS}, &writer, &reply) == BR_REPLY,
          "descriptor %u wasn't passed", number);
    close(given);
    uint32_t back = taken_from(received(&reply));
    CHECK(back == number + 1, "%u came back for %u", back, number);
    looper_free(&client->looper, &reply);
}

/* Sends a descriptor before there is a window, which is refused, and then maps one. */
static void open_late(struct client *client)
{
    struct writer writer = {0};
    struct binder_transaction_data reply;
    int given = holding(0), fd = open(raw_device(), O_RDWR | O_CLOEXEC);
    CHECK(fd >= 0, "can't open %s", raw_device());
    client->binder = (struct binder){.fd = fd, .size = WINDOW};
    raw_looper(&client->looper, client, NULL);
    write_descriptor(&writer, given);
    uint32_t ending = raw_call_with(&client->looper, (struct call){.handle = 99, .code = PASS}, &writer, &reply);
    CHECK(ending == BR_FAILED_REPLY || (!ending && errno == EINVAL), "a call without a window ended as %x", ending);
    close(given);
    void *window = mmap(NULL, WINDOW, PROT_READ, MAP_PRIVATE, fd, 0);
    CHECK(window != MAP_FAILED, "no window");
    client->binder.window = window;
    raw_looper(&client->looper, client, NULL);
}

/* How many descriptors client, server and daemon have open. */
struct counts {
    size_t client, server, daemon;
};

static struct counts count(struct client *client)
{
    uint32_t server = raw_ask(&client->looper, (struct call){.code = COUNT});
    pid_t daemon = raw_daemon();
    return (struct counts){raw_descriptors(getpid()), server, daemon ? raw_descriptors(daemon) : 0};
}

int main(int argc, char **argv)
{
    struct client client;
    struct binder_transaction_data reply;
    uint32_t times = argc > 1 ? (uint32_t)atoi(argv[1]) : 10000;
    raw_begin(120);
    pid_t manager = raw_start_manager(serve);
    open_late(&client);
    CHECK(raw_call(&client.looper, (struct call){.code = GIVE}, &reply) == BR_REPLY, "no object came");
    uint32_t handle = raw_keep(&client.looper, &reply);
    looper_free(&client.looper, &reply);
    for (uint32_t i = 0; i < WARM; i++)
        pass(&client, handle, i);
    struct counts before = count(&client);
    for (uint32_t i = 0; i < times; i++)
        pass(&client, handle, i);
    struct counts after = count(&client);
    CHECK(after.client == before.client, "the client has %zu descriptors after %zu", after.client, before.client);
    CHECK(after.server == before.server, "the server has %zu descriptors after %zu", after.server, before.server);
    CHECK(after.daemon == before.daemon, "the daemon has %zu descriptors after %zu", after.daemon, before.daemon);
    printf("%u times there and back, %zu open here, %zu there, %zu between\n", times, after.client, after.server, after.daemon);
    raw_kill(manager);
    return 0;
}
