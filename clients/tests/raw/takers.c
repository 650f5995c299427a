/* SPDX-License-Identifier: Apache-2.0 OR MIT */
/*
 * takers: as with Linux's driver descriptors go to nobody who hasn't said that it takes them: an object, be it the context manager's, by
 * its flags as its owner sends it first, a caller by those of its call. Else the parcel is refused, by itself or in an array; of a reply
 * its caller is told so.
 * Who sends and who is sent to have nothing more open than before.
 */
#include "raw.h"

#include <errno.h>
#include <fcntl.h>
#include <poll.h>
#include <stdio.h>
#include <string.h>
#include <unistd.h>


/* What a call wants of its server: to say how many descriptors it has, to be answered with one or an array of one, or to be called back
   before that. */
enum { COUNT = 1, KEEP, ANSWER_ONE, ANSWER_ARRAY, CALL_BACK, CALL_AGAIN };

/* By itself, or in an array, which lies in a buffer. */
static void write_one(struct writer *writer, bool in_array, const uint32_t *descriptor)
{
    write_number(writer, 1);
    if (in_array)
        write_descriptors(writer, 1, write_buffer(writer, descriptor, sizeof *descriptor, -1, 0), 0);
    else
        write_descriptor(writer, (int)*descriptor);
}

static void answer_with(struct looper *looper, bool in_array)
{
    struct writer writer = {0};
    const uint32_t descriptor = STDOUT_FILENO;
    write_one(&writer, in_array, &descriptor);
    struct binder_transaction_data answer = record_of(&writer);
    CHECK(looper_answer(looper, &answer, writer.buffers), "can't answer");
    writer_free(&writer);
}

static uint32_t kept;

static void call_back(struct looper *looper)
{
    struct binder_transaction_data reply;
    CHECK(raw_call(looper, (struct call){.handle = kept, .code = CALL_AGAIN}, &reply) == BR_REPLY, "nobody is called back");
    looper_free(looper, &reply);
    answer_with(looper, false);
}

static void serve(struct looper *looper, const struct binder_transaction_data *call)
{
    uint32_t count = (uint32_t)raw_descriptors(getpid());
    switch (call->code) {
    case ANSWER_ONE:
    case ANSWER_ARRAY:
        answer_with(looper, call->code == ANSWER_ARRAY);
        break;
    case CALL_BACK:
        call_back(looper);
        break;
    case KEEP:
        kept = raw_keep(looper, call);
        raw_answer(looper, NULL, 0);
        break;
    default:
        raw_answer(looper, &count, sizeof count);
    }
}

/* Whether nobody has the other end of a pipe any more. */
static bool is_over(int reading)
{
    struct pollfd file = {.fd = reading, .events = POLLIN};
    bool is_so = poll(&file, 1, RAW_PATIENCE) == 1 && file.revents == POLLHUP;
    close(reading);
    return is_so;
}

/* Sends an object the writing end of a pipe: how that ends, and the reading end, of which nobody else has the other one. */
static uint32_t send_to(struct client *client, uint32_t handle, bool in_array, int *reading)
{
    struct writer writer = {0};
    struct binder_transaction_data reply;
    int ends[2];
    CHECK(!pipe2(ends, O_CLOEXEC), "no pipe");
    const uint32_t writing = (uint32_t)ends[1];
    write_one(&writer, in_array, &writing);
    uint32_t ending = raw_call_with(&client->looper, (struct call){.handle = handle, .code = COUNT}, &writer, &reply);
    if (ending == BR_REPLY)
        looper_free(&client->looper, &reply);
    close(ends[1]);
    *reading = ends[0];
    return ending;
}

static uint32_t send_one(struct client *client, bool in_array, int *reading)
{
    return send_to(client, 0, in_array, reading);
}

static void are_refused_by_manager(struct client *client)
{
    uint32_t before = raw_ask(&client->looper, (struct call){.code = COUNT});
    for (int in_array = 0; in_array < 2; in_array++) {
        int reading;
        CHECK(send_one(client, in_array, &reading) == BR_FAILED_REPLY, "a manager is sent a descriptor that it doesn't take");
        CHECK(is_over(reading), "a descriptor that was refused is open still");
    }
    uint32_t after = raw_ask(&client->looper, (struct call){.code = COUNT});
    CHECK(after == before, "the manager has %u descriptors after %u", after, before);
}

/* How a call ends that is answered with a descriptor. */
static uint32_t ask_for_one(struct looper *looper, uint32_t code, uint32_t flags)
{
    struct binder_transaction_data reply;
    uint32_t ending = raw_call(looper, (struct call){.code = code, .flags = flags}, &reply);
    if (ending == BR_REPLY)
        looper_free(looper, &reply);
    return ending;
}

/* The client's object is called while it waits: its own call meanwhile takes no descriptor, and that one does. */
static void call_again(struct looper *looper, const struct binder_transaction_data *call)
{
    CHECK(call->code == CALL_AGAIN, "a call of another code");
    CHECK(ask_for_one(looper, ANSWER_ONE, 0) == BR_FAILED_REPLY, "a call within one that takes a descriptor gets one");
    raw_answer(looper, NULL, 0);
}

static void come_to_who_takes_them(struct client *client)
{
    for (uint32_t code = ANSWER_ONE; code <= ANSWER_ARRAY; code++) {
        size_t before = raw_descriptors(getpid());
        CHECK(ask_for_one(&client->looper, code, 0) == BR_FAILED_REPLY, "a caller gets a descriptor that it doesn't take");
        CHECK(raw_descriptors(getpid()) == before, "a caller has a descriptor of a refused reply");
        CHECK(ask_for_one(&client->looper, code, TF_ACCEPT_FDS) == BR_REPLY, "a caller gets no descriptor that it takes");
    }
    raw_give(client, KEEP);
    CHECK(ask_for_one(&client->looper, CALL_BACK, TF_ACCEPT_FDS) == BR_REPLY, "a caller that was called back gets none that it takes");
}

/* Objects of a service by what is so of them; each is the pointer of its own. */
enum { TAKES = 0x1000, TAKES_NONE = 0x2000, TAKES_NONE_AT_FIRST = 0x3000 };

static void give(struct client *client, binder_uintptr_t pointer, uint32_t flags)
{
    struct binder_transaction_data reply;
    struct flat_binder_object object = {.hdr.type = BINDER_TYPE_BINDER, .flags = flags, .binder = pointer, .cookie = pointer};
    binder_size_t offset = 0;
    struct binder_transaction_data call = {.code = RAW_KEEP, .data_size = sizeof object, .offsets_size = sizeof offset,
                                           .data.ptr = {.buffer = (uintptr_t)&object, .offsets = (uintptr_t)&offset}};
    CHECK(looper_call(&client->looper, &call, 0, &reply) == BR_REPLY, "an object isn't taken");
    looper_free(&client->looper, &reply);
}

/* A service whose objects are as their owner said when it first sent them, whatever it says later. */
static void serve_objects(void *with)
{
    static const struct { binder_uintptr_t pointer; uint32_t flags; } all[] = {
        {TAKES, FLAT_BINDER_FLAG_ACCEPTS_FDS}, {TAKES_NONE, 0}, {TAKES_NONE_AT_FIRST, 0},
        {TAKES_NONE_AT_FIRST, FLAT_BINDER_FLAG_ACCEPTS_FDS}, {TAKES, 0},
    };
    struct client client;
    (void)with;
    raw_open(&client, WINDOW, serve);
    for (size_t i = 0; i < sizeof all / sizeof *all; i++)
        give(&client, all[i].pointer, all[i].flags);
    raw_ready();
    looper_run(&client.looper);
    raw_fail(__FILE__, __LINE__, "the service's device failed");
}

/* The manager that keeps what it is given, and hands it over: the first, and each the next time. */
static uint32_t handles[8], handle_count;

static void keep_all(struct looper *looper, const struct binder_transaction_data *call)
{
    static uint32_t handed;
    struct writer writer = {0};
    if (call->code == RAW_KEEP && handle_count < 8)
        handles[handle_count++] = raw_keep(looper, call);
    else
        write_strong_handle(&writer, handles[handed++]);
    struct binder_transaction_data answer = record_of(&writer);
    CHECK(looper_answer(looper, &answer, 0), "can't answer");
    writer_free(&writer);
}

static void go_to_objects_that_take_them(void)
{
    static const char *const said[] = {"that takes them", "that takes none", "that took none at first"};
    struct client client;
    int reading;
    pid_t manager = raw_start_manager(keep_all), service = raw_start(serve_objects, NULL);
    raw_open(&client, WINDOW, NULL);
    for (uint32_t i = 0; i < 3; i++) {
        uint32_t handle = raw_fetch(&client);
        for (int in_array = 0; in_array < 2; in_array++) {
            uint32_t ending = send_to(&client, handle, in_array, &reading);
            CHECK(ending == (i ? BR_FAILED_REPLY : BR_REPLY), "a descriptor to an object %s ends with %08x", said[i], ending);
            close(reading);
        }
    }
    uint32_t count = raw_ask(&client.looper, (struct call){.handle = raw_fetch(&client), .code = COUNT});
    CHECK(count < 20, "a service has %u descriptors", count);
    raw_kill(service);
    raw_kill(manager);
}

/* The one before may be it still for a moment. */
static void manage_taking(void *with)
{
    struct client client;
    double begin = raw_now();
    (void)with;
    raw_open(&client, WINDOW, serve);
    while (!raw_become_taking_manager(&client.binder))
        CHECK(errno == EBUSY && raw_now() - begin < 2e6, "can't be a context manager that takes descriptors");
    raw_ready();
    looper_run(&client.looper);
    raw_fail(__FILE__, __LINE__, "the manager's device failed");
}

int main(void)
{
    struct client client;
    int reading[2];
    raw_begin(60);
    pid_t manager = raw_start_manager(serve);
    raw_open(&client, WINDOW, call_again);
    are_refused_by_manager(&client);
    come_to_who_takes_them(&client);
    binder_close(&client.binder);
    raw_kill(manager);
    manager = raw_start(manage_taking, NULL);
    raw_open(&client, WINDOW, NULL);
    for (int in_array = 0; in_array < 2; in_array++)
        CHECK(send_one(&client, in_array, &reading[in_array]) == BR_REPLY, "a manager that takes descriptors gets none");
    raw_kill(manager);
    CHECK(is_over(reading[0]) && is_over(reading[1]), "a descriptor is open still whose taker has ended");
    binder_close(&client.binder);
    go_to_objects_that_take_them();
    printf("none go to who doesn't take them\n");
    return 0;
}
