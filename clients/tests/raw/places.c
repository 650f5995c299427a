/* SPDX-License-Identifier: Apache-2.0 OR MIT */
/*
 * places: a descriptor that its receiver doesn't read yet waits for it, whatever others send meanwhile: many more descriptors, on
 * another device, which are refused once too many of a process are on their way (Linux's driver has no such bound); and parcels that
 * end as if they were the daemon's own, naming each step that may have sent it. Those come as they were sent. Descriptors whose receiver
 * has ended go with it.
 */
#include "raw.h"

#include <fcntl.h>
#include <stdio.h>
#include <string.h>
#include <unistd.h>

#define OTHER_DEVICE "/dev/hwbinder"
#define PARCELS 40
#define DESCRIPTORS 240
#define STEPS 400

enum { ECHO = 0, LEAVE, FETCH, TAKE };

static uint32_t left;

static void manage(struct looper *looper, const struct binder_transaction_data *call)
{
    struct writer writer = {0};
    if (call->code == LEAVE)
        left = raw_keep(looper, call);
    if (call->code == FETCH)
        write_strong_handle(&writer, left);
    struct binder_transaction_data answer = record_of(&writer);
    if (call->code == ECHO)
        raw_answer(looper, raw_data(call), call->data_size);
    else
        CHECK(looper_answer(looper, &answer, 0), "can't answer");
    writer_free(&writer);
}

/* Where the receiver is told to read, and whether it has read. */
static int begins[2];

static bool has_come;

static void take(struct looper *looper, const struct binder_transaction_data *call)
{
    struct binder_fd_object object;
    (void)looper;
    memcpy(&object, raw_data(call), sizeof object);
    CHECK(call->code == TAKE && object.hdr.type == BINDER_TYPE_FD, "no descriptor, but %x", object.hdr.type);
    CHECK(write((int)object.fd, "r", 1) == 1, "descriptor %d isn't the one that was sent", (int)object.fd);
    has_come = true;
}

static void receive_late(void *with)
{
    struct client client;
    struct turn turn;
    char byte;
    (void)with;
    raw_open(&client, WINDOW, take);
    raw_give(&client, LEAVE);
    CHECK(looper_flush(&client.looper), "can't write");
    raw_ready();
    CHECK(read(begins[0], &byte, 1) == 1, "nobody lets it begin");
    put_code(&client.looper.commands, BC_ENTER_LOOPER);
    while (!has_come)
        CHECK(looper_turn(&client.looper, &turn), "can't read");
}

/* Sends the writing end of a pipe, of which the other stays here. */
static int send_one(struct client *client, uint32_t handle)
{
    struct writer writer = {0};
    struct binder_transaction_data none;
    int ends[2];
    CHECK(!pipe2(ends, O_CLOEXEC), "no pipe");
    write_descriptor(&writer, ends[1]);
    CHECK(raw_call_with(&client->looper, (struct call){.handle = handle, .code = TAKE, .flags = TF_ONE_WAY}, &writer, &none)
              == BR_TRANSACTION_COMPLETE, "the descriptor wasn't taken");
    close(ends[1]);
    return ends[0];
}

/* As objects.h of the daemon has it. */
static void forge(struct client *client)
{
    struct {
        uint64_t words[9];
        struct {
            uint64_t data_size, offsets_size, extra_size;
            uint32_t step, descriptor_count, euid, nothing;
            char mark[8];
        } end;
    } data = {.end = {24, 8, 0, 0, 1, 0, 0, "trailer"}};
    const struct binder_fd_object object = {.hdr.type = BINDER_TYPE_FD};
    memcpy(data.words, &object, sizeof object);
    for (; data.end.step < STEPS; data.end.step++) {
        struct binder_transaction_data reply;
        CHECK(raw_call(&client->looper, (struct call){.code = ECHO, .bytes = &data, .size = sizeof data}, &reply) == BR_REPLY, "no echo");
        CHECK(reply.data_size == sizeof data && !memcmp(raw_data(&reply), &data, sizeof data), "%llu other bytes came back for step %u",
              (unsigned long long)reply.data_size, data.end.step);
        looper_free(&client->looper, &reply);
    }
}

static void stay(void *with)
{
    struct client client;
    (void)with;
    CHECK(binder_open(&client.binder, OTHER_DEVICE, WINDOW) && raw_become_taking_manager(&client.binder), "no manager of " OTHER_DEVICE);
    raw_ready();
    pause();
}

static void open_other(void)
{
    struct binder other;
    CHECK(binder_open(&other, OTHER_DEVICE, WINDOW), "can't open " OTHER_DEVICE);
    binder_close(&other);
}

/* Tells how many of the parcels were taken. */
static uint32_t send_many(void)
{
    struct client client;
    struct binder_transaction_data none;
    uint32_t taken = 0;
    int descriptor = open("/dev/null", O_RDONLY | O_CLOEXEC);
    pid_t other = raw_start(stay, NULL);
    CHECK(binder_open(&client.binder, OTHER_DEVICE, WINDOW), "can't open " OTHER_DEVICE);
    raw_looper(&client.looper, &client, NULL);
    for (int i = 0; i < PARCELS; i++) {
        struct writer writer = {0};
        for (int j = 0; j < DESCRIPTORS; j++)
            write_descriptor(&writer, descriptor);
        taken += raw_call_with(&client.looper, (struct call){.flags = TF_ONE_WAY}, &writer, &none) == BR_TRANSACTION_COMPLETE;
    }
    raw_kill(other);
    binder_close(&client.binder);
    close(descriptor);
    return taken;
}

/* What nobody will read any more the daemon has let go of. */
static void has_let_go(size_t before)
{
    size_t now = before;
    for (int i = 0; i < RAW_PATIENCE && (!i || now > before); i++, usleep(1000))
        now = raw_daemon() ? raw_descriptors(raw_daemon()) : before;
    CHECK(now <= before, "the daemon has %zu descriptors after %zu", now, before);
}

int main(void)
{
    struct client client;
    struct binder_transaction_data reply;
    char byte;
    raw_begin(60);
    CHECK(!pipe(begins), "no pipe");
    pid_t manager = raw_start_manager(manage), receiver = raw_start(receive_late, NULL);
    raw_open(&client, WINDOW, NULL);
    CHECK(raw_call(&client.looper, (struct call){.code = FETCH}, &reply) == BR_REPLY, "no object came");
    uint32_t handle = raw_keep(&client.looper, &reply);
    looper_free(&client.looper, &reply);
    int reading = send_one(&client, handle);
    forge(&client);
    open_other(); /* then the daemon has what the device takes */
    size_t before = raw_daemon() ? raw_descriptors(raw_daemon()) : 0;
    uint32_t taken = send_many();
    has_let_go(before);
    CHECK(taken < PARCELS, "none of %d parcels of %d descriptors was refused", PARCELS, DESCRIPTORS);
    CHECK(write(begins[1], "b", 1) == 1, "can't let it begin");
    raw_join(receiver);
    CHECK(read(reading, &byte, 1) == 1, "nothing was written to the descriptor");
    printf("a descriptor has come though %u parcels of %d others were taken after it\n", taken, DESCRIPTORS);
    raw_kill(manager);
    return 0;
}
