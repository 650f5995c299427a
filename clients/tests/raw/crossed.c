/* SPDX-License-Identifier: Apache-2.0 OR MIT */
/*
 * crossed SECONDS [IDLE]: parcels that are on their way at once stay apart. A process calls a service again and again with objects
 * and buffers, of which the daemon keeps some beside the engine: one alone, so that the service often waits. Another one calls an
 * echo, each time by a handle that it has just got, which has the daemon look for who is called, and for all that is to be read by
 * others, before the call. In the same write stands a one-way call of the service before it, with a buffer, which is to be read once the
 * write is done: read between the two, it would come where the other one's parcel lies. Those that only wait make all that take its time, and
 * the daemon is stopped now and then, so that what all want of it comes at once. That goes on for so many seconds, and for LEAST calls.
 */
#include "raw.h"

#include <stdio.h>
#include <stdlib.h>
#include <string.h>
#include <unistd.h>

enum { KEEP_SINK = 1, KEEP_ECHO, HAND_SINK, HAND_ECHO };

#define BYTES 3000
#define LITTLE 64
#define MOST 512
#define LEAST 300
#define STOPPED 5000 /* microseconds */

static uint32_t kept[2];

static void manage(struct looper *looper, const struct binder_transaction_data *call)
{
    struct writer writer = {0};
    if (call->code == KEEP_SINK || call->code == KEEP_ECHO)
        kept[call->code - KEEP_SINK] = raw_keep(looper, call);
    else
        write_strong_handle(&writer, kept[call->code - HAND_SINK]);
    struct binder_transaction_data answer = record_of(&writer);
    CHECK(looper_answer(looper, &answer, 0), "can't answer");
    writer_free(&writer);
}

static void echo(struct looper *looper, const struct binder_transaction_data *call)
{
    raw_answer(looper, raw_data(call), call->data_size);
}

static void run_echo(void *with)
{
    struct client client;
    (void)with;
    raw_open(&client, WINDOW, echo);
    raw_give(&client, KEEP_ECHO);
    raw_ready();
    looper_run(&client.looper);
}

static void run_sink(void *with)
{
    struct client client;
    (void)with;
    raw_open(&client, WINDOW, NULL);
    raw_give(&client, KEEP_SINK);
    raw_ready();
    looper_run(&client.looper);
}

static void wait_idle(void *with)
{
    struct client client;
    (void)with;
    raw_open(&client, WINDOW, NULL);
    put_code(&client.looper.commands, BC_ENTER_LOOPER);
    CHECK(looper_flush(&client.looper), "can't enter the loop");
    raw_ready();
    looper_run(&client.looper);
}

static uint32_t fetch_sink(struct client *client)
{
    struct binder_transaction_data reply;
    CHECK(raw_call(&client->looper, (struct call){.code = HAND_SINK}, &reply) == BR_REPLY, "no service is handed over");
    uint32_t handle = raw_keep(&client->looper, &reply);
    looper_free(&client->looper, &reply);
    return handle;
}

static void send_on(void *with)
{
    static uint8_t bytes[BYTES];
    struct client client;
    struct binder_transaction_data reply;
    (void)with;
    memset(bytes, 0xee, sizeof bytes);
    raw_open(&client, WINDOW, NULL);
    uint32_t handle = fetch_sink(&client);
    raw_ready();
    for (;;) {
        struct writer writer = {0};
        write_buffer(&writer, bytes, sizeof bytes, -1, 0);
        write_own_object(&writer, 0x1000, 0x1000);
        CHECK(raw_call_with(&client.looper, (struct call){.handle = handle}, &writer, &reply) == BR_REPLY, "a parcel isn't taken");
        looper_free(&client.looper, &reply);
    }
}

static void hold_up(void *with)
{
    (void)with;
    raw_ready();
    for (;;) {
        raw_stop_daemon();
        usleep(STOPPED);
        raw_continue_daemon();
        usleep(STOPPED);
    }
}

/* A one-way call, which stands before whatever is written next. */
static void put_one_way(struct looper *looper, uint32_t handle, struct writer *writer)
{
    static const uint8_t bytes[LITTLE];
    write_buffer(writer, bytes, sizeof bytes, -1, 0);
    struct binder_transaction_data call = record_of(writer);
    CHECK(!writer->failed, "no memory");
    call.target.handle = handle;
    call.flags |= TF_ONE_WAY;
    put_record_sg(&looper->commands, BC_TRANSACTION_SG, &call, writer->buffers);
}

/* The handle isn't kept, so that it is another one, or means something else, with each turn. */
static void call_echo(struct client *client, uint32_t sink, uint32_t number)
{
    static uint32_t bytes[BYTES / sizeof(uint32_t)];
    struct binder_transaction_data handed, reply;
    struct flat_binder_object object;
    struct writer writer = {0};
    CHECK(raw_call(&client->looper, (struct call){.code = HAND_ECHO}, &handed) == BR_REPLY, "no echo is handed over");
    memcpy(&object, raw_data(&handed), sizeof object);
    for (size_t i = 0; i < sizeof bytes / sizeof *bytes; i++)
        bytes[i] = number + (uint32_t)i;
    struct call call = {.handle = object.handle, .bytes = bytes, .size = sizeof bytes};
    put_one_way(&client->looper, sink, &writer);
    CHECK(raw_call(&client->looper, call, &reply) == BR_REPLY, "call %u wasn't answered", number);
    CHECK(reply.data_size == sizeof bytes && !memcmp(raw_data(&reply), bytes, sizeof bytes),
          "the echo of call %u has other bytes", number);
    looper_free(&client->looper, &reply);
    looper_free(&client->looper, &handed);
    writer_free(&writer);
}

int main(int argc, char **argv)
{
    double until = (argc > 1 ? atof(argv[1]) : 2) * 1e6;
    size_t idle = argc > 2 ? strtoul(argv[2], NULL, 10) : 64, count = 0;
    pid_t all[MOST];
    struct client client;
    uint32_t calls = 0;
    raw_begin(120);
    CHECK(idle + 6 <= MOST, "too many");
    all[count++] = raw_start_manager(manage);
    all[count++] = raw_start(run_echo, NULL);
    for (size_t i = 0; i < idle; i++)
        all[count++] = raw_start(wait_idle, NULL);
    all[count++] = raw_start(run_sink, NULL);
    all[count++] = raw_start(send_on, NULL);
    raw_open(&client, WINDOW, NULL);
    uint32_t sink = fetch_sink(&client);
    if (raw_daemon())
        all[count++] = raw_start(hold_up, NULL);
    for (until += raw_now(); calls < LEAST || raw_now() < until; calls++)
        call_echo(&client, sink, calls);
    printf("%u calls beside one that sends parcels with buffers\n", calls);
    while (count)
        raw_kill(all[--count]);
    if (raw_daemon())
        raw_continue_daemon();
    return 0;
}
