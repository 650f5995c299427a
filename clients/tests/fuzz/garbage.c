/* SPDX-License-Identifier: Apache-2.0 OR MIT */
/*
 * garbage SECONDS SEED aidl|hidl: requests of a context manager that are nearly right: a header that is mostly true,
 * and behind it names, numbers, objects and buffers in any order, whose sizes lie. Every so often the manager has to
 * answer a ping.
 */
#include "../raw/raw.h"
#include "hostile.h"

#include <stdio.h>
#include <stdlib.h>
#include <string.h>

#define AIDL_HEADER "android.os.IServiceManager"
#define HIDL_HEADER "android.hidl.manager@1.0::IServiceManager"
#define AIDL_PING B_PACK_CHARS('_', 'P', 'N', 'G')
#define HIDL_PING B_PACK_CHARS(0x0f, 'P', 'N', 'G')

/* What buffers point at. */
static uint64_t memory[64];

static void write_header(struct writer *writer, bool is_hidl)
{
    uint8_t units[2 * sizeof AIDL_HEADER] = {0}, text[(sizeof HIDL_HEADER + 3) / 4 * 4] = HIDL_HEADER;
    for (size_t i = 0; i < sizeof AIDL_HEADER - 1; i++)
        units[2 * i] = (uint8_t)AIDL_HEADER[i];
    if (!is_hidl)
        write_number(writer, 0);
    if (!is_hidl && !below(3))
        write_number(writer, UINT32_MAX);
    for (size_t i = 0; is_hidl && i < sizeof text; i += 4) {
        uint32_t word;
        memcpy(&word, text + i, sizeof word);
        write_number(writer, word);
    }
    if (!is_hidl)
        write_name(writer, units, below(8) ? sizeof units - 2 : 2 * below(20));
}

/* A string or a vector of them, where the pointers in memory may lead anywhere. */
static void write_some_buffer(struct writer *writer, int *buffers)
{
    size_t size = below(3) ? 16 : 8 * below(16);
    int parent = *buffers && below(2) ? (int)below((uint32_t)*buffers) : -1;
    memory[0] = odd_number(); /* unless a buffer that has this one for its parent puts its own address there */
    memory[1] = below(2) ? below(40) : odd_number();
    *buffers = write_buffer(writer, memory, size, parent, below(4) ? 0 : 8 * below(8)) + 1;
}

static void write_anything(struct writer *writer, int *buffers)
{
    uint8_t name[64];
    switch (below(7)) {
    case 0:
        write_number(writer, (uint32_t)odd_number());
        break;
    case 1:
        fill(name, sizeof name);
        write_name(writer, name, 2 * below(32));
        break;
    case 2:
        write_own_object(writer, 0x1000 + 16 * below(8), 0);
        break;
    case 3:
        write_no_object(writer);
        break;
    default:
        write_some_buffer(writer, buffers);
    }
}

static void ask(struct client *client, bool is_hidl)
{
    struct writer writer = {0};
    struct binder_transaction_data reply;
    int buffers = 0;
    if (below(16))
        write_header(&writer, is_hidl);
    for (uint32_t i = below(8); i; i--)
        write_anything(&writer, &buffers);
    uint32_t code = below(8) ? 1 + below(6) : (uint32_t)odd_number();
    if (raw_call_with(&client->looper, (struct call){.code = code}, &writer, &reply) == BR_REPLY)
        looper_free(&client->looper, &reply);
}

static void ping(struct client *client, bool is_hidl)
{
    struct binder_transaction_data reply;
    uint32_t code = is_hidl ? HIDL_PING : AIDL_PING;
    CHECK(raw_call(&client->looper, (struct call){.code = code}, &reply) == BR_REPLY, "the manager doesn't answer any more");
    looper_free(&client->looper, &reply);
}

int main(int argc, char **argv)
{
    unsigned seconds = argc > 1 ? (unsigned)atoi(argv[1]) : 5;
    bool is_hidl = argc > 3 && !strcmp(argv[3], "hidl");
    struct client client;
    unsigned long requests = 0;
    raw_begin(seconds + 20);
    chance_begin(argc > 2 ? strtoull(argv[2], NULL, 10) : 1);
    raw_open(&client, WINDOW, NULL);
    for (double end = raw_now() + seconds * 1e6; raw_now() < end; requests++) {
        ask(&client, is_hidl);
        if (requests % 64 == 0)
            ping(&client, is_hidl);
    }
    printf("%lu requests\n", requests);
    return 0;
}
