/* SPDX-License-Identifier: Apache-2.0 OR MIT */
/*
 * parcels [LARGEST]: of many sizes, there and back the same, also where they are larger than the page by which small ones go;
 * one past the receiver's window is refused, and harms none that comes after it. Their flags come as they were written.
 */
#include "raw.h"

#include <stdio.h>
#include <stdlib.h>
#include <string.h>

/* All but the two that ask for something: that the call is one-way, and another update of one. */
#define ALL_FLAGS (UINT32_MAX & ~(uint32_t)TF_ONE_WAY & ~0x40u)

enum { ECHO = 0, FLAGS = 1 };

static void echo(struct looper *looper, const struct binder_transaction_data *call)
{
    struct binder_transaction_data empty = {.flags = ALL_FLAGS};
    if (call->code == FLAGS) {
        CHECK(call->flags == ALL_FLAGS, "the flags %x have come as %x", ALL_FLAGS, call->flags);
        CHECK(looper_answer(looper, &empty, 0), "can't answer");
        return;
    }
    raw_answer(looper, raw_data(call), call->data_size);
}

static uint8_t *filled(size_t size)
{
    uint8_t *bytes = malloc(size + 1);
    CHECK(bytes, "no memory");
    for (size_t i = 0; i < size; i++)
        bytes[i] = (uint8_t)(i * 7 + i / 251);
    return bytes;
}

/* The server gives a call's buffer back with its next read: once it serves another call, all of its window is free. */
static void let_it_free(struct client *client)
{
    struct binder_transaction_data reply;
    CHECK(raw_call(&client->looper, (struct call){0}, &reply) == BR_REPLY, "a call without bytes wasn't answered");
    looper_free(&client->looper, &reply);
}

static void there_and_back(struct client *client, size_t size)
{
    struct binder_transaction_data reply;
    uint8_t *bytes = filled(size);
    let_it_free(client);
    uint32_t ending = raw_call(&client->looper, (struct call){.bytes = bytes, .size = size}, &reply);
    CHECK(ending == BR_REPLY, "%zu bytes ended as %x", size, ending);
    CHECK(reply.data_size == size && !memcmp(raw_data(&reply), bytes, size), "%zu bytes came back otherwise", size);
    looper_free(&client->looper, &reply);
    free(bytes);
}

static void past_the_window(struct client *client, size_t size)
{
    struct binder_transaction_data reply;
    uint8_t *bytes = filled(size);
    uint32_t ending = raw_call(&client->looper, (struct call){.bytes = bytes, .size = size}, &reply);
    CHECK(ending == BR_FAILED_REPLY, "%zu bytes into a window of %zu ended as %x", size, WINDOW, ending);
    free(bytes);
}

/* The caller's window is small: an answer past it fails the answerer's reply and the caller's call. */
static void past_the_callers_window(void)
{
    struct client small;
    struct binder_transaction_data reply;
    uint8_t *bytes = filled(600000);
    raw_open(&small, 65536, NULL);
    uint32_t ending = raw_call(&small.looper, (struct call){.bytes = bytes, .size = 600000}, &reply);
    CHECK(ending == BR_FAILED_REPLY, "an answer of 600000 bytes into a window of 65536 ended as %x", ending);
    there_and_back(&small, 1000);
    binder_close(&small.binder);
    free(bytes);
}

static void flags_cross(struct client *client)
{
    struct binder_transaction_data reply;
    CHECK(raw_call(&client->looper, (struct call){.code = FLAGS, .flags = ALL_FLAGS}, &reply) == BR_REPLY, "the flags weren't taken");
    CHECK(reply.flags == ALL_FLAGS, "the flags %x have come back as %x", ALL_FLAGS, reply.flags);
    looper_free(&client->looper, &reply);
}

int main(int argc, char **argv)
{
    size_t largest = argc > 1 ? strtoul(argv[1], NULL, 10) : WINDOW;
    static const size_t sizes[] = {0, 1, 3, 4, 100, 4095, 4096, 32768, 65535, 65536, 65537, 100000, 600000, 1000000};
    struct client client;
    raw_begin(30);
    pid_t manager = raw_start_manager(echo);
    raw_open(&client, WINDOW, NULL);
    for (int turn = 0; turn < 3; turn++)
        for (size_t i = 0; i < sizeof sizes / sizeof *sizes && sizes[i] <= largest; i++)
            there_and_back(&client, sizes[i]);
    for (int turn = 0; turn < 3 && largest >= WINDOW; turn++) {
        past_the_window(&client, WINDOW + 8);
        past_the_window(&client, 3 * WINDOW);
        past_the_window(&client, 20 * WINDOW);
        there_and_back(&client, 600000);
    }
    if (largest >= WINDOW) {
        past_the_callers_window();
        there_and_back(&client, 600000);
    }
    flags_cross(&client);
    printf("up to %zu bytes, and none past a window\n", largest >= WINDOW ? (size_t)1000000 : largest);
    raw_kill(manager);
    return 0;
}
