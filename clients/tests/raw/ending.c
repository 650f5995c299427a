/* SPDX-License-Identifier: Apache-2.0 OR MIT */
/*
 * ending handles|deaths|calls COUNT: the longest call while a process ends that holds so many of another's objects, and has asked with
 * `deaths` to be told of their owner's death too, or that has so many one-way calls which it hasn't read. Prints how much of the daemon's
 * time one of them took until it was held, and `ended` with the longest call, in microseconds, once nothing is held any more, or after two
 * seconds. It waits to be ended then: the owner's end would take its time too.
 * `ending owner COUNT` is the end of the owner, of whose objects another has asked to hear.
 */
#include "raw.h"

#include <pthread.h>
#include <signal.h>
#include <stdatomic.h>
#include <stdio.h>
#include <stdlib.h>
#include <string.h>
#include <sys/ioctl.h>
#include <sys/mman.h>
#include <sys/wait.h>
#include <unistd.h>

#define LARGE_WINDOW ((size_t)4 << 20)
#define OBJECTS 256u
/* Who ends is waited for in vain after so many microseconds. */
#define PATIENCE 30e6

static struct {
    _Atomic uint64_t held, gone; /* by who ends; of which the owner has heard that nobody holds them any more */
} *counts;
static size_t count;
static _Thread_local size_t heard; /* that an object is referred to */
static bool asks_for_deaths, are_calls, is_owners;

struct exchange {
    struct binder *binder;
    uint8_t out[4096], in[4096];
    size_t size;
};

static void flush(struct exchange *exchange)
{
    struct binder_write_read write = {.write_size = exchange->size, .write_buffer = (uintptr_t)exchange->out};
    CHECK(!ioctl(exchange->binder->fd, BINDER_WRITE_READ, &write) && write.write_consumed == exchange->size, "can't write");
    exchange->size = 0;
}

static void put(struct exchange *exchange, uint32_t code, const void *payload)
{
    if (exchange->size + sizeof code + _IOC_SIZE(code) > sizeof exchange->out)
        flush(exchange);
    memcpy(exchange->out + exchange->size, &code, sizeof code);
    memcpy(exchange->out + exchange->size + sizeof code, payload, _IOC_SIZE(code));
    exchange->size += sizeof code + _IOC_SIZE(code);
}

static void make(struct exchange *exchange, void (*take)(struct exchange *exchange, uint32_t code, const uint8_t *payload))
{
    struct binder_write_read both = {.write_size = exchange->size, .write_buffer = (uintptr_t)exchange->out,
                                     .read_size = sizeof exchange->in, .read_buffer = (uintptr_t)exchange->in};
    CHECK(!ioctl(exchange->binder->fd, BINDER_WRITE_READ, &both), "an exchange failed");
    exchange->size = 0;
    struct returns returns = {exchange->in, exchange->in + both.read_consumed};
    uint32_t code;
    const uint8_t *payload;
    while (next_return(&returns, &code, &payload))
        take(exchange, code, payload);
}

/* --- Who holds much. --- */

static void keep_objects(struct exchange *exchange, const struct binder_transaction_data *record)
{
    for (size_t i = 0; i < record->offsets_size / sizeof(binder_size_t); i++) {
        struct flat_binder_object object;
        memcpy(&object, (const uint8_t *)raw_data(record) + i * sizeof object, sizeof object);
        put(exchange, BC_ACQUIRE, &object.handle);
        const struct binder_handle_cookie asked = {.handle = object.handle, .cookie = object.handle};
        if (asks_for_deaths)
            put(exchange, BC_REQUEST_DEATH_NOTIFICATION, &asked);
        atomic_fetch_add(&counts->held, 1);
    }
}

static void hold(struct exchange *exchange, uint32_t code, const uint8_t *payload)
{
    struct binder_transaction_data record;
    if (code != BR_TRANSACTION)
        return;
    memcpy(&record, payload, sizeof record);
    keep_objects(exchange, &record);
    put(exchange, BC_FREE_BUFFER, &record.data.ptr.buffer);
    flush(exchange);
}

static void hold_all(void *with)
{
    static struct client client;
    static struct exchange exchange;
    (void)with;
    raw_open(&client, LARGE_WINDOW, NULL);
    raw_give(&client, RAW_KEEP);
    exchange.binder = &client.binder;
    put(&exchange, BC_ENTER_LOOPER, NULL);
    raw_ready();
    while (are_calls)
        pause();
    for (;;)
        make(&exchange, hold);
}

/* --- Who owns the objects. --- */

static void hear(struct exchange *exchange, uint32_t code, const uint8_t *payload)
{
    heard += code == BR_INCREFS || code == BR_ACQUIRE;
    if (code == BR_INCREFS || code == BR_ACQUIRE)
        put(exchange, code == BR_INCREFS ? BC_INCREFS_DONE : BC_ACQUIRE_DONE, payload);
    else if (code == BR_DECREFS)
        atomic_fetch_add(&counts->gone, 1);
    if (exchange->size > sizeof exchange->out / 2)
        flush(exchange);
}

static void *hear_all(void *with)
{
    static struct exchange exchange;
    exchange.binder = with;
    put(&exchange, BC_ENTER_LOOPER, NULL);
    for (;;)
        make(&exchange, hear);
    return NULL;
}

static void send_one(struct exchange *exchange, uint32_t handle, size_t objects)
{
    static struct flat_binder_object all[OBJECTS];
    static binder_size_t offsets[OBJECTS];
    static binder_uintptr_t latest = 0x10000;
    for (size_t i = 0; i < objects; i++) {
        latest += 16;
        all[i] = (struct flat_binder_object){.hdr.type = BINDER_TYPE_BINDER, .binder = latest, .cookie = latest};
        offsets[i] = i * sizeof *all;
    }
    struct binder_transaction_data record = {.target.handle = handle, .flags = TF_ONE_WAY, .data_size = objects * sizeof *all,
                                             .offsets_size = objects * sizeof *offsets, .data.ptr.buffer = (uintptr_t)all,
                                             .data.ptr.offsets = (uintptr_t)offsets};
    put(exchange, BC_TRANSACTION, &record);
    make(exchange, hear);
}

static void own_all(void *with)
{
    static struct client client;
    static struct exchange exchange;
    pthread_t thread;
    (void)with;
    raw_open(&client, WINDOW, NULL);
    uint32_t handle = raw_fetch(&client);
    CHECK(looper_flush(&client.looper) && !pthread_create(&thread, NULL, hear_all, &client.binder), "no thread");
    exchange.binder = &client.binder;
    for (size_t sent = 0; sent < count; sent += are_calls ? 1 : OBJECTS) {
        while (!are_calls && sent > atomic_load(&counts->held) + 4 * OBJECTS)
            usleep(100);
        send_one(&exchange, handle, are_calls ? 0 : OBJECTS);
        while (!are_calls && heard < 2 * (sent + OBJECTS))
            make(&exchange, hear);
    }
    flush(&exchange);
    while (!are_calls && atomic_load(&counts->held) < count)
        usleep(1000);
    raw_ready();
    for (;;)
        pause();
}

/* --- Who calls meanwhile. --- */

static double longest_until_gone(struct client *client, pid_t holder)
{
    double longest = 0, begin = raw_now();
    CHECK(!kill(holder, SIGKILL) && waitpid(holder, NULL, 0) == holder, "can't end it");
    while (are_calls || is_owners ? raw_now() - begin < 2e6 : atomic_load(&counts->gone) < count) {
        struct binder_transaction_data reply;
        double start = raw_now();
        CHECK(start - begin < PATIENCE, "%llu of %zu objects are let go of", (unsigned long long)atomic_load(&counts->gone), count);
        CHECK(raw_call(&client->looper, (struct call){0}, &reply) == BR_REPLY, "a call failed");
        longest = raw_now() - start > longest ? raw_now() - start : longest;
        looper_free(&client->looper, &reply);
    }
    return longest;
}

int main(int argc, char **argv)
{
    static struct client client;
    CHECK(argc >= 3, "ending handles|deaths|calls|owner COUNT");
    is_owners = !strcmp(argv[1], "owner"), are_calls = !strcmp(argv[1], "calls");
    asks_for_deaths = !strcmp(argv[1], "deaths") || is_owners;
    count = strtoul(argv[2], NULL, 10);
    counts = mmap(NULL, sizeof *counts, PROT_READ | PROT_WRITE, MAP_SHARED | MAP_ANONYMOUS, -1, 0);
    CHECK(counts != MAP_FAILED, "no memory");
    raw_begin(120);
    raw_start_keeper();
    raw_open(&client, WINDOW, NULL);
    double used = raw_daemon() ? raw_daemon_time() : 0;
    pid_t holder = raw_start(hold_all, NULL), owner = raw_start(own_all, NULL);
    printf("each %.3f\n", raw_daemon() ? (raw_daemon_time() - used) / (double)count : 0);
    printf("ended %.1f\n", longest_until_gone(&client, is_owners ? owner : holder));
    pause();
    return 0;
}
