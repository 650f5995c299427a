/* SPDX-License-Identifier: Apache-2.0 OR MIT */
/*
 * heavy COUNT [PROCESSES [UID]]: what a call takes beside processes that send one-way parcels of so many objects to themselves, each object
 * one that nobody has seen. One (1) sends as fast as it can, of several each sends a parcel and sleeps; with a user they are that one's.
 * Who calls sleeps between two calls too. Prints how much of the daemon's time an object takes, one of a small parcel and until it is gone
 * again, in microseconds; the median alone and beside them, the 99th of 100 and the longest, how many parcels were taken, and in
 * how many seconds.
 */
#include "raw.h"

#include <errno.h>
#include <fcntl.h>
#include <pthread.h>
#include <signal.h>
#include <stdatomic.h>
#include <stdio.h>
#include <stdlib.h>
#include <string.h>
#include <sys/ioctl.h>
#include <sys/mman.h>
#include <sys/prctl.h>
#include <unistd.h>

#define LARGE_WINDOW ((size_t)4 << 20)
#define MOST_OBJECTS 8192u
#define MOST_PROCESSES 64
/* Calls that are measured, and how long is slept between two of them. */
#define CALLS 700
#define PAUSE_MICROSECONDS 1000
/* So long sleeps one of several who send. */
#define REST_MICROSECONDS 60000
/* Not measured: the first calls find nothing mapped yet. */
#define WARM 20

/* Objects of a small parcel, and of how many such what they take is told. */
#define FEW_OBJECTS 64u
#define SMALL_PARCELS 200u

/* So many parcels of who sends are under way at most: what the daemon has of them isn't what is measured. */
#define UNDER_WAY 2

static _Atomic uint64_t *parcels; /* that were taken of all who send */
static _Atomic uint64_t sent, freed; /* of this process: that were taken, and that were given back */
static size_t count, processes = 1;
static uid_t user;

/* --- One exchange with the device, by as many commands and returns as it takes at once. --- */

struct exchange {
    struct binder *binder;
    uint8_t out[4096], in[4096];
    size_t size;
};

static void put(struct exchange *exchange, uint32_t code, const void *payload)
{
    memcpy(exchange->out + exchange->size, &code, sizeof code);
    memcpy(exchange->out + exchange->size + sizeof code, payload, _IOC_SIZE(code));
    exchange->size += sizeof code + _IOC_SIZE(code);
}

/* What the owner of an object, or who has got a parcel, owes for that. */
static void acknowledge(struct exchange *exchange, uint32_t code, const uint8_t *payload)
{
    struct binder_transaction_data record;
    if (code == BR_INCREFS || code == BR_ACQUIRE) {
        put(exchange, code == BR_INCREFS ? BC_INCREFS_DONE : BC_ACQUIRE_DONE, payload);
    } else if (code == BR_TRANSACTION) {
        memcpy(&record, payload, sizeof record);
        put(exchange, BC_FREE_BUFFER, &record.data.ptr.buffer);
        atomic_fetch_add(&freed, 1);
    } else if (code == BR_TRANSACTION_COMPLETE) {
        atomic_fetch_add(parcels, 1);
        atomic_fetch_add(&sent, 1);
    }
}

/* Writes, and reads what there is: false where there is nothing. */
static bool make(struct exchange *exchange)
{
    struct binder_write_read both = {.write_size = exchange->size, .write_buffer = (uintptr_t)exchange->out,
                                     .read_size = sizeof exchange->in, .read_buffer = (uintptr_t)exchange->in};
    int status = ioctl(exchange->binder->fd, BINDER_WRITE_READ, &both);
    CHECK(status == 0 || errno == EAGAIN, "an exchange failed");
    exchange->size -= both.write_consumed;
    memmove(exchange->out, exchange->out + both.write_consumed, exchange->size);
    struct returns returns = {exchange->in, exchange->in + both.read_consumed};
    uint32_t code;
    const uint8_t *payload;
    while (next_return(&returns, &code, &payload))
        acknowledge(exchange, code, payload);
    return status == 0;
}

/* --- Who sends itself parcels with objects. --- */

static void *take_all(void *with)
{
    static struct exchange exchange;
    exchange.binder = &((struct client *)with)->binder;
    uint32_t code = BC_ENTER_LOOPER;
    put(&exchange, code, NULL);
    while (make(&exchange))
        ;
    raw_fail(__FILE__, __LINE__, "what comes isn't taken any more");
}

/* Each object's number is a new one. */
static struct binder_transaction_data parcel_of(uint32_t handle)
{
    static struct flat_binder_object objects[MOST_OBJECTS];
    static binder_size_t offsets[MOST_OBJECTS];
    static binder_uintptr_t latest = 0x10000;
    for (size_t i = 0; i < count; i++) {
        latest += 16;
        objects[i] = (struct flat_binder_object){.hdr.type = BINDER_TYPE_BINDER, .binder = latest, .cookie = latest};
        offsets[i] = i * sizeof *objects;
    }
    return (struct binder_transaction_data){.target.handle = handle, .flags = TF_ONE_WAY, .data_size = count * sizeof *objects,
                                            .offsets_size = count * sizeof *offsets, .data.ptr.buffer = (uintptr_t)objects,
                                            .data.ptr.offsets = (uintptr_t)offsets};
}

static void be_user(void)
{
    if (user)
        CHECK(!setgid(user) && !setuid(user) && !prctl(PR_SET_DUMPABLE, 1) && !prctl(PR_SET_PDEATHSIG, SIGKILL), "can't be user %u", user);
}

/* The one open file has an object that the manager keeps, and takes what comes; the other one sends. */
static void send_objects(void *with)
{
    static struct client sink, sender;
    static struct exchange exchange;
    pthread_t thread;
    be_user();
    raw_open(&sink, LARGE_WINDOW, with);
    raw_open(&sender, LARGE_WINDOW, NULL);
    raw_give(&sink, RAW_KEEP);
    uint32_t handle = raw_fetch(&sender);
    CHECK(looper_flush(&sender.looper) && !pthread_create(&thread, NULL, take_all, &sink), "no sink");
    CHECK(!fcntl(sender.binder.fd, F_SETFL, O_NONBLOCK), "it waits");
    exchange.binder = &sender.binder;
    put(&exchange, BC_ENTER_LOOPER, NULL); /* else nobody reads that its objects aren't used any more, and they stay */
    raw_ready();
    for (;; usleep(processes > 1 ? REST_MICROSECONDS : 0)) {
        struct binder_transaction_data parcel = parcel_of(handle);
        while (exchange.size || atomic_load(&sent) - atomic_load(&freed) >= UNDER_WAY)
            if (!make(&exchange))
                usleep(20);
        put(&exchange, BC_TRANSACTION, &parcel);
        while (make(&exchange))
            ;
    }
}

/* --- Who calls. --- */

struct found {
    double median, last, longest;
};

static double call_once(struct client *client)
{
    struct binder_transaction_data reply;
    usleep(PAUSE_MICROSECONDS);
    double start = raw_now();
    CHECK(raw_call(&client->looper, (struct call){0}, &reply) == BR_REPLY, "a call failed");
    double took = raw_now() - start;
    looper_free(&client->looper, &reply);
    return took;
}

static struct found measure(struct client *client)
{
    static double times[CALLS];
    for (size_t i = 0; i < WARM; i++)
        call_once(client);
    for (size_t i = 0; i < CALLS; i++)
        times[i] = call_once(client);
    struct spread spread = raw_spread(times, CALLS);
    return (struct found){spread.median, spread.last, times[CALLS - 1]};
}

static double cost_of_object(void)
{
    const size_t wanted = count, of_them = processes;
    count = FEW_OBJECTS, processes = 1;
    pid_t sender = raw_start(send_objects, NULL);
    double used = raw_daemon_time();
    uint64_t before = atomic_load(parcels), sent_since;
    while ((sent_since = atomic_load(parcels) - before) < SMALL_PARCELS)
        usleep(1000);
    double cost = (raw_daemon_time() - used) / (double)(sent_since * FEW_OBJECTS);
    raw_kill(sender);
    raw_daemon_rests();
    count = wanted, processes = of_them;
    atomic_store(parcels, 0);
    return cost;
}

int main(int argc, char **argv)
{
    static struct client client;
    pid_t senders[MOST_PROCESSES];
    CHECK(argc >= 2, "heavy COUNT [PROCESSES [UID]]");
    count = strtoul(argv[1], NULL, 10);
    processes = argc > 2 ? strtoul(argv[2], NULL, 10) : 1;
    user = argc > 3 ? (uid_t)strtoul(argv[3], NULL, 10) : 0;
    CHECK(count <= MOST_OBJECTS && processes && processes <= MOST_PROCESSES, "%zu objects, %zu processes", count, processes);
    parcels = mmap(NULL, sizeof *parcels, PROT_READ | PROT_WRITE, MAP_SHARED | MAP_ANONYMOUS, -1, 0);
    CHECK(parcels != MAP_FAILED, "no memory");
    raw_begin(60);
    pid_t manager = raw_start_keeper();
    raw_open(&client, WINDOW, NULL);
    double object = raw_daemon() ? cost_of_object() : 0;
    struct found alone = measure(&client);
    double begin = raw_now();
    for (size_t i = 0; i < processes; i++)
        senders[i] = raw_start(send_objects, NULL);
    struct found beside = measure(&client);
    for (size_t i = 0; i < processes; i++)
        raw_kill(senders[i]);
    printf("object %.3f alone %.1f beside %.1f last %.1f longest %.1f parcels %llu seconds %.3f\n", object, alone.median, beside.median,
           beside.last, beside.longest, (unsigned long long)atomic_load(parcels), (raw_now() - begin) / 1e6);
    raw_kill(manager);
    return 0;
}
