/* SPDX-License-Identifier: Apache-2.0 OR MIT */
/*
 * told: who of a process is told of an object that it sends, and in which order, as with Linux's driver. Of what two threads
 * send to one receiver, before either has read that it was taken, the first is told; and what a parcel has weakly and then
 * strongly is told behind what stands between the two.
 */
#include "raw.h"

#include <pthread.h>
#include <semaphore.h>
#include <stdio.h>
#include <string.h>
#include <sys/ioctl.h>
#include <unistd.h>

enum { TAKE = 1, WAIT };

#define MOST 8

/* A return, and the object that it tells of; 0 for none. */
struct told {
    uint32_t code;
    binder_uintptr_t ptr;
};

static struct gate *gate;

static void serve(struct looper *looper, const struct binder_transaction_data *call)
{
    if (call->code == WAIT) {
        raw_keep(looper, call);
        CHECK(raw_pass(gate), "nobody lets go of it");
    }
    if (!(call->flags & TF_ONE_WAY))
        raw_answer(looper, NULL, 0);
}

static void send_objects(int fd, uint32_t code, uint32_t flags, const struct flat_binder_object *objects, size_t count)
{
    binder_size_t offsets[MOST];
    struct commands commands = {0};
    struct binder_transaction_data call = {.code = code, .flags = flags};
    for (size_t i = 0; i < count; i++)
        offsets[i] = i * sizeof *objects;
    call.data_size = count * sizeof *objects;
    call.offsets_size = count * sizeof *offsets;
    call.data.ptr.buffer = (uintptr_t)objects;
    call.data.ptr.offsets = (uintptr_t)offsets;
    put_record(&commands, BC_TRANSACTION, &call);
    struct binder_write_read both = {.write_size = commands.size, .write_buffer = (uintptr_t)commands.bytes};
    CHECK(!ioctl(fd, BINDER_WRITE_READ, &both) && both.write_consumed == commands.size, "can't write");
}

/* Whether a read gets just these. */
static bool reads(int fd, const struct told *wanted, size_t count)
{
    uint8_t room[512];
    struct binder_write_read both = {.read_size = sizeof room, .read_buffer = (uintptr_t)room};
    CHECK(!ioctl(fd, BINDER_WRITE_READ, &both), "can't read");
    struct returns returns = {room, room + both.read_consumed};
    const uint8_t *payload;
    bool is_right = true;
    size_t found = 0;
    for (struct told it = {0}; next_return(&returns, &it.code, &payload);) {
        if (it.code == BR_NOOP)
            continue;
        it.ptr = 0;
        if (it.code == BR_INCREFS || it.code == BR_ACQUIRE)
            memcpy(&it.ptr, payload, sizeof it.ptr);
        is_right = is_right && found < count && it.code == wanted[found].code && it.ptr == wanted[found].ptr;
        found++;
    }
    return is_right && found == count;
}

static struct client client;
static sem_t has_sent, has_read;

static const struct flat_binder_object first = {.hdr.type = BINDER_TYPE_BINDER, .binder = 0x1000, .cookie = 0x1001};
static const struct flat_binder_object second = {.hdr.type = BINDER_TYPE_BINDER, .binder = 0x4000, .cookie = 0x4001};
static const struct flat_binder_object weak = {.hdr.type = BINDER_TYPE_WEAK_BINDER, .binder = 0x2000, .cookie = 0x2001};
static const struct flat_binder_object strong = {.hdr.type = BINDER_TYPE_BINDER, .binder = 0x2000, .cookie = 0x2001};
static const struct flat_binder_object between = {.hdr.type = BINDER_TYPE_BINDER, .binder = 0x3000, .cookie = 0x3001};

/* Its call waits until the others are done, and what it leaves is read with the reply. */
static void *send_first(void *with)
{
    static const struct told wanted[] = {{BR_INCREFS, 0x1000}, {BR_ACQUIRE, 0x1000}, {BR_TRANSACTION_COMPLETE, 0}, {BR_REPLY, 0}};
    send_objects(client.binder.fd, WAIT, 0, &first, 1);
    sem_post(&has_sent);
    CHECK(reads(client.binder.fd, wanted, 4), "who has sent an object first isn't told of it");
    return with;
}

static const struct told taken[] = {{BR_TRANSACTION_COMPLETE, 0}};

/* Sends an object after the other thread, and reads once that has read. */
static void *send_after(void *with)
{
    send_objects(client.binder.fd, TAKE, TF_ONE_WAY, &second, 1);
    sem_post(&has_sent);
    while (sem_wait(&has_read))
        ;
    CHECK(reads(client.binder.fd, taken, 1), "who has sent an object after another thread, and reads after it, is told of it");
    return with;
}

static pthread_t start(void *(*body)(void *))
{
    pthread_t thread;
    CHECK(!pthread_create(&thread, NULL, body, NULL), "no thread");
    while (sem_wait(&has_sent))
        ;
    return thread;
}

static void first_is_told(void)
{
    static const struct told wanted[] = {{BR_INCREFS, 0x4000}, {BR_ACQUIRE, 0x4000}, {BR_TRANSACTION_COMPLETE, 0}};
    send_objects(client.binder.fd, TAKE, TF_ONE_WAY, &first, 1);
    CHECK(reads(client.binder.fd, taken, 1), "who has sent an object after another thread is told of it");
    send_objects(client.binder.fd, TAKE, TF_ONE_WAY, &second, 1);
    pthread_t other = start(send_after);
    CHECK(reads(client.binder.fd, wanted, 3), "who has sent an object before another thread isn't told of it");
    sem_post(&has_read);
    pthread_join(other, NULL);
}

static void strong_is_behind(void)
{
    static const struct told wanted[] = {{BR_INCREFS, 0x3000}, {BR_ACQUIRE, 0x3000}, {BR_INCREFS, 0x2000}, {BR_ACQUIRE, 0x2000},
                                         {BR_TRANSACTION_COMPLETE, 0}};
    const struct flat_binder_object objects[] = {weak, between, strong};
    send_objects(client.binder.fd, TAKE, TF_ONE_WAY, objects, 3);
    CHECK(reads(client.binder.fd, wanted, 5), "objects of a parcel are told of in another order");
}

int main(void)
{
    raw_begin(30);
    gate = raw_new_gate();
    pid_t manager = raw_start_manager(serve);
    raw_open(&client, WINDOW, NULL);
    CHECK(!sem_init(&has_sent, 0, 0) && !sem_init(&has_read, 0, 0), "no semaphore");
    pthread_t waiter = start(send_first); /* which the receiver is busy with meanwhile, so that it lets go of nothing */
    first_is_told();
    strong_is_behind();
    atomic_store(&gate->is_open, true);
    pthread_join(waiter, NULL);
    printf("the first to send is told, what is strong behind what was\n");
    raw_kill(manager);
    return 0;
}
