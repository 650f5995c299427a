/* SPDX-License-Identifier: Apache-2.0 OR MIT */
/*
 * marked FOLDER: the load of a device whose recording is to be killed. Two processes of three threads each call a server of three
 * threads: two-way, with objects that are called back, descriptors, buffers and large parcels, one-way, and by a handle that
 * nobody has; others give the server an object and die. Each call's parcel begins with a mark, its thread and its number there,
 * and in FOLDER each thread notes when it was answered, and how often the mark has to stand in a recording then. Goes on until
 * the device is gone.
 */
#include "raw.h"

#include <fcntl.h>
#include <pthread.h>
#include <stdio.h>
#include <stdlib.h>
#include <string.h>
#include <time.h>
#include <unistd.h>

#define CALLERS 2
#define CALLER_THREADS 3
#define SERVER_THREADS 3
#define SERVER_WINDOW ((size_t)4 << 20)
#define MARK_ROOM 24
#define LARGEST 60000
/* A large parcel is one of so many. */
#define SELDOM 64
#define NO_HANDLE 99999

enum { ECHO, ONE_WAY, CALL_BACK, DESCRIPTOR, BUFFERS, NOWHERE, KINDS, LARGE, GIVE, KEEP, BACK };

/* The parcel of a two-way call and its reply are sent and read with the mark, so a recording has it four times. */
#define TIMES_OF_BOTH 4

/* As the test reads it (recordings.py). */
struct answered {
    uint64_t nanoseconds;
    uint32_t number, times;
};

/* --- The server --- */

static struct client server;

static void forget(struct looper *looper, binder_uintptr_t cookie)
{
    put_handle(&looper->commands, BC_RELEASE, (uint32_t)cookie);
}

static void give(struct looper *looper)
{
    struct writer writer = {0};
    write_own_object(&writer, 0x1000, 0x1000);
    struct binder_transaction_data answer = record_of(&writer);
    CHECK(looper_answer(looper, &answer, 0), "can't answer");
    writer_free(&writer);
}

static void call_back(struct looper *looper, const struct binder_transaction_data *call)
{
    struct binder_transaction_data reply;
    uint32_t handle = raw_keep(looper, call);
    struct call back = {.handle = handle, .code = BACK, .bytes = raw_data(call), .size = MARK_ROOM};
    if (raw_call(looper, back, &reply) == BR_REPLY)
        looper_free(looper, &reply);
    put_handle(&looper->commands, BC_RELEASE, handle);
}

static void close_received(const struct binder_transaction_data *call)
{
    struct binder_fd_object object;
    memcpy(&object, (const uint8_t *)raw_data(call) + MARK_ROOM, sizeof object);
    CHECK(object.hdr.type == BINDER_TYPE_FD && !close((int)object.fd), "no descriptor came");
}

static void serve(struct looper *looper, const struct binder_transaction_data *call)
{
    looper->died = forget;
    if (call->code == GIVE)
        return give(looper);
    if (call->code == KEEP) {
        uint32_t handle = raw_keep(looper, call);
        put_death(&looper->commands, BC_REQUEST_DEATH_NOTIFICATION, handle, handle);
    } else if (call->code == CALL_BACK) {
        call_back(looper, call);
    } else if (call->code == DESCRIPTOR) {
        close_received(call);
    }
    if (!(call->flags & TF_ONE_WAY))
        raw_answer(looper, raw_data(call), call->code == LARGE ? call->data_size : MARK_ROOM);
}

static void *serve_further(void *with)
{
    struct looper looper;
    raw_looper(&looper, &server, serve);
    looper_run(&looper);
    return with;
}

static void run_server(void *with)
{
    (void)with;
    raw_open(&server, SERVER_WINDOW, serve);
    CHECK(binder_become_manager(&server.binder), "can't be the context manager");
    for (size_t i = 1; i < SERVER_THREADS; i++) {
        pthread_t thread;
        CHECK(!pthread_create(&thread, NULL, serve_further, NULL), "no thread");
    }
    raw_ready();
    looper_run(&server.looper);
}

/* --- Callers --- */

struct caller {
    struct client *client;
    struct looper looper;
    uint32_t index, handle;
    int notes;
};

static const char *folder;
static int pipe_end = -1;

static void write_mark(struct writer *writer, const struct caller *caller, uint32_t number)
{
    uint32_t words[MARK_ROOM / sizeof(uint32_t)] = {0};
    snprintf((char *)words, sizeof words, "mark %02u %09u.", caller->index, number);
    for (size_t i = 0; i < sizeof words / sizeof *words; i++)
        write_number(writer, words[i]);
}

static void write_large(struct writer *writer)
{
    for (int left = rand() % (LARGEST / 4); left > 0; left--)
        write_number(writer, (uint32_t)left);
}

/* A buffer, and one that it leads to. */
static void write_buffers(struct writer *writer)
{
    static uint64_t parent[8];
    static const uint8_t child[40] = "behind it";
    int first = write_buffer(writer, parent, sizeof parent, -1, 0);
    write_buffer(writer, child, sizeof child, first, sizeof *parent);
}

static uint32_t kind_of(uint32_t number)
{
    return number % SELDOM == SELDOM - 1 ? LARGE : number % KINDS;
}

static void note(const struct caller *caller, uint32_t number, uint32_t times)
{
    struct timespec now;
    clock_gettime(CLOCK_MONOTONIC, &now);
    struct answered answered = {(uint64_t)now.tv_sec * 1000000000 + (uint64_t)now.tv_nsec, number, times};
    CHECK(write(caller->notes, &answered, sizeof answered) == sizeof answered, "can't note an answer");
}

/* What the call's parcel has behind its mark. */
static void write_rest(struct writer *writer, const struct caller *caller, uint32_t kind)
{
    if (kind == CALL_BACK)
        write_own_object(writer, 0x4000 + 16 * caller->index, 0x4000);
    else if (kind == DESCRIPTOR)
        write_descriptor(writer, pipe_end);
    else if (kind == BUFFERS)
        write_buffers(writer);
    else if (kind == LARGE)
        write_large(writer);
}

/* Whether the device is still there. */
static bool call_once(struct caller *caller, uint32_t number)
{
    struct writer writer = {0};
    struct binder_transaction_data reply;
    struct call call = {.handle = caller->handle, .code = kind_of(number)};
    if (call.code == ONE_WAY)
        call.flags = TF_ONE_WAY;
    if (call.code == NOWHERE)
        call.handle = NO_HANDLE;
    write_mark(&writer, caller, number);
    write_rest(&writer, caller, call.code);
    uint32_t ending = raw_call_with(&caller->looper, call, &writer, &reply);
    if (!ending)
        return false;
    if (ending == BR_REPLY) {
        CHECK(call.code != NOWHERE && reply.data_size >= MARK_ROOM, "another answer to call %u", number);
        looper_free(&caller->looper, &reply);
    }
    note(caller, number, ending == BR_REPLY ? TIMES_OF_BOTH : 1);
    return true;
}

static void *call_often(void *with)
{
    struct caller *caller = with;
    char path[4096];
    snprintf(path, sizeof path, "%s/%02u", folder, caller->index);
    caller->notes = open(path, O_WRONLY | O_CREAT | O_CLOEXEC, 0600);
    CHECK(caller->notes >= 0, "%s", path);
    raw_looper(&caller->looper, caller->client, NULL);
    for (uint32_t number = 0; call_once(caller, number); number++)
        ;
    return NULL;
}

static void run_callers(void *with)
{
    struct caller callers[CALLER_THREADS];
    pthread_t threads[CALLER_THREADS];
    struct client client;
    struct binder_transaction_data reply;
    int ends[2];
    CHECK(!pipe2(ends, O_CLOEXEC), "no pipe");
    pipe_end = ends[0];
    raw_open(&client, WINDOW, NULL);
    CHECK(raw_call(&client.looper, (struct call){.code = GIVE}, &reply) == BR_REPLY, "no object came");
    uint32_t handle = raw_keep(&client.looper, &reply);
    looper_free(&client.looper, &reply);
    CHECK(looper_flush(&client.looper), "can't keep the object");
    raw_ready();
    for (uint32_t i = 0; i < CALLER_THREADS; i++) {
        callers[i] = (struct caller){.client = &client, .index = *(uint32_t *)with * CALLER_THREADS + i, .handle = handle};
        CHECK(!pthread_create(&threads[i], NULL, call_often, &callers[i]), "no thread");
    }
    for (uint32_t i = 0; i < CALLER_THREADS; i++)
        pthread_join(threads[i], NULL);
}

/* Gives the server an object, and waits to be killed. */
static void give_and_wait(void *with)
{
    struct client client;
    (void)with;
    if (!binder_open(&client.binder, raw_device(), WINDOW))
        _exit(0);
    raw_looper(&client.looper, &client, NULL);
    struct writer writer = {0};
    struct binder_transaction_data reply;
    write_own_object(&writer, 0x1000, 0x2000);
    write_number(&writer, 0);
    if (raw_call_with(&client.looper, (struct call){.code = KEEP}, &writer, &reply) != BR_REPLY)
        _exit(0);
    raw_ready();
    pause();
}

int main(int argc, char **argv)
{
    CHECK(argc == 2, "usage: marked FOLDER");
    folder = argv[1];
    raw_begin(60);
    raw_start(run_server, NULL);
    for (uint32_t i = 0; i < CALLERS; i++)
        raw_start(run_callers, &i);
    printf("ready\n");
    for (;;) {
        raw_kill(raw_start(give_and_wait, NULL));
        usleep(20000);
    }
}
