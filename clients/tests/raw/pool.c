/* SPDX-License-Identifier: Apache-2.0 OR MIT */
/*
 * pool [CALLS]: a server whose further threads are started when the driver asks for them, up to the number it was told, and a
 * client of many threads. Calls that wait for one another inside the server show that they are served at once.
 */
#include "raw.h"

#include <pthread.h>
#include <stdatomic.h>
#include <stdio.h>
#include <stdlib.h>
#include <sys/ioctl.h>
#include <unistd.h>

#define CLIENT_THREADS 8
#define SERVER_THREADS 4 /* besides the one that enters the loop by itself */
/* Seconds without an answer, beside whatever else the machine does. */
#define HUNG 30

enum { ADD = 1, MEET, THREADS };

/* Of each of the client's threads. */
static uint32_t calls = 400;
static struct client server;
static atomic_uint spawned, met;

static void serve(struct looper *looper, const struct binder_transaction_data *call);
static void spawn(struct looper *looper);

static void *serve_further(void *with)
{
    struct looper looper;
    struct turn turn;
    (void)with;
    raw_looper(&looper, &server, serve);
    looper.spawn = spawn;
    put_code(&looper.commands, BC_REGISTER_LOOPER);
    while (looper_turn(&looper, &turn))
        ;
    raw_fail(__FILE__, __LINE__, "the device failed");
}

static void spawn(struct looper *looper)
{
    pthread_t thread;
    (void)looper;
    atomic_fetch_add(&spawned, 1);
    CHECK(!pthread_create(&thread, NULL, serve_further, NULL) && !pthread_detach(thread), "no thread");
}

/* Comes back once three calls are here at the same time, or after a while: then it tells 0. */
static uint32_t meet(void)
{
    atomic_fetch_add(&met, 1);
    for (int turn = 0; turn < RAW_PATIENCE; turn++, usleep(1000))
        if (atomic_load(&met) >= 3)
            return 1;
    return 0;
}

static void serve(struct looper *looper, const struct binder_transaction_data *call)
{
    uint32_t answer = call->code == ADD ? raw_number(call) + 1 : call->code == MEET ? meet() : atomic_load(&spawned);
    raw_answer(looper, &answer, sizeof answer);
}

static void run_server(void *with)
{
    uint32_t most = SERVER_THREADS;
    (void)with;
    raw_open(&server, WINDOW, serve);
    server.looper.spawn = spawn;
    CHECK(!ioctl(server.binder.fd, BINDER_SET_MAX_THREADS, &most), "BINDER_SET_MAX_THREADS");
    CHECK(binder_become_manager(&server.binder), "can't be the context manager");
    raw_ready();
    looper_run(&server.looper);
}

static struct client client;
static atomic_uint answered;

/* Tells calls that are slow from those that hang. */
static void *watch(void *with)
{
    for (uint32_t before = 0, now, seconds = 0; seconds < HUNG; before = now, sleep(1)) {
        now = atomic_load(&answered);
        seconds = now == before ? seconds + 1 : 0;
    }
    raw_fail(__FILE__, __LINE__, "no call was answered in %u s, %u of %u before", HUNG, atomic_load(&answered), CLIENT_THREADS * calls);
    return with;
}

static void *call_often(void *with)
{
    struct looper looper;
    uint32_t from = (uint32_t)(uintptr_t)with * calls;
    raw_looper(&looper, &client, NULL);
    for (uint32_t i = from; i < from + calls; i++) {
        uint32_t answer = raw_ask(&looper, (struct call){.code = ADD, .bytes = &i, .size = sizeof i});
        CHECK(answer == i + 1, "the answer to %u was %u", i, answer);
        atomic_fetch_add(&answered, 1);
    }
    CHECK(looper_flush(&looper), "can't write");
    CHECK(!ioctl(client.binder.fd, BINDER_THREAD_EXIT, 0), "BINDER_THREAD_EXIT");
    return NULL;
}

static void *call_to_meet(void *with)
{
    struct looper looper;
    (void)with;
    raw_looper(&looper, &client, NULL);
    CHECK(raw_ask(&looper, (struct call){.code = MEET}) == 1, "three calls weren't served at once");
    CHECK(looper_flush(&looper), "can't write");
    return NULL;
}

static void all(void *(*body)(void *), size_t count)
{
    pthread_t threads[CLIENT_THREADS];
    for (size_t i = 0; i < count; i++)
        CHECK(!pthread_create(&threads[i], NULL, body, (void *)i), "no thread");
    for (size_t i = 0; i < count; i++)
        pthread_join(threads[i], NULL);
}

int main(int argc, char **argv)
{
    pthread_t watcher;
    if (argc > 1)
        calls = (uint32_t)strtoul(argv[1], NULL, 10);
    raw_begin(170);
    pid_t manager = raw_start(run_server, NULL);
    raw_open(&client, WINDOW, NULL);
    CHECK(!pthread_create(&watcher, NULL, watch, NULL), "no thread");
    all(call_to_meet, 3);
    all(call_often, CLIENT_THREADS);
    uint32_t threads = raw_ask(&client.looper, (struct call){.code = THREADS});
    CHECK(threads >= 2 && threads <= SERVER_THREADS, "%u threads were asked for, with at most %u", threads, SERVER_THREADS);
    printf("%u calls by %u threads, served by %u and 1\n", CLIENT_THREADS * calls, CLIENT_THREADS, threads);
    raw_kill(manager);
    return 0;
}
