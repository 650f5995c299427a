/* SPDX-License-Identifier: Apache-2.0 OR MIT */
/*
 * many CALLERS THREADS CALLS [BYTES]: so many processes call at once, each so often and with so many bytes, one that
 * serves them on so many threads and answers with the same bytes. Tells what a call takes, of all together.
 */
#include "raw.h"

#include <pthread.h>
#include <stdatomic.h>
#include <stdio.h>
#include <stdlib.h>
#include <sys/mman.h>
#include <unistd.h>

/* The calls that are under way at once have room there. */
#define SERVER_WINDOW ((size_t)4 << 20)
#define MOST_CALLERS 64
/* Not measured: the first calls find nothing mapped yet. */
#define WARM 10

static struct client server;
static size_t threads, calls, bytes;
static uint8_t *data;
static atomic_bool *has_begun;

static void serve(struct looper *looper, const struct binder_transaction_data *call)
{
    raw_answer(looper, raw_data(call), call->data_size);
}

static void *serve_further(void *with)
{
    struct looper looper;
    raw_looper(&looper, &server, serve);
    looper_run(&looper);
    return with;
}

static void run_server(void *with)
{
    (void)with;
    raw_open(&server, SERVER_WINDOW, serve);
    CHECK(binder_become_manager(&server.binder), "can't be the context manager");
    for (size_t i = 1; i < threads; i++) {
        pthread_t thread;
        CHECK(!pthread_create(&thread, NULL, serve_further, NULL), "no thread");
    }
    raw_ready();
    looper_run(&server.looper);
}

static void call_often(struct client *client, size_t times)
{
    struct binder_transaction_data reply;
    for (size_t i = 0; i < times; i++) {
        CHECK(raw_call(&client->looper, (struct call){.bytes = data, .size = bytes}, &reply) == BR_REPLY, "call %zu", i);
        looper_free(&client->looper, &reply);
    }
}

static void run_caller(void *with)
{
    struct client client;
    (void)with;
    raw_open(&client, WINDOW, NULL);
    call_often(&client, WARM);
    raw_ready();
    while (!atomic_load(has_begun))
        usleep(500);
    call_often(&client, calls);
    exit(0);
}

int main(int argc, char **argv)
{
    pid_t all[MOST_CALLERS];
    CHECK(argc >= 4, "usage: many CALLERS THREADS CALLS [BYTES]");
    size_t callers = strtoul(argv[1], NULL, 10);
    threads = strtoul(argv[2], NULL, 10), calls = strtoul(argv[3], NULL, 10), bytes = argc > 4 ? strtoul(argv[4], NULL, 10) : 0;
    data = calloc(bytes + 1, 1);
    has_begun = mmap(NULL, sizeof *has_begun, PROT_READ | PROT_WRITE, MAP_SHARED | MAP_ANONYMOUS, -1, 0);
    CHECK(data && has_begun != MAP_FAILED && calls && callers && callers <= MOST_CALLERS, "nothing to be measured");
    raw_begin(300);
    pid_t manager = raw_start(run_server, NULL);
    for (size_t i = 0; i < callers; i++)
        all[i] = raw_start(run_caller, NULL);
    double begin = raw_now();
    atomic_store(has_begun, true);
    for (size_t i = 0; i < callers; i++)
        raw_join(all[i]);
    printf("callers %zu threads %zu call %.1f\n", callers, threads, (raw_now() - begin) / (double)(callers * calls));
    raw_kill(manager);
    return 0;
}
