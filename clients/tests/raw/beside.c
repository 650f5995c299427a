/* SPDX-License-Identifier: Apache-2.0 OR MIT */
/*
 * beside idle|callers COUNT [CALLS]: what a call takes beside so many others who do nothing: processes whose looper waits, or threads
 * of one process that wait for the reply of a call which nobody answers. Prints medians alone and beside them, and the longest of the
 * calls while all of them end, in microseconds. `beside pollers|waiters COUNT [CALLS]` is beside so many threads of who serves, which poll
 * or wait for a call.
 *
 * beside idle|callers|services COUNT CALLS counted: makes so many calls beside them, for who counts what these take: a line tells that the
 * crowd is there, one that the calls are made, and behind each it waits for one. Services are processes that have given their object
 * away, one of which is called.
 */
#include "raw.h"

#include <poll.h>
#include <pthread.h>
#include <signal.h>
#include <stdio.h>
#include <stdlib.h>
#include <string.h>
#include <unistd.h>

enum { PLAIN, TAKE, GIVE };

/* How long calls are made while the others end, in microseconds. */
#define ENDING 1.5e6

#define STACK ((size_t)128 << 10)

/* Calls that aren't counted: the first find nothing mapped yet. */
#define WARM 100

static uint32_t taken; /* the manager's handle of the object that it was given last, which is one that nobody serves, or a service's */
static uint32_t called; /* the handle that calls go to */

static void give(struct looper *looper)
{
    struct writer object = {0};
    write_strong_handle(&object, taken);
    CHECK(!object.failed, "no memory");
    struct binder_transaction_data answer = record_of(&object);
    CHECK(looper_answer(looper, &answer, 0), "can't answer");
    writer_free(&object);
}

static void serve(struct looper *looper, const struct binder_transaction_data *call)
{
    if (call->code == GIVE) {
        give(looper);
        return;
    }
    if (call->code == TAKE)
        taken = raw_keep(looper, call);
    raw_answer(looper, NULL, 0);
}

/* It is in the loop, and never reads again. */
static void own_object(void *with)
{
    struct client client;
    (void)with;
    raw_open(&client, WINDOW, NULL);
    raw_give(&client, TAKE);
    raw_ready();
    pause();
}

static void wait_idle(void *with)
{
    struct client client;
    (void)with;
    raw_open(&client, WINDOW, NULL);
    put_code(&client.looper.commands, BC_ENTER_LOOPER);
    CHECK(looper_flush(&client.looper), "can't enter the loop");
    raw_ready();
    looper_run(&client.looper);
}

static void serve_others(void *with)
{
    struct client client;
    (void)with;
    raw_open(&client, WINDOW, NULL);
    raw_give(&client, TAKE);
    raw_ready();
    looper_run(&client.looper);
}

struct crowd {
    struct client client;
    uint32_t handle;
};

/* The object that the manager was given. */
static uint32_t fetch_taken(struct client *client)
{
    struct binder_transaction_data reply;
    CHECK(raw_call(&client->looper, (struct call){.code = GIVE}, &reply) == BR_REPLY, "no object came");
    uint32_t handle = raw_keep(&client->looper, &reply);
    looper_free(&client->looper, &reply);
    CHECK(looper_flush(&client->looper), "can't keep the object");
    return handle;
}

static void *call_for_ever(void *with)
{
    struct crowd *crowd = with;
    struct looper looper;
    struct binder_transaction_data reply;
    raw_looper(&looper, &crowd->client, NULL);
    raw_call(&looper, (struct call){.handle = crowd->handle}, &reply);
    return NULL;
}

static void be_callers(void *with)
{
    size_t count = *(size_t *)with;
    struct crowd crowd;
    pthread_attr_t attributes;
    pthread_t thread;
    raw_open(&crowd.client, WINDOW, NULL);
    crowd.handle = fetch_taken(&crowd.client);
    pthread_attr_init(&attributes);
    pthread_attr_setstacksize(&attributes, STACK);
    for (size_t i = 0; i < count; i++)
        CHECK(!pthread_create(&thread, &attributes, call_for_ever, &crowd), "thread %zu", i);
    usleep(500000); /* until all have called */
    raw_ready();
    pause();
}

/* Who serves, and its other threads. */
struct server {
    struct client client;
    size_t count;
    void *(*others)(void *with);
};

static void *poll_for_ever(void *with)
{
    struct server *server = with;
    struct looper looper;
    struct pollfd waits = {.fd = server->client.binder.fd, .events = POLLIN};
    raw_looper(&looper, &server->client, NULL);
    put_code(&looper.commands, BC_ENTER_LOOPER);
    put_code(&looper.commands, BC_EXIT_LOOPER); /* what comes to the process is none of its business */
    CHECK(looper_flush(&looper), "can't be a thread");
    CHECK(poll(&waits, 1, -1) < 0, "something came");
    return NULL;
}

/* Who waits last is called first, which is none of these. */
static void *wait_for_ever(void *with)
{
    struct server *server = with;
    struct looper looper;
    raw_looper(&looper, &server->client, serve);
    looper_run(&looper);
    return NULL;
}

static void manage_beside(void *with)
{
    struct server *server = with;
    pthread_attr_t attributes;
    pthread_t thread;
    raw_open(&server->client, WINDOW, serve);
    CHECK(binder_become_manager(&server->client.binder), "can't be the context manager");
    pthread_attr_init(&attributes);
    pthread_attr_setstacksize(&attributes, STACK);
    for (size_t i = 0; i < server->count; i++)
        CHECK(!pthread_create(&thread, &attributes, server->others, server), "thread %zu", i);
    usleep(500000); /* until all poll, or wait */
    raw_ready();
    looper_run(&server->client.looper);
}

static void *(*others_of(const char *kind))(void *with)
{
    return !strcmp(kind, "pollers") ? poll_for_ever : !strcmp(kind, "waiters") ? wait_for_ever : NULL;
}

static double call_once(struct client *client)
{
    struct binder_transaction_data reply;
    double start = raw_now();
    CHECK(raw_call(&client->looper, (struct call){.handle = called, .code = PLAIN}, &reply) == BR_REPLY, "a call failed");
    double took = raw_now() - start;
    looper_free(&client->looper, &reply);
    return took;
}

static double median(struct client *client, double *times, size_t calls)
{
    for (size_t i = 0; i < calls; i++)
        times[i] = call_once(client);
    return raw_spread(times, calls).median;
}

static double longest_while(struct client *client, const pid_t *pids, size_t count)
{
    double longest = 0, end = raw_now() + ENDING;
    for (size_t i = 0; i < count; i++)
        CHECK(!kill(pids[i], SIGKILL), "can't kill");
    while (raw_now() < end) {
        double took = call_once(client);
        longest = took > longest ? took : longest;
    }
    return longest;
}

/* Starts so many others: how many processes these are. */
static size_t start_crowd(const char *kind, size_t count, pid_t *pids)
{
    bool are_callers = !strcmp(kind, "callers");
    size_t processes = are_callers ? count > 0 : others_of(kind) ? 0 : count;
    for (size_t i = 0; i < processes; i++)
        pids[i] = raw_start(are_callers ? be_callers : !strcmp(kind, "services") ? serve_others : wait_idle, &count);
    return processes;
}

static void measure(struct client *client, const char *kind, size_t count, pid_t *pids, double *times, size_t calls)
{
    median(client, times, WARM);
    double alone = median(client, times, calls);
    size_t started = start_crowd(kind, count, pids);
    double beside = median(client, times, calls);
    double ending = longest_while(client, pids, started);
    printf("alone %.1f beside %.1f ending %.1f with %zu %s\n", alone, beside, ending, count, kind);
}

static void tell_and_await(const char *told)
{
    char line[16];
    puts(told);
    CHECK(fgets(line, sizeof line, stdin), "nobody counts");
}

static void be_counted(struct client *client, const char *kind, size_t count, pid_t *pids, double *times, size_t calls)
{
    start_crowd(kind, count, pids);
    called = strcmp(kind, "services") ? 0 : fetch_taken(client);
    median(client, times, WARM);
    tell_and_await("ready");
    median(client, times, calls);
    tell_and_await("done");
}

int main(int argc, char **argv)
{
    CHECK(argc >= 3, "beside idle|callers|services|pollers|waiters COUNT [CALLS [counted]]");
    size_t count = strtoul(argv[2], NULL, 10), calls = argc > 3 ? strtoul(argv[3], NULL, 10) : 2000;
    bool is_counted = argc > 4;
    pid_t *pids = calloc(count + 1, sizeof *pids);
    double *times = calloc(calls + WARM, sizeof *times);
    struct client client;
    CHECK(pids && times && calls && (count || is_counted), "nothing to be measured");
    raw_begin(is_counted ? 1200 : 150);
    struct server server = {.count = count, .others = others_of(argv[1])};
    pid_t manager = server.others ? raw_start(manage_beside, &server) : raw_start_manager(serve), owner = raw_start(own_object, NULL);
    raw_open(&client, WINDOW, NULL);
    if (is_counted)
        be_counted(&client, argv[1], count, pids, times, calls);
    else
        measure(&client, argv[1], count, pids, times, calls);
    raw_kill(owner);
    raw_kill(manager);
    free(pids);
    free(times);
    return 0;
}
