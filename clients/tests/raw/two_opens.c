/* SPDX-License-Identifier: Apache-2.0 OR MIT */
/*
 * two_opens [CALLS]: a process that opens the device twice is two processes to the driver. One of its threads serves through
 * the one and others call through the other; after the one is closed, the other goes on. Only the context manager can't be called
 * through another file of its own process, and all managers have to be of one user, as Linux's driver has it.
 */
#include "raw.h"

#include <errno.h>
#include <pthread.h>
#include <stdio.h>
#include <stdlib.h>
#include <unistd.h>

static uint32_t calls = 200;
static struct client one, other;

static void double_it(struct looper *looper, const struct binder_transaction_data *call)
{
    uint32_t twice = 2 * raw_number(call);
    raw_answer(looper, &twice, sizeof twice);
}

/* Serves until the process ends. */
static void *serve(void *with)
{
    struct looper looper;
    (void)with;
    raw_looper(&looper, &one, double_it);
    looper_run(&looper);
    raw_fail(__FILE__, __LINE__, "the device failed");
}

static void call_often(struct client *through)
{
    uint32_t handle = raw_fetch(through);
    for (uint32_t i = 0; i < calls; i++) {
        uint32_t answer = raw_ask(&through->looper, (struct call){.handle = handle, .bytes = &i, .size = sizeof i});
        CHECK(answer == 2 * i, "the answer to %u was %u", i, answer);
    }
}

static void call_each_other(void)
{
    pthread_t thread;
    struct client third;
    struct binder_transaction_data reply;
    raw_open(&one, WINDOW, double_it);
    raw_open(&other, WINDOW / 2, NULL);
    CHECK(one.binder.fd != other.binder.fd && one.binder.window != other.binder.window, "both opens are the same");
    raw_give(&one, RAW_KEEP);
    CHECK(!pthread_create(&thread, NULL, serve, NULL), "no thread");
    call_often(&other);
    raw_open(&third, WINDOW, NULL);
    call_often(&third);
    CHECK(looper_flush(&other.looper), "can't write");
    binder_close(&other.binder);
    call_often(&third);
    CHECK(raw_call(&third.looper, (struct call){.handle = 7}, &reply) == BR_FAILED_REPLY, "there is a handle that nobody gave");
}

/* The file of the first manager stays open; another one takes its place. Its callers may be told that its thread has ended before
   the process has. */
static void manage(pid_t first)
{
    struct client manager, third;
    struct binder_transaction_data reply;
    raw_open(&manager, WINDOW, NULL);
    raw_open(&third, WINDOW, NULL);
    CHECK(raw_call(&third.looper, (struct call){.code = RAW_QUIT}, &reply) == BR_DEAD_REPLY, "who ends answers");
    raw_join(first);
    if (!geteuid()) {
        CHECK(!seteuid(1000) && !binder_become_manager(&manager.binder) && errno == EPERM, "another user's is the context manager");
        CHECK(!seteuid(0), "can't be root again");
    }
    CHECK(binder_become_manager(&manager.binder), "can't be the context manager");
    CHECK(!binder_become_manager(&third.binder) && errno == EBUSY, "there are two context managers");
    CHECK(raw_call(&third.looper, (struct call){0}, &reply) == BR_FAILED_REPLY, "a process calls its own manager");
    CHECK(raw_call(&manager.looper, (struct call){0}, &reply) == BR_FAILED_REPLY, "the manager calls itself");
}

int main(int argc, char **argv)
{
    if (argc > 1)
        calls = (uint32_t)strtoul(argv[1], NULL, 10);
    raw_begin(30);
    pid_t manager = raw_start_keeper();
    call_each_other();
    manage(manager);
    printf("%u calls within one process, and none of its own manager\n", 3 * calls);
    return 0;
}
