/* SPDX-License-Identifier: Apache-2.0 OR MIT */
/*
 * named NAME..: calls by a thread of each name, one after the other, each of which has ended when the next begins. Tells of each its
 * process and its tid, and so of the context manager.
 */
#include "raw.h"

#include <pthread.h>
#include <stdio.h>
#include <unistd.h>

static struct client client;

static void *call(void *with)
{
    struct looper looper;
    struct binder_transaction_data reply;
    CHECK(!pthread_setname_np(pthread_self(), with), "a name is too long");
    raw_looper(&looper, &client, NULL);
    CHECK(raw_call(&looper, (struct call){0}, &reply) == BR_REPLY, "no answer");
    looper_free(&looper, &reply);
    CHECK(looper_flush(&looper), "can't give a buffer back");
    printf("%d %d\n", getpid(), gettid());
    return NULL;
}

int main(int argc, char **argv)
{
    raw_begin(30);
    pid_t manager = raw_start_manager(NULL);
    raw_open(&client, WINDOW, NULL);
    printf("%d %d\n", manager, manager);
    for (int i = 1; i < argc; i++) {
        pthread_t thread;
        CHECK(!pthread_create(&thread, NULL, call, argv[i]), "no thread");
        pthread_join(thread, NULL);
    }
    raw_kill(manager);
    return 0;
}
