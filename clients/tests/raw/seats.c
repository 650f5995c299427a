/* SPDX-License-Identifier: Apache-2.0 OR MIT */
/*
 * seats [CALLERS ANSWERED]: so many threads (30) call at once, and so many of them (29) are answered, since there are seats for them,
 * the context manager's and the daemon's own. The others are refused; when all are done one more is served.
 */
#include "raw.h"

#include <errno.h>
#include <pthread.h>
#include <stdatomic.h>
#include <stdio.h>
#include <stdlib.h>
#include <unistd.h>

#define MOST_CALLERS 1000

static struct client client;
static atomic_uint answered, refused;

/* Open once as many have been refused as are to be, which the daemon does after a second. */
static struct gate *gate;

/* The first call keeps all others waiting. */
static void serve(struct looper *looper, const struct binder_transaction_data *call)
{
    static bool is_later;
    (void)call;
    if (!is_later)
        CHECK(raw_pass(gate), "nobody is refused");
    is_later = true;
    raw_answer(looper, NULL, 0);
}

static void *call(void *with)
{
    struct looper looper;
    struct binder_transaction_data reply;
    (void)with;
    raw_looper(&looper, &client, NULL);
    uint32_t ending = raw_call(&looper, (struct call){0}, &reply);
    CHECK(ending == BR_REPLY || (!ending && errno == EMFILE), "a call ended as %x", ending);
    if (ending)
        looper_free(&looper, &reply);
    CHECK(!ending || looper_flush(&looper), "can't give a buffer back");
    atomic_fetch_add(ending ? &answered : &refused, 1);
    return NULL;
}

static void call_by(size_t count, size_t too_many)
{
    static pthread_t threads[MOST_CALLERS];
    for (size_t i = 0; i < count; i++)
        CHECK(!pthread_create(&threads[i], NULL, call, NULL), "no thread");
    usleep(2500000); /* where none is to be refused, all have called by then */
    while (atomic_load(&refused) < too_many)
        usleep(1000);
    atomic_store(&gate->is_open, true);
    for (size_t i = 0; i < count; i++)
        pthread_join(threads[i], NULL);
}

int main(int argc, char **argv)
{
    size_t callers = argc == 3 ? strtoul(argv[1], NULL, 10) : 30, served = argc == 3 ? strtoul(argv[2], NULL, 10) : 29;
    CHECK(callers <= MOST_CALLERS && served <= callers, "usage: seats [CALLERS ANSWERED]");
    raw_begin(30);
    gate = raw_new_gate();
    pid_t manager = raw_start_manager(serve);
    raw_open(&client, WINDOW, NULL);
    call_by(callers, callers - served);
    CHECK(answered == served && answered + refused == callers, "%u calls were answered, %u refused", answered, refused);
    call_by(1, 0);
    CHECK(answered == served + 1, "the last call was refused again");
    printf("%zu calls at once\n", served);
    raw_kill(manager);
    return 0;
}
