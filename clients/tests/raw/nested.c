/* SPDX-License-Identifier: Apache-2.0 OR MIT */
/*
 * nested [DEPTH]: a client gives a server an object of its own; the server calls it while it serves, and is called again by
 * it, and so on, as deep as asked. Each level adds one, so the answer tells how many there were.
 */
#include "raw.h"

#include <stdio.h>
#include <stdlib.h>
#include <unistd.h>

#define DEPTH 20 /* where none is asked for */

/* The client's object, by its handle at the server; the server's by 0 at the client. */
static uint32_t other;
static pid_t main_thread_of_client;

enum { MEET = 1, DESCEND };

static uint32_t descend(struct looper *looper, uint32_t depth)
{
    uint32_t next = depth - 1;
    return depth ? 1 + raw_ask(looper, (struct call){.handle = other, .code = DESCEND, .bytes = &next, .size = sizeof next}) : 0;
}

static void serve_depth(struct looper *looper, const struct binder_transaction_data *call)
{
    uint32_t deep = descend(looper, raw_number(call));
    raw_answer(looper, &deep, sizeof deep);
}

static void serve(struct looper *looper, const struct binder_transaction_data *call)
{
    if (call->code == DESCEND) {
        serve_depth(looper, call);
        return;
    }
    other = raw_keep(looper, call);
    raw_answer(looper, NULL, 0);
}

/* Calls back to a thread that waits come to that very thread, whatever other threads the process has. */
static void serve_back(struct looper *looper, const struct binder_transaction_data *call)
{
    CHECK(gettid() == main_thread_of_client, "a call back came to another thread");
    serve_depth(looper, call);
}

int main(int argc, char **argv)
{
    struct client client;
    uint32_t depths = argc > 1 ? (uint32_t)strtoul(argv[1], NULL, 10) : DEPTH;
    raw_begin(30);
    main_thread_of_client = gettid();
    pid_t manager = raw_start_manager(serve);
    raw_open(&client, WINDOW, serve_back);
    raw_give(&client, MEET);
    for (uint32_t depth = 0; depth <= depths; depth++) {
        uint32_t deep = descend(&client.looper, depth);
        CHECK(deep == depth, "%u levels in place of %u", deep, depth);
    }
    printf("%u levels deep\n", depths);
    raw_kill(manager);
    return 0;
}
