/* SPDX-License-Identifier: Apache-2.0 OR MIT */
/*
 * looper.h: a thread that calls and is called through an open device. It acknowledges what the driver tells it of its
 * own objects, gives buffers back, and serves calls that come in, also those that come while it waits for a reply.
 */
#ifndef HULLPIPPIN_CLIENTS_LOOPER_H
#define HULLPIPPIN_CLIENTS_LOOPER_H

#include "binder.h"

struct looper {
    struct binder *binder;
    struct commands commands; /* they go out with the next exchange */
    uint32_t answers;         /* how many answers the driver hasn't told of yet */
    uint32_t refused;         /* how many of those it has told of were refused */
    void *with;               /* for the functions below */

    /* Serves a call that came in, by looper_answer where it is two-way; its buffer is given back afterwards. */
    void (*serve)(struct looper *looper, const struct binder_transaction_data *call);

    /* Is told of a death that was asked for, by its cookie; it is acknowledged afterwards. May be NULL. */
    void (*died)(struct looper *looper, binder_uintptr_t cookie);

    /* Is told that the driver wants a further thread for the process. May be NULL. */
    void (*spawn)(struct looper *looper);
};

/* Writes what stands to be written, and reads nothing; false with errno, or where a refusal has to be read first. */
bool looper_flush(struct looper *looper);

/*
 * One exchange: writes, waits for returns, and handles them. Where a call of this thread came to its end, `ending` is
 * BR_REPLY, BR_DEAD_REPLY or BR_FAILED_REPLY, and else 0, with BR_TRANSACTION_COMPLETE or BR_ONEWAY_SPAM_SUSPECT told in
 * `complete`. A reply's buffer is given back by who asked. False with errno.
 */
struct turn {
    uint32_t ending, complete;
    struct binder_transaction_data reply;
};
bool looper_turn(struct looper *looper, struct turn *turn);

/* Enters the loop and turns in it; back only with an error, in errno. */
void looper_run(struct looper *looper);
/* The same in a thread that the driver has asked for. */
void looper_run_spawned(struct looper *looper);

/*
 * Makes a call, and waits for its end: `reply` is filled where it is BR_REPLY. A one-way call ends as
 * BR_TRANSACTION_COMPLETE where it was taken, or as BR_ONEWAY_SPAM_SUSPECT where it was taken and the process is told that
 * it floods the receiver. `buffers` is the size of all buffers that PTR objects of it point at. 0
 * with errno where the device fails.
 */
uint32_t looper_call(struct looper *looper, const struct binder_transaction_data *call, size_t buffers,
                     struct binder_transaction_data *reply);

/*
 * Answers the call that is being served. An answer without bytes goes out with the next exchange; one with bytes at
 * once, so that they may go afterwards. `buffers` is the size of all buffers that PTR objects of it point at. False
 * with errno.
 */
bool looper_answer(struct looper *looper, const struct binder_transaction_data *answer, size_t buffers);

/* Answers with a status in place of a parcel, as Android's libraries do. */
bool looper_answer_status(struct looper *looper, int32_t status);

/* Gives a reply's buffer back, with the next exchange. */
void looper_free(struct looper *looper, const struct binder_transaction_data *reply);

#endif
