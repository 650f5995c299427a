/* SPDX-License-Identifier: Apache-2.0 OR MIT */
#include "looper.h"

#include <string.h>

/* Little enough that what a turn's returns are answered with finds room among the commands. */
#define READ_ROOM 256

bool looper_flush(struct looper *looper)
{
    return binder_exchange(looper->binder, &looper->commands, NULL, 0) >= 0 && !looper->commands.size;
}

static void serve(struct looper *looper, const uint8_t *payload)
{
    struct binder_transaction_data call;
    memcpy(&call, payload, sizeof call);
    looper->serve(looper, &call);
    looper_free(looper, &call);
}

/* The owner of an object says that it knows of it: `code` answers what the driver told. */
static void acknowledge(struct looper *looper, uint32_t code, const uint8_t *payload)
{
    struct binder_ptr_cookie object;
    memcpy(&object, payload, sizeof object);
    put_object(&looper->commands, code, object.ptr, object.cookie);
}

static void mourn(struct looper *looper, const uint8_t *payload)
{
    binder_uintptr_t cookie;
    memcpy(&cookie, payload, sizeof cookie);
    if (looper->died)
        looper->died(looper, cookie);
    put_pointer(&looper->commands, BC_DEAD_BINDER_DONE, cookie);
}

/* The end of an answer or of a call: what is told of an answer always comes before what is told of a later call. */
static void conclude(struct looper *looper, uint32_t code, struct turn *turn)
{
    bool taken = code == BR_TRANSACTION_COMPLETE || code == BR_ONEWAY_SPAM_SUSPECT;
    if (looper->answers) {
        looper->answers--;
        looper->refused += !taken;
    } else if (taken) {
        turn->complete = code;
    } else {
        turn->ending = code;
    }
}

static void handle(struct looper *looper, uint32_t code, const uint8_t *payload, struct turn *turn)
{
    switch (code) {
    case BR_TRANSACTION:
        serve(looper, payload);
        break;
    case BR_REPLY:
        memcpy(&turn->reply, payload, sizeof turn->reply);
        turn->ending = code;
        break;
    case BR_DEAD_REPLY:
    case BR_FAILED_REPLY:
    case BR_TRANSACTION_COMPLETE:
    case BR_ONEWAY_SPAM_SUSPECT:
        conclude(looper, code, turn);
        break;
    case BR_INCREFS:
        acknowledge(looper, BC_INCREFS_DONE, payload);
        break;
    case BR_ACQUIRE:
        acknowledge(looper, BC_ACQUIRE_DONE, payload);
        break;
    case BR_DEAD_BINDER:
        mourn(looper, payload);
        break;
    case BR_SPAWN_LOOPER:
        if (looper->spawn)
            looper->spawn(looper);
        break;
    default: /* BR_NOOP, BR_RELEASE, BR_DECREFS, BR_CLEAR_DEATH_NOTIFICATION_DONE: nothing is owed */
        break;
    }
}

bool looper_turn(struct looper *looper, struct turn *turn)
{
    uint8_t room[READ_ROOM];
    *turn = (struct turn){0};
    ssize_t size = binder_exchange(looper->binder, &looper->commands, room, sizeof room);
    if (size < 0)
        return false;
    struct returns returns = {room, room + size};
    uint32_t code;
    const uint8_t *payload;
    while (next_return(&returns, &code, &payload))
        handle(looper, code, payload, turn);
    return true;
}

static void run(struct looper *looper, uint32_t code)
{
    struct turn turn;
    put_code(&looper->commands, code);
    while (looper_turn(looper, &turn))
        ;
}

void looper_run(struct looper *looper)
{
    run(looper, BC_ENTER_LOOPER);
}

void looper_run_spawned(struct looper *looper)
{
    run(looper, BC_REGISTER_LOOPER);
}

uint32_t looper_call(struct looper *looper, const struct binder_transaction_data *call, size_t buffers,
                     struct binder_transaction_data *reply)
{
    struct turn turn;
    if (buffers)
        put_record_sg(&looper->commands, BC_TRANSACTION_SG, call, buffers);
    else
        put_record(&looper->commands, BC_TRANSACTION, call);
    while (looper_turn(looper, &turn)) {
        if (turn.ending == BR_REPLY)
            *reply = turn.reply;
        if (turn.ending)
            return turn.ending;
        if (turn.complete && (call->flags & TF_ONE_WAY))
            return turn.complete;
    }
    return 0;
}

bool looper_answer(struct looper *looper, const struct binder_transaction_data *answer, size_t buffers)
{
    if (buffers)
        put_record_sg(&looper->commands, BC_REPLY_SG, answer, buffers);
    else
        put_record(&looper->commands, BC_REPLY, answer);
    looper->answers++;
    return !answer->data_size || looper_flush(looper);
}

bool looper_answer_status(struct looper *looper, int32_t status)
{
    struct binder_transaction_data answer = {
        .flags = TF_STATUS_CODE,
        .data_size = sizeof status,
        .data.ptr.buffer = (uintptr_t)&status,
    };
    return looper_answer(looper, &answer, 0);
}

void looper_free(struct looper *looper, const struct binder_transaction_data *reply)
{
    put_pointer(&looper->commands, BC_FREE_BUFFER, reply->data.ptr.buffer);
}
