/* SPDX-License-Identifier: Apache-2.0 OR MIT */
/*
 * oneway [CALLS]: one-way calls come in the order in which they were made, none twice and none lost; they don't wait for the
 * server, and one that would take more than half of its window is refused while those before it are still there.
 */
#include "raw.h"

#include <stdio.h>
#include <stdlib.h>
#include <unistd.h>

enum { COUNT = 1, TELL, HOLD };

#define CALLS 2000 /* where not another number is asked for */

static uint32_t expected;
static struct gate *gate;

static void serve(struct looper *looper, const struct binder_transaction_data *call)
{
    switch (call->code) {
    case COUNT:
        CHECK(raw_number(call) == expected, "call %u came where %u was due", raw_number(call), expected);
        CHECK(call->sender_pid == 0, "a one-way call tells the pid %d", call->sender_pid);
        expected++;
        break;
    case HOLD:
        CHECK(raw_pass(gate), "who made a one-way call waits for the server");
        break;
    default:
        raw_answer(looper, &expected, sizeof expected);
    }
}

static uint32_t send_oneway(struct client *client, uint32_t code, const void *bytes, size_t size)
{
    struct binder_transaction_data none;
    return raw_call(&client->looper, (struct call){.code = code, .flags = TF_ONE_WAY, .bytes = bytes, .size = size}, &none);
}

/* One-way calls with so much room taken together that a third doesn't fit into half of the window. */
static void overfill(struct client *client)
{
    size_t large = WINDOW / 5;
    uint8_t *bytes = calloc(large, 1);
    CHECK(bytes, "no memory");
    atomic_store(&gate->is_open, false);
    for (int i = 0; i < 2; i++)
        CHECK(send_oneway(client, HOLD, bytes, large) == BR_TRANSACTION_COMPLETE, "call %d of a fifth of the window", i);
    CHECK(send_oneway(client, HOLD, bytes, large) == BR_FAILED_REPLY, "more than half of the window was taken");
    atomic_store(&gate->is_open, true);
    free(bytes);
}

int main(int argc, char **argv)
{
    struct client client;
    uint32_t calls = argc > 1 ? (uint32_t)strtoul(argv[1], NULL, 10) : CALLS;
    raw_begin(30);
    gate = raw_new_gate();
    pid_t manager = raw_start_manager(serve);
    raw_open(&client, WINDOW, NULL);
    for (uint32_t i = 0; i < calls; i++)
        CHECK(send_oneway(&client, COUNT, &i, sizeof i) == BR_TRANSACTION_COMPLETE, "call %u wasn't taken", i);
    CHECK(send_oneway(&client, HOLD, NULL, 0) == BR_TRANSACTION_COMPLETE, "a call wasn't taken");
    atomic_store(&gate->is_open, true);
    /* a two-way call may overtake one-way ones: it is asked until all have come */
    uint32_t come = 0;
    for (int turn = 0; turn < RAW_PATIENCE && come < calls; turn++, usleep(1000))
        come = raw_ask(&client.looper, (struct call){.code = TELL});
    CHECK(come == calls, "%u of %u calls came", come, calls);
    if (calls >= CALLS)
        overfill(&client);
    printf("%u calls in order\n", come);
    raw_kill(manager);
    return 0;
}
