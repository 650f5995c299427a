/* SPDX-License-Identifier: Apache-2.0 OR MIT */
/*
 * witness SECONDS: an honest server and an honest client, which call all the time, by way of an object that nobody
 * else has a handle of. Each answer has to be the right one. Prints how many there were, the median, and the longest
 * that one took.
 */
#include "../raw/raw.h"

#include <stdio.h>
#include <stdlib.h>
#include <unistd.h>

/* Codes that nobody hits upon by chance. */
enum { LEAVE = 0x5e7c2e71, FETCH };

static uint32_t left;

static void manage(struct looper *looper, const struct binder_transaction_data *call)
{
    struct writer writer = {0};
    if (call->flags & TF_ONE_WAY)
        return;
    if (call->code == LEAVE && !left)
        left = raw_keep(looper, call);
    if (call->code == FETCH)
        write_strong_handle(&writer, left);
    struct binder_transaction_data answer = record_of(&writer);
    looper_answer(looper, &answer, 0);
    writer_free(&writer);
}

static void add_one(struct looper *looper, const struct binder_transaction_data *call)
{
    uint32_t number = raw_number(call) + 1;
    raw_answer(looper, &number, sizeof number);
}

static void serve(void *with)
{
    struct client client;
    struct writer object = {0};
    struct binder_transaction_data reply;
    (void)with;
    raw_open(&client, WINDOW, add_one);
    write_own_object(&object, 0x1000, 0x1000);
    CHECK(raw_call_with(&client.looper, (struct call){.code = LEAVE}, &object, &reply) == BR_REPLY, "the object wasn't taken");
    looper_free(&client.looper, &reply);
    raw_ready();
    looper_run(&client.looper);
}

int main(int argc, char **argv)
{
    static double times[1 << 22];
    unsigned seconds = argc > 1 ? (unsigned)atoi(argv[1]) : 60;
    size_t count = 0;
    double longest = 0;
    struct client client;
    struct binder_transaction_data reply;
    raw_begin(2 * seconds + 30);
    pid_t manager = raw_start_manager(manage), server = raw_start(serve, NULL);
    raw_open(&client, WINDOW, NULL);
    CHECK(raw_call(&client.looper, (struct call){.code = FETCH}, &reply) == BR_REPLY, "no object came");
    uint32_t handle = raw_keep(&client.looper, &reply);
    looper_free(&client.looper, &reply);
    printf("ready\n");
    double until = raw_now() + seconds * 1e6;
    for (uint32_t i = 0; raw_now() < until && count < sizeof times / sizeof *times; i++) {
        double start = raw_now();
        CHECK(raw_ask(&client.looper, (struct call){.handle = handle, .bytes = &i, .size = sizeof i}) == i + 1, "a wrong answer");
        times[count] = raw_now() - start;
        longest = times[count] > longest ? times[count] : longest;
        count++;
    }
    struct spread spread = raw_spread(times, count);
    printf("calls %zu median %.1f last %.1f longest %.1f\n", count, spread.median, spread.last, longest);
    raw_kill(server);
    raw_kill(manager);
    return 0;
}
