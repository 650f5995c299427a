/* SPDX-License-Identifier: Apache-2.0 OR MIT */
/*
 * latency [CALLS [BYTES]]: round trips of calls with so many bytes to a process that answers at once, with its answer
 * and its next read in one go.
 */
#include "raw.h"

#include <stdio.h>
#include <stdlib.h>

/* Not measured: the first calls find nothing mapped yet. */
#define WARM 100

int main(int argc, char **argv)
{
    size_t calls = argc > 1 ? strtoul(argv[1], NULL, 10) : 5000, bytes = argc > 2 ? strtoul(argv[2], NULL, 10) : 0;
    struct client client;
    struct binder_transaction_data reply;
    uint8_t *data = calloc(bytes + 1, 1);
    double *times = calloc(calls + 1, sizeof *times);
    CHECK(data && times && calls, "nothing to be measured");
    raw_begin(60);
    pid_t manager = raw_start_manager(NULL);
    raw_open(&client, WINDOW, NULL);
    for (size_t i = 0; i < WARM + calls; i++) {
        double start = raw_now();
        CHECK(raw_call(&client.looper, (struct call){.bytes = data, .size = bytes}, &reply) == BR_REPLY, "call %zu", i);
        if (i >= WARM)
            times[i - WARM] = raw_now() - start;
        looper_free(&client.looper, &reply);
    }
    struct spread spread = raw_spread(times, calls);
    printf("median %.1f tenth %.1f last %.1f longest %.1f\n", spread.median, spread.tenth, spread.last, times[calls - 1]);
    raw_kill(manager);
    free(data);
    free(times);
    return 0;
}
