/* SPDX-License-Identifier: Apache-2.0 OR MIT */
/*
 * churn CLIENTS: so many clients come to a server one after the other, give it an object, are called back, and are
 * killed or end without a word. Prints the daemon's resident memory in KiB and its descriptors, in the middle and at
 * the end.
 */
#include "raw.h"

#include <stdio.h>
#include <stdlib.h>
#include <unistd.h>

/* Calls back, and keeps nothing of the object beyond the buffer. */
static void serve(struct looper *looper, const struct binder_transaction_data *call)
{
    uint32_t handle = raw_keep(looper, call);
    struct binder_transaction_data reply;
    if (raw_call(looper, (struct call){.handle = handle}, &reply) == BR_REPLY)
        looper_free(looper, &reply);
    put_handle(&looper->commands, BC_RELEASE, handle);
    raw_answer(looper, NULL, 0);
}

static void come_and_go(void *with)
{
    struct client client;
    raw_open(&client, WINDOW, NULL);
    raw_give(&client, 0);
    raw_ready();
    if (*(size_t *)with % 2)
        pause();
}

static size_t resident(pid_t pid)
{
    char path[64];
    size_t all, here = 0;
    snprintf(path, sizeof path, "/proc/%d/statm", (int)pid);
    FILE *file = fopen(path, "r");
    CHECK(file && fscanf(file, "%zu %zu", &all, &here) == 2, "%s", path);
    fclose(file);
    return here * (size_t)sysconf(_SC_PAGESIZE) / 1024;
}

int main(int argc, char **argv)
{
    size_t clients = argc > 1 ? strtoul(argv[1], NULL, 10) : 1000, memory[2] = {0}, descriptors[2] = {0};
    raw_begin(300);
    pid_t manager = raw_start_manager(serve);
    CHECK(raw_daemon(), "RAW_DAEMON isn't told");
    for (int half = 0; half < 2; half++) {
        for (size_t i = 0; i < clients / 2; i++)
            raw_kill(raw_start(come_and_go, &i));
        usleep(200000); /* the daemon sees the last one's end */
        memory[half] = resident(raw_daemon());
        descriptors[half] = raw_descriptors(raw_daemon());
    }
    printf("memory %zu then %zu descriptors %zu then %zu\n", memory[0], memory[1], descriptors[0], descriptors[1]);
    raw_kill(manager);
    return 0;
}
