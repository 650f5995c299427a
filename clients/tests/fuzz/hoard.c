/* SPDX-License-Identifier: Apache-2.0 OR MIT */
/*
 * hoard connections|threads COUNT [UID]: takes as many connections that open nothing, or as many threads of an open file, as it is let
 * have, up to so many, and keeps them. Prints how many these were, and `full` where it was told EMFILE or sent away. With a user it is that one's.
 */
#include "../raw/raw.h"
#include "hostile.h"

#include <errno.h>
#include <stdio.h>
#include <stdlib.h>
#include <string.h>
#include <sys/mman.h>
#include <sys/prctl.h>
#include <sys/resource.h>
#include <sys/socket.h>
#include <unistd.h>

#define DEVICE "/dev/binder"

/* Whether a connection is only there to be told that it is one too many. */
static bool is_refused(struct hostile *hostile)
{
    return !hostile_connect(hostile) || !hostile_open(hostile, DEVICE);
}

static size_t take_connections(size_t count)
{
    struct hostile hostile;
    size_t taken = 0;
    while (taken < count && hostile_connect(&hostile))
        taken++;
    return taken;
}

static size_t take_threads(size_t count)
{
    struct hostile hostile;
    size_t taken = 0;
    CHECK(hostile_begin(&hostile, DEVICE), "no client");
    while (taken < count && hostile_thread(&hostile)) {
        close(hostile.page_memory);
        munmap(hostile.page, sizeof *hostile.page);
        taken++;
    }
    return taken;
}

int main(int argc, char **argv)
{
    CHECK(argc >= 3, "hoard connections|threads COUNT [UID]");
    size_t count = strtoul(argv[2], NULL, 10);
    struct rlimit limit;
    struct hostile one_more;
    raw_begin(60);
    CHECK(!getrlimit(RLIMIT_NOFILE, &limit), "no limit");
    limit.rlim_cur = limit.rlim_max;
    CHECK(!setrlimit(RLIMIT_NOFILE, &limit), "no descriptors");
    if (argc > 3)
        CHECK(!setgid((gid_t)atoi(argv[3])) && !setuid((uid_t)atoi(argv[3])) && !prctl(PR_SET_DUMPABLE, 1), "can't be user %s", argv[3]);
    bool are_threads = !strcmp(argv[1], "threads");
    size_t taken = are_threads ? take_threads(count) : take_connections(count);
    printf("taken %zu %s\n", taken, is_refused(&one_more) ? "full" : "let in");
    for (;;)
        pause();
}
