/* SPDX-License-Identifier: Apache-2.0 OR MIT */
/*
 * managers UID yes|no ..: one after the other each user becomes the context manager, and goes again; or is told EPERM, where it may not.
 */
#include "raw.h"

#include <errno.h>
#include <stdio.h>
#include <stdlib.h>
#include <string.h>
#include <unistd.h>

struct attempt {
    uid_t user;
    bool may;
};

/* The one before may be it still for a moment. */
static void try(void *with)
{
    const struct attempt *attempt = with;
    struct client client;
    raw_open(&client, WINDOW, NULL);
    CHECK(!seteuid(attempt->user), "can't be user %u", attempt->user);
    double begin = raw_now();
    bool is_it;
    while (!(is_it = binder_become_manager(&client.binder)) && errno == EBUSY && raw_now() - begin < RAW_PATIENCE * 1e3)
        usleep(1000);
    CHECK(is_it || errno == EPERM, "user %u isn't let", attempt->user);
    CHECK(is_it == attempt->may, "user %u %s the context manager", attempt->user, is_it ? "is" : "can't be");
    raw_ready();
    pause();
}

int main(int argc, char **argv)
{
    raw_begin(60);
    for (int i = 1; i + 1 < argc; i += 2) {
        struct attempt attempt = {(uid_t)strtoul(argv[i], NULL, 10), !strcmp(argv[i + 1], "yes")};
        raw_kill(raw_start(try, &attempt));
    }
    printf("%d users, each as it may\n", (argc - 1) / 2);
    return 0;
}
