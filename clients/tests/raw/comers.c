/* SPDX-License-Identifier: Apache-2.0 OR MIT */
/*
 * comers COUNT [OPENS]: what it takes to open the device, map a window and close it beside so many processes that connect to the daemon and
 * hang up, over and over. Prints the median alone and, of so many (300), beside them in microseconds, and how much of the daemon's processor
 * time an open takes alone, and who hangs up while nobody opens.
 */
#include "raw.h"

#include <signal.h>
#include <stdatomic.h>
#include <stdio.h>
#include <stdlib.h>
#include <string.h>
#include <sys/mman.h>
#include <sys/socket.h>
#include <sys/un.h>
#include <unistd.h>

#define OPENS 300
#define MOST 64
#define HANGING_UP 4000 /* so many are counted, however long that takes */

static _Atomic uint64_t *hung_up;

static void hang_up(void *with)
{
    struct sockaddr_un address = {.sun_family = AF_UNIX};
    (void)with;
    snprintf(address.sun_path, sizeof address.sun_path, "%s", getenv("HULLPIPPIN_SOCKET"));
    raw_ready();
    for (;;) {
        int fd = socket(AF_UNIX, SOCK_SEQPACKET | SOCK_CLOEXEC, 0);
        if (!connect(fd, (const struct sockaddr *)&address, sizeof address))
            atomic_fetch_add(hung_up, 1);
        close(fd);
    }
}

static double median_open(size_t opens)
{
    static double times[OPENS];
    for (size_t i = 0; i < opens; i++) {
        struct binder binder;
        double start = raw_now();
        CHECK(binder_open(&binder, raw_device(), 4096), "open %zu", i);
        times[i] = raw_now() - start;
        binder_close(&binder);
    }
    return raw_spread(times, opens).median;
}

static double cost_of_hanging_up(void)
{
    double used = raw_daemon_time();
    uint64_t before = atomic_load(hung_up);
    while (atomic_load(hung_up) - before < HANGING_UP)
        usleep(1000);
    return (raw_daemon_time() - used) / (double)(atomic_load(hung_up) - before);
}

int main(int argc, char **argv)
{
    pid_t pids[MOST];
    struct binder binder;
    size_t count = argc > 1 ? strtoul(argv[1], NULL, 10) : 8;
    size_t opens = argc > 2 ? strtoul(argv[2], NULL, 10) : OPENS;
    CHECK(count && count <= MOST && opens && opens <= OPENS, "%zu processes, %zu opens", count, opens);
    raw_begin(60);
    hung_up = mmap(NULL, sizeof *hung_up, PROT_READ | PROT_WRITE, MAP_SHARED | MAP_ANONYMOUS, -1, 0);
    CHECK(hung_up != MAP_FAILED && binder_open(&binder, raw_device(), 4096), "nothing can be opened");
    double used = raw_daemon_time(), alone = median_open(OPENS);
    raw_daemon_rests();
    double open_cost = (raw_daemon_time() - used) / OPENS;
    for (size_t i = 0; i < count; i++)
        pids[i] = raw_start(hang_up, NULL);
    double cost = cost_of_hanging_up(), beside = median_open(opens);
    for (size_t i = 0; i < count; i++)
        raw_kill(pids[i]);
    printf("alone %.1f beside %.1f open %.1f hangup %.1f times %llu\n", alone, beside, open_cost, cost,
           (unsigned long long)atomic_load(hung_up));
    return 0;
}
