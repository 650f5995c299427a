/* SPDX-License-Identifier: Apache-2.0 OR MIT */
/*
 * fuzz SECONDS [SEED [ACT..]]: hostile clients of the daemon whose socket HULLPIPPIN_SOCKET names, four at a time, each
 * a process that plays one act; it ends by itself or is killed at a random moment. Prints how many there were of each
 * act. Who judges is somebody else: whether the daemon lives, and whether others are served meanwhile.
 */
#include "acts.h"
#include "hostile.h"

#include <signal.h>
#include <stdio.h>
#include <stdlib.h>
#include <sys/prctl.h>
#include <sys/wait.h>
#include <time.h>
#include <unistd.h>

#define AT_ONCE 4
#define LONGEST_MS 600

static const struct {
    const char *name;
    void (*play)(void);
} acts[] = {
    {"garbage packets", act_garbage_packets}, {"deaf", act_deaf}, {"garbage page", act_garbage_page}, {"changing page", act_changing_page},
    {"shrinking memory", act_shrinking_memory}, {"hoard", act_hoard}, {"silent receiver", act_silent_receiver}, {"shared bell", act_shared_bell},
    {"shared doorbell", act_shared_doorbell}, {"crowd", act_crowd}, {"ringing", act_ringing}, {"gone", act_gone},
};
#define ACTS (sizeof acts / sizeof *acts)

struct playing {
    pid_t pid;
    double until;
};

static double now(void)
{
    struct timespec time;
    clock_gettime(CLOCK_MONOTONIC, &time);
    return (double)time.tv_sec + time.tv_nsec / 1e9;
}

static void start(struct playing *playing, uint64_t seed, size_t act)
{
    pid_t parent = getpid();
    playing->until = now() + below(LONGEST_MS) / 1e3;
    pid_t pid = fork();
    playing->pid = pid > 0 ? pid : 0; /* where none can be made there is none: -1 would stand for all that may be killed */
    if (pid)
        return;
    hostile_patience = LONGEST_MS;
    prctl(PR_SET_PDEATHSIG, SIGKILL);
    if (getppid() != parent)
        _exit(1);
    chance_begin(seed);
    acts[act].play();
    _exit(0);
}

/* Whether a place is free: its process has ended, or its time is over. */
static bool is_over(struct playing *playing)
{
    if (!playing->pid)
        return true;
    if (now() > playing->until)
        kill(playing->pid, SIGKILL);
    if (waitpid(playing->pid, NULL, WNOHANG) != playing->pid)
        return false;
    playing->pid = 0;
    return true;
}

int main(int argc, char **argv)
{
    static unsigned long played[ACTS];
    struct playing playing[AT_ONCE] = {0};
    double end = now() + (argc > 1 ? atof(argv[1]) : 60);
    uint64_t seed = argc > 2 ? strtoull(argv[2], NULL, 10) : 1;
    chance_begin(seed);
    signal(SIGPIPE, SIG_IGN);
    for (uint64_t turn = 0; now() < end; usleep(500))
        for (size_t i = 0; i < AT_ONCE; i++)
            if (is_over(&playing[i])) {
                uint32_t any = below(argc > 3 ? (uint32_t)argc - 3 : (uint32_t)ACTS);
                size_t act = argc > 3 ? strtoul(argv[3 + any], NULL, 10) % ACTS : any;
                start(&playing[i], seed * 1000003 + turn++, act);
                played[act]++;
            }
    for (size_t i = 0; i < AT_ONCE; i++)
        if (playing[i].pid && kill(playing[i].pid, SIGKILL) == 0)
            waitpid(playing[i].pid, NULL, 0);
    printf("seed %llu", (unsigned long long)seed);
    for (size_t i = 0; i < ACTS; i++)
        printf(", %s %lu", acts[i].name, played[i]);
    printf("\n");
    return 0;
}
