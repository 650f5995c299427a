/* SPDX-License-Identifier: Apache-2.0 OR MIT */
/*
 * short.c: goes into a daemon of the tests, whose engines make no more than so many steps: what they answer then no device lives to
 * hear, or comes of a handle behind the last. The linker has the daemon call these in the library's place. With BEGIN_AT its devices'
 * histories begin behind so many steps that were refused, and go on without that end. With SHORT_OF_MEMORY in its environment the
 * kernel has no memory for its clients in the first seconds, and the engine none to end the first threads. With SHORT_CALL it asks the
 * kernel for something that it has no use for, as often as a client comes. With SHORT_OF_DISK nothing is taken of what is longer than
 * the heading of a recording, or rings a bell. With SHORT_OF_ENTRIES a journal of version two counts a thousand entries. And it asks
 * another daemon for seconds, not for a minute. With SLOW_TO_LISTEN a second passes between its socket's beginning and its listening.
 */
#include <errno.h>
#include <fcntl.h>
#include <signal.h>
#include <stdio.h>
#include <stdlib.h>
#include <string.h>
#include <sys/mman.h>
#include <sys/socket.h>
#include <sys/syscall.h>
#include <time.h>
#include <unistd.h>

#include "hullpippin.h"

#define STEPS 4000
#define SECONDS 3
/* A daemon that tries so often in them doesn't rest. */
#define MOST_TRIES 20
#define THREADS 29
/* The most that a recording begins with. */
#define HEADING 20
#define ENTRIES 1000

extern uint64_t narrow_most;
extern uint32_t asking_most;

/* Of a daemon whose devices begin behind some steps, how many these are. */
static uint64_t begun_at;

__attribute__((constructor)) static void shorten(void)
{
    const char *steps = getenv("BEGIN_AT");
    begun_at = steps ? strtoull(steps, NULL, 10) : 0;
    if (getenv("SHORT_OF_ENTRIES"))
        narrow_most = ENTRIES;
    asking_most = SECONDS;
}

/* It is for tests, so the header hasn't got it: an engine that is as after so many steps that were refused. */
uint32_t hullpippin_bridge_begun_at(uint32_t seats, uint64_t steps, hullpippin_live *live);

uint32_t __real_hullpippin_bridge_new(uint32_t seats, hullpippin_live *live);
uint32_t __wrap_hullpippin_bridge_new(uint32_t seats, hullpippin_live *live);
uint32_t __wrap_hullpippin_bridge_new(uint32_t seats, hullpippin_live *live)
{
    return begun_at ? hullpippin_bridge_begun_at(seats, begun_at, live) : __real_hullpippin_bridge_new(seats, live);
}

static bool makes_steps(hullpippin_live *live)
{
    return begun_at || hullpippin_live_len(live) < STEPS;
}

/* The library's function of this name, and what the daemon calls. */
#define SHORT(name, parameters, ...) \
    uint32_t __real_hullpippin_live_##name parameters; \
    uint32_t __wrap_hullpippin_live_##name parameters; \
    uint32_t __wrap_hullpippin_live_##name parameters \
    { \
        return makes_steps(live) ? __real_hullpippin_live_##name(__VA_ARGS__) : HULLPIPPIN_HISTORY_FULL; \
    }

SHORT(open, (hullpippin_live *live, uint32_t seat, uint32_t pid, uint32_t euid, uint32_t window, hullpippin_answer *answer), live,
      seat, pid, euid, window, answer)
SHORT(attach, (hullpippin_live *live, uint32_t seat, uint32_t pid, hullpippin_answer *answer), live, seat, pid, answer)
SHORT(manager, (hullpippin_live *live, uint32_t seat, hullpippin_answer *answer), live, seat, answer)
SHORT(set_spam, (hullpippin_live *live, uint32_t seat, uint32_t on, hullpippin_answer *answer), live, seat, on, answer)
SHORT(command, (hullpippin_live *live, uint32_t seat, const uint8_t *command, size_t size, const uint8_t *data, size_t data_size,
                const uint8_t *offsets, size_t offsets_size, hullpippin_answer *answer), live, seat, command, size, data, data_size,
      offsets, offsets_size, answer)
SHORT(read, (hullpippin_live *live, uint32_t seat, uint32_t limit, hullpippin_answer *answer), live, seat, limit, answer)
/* A read for who waits is a step too: none is made any more. */
uint32_t __real_hullpippin_bridge_settle(hullpippin_live *live, uint32_t looks, hullpippin_signal *signal);
uint32_t __wrap_hullpippin_bridge_settle(hullpippin_live *live, uint32_t looks, hullpippin_signal *signal);
uint32_t __wrap_hullpippin_bridge_settle(hullpippin_live *live, uint32_t looks, hullpippin_signal *signal)
{
    if (makes_steps(live))
        return __real_hullpippin_bridge_settle(live, looks, signal);
    *signal = (hullpippin_signal){.kind = HULLPIPPIN_SIGNAL_NONE};
    return HULLPIPPIN_DONE;
}

SHORT(exit_process, (hullpippin_live *live, uint32_t seat, hullpippin_answer *answer), live, seat, answer)

/* Those of the daemon's own seat end as they should. */
uint32_t __real_hullpippin_live_exit_thread(hullpippin_live *live, uint32_t seat, hullpippin_answer *answer);
uint32_t __wrap_hullpippin_live_exit_thread(hullpippin_live *live, uint32_t seat, hullpippin_answer *answer);
uint32_t __wrap_hullpippin_live_exit_thread(hullpippin_live *live, uint32_t seat, hullpippin_answer *answer)
{
    static int kept;
    if (getenv("SHORT_OF_MEMORY") && seat && kept < THREADS && ++kept)
        return HULLPIPPIN_NO_MEMORY;
    return makes_steps(live) ? __real_hullpippin_live_exit_thread(live, seat, answer) : HULLPIPPIN_HISTORY_FULL;
}

ssize_t __real_write(int fd, const void *bytes, size_t size);
ssize_t __wrap_write(int fd, const void *bytes, size_t size);
ssize_t __wrap_write(int fd, const void *bytes, size_t size)
{
    return size > HEADING && getenv("SHORT_OF_DISK") ? 0 : __real_write(fd, bytes, size);
}

int __real_listen(int fd, int backlog);
int __wrap_listen(int fd, int backlog);
int __wrap_listen(int fd, int backlog)
{
    if (getenv("SLOW_TO_LISTEN"))
        sleep(1);
    return __real_listen(fd, backlog);
}

/* Where the kernel lets it, none of them does harm. */
static const struct {
    const char *name;
    long number, arguments[6];
} calls[] = {
    {"exec", SYS_execve, {(long)"/bin/true"}},
    {"fork", SYS_clone, {SIGCHLD}},
    {"socket", SYS_socket, {AF_INET, SOCK_STREAM}},
    {"pair", SYS_socketpair, {AF_INET, SOCK_STREAM}},
    {"signal", SYS_kill, {1}},
    {"other", SYS_tgkill, {1, 1}},
    {"code", SYS_mmap, {0, 4096, PROT_READ | PROT_EXEC, MAP_PRIVATE | MAP_ANONYMOUS, -1}},
    {"protect", SYS_mprotect, {0, 4096, PROT_READ | PROT_EXEC}},
    {"write", SYS_openat, {AT_FDCWD, (long)"/dev/null", O_WRONLY}},
    {"unknown", SYS_getcwd, {0}},
};

static void make_call(const char *name)
{
    for (size_t i = 0; name && i < sizeof calls / sizeof *calls; i++) {
        const long *with = calls[i].arguments;
        if (strcmp(calls[i].name, name))
            continue;
        long done = syscall(calls[i].number, with[0], with[1], with[2], with[3], with[4], with[5]);
        if (done == 0 && calls[i].number == SYS_clone)
            _exit(0); /* the child */
        fprintf(stderr, "call %s: %s\n", name, done < 0 ? strerrorname_np(errno) : "done");
    }
}

int __real_accept4(int fd, struct sockaddr *address, socklen_t *size, int flags);
int __wrap_accept4(int fd, struct sockaddr *address, socklen_t *size, int flags);
int __wrap_accept4(int fd, struct sockaddr *address, socklen_t *size, int flags)
{
    static struct timespec first, now;
    static unsigned tries;
    clock_gettime(CLOCK_MONOTONIC, &now);
    if (!first.tv_sec)
        first = now;
    make_call(getenv("SHORT_CALL"));
    if (getenv("SHORT_OF_MEMORY") && now.tv_sec - first.tv_sec < SECONDS) {
        if (++tries == MOST_TRIES)
            fprintf(stderr, "a client was tried %u times\n", tries);
        return errno = ENOMEM, -1;
    }
    return __real_accept4(fd, address, size, flags);
}
