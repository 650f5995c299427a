/* SPDX-License-Identifier: Apache-2.0 OR MIT */
/*
 * inside [FOLDER..]: libFuzzer with the whole daemon in its process, but for what it asks of the kernel as it begins: its address, its
 * options, its filter. Its files are built for this with other names for some functions of the C library (Makefile), which are here: so
 * the devices' threads are this one, time goes on as they look at it, and where they would wait the script goes on. The threads that
 * close descriptors are the daemon's own.
 *
 * Beside what the sanitizers see it judges that no device ends, that what a client is told is spelled as it should be and lies in its
 * window, and that nothing stays: no process, no descriptor, no count in a share; libFuzzer looks for memory.
 */
#include "inside.h"

#include "../../daemon/daemon.h"

#include <dirent.h>
#include <errno.h>
#include <signal.h>
#include <stdarg.h>
#include <stdlib.h>
#include <string.h>
#include <sys/epoll.h>
#include <sys/syscall.h>
#include <time.h>
#include <unistd.h>

#define DEVICES "/dev/binder,/dev/hwbinder"

#define LITTLE_MEMORY (16l << 20)

/* So many seats a device may have. */
static const uint32_t seats[] = {16, 2, 3, 64};
/* So many nanoseconds go by with each look at the time. */
static const uint64_t paces[] = {100, 700, 5000, 30000};

static struct daemon hull;
static struct loop *turning; /* the loop that runs; NULL: none */
static bool is_ending;       /* it runs to its end */
static uint64_t now, pace;
static _Thread_local bool is_script; /* this thread's time is the script's, and it has no other threads */

void expect(bool is_so, const char *what)
{
    if (is_so)
        return;
    fprintf(stderr, "inside: it isn't so that %s\n", what);
    abort();
}

/* --- What the daemon calls in place of the C library. --- */

int inside_clock_gettime(clockid_t clock, struct timespec *time)
{
    if (!is_script)
        return clock_gettime(clock, time);
    now += pace;
    *time = (struct timespec){(time_t)(now / 1000000000u), (long)(now % 1000000000u)};
    return 0;
}

/* Where the loop would wait it stops, as by a signal. */
static int wait_for_events(int epoll, struct epoll_event *events, int most, int patience)
{
    int count = epoll_wait(epoll, events, most, 0);
    if (count || !patience || is_ending)
        return count;
    turning->is_stopped = true;
    return errno = EINTR, -1;
}

/* A wait for a moment is over at once, and the time has passed. */
static int wait_a_moment(int epoll, struct epoll_event *events, int most, const struct timespec *patience)
{
    now += (uint64_t)patience->tv_nsec;
    return epoll_wait(epoll, events, most, 0);
}

long inside_syscall(long number, ...)
{
    va_list rest;
    long words[6];
    va_start(rest, number);
    for (size_t i = 0; i < 6; i++)
        words[i] = va_arg(rest, long);
    va_end(rest);
    if (number == SYS_epoll_pwait)
        return wait_for_events((int)words[0], (void *)words[1], (int)words[2], (int)words[3]);
    if (number == SYS_epoll_pwait2)
        return wait_a_moment((int)words[0], (void *)words[1], (int)words[2], (void *)words[3]);
    return syscall(number, words[0], words[1], words[2], words[3], words[4], words[5]);
}

/* There is little memory, so that shares are soon used up. */
long inside_sysconf(int name)
{
    return name == _SC_PHYS_PAGES ? LITTLE_MEMORY / sysconf(_SC_PAGESIZE) : sysconf(name);
}

/* A device's thread, which is played by drive() and, at its end, by whoever joins it. */
static struct {
    void *(*run)(void *);
    void *with;
} threads[DEVICES_MAX];
static size_t thread_count;

int inside_pthread_create(pthread_t *thread, const pthread_attr_t *attributes, void *(*run)(void *), void *with)
{
    if (!is_script)
        return pthread_create(thread, attributes, run, with);
    threads[thread_count].run = run;
    threads[thread_count].with = with;
    *thread = (pthread_t)thread_count++;
    return 0;
}

int inside_pthread_join(pthread_t thread, void **result)
{
    struct engine *engine;
    if (!is_script)
        return pthread_join(thread, result);
    engine = threads[thread].with;
    is_ending = true;
    engine->loop.is_stopped = false;
    threads[thread].run(engine);
    is_ending = false;
    return 0;
}

/* --- The daemon. --- */

static void drive(struct loop *loop)
{
    turning = loop;
    loop->is_stopped = false;
    expect(loop_run(loop), "a loop can wait");
    turning = NULL;
}

void daemon_goes_on(void)
{
    drive(&hull.loop);
    for (uint32_t i = 0; i < hull.device_count; i++)
        if (hull.devices[i].engine)
            drive(&hull.devices[i].engine->loop);
    expect(!hull.has_failed, "no device ends");
}

void daemon_rests(void)
{
    time_passes(UINT64_C(1000000000));
    for (uint32_t i = 0; i < hull.device_count; i++)
        if (hull.devices[i].engine)
            hull.devices[i].engine->loop.idle(hull.devices[i].engine);
}

void time_passes(uint64_t nanoseconds)
{
    now += nanoseconds;
}

void daemon_accepts(int socket)
{
    process_accept(&hull, socket);
}

static bool has_rested(void *daemon)
{
    (void)daemon;
    return false;
}

static void begin_daemon(struct input *input)
{
    uint32_t word = take(input);
    hull = (struct daemon){.seats = seats[word % 4], .signals.fd = -1, .patience.fd = -1};
    pace = paces[word / 4 % 4];
    now = UINT64_C(1000000000000);
    list_begin(&hull.strangers);
    expect(devices_add(&hull, DEVICES) && loop_begin(&hull.loop) && devices_begin(&hull), "a daemon begins");
    hull.loop.between = strangers_end_some;
    hull.loop.idle = has_rested;
    hull.loop.context = &hull;
}

static void end_daemon(void)
{
    expect(list_is_empty(&hull.strangers), "who has hung up is gone");
    for (uint32_t i = 0; i < hull.device_count; i++)
        expect(!hull.devices[i].engine || list_is_empty(&hull.devices[i].engine->processes), "a process that has ended is gone");
    devices_end(&hull);
    loop_end(&hull.loop);
    thread_count = 0;
}

/* --- The fuzzer. --- */

static bool has_shares(void)
{
    struct share share;
    for (uint32_t i = 0; i < SHARE_LISTS; i++)
        if (shares_tell(i, 0, &share, 1))
            return true;
    return false;
}

/* But for those that wait to be used. */
static size_t descriptors_there(void)
{
    DIR *folder = opendir("/proc/self/fd");
    size_t count = 0;
    while (folder && readdir(folder))
        count++;
    if (folder)
        closedir(folder);
    return count - helpers_have();
}

/* What is closed by others takes its time. */
static void await_descriptors(size_t before)
{
    size_t there = descriptors_there();
    for (int i = 0; i < 3000 && there != before; i++) {
        usleep(1000);
        there = descriptors_there();
    }
    expect(there == before, "all descriptors are closed");
}

int LLVMFuzzerInitialize(int *count, char ***words);
int LLVMFuzzerTestOneInput(const uint8_t *bytes, size_t size);

int LLVMFuzzerInitialize(int *count, char ***words)
{
    (void)count;
    (void)words;
    signal(SIGPIPE, SIG_IGN);
    expect(helpers_begin() && calls_begin(), "helpers come");
    shares_begin(seats[0]);
    accounts_begin();
    expect(log_open("/dev/null", true) && descriptors_begin(), "descriptors can be closed");
    return 0;
}

int LLVMFuzzerTestOneInput(const uint8_t *bytes, size_t size)
{
    struct input input = {bytes, size};
    size_t before = descriptors_there();
    is_script = true;
    begin_daemon(&input);
    script_play(&input);
    end_daemon();
    is_script = false;
    await_descriptors(before);
    expect(!has_shares(), "nobody has anything of what is shared out");
    return 0;
}
