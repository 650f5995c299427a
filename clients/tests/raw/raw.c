/* SPDX-License-Identifier: Apache-2.0 OR MIT */
#include "raw.h"

#include <dirent.h>
#include <errno.h>
#include <signal.h>
#include <stdarg.h>
#include <stdio.h>
#include <stdlib.h>
#include <string.h>
#include <sys/ioctl.h>
#include <sys/mman.h>
#include <sys/prctl.h>
#include <sys/wait.h>
#include <time.h>
#include <unistd.h>

/* Where a started process tells that it is ready. */
static int ready_end = -1;

noreturn void raw_fail(const char *file, int line, const char *format, ...)
{
    int why = errno;
    va_list rest;
    va_start(rest, format);
    fprintf(stderr, "%s:%d: ", file, line);
    vfprintf(stderr, format, rest);
    fprintf(stderr, "%s%s\n", why ? ": " : "", why ? strerror(why) : "");
    va_end(rest);
    _exit(1);
}

const char *raw_device(void)
{
    const char *named = getenv("RAW_DEVICE");
    return named ? named : "/dev/binder";
}

void raw_begin(unsigned seconds)
{
    setvbuf(stdout, NULL, _IOLBF, 0);
    alarm(RAW_BUSY * seconds);
}

static void serve_nothing(struct looper *looper, const struct binder_transaction_data *call)
{
    if (!(call->flags & TF_ONE_WAY))
        raw_answer(looper, NULL, 0);
}

void raw_looper(struct looper *looper, struct client *client, serve_function *serve)
{
    *looper = (struct looper){.binder = &client->binder, .serve = serve ? serve : serve_nothing, .with = client};
}

void raw_open(struct client *client, size_t window, serve_function *serve)
{
    CHECK(binder_open(&client->binder, raw_device(), window), "can't open %s", raw_device());
    raw_looper(&client->looper, client, serve);
}

void raw_answer(struct looper *looper, const void *bytes, size_t size)
{
    struct binder_transaction_data answer = {.data_size = size, .data.ptr.buffer = (uintptr_t)bytes};
    CHECK(looper_answer(looper, &answer, 0), "can't answer");
}

const void *raw_data(const struct binder_transaction_data *record)
{
    return (const void *)(uintptr_t)record->data.ptr.buffer;
}

uint32_t raw_number(const struct binder_transaction_data *record)
{
    uint32_t number;
    CHECK(record->data_size == sizeof number, "%llu bytes in place of a number", (unsigned long long)record->data_size);
    memcpy(&number, raw_data(record), sizeof number);
    return number;
}

uint32_t raw_call(struct looper *looper, struct call call, struct binder_transaction_data *reply)
{
    struct binder_transaction_data record = {
        .target.handle = call.handle,
        .code = call.code,
        .flags = call.flags,
        .data_size = call.size,
        .data.ptr.buffer = (uintptr_t)call.bytes,
    };
    return looper_call(looper, &record, 0, reply);
}

uint32_t raw_call_with(struct looper *looper, struct call call, struct writer *writer, struct binder_transaction_data *reply)
{
    CHECK(!writer->failed, "no memory");
    struct binder_transaction_data record = record_of(writer);
    record.target.handle = call.handle;
    record.code = call.code;
    record.flags |= call.flags;
    uint32_t ending = looper_call(looper, &record, writer->buffers, reply);
    writer_free(writer);
    return ending;
}

void raw_give(struct client *client, uint32_t code)
{
    struct writer object = {0};
    struct binder_transaction_data reply;
    write_own_object(&object, 0x1000, 0x2000);
    CHECK(raw_call_with(&client->looper, (struct call){.code = code}, &object, &reply) == BR_REPLY, "the object wasn't taken");
    looper_free(&client->looper, &reply);
}

uint32_t raw_ask(struct looper *looper, struct call call)
{
    struct binder_transaction_data reply;
    uint32_t ending = raw_call(looper, call, &reply);
    CHECK(ending == BR_REPLY, "call %u of handle %u ended as %x", call.code, call.handle, ending);
    uint32_t number = raw_number(&reply);
    looper_free(looper, &reply);
    return number;
}

/* In the new process: it dies with who started it, however that ends. */
static noreturn void run(void (*body)(void *with), void *with, int ready, pid_t parent)
{
    prctl(PR_SET_PDEATHSIG, SIGKILL);
    if (getppid() != parent)
        _exit(1);
    ready_end = ready;
    body(with);
    _exit(0);
}

pid_t raw_start(void (*body)(void *with), void *with)
{
    int ends[2];
    char told;
    pid_t parent = getpid();
    CHECK(!pipe(ends), "no pipe");
    pid_t pid = fork();
    CHECK(pid >= 0, "can't fork");
    if (!pid) {
        close(ends[0]);
        run(body, with, ends[1], parent);
    }
    close(ends[1]);
    CHECK(read(ends[0], &told, 1) == 1, "the other side ended before it was ready");
    close(ends[0]);
    return pid;
}

void raw_ready(void)
{
    CHECK(write(ready_end, "r", 1) == 1, "can't tell that it is ready");
    close(ready_end);
}

bool raw_become_taking_manager(struct binder *binder)
{
    struct flat_binder_object object = {.flags = FLAT_BINDER_FLAG_ACCEPTS_FDS};
    return ioctl(binder->fd, BINDER_SET_CONTEXT_MGR_EXT, &object) == 0;
}

static void manage(void *with)
{
    struct client client;
    raw_open(&client, WINDOW, *(serve_function **)with);
    CHECK(binder_become_manager(&client.binder), "can't be the context manager");
    raw_ready();
    looper_run(&client.looper);
    raw_fail(__FILE__, __LINE__, "the manager's device failed");
}

pid_t raw_start_manager(serve_function *serve)
{
    return raw_start(manage, &serve);
}

static void keep(struct looper *looper, const struct binder_transaction_data *call)
{
    static uint32_t kept;
    struct writer writer = {0};
    if (call->code == RAW_QUIT)
        _exit(0);
    if (call->code == RAW_KEEP)
        kept = raw_keep(looper, call);
    if (call->code == RAW_HAND)
        write_strong_handle(&writer, kept);
    struct binder_transaction_data answer = record_of(&writer);
    CHECK(looper_answer(looper, &answer, 0), "can't answer");
    writer_free(&writer);
}

pid_t raw_start_keeper(void)
{
    return raw_start_manager(keep);
}

uint32_t raw_fetch(struct client *client)
{
    struct binder_transaction_data reply;
    CHECK(raw_call(&client->looper, (struct call){.code = RAW_HAND}, &reply) == BR_REPLY, "the manager hands nothing over");
    uint32_t handle = raw_keep(&client->looper, &reply);
    looper_free(&client->looper, &reply);
    return handle;
}

struct gate *raw_new_gate(void)
{
    struct gate *gate = mmap(NULL, sizeof *gate, PROT_READ | PROT_WRITE, MAP_SHARED | MAP_ANONYMOUS, -1, 0);
    CHECK(gate != MAP_FAILED, "no memory");
    return gate;
}

bool raw_pass(const struct gate *gate)
{
    for (int turn = 0; turn < RAW_PATIENCE && !atomic_load(&gate->is_open); turn++)
        usleep(1000);
    return atomic_load(&gate->is_open);
}

void raw_kill(pid_t pid)
{
    kill(pid, SIGKILL);
    waitpid(pid, NULL, 0);
}

void raw_join(pid_t pid)
{
    int status;
    CHECK(waitpid(pid, &status, 0) == pid && status == 0, "the other side failed: %x", status);
}

uint32_t raw_keep(struct looper *looper, const struct binder_transaction_data *record)
{
    struct flat_binder_object object;
    CHECK(record->offsets_size == sizeof(binder_size_t), "%llu bytes of offsets", (unsigned long long)record->offsets_size);
    const uint8_t *data = raw_data(record);
    memcpy(&object, data + *(const binder_size_t *)(uintptr_t)record->data.ptr.offsets, sizeof object);
    CHECK(object.hdr.type == BINDER_TYPE_HANDLE, "an object of type %x", object.hdr.type);
    put_handle(&looper->commands, BC_ACQUIRE, object.handle);
    return object.handle;
}

size_t raw_descriptors(pid_t pid)
{
    char path[64];
    size_t count = 0;
    snprintf(path, sizeof path, "/proc/%d/fd", (int)pid);
    DIR *folder = opendir(path);
    CHECK(folder, "%s", path);
    for (struct dirent *entry; (entry = readdir(folder));)
        count += entry->d_name[0] != '.';
    closedir(folder);
    return count;
}

pid_t raw_daemon(void)
{
    const char *named = getenv("RAW_DAEMON");
    return named ? atoi(named) : 0;
}

double raw_daemon_time(void)
{
    clockid_t clock;
    struct timespec time;
    CHECK(!clock_getcpuclockid(raw_daemon(), &clock) && !clock_gettime(clock, &time), "no daemon");
    return (double)time.tv_sec * 1e6 + (double)time.tv_nsec / 1e3;
}

void raw_daemon_rests(void)
{
    for (double used = 0, now; (now = raw_daemon_time()) - used > 100; used = now)
        usleep(50000);
}

/* As the kernel tells of it behind its name, which stands in brackets. One that has ended is stopped too. */
static bool is_stopped(const char *thread)
{
    char path[320], text[512] = {0};
    snprintf(path, sizeof path, "/proc/%d/task/%s/stat", (int)raw_daemon(), thread);
    FILE *file = fopen(path, "r");
    bool is_read = file && fgets(text, sizeof text, file);
    const char *name_end = is_read ? strrchr(text, ')') : NULL;
    if (file)
        fclose(file);
    return !name_end || name_end[2] == 'T';
}

static bool are_all_stopped(void)
{
    char path[64];
    bool are_stopped = true;
    snprintf(path, sizeof path, "/proc/%d/task", (int)raw_daemon());
    DIR *folder = opendir(path);
    CHECK(folder, "%s", path);
    for (struct dirent *entry; (entry = readdir(folder));)
        are_stopped = are_stopped && (entry->d_name[0] == '.' || is_stopped(entry->d_name));
    closedir(folder);
    return are_stopped;
}

void raw_stop_daemon(void)
{
    CHECK(!kill(raw_daemon(), SIGSTOP), "can't stop the daemon");
    while (!are_all_stopped())
        usleep(1000);
}

void raw_continue_daemon(void)
{
    CHECK(!kill(raw_daemon(), SIGCONT), "can't have the daemon go on");
}

double raw_now(void)
{
    struct timespec now;
    clock_gettime(CLOCK_MONOTONIC, &now);
    return now.tv_sec * 1e6 + now.tv_nsec / 1e3;
}

static int compared(const void *one, const void *other)
{
    double difference = *(const double *)one - *(const double *)other;
    return (difference > 0) - (difference < 0);
}

struct spread raw_spread(double *all, size_t count)
{
    qsort(all, count, sizeof *all, compared);
    return (struct spread){all[count / 2], all[count / 10], all[count * 99 / 100]};
}
