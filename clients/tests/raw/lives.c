/* SPDX-License-Identifier: Apache-2.0 OR MIT */
/*
 * lives: what a file is besides its calls, as Linux's driver has it. A process lives as long as its window is mapped, also after its last
 * descriptor is closed; a read that waits comes back when a copy is closed; a thread's first ioctl, if it is a read, comes back at once;
 * nobody reads or writes the file itself; the child of a fork has neither file nor window, however it was made.
 */
#include "raw.h"

#include <errno.h>
#include <fcntl.h>
#include <pthread.h>
#include <sched.h>
#include <signal.h>
#include <stdatomic.h>
#include <stdio.h>
#include <sys/ioctl.h>
#include <sys/mman.h>
#include <sys/syscall.h>
#include <sys/uio.h>
#include <sys/wait.h>
#include <unistd.h>

enum { GIVE = 1, PING, DEATHS };

#define COOKIE 77

static uint32_t deaths;
static uint32_t given;

static void died(struct looper *looper, binder_uintptr_t cookie)
{
    (void)looper;
    deaths += cookie == COOKIE;
}

static void serve(struct looper *looper, const struct binder_transaction_data *call)
{
    looper->died = died;
    if (call->code == GIVE) {
        given = raw_keep(looper, call);
        put_death(&looper->commands, BC_REQUEST_DEATH_NOTIFICATION, given, COOKIE);
    }
    raw_answer(looper, &deaths, sizeof deaths);
}

/* Reads into a room of so many bytes: how many came, or -1 and errno. */
static ssize_t read_into(int fd, uint32_t *returns, size_t room)
{
    struct binder_write_read both = {.read_size = room, .read_buffer = (uintptr_t)returns};
    return ioctl(fd, BINDER_WRITE_READ, &both) ? -1 : (ssize_t)both.read_consumed;
}

/* --- A process lives while its window is mapped. --- */

static uint32_t deaths_after(struct client *observer, uint32_t wanted)
{
    uint32_t told = 0;
    for (int i = 0; i < RAW_PATIENCE; i++, usleep(1000)) {
        told = raw_ask(&observer->looper, (struct call){.code = DEATHS});
        if (told == wanted)
            break;
    }
    return told;
}

static void lives_by_its_window(struct client *observer)
{
    struct client client;
    raw_open(&client, WINDOW, NULL);
    raw_give(&client, GIVE);
    CHECK(looper_flush(&client.looper), "can't write");
    uint8_t *window = (uint8_t *)(uintptr_t)client.binder.window;
    CHECK(!close(client.binder.fd), "can't be closed");
    usleep(50000);
    CHECK(deaths_after(observer, 0) == 0, "a process ends with its file, though its window is mapped");
    CHECK(!munmap(window + WINDOW / 2, WINDOW / 2) && !munmap(window, 4096), "can't be unmapped");
    usleep(50000);
    CHECK(deaths_after(observer, 0) == 0, "a process ends though a part of its window is mapped");
    CHECK(!munmap(window, WINDOW), "can't be unmapped");
    CHECK(deaths_after(observer, 1) == 1, "a process lives without file and window");
    /* the other way round, with another mapping laid over the window */
    raw_open(&client, WINDOW, NULL);
    raw_give(&client, GIVE);
    CHECK(looper_flush(&client.looper), "can't write");
    window = (uint8_t *)(uintptr_t)client.binder.window;
    CHECK(mmap(window, WINDOW, PROT_NONE, MAP_PRIVATE | MAP_ANONYMOUS | MAP_FIXED, -1, 0) == window, "can't be mapped over");
    CHECK(deaths_after(observer, 1) == 1, "a process ends with its window, though its file is open");
    CHECK(!close(client.binder.fd), "can't be closed");
    CHECK(deaths_after(observer, 2) == 2, "a process lives with neither");
    munmap(window, WINDOW);
}

/* --- Reads that come back. --- */

static atomic_int is_reading;
static struct client shared;

/* The first is a write, so that its read waits. */
static void *read_once(void *unused)
{
    uint32_t returns[64] = {0}, code = BC_ENTER_LOOPER;
    struct binder_write_read both = {.write_size = sizeof code, .write_buffer = (uintptr_t)&code};
    (void)unused;
    CHECK(!ioctl(shared.binder.fd, BINDER_WRITE_READ, &both), "can't enter the loop");
    is_reading = 1;
    ssize_t size = read_into(shared.binder.fd, returns, sizeof returns);
    CHECK(size == 4 && returns[0] == BR_NOOP, "a read came back with %zd bytes, %x", size, returns[0]);
    is_reading = 2;
    return NULL;
}

static void come_back_where_a_copy_is_closed(void)
{
    pthread_t thread;
    raw_open(&shared, WINDOW, NULL);
    int copy = dup(shared.binder.fd);
    CHECK(copy >= 0 && !pthread_create(&thread, NULL, read_once, NULL), "no copy, or no thread");
    while (!is_reading)
        usleep(1000);
    usleep(50000);
    CHECK(is_reading == 1, "a read that has nothing to wait for comes back");
    CHECK(!close(copy) && !pthread_join(thread, NULL), "can't be closed");
    binder_close(&shared.binder);
}

static void *read_first(void *unused)
{
    uint32_t returns[64] = {0};
    (void)unused;
    ssize_t size = read_into(shared.binder.fd, returns, sizeof returns);
    CHECK(size == 4 && returns[0] == BR_NOOP, "a thread's first read came back with %zd bytes, %x", size, returns[0]);
    CHECK(!fcntl(shared.binder.fd, F_SETFL, O_NONBLOCK), "O_NONBLOCK");
    CHECK(read_into(shared.binder.fd, returns, sizeof returns) == -1 && errno == EAGAIN, "its second doesn't wait");
    CHECK(!fcntl(shared.binder.fd, F_SETFL, 0), "O_NONBLOCK");
    return NULL;
}

/* A first ioctl that calls and reads gets the call's completion alone. */
static void *call_first(void *unused)
{
    uint32_t returns[64] = {0};
    struct {
        uint32_t code;
        struct binder_transaction_data data;
    } __attribute__((packed)) call = {BC_TRANSACTION, {.code = PING}};
    struct binder_write_read both = {.write_size = sizeof call, .write_buffer = (uintptr_t)&call, .read_size = sizeof returns,
                                     .read_buffer = (uintptr_t)returns};
    (void)unused;
    CHECK(!ioctl(shared.binder.fd, BINDER_WRITE_READ, &both), "can't call");
    if (both.read_consumed == 8) {
        CHECK(returns[1] == BR_TRANSACTION_COMPLETE, "a first call came back with %x", returns[1]);
        CHECK(read_into(shared.binder.fd, returns, sizeof returns) > 8 && returns[1] == BR_REPLY, "no reply, %x", returns[1]);
    } else {
        CHECK(both.read_consumed > 8 && returns[2] == BR_REPLY, "a first call came back with %x", returns[1]);
    }
    return NULL;
}

static void come_back_at_first(void)
{
    pthread_t thread;
    raw_open(&shared, WINDOW, NULL);
    CHECK(!pthread_create(&thread, NULL, read_first, NULL) && !pthread_join(thread, NULL), "no thread");
    CHECK(!pthread_create(&thread, NULL, call_first, NULL) && !pthread_join(thread, NULL), "no thread");
    binder_close(&shared.binder);
}

/* --- The file itself. --- */

static void is_neither_read_nor_written(struct client *client)
{
    char byte = 0;
    struct iovec vector = {&byte, 1};
    int fd = client->binder.fd;
    CHECK(read(fd, &byte, 1) == -1 && errno == EINVAL, "read");
    CHECK(write(fd, &byte, 1) == -1 && errno == EINVAL, "write");
    CHECK(readv(fd, &vector, 1) == -1 && errno == EINVAL, "readv");
    CHECK(writev(fd, &vector, 1) == -1 && errno == EINVAL, "writev");
    CHECK(syscall(SYS_write, fd, &byte, 1) == -1 && errno == EINVAL, "a write past libc");
    CHECK(raw_ask(&client->looper, (struct call){.code = PING}) == deaths_after(client, 2), "no call is answered any more");
}

/* --- Children. --- */

static pid_t child_by_clone(void)
{
    return (pid_t)syscall(SYS_clone, SIGCHLD, NULL, NULL, NULL, 0);
}

/* In the child: neither the parent's file nor its window is there, and one of its own is. */
static void be_a_child(struct client *parents)
{
    struct binder_version version;
    struct client own;
    unsigned char resident;
    CHECK(ioctl(parents->binder.fd, BINDER_VERSION, &version) && errno == ENODEV, "a child has its parent's file");
    CHECK(mincore((void *)(uintptr_t)parents->binder.window, 4096, &resident) && errno == ENOMEM, "a child has its parent's window");
    raw_open(&own, WINDOW, NULL);
    raw_ask(&own.looper, (struct call){.code = PING});
    _exit(0);
}

static void keep_children_out(struct client *client)
{
    pid_t (*const ways[])(void) = {fork, _Fork, child_by_clone};
    for (size_t i = 0; i < sizeof ways / sizeof *ways; i++) {
        pid_t child = ways[i]();
        CHECK(child >= 0, "no child, by way %zu", i);
        if (!child)
            be_a_child(client);
        raw_join(child);
        raw_ask(&client->looper, (struct call){.code = PING});
    }
}

int main(void)
{
    struct client client;
    raw_begin(30);
    pid_t manager = raw_start_manager(serve);
    raw_open(&client, WINDOW, NULL);
    lives_by_its_window(&client);
    come_back_where_a_copy_is_closed();
    come_back_at_first();
    is_neither_read_nor_written(&client);
    keep_children_out(&client);
    printf("ended with their windows, came back, and were kept from children\n");
    raw_kill(manager);
    return 0;
}
