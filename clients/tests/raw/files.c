/* SPDX-License-Identifier: Apache-2.0 OR MIT */
/*
 * files: what is done with an open file besides calls: it is waited for by poll, select and epoll, copied and closed; a
 * signal ends a read that waits; a little room gets what fits into it; and the child of a fork has none of its parent's.
 */
#include "raw.h"

#include <errno.h>
#include <fcntl.h>
#include <poll.h>
#include <signal.h>
#include <stdio.h>
#include <sys/epoll.h>
#include <sys/ioctl.h>
#include <sys/mman.h>
#include <sys/select.h>
#include <time.h>
#include <unistd.h>

/* So often a read is ended that hasn't waited for long. */
#define WAITS 50

/* A one-way call, of which nothing is read yet: its completion can be. */
static void leave_unread(struct client *client)
{
    struct binder_transaction_data call = {.flags = TF_ONE_WAY};
    put_record(&client->looper.commands, BC_TRANSACTION, &call);
    CHECK(looper_flush(&client->looper), "can't write");
}

/* Reads into so much room: how many bytes came, or -1 and errno. */
static ssize_t read_into(int fd, uint32_t *returns, size_t room)
{
    struct binder_write_read both = {.read_size = room, .read_buffer = (uintptr_t)returns};
    return ioctl(fd, BINDER_WRITE_READ, &both) ? -1 : (ssize_t)both.read_consumed;
}

static void read_completion(int fd)
{
    uint32_t returns[64];
    CHECK(read_into(fd, returns, sizeof returns) == 8 && returns[1] == BR_TRANSACTION_COMPLETE, "no completion came");
}

static bool polls(int fd, int milliseconds)
{
    struct pollfd file = {.fd = fd, .events = POLLIN};
    int told = poll(&file, 1, milliseconds);
    CHECK(told == (file.revents == POLLIN), "poll told %d, %x", told, file.revents);
    return told;
}

static bool selects(int fd, int milliseconds)
{
    fd_set files;
    struct timeval time = {.tv_usec = 1000 * milliseconds};
    FD_ZERO(&files);
    FD_SET(fd, &files);
    int told = select(fd + 1, &files, NULL, NULL, &time);
    CHECK(told == !!FD_ISSET(fd, &files), "select told %d", told);
    return told;
}

/* By an epoll of its own, which has the number of the one before. */
static bool epolls(int fd, int milliseconds)
{
    int epoll = epoll_create1(EPOLL_CLOEXEC);
    struct epoll_event event = {.events = EPOLLIN, .data.u64 = 77};
    CHECK(epoll >= 0 && !epoll_ctl(epoll, EPOLL_CTL_ADD, fd, &event), "an epoll doesn't take the file");
    CHECK(epoll_ctl(epoll, EPOLL_CTL_ADD, fd, &event) && errno == EEXIST, "an epoll takes the file twice");
    int told = epoll_wait(epoll, &event, 1, milliseconds);
    CHECK(!told || (told == 1 && event.events == EPOLLIN && event.data.u64 == 77), "epoll told %d, %x", told, event.events);
    close(epoll);
    return told;
}

/* Milliseconds: 1500 are more than a second's in select's microseconds. */
static void waits(struct client *client)
{
    bool (*const ways[])(int, int) = {polls, selects, epolls};
    for (size_t i = 0; i < sizeof ways / sizeof *ways; i++) {
        CHECK(!ways[i](client->binder.fd, 20), "there is something to read, by way %zu", i);
        leave_unread(client);
        CHECK(ways[i](client->binder.fd, 1500), "there is nothing to read, by way %zu", i);
        read_completion(client->binder.fd);
        CHECK(!ways[i](client->binder.fd, 0), "there still is something to read, by way %zu", i);
    }
}

/* A return is handed over where 76 bytes are left behind BR_NOOP, however short it is. */
static void fits(struct client *client)
{
    uint32_t returns[20] = {0};
    leave_unread(client);
    CHECK(read_into(client->binder.fd, returns, 6) == 4 && returns[0] == BR_NOOP, "6 bytes of room got more than BR_NOOP");
    CHECK(read_into(client->binder.fd, returns, 79) == 4 && returns[0] == BR_NOOP, "79 bytes of room got more than BR_NOOP");
    CHECK(read_into(client->binder.fd, returns, 80) == 8 && returns[1] == BR_TRANSACTION_COMPLETE, "80 bytes of room got no completion");
}

static void works(struct client *client)
{
    leave_unread(client);
    read_completion(client->binder.fd);
}

/* A copy is the same file, and stays it where the first is closed. What has the number then is another one. */
static void copies(struct client *client)
{
    int first = client->binder.fd, copy = open("/dev/null", O_RDONLY | O_CLOEXEC);
    struct binder_version version;
    CHECK(copy >= 0 && dup2(first, copy) == copy && !close(first), "can't be copied");
    CHECK(ioctl(first, BINDER_VERSION, &version) && errno == EBADF, "a closed file is there");
    CHECK(open("/dev/null", O_RDONLY | O_CLOEXEC) == first, "another number than that which is free");
    CHECK(ioctl(first, BINDER_VERSION, &version) && errno == ENOTTY, "another file is a device");
    client->binder.fd = fcntl(copy, F_DUPFD_CLOEXEC, first);
    CHECK(client->binder.fd > first && !close(copy) && !close(first), "can't be copied again");
    works(client);
}

static void ignore(int number)
{
    (void)number;
}

/* A signal comes again and again, should the first one be there before the read waits: from the kernel's timer, which comes in time
   however busy others are. */
static timer_t signal_every(long nanoseconds)
{
    timer_t timer;
    struct sigevent event = {.sigev_notify = SIGEV_SIGNAL, .sigev_signo = SIGUSR1};
    struct timespec pause = {.tv_nsec = nanoseconds};
    struct sigaction action = {.sa_handler = ignore, .sa_flags = SA_RESTART};
    CHECK(!sigaction(SIGUSR1, &action, NULL) && !timer_create(CLOCK_MONOTONIC, &event, &timer)
              && !timer_settime(timer, 0, &(struct itimerspec){pause, pause}, NULL), "no timer");
    return timer;
}

static void is_woken(struct client *client, long after)
{
    uint32_t returns[64];
    timer_t timer = signal_every(after);
    CHECK(read_into(client->binder.fd, returns, sizeof returns) < 0 && errno == EINTR, "a signal doesn't end a read");
    CHECK(!timer_delete(timer), "no timer");
    works(client);
}

/* In a child: its parent's file is none, but it may have its own. (Linux's driver lets a child use its parent's.) */
static void be_a_child(void *with)
{
    struct client *parents = with, own;
    struct binder_version version;
    raw_ready();
    CHECK(ioctl(parents->binder.fd, BINDER_VERSION, &version) && errno == ENODEV, "a child has its parent's file");
    CHECK(!close(parents->binder.fd), "a child can't close its parent's file");
    raw_open(&own, WINDOW, NULL);
    works(&own);
}

int main(void)
{
    struct client client;
    raw_begin(30);
    pid_t manager = raw_start_manager(NULL);
    raw_open(&client, WINDOW, NULL);
    works(&client);
    waits(&client);
    fits(&client);
    for (int i = 0; i < WAITS; i++) /* often, as one that its processor is kept from has waited for long */
        is_woken(&client, 2000000);
    is_woken(&client, 200000000); /* who waits for long does so otherwise */
    raw_join(raw_start(be_a_child, &client));
    works(&client);
    copies(&client);
    printf("waited for, copied, interrupted, and kept from a child\n");
    raw_kill(manager);
    return 0;
}
