/* SPDX-License-Identifier: Apache-2.0 OR MIT */
/*
 * helpers.c: processes that connect for the clients of inside.c, so that these are of other processes and users than the daemon. They
 * are forked by one that does nothing else, and is forked before the fuzzer has much memory.
 */
#include "inside.h"

#include <errno.h>
#include <poll.h>
#include <signal.h>
#include <string.h>
#include <sys/prctl.h>
#include <sys/socket.h>
#include <sys/syscall.h>
#include <unistd.h>

#define DESCRIPTORS_MOST 253u

enum { CONNECT, CHANGE_USER };

/* So many connections are made at once. */
#define MADE 16u

static struct helper {
    pid_t pid;
    int channel;
    int ends[2 * MADE]; /* of connections that it has made and nobody uses yet */
    unsigned left;
} helpers[HELPERS];

static int nursery;

/* Root's and another process of its; and those of two other users, where the fuzzer may have such. */
static const uid_t users[HELPERS] = {0, 0, 64001, 64002};
#define OTHER_USER 64003u

bool give(int socket, const void *bytes, size_t size, const int *descriptors, unsigned count)
{
    struct iovec part = {(void *)(uintptr_t)bytes, size};
    union {
        struct cmsghdr header;
        char room[CMSG_SPACE(sizeof(int) * DESCRIPTORS_MOST)];
    } control;
    struct msghdr message = {.msg_iov = &part, .msg_iovlen = 1};
    if (count) {
        memset(&control, 0, sizeof control);
        control.header = (struct cmsghdr){CMSG_LEN(sizeof(int) * count), SOL_SOCKET, SCM_RIGHTS};
        memcpy(CMSG_DATA(&control.header), descriptors, sizeof(int) * count);
        message.msg_control = &control;
        message.msg_controllen = CMSG_SPACE(sizeof(int) * count);
    }
    return sendmsg(socket, &message, MSG_NOSIGNAL | MSG_DONTWAIT) == (ssize_t)size;
}

static long receive_with(int socket, void *bytes, size_t size, int *descriptors, unsigned *count, int flags)
{
    struct iovec part = {bytes, size};
    union {
        struct cmsghdr header;
        char room[CMSG_SPACE(sizeof(int) * DESCRIPTORS_MOST)];
    } control;
    struct msghdr message = {.msg_iov = &part, .msg_iovlen = 1, .msg_control = &control, .msg_controllen = sizeof control};
    *count = 0;
    long received;
    do
        received = recvmsg(socket, &message, flags | MSG_CMSG_CLOEXEC);
    while (received < 0 && errno == EINTR); /* the fuzzer has a clock that rings */
    struct cmsghdr *header = received < 0 ? NULL : CMSG_FIRSTHDR(&message);
    if (header && header->cmsg_type == SCM_RIGHTS) {
        *count = (unsigned)((header->cmsg_len - CMSG_LEN(0)) / sizeof(int));
        memcpy(descriptors, CMSG_DATA(header), *count * sizeof(int));
    }
    return received;
}

long receive(int socket, void *bytes, size_t size, int *descriptors, unsigned *count)
{
    return receive_with(socket, bytes, size, descriptors, count, MSG_DONTWAIT);
}

static void close_all(const int *descriptors, unsigned count)
{
    for (unsigned i = 0; i < count; i++)
        close(descriptors[i]);
}

/* Makes connections, and has none of them any more as the last byte comes. */
static void connect_some(int channel)
{
    const uint8_t word = CONNECT;
    int ends[2 * MADE];
    for (unsigned i = 0; i < MADE; i++)
        if (socketpair(AF_UNIX, SOCK_SEQPACKET | SOCK_CLOEXEC, 0, ends + 2 * i))
            _exit(1);
    give(channel, &word, 1, ends, 2 * MADE);
    close_all(ends, 2 * MADE);
    give(channel, &word, 1, NULL, 0);
}

/* Does what the fuzzer asks for, until that is gone. */
static _Noreturn void help(int channel, uid_t user)
{
    uint8_t asked;
    bool is_other = false;
    if (geteuid() == 0 && user && (setresgid(user, user, user) || setresuid(user, user, user)))
        _exit(1);
    prctl(PR_SET_DUMPABLE, 1); /* its /proc is its own user's all the same */
    while (read(channel, &asked, 1) == 1) {
        if (asked == CONNECT) {
            connect_some(channel);
            continue;
        }
        is_other = !is_other && seteuid(OTHER_USER) == 0;
        if (!is_other && geteuid() != user && seteuid(user))
            _exit(1);
        give(channel, &asked, 1, NULL, 0);
    }
    _exit(0);
}

/* Forks a helper for each byte that comes, and sends its pid and a channel to it. */
static _Noreturn void breed(int asks)
{
    uint8_t which;
    signal(SIGCHLD, SIG_IGN);
    prctl(PR_SET_PDEATHSIG, SIGKILL);
    while (read(asks, &which, 1) == 1) {
        int ends[2];
        if (socketpair(AF_UNIX, SOCK_SEQPACKET | SOCK_CLOEXEC, 0, ends))
            _exit(1);
        pid_t pid = fork();
        if (!pid) {
            close(asks);
            close(ends[0]);
            help(ends[1], users[which]);
        }
        give(asks, &pid, sizeof pid, ends, 1);
        close(ends[0]);
        close(ends[1]);
    }
    _exit(0);
}

static bool make(unsigned which)
{
    unsigned count;
    uint8_t word = (uint8_t)which;
    struct helper *helper = &helpers[which];
    return write(nursery, &word, 1) == 1 && receive_with(nursery, &helper->pid, sizeof helper->pid, &helper->channel, &count, 0) > 0
           && count == 1 && helper->pid > 0;
}

bool helpers_begin(void)
{
    int ends[2];
    if (socketpair(AF_UNIX, SOCK_SEQPACKET | SOCK_CLOEXEC, 0, ends))
        return false;
    if (fork() == 0) {
        close(ends[0]);
        breed(ends[1]);
    }
    close(ends[1]);
    nursery = ends[0];
    for (unsigned i = 0; i < HELPERS; i++)
        if (!make(i))
            return false;
    return true;
}

/* Asks for a byte, with so many descriptors. */
static bool ask(struct helper *helper, uint8_t word, unsigned wanted)
{
    unsigned count;
    return write(helper->channel, &word, 1) == 1 && receive_with(helper->channel, &word, 1, helper->ends, &count, 0) == 1 && count == wanted;
}

/* Those that are left are of who the helper was. */
static void drop(struct helper *helper)
{
    close_all(helper->ends, 2 * helper->left);
    helper->left = 0;
}

bool helper_connect(unsigned which, int ends[2])
{
    struct helper *helper = &helpers[which];
    uint8_t word;
    unsigned none;
    if (!helper->left && (!ask(helper, CONNECT, 2 * MADE) || receive_with(helper->channel, &word, 1, NULL, &none, 0) != 1))
        return false;
    helper->left = (helper->left ? helper->left : MADE) - 1;
    memcpy(ends, helper->ends + 2 * helper->left, 2 * sizeof *ends);
    return true;
}

unsigned helpers_have(void)
{
    unsigned count = 0;
    for (unsigned i = 0; i < HELPERS; i++)
        count += 2 * helpers[i].left;
    return count;
}

void helper_change_user(unsigned which)
{
    drop(&helpers[which]);
    expect(ask(&helpers[which], CHANGE_USER, 0), "a helper answers");
}

/* Waits until a process has ended that was killed. The fuzzer's own alarm may interrupt that. */
static void await_end(int process)
{
    struct pollfd end = {.fd = process, .events = POLLIN};
    int count;
    do
        count = poll(&end, 1, 10000);
    while (count < 0 && errno == EINTR);
    expect(count == 1, "a helper ends");
}

void helper_renew(unsigned which)
{
    struct helper *helper = &helpers[which];
    int process = (int)syscall(SYS_pidfd_open, helper->pid, 0);
    kill(helper->pid, SIGKILL);
    if (process >= 0)
        await_end(process);
    close(process);
    close(helper->channel);
    drop(helper);
    expect(make(which), "another helper comes");
}
