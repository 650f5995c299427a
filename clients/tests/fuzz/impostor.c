/* SPDX-License-Identifier: Apache-2.0 OR MIT */
/*
 * impostor SET-UID-PROGRAM SET-GID-PROGRAM SET-UID-SELF: calls in the name of a process that has more rights than who makes them. A process
 * opens the device, and gives its pages to an accomplice. The one becomes a set-uid program then, one a set-gid program, and one a set-uid
 * program, which is this one, that is its caller's for a while and then root's again; and another, which was root's, has ended: its folder
 * in /proc is root's then. No call of the accomplices may be told as root's. A context manager of raw/callers.c has to be there.
 */
#include "hostile.h"

#include <errno.h>
#include <linux/android/binder.h>
#include <signal.h>
#include <stdio.h>
#include <stdlib.h>
#include <string.h>
#include <sys/mman.h>
#include <sys/prctl.h>
#include <sys/stat.h>
#include <sys/wait.h>
#include <unistd.h>

#define TELL 1
#define SOMEBODY 1000
/* Who opens the device for what is a program of two users. */
#define REAL 4001
#define EFFECTIVE 4002
#define WINDOW (1 << 20)
#define BASE 0x7f0000000000

#define CHECK(condition, ...) ((condition) ? (void)0 : (fprintf(stderr, __VA_ARGS__), fprintf(stderr, ": %s\n", strerror(errno)), exit(1)))

struct call {
    uint32_t code;
    struct binder_transaction_data data;
} __attribute__((packed));

/* Asks the manager who this is: the uid, or -1 where no reply came. */
static int64_t told(struct hostile *hostile)
{
    struct call call = {BC_TRANSACTION, {.code = TELL}}, reply;
    uint32_t uid;
    memcpy(hostile->page->stream, &call, sizeof call);
    hostile->page->request = (struct page_request){PAGE_WRITE_READ, sizeof call, PAGE_RETURNS, 0, 0};
    if (!hostile_ask(hostile, 900) || hostile->page->answer.error)
        return -1;
    for (uint32_t at = 0; at + sizeof(uint32_t) <= hostile->page->answer.returns_size;) {
        memcpy(&reply, hostile->page->returns + at, sizeof reply);
        if (reply.code == BR_REPLY) {
            const uint8_t *window = mmap(NULL, WINDOW, PROT_READ, MAP_SHARED, hostile->window_memory, 0);
            CHECK(window != MAP_FAILED, "no window");
            memcpy(&uid, window + (reply.data.data.ptr.buffer - BASE), sizeof uid);
            return uid;
        }
        at += sizeof reply.code + _IOC_SIZE(reply.code);
    }
    return -1;
}

static struct stat look_at(pid_t pid)
{
    char name[32];
    struct stat stat;
    snprintf(name, sizeof name, "/proc/%d", (int)pid);
    CHECK(!lstat(name, &stat), "%s", name);
    return stat;
}

/* Waits until the other process has sent a byte. */
static void await(int end)
{
    char byte;
    CHECK(read(end, &byte, 1) == 1, "the other one has ended");
}

static void go(int end)
{
    CHECK(write(end, "g", 1) == 1, "the other one has ended");
}

/* Opens the device as one user, makes sure of it by a call where that is `before`, and becomes another. */
static void become(struct hostile *hostile, uid_t before, uid_t after)
{
    CHECK(!setresuid(before, before, before), "can't become %u", before);
    CHECK(hostile_begin(hostile, "/dev/binder"), "can't open the device");
    if (before)
        CHECK(told(hostile) == before, "a call isn't told as %u's", before);
    CHECK(!setresuid(after, after, after), "can't become %u", after);
}

/* The accomplice: is told to call, and tells who that was. */
static void call_when_told(struct hostile *hostile, int start, int result)
{
    await(start);
    int64_t who = told(hostile);
    CHECK(write(result, &who, sizeof who) == sizeof who, "nobody waits for the result");
    exit(0);
}

/* A process that opens the device, has an accomplice, and then becomes a set-uid program, or ends. */
static pid_t start(uid_t before, int start_end, int result_end, int ready_end, char *program)
{
    struct hostile hostile;
    pid_t pid = fork();
    if (pid)
        return pid;
    become(&hostile, before, SOMEBODY);
    if (!fork())
        call_when_told(&hostile, start_end, result_end);
    go(ready_end);
    if (program)
        execl(program, program, "20", NULL);
    exit(0);
}

/* Who the accomplice is told to be; `program` is NULL for an opener that ends. */
static int64_t attack(uid_t before, char *program)
{
    int starts[2], results[2], readies[2];
    int64_t who = 0;
    CHECK(!pipe(starts) && !pipe(results) && !pipe(readies), "no pipes");
    pid_t opener = start(before, starts[0], results[1], readies[1], program);
    await(readies[0]);
    if (program)
        for (int i = 0; i < 2000 && look_at(opener).st_uid != 0; i++)
            usleep(10000);
    if (program)
        CHECK(look_at(opener).st_uid == 0, "%s is no set-uid program here", program);
    else
        CHECK(waitpid(opener, NULL, 0) == opener, "the opener hasn't ended");
    go(starts[1]);
    CHECK(read(results[0], &who, sizeof who) == sizeof who, "the accomplice told nothing");
    kill(opener, SIGKILL);
    return who;
}

/* The same where the opener becomes a program of another group, which it hasn't itself. */
static int64_t attack_group(char *program)
{
    struct hostile hostile;
    int readies[2];
    CHECK(!pipe(readies), "no pipe");
    pid_t opener = fork();
    if (!opener) {
        CHECK(!setresgid(SOMEBODY, SOMEBODY, SOMEBODY), "can't be of another group");
        become(&hostile, SOMEBODY, SOMEBODY);
        if (!fork()) {
            prctl(PR_SET_PDEATHSIG, SIGKILL);
            for (int i = 0; i < 2000 && look_at(getppid()).st_gid == SOMEBODY; i++)
                usleep(10000);
            CHECK(look_at(getppid()).st_gid == 0, "%s is no set-gid program here", program);
            int64_t who = told(&hostile);
            CHECK(write(readies[1], &who, sizeof who) == sizeof who, "nobody waits for the result");
            _exit(0);
        }
        execl(program, program, "20", NULL);
        _exit(1);
    }
    int64_t who = 0;
    CHECK(read(readies[0], &who, sizeof who) == sizeof who, "the accomplice told nothing");
    kill(opener, SIGKILL);
    CHECK(waitpid(opener, NULL, 0) == opener, "the opener hasn't ended");
    return who;
}

/* The set-uid program: its caller's for a while, and then root's again. Each time it says so, and waits to be told to go on. */
static int turn(int tells, int told_to)
{
    prctl(PR_SET_PDEATHSIG, SIGKILL);
    alarm(30);
    CHECK(!seteuid(getuid()), "can't be its caller's");
    go(tells);
    await(told_to);
    CHECK(!seteuid(0), "can't be root's again");
    go(tells);
    await(told_to);
    return 0;
}

/* What two calls are told as: while the program is its caller's, and once it is root's again. */
static void attack_by_turning(char *program, int64_t who[2])
{
    struct hostile hostile;
    int tells[2], told_to[2], results[2];
    CHECK(!pipe(tells) && !pipe(told_to) && !pipe(results), "no pipes");
    pid_t opener = fork();
    if (!opener) {
        char numbers[2][16];
        CHECK(!setresuid(REAL, EFFECTIVE, EFFECTIVE), "can't be two users");
        CHECK(hostile_begin(&hostile, "/dev/binder"), "can't open the device");
        /* as descriptors go through an exec, so a child has them: it is the accomplice */
        if (!fork()) {
            prctl(PR_SET_PDEATHSIG, SIGKILL);
            for (int i = 0; i < 2; i++) {
                await(tells[0]);
                who[i] = told(&hostile);
                /* told to go on, the opener may end, and this with it */
                CHECK(write(results[1], &who[i], sizeof *who) == sizeof *who, "nobody waits for the result");
                go(told_to[1]);
            }
            _exit(0);
        }
        snprintf(numbers[0], sizeof numbers[0], "%d", tells[1]);
        snprintf(numbers[1], sizeof numbers[1], "%d", told_to[0]);
        execl(program, program, "turn", numbers[0], numbers[1], NULL);
        _exit(1);
    }
    CHECK(waitpid(opener, NULL, 0) == opener, "the opener hasn't ended");
    CHECK(read(results[0], who, 2 * sizeof *who) == 2 * sizeof *who, "the accomplice told nothing");
}

int main(int argc, char **argv)
{
    int64_t turned[2];
    if (argc == 4 && !strcmp(argv[1], "turn"))
        return turn(atoi(argv[2]), atoi(argv[3]));
    CHECK(argc == 4 && !geteuid(), "usage, by root: impostor SET-UID-PROGRAM SET-GID-PROGRAM SET-UID-SELF");
    alarm(30);
    int64_t who = attack(SOMEBODY, argv[1]);
    CHECK(who != 0, "a call in the name of what has become a set-uid program is told as root's");
    who = attack(0, NULL);
    CHECK(who != 0, "a call in the name of what has ended is told as root's");
    who = attack_group(argv[2]);
    CHECK(who == -1, "a call in the name of what has become a set-gid program is made, as %lld's", (long long)who);
    attack_by_turning(argv[3], turned);
    CHECK(turned[1] != 0, "a call in the name of a set-uid program that was its caller's for a while is told as root's");
    CHECK(turned[0] == -1, "a call in the name of a set-uid program that is its caller's for a while is made, as %lld's", (long long)turned[0]);
    printf("no call is root's that root doesn't make\n");
    return 0;
}
