/* SPDX-License-Identifier: Apache-2.0 OR MIT */
/* file.c: each thread's file. */
#include "record.h"

#include <errno.h>
#include <fcntl.h>
#include <pthread.h>
#include <stdio.h>
#include <stdlib.h>
#include <string.h>
#include <sys/mman.h>
#include <sys/prctl.h>
#include <sys/stat.h>
#include <sys/syscall.h>
#include <time.h>
#include <unistd.h>

/* How far a file may grow, and by how much it does. */
#define MOST ((size_t)256 << 20)
#define STEP ((size_t)64 << 10)

struct head {
    char mark[8];
    uint64_t used;
    uint32_t pid, tid, euid, zero;
    uint64_t missed;
    int64_t ahead; /* what CLOCK_REALTIME is ahead of CLOCK_MONOTONIC */
    char name[16];
};

static __thread struct {
    struct head *head;
    size_t used, grown;
    int file, pid;
    bool is_busy, is_over;
} own;

static uint64_t clock_of(clockid_t clock)
{
    struct timespec time;
    clock_gettime(clock, &time);
    return (uint64_t)time.tv_sec * 1000000000u + (uint64_t)time.tv_nsec;
}

uint64_t record_now(void)
{
    return clock_of(CLOCK_MONOTONIC);
}

/* The child of a fork has a file of its own: this one is its parent's. */
static void forget(void)
{
    memset(&own, 0, sizeof own);
}

static void close_own(void *with)
{
    (void)with;
    if (own.head) {
        munmap(own.head, MOST);
        close(own.file);
    }
    forget();
    own.is_over = true;
}

static pthread_key_t at_end;

__attribute__((constructor)) static void begin(void)
{
    pthread_key_create(&at_end, close_own);
    pthread_atfork(NULL, NULL, forget);
}

/* Makes sure that the file has so many bytes: a mapping of what isn't there ends the program. */
static bool grow(size_t size)
{
    if (size <= own.grown)
        return true;
    size_t to = (size + STEP - 1) / STEP * STEP;
    if (to > MOST)
        return false;
    /* Room that is reserved doesn't run out later; a file system that can't reserve has to be trusted. */
    if (fallocate(own.file, 0, (off_t)own.grown, (off_t)(to - own.grown))) {
        struct stat at;
        if (errno != EOPNOTSUPP || fstat(own.file, &at) || ftruncate(own.file, (off_t)to))
            return false;
    }
    own.grown = to;
    return true;
}

static int create(void)
{
    const char *folder = getenv("HULLPIPPIN_RECORD");
    char path[4096];
    /* A thread's number may come again: the file of the one before stays. */
    for (unsigned again = 0; folder && again < 1000; again++) {
        int size = snprintf(path, sizeof path, "%s/%d.%ld.%u", folder, getpid(), syscall(SYS_gettid), again);
        int file = size < (int)sizeof path ? (int)syscall(SYS_openat, AT_FDCWD, path, O_RDWR | O_CREAT | O_EXCL | O_CLOEXEC, 0600) : -1;
        if (file >= 0 || errno != EEXIST)
            return file;
    }
    return -1;
}

static bool start(void)
{
    own.file = create();
    if (own.file < 0 || !grow(sizeof(struct head))) {
        own.is_over = true;
        return false;
    }
    void *at = (void *)syscall(SYS_mmap, NULL, MOST, PROT_READ | PROT_WRITE, MAP_SHARED, own.file, 0);
    if (at == MAP_FAILED) {
        own.is_over = true;
        return false;
    }
    own.head = at;
    own.pid = getpid();
    *own.head = (struct head){.mark = "HPREC001", .pid = (uint32_t)own.pid, .tid = (uint32_t)syscall(SYS_gettid), .euid = geteuid(),
                              .ahead = (int64_t)(clock_of(CLOCK_REALTIME) - clock_of(CLOCK_MONOTONIC))};
    prctl(PR_GET_NAME, own.head->name);
    own.used = sizeof(struct head);
    __atomic_store_n(&own.head->used, own.used, __ATOMIC_RELEASE);
    pthread_setspecific(at_end, &own);
    return true;
}

int record_pid(void)
{
    return own.head ? own.pid : getpid();
}

void record_missed(void)
{
    if (own.head)
        __atomic_add_fetch(&own.head->missed, 1, __ATOMIC_RELAXED);
}

struct record *record_room(size_t most)
{
    int error = errno;
    bool is_there = !own.is_busy && !own.is_over && (own.head || start()) && grow(own.used + most);
    errno = error;
    if (!is_there) {
        record_missed();
        return NULL;
    }
    own.is_busy = true;
    return (struct record *)((uint8_t *)own.head + own.used);
}

bool record_reaches(const void *end)
{
    int error = errno;
    bool is_there = grow((size_t)((const uint8_t *)end - (const uint8_t *)own.head));
    errno = error;
    return is_there;
}

void record_keep(struct record *record)
{
    __atomic_store_n(&own.head->used, own.used + record->size, __ATOMIC_RELEASE);
}

void record_leave(void)
{
    own.used = own.head->used;
    own.is_busy = false;
}
