/* SPDX-License-Identifier: Apache-2.0 OR MIT */
/*
 * greedy calls|objects|handles|deaths|threads|windows COUNT [UID]: has the engine, or the daemon, keep as much as it is let, up to so many
 * of a kind, on each device; then prints how many these were, keeps them, and waits to be killed. It begins as `ready`.
 */
#include "hostile.h"
#include "../raw/raw.h"

#include <errno.h>
#include <linux/android/binder.h>
#include <signal.h>
#include <stdio.h>
#include <stdlib.h>
#include <string.h>
#include <sys/mman.h>
#include <sys/prctl.h>
#include <sys/resource.h>
#include <unistd.h>

struct calling {
    uint32_t code;
    struct binder_transaction_data data;
} __attribute__((packed));

struct handle_command {
    uint32_t code, handle;
} __attribute__((packed));

struct death_command {
    uint32_t code;
    struct binder_handle_cookie data;
} __attribute__((packed));

struct free_command {
    uint32_t code;
    binder_uintptr_t buffer;
} __attribute__((packed));

static const char *const devices[] = {"/dev/binder", "/dev/hwbinder", "/dev/vndbinder"};

/* Who sends, and who is sent to: the context manager of a device, with the largest window, which is of another process. */
static struct hostile sender, takers[3], taker;

/* So many objects go with one parcel; and as many handles are kept in one write. */
#define OBJECTS 128

/* Whether a read has got that a call was refused. */
static bool is_refused(const struct hostile *hostile)
{
    uint32_t size = hostile->page->answer.returns_size, code;
    for (uint32_t at = 0; at + sizeof code <= size; at += sizeof code + _IOC_SIZE(code)) {
        memcpy(&code, hostile->page->returns + at, sizeof code);
        if (code == BR_FAILED_REPLY || code == BR_DEAD_REPLY)
            return true;
    }
    return false;
}

/* Writes a stream, and reads what that leaves. Whether all of it was run. */
static bool write_all(struct hostile *hostile, const void *stream, size_t size)
{
    memcpy(hostile->page->stream, stream, size);
    hostile->page->request = (struct page_request){PAGE_WRITE_READ, (uint32_t)size, PAGE_RETURNS, PAGE_NONBLOCK, 0};
    bool is_answered = hostile_await(hostile);
    const struct page_answer answer = hostile->page->answer;
    return is_answered && (!answer.error || answer.error == EAGAIN) && answer.consumed == size
           && !is_refused(hostile);
}

static bool begin_taker(struct hostile *it, const char *device)
{
    if (!hostile_connect(it) || !hostile_open(it, device) || !hostile_map(it, WINDOW_MAX) || !hostile_thread(it))
        return false;
    const uint32_t loop = BC_ENTER_LOOPER;
    it->page->request = (struct page_request){.op = PAGE_SET_MANAGER};
    return hostile_await(it) && !it->page->answer.error && write_all(it, &loop, sizeof loop);
}

/* Gives the buffer of the call back that the latest read got, if it got one. */
static bool give_back(struct hostile *hostile)
{
    uint32_t size = hostile->page->answer.returns_size, code;
    struct binder_transaction_data record;
    for (uint32_t at = 0; at + sizeof code <= size; at += sizeof code + _IOC_SIZE(code)) {
        memcpy(&code, hostile->page->returns + at, sizeof code);
        if (code != BR_TRANSACTION)
            continue;
        memcpy(&record, hostile->page->returns + at + sizeof code, sizeof record);
        const struct free_command given = {BC_FREE_BUFFER, record.data.ptr.buffer};
        return write_all(hostile, &given, sizeof given);
    }
    return true;
}

/* Calls without bytes, which nobody reads. */
static size_t send_calls(size_t count)
{
    struct calling calls[PAGE_STREAM / sizeof(struct calling)];
    size_t each = sizeof calls / sizeof *calls, sent = 0;
    for (size_t i = 0; i < each; i++)
        calls[i] = (struct calling){BC_TRANSACTION, {.flags = TF_ONE_WAY}};
    while (sent < count && write_all(&sender, calls, sizeof calls))
        sent += each;
    return sent;
}

/* Objects that are in calls which nobody reads; or that the taker keeps, by its own references alone where it doesn't watch them too. */
static size_t send_objects(size_t count, bool keeps, bool watches)
{
    static uint64_t next = 8;
    struct handle_command keep[OBJECTS];
    struct death_command watch[OBJECTS];
    size_t sent = 0;
    while (sent < count) {
        struct flat_binder_object *objects = (void *)sender.page->area;
        uint64_t *offsets = (void *)(objects + OBJECTS);
        for (uint32_t i = 0; i < OBJECTS; i++, next += 8) {
            objects[i] = (struct flat_binder_object){.hdr.type = BINDER_TYPE_BINDER, .binder = next, .cookie = next};
            offsets[i] = i * sizeof *objects;
            keep[i] = (struct handle_command){BC_ACQUIRE, (uint32_t)sent + i + 1};
            watch[i] = (struct death_command){BC_REQUEST_DEATH_NOTIFICATION, {(uint32_t)sent + i + 1, next}};
        }
        struct calling call = {BC_TRANSACTION, {.flags = TF_ONE_WAY, .data_size = OBJECTS * sizeof *objects, .offsets_size = OBJECTS * 8,
                                             .data.ptr = {.buffer = 0, .offsets = OBJECTS * sizeof *objects}}};
        if (!write_all(&sender, &call, sizeof call) || (keeps && !(write_all(&taker, keep, sizeof keep) && (watches || give_back(&taker))))
            || (watches && !write_all(&taker, watch, sizeof watch)))
            break;
        sent += OBJECTS;
    }
    return sent;
}

static size_t take_threads(size_t count)
{
    size_t taken = 0;
    while (taken < count && hostile_thread(&sender)) {
        munmap(sender.page, sizeof *sender.page);
        taken++;
    }
    return taken;
}

static size_t take_windows(const char *device, size_t count)
{
    size_t taken = 0;
    struct hostile one;
    while (taken < count && hostile_connect(&one) && hostile_open(&one, device) && hostile_map(&one, WINDOW_MAX))
        taken++;
    return taken;
}

static size_t take(const char *kind, const char *device, size_t count)
{
    if (!strcmp(kind, "calls"))
        return send_calls(count);
    if (!strcmp(kind, "threads"))
        return take_threads(count);
    if (!strcmp(kind, "windows"))
        return take_windows(device, count);
    return send_objects(count, strcmp(kind, "objects") != 0, !strcmp(kind, "deaths"));
}

static void take_all(void *with)
{
    char **words = with;
    size_t taken = 0, count = strtoul(words[2], NULL, 10);
    raw_ready();
    puts("ready");
    for (size_t i = 0; i < sizeof devices / sizeof *devices; i++) {
        taker = takers[i];
        if (!hostile_begin(&sender, devices[i]))
            break;
        taken += take(words[1], devices[i], count);
    }
    printf("taken %zu %s\n", taken, words[1]);
    for (;;)
        pause();
}

int main(int argc, char **argv)
{
    struct rlimit limit;
    raw_begin(60);
    prctl(PR_SET_PDEATHSIG, SIGKILL);
    CHECK(argc >= 3 && !getrlimit(RLIMIT_NOFILE, &limit), "greedy KIND COUNT [UID]");
    limit.rlim_cur = limit.rlim_max;
    CHECK(!setrlimit(RLIMIT_NOFILE, &limit), "no descriptors");
    if (argc > 3)
        CHECK(!setgid((gid_t)atoi(argv[3])) && !setuid((uid_t)atoi(argv[3])) && !prctl(PR_SET_DUMPABLE, 1), "can't be user %s", argv[3]);
    for (size_t i = 0; i < sizeof devices / sizeof *devices; i++)
        CHECK(begin_taker(&takers[i], devices[i]), "no context manager of %s", devices[i]);
    raw_start(take_all, argv);
    for (;;)
        pause();
}
