/* SPDX-License-Identifier: Apache-2.0 OR MIT */
/*
 * rings threads|files|users COUNT DEVICE [UID]: keeps so many threads of clients asking until it is killed, each for a full stream of
 * commands that are all accepted: threads of one open file, open files of one process, or processes of their own, which are
 * another user's where one is named. `rings persons COUNT DEVICE UID [GROUP]` has each of these be a user of its own, from that one on, all
 * in a control group whose list of processes is named. `rings parcels COUNT DEVICE` has each ask for a call of the context manager with as much data
 * as a page has room for, and `rings frees COUNT DEVICE` for buffers to be freed that it was never handed. Prints `ready` once all of
 * them ask.
 */
#include "../raw/raw.h"
#include "hostile.h"

#include <fcntl.h>
#include <linux/futex.h>
#include <signal.h>
#include <stdio.h>
#include <stdlib.h>
#include <string.h>
#include <sys/prctl.h>
#include <sys/syscall.h>
#include <time.h>
#include <unistd.h>

#define MOST 1024

static struct hostile all[MOST];

/* A call with a large parcel. */
static void ask_call(struct page *page)
{
    struct commands commands = {0};
    struct binder_transaction_data record = {.data_size = WINDOW_MAX};
    put_record(&commands, BC_TRANSACTION, &record);
    memcpy(page->stream, commands.bytes, commands.size);
    page->request = (struct page_request){PAGE_WRITE_READ, (uint32_t)commands.size, 256, PAGE_NONBLOCK, 0};
}

static void ask_commands(struct page *page, const struct commands *each)
{
    uint32_t size = 0;
    for (; size + each->size <= PAGE_STREAM; size += (uint32_t)each->size)
        memcpy(page->stream + size, each->bytes, each->size);
    page->request = (struct page_request){.op = PAGE_WRITE_READ, .stream_size = size};
}

static void ask_loops(struct page *page)
{
    struct commands each = {0};
    put_code(&each, BC_ENTER_LOOPER);
    ask_commands(page, &each);
}

static void ask_frees(struct page *page)
{
    struct commands each = {0};
    put_pointer(&each, BC_FREE_BUFFER, 0x7f0000000000);
    ask_commands(page, &each);
}

/* Writes into a page the request that each client then makes. */
static void (*prepare)(struct page *page) = ask_loops;

/* Asks wherever there is an answer, from the first that has one; how many these were. */
static size_t ask_all(size_t count)
{
    size_t asked = 0;
    for (size_t i = 0; i < count; i++) {
        if (atomic_load(&all[i].page->state) == PAGE_ASKED)
            continue;
        atomic_store(&all[i].page->state, PAGE_ASKED);
        CHECK(hostile_ring(&all[i]), "can't ring");
        asked++;
    }
    return asked;
}

/* It's the daemon that is to have no time, so this waits for answers. */
static void keep_asking(size_t count)
{
    const struct timespec moment = {.tv_sec = count == 1, .tv_nsec = count == 1 ? 0 : 200000};
    for (size_t latest = 0;; latest = (latest + 1) % count)
        if (!ask_all(count))
            syscall(SYS_futex, &all[latest].page->state, FUTEX_WAIT, PAGE_ASKED, &moment, NULL, 0);
}

static void begin(struct hostile *hostile, const char *device, bool is_further)
{
    if (is_further) {
        hostile->control = all[0].control;
        CHECK(hostile_thread(hostile), "no further thread");
    } else {
        CHECK(hostile_begin(hostile, device), "no client");
    }
    prepare(hostile->page);
}

/* Of a pipe: nothing comes of it until all are there. */
static int all_are_there;

static uid_t next_uid; /* 0: all are one user's */
static const char *group;

static void be_somebody(void)
{
    char pid[16];
    FILE *file = group ? fopen(group, "w") : NULL;
    snprintf(pid, sizeof pid, "%d", (int)getpid());
    CHECK(!group || (file && fputs(pid, file) >= 0 && !fclose(file)), "can't be in %s", group);
    CHECK(!setgid(next_uid) && !setuid(next_uid) && !prctl(PR_SET_DUMPABLE, 1) && !prctl(PR_SET_PDEATHSIG, SIGKILL), "can't be a user");
}

static void be_client(void *with)
{
    char end;
    if (next_uid)
        be_somebody();
    begin(&all[0], with, false);
    raw_ready();
    CHECK(read(all_are_there, &end, 1) >= 0, "can't wait");
    keep_asking(1);
}

static void start_clients(size_t count, char *device)
{
    int ends[2];
    CHECK(!pipe2(ends, O_CLOEXEC), "no pipe");
    all_are_there = ends[0];
    for (size_t i = 0; i < count; i++, next_uid += next_uid > 0)
        raw_start(be_client, device);
    CHECK(write(ends[1], &all, count) == (ssize_t)count, "can't tell them");
    printf("ready\n");
    for (;;)
        pause();
}

int main(int argc, char **argv)
{
    CHECK(argc >= 4, "rings threads|files|users|persons|parcels|frees COUNT DEVICE [UID [GROUP]]");
    size_t count = strtoul(argv[2], NULL, 10);
    CHECK(count && count <= MOST, "%zu clients", count);
    raw_begin(120);
    if (!strcmp(argv[1], "parcels") || !strcmp(argv[1], "frees"))
        prepare = argv[1][0] == 'p' ? ask_call : ask_frees;
    if (!strcmp(argv[1], "persons")) {
        CHECK(argc > 4, "whose?");
        next_uid = (uid_t)atoi(argv[4]);
        group = argc > 5 ? argv[5] : NULL;
        start_clients(count, argv[3]);
    }
    if (argc > 4)
        CHECK(!setgid((gid_t)atoi(argv[4])) && !setuid((uid_t)atoi(argv[4])) && !prctl(PR_SET_DUMPABLE, 1), "can't be user %s", argv[4]);
    if (!strcmp(argv[1], "users"))
        start_clients(count, argv[3]);
    for (size_t i = 0; i < count; i++)
        begin(&all[i], argv[3], i && strcmp(argv[1], "files"));
    printf("ready\n");
    keep_asking(count);
}
