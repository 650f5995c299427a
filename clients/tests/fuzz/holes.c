/* SPDX-License-Identifier: Apache-2.0 OR MIT */
/*
 * holes THREADS: each thread calls with parcels whose bytes it has never written: what is empty of its page's area stays so, however much of
 * it the daemon reads. The calls go to a context manager with the largest window, which is another connection of this program.
 */
#include "hostile.h"

#include <linux/android/binder.h>
#include <stdio.h>
#include <stdlib.h>
#include <string.h>
#include <sys/mman.h>
#include <sys/stat.h>
#include <unistd.h>

/* So much of a page may be there at last: its front, and the part of the area that small parcels are copied from. */
#define MOST ((size_t)64 << 10)
#define SIZE (3u << 20)

struct call {
    uint32_t code;
    struct binder_transaction_data data;
} __attribute__((packed));

static int fail(const char *why)
{
    fprintf(stderr, "holes: %s\n", why);
    return 1;
}

static size_t there_of(int memory)
{
    struct stat stat;
    return fstat(memory, &stat) ? SIZE_MAX : (size_t)stat.st_blocks * 512;
}

int main(int argc, char **argv)
{
    struct hostile manager, caller;
    const struct call call = {BC_TRANSACTION, {.data_size = SIZE}};
    int threads = argc > 1 ? atoi(argv[1]) : 20;
    size_t most = 0;
    alarm(60);
    if (!hostile_connect(&manager) || !hostile_open(&manager, "/dev/binder") || !hostile_map(&manager, WINDOW_MAX) || !hostile_thread(&manager))
        return fail("no manager");
    manager.page->request = (struct page_request){.op = PAGE_SET_MANAGER};
    if (!hostile_await(&manager) || manager.page->answer.error)
        return fail("it isn't the context manager");
    if (!hostile_begin(&caller, "/dev/binder"))
        return fail("no client");
    for (int i = 0; i < threads; i++) {
        if (i && !hostile_thread(&caller))
            return fail("no thread");
        memcpy(caller.page->stream, &call, sizeof call);
        caller.page->request = (struct page_request){PAGE_WRITE_READ, sizeof call, 0, 0, 0};
        if (!hostile_await(&caller) || caller.page->answer.error)
            return fail("a call isn't run");
        size_t there = there_of(caller.page_memory);
        most = there > most ? there : most;
        munmap(caller.page, sizeof *caller.page);
        close(caller.page_memory);
    }
    printf("%d threads called with %u bytes that they never wrote, %zu KiB are there of each page at most\n", threads, SIZE, most >> 10);
    return most > MOST ? fail("the daemon fills what its client has left empty") : 0;
}
