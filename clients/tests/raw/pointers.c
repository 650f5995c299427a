/* SPDX-License-Identifier: Apache-2.0 OR MIT */
/*
 * pointers: one that leads nowhere is EFAULT, or EINVAL, as from the kernel, and ends nobody: the argument of an ioctl, commands, the place for
 * returns. A parcel that isn't there is refused. What comes before is done, what comes afterwards works.
 */
#include "raw.h"

#include <errno.h>
#include <stdio.h>
#include <string.h>
#include <sys/ioctl.h>
#include <sys/mman.h>
#include <unistd.h>

#define PAGES 16
#define PAGE ((size_t)4096)

/* Memory of which only the first page is there. */
static uint8_t *edge;

/* All that leads nowhere: no page, no page any more, a page that nobody may touch, no address at all. (What would go past the
   last address is as nothing to the kernel.) */
static uintptr_t bad[5];

static void make_bad(void)
{
    edge = mmap(NULL, 2 * PAGE, PROT_READ | PROT_WRITE, MAP_PRIVATE | MAP_ANONYMOUS, -1, 0);
    uint8_t *gone = mmap(NULL, PAGE, PROT_READ | PROT_WRITE, MAP_PRIVATE | MAP_ANONYMOUS, -1, 0);
    uint8_t *closed = mmap(NULL, PAGES * PAGE, PROT_NONE, MAP_PRIVATE | MAP_ANONYMOUS, -1, 0);
    CHECK(edge != MAP_FAILED && gone != MAP_FAILED && closed != MAP_FAILED, "no memory");
    CHECK(!munmap(edge + PAGE, PAGE) && !munmap(gone, PAGE), "can't unmap");
    const uintptr_t all[] = {0, 16, (uintptr_t)gone, (uintptr_t)closed, (uintptr_t)-65536};
    memcpy(bad, all, sizeof all);
}

static void works(struct client *client)
{
    struct binder_transaction_data reply;
    CHECK(raw_call(&client->looper, (struct call){0}, &reply) == BR_REPLY, "a plain call isn't answered any more");
    looper_free(&client->looper, &reply);
    CHECK(looper_flush(&client->looper), "can't write");
}

static void arguments(struct client *client)
{
    static const struct {
        unsigned long request;
        int error;
    } all[] = {{BINDER_WRITE_READ, EFAULT}, {BINDER_VERSION, EINVAL}, {BINDER_SET_MAX_THREADS, EINVAL},
               {BINDER_SET_CONTEXT_MGR_EXT, EINVAL}, {BINDER_ENABLE_ONEWAY_SPAM_DETECTION, EFAULT}};
    for (size_t i = 0; i < sizeof all / sizeof *all; i++)
        for (size_t j = 0; j < sizeof bad / sizeof *bad; j++)
            CHECK(ioctl(client->binder.fd, all[i].request, bad[j]) == -1 && errno == all[i].error, "ioctl %lx of %lx", all[i].request,
                  bad[j]);
    works(client);
}

/* So many bytes written, and a read where there is a place for it. */
static int exchanged(struct client *client, uintptr_t from, size_t size, uintptr_t to, size_t room, struct binder_write_read *both)
{
    *both = (struct binder_write_read){.write_size = size, .write_buffer = from, .read_size = room, .read_buffer = to};
    return ioctl(client->binder.fd, BINDER_WRITE_READ, both) ? errno : 0;
}

static void commands(struct client *client)
{
    struct binder_write_read both;
    uint8_t room[64];
    uint32_t codes[] = {BC_ENTER_LOOPER, BC_EXIT_LOOPER};
    for (size_t i = 0; i < sizeof bad / sizeof *bad; i++)
        for (size_t size = 4; size < 3 * PAGE; size += PAGE)
            CHECK(exchanged(client, bad[i], size, (uintptr_t)room, sizeof room, &both) == EFAULT, "%zu bytes of commands at %lx", size,
                  bad[i]);
    works(client);
    /* two commands, and the end of the memory in the third */
    uint8_t *at = edge + PAGE - sizeof codes;
    memcpy(at, codes, sizeof codes);
    CHECK(exchanged(client, (uintptr_t)at, 100, (uintptr_t)room, sizeof room, &both) == EFAULT, "commands past an edge");
    CHECK(both.write_consumed == sizeof codes, "%llu bytes were done before it", (unsigned long long)both.write_consumed);
    at = edge + PAGE - 2;
    CHECK(exchanged(client, (uintptr_t)at, 4, 0, 0, &both) == EFAULT, "half a command");
    works(client);
}

static void returns(struct client *client)
{
    struct binder_write_read both;
    const uint32_t code = BC_ENTER_LOOPER;
    static const uint8_t unwritable[256] = {1};
    for (size_t i = 0; i < sizeof bad / sizeof *bad; i++)
        CHECK(exchanged(client, 0, 0, bad[i], 256, &both) == EFAULT, "returns at %lx", bad[i]);
    CHECK(exchanged(client, 0, 0, (uintptr_t)unwritable, sizeof unwritable, &both) == EFAULT, "returns where nobody may write");
    CHECK(exchanged(client, (uintptr_t)&code, sizeof code, bad[2], 256, &both) == EFAULT && both.write_consumed == sizeof code,
          "what is written is not done where returns go nowhere");
    works(client);
}

static void parcels(struct client *client)
{
    struct binder_transaction_data reply;
    const binder_size_t offset = 0;
    for (size_t i = 0; i < sizeof bad / sizeof *bad; i++) {
        for (size_t size = 8; size < PAGES * PAGE; size *= 4) {
            struct call call = {.bytes = (const void *)bad[i], .size = size};
            CHECK(raw_call(&client->looper, call, &reply) == BR_FAILED_REPLY, "%zu bytes of a parcel at %lx", size, bad[i]);
        }
        struct binder_buffer_object object = {.hdr.type = BINDER_TYPE_PTR, .buffer = bad[i], .length = 64};
        struct binder_transaction_data call = {.data_size = sizeof object, .data.ptr.buffer = (uintptr_t)&object,
                                               .offsets_size = sizeof offset, .data.ptr.offsets = (uintptr_t)&offset};
        CHECK(looper_call(&client->looper, &call, 64, &reply) == BR_FAILED_REPLY, "a buffer at %lx", bad[i]);
        call.data.ptr.offsets = bad[i];
        CHECK(looper_call(&client->looper, &call, 64, &reply) == BR_FAILED_REPLY, "offsets at %lx", bad[i]);
    }
    works(client);
    struct call last = {.bytes = edge + PAGE - 100, .size = 100};
    CHECK(raw_call(&client->looper, last, &reply) == BR_REPLY, "a parcel up to an edge");
    looper_free(&client->looper, &reply);
    last.size++;
    CHECK(raw_call(&client->looper, last, &reply) == BR_FAILED_REPLY, "a parcel past an edge");
    works(client);
}

/* What was good before is looked at again once something is unmapped or protected. */
static void what_was_good(struct client *client)
{
    struct binder_transaction_data reply;
    uint8_t *page = mmap(NULL, PAGE, PROT_READ | PROT_WRITE, MAP_PRIVATE | MAP_ANONYMOUS, -1, 0);
    struct call call = {.bytes = page, .size = 8};
    CHECK(page != MAP_FAILED && raw_call(&client->looper, call, &reply) == BR_REPLY, "a parcel that is there");
    looper_free(&client->looper, &reply);
    CHECK(looper_flush(&client->looper) && !mprotect(page, PAGE, PROT_NONE), "can't be protected");
    CHECK(raw_call(&client->looper, call, &reply) == BR_FAILED_REPLY, "a parcel that was protected since");
    CHECK(!mprotect(page, PAGE, PROT_READ) && raw_call(&client->looper, call, &reply) == BR_REPLY, "a parcel that can be read again");
    looper_free(&client->looper, &reply);
    CHECK(looper_flush(&client->looper) && !munmap(page, PAGE), "can't be unmapped");
    CHECK(raw_call(&client->looper, call, &reply) == BR_FAILED_REPLY, "a parcel that was unmapped since");
    works(client);
}

int main(void)
{
    struct client client;
    raw_begin(30);
    pid_t manager = raw_start_manager(NULL);
    raw_open(&client, WINDOW, NULL);
    make_bad();
    arguments(&client);
    commands(&client);
    returns(&client);
    parcels(&client);
    what_was_good(&client);
    printf("bad pointers are EFAULT, bad parcels are refused\n");
    raw_kill(manager);
    return 0;
}
