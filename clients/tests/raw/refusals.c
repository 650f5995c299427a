/* SPDX-License-Identifier: Apache-2.0 OR MIT */
/*
 * refusals: what the device refuses it refuses as the kernel's does, and nothing of it harms what comes next.
 */
#include "raw.h"

#include <errno.h>
#include <fcntl.h>
#include <poll.h>
#include <stdio.h>
#include <sys/ioctl.h>
#include <sys/mman.h>

static void works(struct client *client)
{
    struct binder_transaction_data reply;
    CHECK(raw_call(&client->looper, (struct call){0}, &reply) == BR_REPLY, "a plain call isn't answered any more");
    looper_free(&client->looper, &reply);
}

static void refuses_calls(struct client *client)
{
    struct binder_transaction_data reply;
    struct binder_transaction_data lost = {.data_size = 16, .offsets_size = 3};
    struct writer writer = {0};
    CHECK(raw_call(&client->looper, (struct call){.handle = 99}, &reply) == BR_FAILED_REPLY, "handle 99");
    works(client);
    write_strong_handle(&writer, 77);
    CHECK(raw_call_with(&client->looper, (struct call){0}, &writer, &reply) == BR_FAILED_REPLY, "a handle nobody gave was sent");
    works(client);
    lost.data.ptr.buffer = (uintptr_t)&lost;
    lost.data.ptr.offsets = (uintptr_t)&lost;
    CHECK(looper_call(&client->looper, &lost, 0, &reply) == BR_FAILED_REPLY, "offsets of 3 bytes were taken");
    works(client);
}

/* A bare write of some bytes: the ioctl's errno, or 0. */
static int written(struct client *client, const void *bytes, size_t size)
{
    struct binder_write_read both = {.write_size = size, .write_buffer = (uintptr_t)bytes};
    return ioctl(client->binder.fd, BINDER_WRITE_READ, &both) ? errno : 0;
}

static void refuses_streams(struct client *client)
{
    uint32_t unknown[2] = {0xdeadbeef, 0}, noop = BC_ENTER_LOOPER;
    CHECK(looper_flush(&client->looper), "can't write");
    CHECK(written(client, unknown, sizeof unknown) == EINVAL, "a command that is none was taken");
    works(client);
    CHECK(looper_flush(&client->looper), "can't write");
    CHECK(written(client, &noop, sizeof noop) == 0, "BC_ENTER_LOOPER was refused");
    works(client);
}

/* What there is of a command that is cut short looks like another one, whose parcel isn't there. The command before is run. (Linux's driver
   takes the rest from whatever memory follows the write.) */
static void refuses_cut_streams(struct client *client)
{
    const struct {
        uint32_t first, cut, inner;
        struct binder_transaction_data record;
    } __attribute__((packed)) stream = {BC_ENTER_LOOPER, BC_TRANSACTION_SG, BC_TRANSACTION, {.data_size = 64, .data.ptr.buffer = 16}};
    struct binder_write_read both = {.write_size = sizeof stream, .write_buffer = (uintptr_t)&stream};
    CHECK(looper_flush(&client->looper), "can't write");
    CHECK(ioctl(client->binder.fd, BINDER_WRITE_READ, &both) && errno == EINVAL, "a command that is cut short was taken");
    CHECK(both.write_consumed == sizeof stream.first, "%llu bytes were consumed", (unsigned long long)both.write_consumed);
    works(client);
    for (size_t size = sizeof stream.first + 1; size < sizeof stream; size++)
        CHECK(written(client, &stream, size) == EINVAL, "a command that has %zu bytes was taken", size - sizeof stream.first);
    works(client);
}

static void refuses_requests(struct client *client)
{
    int fd = client->binder.fd, more = 1;
    struct flat_binder_object with_contexts = {.flags = FLAT_BINDER_FLAG_TXN_SECURITY_CTX};
    CHECK(ioctl(fd, _IOW('b', 99, int), &more) < 0 && errno == EINVAL, "an ioctl that there isn't was taken");
    CHECK(ioctl(fd, BINDER_SET_CONTEXT_MGR_EXT, &with_contexts) < 0 && errno == EINVAL, "security contexts were promised");
    CHECK(!binder_become_manager(&client->binder) && errno == EBUSY, "there is a second context manager");
    CHECK(mmap(NULL, 4096, PROT_READ, MAP_PRIVATE, fd, 0) == MAP_FAILED, "the window was mapped twice");
    works(client);
}

/* A mapping has whole pages, so one of 100 bytes is a window too, which takes replies. */
static void maps_whole_pages(void)
{
    struct client client;
    raw_open(&client, 100, NULL);
    works(&client);
    binder_close(&client.binder);
}

static void waits_as_told(void)
{
    struct client client;
    uint8_t room[256];
    struct binder_write_read both = {.read_size = sizeof room, .read_buffer = (uintptr_t)room};
    raw_open(&client, WINDOW, NULL);
    struct pollfd ready = {.fd = client.binder.fd, .events = POLLIN};
    CHECK(poll(&ready, 1, 50) == 0, "there is something to read of an idle device: %x", ready.revents);
    works(&client);
    CHECK(!fcntl(client.binder.fd, F_SETFL, O_NONBLOCK), "O_NONBLOCK");
    CHECK(ioctl(client.binder.fd, BINDER_WRITE_READ, &both) < 0 && errno == EAGAIN, "a read of nothing didn't come back");
    binder_close(&client.binder);
}

int main(void)
{
    struct client client;
    raw_begin(30);
    pid_t manager = raw_start_manager(NULL);
    raw_open(&client, WINDOW, NULL);
    refuses_calls(&client);
    refuses_streams(&client);
    refuses_cut_streams(&client);
    refuses_requests(&client);
    maps_whole_pages();
    waits_as_told();
    printf("all refused as they should be\n");
    raw_kill(manager);
    return 0;
}
