/* SPDX-License-Identifier: Apache-2.0 OR MIT */
/*
 * residue: a page from which the daemon takes a parcel is full of what was sent to somebody else before. None of that comes into the
 * window of who gets this one: not behind its data or its buffers, and not in the room that no buffer has.
 */
#include "../raw/raw.h"
#include "hostile.h"

#include <stdio.h>
#include <string.h>
#include <sys/mman.h>
#include <unistd.h>

#define DEVICE "/dev/vndbinder"
#define SECRET 'S'
#define OPEN 'x'
#define ROOM 4096
#define WINDOW_SIZE (1 << 20)

/* A parcel whose data ends at no multiple of 8, with a buffer of one byte. */
struct __attribute__((packed)) data {
    uint32_t head;
    struct binder_buffer_object buffer;
};

static struct binder_transaction_data_sg put_parcel(struct page *page)
{
    const struct data data = {.buffer = {.hdr.type = BINDER_TYPE_PTR, .length = 1}};
    const uint64_t offset = offsetof(struct data, buffer);
    uint64_t offsets = round8(sizeof data);
    memcpy(page->area, &data, sizeof data);
    memcpy(page->area + offsets, &offset, sizeof offset);
    page->area[offsets + sizeof offset] = OPEN;
    return (struct binder_transaction_data_sg){
        {.flags = TF_ONE_WAY, .data_size = sizeof data, .offsets_size = sizeof offset, .data.ptr.offsets = offsets}, ROOM};
}

/* A busy daemon takes its time. */
static void writes(struct hostile *hostile, const void *stream, size_t size, uint32_t room)
{
    bool is_answered = hostile_write(hostile, stream, size, room, 0);
    for (int i = 0; i < RAW_PATIENCE && !is_answered; i++, usleep(1000))
        is_answered = atomic_load(&hostile->page->state) == PAGE_ANSWERED;
    CHECK(is_answered && !hostile->page->answer.error, "a write of %zu bytes: %d", size, hostile->page->answer.error);
}

static void send_one(void *with)
{
    struct hostile sender;
    struct __attribute__((packed)) {
        uint32_t code;
        struct binder_transaction_data_sg record;
    } call = {.code = BC_TRANSACTION_SG};
    (void)with;
    CHECK(hostile_begin(&sender, DEVICE), "no daemon");
    memset(sender.page->area, SECRET, 4 * ROOM);
    call.record = (struct binder_transaction_data_sg){{.target.handle = 99, .data_size = 4 * ROOM}, 0};
    writes(&sender, &call, sizeof call, 256); /* nobody has that handle, but the daemon has taken the bytes */
    call.record = put_parcel(sender.page);
    writes(&sender, &call, sizeof call, 256);
    uint32_t told;
    memcpy(&told, sender.page->returns + sizeof told, sizeof told);
    CHECK(told == BR_TRANSACTION_COMPLETE, "the call was answered by %x", told);
    raw_ready();
}

static void begin(struct hostile *receiver)
{
    const uint32_t enter = BC_ENTER_LOOPER;
    CHECK(hostile_begin(receiver, DEVICE), "no daemon");
    receiver->page->request = (struct page_request){.op = PAGE_SET_MANAGER};
    CHECK(hostile_await(receiver) && !receiver->page->answer.error, "can't be the context manager");
    writes(receiver, &enter, sizeof enter, 0);
}

int main(void)
{
    struct hostile receiver;
    uint32_t code;
    raw_begin(30);
    begin(&receiver);
    raw_join(raw_start(send_one, NULL));
    writes(&receiver, "", 0, 256);
    memcpy(&code, receiver.page->returns + sizeof code, sizeof code);
    CHECK(code == BR_TRANSACTION, "%x was read", code);
    const uint8_t *window = mmap(NULL, WINDOW_SIZE, PROT_READ, MAP_SHARED, receiver.window_memory, 0);
    CHECK(window != MAP_FAILED, "no window");
    const uint8_t *secret = memchr(window, SECRET, WINDOW_SIZE);
    CHECK(memchr(window, OPEN, WINDOW_SIZE), "the buffer isn't there");
    CHECK(!secret, "another's byte is at place %td of the window", secret - window);
    CHECK(!memmem(window, WINDOW_SIZE, "trailer", 7), "the daemon's own bytes are in the window");
    printf("what was sent is in the window, and nothing else\n");
    return 0;
}
