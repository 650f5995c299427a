/* SPDX-License-Identifier: Apache-2.0 OR MIT */
/* calls.c: the commands that the clients of inside.c write, with their parcels, and what they read. */
#include "inside.h"

#include <fcntl.h>
#include <linux/android/binder.h>
#include <stdio.h>
#include <string.h>
#include <sys/mman.h>
#include <sys/socket.h>
#include <unistd.h>

#define OBJECTS_MOST 6u
#define TOO_MANY 257u

static const uint32_t codes[] = {
    BC_TRANSACTION, BC_TRANSACTION_SG, BC_REPLY, BC_REPLY_SG, BC_FREE_BUFFER, BC_INCREFS, BC_ACQUIRE, BC_RELEASE, BC_DECREFS,
    BC_INCREFS_DONE, BC_ACQUIRE_DONE, BC_REGISTER_LOOPER, BC_ENTER_LOOPER, BC_EXIT_LOOPER, BC_REQUEST_DEATH_NOTIFICATION,
    BC_CLEAR_DEATH_NOTIFICATION, BC_DEAD_BINDER_DONE, BC_ATTEMPT_ACQUIRE, BC_TRANSACTION, BC_TRANSACTION_SG, BC_REPLY, BC_FREE_BUFFER,
};

static int kinds[KINDS];

bool calls_begin(void)
{
    int pipe_ends[2], pair[2];
    if (pipe2(pipe_ends, O_CLOEXEC) || socketpair(AF_UNIX, SOCK_STREAM | SOCK_CLOEXEC, 0, pair))
        return false;
    kinds[0] = pipe_ends[0];
    kinds[1] = memfd_create("inside", MFD_CLOEXEC);
    kinds[2] = open("/dev/null", O_RDONLY | O_CLOEXEC);
    kinds[3] = pair[0];
    return kinds[1] >= 0 && kinds[2] >= 0;
}

const int *calls_descriptors(void)
{
    return kinds;
}

/* --- Parcels. --- */

/* A parcel that is being written into the area. */
struct draft {
    uint8_t *area;
    uint64_t data, size;       /* where it begins there, and how much there is so far */
    uint64_t offsets[OBJECTS_MOST];
    uint64_t count;
    uint64_t extra;            /* bytes of buffers so far */
    uint64_t latest_buffer;    /* the index of the latest PTR object */
    uint32_t descriptors;      /* that it names so far */
};

static void put(struct draft *draft, const void *object, size_t size)
{
    draft->offsets[draft->count++] = draft->size;
    memcpy(draft->area + draft->data + draft->size, object, size);
    draft->size += size;
}

static void put_flat(struct input *input, struct draft *draft, uint32_t type)
{
    uint32_t word = take(input);
    struct flat_binder_object object = {.hdr.type = type, .flags = word & 64 ? FLAT_BINDER_FLAG_ACCEPTS_FDS : 0, .cookie = word % 4};
    if (type == BINDER_TYPE_HANDLE || type == BINDER_TYPE_WEAK_HANDLE)
        object.handle = word % 8;
    else
        object.binder = 0x1000 + 16 * (word % 4);
    put(draft, &object, sizeof object);
}

static void put_descriptor(struct input *input, struct draft *draft)
{
    struct binder_fd_object object = {.hdr.type = BINDER_TYPE_FD, .fd = (uint32_t)take_mostly(input, draft->descriptors)};
    draft->descriptors++;
    put(draft, &object, sizeof object);
}

static void put_buffer(struct input *input, struct draft *draft)
{
    uint32_t how = take(input), where = take(input);
    struct binder_buffer_object object = {.hdr.type = BINDER_TYPE_PTR, .buffer = take_mostly(input, draft->extra),
                                          .length = take_mostly(input, how & 63)};
    if (how & 64) {
        object.flags = BINDER_BUFFER_FLAG_HAS_PARENT;
        object.parent = take_mostly(input, draft->latest_buffer);
        object.parent_offset = take_mostly(input, 8 * (where % 4));
    }
    draft->latest_buffer = draft->count;
    draft->extra += round8(how & 63);
    put(draft, &object, sizeof object);
}

static void put_array(struct input *input, struct draft *draft)
{
    uint32_t how = take(input);
    struct binder_fd_array_object object = {.hdr.type = BINDER_TYPE_FDA, .num_fds = take_mostly(input, how % 4),
                                            .parent = take_mostly(input, draft->latest_buffer),
                                            .parent_offset = take_mostly(input, 4 * (how / 4 % 4))};
    draft->descriptors += how % 4;
    put(draft, &object, sizeof object);
}

static void put_object(struct input *input, struct draft *draft)
{
    static const uint32_t types[] = {BINDER_TYPE_BINDER, BINDER_TYPE_WEAK_BINDER, BINDER_TYPE_HANDLE, BINDER_TYPE_WEAK_HANDLE};
    uint32_t how = take(input);
    draft->size += how & 128 ? 8 : 0;
    if (how % 8 < 4)
        put_flat(input, draft, types[how % 4]);
    else if (how % 8 == 4)
        put_descriptor(input, draft);
    else if (how % 8 < 7)
        put_buffer(input, draft);
    else
        put_array(input, draft);
}

/* What stands in the buffers: the numbers of the descriptors for those that are arrays, and anything for others. */
static void fill_buffers(uint8_t *at, uint64_t size, uint32_t first)
{
    for (uint64_t i = 0; i + sizeof(uint32_t) <= size; i += sizeof(uint32_t)) {
        uint32_t number = first + (uint32_t)(i / sizeof number) % 8;
        memcpy(at + i, &number, sizeof number);
    }
}

/* Puts one byte wrong, somewhere in the parcel. */
static void spoil(struct input *input, struct draft *draft, uint64_t end)
{
    uint64_t place = draft->data + (take(input) | take(input) << 8) % (end - draft->data + 1);
    draft->area[place] = (uint8_t)take(input);
}

/* A parcel that ends as only the daemon's own do. */
static void end_as_trailer(struct draft *draft)
{
    memset(draft->area + draft->data + draft->size, 0, 48);
    memcpy(draft->area + draft->data + draft->size + 40, "trailer", 8);
    draft->size += 48;
}

/* More objects than a parcel may have: the offsets of one and the same. */
static void name_too_many(uint8_t *offsets, struct draft *draft)
{
    for (uint64_t i = draft->count; i < TOO_MANY; i++)
        memcpy(offsets + 8 * i, draft->offsets, sizeof *draft->offsets);
    draft->count = TOO_MANY;
}

static struct binder_transaction_data_sg write_parcel(struct input *input, struct member *member, uint32_t *descriptors)
{
    static const uint64_t fronts[] = {0, 16384 - 64, PAGE_AREA - 4096, 8};
    uint32_t how = take(input), count = take(input) % (OBJECTS_MOST + 1);
    struct draft draft = {.area = member->page->area, .data = fronts[how % 4]};
    for (uint32_t i = 0; i < count; i++)
        put_object(input, &draft);
    draft.size += how & 16 ? take(input) : 0;
    if (how & 32)
        end_as_trailer(&draft);
    uint64_t offsets = round8(draft.data + draft.size);
    memcpy(draft.area + offsets, draft.offsets, 8 * draft.count);
    if (how & 4 && how & 8 && count)
        name_too_many(draft.area + offsets, &draft);
    uint64_t extra = offsets + 8 * draft.count;
    fill_buffers(draft.area + extra, draft.extra, how & 64 ? 1 : 0);
    if (how & 128)
        spoil(input, &draft, extra + draft.extra);
    *descriptors = draft.descriptors < KINDS ? draft.descriptors : KINDS;
    return (struct binder_transaction_data_sg){
        .transaction_data = {.data_size = take_mostly(input, draft.size), .offsets_size = take_mostly(input, 8 * draft.count),
                             .data.ptr = {.buffer = take_mostly(input, draft.data), .offsets = take_mostly(input, offsets)}},
        .buffers_size = take_mostly(input, draft.extra)};
}

static uint32_t put_call(struct input *input, struct member *member, uint32_t code, uint8_t *at, uint32_t *descriptors)
{
    uint32_t how = take(input);
    struct binder_transaction_data_sg record = write_parcel(input, member, descriptors);
    record.transaction_data.target.handle = (uint32_t)take_mostly(input, how % 4);
    record.transaction_data.code = how;
    record.transaction_data.flags = (how & 16 ? TF_ONE_WAY : 0) | (how & 32 ? TF_CLEAR_BUF : 0) | (how & 64 ? 0 : TF_ACCEPT_FDS);
    memcpy(at, &record, _IOC_SIZE(code));
    return _IOC_SIZE(code);
}

/* What stands behind a code that isn't a call's: handles, cookies, and pointers. */
static uint32_t put_payload(struct input *input, const struct actor *client, uint32_t code, uint8_t *at)
{
    uint32_t word = take(input), handle = (uint32_t)take_mostly(input, word % 6);
    uint64_t words[2] = {take_mostly(input, code == BC_FREE_BUFFER ? client->buffers[word % BUFFERS] : 0x1000 + 16 * (word % 4)), word % 4};
    uint32_t size = _IOC_SIZE(code) < sizeof handle + sizeof words ? _IOC_SIZE(code) : sizeof handle + sizeof words;
    bool begins_with_handle = size % 8 == 4;
    uint8_t all[sizeof handle + sizeof words];
    memcpy(all, &handle, sizeof handle);
    memcpy(all + (begins_with_handle ? sizeof handle : 0), begins_with_handle ? words + 1 : words, begins_with_handle ? 8 : 16);
    memcpy(at, all, size);
    return size;
}

uint32_t calls_write(struct input *input, struct actor *client, struct member *member, uint32_t *descriptors)
{
    uint32_t size = 0, count = take(input) % 4, wanted = 0;
    *descriptors = 0;
    for (uint32_t i = 0; i < count; i++) {
        uint32_t code = (uint32_t)take_mostly(input, codes[take(input) % (sizeof codes / sizeof *codes)]);
        uint8_t *at = member->page->stream + size;
        bool is_call = code == BC_TRANSACTION || code == BC_REPLY || code == BC_TRANSACTION_SG || code == BC_REPLY_SG;
        memcpy(at, &code, sizeof code);
        size += (uint32_t)sizeof code;
        size += is_call ? put_call(input, member, code, at + sizeof code, &wanted) : put_payload(input, client, code, at + sizeof code);
        *descriptors = wanted ? wanted : *descriptors;
    }
    if (*descriptors && !give(member->link, descriptors, sizeof *descriptors, kinds, *descriptors))
        *descriptors = 0;
    *descriptors = (uint32_t)take_mostly(input, *descriptors);
    return size;
}

/* --- What is read. --- */

static bool is_in_window(const struct actor *client, uint64_t address, uint64_t size)
{
    return address >= CLIENT_BASE && size <= client->window_size && address - CLIENT_BASE <= client->window_size - size;
}

/* A buffer of a parcel that was read is in the window too. */
static void check_object(const struct actor *client, const uint8_t *data, uint64_t size, uint64_t offset)
{
    struct binder_buffer_object object;
    uint32_t type;
    expect(offset <= size && size - offset >= sizeof(struct flat_binder_object), "an object is in its parcel's data");
    memcpy(&type, data + offset, sizeof type);
    if (type != BINDER_TYPE_PTR)
        return;
    expect(size - offset >= sizeof object, "a whole buffer's object is in its parcel's data");
    memcpy(&object, data + offset, sizeof object);
    expect(is_in_window(client, object.buffer, object.length), "a buffer lies in the window");
}

static void check_parcel(struct actor *client, const struct binder_transaction_data *record)
{
    uint64_t data = record->data.ptr.buffer, offsets = record->data.ptr.offsets, offset;
    expect(is_in_window(client, data, record->data_size) && is_in_window(client, offsets, record->offsets_size), "a parcel lies in the window");
    for (uint64_t i = 0; i + 8 <= record->offsets_size; i += 8) {
        memcpy(&offset, client->window + (offsets - CLIENT_BASE) + i, sizeof offset);
        check_object(client, client->window + (data - CLIENT_BASE), record->data_size, offset);
    }
    client->buffers[client->buffer_count++ % BUFFERS] = data;
}

void calls_collect(struct actor *client, struct member *member)
{
    struct page *page = member->page;
    if (!page || atomic_load(&page->state) != PAGE_ANSWERED)
        return;
    const struct page_answer answer = page->answer;
    atomic_store(&page->state, PAGE_IDLE);
    expect(answer.returns_size <= PAGE_RETURNS && answer.descriptors <= DESCRIPTORS_MAX, "an answer fits into its page");
    for (uint32_t at = 0; at < answer.returns_size;) {
        uint32_t code, left = answer.returns_size - at;
        expect(left >= sizeof code, "no return is cut short");
        memcpy(&code, page->returns + at, sizeof code);
        expect(left - sizeof code >= _IOC_SIZE(code) && _IOC_TYPE(code) == 'r', "a return is one");
        struct binder_transaction_data record;
        if (code == BR_TRANSACTION || code == BR_REPLY) {
            memcpy(&record, page->returns + at + sizeof code, sizeof record);
            check_parcel(client, &record);
        }
        at += (uint32_t)sizeof code + _IOC_SIZE(code);
    }
}
