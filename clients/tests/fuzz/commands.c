/* SPDX-License-Identifier: Apache-2.0 OR MIT */
/* Commands that are nearly right: known codes, records with a field or two that lie, parcels with objects out of
   place. */
#include "hostile.h"

#include <linux/android/binder.h>
#include <string.h>

#define AREA 4096

static const uint32_t codes[] = {
    BC_TRANSACTION, BC_REPLY, BC_TRANSACTION_SG, BC_REPLY_SG, BC_FREE_BUFFER, BC_INCREFS, BC_ACQUIRE, BC_RELEASE, BC_DECREFS,
    BC_INCREFS_DONE, BC_ACQUIRE_DONE, BC_REGISTER_LOOPER, BC_ENTER_LOOPER, BC_EXIT_LOOPER, BC_REQUEST_DEATH_NOTIFICATION,
    BC_CLEAR_DEATH_NOTIFICATION, BC_DEAD_BINDER_DONE, BC_ATTEMPT_ACQUIRE, BC_ACQUIRE_RESULT,
};

static const uint32_t types[] = {
    BINDER_TYPE_BINDER, BINDER_TYPE_WEAK_BINDER, BINDER_TYPE_HANDLE, BINDER_TYPE_WEAK_HANDLE, BINDER_TYPE_FD, BINDER_TYPE_FDA,
    BINDER_TYPE_PTR,
};

/* A number that is right more often than not. */
static uint64_t mostly(uint64_t right)
{
    return below(8) ? right : odd_number();
}

/* An object somewhere in the area, of a known type, with numbers that may be right. */
static void put_object_at(struct page *page, uint64_t place)
{
    struct binder_buffer_object object = {
        .hdr.type = types[below(sizeof types / sizeof *types)],
        .flags = below(2),
        .buffer = mostly(below(4)),
        .length = mostly(below(64)),
        .parent = mostly(below(3)),
        .parent_offset = mostly(8 * below(4)),
    };
    memcpy(page->area + place, &object, sizeof object);
}

/* A parcel at the front of the area: data, then the offsets of some objects in it. */
static struct binder_transaction_data parcel(struct page *page)
{
    uint64_t size = 8 * below(AREA / 16), count = below(5), place = 0;
    uint64_t offsets = (size + 7) / 8 * 8;
    for (uint64_t i = 0; i < count; i++, place += 40) {
        uint64_t offset = mostly(place);
        if (place + 40 <= size)
            put_object_at(page, place);
        memcpy(page->area + offsets + 8 * i, &offset, sizeof offset);
    }
    return (struct binder_transaction_data){
        .target.handle = (uint32_t)mostly(below(4)),
        .code = (uint32_t)chance(),
        .flags = below(2) ? TF_ONE_WAY | TF_ACCEPT_FDS : (uint32_t)mostly(TF_ACCEPT_FDS),
        .data_size = mostly(size),
        .offsets_size = mostly(8 * count),
        .data.ptr = {.buffer = mostly(0), .offsets = mostly(offsets)},
    };
}

/* What stands behind a code: a record, or words that are handles, pointers and cookies. */
static void put_payload(struct page *page, uint8_t *at, uint32_t code, size_t size)
{
    struct binder_transaction_data record;
    uint64_t words[10];
    for (size_t i = 0; i < sizeof words / sizeof *words; i++)
        words[i] = mostly(below(4) ? below(8) : 65536 + 8 * below(64));
    if (size > sizeof words)
        return;
    memcpy(at, words, size);
    if (size >= sizeof record && code != BC_ATTEMPT_ACQUIRE) {
        record = parcel(page);
        memcpy(at, &record, sizeof record);
    }
}

uint32_t hostile_commands(struct page *page)
{
    uint32_t size = 0, count = 1 + below(6);
    for (uint32_t i = 0; i < count; i++) {
        uint32_t code = below(12) ? codes[below(sizeof codes / sizeof *codes)] : (uint32_t)chance();
        uint32_t payload = _IOC_SIZE(code);
        if (size + sizeof code + payload > PAGE_STREAM)
            break;
        memcpy(page->stream + size, &code, sizeof code);
        put_payload(page, page->stream + size + sizeof code, code, payload);
        size += sizeof code + payload;
    }
    return (uint32_t)mostly(size);
}
