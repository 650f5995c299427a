/* SPDX-License-Identifier: Apache-2.0 OR MIT */
/* What a seat asks the device for: reads and writes. */
#include "player.h"

#include <errno.h>
#include <linux/android/binder.h>
#include <stdio.h>
#include <stdlib.h>
#include <string.h>
#include <sys/ioctl.h>
#include <sys/mman.h>

/* A script names a parcel by this bit, the seat that has read it, and how many that one had read before. */
#define IS_KEY ((uint64_t)1 << 63)
/* Nothing is mapped there, and no buffer has it as its pointer. */
#define NOWHERE 16u

/* The pointers of the parcels that each seat has read. */
static struct parcels {
    uint64_t *all;
    uint32_t count;
} read_by[SEATS];

static void keep(struct parcels *parcels, uint64_t pointer)
{
    parcels->all = realloc(parcels->all, (parcels->count + 1) * sizeof *parcels->all);
    NEED(parcels->all, "memory");
    parcels->all[parcels->count++] = pointer;
}

static uint64_t pointer_of(uint64_t key)
{
    uint32_t seat = (uint32_t)(key >> 32) & ~(1u << 31), count = (uint32_t)key;
    if (!(key & IS_KEY) || seat >= SEATS || count >= read_by[seat].count)
        return NOWHERE;
    return read_by[seat].all[count];
}

static const char *error_name(int error)
{
    static __thread char number[16];
    switch (error) {
    case EINVAL: return "EINVAL";
    case EFAULT: return "EFAULT";
    case EAGAIN: return "EAGAIN";
    default: snprintf(number, sizeof number, "E%d", error); return number;
    }
}

/* Memory that ends where nothing is mapped, so that what goes past a stream's end is an error: its end. */
static uint8_t *guarded(void)
{
    uint8_t *at = mmap(NULL, ROOM + 4096, PROT_READ | PROT_WRITE, MAP_PRIVATE | MAP_ANONYMOUS | MAP_NORESERVE, -1, 0);
    NEED(at != MAP_FAILED && !mprotect(at + ROOM, 4096, PROT_NONE), "memory");
    return at + ROOM;
}

/* Puts the bytes that are written as hex right before `end`; how many. */
static size_t put_hex(const char *hex, uint8_t *end)
{
    size_t size = *hex == '-' ? 0 : strlen(hex) / 2;
    NEED(size <= ROOM, "a line is too long");
    for (size_t i = 0; i < size; i++) {
        char digits[3] = {hex[2 * i], hex[2 * i + 1], 0};
        end[i - size] = (uint8_t)strtoul(digits, NULL, 16);
    }
    return size;
}

/* Turns what the script says of a record's parts, places in the area, into pointers. */
static void place_parts(uint8_t *at, const uint8_t *area, size_t size)
{
    struct binder_transaction_data record;
    memcpy(&record, at, sizeof record);
    unsigned __int128 data_end = (unsigned __int128)record.data.ptr.buffer + record.data_size;
    unsigned __int128 offsets_end = (unsigned __int128)record.data.ptr.offsets + record.offsets_size;
    if (data_end > size || offsets_end > size) {
        record.data.ptr.buffer = record.data.ptr.offsets = NOWHERE;
    } else {
        record.data.ptr.buffer += (uintptr_t)area;
        record.data.ptr.offsets += (uintptr_t)area;
    }
    memcpy(at, &record, sizeof record);
}

static void free_by_key(uint8_t *at)
{
    uint64_t pointer;
    memcpy(&pointer, at, sizeof pointer);
    pointer = pointer_of(pointer);
    memcpy(at, &pointer, sizeof pointer);
}

/* Makes a script's stream one for the device, command by command. */
static void translate(uint8_t *stream, size_t size, const uint8_t *area, size_t area_size)
{
    for (size_t at = 0; size - at >= sizeof(uint32_t);) {
        uint32_t code;
        memcpy(&code, stream + at, sizeof code);
        at += sizeof code;
        if (_IOC_TYPE(code) != 'c' || size - at < _IOC_SIZE(code))
            return;
        if (code == BC_TRANSACTION || code == BC_REPLY)
            place_parts(stream + at, area, area_size);
        if (code == BC_FREE_BUFFER)
            free_by_key(stream + at);
        at += _IOC_SIZE(code);
    }
}

void do_write(struct text *text, const char *stream_hex, const char *area_hex)
{
    static __thread uint8_t *stream_end, *area_end;
    if (!stream_end) {
        stream_end = guarded();
        area_end = guarded();
    }
    size_t size = put_hex(stream_hex, stream_end), area_size = put_hex(area_hex, area_end);
    translate(stream_end - size, size, area_end - area_size, area_size);
    struct binder_write_read request = {.write_size = size, .write_buffer = (uintptr_t)(stream_end - size)};
    int failed = ioctl(device, BINDER_WRITE_READ, &request);
    say(text, "wrote %llu", (unsigned long long)request.write_consumed);
    if (failed)
        say(text, " %s", error_name(errno));
}

/* Tells a stream without its pointers, which differ from run to run; the parcel of the call or reply in it, if there is one. */
static struct binder_transaction_data say_returns(struct text *text, uint8_t *stream, size_t size, uint32_t seat)
{
    struct binder_transaction_data found = {0};
    for (size_t at = 0; at < size;) {
        uint32_t code;
        memcpy(&code, stream + at, sizeof code);
        at += sizeof code;
        if (code == BR_TRANSACTION || code == BR_REPLY) {
            struct binder_transaction_data record;
            memcpy(&record, stream + at, sizeof record);
            found = record;
            keep(&read_by[seat], record.data.ptr.buffer);
            record.data.ptr.offsets -= record.data.ptr.buffer;
            record.data.ptr.buffer = 0;
            memcpy(stream + at, &record, sizeof record);
        }
        at += _IOC_SIZE(code);
    }
    say_hex(text, stream, size);
    return found;
}

void do_read(struct text *text, uint32_t seat, size_t limit)
{
    static __thread uint8_t *room;
    if (!room)
        room = guarded() - ROOM;
    struct binder_write_read request = {.read_size = limit < ROOM ? limit : ROOM, .read_buffer = (uintptr_t)room};
    if (ioctl(device, BINDER_WRITE_READ, &request)) {
        say(text, errno == EAGAIN ? "again" : "read %s", error_name(errno));
        return;
    }
    say(text, "got ");
    struct binder_transaction_data record = say_returns(text, room, request.read_consumed, seat);
    say(text, " ");
    say_hex(text, (const uint8_t *)(uintptr_t)record.data.ptr.buffer, record.data_size);
    say(text, " ");
    say_hex(text, (const uint8_t *)(uintptr_t)record.data.ptr.offsets, record.offsets_size);
}
