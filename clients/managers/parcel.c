/* SPDX-License-Identifier: Apache-2.0 OR MIT */
#include "parcel.h"

#include <stdlib.h>
#include <string.h>

static size_t padded(size_t size, size_t to)
{
    return (size + to - 1) & ~(to - 1);
}

struct reader reader_of(const struct binder_transaction_data *record)
{
    const uint8_t *data = (const uint8_t *)(uintptr_t)record->data.ptr.buffer;
    return (struct reader){data, data + record->data_size};
}

bool read_bytes(struct reader *reader, const uint8_t **bytes, size_t size)
{
    size_t left = reader->end - reader->at;
    if (size > left || padded(size, 4) > left)
        return false;
    *bytes = reader->at;
    reader->at += padded(size, 4);
    return true;
}

bool read_number(struct reader *reader, uint32_t *number)
{
    const uint8_t *bytes;
    if (!read_bytes(reader, &bytes, sizeof *number))
        return false;
    memcpy(number, bytes, sizeof *number);
    return true;
}

bool read_name(struct reader *reader, const uint8_t **name, size_t *size)
{
    uint32_t length;
    if (!read_number(reader, &length) || length > INT32_MAX / 2)
        return false;
    *size = 2 * (size_t)length;
    return read_bytes(reader, name, *size + 2);
}

/* Memory that grows by doubling: room for one thing more of that size. */
static void *grown(void *at, size_t used, size_t *room, size_t more, size_t each)
{
    if (used + more <= *room)
        return at;
    size_t wanted = 2 * (used + more) + 64;
    void *moved = realloc(at, wanted * each);
    if (moved)
        *room = wanted;
    return moved;
}

static void write_bytes(struct writer *writer, const void *bytes, size_t size)
{
    size_t whole = padded(size, 4);
    uint8_t *data = writer->failed ? NULL : grown(writer->data, writer->size, &writer->room, whole, 1);
    if (!data) {
        writer->failed = true;
        return;
    }
    writer->data = data;
    memset(data + writer->size, 0, whole);
    if (size)
        memcpy(data + writer->size, bytes, size);
    writer->size += whole;
}

/* An object, and its offset among the offsets: so the driver knows it for one. */
static void write_object(struct writer *writer, const void *object, size_t size)
{
    binder_size_t *offsets = writer->failed
        ? NULL
        : grown(writer->offsets, writer->objects, &writer->object_room, 1, sizeof *offsets);
    if (!offsets) {
        writer->failed = true;
        return;
    }
    writer->offsets = offsets;
    offsets[writer->objects++] = writer->size;
    write_bytes(writer, object, size);
}

void write_number(struct writer *writer, uint32_t number)
{
    write_bytes(writer, &number, sizeof number);
}

void write_name(struct writer *writer, const uint8_t *name, size_t size)
{
    static const uint8_t end[4] = {0};
    write_number(writer, size / 2);
    /* the final 0 stands in what pads the units, or in 4 bytes of its own */
    write_bytes(writer, name, size);
    if (size % 4 == 0)
        write_bytes(writer, end, sizeof end);
}

void write_strong_handle(struct writer *writer, uint32_t handle)
{
    struct flat_binder_object object = {
        .hdr.type = BINDER_TYPE_HANDLE,
        .flags = FLAT_BINDER_FLAG_ACCEPTS_FDS | 0x7f,
        .handle = handle,
    };
    write_object(writer, &object, sizeof object);
}

void write_own_object(struct writer *writer, binder_uintptr_t pointer, binder_uintptr_t cookie)
{
    struct flat_binder_object object = {
        .hdr.type = BINDER_TYPE_BINDER,
        .flags = FLAT_BINDER_FLAG_ACCEPTS_FDS | 0x7f,
        .binder = pointer,
        .cookie = cookie,
    };
    write_object(writer, &object, sizeof object);
}

void write_descriptor(struct writer *writer, int descriptor)
{
    struct binder_fd_object object = {.hdr.type = BINDER_TYPE_FD, .fd = descriptor};
    write_object(writer, &object, sizeof object);
}

void write_descriptors(struct writer *writer, size_t count, int parent, size_t offset)
{
    struct binder_fd_array_object object = {.hdr.type = BINDER_TYPE_FDA, .num_fds = count, .parent = parent, .parent_offset = offset};
    write_object(writer, &object, sizeof object);
}

void write_no_object(struct writer *writer)
{
    struct flat_binder_object object = {.hdr.type = BINDER_TYPE_BINDER};
    write_bytes(writer, &object, sizeof object);
}

int write_buffer(struct writer *writer, const void *bytes, size_t size, int parent, size_t offset)
{
    struct binder_buffer_object object = {
        .hdr.type = BINDER_TYPE_PTR,
        .flags = parent < 0 ? 0 : BINDER_BUFFER_FLAG_HAS_PARENT,
        .buffer = (uintptr_t)bytes,
        .length = size,
        .parent = parent < 0 ? 0 : parent,
        .parent_offset = offset,
    };
    write_object(writer, &object, sizeof object);
    writer->buffers += padded(size, 8);
    return (int)writer->objects - 1;
}

struct binder_transaction_data record_of(const struct writer *writer)
{
    return (struct binder_transaction_data){
        .flags = TF_ACCEPT_FDS,
        .data_size = writer->size,
        .offsets_size = writer->objects * sizeof *writer->offsets,
        .data.ptr = {.buffer = (uintptr_t)writer->data, .offsets = (uintptr_t)writer->offsets},
    };
}

void writer_free(struct writer *writer)
{
    free(writer->data);
    free(writer->offsets);
    *writer = (struct writer){0};
}
