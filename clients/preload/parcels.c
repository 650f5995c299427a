/* SPDX-License-Identifier: Apache-2.0 OR MIT */
/*
 * parcels.c: puts the parcel of a transaction or reply into the page: data, offsets, and the buffers that its PTR
 * objects point at, one behind the other. Its descriptors go in the order of their objects (protocol.h). The daemon judges what comes;
 * here only that is seen to that nothing is read or written past an end, and that nothing goes of a parcel of which a buffer can't be read or
 * a descriptor isn't open.
 */
#include "preload.h"

#include <string.h>

/* The copy of a parcel. */
struct copy {
    struct packing *packing;
    uint8_t *data;
    const uint8_t *offsets;
    uint8_t *extra;
    uint64_t data_size, count, extra_size;
    uint64_t used; /* of the buffers' room */
    bool is_bad;   /* something of it can't be had */
};

/* The object with this index, of this size; NULL where there is none. */
static uint8_t *object_at(const struct copy *copy, uint64_t index, uint64_t size)
{
    uint64_t offset;
    if (index >= copy->count)
        return NULL;
    memcpy(&offset, copy->offsets + 8 * index, sizeof offset);
    return offset <= copy->data_size && copy->data_size - offset >= size ? copy->data + offset : NULL;
}

static uint32_t type_of(const uint8_t *object)
{
    uint32_t type;
    memcpy(&type, object, sizeof type);
    return type;
}

/* The next one of the packet. */
static void add_descriptor(struct copy *copy, int fd)
{
    struct packing *packing = copy->packing;
    if (packing->fd_count == DESCRIPTORS_MAX || real()->fcntl(fd, F_GETFD) < 0)
        copy->is_bad = true;
    else
        packing->fds[packing->fd_count++] = fd;
}

static void pack_descriptor(struct copy *copy, const uint8_t *at)
{
    struct binder_fd_object object;
    memcpy(&object, at, sizeof object);
    add_descriptor(copy, (int)object.fd);
}

/* Copies bytes of the program, and zeros up to a multiple of 8: what the page had there before is of another parcel, and goes to nobody. */
static void put_part(uint8_t *to, uint64_t from, uint64_t size)
{
    if (size)
        memcpy(to, (const void *)(uintptr_t)from, size);
    memset(to + size, 0, round8(size) - size);
}

/* A buffer follows the one before. */
static void pack_buffer(struct copy *copy, uint8_t *at)
{
    struct binder_buffer_object object;
    memcpy(&object, at, sizeof object);
    if (object.length > copy->extra_size - copy->used || !memory_can_be_read((const void *)(uintptr_t)object.buffer, object.length)) {
        copy->is_bad = true;
    } else {
        put_part(copy->extra + copy->used, object.buffer, object.length);
        object.buffer = copy->used;
        copy->used += round8(object.length);
        if (copy->used > copy->extra_size)
            copy->used = copy->extra_size;
    }
    memcpy(at, &object, sizeof object);
}

/* The numbers of an array of descriptors lie in the copy of its parent's buffer. */
static void pack_array(struct copy *copy, const uint8_t *at)
{
    struct binder_fd_array_object object;
    struct binder_buffer_object parent;
    memcpy(&object, at, sizeof object);
    const uint8_t *parent_at = object_at(copy, object.parent, sizeof parent);
    if (!parent_at || type_of(parent_at) != BINDER_TYPE_PTR)
        return;
    memcpy(&parent, parent_at, sizeof parent);
    if (parent.buffer > copy->used || parent.length > copy->extra_size - parent.buffer || object.num_fds > DESCRIPTORS_MAX
        || object.parent_offset > parent.length || object.num_fds * sizeof(uint32_t) > parent.length - object.parent_offset)
        return;
    const uint8_t *number = copy->extra + parent.buffer + object.parent_offset;
    for (uint64_t i = 0; i < object.num_fds; i++, number += sizeof(uint32_t)) {
        uint32_t fd;
        memcpy(&fd, number, sizeof fd);
        add_descriptor(copy, (int)fd);
    }
}

static void pack_objects(struct copy *copy)
{
    for (uint64_t i = 0; i < copy->count; i++) {
        uint8_t *at = object_at(copy, i, sizeof(struct binder_object_header));
        uint32_t type = at ? type_of(at) : 0;
        if (type == BINDER_TYPE_FD && object_at(copy, i, sizeof(struct binder_fd_object)))
            pack_descriptor(copy, at);
        else if (type == BINDER_TYPE_PTR && object_at(copy, i, sizeof(struct binder_buffer_object)))
            pack_buffer(copy, at);
        else if (type == BINDER_TYPE_FDA && object_at(copy, i, sizeof(struct binder_fd_array_object)))
            pack_array(copy, at);
    }
}

/* It is told without its bytes, and refused. */
static void lose(struct binder_transaction_data *data)
{
    data->data.ptr.buffer = data->data.ptr.offsets = PAGE_NOWHERE;
}

/* Copies the parcel to the page's area, behind what is there. */
static void copy_parcel(struct packing *packing, struct binder_transaction_data_sg *record)
{
    struct binder_transaction_data *data = &record->transaction_data;
    uint8_t *at = packing->page->area + packing->area_size;
    struct copy copy = {.packing = packing, .data = at, .data_size = data->data_size, .count = data->offsets_size / 8,
                        .extra_size = record->buffers_size};
    uint8_t *offsets = at + round8(data->data_size);
    copy.offsets = offsets;
    copy.extra = offsets + round8(data->offsets_size);
    put_part(copy.data, data->data.ptr.buffer, data->data_size);
    put_part(offsets, data->data.ptr.offsets, data->offsets_size);
    const uint32_t fds_before = packing->fd_count;
    pack_objects(&copy);
    if (copy.is_bad) {
        packing->fd_count = fds_before;
        lose(data);
        return;
    }
    memset(copy.extra + copy.used, 0, round8(copy.extra_size) - copy.used);
    data->data.ptr.buffer = packing->area_size;
    data->data.ptr.offsets = packing->area_size + round8(data->data_size);
    packing->area_size += round8(data->data_size) + round8(data->offsets_size) + round8(record->buffers_size);
}

static bool is_there(const struct binder_transaction_data *data)
{
    return memory_can_be_read((const void *)(uintptr_t)data->data.ptr.buffer, data->data_size)
           && memory_can_be_read((const void *)(uintptr_t)data->data.ptr.offsets, data->offsets_size);
}

bool parcel_pack(struct packing *packing, struct binder_transaction_data_sg *record, bool is_first)
{
    struct binder_transaction_data *data = &record->transaction_data;
    bool is_small = data->data_size <= PAGE_AREA && data->offsets_size <= PAGE_AREA && record->buffers_size <= PAGE_AREA;
    uint64_t size = is_small ? round8(data->data_size) + round8(data->offsets_size) + round8(record->buffers_size) : UINT64_MAX;
    if (size > PAGE_AREA || !is_there(data)) { /* no window has room for it, or nobody has it */
        lose(data);
        return true;
    }
    /* One packet of descriptors goes with a stream: a further parcel that may have some waits for the next. */
    if (!is_first && (size > PAGE_AREA - packing->area_size || (packing->fd_count && data->offsets_size)))
        return false;
    copy_parcel(packing, record);
    return true;
}
