/* SPDX-License-Identifier: Apache-2.0 OR MIT */
/*
 * parcel.h: what managers read from parcels and write into them: numbers, names in UTF-16, objects, and buffers of
 * HIDL.
 */
#ifndef HULLPIPPIN_CLIENTS_PARCEL_H
#define HULLPIPPIN_CLIENTS_PARCEL_H

#include "binder.h"

/* What is left to be read. */
struct reader {
    const uint8_t *at;
    const uint8_t *end;
};

/* The data of a call or reply, which lies in the window. */
struct reader reader_of(const struct binder_transaction_data *record);

/* Each takes something off the front, padded to 4 bytes; false where it isn't there. */
bool read_number(struct reader *reader, uint32_t *number);
bool read_bytes(struct reader *reader, const uint8_t **bytes, size_t size);
/* Length, UTF-16 units and a final 0: tells the bytes of the units, without the 0. */
bool read_name(struct reader *reader, const uint8_t **name, size_t *size);

/* A parcel that is being written. After a lack of memory `failed` is set, and nothing more is written. */
struct writer {
    uint8_t *data;
    size_t size, room;
    binder_size_t *offsets;
    size_t objects, object_room;
    size_t buffers; /* the size of all buffers that PTR objects point at */
    bool failed;
};

void write_number(struct writer *writer, uint32_t number);
/* As read_name reads it. */
void write_name(struct writer *writer, const uint8_t *name, size_t size);
void write_strong_handle(struct writer *writer, uint32_t handle);
void write_own_object(struct writer *writer, binder_uintptr_t pointer, binder_uintptr_t cookie);
void write_descriptor(struct writer *writer, int descriptor);
/* An FDA object: so many descriptors stand at an offset of the buffer that the PTR object with this number has. */
void write_descriptors(struct writer *writer, size_t count, int parent, size_t offset);
/* What stands for no object at all. */
void write_no_object(struct writer *writer);
/* A PTR object; `parent` is the number of the one whose bytes at an offset are to lead here, or -1. Tells its own
   number. */
int write_buffer(struct writer *writer, const void *bytes, size_t size, int parent, size_t offset);

/* The record of an answer or a call with this parcel; target and code are 0. */
struct binder_transaction_data record_of(const struct writer *writer);
void writer_free(struct writer *writer);

#endif
