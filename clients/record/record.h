/* SPDX-License-Identifier: Apache-2.0 OR MIT */
/*
 * record.h: what the files of the recording library share.
 *
 * The library stands between a program and libc, hands each call to a Binder device on, and keeps what went in and what came out: for
 * each thread in a file of its own, which is mapped, so that a process that is killed loses nothing. docs/FORMATS.md has the form.
 */
#ifndef HULLPIPPIN_RECORD_H
#define HULLPIPPIN_RECORD_H

#include <stdbool.h>
#include <stddef.h>
#include <stdint.h>

enum kind { KIND_OPEN = 1, KIND_WINDOW, KIND_IOCTL, KIND_WRITE_READ, KIND_CLOSE };

/* What each record begins with. `end` is 0 until the call has come back. */
struct record {
    uint32_t size, kind;
    uint64_t begin, end;
};

/* An open device: the process that has opened it, and the number that it gave it, from 1. */
struct opened {
    uint32_t pid, number;
};

struct open_record {
    struct opened file;
    uint32_t flags, euid;
};
struct window_record {
    struct opened file;
    uint64_t size, address;
};
struct ioctl_record {
    struct opened file;
    uint32_t request, argument;
    int32_t result, error;
};
enum { PARCEL_UNREADABLE = 1, PARCEL_TOO_LONG = 2, STREAM_UNREADABLE = 4 };
struct write_read_record {
    struct opened file;
    int32_t result, error;
    uint64_t write_size, write_before, write_consumed, read_size, read_before, read_consumed;
    /* The bytes that follow, each part filled up to 8: the stream written, its parcels, the stream read, its parcels. */
    uint32_t written, sent, returned, received;
    uint32_t flags, zero;
};

/* --- file.c: the calling thread's file. --- */

uint64_t record_now(void);
/* Room for a record of at most so many bytes behind what is kept; NULL where there is none, or where the thread is keeping another one,
   as in a signal's handler. What comes of it is record_keep or record_leave. */
struct record *record_room(size_t most);
/* Whether the file goes on up to there, of a record that has become longer. */
bool record_reaches(const void *end);
/* Keeps a record as it is now; it may be kept again, with other sizes, until record_leave. */
void record_keep(struct record *record);
/* Ends what record_room began. */
void record_leave(void);
/* The process, without asking the kernel once the thread has a file. */
int record_pid(void);
/* Notes a call that isn't kept. */
void record_missed(void);

/* --- parcels.c: what stands in the program's memory. --- */

size_t record_padded(size_t size);
/* Copies bytes that may not be there; false where they aren't. errno stays. */
bool record_take(void *to, uint64_t from, size_t size);
/* Copies the parcels of a stream, one behind the other: how many bytes. Those that are sent may not be there. */
size_t record_parcels(uint8_t *to, size_t room, const uint8_t *stream, size_t size, bool are_sent, uint32_t *flags);

#endif
