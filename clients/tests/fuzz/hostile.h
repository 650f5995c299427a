/* SPDX-License-Identifier: Apache-2.0 OR MIT */
/*
 * hostile.h: a client that speaks the daemon's protocol by itself, to speak it wrongly. What it is refused doesn't
 * matter to it, so nothing here is checked for success that isn't needed further on.
 */
#ifndef HULLPIPPIN_TESTS_HOSTILE_H
#define HULLPIPPIN_TESTS_HOSTILE_H

#include "../../protocol.h"

#include <stdbool.h>
#include <stddef.h>

/* A connection, and a thread of it. -1 and NULL where there is none. */
struct hostile {
    int control, window_memory;
    int link, page_memory, bell;
    struct page *page;
};

/* Numbers that look random, and are the same for the same seed. */
void chance_begin(uint64_t seed);
uint64_t chance(void);
uint32_t below(uint32_t bound);
/* A number of the kind that programs get wrong: 0, 1, just around a power of two, huge; or any. */
uint64_t odd_number(void);
void fill(void *at, size_t size);

/* So many milliseconds an answer is waited for that has to come: a busy machine takes its time. Clients that are answered by chance wait
   less. */
extern unsigned hostile_patience;

/* Connects, opens a device, maps a window, and becomes a thread; each needs the one before it. */
bool hostile_connect(struct hostile *hostile);
bool hostile_open(struct hostile *hostile, const char *device);
bool hostile_map(struct hostile *hostile, uint64_t size);
bool hostile_thread(struct hostile *hostile);
/* Does all of these, one after the other. */
bool hostile_begin(struct hostile *hostile, const char *device);
void hostile_end(struct hostile *hostile);

/* Sends a packet of any bytes over a socket, with so many descriptors, and waits for nothing; false where it
   didn't go. */
bool hostile_send(int socket, const void *bytes, size_t size, size_t descriptors);

/* Rings, whatever stands in the page; false where that isn't possible. */
bool hostile_ring(struct hostile *hostile);
/* Asks for what stands in the page, and waits a moment for an answer: whether one came. */
bool hostile_ask(struct hostile *hostile, unsigned milliseconds);
/* The same, and waits until an answer has come, which has to. */
bool hostile_await(struct hostile *hostile);
/* Asks for a stream of commands to be run. */
bool hostile_write(struct hostile *hostile, const void *stream, size_t size, uint32_t room, uint32_t descriptors);

/* Writes commands that are nearly right, and a parcel for them, into the page; tells the size of the stream. */
uint32_t hostile_commands(struct page *page);

/* Sends a word with a descriptor, which stays the caller's. Whether that went. */
bool hostile_give(int socket, const void *word, size_t size, int descriptor);

#endif
