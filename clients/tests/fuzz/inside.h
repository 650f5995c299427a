/* SPDX-License-Identifier: Apache-2.0 OR MIT */
/*
 * inside.h: the daemon in the fuzzer's own process. An input is a script: what some clients do, one thing after the other, each
 * followed by all that the daemon makes of it. inside.c has the daemon and its time, script.c the clients, calls.c what they ask for,
 * and helpers.c the processes that they are taken for.
 */
#ifndef HULLPIPPIN_TESTS_INSIDE_H
#define HULLPIPPIN_TESTS_INSIDE_H

#include "../../protocol.h"

#include <stdbool.h>
#include <stddef.h>
#include <stdint.h>

/* What is left of an input: zeros follow it. */
struct input {
    const uint8_t *at;
    size_t left;
};

uint32_t take(struct input *input);
/* A number of the kind that programs get wrong. */
uint64_t take_odd(struct input *input);
/* The number that is right, but now and then another one. */
uint64_t take_mostly(struct input *input, uint64_t right);

/* Ends the process as a bug does. */
void expect(bool is_so, const char *what);

/* --- helpers.c --- */

#define HELPERS 4u

bool helpers_begin(void);
/* Both ends of a connection that the process has made. */
bool helper_connect(unsigned helper, int ends[2]);
/* So many descriptors are kept of connections that nobody uses yet. */
unsigned helpers_have(void);
/* It has another effective uid from now on, or its own again. */
void helper_change_user(unsigned helper);
/* It ends, and another one is there in its place. */
void helper_renew(unsigned helper);
/* Sends some bytes and descriptors, and waits for nothing. */
bool give(int socket, const void *bytes, size_t size, const int *descriptors, unsigned count);
/* Takes a packet if one is there, with so many descriptors at most; its size, or -1. */
long receive(int socket, void *bytes, size_t size, int *descriptors, unsigned *count);

/* --- script.c --- */

#define CLIENTS 5u
#define THREADS 3u
#define BUFFERS 8u

/* A thread of an actor. */
struct member {
    int link, bell;
    struct page *page;
    unsigned landed; /* descriptors that have come last */
};

struct actor {
    unsigned helper;
    int control; /* -1: there is none */
    const uint8_t *window; /* NULL: it has none */
    uint64_t window_size;
    struct member members[THREADS];
    uint64_t buffers[BUFFERS]; /* that were handed to it last */
    unsigned buffer_count;
    bool is_deaf; /* it takes no descriptors */
};

/* Where a client sees its window. */
#define CLIENT_BASE UINT64_C(0x7f0000000000)

/* Plays an input, and lets go of all clients. */
void script_play(struct input *input);
/* inside.c: has the daemon do all that it can now; has it be idle for a second; lets time pass. */
void daemon_goes_on(void);
void daemon_rests(void);
void time_passes(uint64_t nanoseconds);
/* .. takes a connection. */
void daemon_accepts(int socket);

/* --- calls.c --- */

/* Puts commands into the thread's page, and sends the descriptors that go with them. Tells how many bytes, and how many descriptors. */
uint32_t calls_write(struct input *input, struct actor *client, struct member *member, uint32_t *descriptors);
/* Sees to the answer in a page, if there is one. */
void calls_collect(struct actor *client, struct member *member);
/* Descriptors of some kinds to be sent: they stay the fuzzer's. */
bool calls_begin(void);
const int *calls_descriptors(void);
#define KINDS 4u

#endif
