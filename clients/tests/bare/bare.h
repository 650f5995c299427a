/* SPDX-License-Identifier: Apache-2.0 OR MIT */
/*
 * bare.h: a bare relay: what a daemon would cost that had no engine and checked nothing.
 *
 * It stands in the daemon's place, for the same preloaded library, and hands calls and replies on the same ways: pages,
 * bells, doorbells, windows. Of Binder it knows no more than a client, a service and a context manager need to call one
 * another: objects, handles, and who waits for whom. There are no references, deaths or descriptors, no calls back to a
 * thread that waits, one context, and parcels of at most a slot. What it can't do ends it.
 */
#ifndef HULLPIPPIN_TESTS_BARE_H
#define HULLPIPPIN_TESTS_BARE_H

#include "../../protocol.h"
#include "../raw/raw.h"

#include <sys/socket.h>

/* Parcels of a window have slots of one size. */
#define SLOT_SIZE 4096u
#define SLOTS_MAX (WINDOW_MAX / SLOT_SIZE)

#define HANDLES_MAX 1024u
#define QUEUE_MAX 256u
#define DEPTH_MAX 8u

/* A descriptor, and what is called when epoll tells of it. */
struct watch {
    int fd;
    void (*ready)(struct watch *watch, uint32_t events);
};

/* A call that nobody serves yet. */
struct work {
    struct binder_transaction_data record;
    struct thread *caller; /* NULL: it is one-way */
};

struct process {
    struct watch control;
    struct ucred peer;
    uint8_t *window; /* NULL: not mapped yet, or the process has ended */
    uint64_t size, base;
    uint16_t free_slots[SLOTS_MAX];
    uint32_t free_count;
    uint32_t handles[HANDLES_MAX]; /* by handle: the object's number */
    uint32_t handle_count;
    struct work queue[QUEUE_MAX];
    uint32_t queued, taken; /* how many so far; they wrap */
    struct thread *threads;
};

struct thread {
    struct watch bell;
    struct process *process;
    struct thread *next;
    struct page *page; /* NULL: its process has ended */
    int link;
    int doorbell[2];   /* ours and the client's; -1: it has none */
    bool is_rung;
    bool is_looper;
    uint32_t freed;    /* how many of the page's frees were seen to */
    uint32_t room;     /* of the read that waits; 0: none does .. */
    uint32_t consumed; /* .. and how much its request has written */
    uint32_t calling;  /* calls that it waits for */
    uint32_t serving;  /* calls that it has to answer .. */
    struct thread *callers[DEPTH_MAX]; /* .. and who waits for them */
    uint8_t returns[PAGE_RETURNS];
    uint32_t size;
};

/* --- main.c: who is there. --- */

void packet_send(int fd, const void *bytes, size_t size, const int *fds, uint32_t count);

/* --- pages.c: requests in pages, and their answers. --- */

/* Looks at what the thread has asked for. */
void page_rung(struct thread *thread);
/* Answers the reads of a process that can be answered, and puts its doorbells right. */
void settle(struct process *process);

/* --- calls.c: calls, replies and their parcels. --- */

void calls_run(struct thread *thread, const uint8_t *stream, uint32_t size);
/* Whether there is a call that the thread could serve. */
bool calls_wait(const struct thread *thread);
/* Takes the oldest of the calls that the thread could serve. */
void calls_take(struct thread *thread);
void calls_free(struct process *process, uint64_t pointer);
/* Makes the process the context manager. */
void calls_set_manager(struct process *process);

#endif
