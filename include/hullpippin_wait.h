/* SPDX-License-Identifier: Apache-2.0 OR MIT */
/*
 * hullpippin_wait.h: waiting, over hullpippin.h. No proof covers it, and nothing that is proved stands on it.
 *
 * No call of the library waits. If another seat has the engine, a request comes back; if a seat has nothing to read, its read says so.
 * What a thread does until then is up to you. Most want one of these:
 *
 *  - hullpippin_insist makes a request again until no other seat has the engine, by hullpippin_again, which copies its bytes only
 *    once. It calls only after a look has found the engine free, since a call that comes back takes the page's cache line from the seat
 *    at work; and it pauses longer and longer between its looks.
 *  - hullpippin_await has the answer to what a seat has posted. It serves all seats once a look has found the engine free, and until then
 *    looks only whether its own answer is there.
 *  - hullpippin_hand_over has a request run, by a call where the engine is free, and by posting it where it isn't: a request and an answer that
 *    go from one processor's cache to another's and back take longer than a step.
 *  - hullpippin_sleep has a thread sleep until its seat has something to read. A bell wakes it, one for all seats of a driver, which
 *    those above ring after each request. If you make a request otherwise, ring the bell yourself.
 *
 *     hullpippin_bell bell = HULLPIPPIN_BELL;
 *     struct read_of { uint32_t limit; } most = { 256 };
 *     if (hullpippin_sleep(&bell, &seat, 1, NULL))
 *         status = hullpippin_insist(&bell, &seat, read_once, &most, &answer);
 *
 * Needs C11 with its atomics, and POSIX threads; C++ has no such header. What hullpippin.h relies on holds here too: one call at a time with a seat.
 */
#ifndef HULLPIPPIN_WAIT_H
#define HULLPIPPIN_WAIT_H

#include "hullpippin.h"

#include <errno.h>
#include <pthread.h>
#include <sched.h>
#include <stdatomic.h>
#include <time.h>

/* What wakes the threads that sleep: one for all seats of a driver. Neither copy nor move it. */
typedef struct {
    pthread_mutex_t lock;
    pthread_cond_t rung;
    atomic_uint sleepers; /* how many threads sleep, or are about to */
} hullpippin_bell;

#define HULLPIPPIN_BELL { PTHREAD_MUTEX_INITIALIZER, PTHREAD_COND_INITIALIZER, 0 }

/* A request: one call of hullpippin.h with this seat, whose status it answers. `given` is the caller's. */
typedef uint32_t hullpippin_request_of(hullpippin_seat *seat, void *given, hullpippin_answer *answer);

/* How long a pause is, in turns of a loop that rests the processor: twice as long behind each look, up to the most. One of so many pauses
   lets other threads have the processor. Behind so many looks a thread sleeps, at first for the shortest time, and never for longer than
   the longest. */
enum { HULLPIPPIN_FEWEST_TURNS = 16, HULLPIPPIN_MOST_TURNS = 256, HULLPIPPIN_YIELDS = 8, HULLPIPPIN_LOOKS = 48 };
#define HULLPIPPIN_SHORTEST_NS 2000L
#define HULLPIPPIN_LONGEST_NS 1000000L

/* Rests the processor for a moment, so that another thread of the same core gets on. */
static inline void hullpippin_rest(void)
{
#if defined(__x86_64__) && defined(__GNUC__)
    __builtin_ia32_pause();
#else
    atomic_signal_fence(memory_order_seq_cst);
#endif
}

/* Pauses before another look, the longer the more looks there were. Each look takes the page's cache line from the seat at work, and whoever
   has the engine's tables in its own cache goes on fastest. So who waits looks seldom. */
static inline void hullpippin_pause(unsigned looks)
{
    if (looks >= HULLPIPPIN_LOOKS) {
        unsigned doublings = looks - HULLPIPPIN_LOOKS;
        long time = doublings < 9 ? HULLPIPPIN_SHORTEST_NS << doublings : HULLPIPPIN_LONGEST_NS;
        nanosleep(&(struct timespec){ 0, time }, NULL);
    } else if (looks % HULLPIPPIN_YIELDS == HULLPIPPIN_YIELDS - 1) {
        sched_yield();
    } else {
        unsigned turns = looks < 4 ? HULLPIPPIN_FEWEST_TURNS << looks : HULLPIPPIN_MOST_TURNS;
        while (turns--)
            hullpippin_rest();
    }
}

/* Wakes those who sleep, so that each looks whether its seat is ready. */
static inline void hullpippin_ring(hullpippin_bell *bell)
{
    /* Who is about to sleep has counted itself before it looks, and our step was published before we look at the count: one of the
       two sees the other. */
    atomic_thread_fence(memory_order_seq_cst);
    if (!atomic_load_explicit(&bell->sleepers, memory_order_relaxed))
        return;
    pthread_mutex_lock(&bell->lock);
    pthread_cond_broadcast(&bell->rung);
    pthread_mutex_unlock(&bell->lock);
}

/* Makes a request, and makes the one that comes back again until no other seat has the engine; then rings the bell, where there is
   one. The status and the answer are those of the last call; so the answer may be BACK for another reason. */
static inline uint32_t hullpippin_insist(hullpippin_bell *bell, hullpippin_seat *seat, hullpippin_request_of *request, void *given,
                                         hullpippin_answer *answer)
{
    unsigned looks = 0;
    uint32_t status = request(seat, given, answer);
    for (;;) {
        if (status != HULLPIPPIN_DONE || answer->kind != HULLPIPPIN_BACK || answer->why != HULLPIPPIN_BACK_TAKEN) {
            if (bell)
                hullpippin_ring(bell);
            return status;
        }
        hullpippin_page page;
        do {
            hullpippin_pause(looks++);
            hullpippin_look(seat, &page);
        } while (page.taken);
        status = hullpippin_again(seat, answer);
    }
}

/* Has the answer to what the seat has posted, however long that takes, and serves all seats where none other does; rings the bell then,
   where there is one. The status and the answer are those of hullpippin_collect, or the status of a serve that goes wrong otherwise. */
static inline uint32_t hullpippin_await(hullpippin_bell *bell, hullpippin_seat *seat, hullpippin_answer *answer)
{
    for (unsigned looks = 0;; looks++) {
        uint32_t picked, status, served = HULLPIPPIN_TAKEN;
        hullpippin_page page;
        hullpippin_look(seat, &page);
        if (!page.taken)
            served = hullpippin_serve(seat, &picked);
        if (served == HULLPIPPIN_DONE && bell)
            hullpippin_ring(bell);
        status = hullpippin_collect(seat, answer);
        if (status != HULLPIPPIN_DONE || answer->kind != HULLPIPPIN_HANDED)
            return status;
        if (served != HULLPIPPIN_DONE && served != HULLPIPPIN_TAKEN)
            return served;
        hullpippin_pause(looks);
    }
}

/* Makes the call that a request is. A kind that hullpippin_post doesn't know is NO_SUCH_REQUEST. */
static inline uint32_t hullpippin_call(hullpippin_seat *seat, const hullpippin_request *request, const uint8_t *stream, size_t stream_size,
                                       const uint8_t *area, size_t area_size, hullpippin_answer *answer)
{
    switch (request->kind) {
    case HULLPIPPIN_OPEN: return hullpippin_open(seat, request->pid, request->euid, request->window, answer);
    case HULLPIPPIN_ATTACH: return hullpippin_attach(seat, request->pid, answer);
    case HULLPIPPIN_MANAGER: return hullpippin_manager(seat, answer);
    case HULLPIPPIN_SET_SPAM: return hullpippin_set_spam(seat, request->on, answer);
    case HULLPIPPIN_WRITE: return hullpippin_write(seat, stream, stream_size, area, area_size, answer);
    case HULLPIPPIN_READ: return hullpippin_read(seat, request->limit, answer);
    case HULLPIPPIN_EXIT_THREAD: return hullpippin_exit_thread(seat, answer);
    case HULLPIPPIN_EXIT_PROCESS: return hullpippin_exit_process(seat, answer);
    default: return HULLPIPPIN_NO_SUCH_REQUEST;
    }
}

/* Has a request run, and the answer to it, however long that takes; the stream and the area are those of a write. Where no other seat has the
   engine this is a call, and rings the bell, where there is one; where one has, the request is posted and awaited. The status is that of the
   call, of hullpippin_post if that isn't DONE, or of hullpippin_await. */
static inline uint32_t hullpippin_hand_over(hullpippin_bell *bell, hullpippin_seat *seat, const hullpippin_request *request,
                                            const uint8_t *stream, size_t stream_size, const uint8_t *area, size_t area_size,
                                            hullpippin_answer *answer)
{
    hullpippin_page page;
    hullpippin_look(seat, &page);
    if (!page.taken) {
        uint32_t status = hullpippin_call(seat, request, stream, stream_size, area, area_size, answer);
        if (status != HULLPIPPIN_DONE || answer->kind != HULLPIPPIN_BACK || answer->why != HULLPIPPIN_BACK_TAKEN) {
            if (bell)
                hullpippin_ring(bell);
            return status;
        }
    }
    uint32_t status = hullpippin_post(seat, request, stream, stream_size, area, area_size);
    return status == HULLPIPPIN_DONE ? hullpippin_await(bell, seat, answer) : status;
}

/* Sleeps until the seat of this number, which is the one given, has something to read. Answers false where that isn't so by a time of
   CLOCK_REALTIME, if one is given. */
static inline bool hullpippin_sleep(hullpippin_bell *bell, hullpippin_seat *seat, uint32_t number, const struct timespec *until)
{
    if (hullpippin_ready(seat) >> number & 1)
        return true;
    int status = 0;
    bool is_ready;
    pthread_mutex_lock(&bell->lock);
    atomic_fetch_add_explicit(&bell->sleepers, 1, memory_order_relaxed);
    atomic_thread_fence(memory_order_seq_cst);
    while (!(is_ready = hullpippin_ready(seat) >> number & 1) && status != ETIMEDOUT)
        status = until ? pthread_cond_timedwait(&bell->rung, &bell->lock, until) : pthread_cond_wait(&bell->rung, &bell->lock);
    atomic_fetch_sub_explicit(&bell->sleepers, 1, memory_order_relaxed);
    pthread_mutex_unlock(&bell->lock);
    return is_ready;
}

#endif
