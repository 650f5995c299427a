/* SPDX-License-Identifier: Apache-2.0 OR MIT */
/* loop.c: one wait for all descriptors. What comes of clients only marks that they want a turn (turns.c). */
#include "daemon.h"

#include <errno.h>
#include <string.h>
#include <sys/epoll.h>
#include <sys/syscall.h>
#include <unistd.h>

#define IDLE_NANOSECONDS UINT64_C(1000000000)

/* Events of one fetch, and how many fetches there are between two turns at most. */
#define EVENTS 64
#define EVENTS_SWIFT 8
#define FETCHES 32

bool loop_begin(struct loop *loop)
{
    *loop = (struct loop){.epoll = epoll_create1(EPOLL_CLOEXEC)};
    return turns_begin(&loop->turns) && loop->epoll >= 0;
}

void loop_end(struct loop *loop)
{
    turns_end(&loop->turns);
    descriptor_close(&loop->epoll);
}

bool loop_add(struct loop *loop, struct watch *watch, uint32_t events)
{
    struct epoll_event event = {.events = events, .data.ptr = watch};
    watch->waits_for = events;
    return epoll_ctl(loop->epoll, EPOLL_CTL_ADD, watch->fd, &event) == 0;
}

bool loop_add_client(struct loop *loop, struct watch *watch, struct client *client, uint32_t events)
{
    watch->client = client;
    list_begin(&watch->in_watches);
    return loop_add(loop, watch, events | EPOLLET);
}

void loop_change(struct loop *loop, struct watch *watch, uint32_t events)
{
    struct epoll_event event = {.events = events, .data.ptr = watch};
    epoll_ctl(loop->epoll, EPOLL_CTL_MOD, watch->fd, &event);
}

void loop_listen(struct loop *loop, struct watch *watch)
{
    if (watch->is_deaf)
        loop_change(loop, watch, watch->waits_for);
    watch->is_deaf = false;
}

void loop_leave(struct loop *loop, struct watch *watch)
{
    turns_want_none(watch);
    epoll_ctl(loop->epoll, EPOLL_CTL_DEL, watch->fd, NULL);
    watch->is_deaf = false;
}

/* A bell's description is the client's too, so closing it here wouldn't end its events. */
void loop_drop(struct loop *loop, struct watch *watch)
{
    if (watch->fd < 0)
        return;
    if (watch->client)
        turns_want_none(watch);
    epoll_ctl(loop->epoll, EPOLL_CTL_DEL, watch->fd, NULL);
    descriptor_end(&watch->fd);
}

/* Who rings and rings costs no more than two events a turn. */
static void note_event(struct loop *loop, struct watch *watch)
{
    watch->was_heard = true;
    if (!watch->client) {
        watch->ready(watch);
    } else if (list_is_empty(&watch->in_watches)) {
        turns_want(&loop->turns, watch);
    } else if (!watch->is_deaf) {
        watch->is_deaf = true;
        loop_change(loop, watch, EPOLLET);
    }
}

/* As epoll_wait, but that no thread can be cancelled there, for which libc takes as many instructions as for all else of a wait. */
static int wait_whole(const struct loop *loop, struct epoll_event *events, int milliseconds)
{
    return (int)syscall(SYS_epoll_pwait, loop->epoll, events, EVENTS, milliseconds, NULL, 0);
}

/* Waits so many nanoseconds for events, a second at most; NO_TURN: for ever. Kernels before 5.11 wait for whole milliseconds. */
static int wait_for(const struct loop *loop, struct epoll_event *events, uint64_t patience)
{
    const struct timespec time = {.tv_nsec = (long)patience};
    if (!patience || patience == NO_TURN)
        return wait_whole(loop, events, patience ? -1 : 0);
    if (patience >= IDLE_NANOSECONDS)
        return wait_whole(loop, events, IDLE_NANOSECONDS / 1000000u);
    int count = (int)syscall(SYS_epoll_pwait2, loop->epoll, events, EVENTS, &time, NULL, 0);
    if (count >= 0 || errno != ENOSYS)
        return count;
    return wait_whole(loop, events, (int)(patience / 1000000u) + 1);
}

/* Fetches all events that are there; how many these were, or -1. */
static int fetch(struct loop *loop, uint64_t patience)
{
    struct epoll_event events[EVENTS];
    int total = 0, count = EVENTS;
    for (int i = 0; i < FETCHES && count == EVENTS; i++) {
        count = wait_for(loop, events, i ? 0 : patience);
        if (count < 0)
            return errno == EINTR ? total + 1 : -1;
        loop->turns.now = nanoseconds();
        total += count;
        for (int j = 0; j < count; j++)
            note_event(loop, events[j].data.ptr);
    }
    if (total > EVENTS_SWIFT) /* what these took is no turn's */
        loop->turns.now = nanoseconds();
    return total;
}

bool loop_run(struct loop *loop)
{
    bool is_rested = false, has_more = false;
    while (!loop->is_stopped) {
        uint64_t due = has_more ? 0 : turns_due_in(&loop->turns);
        bool is_idle = due == NO_TURN;
        int count = fetch(loop, is_idle && !is_rested ? IDLE_NANOSECONDS : due);
        if (count < 0) {
            log_line("waiting: %s", strerror(errno));
            return false;
        }
        is_rested = count == 0 && is_idle && !loop->idle(loop->context);
        turns_give(&loop->turns);
        descriptors_close_for(NULL); /* who had the turn may be gone */
        has_more = loop->between && loop->between(loop->context);
    }
    return true;
}
