/* SPDX-License-Identifier: Apache-2.0 OR MIT */
/*
 * poll.c: waiting for a binder file. In its place the calling thread's doorbell is waited for, since it is threads
 * that have something to read. With epoll it is the doorbell of the thread that has added the file.
 */
#include "preload.h"

#include <stdlib.h>
#include <string.h>

#define FILES_ON_STACK 64

/* The calling thread's doorbell for a binder file, or -1. */
static int doorbell_of(int fd)
{
    int before = cancel_never();
    struct device *device = device_hold(fd);
    struct link *link = device ? link_of(device) : NULL;
    int doorbell = link ? link_doorbell(link) : -1;
    if (link)
        link_done(link);
    if (device)
        device_release(device);
    cancel_again(before);
    return doorbell;
}

/* Copies the files, each binder file as its doorbell, which is only ever readable. False where there is none to be
   had. */
static bool with_doorbells(struct pollfd *to, const struct pollfd *files, nfds_t count)
{
    memcpy(to, files, count * sizeof *files);
    for (nfds_t i = 0; i < count; i++) {
        if (!device_is(files[i].fd))
            continue;
        to[i].fd = doorbell_of(files[i].fd);
        to[i].events &= POLLIN | POLLRDNORM;
        if (to[i].fd < 0)
            return false;
    }
    return true;
}

static bool has_device(const struct pollfd *files, nfds_t count)
{
    for (nfds_t i = 0; i < count; i++)
        if (device_is(files[i].fd))
            return true;
    return false;
}

/* Polls with doorbells, by poll or by ppoll. */
static int poll_files(struct pollfd *files, nfds_t count, const struct timespec *timeout, const sigset_t *mask, int milliseconds,
                      bool is_ppoll)
{
    struct pollfd on_stack[FILES_ON_STACK], *copies = on_stack;
    if (count > FILES_ON_STACK)
        copies = malloc(count * sizeof *copies);
    if (!copies)
        return errno = ENOMEM, -1;
    volatile int result = -1;
    pthread_cleanup_push(free, copies == on_stack ? NULL : copies); /* the wait may be cancelled, as libc's own */
    if (with_doorbells(copies, files, count)) {
        result = is_ppoll ? real()->ppoll(copies, count, timeout, mask) : real()->poll(copies, count, milliseconds);
        for (nfds_t i = 0; i < count && result >= 0; i++)
            files[i].revents = copies[i].revents;
    }
    pthread_cleanup_pop(true);
    return result;
}

__attribute__((visibility("default"))) int poll(struct pollfd *files, nfds_t count, int timeout)
{
    return has_device(files, count) ? poll_files(files, count, NULL, NULL, timeout, false) : real()->poll(files, count, timeout);
}

__attribute__((visibility("default"))) int ppoll(struct pollfd *files, nfds_t count, const struct timespec *timeout,
                                                 const sigset_t *mask)
{
    return has_device(files, count) ? poll_files(files, count, timeout, mask, 0, true) : real()->ppoll(files, count, timeout, mask);
}

/* What programs call that were built with _FORTIFY_SOURCE. */
__attribute__((visibility("default"))) int __poll_chk(struct pollfd *files, nfds_t count, int timeout, size_t size)
{
    if (size / sizeof *files < count)
        abort();
    return poll(files, count, timeout);
}

__attribute__((visibility("default"))) int __ppoll_chk(struct pollfd *files, nfds_t count, const struct timespec *timeout,
                                                       const sigset_t *mask, size_t size)
{
    if (size / sizeof *files < count)
        abort();
    return ppoll(files, count, timeout, mask);
}

/* --- select: by ppoll. --- */

struct set {
    fd_set *files;
    short events, told;
};

static bool select_has_device(int count, const fd_set *reads, const fd_set *writes, const fd_set *errors)
{
    for (int fd = 0; fd < count; fd++)
        if (device_is(fd)
            && ((reads && FD_ISSET(fd, reads)) || (writes && FD_ISSET(fd, writes)) || (errors && FD_ISSET(fd, errors))))
            return true;
    return false;
}

/* What is asked for, as poll has it. */
static nfds_t from_sets(struct pollfd *files, int count, const struct set sets[3])
{
    nfds_t used = 0;
    for (int fd = 0; fd < count; fd++) {
        short events = 0;
        for (int i = 0; i < 3; i++)
            if (sets[i].files && FD_ISSET(fd, sets[i].files))
                events |= sets[i].events;
        if (events)
            files[used++] = (struct pollfd){.fd = fd, .events = events};
    }
    return used;
}

static int to_sets(const struct pollfd *files, nfds_t used, const struct set sets[3])
{
    int told = 0;
    for (nfds_t file = 0; file < used; file++) {
        for (int i = 0; i < 3; i++) {
            if (!sets[i].files || !FD_ISSET(files[file].fd, sets[i].files))
                continue;
            if (files[file].revents & sets[i].told)
                told++;
            else
                FD_CLR(files[file].fd, sets[i].files);
        }
    }
    return told;
}

static int select_files(int count, fd_set *reads, fd_set *writes, fd_set *errors, const struct timespec *timeout,
                        const sigset_t *mask)
{
    struct pollfd files[FD_SETSIZE];
    const struct set sets[3] = {
        {reads, POLLIN, POLLIN | POLLHUP | POLLERR}, {writes, POLLOUT, POLLOUT | POLLERR}, {errors, POLLPRI, POLLPRI}};
    nfds_t used = from_sets(files, count < FD_SETSIZE ? count : FD_SETSIZE, sets);
    int result = ppoll(files, used, timeout, mask);
    for (nfds_t i = 0; i < used && result >= 0; i++)
        if (files[i].revents & POLLNVAL)
            return errno = EBADF, -1;
    return result < 0 ? -1 : to_sets(files, used, sets);
}

__attribute__((visibility("default"))) int pselect(int count, fd_set *reads, fd_set *writes, fd_set *errors,
                                                   const struct timespec *timeout, const sigset_t *mask)
{
    if (!select_has_device(count, reads, writes, errors))
        return real()->pselect(count, reads, writes, errors, timeout, mask);
    return select_files(count, reads, writes, errors, timeout, mask);
}

__attribute__((visibility("default"))) int select(int count, fd_set *reads, fd_set *writes, fd_set *errors, struct timeval *timeout)
{
    if (!select_has_device(count, reads, writes, errors))
        return real()->select(count, reads, writes, errors, timeout);
    struct timespec fine = {0};
    if (timeout)
        fine = (struct timespec){timeout->tv_sec + timeout->tv_usec / 1000000, timeout->tv_usec % 1000000 * 1000};
    return select_files(count, reads, writes, errors, timeout ? &fine : NULL, NULL);
}

/* --- epoll: the doorbell stays in the epoll until it is taken out, or its thread or the device ends. --- */

static int find_epoll(const struct device *device, int epoll)
{
    for (int i = 0; i < EPOLLS_MAX; i++)
        if (device->epolls[i].epoll == epoll)
            return i;
    return -1;
}

void epolls_forget(struct device *device, int doorbell)
{
    for (int i = 0; i < EPOLLS_MAX; i++) {
        if (device->epolls[i].epoll < 0 || (doorbell >= 0 && device->epolls[i].doorbell != doorbell))
            continue;
        real()->epoll_ctl(device->epolls[i].epoll, EPOLL_CTL_DEL, device->epolls[i].doorbell, NULL);
        device->epolls[i].epoll = device->epolls[i].doorbell = -1;
    }
}

/* Lets go of epolls that were closed since, whose numbers may be others' by now: such a one takes the doorbell, while one
   that is as it was has it already. */
static void forget_closed(struct device *device)
{
    for (int i = 0; i < EPOLLS_MAX; i++) {
        int epoll = device->epolls[i].epoll, doorbell = device->epolls[i].doorbell;
        struct epoll_event none = {0};
        if (epoll < 0 || (real()->epoll_ctl(epoll, EPOLL_CTL_ADD, doorbell, &none) && errno == EEXIST))
            continue;
        real()->epoll_ctl(epoll, EPOLL_CTL_DEL, doorbell, NULL);
        device->epolls[i].epoll = device->epolls[i].doorbell = -1;
    }
}

/* Does what epoll_ctl would do with a binder file, with its doorbell in its place. The caller has the devices' lock. */
static int control(struct device *device, int epoll, int operation, int doorbell, const struct epoll_event *event)
{
    struct epoll_event only = event ? *event : (struct epoll_event){0};
    only.events &= ~(uint32_t)EPOLLOUT;
    if (operation == EPOLL_CTL_ADD)
        forget_closed(device);
    int at = find_epoll(device, operation == EPOLL_CTL_ADD ? -1 : epoll);
    if (operation == EPOLL_CTL_ADD && find_epoll(device, epoll) >= 0)
        return errno = EEXIST, -1;
    if (at < 0)
        return errno = operation == EPOLL_CTL_ADD ? ENOSPC : ENOENT, -1;
    if (operation != EPOLL_CTL_ADD)
        doorbell = device->epolls[at].doorbell;
    if (real()->epoll_ctl(epoll, operation, doorbell, &only))
        return -1;
    if (operation != EPOLL_CTL_MOD) {
        device->epolls[at].epoll = operation == EPOLL_CTL_ADD ? epoll : -1;
        device->epolls[at].doorbell = operation == EPOLL_CTL_ADD ? doorbell : -1;
    }
    return 0;
}

__attribute__((visibility("default"))) int epoll_ctl(int epoll, int operation, int fd, struct epoll_event *event)
{
    if (!device_is(fd))
        return real()->epoll_ctl(epoll, operation, fd, event);
    int doorbell = operation == EPOLL_CTL_ADD ? doorbell_of(fd) : -1;
    if (operation == EPOLL_CTL_ADD && doorbell < 0)
        return -1;
    int before = cancel_never(), result = -1;
    struct device *device = device_hold(fd);
    if (device) {
        pthread_mutex_lock(&devices_lock);
        result = control(device, epoll, operation, doorbell, event);
        pthread_mutex_unlock(&devices_lock);
        device_release(device);
    }
    cancel_again(before);
    return result;
}
