/* SPDX-License-Identifier: Apache-2.0 OR MIT */
/* wrappers.c: what programs call: the functions of libc that may get a binder file's descriptor. */
#include "preload.h"

#include <limits.h>
#include <stdarg.h>

#define EXPORT __attribute__((visibility("default")))

EXPORT int close(int fd)
{
    if (!device_is(fd))
        return real()->close(fd);
    int before = cancel_never();
    device_forget(fd);
    int result = real()->close(fd);
    cancel_again(before);
    return result;
}

static void forget_all(unsigned first, unsigned last)
{
    int before = cancel_never();
    for (unsigned fd = first; fd <= last && fd < 65536; fd++)
        if (device_is((int)fd))
            device_forget((int)fd);
    cancel_again(before);
}

EXPORT int close_range(unsigned first, unsigned last, int flags)
{
    if (!(flags & CLOSE_RANGE_CLOEXEC))
        forget_all(first, last);
    return real()->close_range(first, last, flags);
}

/* libc's own goes past our close_range. */
EXPORT void closefrom(int first)
{
    forget_all(first < 0 ? 0 : (unsigned)first, UINT_MAX);
    real()->closefrom(first);
}

EXPORT int dup(int fd)
{
    int copy = real()->dup(fd);
    if (device_is(fd))
        device_copied(fd, copy);
    return copy;
}

/* What the copy's number stood for is closed. */
static int copied_to(int fd, int copy, int result)
{
    if (result < 0 || fd == copy)
        return result;
    int before = cancel_never();
    if (device_is(copy))
        device_forget(copy);
    if (device_is(fd))
        device_copied(fd, copy);
    cancel_again(before);
    return result;
}

EXPORT int dup2(int fd, int copy)
{
    return copied_to(fd, copy, real()->dup2(fd, copy));
}

EXPORT int dup3(int fd, int copy, int flags)
{
    return copied_to(fd, copy, real()->dup3(fd, copy, flags));
}

/* O_NONBLOCK is kept here: the descriptor itself is a socket, on which the library waits. */
static int device_fcntl(int fd, int command, long argument)
{
    struct device *device = device_hold(fd);
    int result = 0;
    if (!device)
        return -1;
    if (command == F_SETFL)
        device->is_nonblocking = argument & O_NONBLOCK;
    else if (command == F_GETFL)
        result = O_RDWR | (device->is_nonblocking ? O_NONBLOCK : 0);
    else
        result = real()->fcntl(fd, command, argument);
    device_release(device);
    if (command == F_DUPFD || command == F_DUPFD_CLOEXEC)
        device_copied(fd, result);
    return result;
}

/* Each command has at most one argument, of a word: where it has none, what is passed on isn't looked at. */
EXPORT int fcntl(int fd, int command, ...)
{
    va_list rest;
    va_start(rest, command);
    long argument = va_arg(rest, long);
    va_end(rest);
    if (!device_is(fd))
        return real()->fcntl(fd, command, argument);
    int before = cancel_never(), result = device_fcntl(fd, command, argument);
    cancel_again(before);
    return result;
}

EXPORT int fcntl64(int fd, int command, ...) __attribute__((alias("fcntl")));

EXPORT int ioctl(int fd, unsigned long request, ...)
{
    va_list rest;
    va_start(rest, request);
    void *argument = va_arg(rest, void *);
    va_end(rest);
    if (!device_is(fd))
        return real()->ioctl(fd, request, argument);
    int before = cancel_never(), result = device_ioctl(fd, request, argument);
    cancel_again(before);
    return result;
}

/* What is mapped there may be a window, or a part of one. */
static void unmapped(void *at, size_t size)
{
    memory_changed();
    if (devices_are_mapped())
        device_unmapped(at, size);
}

EXPORT int munmap(void *at, size_t size)
{
    int before = cancel_never(), result = real()->munmap(at, size);
    if (!result)
        unmapped(at, size);
    cancel_again(before);
    return result;
}

EXPORT int mprotect(void *at, size_t size, int protection)
{
    int result = real()->mprotect(at, size, protection);
    memory_changed();
    return result;
}

/* A window isn't moved: no program does that, and what is left of one that is would count as mapped. */
EXPORT void *mremap(void *at, size_t size, size_t new_size, int flags, ...)
{
    va_list rest;
    va_start(rest, flags);
    void *to = flags & MREMAP_FIXED ? va_arg(rest, void *) : NULL;
    va_end(rest);
    void *result = real()->mremap(at, size, new_size, flags, to);
    memory_changed();
    return result;
}

EXPORT void *mmap(void *at, size_t size, int protection, int flags, int fd, off_t offset)
{
    int before = cancel_never();
    bool is_device = device_is(fd) && !(flags & MAP_ANONYMOUS);
    if (flags & MAP_FIXED)
        unmapped(at, size);
    void *memory = is_device ? device_map(fd, at, size, protection, flags) : real()->mmap(at, size, protection, flags, fd, offset);
    cancel_again(before);
    return memory;
}

EXPORT void *mmap64(void *at, size_t size, int protection, int flags, int fd, off_t offset) __attribute__((alias("mmap")));
