/* SPDX-License-Identifier: Apache-2.0 OR MIT */
/* real.c: the functions that this library stands before, and what it tells. */
#include "preload.h"

#include <dlfcn.h>
#include <stdarg.h>
#include <stdio.h>
#include <stdlib.h>
#include <string.h>

static struct real functions;
static pthread_once_t once = PTHREAD_ONCE_INIT;

/* A function's pointer, of which ISO C makes no data pointer. */
static void look_up(void *function, const char *name)
{
    void *found = dlsym(RTLD_NEXT, name);
    if (!found) {
        complain("libc has no %s", name);
        abort();
    }
    memcpy(function, &found, sizeof found);
}

static void look_up_all(void)
{
    look_up(&functions.open, "open");
    look_up(&functions.openat, "openat");
    look_up(&functions.close, "close");
    look_up(&functions.close_range, "close_range");
    look_up(&functions.closefrom, "closefrom");
    look_up(&functions.dup, "dup");
    look_up(&functions.dup2, "dup2");
    look_up(&functions.dup3, "dup3");
    look_up(&functions.fcntl, "fcntl");
    look_up(&functions.ioctl, "ioctl");
    look_up(&functions.mmap, "mmap");
    look_up(&functions.munmap, "munmap");
    look_up(&functions.mprotect, "mprotect");
    look_up(&functions.mremap, "mremap");
    look_up(&functions.stat, "stat");
    look_up(&functions.lstat, "lstat");
    look_up(&functions.fstat, "fstat");
    look_up(&functions.fstatat, "fstatat");
    look_up(&functions.statx, "statx");
    look_up(&functions.access, "access");
    look_up(&functions.eaccess, "eaccess");
    look_up(&functions.faccessat, "faccessat");
    look_up(&functions.readlink, "readlink");
    look_up(&functions.readlinkat, "readlinkat");
    look_up(&functions.fopen, "fopen");
    look_up(&functions.poll, "poll");
    look_up(&functions.ppoll, "ppoll");
    look_up(&functions.select, "select");
    look_up(&functions.pselect, "pselect");
    look_up(&functions.epoll_ctl, "epoll_ctl");
}

int cancel_never(void)
{
    int before;
    pthread_setcancelstate(PTHREAD_CANCEL_DISABLE, &before);
    return before;
}

void cancel_again(int before)
{
    pthread_setcancelstate(before, &before);
}

const struct real *real(void)
{
    pthread_once(&once, look_up_all);
    return &functions;
}

static void write_line(const char *format, va_list rest)
{
    char line[512];
    int error = errno, size = snprintf(line, sizeof line, "hullpippin[%d]: ", getpid());
    size += vsnprintf(line + size, sizeof line - (size_t)size, format, rest);
    if (size > (int)sizeof line - 2)
        size = sizeof line - 2;
    line[size++] = '\n';
    if (write(STDERR_FILENO, line, (size_t)size) < 0)
        error = errno;
    errno = error;
}

/* What HULLPIPPIN_LOG says: nothing is told, only what goes wrong, or all. */
enum wish { NOTHING, COMPLAINTS, ALL };

static enum wish wish(void)
{
    const char *word = getenv("HULLPIPPIN_LOG");
    return !word || !*word ? COMPLAINTS : strcmp(word, "0") ? ALL : NOTHING;
}

void say(const char *format, ...)
{
    va_list rest;
    if (wish() < ALL)
        return;
    va_start(rest, format);
    write_line(format, rest);
    va_end(rest);
}

void complain(const char *format, ...)
{
    va_list rest;
    if (wish() < COMPLAINTS)
        return;
    va_start(rest, format);
    write_line(format, rest);
    va_end(rest);
}
