/* SPDX-License-Identifier: Apache-2.0 OR MIT */
/*
 * names.c: how a client's thread is called, for who looks at it. The thread tells its tid, and the kernel whether its process has such
 * a one, and what its name is; nothing else depends on it.
 */
#include "daemon.h"

#include <fcntl.h>
#include <limits.h>
#include <string.h>
#include <unistd.h>

/* The kernel's line, with the end of it. */
static bool read_comm(const struct caller *caller, const char *path, char comm[COMM_ROOM])
{
    int fd = openat(caller->folder, path, O_RDONLY | O_CLOEXEC);
    ssize_t size = fd >= 0 ? read(fd, comm, COMM_ROOM) : -1;
    if (fd >= 0)
        close(fd);
    if (size <= 0)
        return false;
    comm[size - 1] = 0;
    return true;
}

/* A process in a pid namespace below the daemon's tells of its own numbers, of which that of its main thread is known. */
static uint64_t tid_here(const struct caller *caller, uint64_t told)
{
    if (!caller->depth)
        return told;
    return told == (uint64_t)caller->pids[caller->depth] ? (uint64_t)caller->pids[0] : 0;
}

void name_find(struct name *name, const struct caller *caller, uint64_t told)
{
    char path[32];
    uint64_t tid = tid_here(caller, told);
    *name = (struct name){0};
    snprintf(path, sizeof path, "task/%u/comm", (unsigned)tid);
    if (tid && tid <= INT_MAX && read_comm(caller, path, name->comm))
        name->tid = (pid_t)tid;
    else if (!read_comm(caller, "comm", name->comm))
        name->comm[0] = 0;
}

size_t name_escape(const char *name, char *text)
{
    size_t size = 0;
    for (; *name; name++) {
        if (*name < ' ' || *name > '~' || *name == '\\')
            size += (size_t)sprintf(text + size, "\\x%02x", (unsigned char)*name);
        else
            text[size++] = *name;
    }
    return size;
}
