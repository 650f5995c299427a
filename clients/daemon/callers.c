/* SPDX-License-Identifier: Apache-2.0 OR MIT */
/*
 * callers.c: whose call it is, and by which pid its receiver knows the caller.
 *
 * As Linux's driver does, the daemon asks at each call for the effective uid that the main thread of the caller's process has then. What
 * it was when the process opened the device, or what a client says of it, counts for nothing. It is the owner of the process's
 * folder in /proc, which is kept open: to ask for that takes a fraction of what reading its `status` does, so that is read only
 * where the uid or the gid is another than before. Without an exec a process can only become whom its real or saved uid names, unless
 * it may become anybody, and so it is with groups. Another one is a program that has more rights than the one that has opened the
 * device, while others may have that one's pages: no call is made in its name.
 */
#include "daemon.h"

#include <errno.h>
#include <fcntl.h>
#include <linux/capability.h>
#include <linux/nsfs.h>
#include <signal.h>
#include <stdlib.h>
#include <string.h>
#include <sys/ioctl.h>
#include <sys/socket.h>
#include <sys/stat.h>
#include <sys/syscall.h>
#include <unistd.h>

#ifndef SO_PEERPIDFD
#define SO_PEERPIDFD 77
#endif

#define ROOT 0u

/* So much of a line is kept, which is more than all pids of 32 namespaces take. */
#define LINE_ROOM 512

/* Users, groups and capabilities. Its pids come before the last, where the kernel tells them. */
#define LINES_NEEDED 3u

/* Whether the process that a pidfd, or a folder in /proc, is of hasn't gone. */
static bool lives(int fd)
{
    return syscall(SYS_pidfd_send_signal, fd, 0, NULL, 0) == 0 || errno == EPERM;
}

/* Its pids from the daemon's namespace down to its own. One that is too deep is known by the daemon's alone. */
static void read_pids(const char *at, struct caller *caller)
{
    uint32_t count = 0;
    for (; *at == '\t' && count < NAMESPACES_MAX; count++) {
        char *end;
        caller->pids[count] = (pid_t)strtol(at, &end, 10);
        at = end;
    }
    caller->depth = count ? count - 1 : 0;
    if (*at == '\t')
        memset(caller->pids + 1, 0, sizeof caller->pids - sizeof *caller->pids);
}

/* The namespaces, from its own up to the first below the daemon's. Those of another user's process may be kept from a daemon that isn't
   root's. */
static void look_at_namespaces(struct caller *caller)
{
    int fd = caller->depth ? openat(caller->folder, "ns/pid", O_RDONLY | O_CLOEXEC) : -1;
    for (uint32_t depth = caller->depth; fd >= 0 && depth > 0; depth--) {
        struct stat stat;
        int parent = ioctl(fd, NS_GET_PARENT);
        caller->spaces[depth] = fstat(fd, &stat) == 0 ? stat.st_ino : 0;
        close(fd);
        fd = parent;
    }
    if (fd >= 0)
        close(fd);
}

pid_t caller_pid_for(const struct caller *caller, const struct caller *other)
{
    uint32_t depth = other->depth;
    bool is_there = !depth || (caller->depth >= depth && other->spaces[depth] && caller->spaces[depth] == other->spaces[depth]);
    return is_there ? caller->pids[depth] : 0;
}

/* A file of lines, and what was read of it. */
struct lines {
    int fd;
    size_t at, size;
    char bytes[4096];
};

/* The next line, of which so much is kept as finds room, since one that names all groups is as long as a client likes. */
static bool next_line(struct lines *lines, char line[LINE_ROOM])
{
    size_t length = 0;
    for (char byte = 0; byte != '\n';) {
        if (lines->at == lines->size) {
            ssize_t size = read(lines->fd, lines->bytes, sizeof lines->bytes);
            if (size <= 0)
                return false;
            lines->at = 0;
            lines->size = (size_t)size;
        }
        byte = lines->bytes[lines->at++];
        if (byte != '\n' && length < LINE_ROOM - 1)
            line[length++] = byte;
    }
    line[length] = 0;
    return true;
}

/* What a line of a process's status tells. Whether it is one of those that have to be there. */
static bool take_line(const char *line, struct caller *now)
{
    struct ids *users = &now->users, *groups = &now->groups;
    unsigned long long capabilities;
    if (!strncmp(line, "NSpid:", strlen("NSpid:"))) {
        read_pids(line + strlen("NSpid:"), now);
    } else if (sscanf(line, "CapPrm: %llx", &capabilities) == 1) {
        now->may_be_anybody = capabilities >> CAP_SETUID & 1;
        now->may_be_of_any_group = capabilities >> CAP_SETGID & 1;
        return true;
    }
    return sscanf(line, "Uid: %u%u%u", &users->real, &users->effective, &users->saved) == 3
           || sscanf(line, "Gid: %u%u%u", &groups->real, &groups->effective, &groups->saved) == 3;
}

static bool read_status(const struct caller *caller, struct caller *now)
{
    struct lines lines = {.fd = openat(caller->folder, "status", O_RDONLY | O_CLOEXEC)};
    char line[LINE_ROOM];
    uint32_t found = 0;
    *now = *caller;
    if (lines.fd < 0)
        return false;
    while (found < LINES_NEEDED && next_line(&lines, line))
        found += take_line(line, now);
    close(lines.fd);
    return found == LINES_NEEDED;
}

/* Whether the folder is of the process that has connected, not of a later one with its number. Kernels before 6.5 don't know; there it
   is if its uid is that of the connection. */
static bool is_of(const struct caller *caller, int socket, uid_t euid)
{
    int fd = -1;
    socklen_t size = sizeof fd;
    if (getsockopt(socket, SOL_SOCKET, SO_PEERPIDFD, &fd, &size))
        return errno == ENOPROTOOPT && caller->users.effective == euid;
    bool is_there = lives(fd);
    close(fd);
    return is_there;
}

/* Whether the numbers in /proc are those of our own namespace: else it may have been mounted for another one. */
static bool has_own_proc(void)
{
    char link[16] = "";
    return readlink("/proc/self", link, sizeof link - 1) > 0 && atoi(link) == getpid();
}

/* Once for all to see, since who isn't let in may come again and again. */
static void tell_unknown(const struct ucred *peer)
{
    static atomic_flag is_told = ATOMIC_FLAG_INIT;
    const char *format = "process %d (euid %u) is sent away: /proc doesn't tell who it is";
    if (!atomic_flag_test_and_set(&is_told))
        log_line(format, peer->pid, peer->uid);
    else
        log_event(format, peer->pid, peer->uid);
}

bool caller_begin(struct caller *caller, int socket, const struct ucred *peer)
{
    char name[32];
    snprintf(name, sizeof name, "/proc/%d", peer->pid);
    caller->folder = peer->pid > 0 && has_own_proc() ? open(name, O_RDONLY | O_DIRECTORY | O_CLOEXEC) : -1;
    if (caller->folder >= 0 && read_status(caller, caller) && is_of(caller, socket, peer->uid)) {
        look_at_namespaces(caller);
        return true;
    }
    tell_unknown(peer);
    caller_end(caller);
    return false;
}

static bool has(const struct ids *ids, uint32_t id)
{
    return id == ids->real || id == ids->effective || id == ids->saved;
}

static bool have(const struct ids *ids, const struct ids *others)
{
    return has(ids, others->real) && has(ids, others->effective) && has(ids, others->saved);
}

/* Whether a process can have come to this by itself. What it may become then is never more than what it could before: else a program
   that has gone back to its caller's uid for a while would be let become again what it is. */
static bool can_become(const struct caller *caller, struct caller *now)
{
    now->may_be_anybody = now->may_be_anybody && caller->may_be_anybody;
    now->may_be_of_any_group = now->may_be_of_any_group && caller->may_be_of_any_group;
    return (caller->may_be_anybody || have(&caller->users, &now->users))
           && (caller->may_be_of_any_group || have(&caller->groups, &now->groups));
}

/* Who was let in while it lived is asked for only once its end was heard: what is heard of the process's end comes before what its
   accomplices ring for later. */
static bool has_ended(const struct caller *caller)
{
    bool may_have = !caller->end || caller->end->fd < 0 || caller->end->was_heard;
    return may_have && !lives(caller->folder);
}

/* It is another user now, or of another group. False where it can't be. */
static __attribute__((noinline)) bool change(struct caller *caller)
{
    struct caller now;
    if (!read_status(caller, &now) || !can_become(caller, &now))
        return false;
    *caller = now;
    return true;
}

/* The folder of a process that has gone is root's. */
bool caller_euid(struct caller *caller, uid_t *euid)
{
    struct stat stat;
    if (fstat(caller->folder, &stat) || (stat.st_uid == ROOT && has_ended(caller)))
        return false;
    if ((stat.st_uid != caller->users.effective || stat.st_gid != caller->groups.effective) && !change(caller))
        return false;
    *euid = caller->users.effective;
    return true;
}

void caller_end(struct caller *caller)
{
    descriptor_close(&caller->folder);
}
