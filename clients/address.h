/* SPDX-License-Identifier: Apache-2.0 OR MIT */
/* address.h: where the daemon listens, and where the library looks for it. */
#ifndef HULLPIPPIN_ADDRESS_H
#define HULLPIPPIN_ADDRESS_H

#include <errno.h>
#include <stdbool.h>
#include <stdio.h>
#include <stdlib.h>
#include <string.h>
#include <sys/socket.h>
#include <sys/stat.h>
#include <sys/time.h>
#include <sys/un.h>
#include <unistd.h>

/* Where a daemon is for all users, if its unit has started it (share/systemd). */
#define SYSTEM_ADDRESS "/run/hullpippin/socket"

/* Addresses that nobody has chosen, in the order in which they are looked at. Of the user's own a daemon takes the first that it can. */
enum { ADDRESS_OF_RUNTIME, ADDRESS_OF_SYSTEM, ADDRESS_OF_TMP, ADDRESSES };

/* What HULLPIPPIN_SOCKET says, or NULL; an empty one says nothing. */
static inline const char *chosen_address(void)
{
    const char *path = getenv("HULLPIPPIN_SOCKET");
    return path && *path ? path : NULL;
}

/* The user's own folder for sockets, or NULL. One that another user could change, as after `su`, isn't the user's own. */
static inline const char *runtime_folder(void)
{
    const char *folder = getenv("XDG_RUNTIME_DIR");
    struct stat stat;
    bool is_own = folder && *folder == '/' && lstat(folder, &stat) == 0 && S_ISDIR(stat.st_mode) && stat.st_uid == geteuid()
                  && !(stat.st_mode & (S_IWGRP | S_IWOTH));
    return is_own ? folder : NULL;
}

/* False where the path is too long, or there is none of this kind. */
static inline bool address_of(int which, struct sockaddr_un *address)
{
    const char *folder = which == ADDRESS_OF_RUNTIME ? runtime_folder() : NULL;
    int size = 0;
    *address = (struct sockaddr_un){.sun_family = AF_UNIX};
    if (which == ADDRESS_OF_RUNTIME && folder)
        size = snprintf(address->sun_path, sizeof address->sun_path, "%s/hullpippin/socket", folder);
    else if (which == ADDRESS_OF_TMP)
        size = snprintf(address->sun_path, sizeof address->sun_path, "/tmp/hullpippin-%u/socket", geteuid());
    else if (which == ADDRESS_OF_SYSTEM)
        size = snprintf(address->sun_path, sizeof address->sun_path, SYSTEM_ADDRESS);
    return size > 0 && (size_t)size < sizeof address->sun_path;
}

/* A path that was chosen; false where it is too long. */
static inline bool address_at(const char *path, struct sockaddr_un *address)
{
    *address = (struct sockaddr_un){.sun_family = AF_UNIX};
    return snprintf(address->sun_path, sizeof address->sun_path, "%s", path) < (int)sizeof address->sun_path;
}

static inline bool is_own_or_roots(uid_t uid)
{
    return uid == geteuid() || uid == 0;
}

/* Why an address that nobody has chosen isn't connected to, or 0: who else could put a socket there, or a link to another, would have
   this program wait, or talk to whatever listens for other things. Where folder and socket are the user's own or root's, and others
   may not write to the folder, nobody else can change what was seen. */
static inline int why_not_connected_to(const struct sockaddr_un *address)
{
    char folder[sizeof address->sun_path];
    struct stat stat;
    snprintf(folder, sizeof folder, "%s", address->sun_path);
    *strrchr(folder, '/') = 0;
    if (lstat(folder, &stat))
        return errno;
    if (!S_ISDIR(stat.st_mode) || !is_own_or_roots(stat.st_uid) || stat.st_mode & (S_IWGRP | S_IWOTH))
        return EPERM;
    if (lstat(address->sun_path, &stat))
        return errno;
    return S_ISSOCK(stat.st_mode) && is_own_or_roots(stat.st_uid) ? 0 : EPERM;
}

/* A daemon at an address that nobody has chosen is the user's own, or root's. */
static inline bool is_of_own_or_root(int fd)
{
    struct ucred peer;
    socklen_t size = sizeof peer;
    return getsockopt(fd, SOL_SOCKET, SO_PEERCRED, &peer, &size) == 0 && is_own_or_roots(peer.uid);
}

/* So many seconds a connection is waited for, whoever has to take it. */
#define CONNECTING_PATIENCE 5

/* So many seconds who only asks has patience for each packet as well: whoever listens there may be no daemon. */
#define ASKING_PATIENCE 5

/* A connection takes as long as a packet that is sent, so both are bounded before there is one. With 0 none is. */
static inline bool bound_waits(int fd, time_t seconds)
{
    const struct timeval patience = {.tv_sec = seconds};
    return setsockopt(fd, SOL_SOCKET, SO_SNDTIMEO, &patience, sizeof patience) == 0
           && setsockopt(fd, SOL_SOCKET, SO_RCVTIMEO, &patience, sizeof patience) == 0;
}

/* Connects a socket to one address: 0 or an errno. */
static inline int address_connect(int fd, const struct sockaddr_un *address, bool is_chosen)
{
    if (connect(fd, (const struct sockaddr *)address, sizeof *address))
        return errno == EAGAIN ? ETIMEDOUT : errno;
    return is_chosen || is_of_own_or_root(fd) ? 0 : EPERM;
}

/* A connection to one address: its descriptor, or -1 and errno. */
static inline int address_dial(const struct sockaddr_un *address, bool is_chosen, time_t patience)
{
    int why = is_chosen ? 0 : why_not_connected_to(address);
    int fd = why ? -1 : socket(AF_UNIX, SOCK_SEQPACKET | SOCK_CLOEXEC, 0);
    if (!why)
        why = fd < 0 || !bound_waits(fd, patience ? patience : CONNECTING_PATIENCE) ? errno : address_connect(fd, address, is_chosen);
    if (!why && !patience && !bound_waits(fd, 0))
        why = errno;
    if (!why)
        return fd;
    if (fd >= 0)
        close(fd);
    return errno = why, -1;
}

/* A connection to the daemon at a path, else at the chosen one, else at one of the user's or the system's; -1 and errno where there is
   none. The address is that of the daemon, or the first at which there is none. So many seconds each packet takes at most; with 0 it is
   as long as the daemon likes. */
static inline int daemon_dial(const char *path, time_t patience, struct sockaddr_un *address)
{
    const char *chosen = path ? path : chosen_address();
    int error = ENAMETOOLONG;
    for (int which = 0; which < (chosen ? 1 : ADDRESSES); which++) {
        struct sockaddr_un one;
        if (!(chosen ? address_at(chosen, &one) : address_of(which, &one)))
            continue;
        int fd = address_dial(&one, chosen, patience), why = errno;
        if (fd >= 0 || error == ENAMETOOLONG)
            *address = one;
        if (fd >= 0)
            return fd;
        error = error == ENAMETOOLONG || error == ENOENT ? why : error;
    }
    return errno = error, -1;
}

#endif
