/* SPDX-License-Identifier: Apache-2.0 OR MIT */
/*
 * preload.h: what the files of the preloaded library share.
 *
 * The library stands between a program and libc. An open binder file is a `device`, which has a control socket to the daemon; each
 * thread that uses it has a `link` of its own: a page, a bell, a socket (protocol.h). What the program has for a descriptor is an epoll
 * of nothing: to the kernel that is a file which nobody can read or write, as a binder file is.
 */
#ifndef HULLPIPPIN_PRELOAD_H
#define HULLPIPPIN_PRELOAD_H

#include "../packets.h"
#include "../protocol.h"

#include <errno.h>
#include <fcntl.h>
#include <linux/android/binder.h>
#include <poll.h>
#include <pthread.h>
#include <signal.h>
#include <stdbool.h>
#include <stddef.h>
#include <stdint.h>
#include <stdio.h>
#include <sys/epoll.h>
#include <sys/mman.h>
#include <sys/select.h>
#include <sys/stat.h>
#include <time.h>
#include <unistd.h>

/* --- real.c: the functions that this library stands before. --- */

struct real {
    int (*open)(const char *path, int flags, ...);
    int (*openat)(int folder, const char *path, int flags, ...);
    int (*close)(int fd);
    int (*close_range)(unsigned first, unsigned last, int flags);
    void (*closefrom)(int first);
    int (*dup)(int fd);
    int (*dup2)(int fd, int copy);
    int (*dup3)(int fd, int copy, int flags);
    int (*fcntl)(int fd, int command, ...);
    int (*ioctl)(int fd, unsigned long request, ...);
    void *(*mmap)(void *at, size_t size, int protection, int flags, int fd, off_t offset);
    int (*munmap)(void *at, size_t size);
    int (*mprotect)(void *at, size_t size, int protection);
    void *(*mremap)(void *at, size_t size, size_t new_size, int flags, ...);
    int (*stat)(const char *path, struct stat *to);
    int (*lstat)(const char *path, struct stat *to);
    int (*fstat)(int fd, struct stat *to);
    int (*fstatat)(int folder, const char *path, struct stat *to, int flags);
    int (*statx)(int folder, const char *path, int flags, unsigned mask, struct statx *to);
    int (*access)(const char *path, int mode);
    int (*eaccess)(const char *path, int mode);
    int (*faccessat)(int folder, const char *path, int mode, int flags);
    ssize_t (*readlink)(const char *path, char *to, size_t room);
    ssize_t (*readlinkat)(int folder, const char *path, char *to, size_t room);
    FILE *(*fopen)(const char *path, const char *mode);
    int (*poll)(struct pollfd *files, nfds_t count, int timeout);
    int (*ppoll)(struct pollfd *files, nfds_t count, const struct timespec *timeout, const sigset_t *mask);
    int (*select)(int count, fd_set *reads, fd_set *writes, fd_set *errors, struct timeval *timeout);
    int (*pselect)(int count, fd_set *reads, fd_set *writes, fd_set *errors, const struct timespec *timeout, const sigset_t *mask);
    int (*epoll_ctl)(int epoll, int operation, int fd, struct epoll_event *event);
};

/* They are looked up at the first call, which may come before this library's constructor. */
const struct real *real(void);

/* What the kernel does in one call is never cancelled half-way, and so nothing that stands for it here is: a lock would stay taken,
   a descriptor open. What is asked for meanwhile comes at the program's next cancellation point. */
int cancel_never(void);
void cancel_again(int before);

/* A line on standard error, where HULLPIPPIN_LOG is set, and isn't 0. */
void say(const char *format, ...) __attribute__((format(printf, 1, 2)));
/* A line on standard error, unless HULLPIPPIN_LOG is 0. */
void complain(const char *format, ...) __attribute__((format(printf, 1, 2)));

/* --- memory.c: whether the program's pointers lead anywhere. errno stays as it is. --- */

bool memory_can_be_read(const void *at, uint64_t size);
bool memory_can_be_written(const void *at, uint64_t size);
/* The program has unmapped or protected something. */
void memory_changed(void);

/* --- arrays.c: descriptors of FDA objects. --- */

/* They are kept by the page of the window that their buffer begins on: no list is longer than what a page has room for. */
struct arrays {
    pthread_mutex_t lock;
    _Atomic uint32_t count; /* of all lists; mostly there is nothing to be looked for */
    struct array *on_page[WINDOW_MAX / 4096];
};

struct device;

/* Keeps those of a parcel's descriptors that are of FDA objects, by what the page says. False where there is no memory. */
bool arrays_keep(struct device *device, const struct page *page, const int *fds, uint32_t count);
/* A buffer is given back: what came with it goes in front of a list. */
void arrays_take(struct device *device, uint64_t buffer, struct array **taken);
/* Closes what is on the list. errno stays as it is. */
void arrays_close(struct array *taken);
/* Closes all descriptors that are still kept, as the device is closed. */
void arrays_end(struct device *device);

/* --- device.c: open binder files. --- */

#define EPOLLS_MAX 8

struct device {
    uint32_t references; /* how many descriptors, links and windows it is in use by */
    uint32_t descriptors;
    int control; /* the socket, whose end is the process's */
    char name[DEVICE_NAME_ROOM];
    uint8_t *window, *window_end; /* what is still mapped; both NULL: nothing is */
    struct device *next_mapped;
    _Atomic bool is_closed; /* there is neither a descriptor nor a window any more */
    _Atomic bool is_nonblocking;
    pthread_mutex_t control_lock; /* a request over the control socket is made by one thread at a time */
    struct arrays arrays;
    struct link *links;
    struct {
        int epoll, doorbell; /* an epoll, and the doorbell that stands in it for the device; -1: none */
    } epolls[EPOLLS_MAX];
};

/* A descriptor, or -1 and errno. */
int device_open(const char *name, int flags);
/* Whether the daemon has a device of that name: 0, or an errno. */
int device_look(const char *name);
/* Whether a descriptor is an open binder file. */
bool device_is(int fd);
/* The device of a descriptor with a reference to it, or NULL and errno. */
struct device *device_hold(int fd);
void device_release(struct device *device);
/* The descriptor is closed, or about to be. */
void device_forget(int fd);
/* A copy of a descriptor was made. */
void device_copied(int fd, int copy);
/* One request over the control socket and its answer: 0, or an errno. */
int device_ask(struct device *device, struct control_request *request, struct control_answer *answer, int *fds, uint32_t room);
void *device_map(int fd, void *at, size_t size, int protection, int flags);
int device_ioctl(int fd, unsigned long request, void *argument);
/* Whether there is a window, and what to tell where something was unmapped that may have been one. */
bool devices_are_mapped(void);
void device_unmapped(const void *at, size_t size);
/* The lock of all devices' references, links and epolls. */
extern pthread_mutex_t devices_lock;
/* Child of a fork: no device is usable, and nothing of the parent's stays open. */
void devices_forked(void);
/* Sees whether this is the child of a fork that hasn't told so, as by _Fork or the bare system call: then it is told now. */
void devices_notice_fork(void);

/* --- link.c: a thread's way to the daemon. --- */

struct link {
    struct device *device;
    struct link *next_of_thread, *next_of_device;
    struct page *page;
    int socket, bell;
    int doorbell; /* our end of the thread's doorbell; -1: none was asked for yet */
    uint64_t used_area, kept_area; /* bytes of the page's area that hold the parcel of a request; memory that large ones have left */
    time_t kept_since;
    bool is_first; /* of those that its thread has to the device */
    volatile sig_atomic_t is_busy; /* something is asked by it: a handler that interrupts that goes by another one */
    _Atomic bool is_to_return; /* its next read comes back at once */
    bool is_refused; /* what was refused of the thread is still to be read: until then nothing that it writes is run */
};

/* The calling thread's link to a device, or NULL and errno. It is in use until it is done with. */
struct link *link_of(struct device *device);
void link_done(struct link *link);
/* Puts a request to the daemon, and waits for its answer: 0 or an errno. */
int link_ask(struct link *link, const struct page_request *request, struct page_answer *answer);
/* A request uses so much of the page's area, until it is answered; what large parcels have left there is given back after a second
   without one. */
void link_use_area(struct link *link, uint64_t size);
void link_keep_area(struct link *link, uint64_t size);
/* Gives buffers back without waiting; false where so many can't be now. */
bool link_free_buffers(struct link *link, const uint64_t *buffers, uint32_t count);
/* The descriptors that an answer has told of: 0 or an errno. */
int link_receive(struct link *link, int *fds, uint32_t room, uint32_t *count);
/* The descriptor that is readable while a read would find something, or -1 and errno. */
int link_doorbell(struct link *link);
/* Has a thread's read come back, or else its next one. With the devices' lock. */
void link_return(struct link *link);
/* Child of a fork: closes a link that was the parent's. */
void link_forked(struct link *link);
/* Child of a fork: closes all links that this thread has, which were the parent's. */
void links_forked(void);

/* --- write_read.c, parcels.c --- */

int write_read(struct link *link, struct binder_write_read *what);

/* What was put into a page. */
struct packing {
    struct device *device;
    struct page *page;
    uint32_t stream_size;
    bool is_over; /* its last command is cut short: what follows is none */
    bool is_lost; /* the program's memory ends before the next command does */
    uint64_t area_size;
    uint32_t fd_count;
    int fds[DESCRIPTORS_MAX];
    struct array *taken; /* what came with buffers that the stream gives back */
};

/* Puts the parcel of a transaction or reply into the page, whose record lies in the page's stream. False where there
   is no room left beside what is there already. */
bool parcel_pack(struct packing *packing, struct binder_transaction_data_sg *record, bool is_first);

/* --- paths.c --- */

/* Whether a path names what the daemon may have, and by which name. */
bool path_is_device(int folder, const char *path, char name[DEVICE_NAME_ROOM]);

/* --- poll.c --- */

/* Takes the doorbell out of the epolls that it is in. */
void epolls_forget(struct device *device, int doorbell);

#endif
