/* SPDX-License-Identifier: Apache-2.0 OR MIT */
/*
 * paths.c: what programs call with a binder file's path, or to know what a file is. A path is made plain first: `//dev/./binder` is
 * /dev/binder, and so is `binder` where the folder is /dev. Links on the way aren't followed.
 */
#include "preload.h"

#include <limits.h>
#include <stdarg.h>
#include <stdlib.h>
#include <string.h>
#include <sys/sysmacros.h>

#define EXPORT __attribute__((visibility("default")))

/* The major number of the kernel's binder devices, where they aren't of a binderfs. */
#define MISC_MAJOR 10

/* Where a path that begins with no / begins; false where that can't be told. */
static bool begin_path(int folder, char plain[PATH_MAX])
{
    char link[32];
    if (folder == AT_FDCWD)
        return getcwd(plain, PATH_MAX) != NULL;
    snprintf(link, sizeof link, "/proc/self/fd/%d", folder);
    ssize_t size = real()->readlink(link, plain, PATH_MAX - 1);
    plain[size < 0 ? 0 : size] = 0;
    return size > 0;
}

/* Goes one word further. False where that is too long. */
static bool step(char plain[PATH_MAX], const char *word, size_t size)
{
    size_t length = strlen(plain);
    char *slash = strrchr(plain, '/');
    if (size == 0 || (size == 1 && word[0] == '.'))
        return true;
    if (size == 2 && word[0] == '.' && word[1] == '.') {
        if (slash)
            *slash = 0;
        return true;
    }
    if (length + 1 + size >= PATH_MAX)
        return false;
    plain[length] = '/';
    memcpy(plain + length + 1, word, size);
    plain[length + 1 + size] = 0;
    return true;
}

bool path_is_device(int folder, const char *path, char name[DEVICE_NAME_ROOM])
{
    char plain[PATH_MAX] = "";
    const char *last = path ? strrchr(path, '/') : NULL;
    if (!path || !strstr(last ? last : path, "binder") || (*path != '/' && !begin_path(folder, plain)))
        return false;
    for (const char *word = path; *word;) {
        size_t size = strcspn(word, "/");
        if (!step(plain, word, size))
            return false;
        word += size + (word[size] == '/');
    }
    return !strncmp(plain, "/dev/", 5) && snprintf(name, DEVICE_NAME_ROOM, "%s", plain) < DEVICE_NAME_ROOM;
}

/* --- To open. --- */

/* A mode is given with these flags only. */
static mode_t mode_of(int flags, va_list rest)
{
    return flags & O_CREAT || (flags & O_TMPFILE) == O_TMPFILE ? (mode_t)va_arg(rest, int) : 0;
}

static int open_device(const char *name, int flags)
{
    int before = cancel_never(), fd = device_open(name, flags);
    cancel_again(before);
    return fd;
}

EXPORT int open(const char *path, int flags, ...)
{
    char name[DEVICE_NAME_ROOM];
    va_list rest;
    va_start(rest, flags);
    mode_t mode = mode_of(flags, rest);
    va_end(rest);
    return path_is_device(AT_FDCWD, path, name) ? open_device(name, flags) : real()->open(path, flags, mode);
}

EXPORT int openat(int folder, const char *path, int flags, ...)
{
    char name[DEVICE_NAME_ROOM];
    va_list rest;
    va_start(rest, flags);
    mode_t mode = mode_of(flags, rest);
    va_end(rest);
    return path_is_device(folder, path, name) ? open_device(name, flags) : real()->openat(folder, path, flags, mode);
}

/* The names of these where files may be large, which all are on a machine of 64 bits. */
EXPORT int open64(const char *path, int flags, ...) __attribute__((alias("open")));
EXPORT int openat64(int folder, const char *path, int flags, ...) __attribute__((alias("openat")));

/* What programs call that were built with _FORTIFY_SOURCE, where no mode is given. */
EXPORT int __open_2(const char *path, int flags)
{
    return open(path, flags);
}

EXPORT int __openat_2(int folder, const char *path, int flags)
{
    return openat(folder, path, flags);
}

EXPORT int __open64_2(const char *path, int flags) __attribute__((alias("__open_2")));
EXPORT int __openat64_2(int folder, const char *path, int flags) __attribute__((alias("__openat_2")));

EXPORT int creat(const char *path, mode_t mode)
{
    return open(path, O_CREAT | O_WRONLY | O_TRUNC, mode);
}

EXPORT int creat64(const char *path, mode_t mode) __attribute__((alias("creat")));

/* Nothing can be read or written by such a stream, but its descriptor is the device's. */
EXPORT FILE *fopen(const char *path, const char *mode)
{
    char name[DEVICE_NAME_ROOM];
    if (!path_is_device(AT_FDCWD, path, name))
        return real()->fopen(path, mode);
    int fd = open_device(name, strchr(mode, 'x') ? O_CREAT | O_EXCL : O_RDWR);
    FILE *stream = fd < 0 ? NULL : fdopen(fd, mode);
    if (fd >= 0 && !stream)
        close(fd);
    return stream;
}

EXPORT FILE *fopen64(const char *path, const char *mode) __attribute__((alias("fopen")));

/* --- To know what it is. --- */

/* Whether there is a device of this name; errno where there is none. */
static bool is_there(const char *name)
{
    int before = cancel_never(), error = device_look(name);
    cancel_again(before);
    if (error)
        errno = error;
    return !error;
}

/* A number for a name, which stays the same. */
static ino_t number_of(const char *name)
{
    ino_t number = 5381;
    for (; *name; name++)
        number = (number * 33 + (uint8_t)*name) & 0xfffffff;
    return number;
}

static void describe(const char *name, struct stat *to)
{
    *to = (struct stat){.st_mode = S_IFCHR | 0666, .st_nlink = 1, .st_blksize = 4096, .st_ino = number_of(name),
                        .st_rdev = makedev(MISC_MAJOR, number_of(name) & 0xff)};
}

static int stat_path(const char *name, struct stat *to)
{
    if (!is_there(name))
        return -1;
    describe(name, to);
    return 0;
}

static int stat_file(int fd, struct stat *to)
{
    struct device *device = device_hold(fd);
    if (!device)
        return real()->fstat(fd, to); /* of a parent's, what stands there in its place */
    describe(device->name, to);
    device_release(device);
    return 0;
}

EXPORT int stat(const char *path, struct stat *to)
{
    char name[DEVICE_NAME_ROOM];
    return path_is_device(AT_FDCWD, path, name) ? stat_path(name, to) : real()->stat(path, to);
}

EXPORT int lstat(const char *path, struct stat *to)
{
    char name[DEVICE_NAME_ROOM];
    return path_is_device(AT_FDCWD, path, name) ? stat_path(name, to) : real()->lstat(path, to);
}

EXPORT int fstat(int fd, struct stat *to)
{
    return device_is(fd) ? stat_file(fd, to) : real()->fstat(fd, to);
}

/* Whether the file itself is asked for, by no path. */
static bool is_of_file(int folder, const char *path, int flags)
{
    return flags & AT_EMPTY_PATH && path && !*path && device_is(folder);
}

EXPORT int fstatat(int folder, const char *path, struct stat *to, int flags)
{
    char name[DEVICE_NAME_ROOM];
    if (is_of_file(folder, path, flags))
        return stat_file(folder, to);
    return path_is_device(folder, path, name) ? stat_path(name, to) : real()->fstatat(folder, path, to, flags);
}

/* On a machine of 64 bits these have the same fields. */
EXPORT int stat64(const char *path, struct stat64 *to)
{
    return stat(path, (struct stat *)to);
}

EXPORT int lstat64(const char *path, struct stat64 *to)
{
    return lstat(path, (struct stat *)to);
}

EXPORT int fstat64(int fd, struct stat64 *to)
{
    return fstat(fd, (struct stat *)to);
}

EXPORT int fstatat64(int folder, const char *path, struct stat64 *to, int flags)
{
    return fstatat(folder, path, (struct stat *)to, flags);
}

/* What programs call that were built with a libc before 2.33. */
EXPORT int __xstat(int version, const char *path, struct stat *to)
{
    (void)version;
    return stat(path, to);
}

EXPORT int __lxstat(int version, const char *path, struct stat *to)
{
    (void)version;
    return lstat(path, to);
}

EXPORT int __fxstat(int version, int fd, struct stat *to)
{
    (void)version;
    return fstat(fd, to);
}

EXPORT int __fxstatat(int version, int folder, const char *path, struct stat *to, int flags)
{
    (void)version;
    return fstatat(folder, path, to, flags);
}

EXPORT int __xstat64(int version, const char *path, struct stat *to) __attribute__((alias("__xstat")));
EXPORT int __lxstat64(int version, const char *path, struct stat *to) __attribute__((alias("__lxstat")));
EXPORT int __fxstat64(int version, int fd, struct stat *to) __attribute__((alias("__fxstat")));
EXPORT int __fxstatat64(int version, int folder, const char *path, struct stat *to, int flags) __attribute__((alias("__fxstatat")));

EXPORT int statx(int folder, const char *path, int flags, unsigned mask, struct statx *to)
{
    struct stat stat;
    char name[DEVICE_NAME_ROOM];
    bool is_file = is_of_file(folder, path, flags);
    if (!is_file && !path_is_device(folder, path, name))
        return real()->statx(folder, path, flags, mask, to);
    if (is_file ? stat_file(folder, &stat) : stat_path(name, &stat))
        return -1;
    *to = (struct statx){.stx_mask = STATX_BASIC_STATS, .stx_mode = (uint16_t)stat.st_mode, .stx_nlink = 1, .stx_blksize = 4096,
                         .stx_ino = stat.st_ino, .stx_rdev_major = major(stat.st_rdev), .stx_rdev_minor = minor(stat.st_rdev)};
    return 0;
}

/* Everybody may read and write the device, and nobody run it. */
static int may(const char *name, int mode)
{
    if (!is_there(name))
        return -1;
    return mode & X_OK ? (errno = EACCES, -1) : 0;
}

EXPORT int access(const char *path, int mode)
{
    char name[DEVICE_NAME_ROOM];
    return path_is_device(AT_FDCWD, path, name) ? may(name, mode) : real()->access(path, mode);
}

EXPORT int eaccess(const char *path, int mode)
{
    char name[DEVICE_NAME_ROOM];
    return path_is_device(AT_FDCWD, path, name) ? may(name, mode) : real()->eaccess(path, mode);
}

EXPORT int euidaccess(const char *path, int mode) __attribute__((alias("eaccess")));

EXPORT int faccessat(int folder, const char *path, int mode, int flags)
{
    char name[DEVICE_NAME_ROOM];
    return path_is_device(folder, path, name) ? may(name, mode) : real()->faccessat(folder, path, mode, flags);
}

/* What readlink answers for a device's name: that it is no link, if it is there at all. */
static ssize_t read_no_link(const char *name)
{
    if (is_there(name))
        errno = EINVAL;
    return -1;
}

EXPORT ssize_t readlink(const char *path, char *to, size_t room)
{
    char name[DEVICE_NAME_ROOM];
    return path_is_device(AT_FDCWD, path, name) ? read_no_link(name) : real()->readlink(path, to, room);
}

EXPORT ssize_t readlinkat(int folder, const char *path, char *to, size_t room)
{
    char name[DEVICE_NAME_ROOM];
    return path_is_device(folder, path, name) ? read_no_link(name) : real()->readlinkat(folder, path, to, room);
}

EXPORT ssize_t __readlink_chk(const char *path, char *to, size_t room, size_t size)
{
    if (size < room)
        abort();
    return readlink(path, to, room);
}

EXPORT ssize_t __readlinkat_chk(int folder, const char *path, char *to, size_t room, size_t size)
{
    if (size < room)
        abort();
    return readlinkat(folder, path, to, room);
}
