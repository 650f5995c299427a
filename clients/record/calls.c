/* SPDX-License-Identifier: Apache-2.0 OR MIT */
/* calls.c: the functions of libc that this library stands before. */
#include "record.h"

#include <dlfcn.h>
#include <errno.h>
#include <fcntl.h>
#include <linux/android/binder.h>
#include <stdarg.h>
#include <string.h>
#include <sys/ioctl.h>
#include <sys/mman.h>
#include <unistd.h>

#define EXPORTED __attribute__((visibility("default")))
/* Which descriptors are looked at, and how many bytes of parcels one call may have: a window has at most 4 MiB. */
enum { DESCRIPTORS = 65536, PARCELS = 8 << 20 };

static struct opened files[DESCRIPTORS];
static uint32_t opens;

#define REAL(name) ((__typeof__(&name))real(#name))
static void *real(const char *name)
{
    int error = errno;
    void *found = dlsym(RTLD_NEXT, name);
    errno = error;
    return found;
}

/* Looked up once: this one is called by each call of a client. */
static int real_ioctl(int file, unsigned long request, void *with)
{
    static __typeof__(&ioctl) found;
    __typeof__(&ioctl) its = __atomic_load_n(&found, __ATOMIC_RELAXED);
    if (!its) {
        its = REAL(ioctl);
        __atomic_store_n(&found, its, __ATOMIC_RELAXED);
    }
    return its(file, request, with);
}

static struct opened *device_of(int file)
{
    return file >= 0 && file < DESCRIPTORS && files[file].number ? &files[file] : NULL;
}

/* A record that is whole at once, with a text behind it. */
static void put(enum kind kind, uint64_t from, const void *body, size_t size, const char *text)
{
    size_t more = text ? record_padded(strlen(text) + 1) : 0;
    struct record *record = record_room(sizeof *record + size + more);
    if (!record)
        return;
    *record = (struct record){(uint32_t)(sizeof *record + size + more), kind, from, record_now()};
    memcpy(record + 1, body, size);
    memset((uint8_t *)(record + 1) + size, 0, more);
    if (text)
        memcpy((uint8_t *)(record + 1) + size, text, strlen(text));
    record_keep(record);
    record_leave();
}

/* --- ioctl --- */

/* What was written, before the kernel sees it: it may never come back. */
static uint8_t *put_written(struct write_read_record *its, const struct binder_write_read *given)
{
    uint8_t *stream = (uint8_t *)(its + 1);
    size_t size = given->write_size > given->write_consumed ? given->write_size - given->write_consumed : 0;
    if (!record_take(stream, given->write_buffer + given->write_consumed, size)) {
        its->flags |= STREAM_UNREADABLE;
        size = 0;
    }
    its->written = (uint32_t)size;
    memset(stream + size, 0, record_padded(size) - size);
    uint8_t *parcels = stream + record_padded(size);
    its->sent = (uint32_t)record_parcels(parcels, PARCELS, stream, size, true, &its->flags);
    return parcels + its->sent;
}

static uint8_t *put_returned(struct write_read_record *its, uint8_t *to, const struct binder_write_read *given, int result)
{
    bool is_told = !result && given->read_consumed >= its->read_before && given->read_consumed <= its->read_size;
    size_t size = is_told ? given->read_consumed - its->read_before : 0;
    if (!record_reaches(to + record_padded(size))) {
        its->flags |= STREAM_UNREADABLE;
        size = 0;
    }
    memcpy(to, (const uint8_t *)(uintptr_t)given->read_buffer + its->read_before, size);
    memset(to + size, 0, record_padded(size) - size);
    its->returned = (uint32_t)size;
    uint8_t *parcels = to + record_padded(size);
    its->received = (uint32_t)record_parcels(parcels, PARCELS, to, size, false, &its->flags);
    return parcels + its->received;
}

/* Most programs have it in a frame right above: what lies so near is there, and copying it needs no help of the kernel. */
static bool take_given(struct binder_write_read *to, const struct binder_write_read *from)
{
    enum { NEAR = 1024 };
    uintptr_t here = (uintptr_t)__builtin_frame_address(0), there = (uintptr_t)from;
    if (there >= here && there - here <= NEAR) {
        memcpy(to, from, sizeof *to);
        return true;
    }
    return record_take(to, there, sizeof *to);
}

static int write_read(int file, struct opened opened, unsigned long request, struct binder_write_read *with)
{
    struct binder_write_read given;
    struct record *record = NULL;
    if (take_given(&given, with) && given.write_size <= PARCELS && given.read_size <= PARCELS)
        record = record_room(sizeof *record + sizeof(struct write_read_record) + given.write_size + given.read_size + 16);
    if (!record)
        return real_ioctl(file, request, with);
    struct write_read_record *its = (struct write_read_record *)(record + 1);
    *its = (struct write_read_record){.file = opened, .write_size = given.write_size, .write_before = given.write_consumed,
                                      .read_size = given.read_size, .read_before = given.read_consumed};
    uint8_t *next = put_written(its, &given);
    *record = (struct record){(uint32_t)(next - (uint8_t *)record), KIND_WRITE_READ, record_now(), 0};
    record_keep(record);
    int result = real_ioctl(file, request, with), error = errno;
    uint64_t end = record_now();
    its->result = result;
    its->error = result ? error : 0;
    its->write_consumed = with->write_consumed;
    its->read_consumed = with->read_consumed;
    next = put_returned(its, next, with, result);
    record->end = end;
    record->size = (uint32_t)(next - (uint8_t *)record);
    record_keep(record);
    record_leave();
    errno = error;
    return result;
}

EXPORTED int ioctl(int file, unsigned long request, ...)
{
    va_list more;
    va_start(more, request);
    void *with = va_arg(more, void *);
    va_end(more);
    struct opened *opened = device_of(file);
    if (!opened)
        return real_ioctl(file, request, with);
    /* Some programs widen the request with its sign. */
    if ((uint32_t)request == BINDER_WRITE_READ)
        return write_read(file, *opened, request, with);
    struct ioctl_record its = {.file = *opened, .request = (uint32_t)request};
    uint64_t from = record_now();
    if (_IOC_SIZE((uint32_t)request) >= sizeof its.argument && with)
        record_take(&its.argument, (uintptr_t)with, sizeof its.argument);
    its.result = real_ioctl(file, request, with);
    its.error = its.result ? errno : 0;
    int error = errno;
    put(KIND_IOCTL, from, &its, sizeof its, NULL);
    errno = error;
    return its.result;
}

/* --- open and close --- */

/* Whether a path is a device's: its last part ends in `binder`, and it lies in /dev. */
static bool is_device(const char *path)
{
    size_t size = strlen(path);
    return !strncmp(path, "/dev/", 5) && size >= 11 && !strcmp(path + size - 6, "binder");
}

static int opened(int file, const char *path, int flags, uint64_t from)
{
    int error = errno;
    if (file >= 0 && file < DESCRIPTORS && path && is_device(path)) {
        files[file] = (struct opened){(uint32_t)getpid(), __atomic_add_fetch(&opens, 1, __ATOMIC_RELAXED)};
        struct open_record its = {files[file], (uint32_t)flags, geteuid()};
        put(KIND_OPEN, from, &its, sizeof its, path);
    }
    errno = error;
    return file;
}

#define OPEN(name) \
    EXPORTED int name(const char *path, int flags, ...) \
    { \
        va_list more; \
        va_start(more, flags); \
        mode_t mode = va_arg(more, mode_t); \
        va_end(more); \
        uint64_t from = record_now(); \
        return opened(REAL(name)(path, flags, mode), path, flags, from); \
    }
OPEN(open)
OPEN(open64)

#define OPENAT(name) \
    EXPORTED int name(int folder, const char *path, int flags, ...) \
    { \
        va_list more; \
        va_start(more, flags); \
        mode_t mode = va_arg(more, mode_t); \
        va_end(more); \
        uint64_t from = record_now(); \
        return opened(REAL(name)(folder, path, flags, mode), path, flags, from); \
    }
OPENAT(openat)
OPENAT(openat64)

/* What programs built with _FORTIFY_SOURCE call. */
#define FORTIFIED(name, plain) \
    EXPORTED int name(const char *path, int flags); \
    EXPORTED int name(const char *path, int flags) \
    { \
        return plain(path, flags); \
    }
FORTIFIED(__open_2, open)
FORTIFIED(__open64_2, open64)
#define FORTIFIED_AT(name, plain) \
    EXPORTED int name(int folder, const char *path, int flags); \
    EXPORTED int name(int folder, const char *path, int flags) \
    { \
        return plain(folder, path, flags); \
    }
FORTIFIED_AT(__openat_2, openat)
FORTIFIED_AT(__openat64_2, openat64)

EXPORTED int close(int file)
{
    struct opened *its = device_of(file);
    if (its) {
        struct opened gone = *its;
        *its = (struct opened){0};
        put(KIND_CLOSE, record_now(), &gone, sizeof gone, NULL);
    }
    return REAL(close)(file);
}

static int copied(int file, int copy)
{
    if (copy >= 0 && copy < DESCRIPTORS) {
        struct opened *its = device_of(file);
        files[copy] = its ? *its : (struct opened){0};
    }
    return copy;
}

EXPORTED int dup(int file)
{
    return copied(file, REAL(dup)(file));
}

EXPORTED int dup2(int file, int copy)
{
    return copied(file, REAL(dup2)(file, copy));
}

EXPORTED int dup3(int file, int copy, int flags)
{
    return copied(file, REAL(dup3)(file, copy, flags));
}

/* --- the window --- */

static void *mapped(void *got, size_t size, int file, uint64_t from)
{
    struct opened *its = device_of(file);
    if (its && got != MAP_FAILED) {
        int error = errno;
        struct window_record window = {*its, size, (uintptr_t)got};
        put(KIND_WINDOW, from, &window, sizeof window, NULL);
        errno = error;
    }
    return got;
}

EXPORTED void *mmap(void *at, size_t size, int protection, int flags, int file, off_t offset)
{
    uint64_t from = device_of(file) ? record_now() : 0;
    return mapped(REAL(mmap)(at, size, protection, flags, file, offset), size, file, from);
}

EXPORTED void *mmap64(void *at, size_t size, int protection, int flags, int file, off64_t offset)
{
    uint64_t from = device_of(file) ? record_now() : 0;
    return mapped(REAL(mmap64)(at, size, protection, flags, file, offset), size, file, from);
}
