/* SPDX-License-Identifier: Apache-2.0 OR MIT */
#include "binder.h"

#include <errno.h>
#include <fcntl.h>
#include <stdlib.h>
#include <string.h>
#include <sys/ioctl.h>
#include <sys/mman.h>
#include <unistd.h>

static bool is_protocol_8(int fd)
{
    struct binder_version version = {0};
    if (ioctl(fd, BINDER_VERSION, &version) < 0)
        return false;
    if (version.protocol_version == BINDER_CURRENT_PROTOCOL_VERSION)
        return true;
    errno = EPROTO;
    return false;
}

bool binder_open(struct binder *binder, const char *device, size_t window)
{
    int fd = open(device, O_RDWR | O_CLOEXEC);
    if (fd < 0)
        return false;
    void *at = is_protocol_8(fd) ? mmap(NULL, window, PROT_READ, MAP_PRIVATE, fd, 0) : MAP_FAILED;
    if (at == MAP_FAILED) {
        int why = errno;
        close(fd);
        errno = why;
        return false;
    }
    *binder = (struct binder){.fd = fd, .window = at, .size = window};
    return true;
}

void binder_close(struct binder *binder)
{
    munmap((void *)(uintptr_t)binder->window, binder->size);
    close(binder->fd);
    *binder = (struct binder){.fd = -1};
}

bool binder_become_manager(struct binder *binder)
{
    return ioctl(binder->fd, BINDER_SET_CONTEXT_MGR, 0) == 0;
}

bool binder_allow_threads(struct binder *binder, uint32_t count)
{
    return ioctl(binder->fd, BINDER_SET_MAX_THREADS, &count) == 0;
}

bool binder_has(const struct binder *binder, uint64_t pointer, uint64_t size)
{
    uint64_t from = (uintptr_t)binder->window;
    return pointer >= from && pointer - from <= binder->size && size <= binder->size - (pointer - from);
}

static void put(struct commands *commands, const void *bytes, size_t size)
{
    if (size > sizeof commands->bytes - commands->size)
        abort();
    memcpy(commands->bytes + commands->size, bytes, size);
    commands->size += size;
}

void put_code(struct commands *commands, uint32_t code)
{
    put(commands, &code, sizeof code);
}

void put_handle(struct commands *commands, uint32_t code, uint32_t handle)
{
    put_code(commands, code);
    put(commands, &handle, sizeof handle);
}

void put_pointer(struct commands *commands, uint32_t code, binder_uintptr_t pointer)
{
    put_code(commands, code);
    put(commands, &pointer, sizeof pointer);
}

void put_object(struct commands *commands, uint32_t code, binder_uintptr_t pointer, binder_uintptr_t cookie)
{
    put_pointer(commands, code, pointer);
    put(commands, &cookie, sizeof cookie);
}

void put_death(struct commands *commands, uint32_t code, uint32_t handle, binder_uintptr_t cookie)
{
    put_handle(commands, code, handle);
    put(commands, &cookie, sizeof cookie);
}

void put_record(struct commands *commands, uint32_t code, const struct binder_transaction_data *record)
{
    put_code(commands, code);
    put(commands, record, sizeof *record);
}

void put_record_sg(struct commands *commands, uint32_t code, const struct binder_transaction_data *record, size_t buffers)
{
    binder_size_t size = buffers;
    put_record(commands, code, record);
    put(commands, &size, sizeof size);
}

ssize_t binder_exchange(struct binder *binder, struct commands *commands, uint8_t *room, size_t size)
{
    struct binder_write_read both = {
        .write_size = commands->size,
        .write_buffer = (uintptr_t)commands->bytes,
        .read_size = size,
        .read_buffer = (uintptr_t)room,
    };
    int status;
    do
        status = ioctl(binder->fd, BINDER_WRITE_READ, &both);
    while (status < 0 && errno == EINTR); /* the driver keeps in `both` how far it was */
    commands->size -= both.write_consumed;
    memmove(commands->bytes, commands->bytes + both.write_consumed, commands->size);
    return status < 0 ? -1 : (ssize_t)both.read_consumed;
}

bool next_return(struct returns *returns, uint32_t *code, const uint8_t **payload)
{
    size_t left = returns->end - returns->at;
    if (left < sizeof *code)
        return false;
    memcpy(code, returns->at, sizeof *code);
    size_t size = sizeof *code + _IOC_SIZE(*code);
    if (left < size)
        return false;
    *payload = returns->at + sizeof *code;
    returns->at += size;
    return true;
}
