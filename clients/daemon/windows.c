/* SPDX-License-Identifier: Apache-2.0 OR MIT */
/*
 * windows.c: a process's window is memory that the daemon writes and its client can't, and so is a device's ring: it is sealed so
 * that no later mapping may write, and no size may change, before anybody else has it.
 */
#include "daemon.h"

#include <fcntl.h>
#include <sys/mman.h>
#include <unistd.h>

#ifndef F_SEAL_FUTURE_WRITE
#define F_SEAL_FUTURE_WRITE 0x0010
#endif

bool window_make(struct window *window, uint64_t size, uint64_t base)
{
    int fd = memfd_create("hullpippin-window", MFD_CLOEXEC | MFD_ALLOW_SEALING);
    if (fd < 0)
        return false;
    uint8_t *at = MAP_FAILED;
    if (ftruncate(fd, (off_t)size) == 0)
        at = mmap(NULL, size, PROT_READ | PROT_WRITE, MAP_SHARED, fd, 0);
    if (at != MAP_FAILED && fcntl(fd, F_ADD_SEALS, F_SEAL_SHRINK | F_SEAL_GROW | F_SEAL_FUTURE_WRITE | F_SEAL_SEAL) == 0) {
        *window = (struct window){.at = at, .size = size, .base = base, .fd = fd};
        return true;
    }
    if (at != MAP_FAILED)
        munmap(at, size);
    close(fd);
    return false;
}

void window_free(struct window *window)
{
    if (window->at)
        munmap(window->at, window->size);
    if (window->fd >= 0)
        close(window->fd);
    *window = (struct window){.fd = -1};
}
