/* SPDX-License-Identifier: Apache-2.0 OR MIT */
/*
 * binder.h: one open of a Binder device, by plain ioctls of <linux/android/binder.h>.
 *
 * It knows of no daemon and of no preloaded library: what is built on it runs over a kernel's driver as well.
 */
#ifndef HULLPIPPIN_CLIENTS_BINDER_H
#define HULLPIPPIN_CLIENTS_BINDER_H

#include <stdbool.h>
#include <stddef.h>
#include <stdint.h>
#include <sys/types.h>

#include <linux/android/binder.h>

/* An open device. Its window is where parcels arrive; the driver alone writes there. */
struct binder {
    int fd;
    const uint8_t *window;
    size_t size;
};

/* Opens the device and maps a window; false with errno. */
bool binder_open(struct binder *binder, const char *device, size_t window);
void binder_close(struct binder *binder);

/* Makes the process the context manager; false with errno. */
bool binder_become_manager(struct binder *binder);
/* The driver may ask for so many further threads (BR_SPAWN_LOOPER); false with errno. */
bool binder_allow_threads(struct binder *binder, uint32_t count);

/* Whether so many bytes at a pointer lie in the window. Pointers come from other processes by way of parcels. */
bool binder_has(const struct binder *binder, uint64_t pointer, uint64_t size);

/* Commands that go out together. What their records point at has to stay until they are out. */
struct commands {
    size_t size;
    uint8_t bytes[2048];
};

/* These append a command. There is room for some twenty between two exchanges; one without room is a bug, and
   aborts. */
void put_code(struct commands *commands, uint32_t code);
void put_handle(struct commands *commands, uint32_t code, uint32_t handle);
void put_pointer(struct commands *commands, uint32_t code, binder_uintptr_t pointer);
void put_object(struct commands *commands, uint32_t code, binder_uintptr_t pointer, binder_uintptr_t cookie);
void put_death(struct commands *commands, uint32_t code, uint32_t handle, binder_uintptr_t cookie);
void put_record(struct commands *commands, uint32_t code, const struct binder_transaction_data *record);
void put_record_sg(struct commands *commands, uint32_t code, const struct binder_transaction_data *record, size_t buffers);

/*
 * Writes the commands, and reads returns where there is room for some: how many bytes came, or -1 with errno. Waits
 * where there is nothing to read yet. Commands that the driver didn't come to, because one before them was refused,
 * stay.
 */
ssize_t binder_exchange(struct binder *binder, struct commands *commands, uint8_t *room, size_t size);

/* The returns of one read, one after the other. */
struct returns {
    const uint8_t *at;
    const uint8_t *end;
};

/* Tells the next return and its payload; false at the end. */
bool next_return(struct returns *returns, uint32_t *code, const uint8_t **payload);

#endif
