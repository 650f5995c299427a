/* SPDX-License-Identifier: Apache-2.0 OR MIT */
/*
 * arrays.c: descriptors of FDA objects. As the kernel's driver does, the library closes them when their receiver gives the
 * buffer back that they came with; by their numbers, whatever these stand for then. Those of FD objects are the receiver's own.
 */
#include "preload.h"

#include <stdlib.h>

/* What came with one buffer. */
struct array {
    struct array *next;
    uint64_t buffer;
    uint32_t count;
    int fds[];
};

static struct array **list_of(struct arrays *arrays, uint64_t buffer)
{
    return &arrays->on_page[buffer / 4096 % (sizeof arrays->on_page / sizeof *arrays->on_page)];
}

/* False where the device is closed: nobody gives its buffers back any more. */
static bool put(struct device *device, struct array *array)
{
    struct array **list = list_of(&device->arrays, array->buffer);
    pthread_mutex_lock(&device->arrays.lock);
    bool is_open = !device->is_closed;
    if (is_open) {
        array->next = *list;
        *list = array;
        device->arrays.count++;
    }
    pthread_mutex_unlock(&device->arrays.lock);
    return is_open;
}

bool arrays_keep(struct device *device, const struct page *page, const int *fds, uint32_t count)
{
    uint32_t kept = 0;
    for (uint32_t i = 0; i < count; i++)
        kept += page->is_of_array[i];
    if (!kept)
        return true;
    struct array *array = malloc(sizeof *array + kept * sizeof *fds);
    if (!array)
        return false;
    *array = (struct array){.buffer = page->parcel};
    for (uint32_t i = 0; i < count; i++)
        if (page->is_of_array[i])
            array->fds[array->count++] = fds[i];
    if (!put(device, array))
        free(array);
    return true;
}

/* Moves the first of a list in front of another. */
static void move(struct device *device, struct array **from, struct array **to)
{
    struct array *array = *from;
    *from = array->next;
    array->next = *to;
    *to = array;
    device->arrays.count--;
}

void arrays_take(struct device *device, uint64_t buffer, struct array **taken)
{
    if (!device->arrays.count)
        return;
    pthread_mutex_lock(&device->arrays.lock);
    for (struct array **list = list_of(&device->arrays, buffer); *list;) {
        if ((*list)->buffer == buffer)
            move(device, list, taken);
        else
            list = &(*list)->next;
    }
    pthread_mutex_unlock(&device->arrays.lock);
}

/* A number may stand for a binder file by now. */
static void close_number(int fd)
{
    if (device_is(fd))
        device_forget(fd);
    real()->close(fd);
}

void arrays_close(struct array *taken)
{
    int error = errno;
    while (taken) {
        struct array *array = taken;
        taken = array->next;
        for (uint32_t i = 0; i < array->count; i++)
            close_number(array->fds[i]);
        free(array);
    }
    errno = error;
}

void arrays_end(struct device *device)
{
    struct array *taken = NULL;
    pthread_mutex_lock(&device->arrays.lock);
    for (size_t i = 0; i < sizeof device->arrays.on_page / sizeof *device->arrays.on_page; i++)
        while (device->arrays.on_page[i])
            move(device, &device->arrays.on_page[i], &taken);
    pthread_mutex_unlock(&device->arrays.lock);
    arrays_close(taken);
}
