/* SPDX-License-Identifier: Apache-2.0 OR MIT */
#include "registry.h"

#include <stdlib.h>
#include <string.h>

static int compared(const struct service *service, const void *name, size_t size)
{
    int by_bytes = memcmp(service->name, name, service->size < size ? service->size : size);
    return by_bytes ? by_bytes : (service->size > size) - (service->size < size);
}

/* The index at which a name stands among the names, or at which it belongs. */
static size_t place(const struct registry *registry, const void *name, size_t size)
{
    size_t from = 0, to = registry->count;
    while (from < to) {
        size_t middle = from + (to - from) / 2;
        if (compared(&registry->all[middle], name, size) < 0)
            from = middle + 1;
        else
            to = middle;
    }
    return from;
}

const struct service *registry_find(const struct registry *registry, const void *name, size_t size)
{
    size_t at = place(registry, name, size);
    return at < registry->count && !compared(&registry->all[at], name, size) ? &registry->all[at] : NULL;
}

/* Makes room for one more service; false without memory. */
static bool grow(struct registry *registry)
{
    if (registry->count < registry->room)
        return true;
    size_t room = 2 * registry->room + 16;
    struct service *all = realloc(registry->all, room * sizeof *all);
    if (!all)
        return false;
    registry->all = all;
    registry->room = room;
    return true;
}

bool registry_put(struct registry *registry, const void *name, size_t size, uint32_t handle, uint32_t mark)
{
    size_t at = place(registry, name, size);
    if (at < registry->count && !compared(&registry->all[at], name, size)) {
        registry->all[at].handle = handle;
        registry->all[at].mark = mark;
        return true;
    }
    uint8_t *copy = malloc(size + 1);
    if (!copy || !grow(registry)) {
        free(copy);
        return false;
    }
    memcpy(copy, name, size);
    copy[size] = 0;
    memmove(&registry->all[at + 1], &registry->all[at], (registry->count - at) * sizeof *registry->all);
    registry->all[at] = (struct service){copy, size, handle, mark};
    registry->count++;
    return true;
}

bool registry_has(const struct registry *registry, uint32_t handle)
{
    for (size_t i = 0; i < registry->count; i++)
        if (registry->all[i].handle == handle)
            return true;
    return false;
}

size_t registry_drop(struct registry *registry, uint32_t handle)
{
    size_t left = 0;
    for (size_t i = 0; i < registry->count; i++) {
        if (registry->all[i].handle == handle)
            free(registry->all[i].name);
        else
            registry->all[left++] = registry->all[i];
    }
    size_t dropped = registry->count - left;
    registry->count = left;
    return dropped;
}
