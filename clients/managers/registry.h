/* SPDX-License-Identifier: Apache-2.0 OR MIT */
/*
 * registry.h: services by their names. A name is bytes; a service is the handle of its object. Names are kept in
 * order, so that one is found in a few steps among hundreds.
 */
#ifndef HULLPIPPIN_CLIENTS_REGISTRY_H
#define HULLPIPPIN_CLIENTS_REGISTRY_H

#include <stdbool.h>
#include <stddef.h>
#include <stdint.h>

struct service {
    uint8_t *name; /* with a 0 behind it */
    size_t size;
    uint32_t handle;
    uint32_t mark; /* a word that its manager keeps with it */
};

struct registry {
    struct service *all;
    size_t count, room;
};

/* The service of that name, or NULL. It stays where it is until the registry changes. */
const struct service *registry_find(const struct registry *registry, const void *name, size_t size);

/* Gives a name to a handle, with a mark, in place of what had it; false without memory. */
bool registry_put(struct registry *registry, const void *name, size_t size, uint32_t handle, uint32_t mark);

/* Whether a service has this handle. */
bool registry_has(const struct registry *registry, uint32_t handle);

/* Takes all names off a handle, and tells how many those were. */
size_t registry_drop(struct registry *registry, uint32_t handle);

#endif
