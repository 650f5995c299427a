/* SPDX-License-Identifier: Apache-2.0 OR MIT */
/* objects.h: where a parcel with its objects lies while it is looked at. */
#ifndef HULLPIPPIN_OBJECTS_H
#define HULLPIPPIN_OBJECTS_H

#include "daemon.h"

/* A parcel with more objects is refused, and one with so many that the engine knows: it would keep all other clients waiting. */
#define OBJECTS_MAX 8192u
#define KNOWN_MAX 256u

#define PARCEL_ROOM (PAGE_AREA + HULLPIPPIN_TRAILER_SIZE)

/* An object has two at most: its buffer's address stands in itself and in its parent. */
#define FIXUPS_MAX (2 * OBJECTS_MAX)

/* An engine's memory for looking at a parcel: one at a time. */
struct workbench {
    _Alignas(8) uint8_t bytes[PARCEL_ROOM];
    _Alignas(8) uint8_t laid[PARCEL_ROOM]; /* as its receiver is to get it */
    uint64_t known[KNOWN_MAX];             /* offsets of the objects that the engine knows */
    hullpippin_fixup fixups[FIXUPS_MAX];
};

#endif
