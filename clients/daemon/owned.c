/* SPDX-License-Identifier: Apache-2.0 OR MIT */
/*
 * owned.c: the objects that a process has made by sending them, in the order in which it did. The engine tells neither how many it keeps nor
 * when one goes, and knows nothing of whether descriptors may be sent to it. So each is noted here as it comes, by its identity, and
 * counts in the share of its owner's process; and it is asked for again and again whether it is still there, some each time that others
 * come.
 *
 * As with Linux's driver an object takes descriptors if its owner said so by its flags when it first sent it.
 */
#include "daemon.h"

#include <stdlib.h>
#include <string.h>

/* For each object that comes so many are looked at that were there; and so many where there is no share left. */
#define LOOKS_EACH 2u
#define LOOKS_WITHOUT_SHARE 128u

/* A process's end is one step, which takes the longer the more it owns, so it owns no more than this at a time. */
#define OWNED_MOST 32768u

/* The object of a parcel's entry, if it is one of its sender's own. */
static bool is_own(const struct parcel *parcel, uint64_t entry, struct flat_binder_object *object)
{
    binder_size_t offset;
    memcpy(&offset, parcel->offsets + entry * sizeof offset, sizeof offset);
    if (offset > parcel->data_size || parcel->data_size - offset < sizeof *object)
        return false;
    memcpy(object, parcel->data + offset, sizeof *object);
    return object->hdr.type == BINDER_TYPE_BINDER || object->hdr.type == BINDER_TYPE_WEAK_BINDER;
}

static uint64_t entries_of(const struct parcel *parcel)
{
    return parcel->is_lost ? 0 : parcel->offsets_size / sizeof(binder_size_t);
}

/* Those that are gone make room at last. */
static void compact(struct owned *owned)
{
    uint32_t left = 0;
    for (uint32_t i = 0; i < owned->count; i++)
        if (!owned->all[i].is_gone)
            owned->all[left++] = owned->all[i];
    owned->count = left;
    owned->gone = owned->next = 0;
}

/* Looks at some, the next ones in turn, and lets go of those that the engine doesn't have any more. */
static void look(struct process *process, uint32_t looks)
{
    struct owned *owned = &process->owned;
    hullpippin_object object;
    uint32_t gone = owned->gone;
    for (; looks && owned->count; looks--) {
        struct owned_object *it = &owned->all[owned->next < owned->count ? owned->next : (owned->next = 0)];
        owned->next++;
        if (it->is_gone || hullpippin_live_object(&process->engine->live, it->place, it->index, &object))
            continue;
        it->is_gone = true;
        owned->gone++;
    }
    if (owned->gone > gone)
        account_give(process->account, SHARED_OBJECTS, owned->gone - gone);
    if (owned->gone > owned->count / 2)
        compact(owned);
}

static bool has_room(struct owned *owned, uint64_t more)
{
    uint64_t wanted = owned->count + more, room = owned->room ? owned->room : 16;
    while (room < wanted)
        room *= 2;
    if (wanted <= owned->room)
        return true;
    struct owned_object *all = room <= UINT32_MAX ? realloc(owned->all, room * sizeof *all) : NULL;
    if (!all)
        return false;
    owned->all = all;
    owned->room = (uint32_t)room;
    return true;
}

static bool take(struct process *process, uint32_t count)
{
    const struct owned *owned = &process->owned;
    if (owned->count - owned->gone + (uint64_t)count <= OWNED_MOST)
        return account_take(process->account, SHARED_OBJECTS, count);
    account_refuse(process->account, SHARED_OBJECTS);
    return false;
}

bool owned_take(struct process *process, const struct parcel *parcel, uint32_t *taken)
{
    struct flat_binder_object object;
    *taken = 0;
    for (uint64_t i = 0; i < entries_of(parcel); i++)
        *taken += is_own(parcel, i, &object);
    if (!*taken)
        return true;
    bool has = has_room(&process->owned, *taken);
    bool is_taken = has && take(process, *taken);
    if (has && !is_taken) {
        look(process, LOOKS_WITHOUT_SHARE);
        is_taken = take(process, *taken);
    }
    *taken = is_taken ? *taken : 0;
    return is_taken;
}

/* The step's new objects are numbered in the order in which the parcel names them first. */
void owned_note(struct process *process, const struct parcel *parcel, uint32_t taken, bool is_accepted)
{
    struct owned *owned = &process->owned;
    struct engine *engine = process->engine;
    hullpippin_object made;
    uint32_t index = 0;
    for (uint64_t i = 0; is_accepted && taken && i < entries_of(parcel); i++) {
        struct flat_binder_object object;
        if (!is_own(parcel, i, &object) || !hullpippin_live_object(&engine->live, engine->answer.from, index, &made)
            || made.ptr != object.binder)
            continue;
        owned->all[owned->count++] = (struct owned_object){.place = engine->answer.from, .index = index,
                                                           .takes_descriptors = object.flags & FLAT_BINDER_FLAG_ACCEPTS_FDS};
        index++;
    }
    if (taken > index)
        account_give(process->account, SHARED_OBJECTS, taken - index);
    if (index)
        look(process, LOOKS_EACH * index);
}

/* They stand in the order of their places, and of their numbers. */
bool owned_takes_descriptors(const struct process *owner, uint64_t place, uint32_t index)
{
    const struct owned *owned = &owner->owned;
    uint32_t from = 0, to = owned->count;
    while (from < to) {
        uint32_t middle = from + (to - from) / 2;
        const struct owned_object *it = &owned->all[middle];
        if (it->place == place && it->index == index)
            return it->takes_descriptors;
        if (it->place < place || (it->place == place && it->index < index))
            from = middle + 1;
        else
            to = middle;
    }
    return true;
}

void owned_free(struct process *process)
{
    struct owned *owned = &process->owned;
    if (owned->count > owned->gone)
        account_give(process->account, SHARED_OBJECTS, owned->count - owned->gone);
    free(owned->all);
    *owned = (struct owned){0};
}
