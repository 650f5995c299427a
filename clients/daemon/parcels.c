/* SPDX-License-Identifier: Apache-2.0 OR MIT */
/*
 * parcels.c: what parcels have that the engine's don't: PTR objects with their buffers, FD and FDA objects with their
 * descriptors.
 *
 * A parcel with such objects goes through the engine as one with more data: behind its own data are all its offsets,
 * the buffers, and a trailer that says how much each is. The library says which parcels these are, lays them out, and says what is to be put
 * right where they land (landings.c), and how many descriptors go along: these wait beside the engine (tickets.c). Only the objects that the
 * engine knows are told to it. The receiver sees the data and all offsets.
 */
#include "objects.h"

#include <stdlib.h>
#include <string.h>
#include <unistd.h>

/* Copies a part of the parcel from the area. What isn't mapped here is read: that fills no hole which the client has left there. What stands
   between the parts nobody reads: the library has zeros there. */
static __attribute__((noinline)) bool copy_some(struct workbench *bench, const struct thread *thread, const hullpippin_part *part)
{
    uint64_t mapped = part->from < AREA_MAPPED ? AREA_MAPPED - part->from : 0, copied = part->size < mapped ? part->size : mapped;
    off_t from = (off_t)(offsetof(struct page, area) + part->from + copied);
    uint8_t *to = bench->bytes + part->to;
    if (copied)
        page_copy(to, thread->page->area + part->from, copied);
    return copied == part->size || pread(thread->memory, to + copied, part->size - copied, from) == (ssize_t)(part->size - copied);
}

/* Few parcels have all parts. */
static bool copy_part(struct workbench *bench, const struct thread *thread, const hullpippin_part *part)
{
    return !part->size || copy_some(bench, thread, part);
}

/* Copies what the library says of the parcel from the page to the daemon's memory, where alone it is looked at. */
static bool copy_in(const hullpippin_asked *asked, const struct thread *thread, hullpippin_parts *parts)
{
    struct workbench *bench = thread->process->engine->bench;
    return hullpippin_parcel_parts(asked, PAGE_AREA, OBJECTS_MAX, parts) && copy_part(bench, thread, &parts->data)
           && copy_part(bench, thread, &parts->offsets) && copy_part(bench, thread, &parts->buffers);
}

void parcel_lose(struct parcel *parcel)
{
    parcel->is_lost = true;
    parcel->data_size = parcel->offsets_size = 0;
}

/* All but the numbers of descriptors, which are many. */
void parcel_begin(struct parcel *parcel)
{
    parcel->is_lost = parcel->tells_euid = false;
    parcel->data = parcel->offsets = NULL;
    parcel->data_size = parcel->offsets_size = 0;
    parcel->is_wrapped = parcel->is_on_way = false;
    parcel->fixups = (struct fixups){NULL, 0};
    parcel->offered = parcel->fd_count = 0;
}

/* Has the parcel laid out as its receiver is to get it. */
static bool lay_out(const struct parcel *parcel, const hullpippin_part *buffers, struct workbench *bench, hullpippin_layout *layout)
{
    return hullpippin_lay_out(parcel->data, parcel->data_size, parcel->offsets, parcel->offsets_size, bench->bytes + buffers->to,
                              buffers->size, parcel->offered, bench->laid, PAGE_AREA, bench->known, KNOWN_MAX, bench->fixups, FIXUPS_MAX,
                              layout)
           == HULLPIPPIN_DONE;
}

/* Takes the next so many of the descriptors that came with the request. */
static void take_descriptors(struct parcel *parcel, struct hand *hand, uint32_t count)
{
    memcpy(parcel->fds, hand->fds + hand->taken, count * sizeof *parcel->fds);
    parcel->fd_count = count;
    hand->taken += count;
}

static bool keep_fixups(struct parcel *parcel, const hullpippin_fixup *fixups, size_t count)
{
    parcel->fixups.all = count ? malloc(count * sizeof *fixups) : NULL;
    if (!parcel->fixups.all)
        return !count;
    parcel->fixups.count = count;
    memcpy(parcel->fixups.all, fixups, count * sizeof *fixups);
    return true;
}

/* The parcel's descriptors go on their way by the engine's next step. */
static bool send_descriptors(struct parcel *parcel, struct process *process)
{
    parcel->step = hullpippin_live_len(&process->engine->live);
    parcel->is_on_way = parcel->fd_count && tickets_put(process, parcel->step, parcel->fds, parcel->fd_count);
    return parcel->is_on_way || !parcel->fd_count;
}

/* The parcel goes on as it is laid out, with a trailer behind it. False where there is no memory for what goes beside it, or its process has no
   places for its descriptors, or it is none that Linux's driver would take. */
static bool wrap(struct parcel *parcel, struct process *process, const hullpippin_parts *parts, struct hand *hand)
{
    struct workbench *bench = process->engine->bench;
    hullpippin_layout layout;
    if (!lay_out(parcel, &parts->buffers, bench, &layout) || layout.is_refused)
        return false;
    take_descriptors(parcel, hand, (uint32_t)layout.taken);
    if (!keep_fixups(parcel, bench->fixups, layout.fixups) || !send_descriptors(parcel, process))
        return false;
    const hullpippin_trailer trailer = {parts->data.size, parts->offsets.size, parts->buffers.size, parcel->step, parcel->fd_count, parcel->euid};
    parcel->is_wrapped = true;
    parcel->data = bench->laid;
    parcel->data_size = hullpippin_put_trailer(bench->laid, sizeof bench->laid, layout.size, &trailer);
    parcel->offsets = (const uint8_t *)bench->known;
    parcel->offsets_size = 8 * layout.known;
    return true;
}

/* A parcel that can't be had is given to the engine as none, which refuses it. */
void parcel_fetch(struct parcel *parcel, struct thread *thread, const struct binder_transaction_data_sg *record, struct hand *hand)
{
    const struct binder_transaction_data *data = &record->transaction_data;
    const hullpippin_asked asked = {data->data.ptr.buffer, data->data_size, data->data.ptr.offsets, data->offsets_size, record->buffers_size};
    hullpippin_parts parts;
    if (!copy_in(&asked, thread, &parts))
        return parcel_lose(parcel);
    parcel->data = thread->process->engine->bench->bytes;
    parcel->data_size = parts.data.size;
    parcel->offsets = parcel->data + parts.offsets.to;
    parcel->offsets_size = parts.offsets.size;
    uint32_t way = hullpippin_parcel_way(parcel->data, parcel->data_size, parcel->offsets, parcel->offsets_size, KNOWN_MAX, parcel->tells_euid);
    if (way == HULLPIPPIN_WAY_LOST || (way == HULLPIPPIN_WAY_WRAPPED && !wrap(parcel, thread->process, &parts, hand)))
        parcel_lose(parcel);
}

void parcel_refuse(struct parcel *parcel, struct process *process)
{
    if (parcel->is_on_way)
        tickets_close(process->account, parcel->fds, tickets_take(process->engine, parcel->step, parcel->fds));
    else
        descriptors_close(parcel->fds, parcel->fd_count);
    free(parcel->fixups.all);
}
