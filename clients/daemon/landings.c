/* SPDX-License-Identifier: Apache-2.0 OR MIT */
/*
 * landings.c: how a parcel that was read gets to its receiver: into the window, at the place that the engine has
 * chosen, with the pointers and descriptors that only this side of the engine knows (parcels.c).
 */
#include "objects.h"

#include <stdlib.h>
#include <string.h>

/* The parcel that the engine's latest read got, on the engine's bench: false where it has no trailer. Where no parcel on its way has one,
   large ones needn't come there. */
static bool unwrap(struct engine *engine, hullpippin_trailer *trailer)
{
    uint64_t size = engine->answer.data, offsets_size = engine->answer.offsets;
    struct workbench *bench = engine->bench;
    if (!engine->sent.wrapped || size > sizeof bench->bytes || offsets_size > sizeof bench->known)
        return false;
    hullpippin_live_bytes(&engine->live, HULLPIPPIN_DATA, bench->bytes, size);
    hullpippin_live_bytes(&engine->live, HULLPIPPIN_OFFSETS, (uint8_t *)bench->known, offsets_size);
    return hullpippin_find_trailer(bench->bytes, size, (const uint8_t *)bench->known, offsets_size, trailer);
}

/* Puts so many of the next descriptors on the landing, which lie at a place of the window. */
static void land(struct landing *landing, uint64_t place, uint64_t count, bool is_wide)
{
    for (uint64_t i = 0; i < count && landing->count < DESCRIPTORS_MAX; i++) {
        landing->is_wide[landing->count] = is_wide;
        landing->places[landing->count++] = place + i * sizeof(uint32_t);
    }
}

/* Puts right what the library has said as the parcel was sent: pointers lead to where the client sees the buffers, and until it has told
   its number there, no descriptor is where one is to be. The landing is NULL where there is no memory for it. */
static void put_right(const struct fixups *fixups, struct landing *landing, uint8_t *parcel, size_t size, uint64_t place, uint64_t base)
{
    for (size_t i = 0; i < fixups->count; i++) {
        const hullpippin_fixup *fixup = &fixups->all[i];
        if (!hullpippin_put_fixup(fixup, parcel, size, base + place) || !landing)
            continue;
        if (fixup->kind == HULLPIPPIN_FIXUP_DESCRIPTOR)
            land(landing, place + fixup->at, 1, true);
        else if (fixup->kind == HULLPIPPIN_FIXUP_DESCRIPTORS)
            land(landing, place + fixup->at, fixup->to, false);
    }
}

/* A parcel without a trailer goes from the engine straight to the window. */
static void deliver_plain(struct thread *thread, uint64_t place, uint64_t offsets_place)
{
    struct engine *engine = thread->process->engine;
    uint8_t *at = thread->process->window.at;
    if (engine->answer.data)
        hullpippin_live_bytes(&engine->live, HULLPIPPIN_DATA, at + place, engine->answer.data);
    if (engine->answer.offsets)
        hullpippin_live_bytes(&engine->live, HULLPIPPIN_OFFSETS, at + offsets_place, engine->answer.offsets);
}

/* Of the others what the client sent goes there, and zeros between its parts. */
static void deliver_wrapped(struct thread *thread, struct binder_transaction_data *record, uint64_t place, const hullpippin_trailer *trailer)
{
    struct engine *engine = thread->process->engine;
    struct window *window = &thread->process->window;
    uint8_t *bytes = engine->bench->bytes;
    const size_t size = engine->answer.data - HULLPIPPIN_TRAILER_SIZE;
    const struct fixups fixups = sent_unwrap(&engine->sent, trailer->step);
    struct landing *landing = trailer->descriptors ? thread_landing(thread) : NULL;
    record->sender_euid = trailer->euid;
    if (landing)
        *landing = (struct landing){.is_on_way = true, .step = trailer->step, .parcel = record->data.ptr.buffer};
    put_right(&fixups, landing, bytes, size, place, window->base);
    free(fixups.all);
    if (!landing)
        tickets_end(engine, trailer->step);
    memcpy(window->at + place, bytes, size);
    record->data_size = trailer->data;
    record->offsets_size = trailer->offsets;
    record->data.ptr.offsets = record->data.ptr.buffer + round8(trailer->data);
}

void parcel_deliver(struct thread *thread, struct binder_transaction_data *record)
{
    struct process *process = thread->process;
    uint64_t place = record->data.ptr.buffer - WINDOW_BASE, offsets_place = record->data.ptr.offsets - WINDOW_BASE;
    hullpippin_trailer trailer;
    if (thread->landing)
        thread_landing(thread);
    record->data.ptr.buffer = process->window.base + place;
    record->data.ptr.offsets = process->window.base + offsets_place;
    bool is_wrapped = unwrap(process->engine, &trailer);
    process_note_handed(process, place, is_wrapped || process->engine->answer.offsets ? HANDED_WITH_OBJECTS : HANDED);
    if (record->flags & TF_CLEAR_BUF)
        process_note_secret(process, place, round8(process->engine->answer.data) + process->engine->answer.offsets);
    if (is_wrapped)
        deliver_wrapped(thread, record, place, &trailer);
    else
        deliver_plain(thread, place, offsets_place);
}

void parcel_place(struct thread *thread, uint32_t count)
{
    struct landing *landing = thread->landing;
    int32_t numbers[DESCRIPTORS_MAX];
    if (!landing || count > landing->count)
        return;
    page_copy(numbers, thread->page->numbers, count * sizeof *numbers);
    for (uint32_t i = 0; i < count; i++) {
        uint64_t number = (uint32_t)numbers[i];
        memcpy(thread->process->window.at + landing->places[i], &number, landing->is_wide[i] ? sizeof number : sizeof(uint32_t));
    }
}
