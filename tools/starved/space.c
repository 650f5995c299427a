/* SPDX-License-Identifier: Apache-2.0 OR MIT */
#include "space.h"

/* The handles, the objects of a step and the items of a list that are looked at lie below these. */
enum { MOST_HANDLES = 6, MOST_OBJECTS = 3, MOST_ITEMS = 8, MOST_LATEST = 1 << 13 };

uint64_t added(uint64_t sum, uint64_t number)
{
    return (sum ^ number) * UINT64_C(0x100000001b3);
}

uint64_t added_bytes(uint64_t sum, const uint8_t *bytes, size_t size)
{
    for (size_t i = 0; i < size; i++)
        sum = added(sum, bytes[i]);
    return added(sum, size);
}

/* The place of the first step: others count from there. */
static uint64_t origin;

static uint64_t added_place(uint64_t sum, uint64_t place)
{
    return added(sum, place - origin);
}

static uint64_t added_id(uint64_t sum, hullpippin_object_id id)
{
    return added(added_place(sum, id.place), id.index);
}

static uint64_t added_work(uint64_t sum, const hullpippin_work *work)
{
    const bool is_made = work->kind == HULLPIPPIN_CALL || work->kind == HULLPIPPIN_REPLY || work->kind == HULLPIPPIN_DEATH;
    sum = added(added(added_place(sum, work->place), work->index), work->kind);
    sum = work->kind == HULLPIPPIN_NOTICE ? added_id(sum, work->object) : added(added(sum, work->object.place), work->object.index);
    sum = is_made ? added_place(sum, work->made) : added(sum, work->made);
    return added(added(added(sum, work->spam), work->code), work->cookie);
}

static uint64_t added_seat(uint64_t sum, hullpippin_live *live, uint32_t seat)
{
    hullpippin_thread thread;
    hullpippin_frame frame;
    hullpippin_work work;
    sum = added(sum, hullpippin_live_ready(live, seat));
    if (hullpippin_live_thread(live, seat, &thread))
        sum = added(added_place(added_place(sum, thread.made), thread.process), thread.looping);
    if (hullpippin_live_innermost(live, seat, &frame))
        sum = added(added_place(sum, frame.made), frame.serves);
    for (size_t i = 0; i < MOST_ITEMS && hullpippin_live_unread_of_thread(live, seat, i, &work); i++)
        sum = added_work(sum, &work);
    return added(sum, seat);
}

static uint64_t added_process(uint64_t sum, hullpippin_live *live, uint32_t pid)
{
    hullpippin_process process;
    hullpippin_object_id id;
    hullpippin_work work;
    uint64_t made;
    if (!hullpippin_live_process_of_pid(live, pid, &made) || !hullpippin_live_process(live, made, &process))
        return added(sum, pid);
    sum = added(added(added(added_place(sum, made), process.euid), process.window), process.spam_detection);
    for (uint32_t handle = 0; handle < MOST_HANDLES; handle++)
        if (hullpippin_live_named(live, pid, handle, &id))
            sum = added(added_id(sum, id), handle);
    for (size_t i = 0; i < MOST_ITEMS && hullpippin_live_unread_of_process(live, made, i, &work); i++)
        sum = added_work(sum, &work);
    return sum;
}

static uint64_t added_objects(uint64_t sum, hullpippin_live *live, uint64_t place)
{
    hullpippin_object object;
    for (uint32_t index = 0; index < MOST_OBJECTS && hullpippin_live_object(live, place, index, &object); index++) {
        sum = added(added(added_place(sum, object.owner), object.ptr), object.cookie);
        sum = added(added(sum, object.told_weak), object.told_strong);
    }
    return sum;
}

static uint64_t added_buffer(uint64_t sum, hullpippin_live *live, uint64_t place)
{
    hullpippin_buffer buffer;
    hullpippin_object_id id;
    if (!hullpippin_live_buffer(live, place, &buffer))
        return sum;
    sum = added(added(added_place(added_place(sum, buffer.receiver), buffer.sender), buffer.start), buffer.size);
    sum = added(added(added(sum, buffer.code), buffer.flags), buffer.euid);
    sum = added(added(added(sum, buffer.one_way), buffer.handed), buffer.is_call);
    sum = buffer.is_call ? added_id(sum, buffer.target) : added(added(sum, buffer.target.place), buffer.target.index);
    sum = added(added(sum, buffer.data), buffer.offsets);
    for (size_t i = 0; i < MOST_OBJECTS && hullpippin_live_carried(live, place, i, &id); i++)
        sum = added_id(sum, id);
    return sum;
}

static uint64_t added_death(uint64_t sum, hullpippin_live *live, uint64_t place)
{
    hullpippin_death death;
    if (!hullpippin_live_death(live, place, &death))
        return sum;
    sum = added_id(added_place(sum, death.process), death.object);
    return added(added(added(sum, death.cookie), death.phase), death.cleared);
}

/* What the latest step left: what was read, and the buffers that ended. */
static uint64_t added_latest(uint64_t sum, hullpippin_live *live)
{
    static uint8_t bytes[MOST_LATEST];
    uint64_t ended[MOST_ITEMS];
    for (uint32_t part = HULLPIPPIN_STREAM; part <= HULLPIPPIN_OFFSETS; part++) {
        size_t size = hullpippin_live_bytes(live, part, bytes, sizeof bytes);
        sum = added_bytes(sum, bytes, size < sizeof bytes ? size : 0);
    }
    size_t count = hullpippin_live_ended(live, ended, MOST_ITEMS);
    for (size_t i = 0; i < count && count <= MOST_ITEMS; i++)
        sum = added_place(sum, ended[i]);
    return added(sum, count);
}

uint64_t sum_of(hullpippin_live *live, const struct script *script, uint64_t first)
{
    origin = first;
    hullpippin_object_id manager;
    uint64_t length = hullpippin_live_len(live);
    uint64_t sum = added_latest(added_place(NO_SUM, length), live);
    if (hullpippin_live_manager_object(live, &manager))
        sum = added_id(sum, manager);
    for (uint32_t seat = 0; seat < script->seats; seat++)
        sum = added_seat(sum, live, seat);
    for (size_t i = 0; i < script->pid_count; i++)
        sum = added_process(sum, live, script->pids[i]);
    for (uint64_t place = first; place < length; place++)
        sum = added_death(added_buffer(added_objects(sum, live, place), live, place), live, place);
    return sum;
}
