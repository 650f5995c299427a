/* SPDX-License-Identifier: Apache-2.0 OR MIT */
/* calls.c: calls, replies and their parcels. */
#include "bare.h"

#include <string.h>

#define OBJECTS_MAX 4096u

/* All objects, by number. The first is the context manager's. */
static struct object {
    struct process *owner;
    binder_uintptr_t pointer, cookie;
} objects[OBJECTS_MAX];
static uint32_t object_count = 1;

void calls_set_manager(struct process *process)
{
    objects[0].owner = process;
}

static uint32_t number_of(struct process *owner, binder_uintptr_t pointer, binder_uintptr_t cookie)
{
    for (uint32_t number = 0; number < object_count; number++)
        if (objects[number].owner == owner && objects[number].pointer == pointer)
            return number;
    CHECK(object_count < OBJECTS_MAX, "no more objects");
    objects[object_count] = (struct object){owner, pointer, cookie};
    return object_count++;
}

static uint32_t handle_of(struct process *process, uint32_t number)
{
    for (uint32_t handle = 0; handle < process->handle_count; handle++)
        if (process->handles[handle] == number)
            return handle;
    CHECK(process->handle_count < HANDLES_MAX, "no more handles");
    process->handles[process->handle_count] = number;
    return process->handle_count++;
}

/* An object, as its receiver knows it. */
static void translate(uint8_t *at, struct process *from, struct process *to)
{
    struct flat_binder_object object;
    memcpy(&object, at, sizeof object);
    bool is_own = object.hdr.type == BINDER_TYPE_BINDER;
    CHECK(is_own || object.hdr.type == BINDER_TYPE_HANDLE, "an object of type %x", object.hdr.type);
    uint32_t number = is_own ? number_of(from, object.binder, object.cookie) : from->handles[object.handle];
    if (objects[number].owner == to) {
        object.hdr.type = BINDER_TYPE_BINDER;
        object.binder = objects[number].pointer;
        object.cookie = objects[number].cookie;
    } else {
        object.hdr.type = BINDER_TYPE_HANDLE;
        object.binder = object.cookie = 0;
        object.handle = handle_of(to, number);
    }
    memcpy(at, &object, sizeof object);
}

/* Brings a parcel from the sender's page to the receiver's window, and its record to how the receiver sees it. */
static void carry(struct thread *sender, struct process *to, struct binder_transaction_data *record)
{
    const uint8_t *area = sender->page->area;
    uint64_t offsets_place = round8(record->data_size);
    CHECK(offsets_place + record->offsets_size <= SLOT_SIZE && to->free_count, "a parcel has no room");
    uint64_t place = (uint64_t)to->free_slots[--to->free_count] * SLOT_SIZE;
    uint8_t *data = to->window + place;
    memcpy(data, area + record->data.ptr.buffer, record->data_size);
    memcpy(data + offsets_place, area + record->data.ptr.offsets, record->offsets_size);
    for (uint64_t i = 0; i < record->offsets_size / 8; i++) {
        uint64_t offset;
        memcpy(&offset, data + offsets_place + 8 * i, sizeof offset);
        translate(data + offset, sender->process, to);
    }
    record->data.ptr.buffer = to->base + place;
    record->data.ptr.offsets = to->base + place + offsets_place;
    record->sender_pid = sender->process->peer.pid;
    record->sender_euid = sender->process->peer.uid;
}

void calls_free(struct process *process, uint64_t pointer)
{
    process->free_slots[process->free_count++] = (uint16_t)((pointer - process->base) / SLOT_SIZE);
}

static void append(struct thread *thread, uint32_t code, const struct binder_transaction_data *record)
{
    memcpy(thread->returns + thread->size, &code, sizeof code);
    thread->size += sizeof code;
    if (record)
        memcpy(thread->returns + thread->size, record, sizeof *record);
    thread->size += record ? sizeof *record : 0;
}

/* The completion of a two-way call is told with its reply. */
static void call(struct thread *thread, struct binder_transaction_data record)
{
    bool is_one_way = record.flags & TF_ONE_WAY;
    const struct object *object = &objects[thread->process->handles[record.target.handle]];
    struct process *to = object->owner;
    if (!to || !to->window) {
        append(thread, BR_DEAD_REPLY, NULL);
        return;
    }
    carry(thread, to, &record);
    record.target.ptr = object->pointer;
    record.cookie = object->cookie;
    CHECK(to->queued - to->taken < QUEUE_MAX, "no more calls");
    to->queue[to->queued++ % QUEUE_MAX] = (struct work){record, is_one_way ? NULL : thread};
    if (is_one_way)
        append(thread, BR_TRANSACTION_COMPLETE, NULL);
    else
        thread->calling++;
    settle(to);
}

static void reply(struct thread *thread, struct binder_transaction_data record)
{
    CHECK(thread->serving, "a reply to nothing");
    struct thread *caller = thread->callers[--thread->serving];
    append(thread, BR_TRANSACTION_COMPLETE, NULL);
    if (!caller->page)
        return;
    carry(thread, caller->process, &record);
    record.target.ptr = record.cookie = 0;
    record.sender_pid = 0;
    caller->calling--;
    append(caller, BR_TRANSACTION_COMPLETE, NULL);
    append(caller, BR_REPLY, &record);
    settle(caller->process);
}

bool calls_wait(const struct thread *thread)
{
    return thread->is_looper && !thread->serving && !thread->calling && thread->process->queued != thread->process->taken;
}

void calls_take(struct thread *thread)
{
    struct process *process = thread->process;
    const struct work *work = &process->queue[process->taken++ % QUEUE_MAX];
    append(thread, BR_TRANSACTION, &work->record);
    if (work->caller)
        thread->callers[thread->serving++] = work->caller;
}

static void run_command(struct thread *thread, uint32_t code, const uint8_t *payload)
{
    struct binder_transaction_data record;
    uint64_t pointer;
    switch (code) {
    case BC_TRANSACTION:
    case BC_TRANSACTION_SG:
        memcpy(&record, payload, sizeof record);
        call(thread, record);
        break;
    case BC_REPLY:
    case BC_REPLY_SG:
        memcpy(&record, payload, sizeof record);
        reply(thread, record);
        break;
    case BC_FREE_BUFFER:
        memcpy(&pointer, payload, sizeof pointer);
        calls_free(thread->process, pointer);
        break;
    case BC_ENTER_LOOPER:
    case BC_REGISTER_LOOPER:
        thread->is_looper = true;
        break;
    case BC_EXIT_LOOPER:
        thread->is_looper = false;
        break;
    }
}

void calls_run(struct thread *thread, const uint8_t *stream, uint32_t size)
{
    for (uint32_t at = 0, code; at < size; at += sizeof code + _IOC_SIZE(code)) {
        memcpy(&code, stream + at, sizeof code);
        run_command(thread, code, stream + at + sizeof code);
    }
}
