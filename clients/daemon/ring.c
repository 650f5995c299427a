/* SPDX-License-Identifier: Apache-2.0 OR MIT */
/*
 * ring.c: writes the latest steps of a device where its user can look at them (ring.h says how they lie there). It is written by the
 * device's thread alone, which looks at nothing of it again: so it matters to nobody who reads it, or how.
 */
#include "daemon.h"

#include <string.h>
#include <unistd.h>

/* Each word is whole for who reads it at any time. */
static void set(uint64_t *word, uint64_t value)
{
    __atomic_store_n(word, value, __ATOMIC_RELAXED);
}

static void count(uint64_t *word)
{
    set(word, *word + 1);
}

bool ring_make(struct ring *ring, const char *device, uint32_t seats)
{
    ring->memory.fd = -1;
    if (!window_make(&ring->memory, RING_HEADING + (uint64_t)RING_SLOTS * RING_SLOT, 0))
        return false;
    ring->heading = (struct ring_heading *)(void *)ring->memory.at;
    *ring->heading = (struct ring_heading){.heading_size = RING_HEADING, .slot_size = RING_SLOT, .slot_count = RING_SLOTS, .seats = seats,
                                           .realtime = realtime_offset(), .daemon = (uint32_t)getpid()};
    memcpy(ring->heading->magic, RING_MAGIC, sizeof ring->heading->magic);
    snprintf(ring->heading->device, sizeof ring->heading->device, "%s", device);
    return true;
}

void ring_conclude(struct ring *ring)
{
    if (ring->heading)
        __atomic_store_n(&ring->heading->is_over, 1, __ATOMIC_RELEASE);
}

void ring_free(struct ring *ring)
{
    if (ring->heading)
        window_free(&ring->memory);
    ring->heading = NULL;
}

static struct ring_slot *slot_of(const struct ring *ring, uint64_t place)
{
    return (struct ring_slot *)(void *)(ring->memory.at + RING_HEADING + place % RING_SLOTS * RING_SLOT);
}

static const char own_name[RING_COMM] = "hullpippind", nobody[RING_COMM];

/* Writes into the slot whose step it was: the seat, and the client that the seat is lent to. */
static void put_client(struct engine *engine, struct ring_slot *slot, const struct step *step)
{
    const struct thread *thread = engine->lent[step->seat];
    slot->seat = step->seat;
    if (thread) {
        const struct process *process = thread->process;
        const uint32_t pid = (uint32_t)process->pid, engine_pid = process->engine_pid;
        slot->pid = pid;
        slot->tid = (uint32_t)thread->name.tid;
        slot->process = engine_pid;
        memcpy(slot->comm, thread->name.comm, sizeof slot->comm);
    } else {
        const bool is_own = !step->seat;
        engine->ring.own_process = is_own && step->pid ? step->pid : engine->ring.own_process;
        slot->pid = is_own ? engine->ring.heading->daemon : 0;
        slot->tid = 0;
        slot->process = is_own ? engine->ring.own_process : 0;
        memcpy(slot->comm, is_own ? own_name : nobody, sizeof slot->comm);
    }
}

/* By an answer's kind; what a command came to isn't told by that alone. */
static const uint8_t answers[] = {[0] = RING_REFUSED, [HULLPIPPIN_OPENED] = RING_OPENED, [HULLPIPPIN_SET] = RING_SET,
                                  [HULLPIPPIN_EXITED] = RING_EXITED, [HULLPIPPIN_WROTE] = RING_ACCEPTED, [HULLPIPPIN_GOT] = RING_GOT};

/* The number of a note, a cause or a fault. */
static uint8_t count_number(uint64_t *numbers, uint32_t number, enum ring_answer answer)
{
    count(&numbers[number % 32]);
    return (uint8_t)answer;
}

static uint8_t answer_of(struct ring_counts *counts, const hullpippin_answer *answer)
{
    uint8_t told = answer->kind < sizeof answers ? answers[answer->kind] : RING_REFUSED;
    if (told == RING_REFUSED)
        return count_number(counts->faults, answer->number, RING_REFUSED);
    if (told != RING_ACCEPTED)
        return told;
    if (answer->stop == HULLPIPPIN_AT_CAUSE)
        return count_number(counts->causes, answer->number, RING_STOPPED);
    return answer->notes ? count_number(counts->notes, answer->number, RING_NOTED) : told;
}

static void put_answer(struct ring_counts *counts, struct ring_slot *slot, const hullpippin_answer *answer)
{
    slot->answer = answer_of(counts, answer);
    slot->number = (uint8_t)answer->number;
    count(&counts->answers[slot->answer]);
}

/* Where a call or reply goes that was taken. The engine is asked where that wasn't known before. */
static void put_target(struct engine *engine, struct ring_slot *slot, const struct target *target)
{
    hullpippin_buffer buffer;
    hullpippin_process receiver;
    if (slot->answer != RING_ACCEPTED)
        return;
    if (target->process) {
        slot->other = target->process->engine_pid;
        slot->object_place = target->object.place;
        slot->object_index = target->object.index;
        return;
    }
    if (!hullpippin_live_buffer(&engine->live, slot->place, &buffer))
        return;
    if (hullpippin_live_process(&engine->live, buffer.receiver, &receiver))
        slot->other = receiver.pid;
    if (buffer.is_call) {
        slot->object_place = buffer.target.place;
        slot->object_index = buffer.target.index;
    }
}

/* A parcel's record, be it sent or read. */
static void put_record(struct ring_slot *slot, const struct binder_transaction_data *record)
{
    slot->code = record->code;
    slot->flags = record->flags;
    slot->data_size = record->data_size;
    slot->offsets_size = record->offsets_size;
}

static void put_sent(struct engine *engine, struct ring_slot *slot, const struct step *step, const uint8_t *payload)
{
    struct binder_transaction_data record;
    memcpy(&record, payload, sizeof record);
    put_record(slot, &record);
    put_target(engine, slot, step->target);
    slot->handle = slot->command == BC_TRANSACTION ? record.target.handle : 0;
    if (record.flags & TF_CLEAR_BUF || !step->data_size)
        return;
    slot->kept = (uint8_t)(step->data_size < RING_DATA ? step->data_size : RING_DATA);
    memcpy(slot->data, step->data, slot->kept);
}

/* An object as its owner knows it, which some commands and returns name. */
static void put_object(struct ring_slot *slot, const uint8_t *payload)
{
    struct binder_ptr_cookie object;
    memcpy(&object, payload, sizeof object);
    slot->pointer = object.ptr;
    slot->cookie = object.cookie;
}

static void put_command(struct engine *engine, struct ring_slot *slot, const struct step *step)
{
    const uint8_t *payload = (const uint8_t *)step->command + sizeof slot->command;
    struct binder_handle_cookie asked;
    memcpy(&slot->command, step->command, sizeof slot->command);
    count(&engine->ring.heading->counts.commands[_IOC_NR(slot->command) % 32]);
    switch (slot->command) {
    case BC_TRANSACTION:
    case BC_REPLY:
        put_sent(engine, slot, step, payload);
        break;
    case BC_INCREFS:
    case BC_ACQUIRE:
    case BC_RELEASE:
    case BC_DECREFS:
        memcpy(&slot->handle, payload, sizeof slot->handle);
        break;
    case BC_INCREFS_DONE:
    case BC_ACQUIRE_DONE:
        put_object(slot, payload);
        break;
    case BC_FREE_BUFFER:
        memcpy(&slot->buffer, payload, sizeof slot->buffer);
        break;
    case BC_REQUEST_DEATH_NOTIFICATION:
    case BC_CLEAR_DEATH_NOTIFICATION:
        memcpy(&asked, payload, sizeof asked);
        slot->handle = asked.handle;
        slot->cookie = asked.cookie;
        break;
    case BC_DEAD_BINDER_DONE:
        memcpy(&slot->cookie, payload, sizeof slot->cookie);
        break;
    }
}

static void put_received(struct engine *engine, struct ring_slot *slot, const uint8_t *payload)
{
    struct binder_transaction_data record;
    hullpippin_frame frame;
    memcpy(&record, payload, sizeof record);
    put_record(slot, &record);
    slot->other = (uint32_t)record.sender_pid;
    slot->euid = record.sender_euid;
    slot->buffer = record.data.ptr.buffer;
    if (slot->command != BR_TRANSACTION)
        return;
    slot->pointer = record.target.ptr;
    slot->cookie = record.cookie;
    if (!(record.flags & TF_ONE_WAY) && hullpippin_live_innermost(&engine->live, slot->seat, &frame) && frame.serves)
        slot->call = frame.made;
}

/* Counts the returns of a read: the last of them, which is the slot's. */
static const uint8_t *last_return(struct engine *engine, uint32_t *code)
{
    uint64_t *const returns = engine->ring.heading->counts.returns;
    const uint8_t *last = engine->returns;
    const uint32_t size = engine->returns_size;
    uint32_t latest = 0;
    for (uint32_t at = 0; at + sizeof latest <= size; at += sizeof latest + _IOC_SIZE(latest)) {
        last = engine->returns + at;
        memcpy(&latest, last, sizeof latest);
        count(&returns[_IOC_NR(latest) % 32]);
    }
    *code = latest;
    return last + sizeof latest;
}

static void put_read(struct engine *engine, struct ring_slot *slot, const struct step *step)
{
    slot->limit = step->limit;
    slot->returns = engine->returns_size;
    const uint8_t *payload = last_return(engine, &slot->command);
    switch (slot->command) {
    case BR_TRANSACTION:
    case BR_REPLY:
        put_received(engine, slot, payload);
        break;
    case BR_INCREFS:
    case BR_ACQUIRE:
    case BR_RELEASE:
    case BR_DECREFS:
        put_object(slot, payload);
        break;
    case BR_DEAD_BINDER:
    case BR_CLEAR_DEATH_NOTIFICATION_DONE:
        memcpy(&slot->cookie, payload, sizeof slot->cookie);
        break;
    }
}

void ring_put_turns(struct engine *engine)
{
    const struct turns *turns = &engine->loop.turns;
    if (!engine->ring.heading)
        return;
    struct ring_counts *counts = &engine->ring.heading->counts;
    set(&counts->turns, turns->count);
    set(&counts->longest_turn, turns->longest_turn);
    set(&counts->longest_wait, turns->longest_wait);
    set(&counts->looks, engine->looks);
    set(&engine->ring.heading->rests, engine->rests);
    set(&engine->ring.heading->left_idle, engine->left_idle);
    set(&counts->copied, engine->copied);
    set(&counts->longest_time, atomic_load_explicit(&turns->longest_time, memory_order_relaxed));
    set(&counts->costly_time, turns->costly_time);
    set(&counts->put_off, turns->put_off);
    set(&counts->longest_end, turns->longest_end);
    set(&counts->longest_open, atomic_load_explicit(&engine->daemon->loop.turns.longest_time, memory_order_relaxed));
}

void ring_count_lent(struct ring *ring, uint32_t lent)
{
    if (!ring->heading)
        return;
    struct ring_counts *counts = &ring->heading->counts;
    set(&counts->seats_lent, lent);
    if (lent > counts->most_lent)
        set(&counts->most_lent, lent);
}

/* What a step may not tell is 0, but for the data. Field by field that takes half of what a call of memset does. */
static void clear(struct ring_slot *slot)
{
    slot->kept = 0;
    slot->command = slot->handle = slot->code = slot->flags = slot->other = 0;
    slot->object_index = slot->euid = slot->limit = slot->returns = 0;
    slot->data_size = slot->offsets_size = slot->buffer = slot->pointer = slot->cookie = 0;
}

static void put_other(struct engine *engine, struct ring_slot *slot, const struct step *step)
{
    struct ring_counts *counts = &engine->ring.heading->counts;
    slot->code = step->window;
    slot->euid = step->euid;
    slot->flags = step->on;
    if (step->kind == RING_OPEN && slot->answer == RING_OPENED)
        count(&counts->processes);
    else if (step->kind == RING_EXIT_PROCESS && slot->answer == RING_EXITED)
        set(&counts->processes, counts->processes - 1);
}

/* Fills all of a slot but its sequence. */
static void fill(struct engine *engine, struct ring_slot *slot, const struct step *step, uint64_t time)
{
    clear(slot);
    slot->time = time;
    slot->place = engine->answer.from;
    slot->kind = (uint8_t)step->kind;
    slot->call = slot->object_place = RING_NONE;
    put_client(engine, slot, step);
    put_answer(&engine->ring.heading->counts, slot, &engine->answer);
    if (step->kind == RING_COMMAND)
        put_command(engine, slot, step);
    else if (step->kind == RING_READ)
        put_read(engine, slot, step);
    else
        put_other(engine, slot, step);
}

void ring_put(struct engine *engine, const struct step *step, uint64_t time)
{
    uint64_t place = engine->before + engine->answer.from; /* of all that the ring has */
    struct ring_slot *slot = slot_of(&engine->ring, place);
    set(&slot->sequence, 2 * place + 1);
    __atomic_thread_fence(__ATOMIC_RELEASE);
    fill(engine, slot, step, time);
    __atomic_store_n(&slot->sequence, 2 * place + 2, __ATOMIC_RELEASE);
    __atomic_store_n(&engine->ring.heading->count, place + 1, __ATOMIC_RELEASE);
}
