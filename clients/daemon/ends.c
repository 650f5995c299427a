/* SPDX-License-Identifier: Apache-2.0 OR MIT */
/*
 * ends.c: what a process that has much gives back before its exit. The engine ends a process in one step, which takes as long as that has
 * handles and buffers, and nobody else is served meanwhile. So the daemon's own seat becomes a thread of such a process, once all
 * of its own threads have ended, and gives back a few in each turn; with a handle's last reference its death notification goes too. What
 * only the exit ends stays for that: the process's own objects, and what nobody has read.
 */
#include "daemon.h"

#include <string.h>

#define OWN_SEAT 0u

/* So many handles, and as many buffers, end with their process in one step. */
#define AT_ONCE 128u

/* So many are given back in each turn, however long its beginning took: it would never be done else. */
#define LEAST_GIVEN 8

/* After so many numbers that name nothing the engine is asked for the next one that does, for which it looks at all of them. */
#define MISSES_MOST 64u

struct reference_command {
    uint32_t code, handle;
} __attribute__((packed));

struct free_command {
    uint32_t code;
    binder_uintptr_t buffer;
} __attribute__((packed));

/* Whether the command has changed something. */
static bool does(struct engine *engine, const void *command, size_t size)
{
    return !engine_command(engine, OWN_SEAT, command, size) && engine->answer.kind == HULLPIPPIN_WROTE && !engine->answer.notes;
}

/* Gives one reference back by the handle. False where the process has asked for none. */
static bool give_reference(struct process *process, uint32_t handle)
{
    const struct reference_command strong = {BC_RELEASE, handle}, weak = {BC_DECREFS, handle};
    process->objects_let_go++;
    return does(process->engine, &strong, sizeof strong) || does(process->engine, &weak, sizeof weak);
}

/* Sees to one reference, or number. False where no handle is left. */
static bool give_next_handle(struct process *process)
{
    struct engine *engine = process->engine;
    struct giving *giving = &process->giving;
    hullpippin_object_id id;
    if (hullpippin_live_named(&engine->live, process->engine_pid, giving->handle, &id)) {
        giving->misses = 0;
        giving->handle += !give_reference(process, giving->handle);
        return true;
    }
    giving->handle++;
    if (++giving->misses < MISSES_MOST)
        return true;
    giving->misses = 0;
    return hullpippin_live_next_handle(&engine->live, process->engine_pid, giving->handle, &giving->handle);
}

/* Frees the next buffer that the process was handed. False where none is left. */
static bool give_next_buffer(struct process *process)
{
    struct engine *engine = process->engine;
    struct giving *giving = &process->giving;
    hullpippin_buffer buffer;
    place_number made;
    if (!hullpippin_live_next_buffer(&engine->live, giving->process, giving->from, &made))
        return false;
    giving->from = made + 1;
    if (hullpippin_live_buffer(&engine->live, made, &buffer) && buffer.handed) {
        const struct free_command command = {BC_FREE_BUFFER, WINDOW_BASE + buffer.start};
        process->objects_let_go++;
        does(engine, &command, sizeof command);
    }
    return true;
}

/* Whether the process has so much that it is to be given back before. */
static bool has_much(struct process *process)
{
    uint32_t handle;
    struct engine *engine = process->engine;
    bool has = process->handed_count > AT_ONCE || hullpippin_live_next_handle(&engine->live, process->engine_pid, AT_ONCE, &handle);
    return has && hullpippin_live_process_of_pid(&engine->live, process->engine_pid, &process->giving.process);
}

bool ends_give_some(struct process *process)
{
    struct engine *engine = process->engine;
    struct giving *giving = &process->giving;
    giving->is_begun = giving->is_begun || (engine->manager != process && has_much(process));
    if (!giving->is_begun || giving->is_done || engine->is_over)
        return true;
    while (process->thread_count) {
        thread_end(container_of(process->threads.next, struct thread, in_process));
        if (turns_is_over(&engine->loop.turns))
            return false;
    }
    if (process_enter(process))
        return true;
    for (int i = 0; !giving->is_done && (i < LEAST_GIVEN || !turns_is_over(&engine->loop.turns)); i++)
        giving->is_done = !give_next_buffer(process) && !give_next_handle(process);
    process_leave(process);
    return giving->is_done;
}
