/* SPDX-License-Identifier: Apache-2.0 OR MIT */
/* targets.c: who gets a call or a reply, as far as that is known before the engine has it. */
#include "daemon.h"

/* The process that the step at a place has opened. NULL where it has ended. It is mostly one that was asked for before. */
static struct process *process_at(struct engine *engine, uint64_t place)
{
    struct process **latest = &engine->by_place[place % LATEST_PLACES];
    hullpippin_process told;
    if (*latest && (*latest)->opened == place)
        return *latest;
    struct process *process = hullpippin_live_process(&engine->live, place, &told) ? process_of(engine, told.pid) : NULL;
    if (process)
        *latest = process;
    return process;
}

void target_forget(const struct process *process)
{
    struct process **latest = &process->engine->by_place[process->opened % LATEST_PLACES];
    if (*latest == process)
        *latest = NULL;
}

/* The object that a handle names, and its owner's process. NULL where it names none, or one whose owner has ended. */
static struct process *find_object(const struct process *process, uint32_t handle, hullpippin_object_id *id)
{
    struct engine *engine = process->engine;
    hullpippin_object object;
    bool is_named = hullpippin_live_named(&engine->live, process->engine_pid, handle, id)
                    && hullpippin_live_object(&engine->live, id->place, id->index, &object);
    return is_named ? process_at(engine, object.owner) : NULL;
}

/* The call that the thread's next reply answers. Where nothing is known of it, it may be answered with descriptors. */
static struct served latest_served(const struct thread *thread)
{
    bool is_known = thread->reader.serving && thread->reader.serving <= SERVED_KNOWN;
    return is_known ? thread->served[thread->reader.serving - 1] : (struct served){.takes_descriptors = true};
}

struct target target_of(const struct thread *thread, bool is_reply, uint32_t handle)
{
    struct engine *engine = thread->process->engine;
    uint32_t pid = is_reply ? latest_served(thread).caller : 0;
    struct target target = {NULL, {RING_NONE, 0}};
    if (is_reply)
        target.process = pid ? process_of(engine, pid) : NULL;
    else if (handle)
        target.process = find_object(thread->process, handle, &target.object);
    else
        target = (struct target){engine->manager, engine->manager_object};
    return target;
}

uint64_t target_window(const struct target *target, bool is_reply, uint32_t handle)
{
    const struct process *receiver = target->process;
    if (!receiver && !is_reply && !handle)
        return 0; /* there is no context manager, which the engine says before it asks for a parcel */
    return receiver ? receiver->window.size : WINDOW_MAX;
}

bool target_takes_descriptors(const struct thread *thread, bool is_reply, uint32_t handle)
{
    hullpippin_object_id id;
    if (is_reply)
        return latest_served(thread).takes_descriptors;
    if (!handle)
        return thread->process->engine->manager_takes_descriptors;
    const struct process *owner = find_object(thread->process, handle, &id);
    return !owner || owned_takes_descriptors(owner, id.place, id.index);
}

void target_note_served(struct thread *thread, const struct process *caller, uint32_t flags)
{
    if (thread->reader.serving <= SERVED_KNOWN && thread->reader.serving)
        thread->served[thread->reader.serving - 1] = (struct served){caller ? caller->engine_pid : 0, flags & TF_ACCEPT_FDS};
}
