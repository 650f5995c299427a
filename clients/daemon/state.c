/* SPDX-License-Identifier: Apache-2.0 OR MIT */
/*
 * state.c: what a device's processes and threads are at, and which handles and buffers there are, for who asks. It is told a page at a
 * time, each in a turn of who asks, so that nobody else waits for the whole: the pages are of moments of their own.
 */
#include "daemon.h"

#include <string.h>

/* A page looks at so many buckets of processes, or seats, at most, and as often for a handle or a buffer. */
#define BUCKETS_AT_ONCE 64u
#define SEATS_AT_ONCE 1024u
#define LISTS_AT_ONCE 256u
#define LOOKS_AT_ONCE 24u

/* Where a page begins: at a list of shares, behind so many as stand beside; at the handles or the buffers of the process that was opened at
   a place, from the number on that stands beside; at a seat; or at a bucket of processes, and so many further on there. No device makes
   2^61 steps: they would take ten thousand years. */
#define AT_SHARE (AT_BUFFER | AT_HANDLE)
#define AT_BUFFER (UINT64_C(1) << 63)
#define AT_HANDLE (UINT64_C(1) << 62)
#define AT_SEAT (UINT64_C(1) << 61)
#define BUCKET_SHIFT 24
#define IN_BUCKET ((UINT64_C(1) << BUCKET_SHIFT) - 1)

/* A place among the buckets is below that of any seat, and a bucket has no more processes than there are pids for it. */
#define BUCKETS (sizeof ((struct engine *)0)->by_pid / sizeof *((struct engine *)0)->by_pid)
_Static_assert(BUCKETS << BUCKET_SHIFT <= AT_SEAT && ((UINT64_C(1) << 31) + BUCKETS - 1) / BUCKETS <= IN_BUCKET + 1,
               "places of pages are told apart");

static uint32_t unread_of_thread(struct engine *engine, uint32_t seat)
{
    hullpippin_work work;
    uint32_t count = 0;
    while (count < STATE_UNREAD && hullpippin_live_unread_of_thread(&engine->live, seat, count, &work))
        count++;
    return count;
}

static uint32_t unread_of_process(struct engine *engine, uint32_t pid)
{
    hullpippin_work work;
    uint32_t count = 0;
    uint64_t made;
    if (!hullpippin_live_process_of_pid(&engine->live, pid, &made))
        return 0;
    while (count < STATE_UNREAD && hullpippin_live_unread_of_process(&engine->live, made, count, &work))
        count++;
    return count;
}

static void tell_process(struct engine *engine, const struct process *process, struct state_record *record)
{
    struct name name;
    name_find(&name, &process->caller, 0);
    *record = (struct state_record){.kind = STATE_PROCESS, .process = process->engine_pid, .pid = (uint32_t)process->pid,
                                    .euid = process->euid, .window = (uint32_t)process->window.size, .threads = process->thread_count,
                                    .max_threads = process->loopers.max, .requested = process->loopers.requested,
                                    .started = process->loopers.started,
                                    .unread = unread_of_process(engine, process->engine_pid)};
    record->flags = (process == engine->manager ? STATE_MANAGER : 0) | (process->detects_spam ? STATE_DETECTS_SPAM : 0);
    memcpy(record->comm, name.comm, sizeof record->comm);
}

static void tell_thread(struct engine *engine, const struct thread *thread, struct state_record *record)
{
    hullpippin_frame frame = {.made = RING_NONE};
    hullpippin_live_innermost(&engine->live, thread->seat, &frame);
    *record = (struct state_record){.kind = STATE_THREAD, .process = thread->process->engine_pid, .pid = (uint32_t)thread->process->pid,
                                    .tid = (uint32_t)thread->name.tid, .seat = thread->seat, .serving = thread->reader.serving,
                                    .calling = thread->reader.calling, .innermost = frame.made, .unread = unread_of_thread(engine, thread->seat)};
    record->flags = (thread->is_looper ? STATE_LOOPS : 0) | (thread->waits.is_reading ? STATE_WAITS : 0);
    memcpy(record->comm, thread->name.comm, sizeof record->comm);
}

/* Tells those of a bucket that find room, from one on. Whether that are all. */
static bool tell_bucket(struct engine *engine, const struct list *bucket, uint64_t from, struct state_page *page)
{
    uint64_t index = 0;
    const struct list *entry = bucket->next;
    for (; entry != bucket && page->count < STATE_ROOM; entry = entry->next, index++)
        if (index >= from)
            tell_process(engine, container_of(entry, struct process, in_bucket), &page->records[page->count++]);
    return entry == bucket;
}

static void tell_processes(struct engine *engine, uint64_t from, struct state_page *page)
{
    uint64_t bucket = from >> BUCKET_SHIFT, index = from & IN_BUCKET, last = bucket + BUCKETS_AT_ONCE;
    for (; bucket < BUCKETS && bucket < last; bucket++, index = 0) {
        uint32_t before = page->count;
        if (!tell_bucket(engine, &engine->by_pid[bucket], index, page)) {
            page->next = bucket << BUCKET_SHIFT | (index + page->count - before);
            return;
        }
    }
    page->next = bucket < BUCKETS ? bucket << BUCKET_SHIFT : AT_SEAT;
}

static void tell_threads(struct engine *engine, uint64_t from, struct state_page *page)
{
    uint64_t seat = from, last = from + SEATS_AT_ONCE;
    for (; seat < engine->seats && seat < last && page->count < STATE_ROOM; seat++)
        if (engine->lent[seat] && engine->lent[seat]->seat == seat)
            tell_thread(engine, engine->lent[seat], &page->records[page->count++]);
    page->next = seat < engine->seats ? AT_SEAT | seat : AT_HANDLE;
}

/* The pid in the history of the process that was opened at a place, or 0 where that has ended. */
static uint32_t pid_of(struct engine *engine, uint64_t made)
{
    hullpippin_process process;
    return hullpippin_live_process(&engine->live, made, &process) ? process.pid : 0;
}

/* Tells the first handle of a process from a number on, and goes behind it. Whether there is one. */
static bool tell_handle(struct engine *engine, uint64_t process, uint64_t *from, struct state_record *record)
{
    hullpippin_object_id id;
    hullpippin_object object;
    uint32_t handle, pid = pid_of(engine, process);
    if (*from > UINT32_MAX || !hullpippin_live_next_handle(&engine->live, pid, (uint32_t)*from, &handle)
        || !hullpippin_live_named(&engine->live, pid, handle, &id) || !hullpippin_live_object(&engine->live, id.place, id.index, &object))
        return false;
    *record = (struct state_record){.kind = STATE_HANDLE, .process = pid, .handle = handle, .object_place = id.place,
                                    .object_index = id.index, .party = pid_of(engine, object.owner)};
    *from = (uint64_t)handle + 1;
    return true;
}

/* The same of its buffers, by the places where they were made. */
static bool tell_buffer(struct engine *engine, uint64_t process, uint64_t *from, struct state_record *record)
{
    hullpippin_buffer buffer;
    uint64_t made;
    if (!hullpippin_live_next_buffer(&engine->live, process, *from, &made)
        || !hullpippin_live_buffer(&engine->live, made, &buffer))
        return false;
    *record = (struct state_record){.kind = STATE_BUFFER, .process = pid_of(engine, process), .made = made, .start = buffer.start,
                                    .size = buffer.size, .code = buffer.code, .party = pid_of(engine, buffer.sender)};
    record->flags = (buffer.one_way ? STATE_ONE_WAY : 0) | (buffer.handed ? STATE_HANDED : 0) | (buffer.is_call ? STATE_CALL : 0);
    if (buffer.is_call) {
        record->object_place = buffer.target.place;
        record->object_index = buffer.target.index;
    }
    *from = made + 1; /* no step stands at the last place */
    return true;
}

/* Tells what processes have, of the one or the other kind: from a process on, and there from a number on. */
static void tell_things(struct engine *engine, uint64_t kind, uint64_t process, uint64_t from, struct state_page *page)
{
    bool (*tell)(struct engine *, uint64_t, uint64_t *, struct state_record *) = kind == AT_HANDLE ? tell_handle : tell_buffer;
    for (uint32_t looks = 0; looks < LOOKS_AT_ONCE && page->count < STATE_ROOM; looks++) {
        uint64_t found;
        if (!hullpippin_live_next_process(&engine->live, process, &found)) {
            page->next = kind == AT_HANDLE ? AT_BUFFER : AT_SHARE;
            return;
        }
        from = found == process ? from : 0;
        process = found;
        if (tell(engine, process, &from, &page->records[page->count])) {
            page->count++;
        } else {
            process++; /* no step stands at the last place, so there is a next one */
            from = 0;
        }
    }
    page->next = kind | process;
    page->within = from;
}

static struct state_record record_of(const struct share *share)
{
    return (struct state_record){.kind = STATE_SHARE, .object_place = share->whose, .euid = share->uid, .pid = (uint32_t)share->pid,
                                 .code = share->what, .made = share->used, .innermost = share->refused,
                                 .flags = share->kind == OF_WHOLE ? STATE_OF_ACCOUNT : share->kind == OF_USER ? STATE_OF_USER : 0};
}

/* Tells those of a list, behind so many, that find room: how many these are. */
static uint32_t tell_list(uint64_t list, uint64_t skipped, struct state_page *page)
{
    struct share shares[STATE_ROOM];
    uint32_t count = shares_tell((uint32_t)list, skipped, shares, STATE_ROOM - page->count);
    for (uint32_t i = 0; i < count; i++)
        page->records[page->count++] = record_of(&shares[i]);
    return count;
}

/* What all have of what is shared out, on all devices: accounts, their users, and the processes of these. */
static void tell_shares(uint64_t list, uint64_t skipped, struct state_page *page)
{
    uint64_t last = list + LISTS_AT_ONCE;
    while (list < SHARE_LISTS && list < last && page->count < STATE_ROOM) {
        uint32_t room = STATE_ROOM - page->count, count = tell_list(list, skipped, page);
        skipped = count < room ? 0 : skipped + count;
        list += count < room;
    }
    page->next = list < SHARE_LISTS ? AT_SHARE | list : 0;
    page->within = skipped;
}

void state_tell(struct engine *engine, uint64_t from, uint64_t within, struct state_page *page)
{
    const uint64_t kind = from & (AT_BUFFER | AT_HANDLE | AT_SEAT), rest = from & (AT_SEAT - 1);
    *page = (struct state_page){.place = hullpippin_live_len(&engine->live)};
    if (kind == AT_SEAT)
        tell_threads(engine, rest, page);
    else if (kind == AT_SHARE)
        tell_shares(rest, within, page);
    else if (kind == AT_HANDLE || kind == AT_BUFFER)
        tell_things(engine, kind, rest, within, page);
    else if (from < AT_SEAT)
        tell_processes(engine, from, page);
}
