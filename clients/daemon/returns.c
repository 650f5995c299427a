/* SPDX-License-Identifier: Apache-2.0 OR MIT */
/*
 * returns.c: the read half of a BINDER_WRITE_READ. What the engine's reads get is pending until it is handed over,
 * since a client may have less room than the engine wants, and since the completion of a call waits for the reply.
 */
#include "daemon.h"

#include <errno.h>
#include <string.h>

/* What the engine has for the thread, and for its process, beside what that has taken back. */
static hullpippin_cleared beside(const struct thread *thread, const struct cleared_notification *notification)
{
    hullpippin_live *live = &thread->process->engine->live;
    hullpippin_cleared cleared = {.place = notification->place};
    hullpippin_work own, oldest = {0};
    cleared.has_own = hullpippin_live_unread_of_thread(live, thread->seat, 0, &own);
    cleared.has_oldest = hullpippin_live_unread_of_process(live, thread->process->opened, 0, &oldest);
    cleared.oldest = oldest.place;
    return cleared;
}

/* Whether the thread is told of that next. */
static bool is_next(const struct thread *thread, const struct cleared_notification *notification)
{
    hullpippin_facts facts = returns_facts(thread);
    hullpippin_cleared cleared = beside(thread, notification);
    return hullpippin_cleared_next(&cleared, &facts);
}

static __attribute__((noinline)) bool are_there_beside(const struct thread *thread)
{
    hullpippin_facts facts = returns_facts(thread);
    hullpippin_cleared cleared = beside(thread, thread->process->cleared.all);
    return hullpippin_cleared_there(&cleared, &facts);
}

static hullpippin_pending pending_of(const struct thread *thread)
{
    return (hullpippin_pending){thread->pending_size, thread->room, thread->is_looper};
}

bool returns_are_whole(const struct thread *thread)
{
    const hullpippin_pending pending = pending_of(thread);
    return hullpippin_reader_is_whole(&thread->reader, &pending);
}

static bool is_there(const struct thread *thread)
{
    const hullpippin_pending pending = pending_of(thread);
    return hullpippin_reader_is_there(&thread->reader, &pending);
}

/* Of who has read nothing it need not be asked. */
bool returns_are_there(const struct thread *thread)
{
    if (thread->process->cleared.count)
        return are_there_beside(thread);
    return (thread->pending_size || thread->reader.is_full) && is_there(thread);
}

/* Appends returns to the pending ones. There is room: it was left by the limit of the read. */
static void append(struct thread *thread, const uint8_t *bytes, uint32_t size)
{
    memcpy(thread->pending + thread->pending_size, bytes, size);
    thread->pending_size += size;
}

/* A transaction or reply: its parcel goes to the window, and its record becomes the client's. */
static void take_call(struct thread *thread, uint8_t *bytes)
{
    struct binder_transaction_data record;
    uint32_t code;
    memcpy(&code, bytes, sizeof code);
    memcpy(&record, bytes + sizeof code, sizeof record);
    struct process *sender = record.sender_pid ? process_of(thread->process->engine, (uint32_t)record.sender_pid) : NULL;
    record.sender_pid = sender ? caller_pid_for(&sender->caller, &thread->process->caller) : 0;
    parcel_deliver(thread, &record);
    memcpy(bytes + sizeof code, &record, sizeof record);
    if (code == BR_TRANSACTION && !(record.flags & TF_ONE_WAY))
        target_note_served(thread, sender, record.flags);
}

/* What was read is pending from then on. */
static void take_returns(struct thread *thread, uint8_t *returns, uint32_t size)
{
    size_t call = hullpippin_reader_read(&thread->reader, returns, size);
    if (call < size)
        take_call(thread, returns + call);
    append(thread, returns, size);
}

static __attribute__((noinline)) void take_some_cleared(struct thread *thread)
{
    struct cleared *cleared = &thread->process->cleared;
    struct {
        uint32_t code;
        binder_uintptr_t cookie;
    } __attribute__((packed)) done = {.code = BR_CLEAR_DEATH_NOTIFICATION_DONE};
    uint32_t taken = 0;
    if (thread->pending_size || !cleared->count)
        return;
    for (; taken < cleared->count && thread->pending_size + HULLPIPPIN_RETURN_ROOM + sizeof(uint32_t) <= thread->room
           && is_next(thread, &cleared->all[taken]); taken++) {
        done.cookie = cleared->all[taken].cookie;
        append(thread, (const uint8_t *)&done, sizeof done);
        thread->reader.is_prompt = true;
    }
    cleared->count -= taken;
    memmove(cleared->all, cleared->all + taken, cleared->count * sizeof *cleared->all);
}

/* Appends what the process is to be told next, where nothing of the thread's own is pending. */
static void take_cleared(struct thread *thread)
{
    if (thread->process->cleared.count)
        take_some_cleared(thread);
}

/* What the engine's latest read, which was for the thread, has got: 0, or EAGAIN where that was nothing. */
static int take(struct thread *thread, uint8_t *returns, uint32_t size, bool is_something)
{
    if (!is_something) {
        thread->reader.clearings = 0; /* nothing is left to be read of it */
        return EAGAIN;
    }
    if (thread->process->cleared.count)
        settle_clear(thread->process); /* what stood before the first of them may have been this */
    if (size > sizeof(uint32_t))
        take_returns(thread, returns + sizeof(uint32_t), size - sizeof(uint32_t)); /* behind BR_NOOP, which comes first */
    if (thread->has_sent_objects)
        sendings_sort(thread);
    return 0;
}

static int fetch(struct thread *thread, uint32_t limit)
{
    struct engine *engine = thread->process->engine;
    if (thread->pending_size + limit > sizeof thread->pending)
        return ENOBUFS;
    int error = engine_read(engine, thread->seat, limit);
    return error ? error : take(thread, engine->returns, engine->returns_size, engine->answer.kind == HULLPIPPIN_GOT);
}

int returns_fetch(struct thread *thread)
{
    if (thread->has_sent_objects)
        sendings_gather(thread);
    take_cleared(thread);
    const hullpippin_pending pending = pending_of(thread);
    uint32_t limit = hullpippin_reader_limit(&thread->reader, &pending);
    thread->reader.is_full = !limit;
    return limit ? fetch(thread, limit) : 0;
}

/* What others' reads bring for the thread stands before, and is read by steps of its own. */
static __attribute__((noinline)) int take_behind_others(struct thread *thread)
{
    struct engine *engine = thread->process->engine;
    uint8_t returns[PAGE_RETURNS];
    uint32_t size = engine->returns_size;
    bool is_something = engine->answer.kind == HULLPIPPIN_GOT;
    memcpy(returns, engine->returns, size);
    sendings_gather(thread);
    return take(thread, returns, size, is_something);
}

int returns_take(struct thread *thread)
{
    struct engine *engine = thread->process->engine;
    if (thread->has_sent_objects)
        return take_behind_others(thread);
    return take(thread, engine->returns, engine->returns_size, engine->answer.kind == HULLPIPPIN_GOT);
}

/* The least limit leaves no room for the reply behind anything else. */
int returns_fetch_deferred(struct thread *thread)
{
    return returns_facts(thread).fetches ? fetch(thread, HULLPIPPIN_READ_LEAST) : EAGAIN;
}

hullpippin_facts returns_facts(const struct thread *thread)
{
    const hullpippin_pending pending = pending_of(thread);
    hullpippin_facts facts;
    hullpippin_reader_facts(&thread->reader, &pending, &facts);
    return facts;
}

int returns_fetch_sent(struct thread *thread)
{
    int error = 0;
    while (!error && returns_facts(thread).is_left)
        error = fetch(thread, HULLPIPPIN_READ_LEAST);
    return error;
}

/* Sends the descriptors that the library has for what is handed over: as many as there are places for their numbers. */
static __attribute__((noinline)) void send_landing(struct thread *thread, struct landing *landing)
{
    struct engine *engine = thread->process->engine;
    int fds[DESCRIPTORS_MAX];
    landing->is_on_way = false; /* the places stay, for the numbers */
    struct account *account = sent_payer(&engine->sent, landing->step);
    uint32_t count = tickets_take(engine, landing->step, fds);
    thread->page->parcel = landing->parcel;
    for (uint32_t i = 0; i < landing->count; i++)
        thread->page->is_of_array[i] = !landing->is_wide[i];
    if (flight_send(thread, fds, count))
        thread->answer.descriptors = count;
    tickets_close(account, fds, count);
}

/* How many bytes of the pending returns fit into so much room, of which it is told then. */
static uint32_t fitting(struct thread *thread, uint32_t room)
{
    hullpippin_returns_told told;
    hullpippin_reader_told(&thread->reader, thread->pending, thread->pending_size, room, &told);
    if (told.has_call && thread->landing && thread->landing->is_on_way)
        send_landing(thread, thread->landing);
    if (told.is_all)
        sendings_end(thread);
    return (uint32_t)told.size;
}

/* The code that the thread's read is answered with first; 0 where it has no room for that. */
static uint32_t front_of(const struct thread *thread)
{
    struct process *process = thread->process;
    const struct thread *next = waiting_first(process);
    return hullpippin_loopers_answer(&process->loopers, thread->room, thread->is_looper, next && next->waits.is_reading);
}

/* What fits is handed over, behind the first code. */
void returns_deliver(struct thread *thread)
{
    uint32_t size = 0;
    waiting_stop(thread);
    uint32_t first = front_of(thread);
    if (first) {
        take_cleared(thread);
        size = fitting(thread, thread->room - sizeof first);
        page_put(thread, 0, &first, sizeof first);
        page_put(thread, sizeof first, thread->pending, size);
        thread->pending_size -= size;
        if (thread->pending_size)
            memmove(thread->pending, thread->pending + size, thread->pending_size);
        size += sizeof first;
    }
    bool is_ready = thread->reader.calling && hullpippin_live_ready(&thread->process->engine->live, thread->seat);
    hullpippin_reader_delivered(&thread->reader, thread->pending_size, is_ready);
    waiting_ring(thread);
    page_answer(thread, size);
}

void returns_clear(struct process *process, struct cleared_notification notification)
{
    process->cleared.all[process->cleared.count++] = notification;
    settle_clear(process);
}
