/* SPDX-License-Identifier: Apache-2.0 OR MIT */
/*
 * commands.c: the write half of a BINDER_WRITE_READ. Each command is one step of the engine. What the engine has no
 * command for is done here: registered loopers, and the scatter-gather forms of transactions and replies.
 */
#include "daemon.h"

#include <errno.h>
#include <stdlib.h>
#include <string.h>

#define OWN_SEAT 0u

/* A process that reads of no death notification that it has taken back can't take back more than these. */
#define CLEARED_MOST 65536u

/* A transaction or reply, as the engine reads it. */
struct call_command {
    uint32_t code;
    struct binder_transaction_data data;
} __attribute__((packed));

struct free_command {
    uint32_t code;
    binder_uintptr_t buffer;
} __attribute__((packed));

/* A write whose commands are being run, and for whom. */
struct run {
    struct thread *thread;
    struct engine *engine;
    struct hand *hand; /* .. with the descriptors that came with it */
};

/* What no errno is: the command is to be run in another turn. */
enum { PUT_OFF = -2 };
/* Whether a command has changed something. */
static bool is_done(const struct run *run, int error)
{
    return !error && !run->engine->answer.notes;
}

/* As the kernel's driver has it, nobody calls the context manager through another file that its own process has opened. */
static bool calls_own_manager(const struct run *run, const struct binder_transaction_data *data)
{
    const struct process *manager = run->engine->manager, *process = run->thread->process;
    return data->target.handle == 0 && manager && manager != process && manager->pid == process->pid;
}

/* Whether the receiver's window may have room for so much. What it surely hasn't isn't copied: the engine refuses it by its size. */
static bool may_fit(const struct target *target, const struct binder_transaction_data_sg *record, bool is_reply)
{
    const struct binder_transaction_data *data = &record->transaction_data;
    uint64_t room = target_window(target, is_reply, data->target.handle);
    if (!is_reply && data->flags & TF_ONE_WAY)
        room /= 2;
    return data->data_size <= room && data->offsets_size <= room && record->buffers_size <= room
           && round8(data->data_size) + round8(data->offsets_size) + round8(record->buffers_size) <= room;
}

/* How many nanoseconds a step takes for an object, and for so many bytes, of a parcel: about, and for the turns alone (turns.c). */
#define OBJECT_NANOSECONDS 3500u
#define BYTES_OF_NANOSECOND 2u

static uint64_t price_of(const struct binder_transaction_data_sg *record)
{
    const struct binder_transaction_data *data = &record->transaction_data;
    return data->offsets_size / sizeof(binder_size_t) * OBJECT_NANOSECONDS + (data->data_size + record->buffers_size) / BYTES_OF_NANOSECOND;
}

/* Has the engine run it: the parcel goes with it, or is let go of. */
static int send_call(struct run *run, bool is_reply, const struct target *target, const struct binder_transaction_data *data,
                     struct parcel *parcel)
{
    struct call_command command = {is_reply ? BC_REPLY : BC_TRANSACTION, *data};
    if (!parcel->is_lost) {
        command.data.data_size = parcel->data_size;
        command.data.offsets_size = parcel->offsets_size;
    } else if (!command.data.data_size) {
        command.data.data_size = sizeof(uint64_t); /* which isn't there */
    }
    command.data.data.ptr.buffer = 0;
    command.data.data.ptr.offsets = round8(command.data.data_size);
    int error = engine_call(run->engine, run->thread->seat, target, &command, sizeof command, parcel->data, parcel->data_size,
                            parcel->offsets, parcel->offsets_size);
    if (error || run->engine->answer.stop != HULLPIPPIN_AT_END)
        parcel_refuse(parcel, run->thread->process);
    return error;
}

static void read_record(struct binder_transaction_data_sg *record, uint32_t code, const uint8_t *payload)
{
    memcpy(&record->transaction_data, payload, sizeof record->transaction_data);
    record->buffers_size = 0;
    if (code == BC_TRANSACTION_SG || code == BC_REPLY_SG)
        memcpy(&record->buffers_size, payload + sizeof record->transaction_data, sizeof record->buffers_size);
}

static int run_call(struct run *run, uint32_t code, const uint8_t *payload)
{
    struct parcel parcel;
    uint32_t made;
    bool is_reply = code == BC_REPLY || code == BC_REPLY_SG;
    struct binder_transaction_data_sg record;
    struct process *process = run->thread->process;
    parcel_begin(&parcel);
    if (!caller_euid(&process->caller, &parcel.euid))
        return EPERM;
    if (!owed_take(run->thread))
        return ENOMEM;
    parcel.tells_euid = parcel.euid != process->euid;
    read_record(&record, code, payload);
    if (!is_reply && calls_own_manager(run, &record.transaction_data))
        record.transaction_data.target.handle = NO_HANDLE;
    uint32_t left = run->hand->count - run->hand->taken;
    parcel.offered = left && target_takes_descriptors(run->thread, is_reply, record.transaction_data.target.handle) ? left : 0;
    struct target target = target_of(run->thread, is_reply, record.transaction_data.target.handle);
    bool may = may_fit(&target, &record, is_reply);
    if (may && !turns_may_make(&run->engine->loop.turns, price_of(&record)))
        return PUT_OFF;
    if (may)
        parcel_fetch(&parcel, run->thread, &record, run->hand);
    else
        parcel.is_lost = true;
    run->engine->copied += parcel.data_size + parcel.offsets_size;
    struct sent *sent = parcel.is_lost ? NULL : sent_new(process, &parcel);
    if (!owned_take(process, &parcel, &made) || !sent)
        parcel_lose(&parcel);
    int error = send_call(run, is_reply, &target, &record.transaction_data, &parcel);
    bool is_taken = !error && run->engine->answer.stop == HULLPIPPIN_AT_END;
    owned_note(process, &parcel, made, is_taken);
    if (sent && is_taken)
        sent_keep(&run->engine->sent, sent, run->engine->answer.from);
    else if (sent)
        sent_free(&run->engine->sent, sent);
    if (error)
        return error;
    uint32_t kind = is_reply ? HULLPIPPIN_SENT_REPLY : record.transaction_data.flags & TF_ONE_WAY ? HULLPIPPIN_SENT_ONE_WAY : HULLPIPPIN_SENT_CALL;
    hullpippin_reader_sent(&run->thread->reader, kind, run->engine->answer.stop, run->engine->answer.number);
    if (run->engine->answer.stop == HULLPIPPIN_AT_END)
        sendings_note(run->thread, &parcel, target.process);
    return 0;
}

/* The client's pointers begin where it has mapped its window. */
int command_free(struct thread *thread, uint64_t pointer)
{
    struct process *process = thread->process;
    uint64_t place = pointer - process->window.base;
    struct free_command command = {BC_FREE_BUFFER, place + WINDOW_BASE};
    unsigned handed = process_handed(process, place);
    if (handed == NOT_HANDED)
        return engine_pass(process->engine);
    int error = engine_command(process->engine, thread->seat, &command, sizeof command);
    if (!error) {
        process->objects_let_go += handed == HANDED_WITH_OBJECTS;
        process_note_handed(process, place, NOT_HANDED);
        process_clear_secret(process, place);
    }
    return error;
}

static int run_free(struct run *run, const uint8_t *payload)
{
    uint64_t pointer;
    memcpy(&pointer, payload, sizeof pointer);
    return command_free(run->thread, pointer);
}

/* Loopers of both kinds are in the engine's loop, or of neither, as the library has it. */
static int run_looper(struct run *run, uint32_t code)
{
    bool enters = hullpippin_loopers_enter(code);
    uint32_t command = enters ? BC_ENTER_LOOPER : BC_EXIT_LOOPER;
    int error = engine_command(run->engine, run->thread->seat, &command, sizeof command);
    if (error)
        return error;
    run->thread->is_looper = enters;
    run->thread->has_looped = run->thread->has_looped || enters;
    hullpippin_loopers_attach(&run->thread->process->loopers, code);
    return 0;
}

static bool has_room(struct cleared *cleared)
{
    if (cleared->count < cleared->room)
        return true;
    uint32_t room = cleared->room ? 2 * cleared->room : 16;
    struct cleared_notification *all = room <= CLEARED_MOST ? realloc(cleared->all, room * sizeof *all) : NULL;
    if (!all)
        return false;
    *cleared = (struct cleared){all, cleared->count, room};
    return true;
}

/*
 * The engine tells the thread that takes a death notification back that this is done. As in the kernel one that never was in the
 * loop isn't told, but whoever of its process reads next there. So the daemon's own seat does it for the process, and what it
 * would read is known: the cookie that the command ends with.
 */
static int clear_for_process(struct run *run, const uint8_t *command, uint32_t size)
{
    struct process *process = run->thread->process;
    struct cleared_notification notification;
    memcpy(&notification.cookie, command + size - sizeof notification.cookie, sizeof notification.cookie);
    int error = has_room(&process->cleared) ? process_enter(process) : ENOMEM;
    if (error)
        return error;
    error = engine_command(run->engine, OWN_SEAT, command, size);
    notification.place = run->engine->answer.from;
    bool is_told = !error && hullpippin_live_ready(&run->engine->live, OWN_SEAT);
    int left = process_leave(process);
    if (is_told)
        returns_clear(process, notification);
    return error ? error : left;
}

/* Whether the thread's list tells, as the library looks through it, that a notification was taken back. */
static bool is_clearing_unread(const struct run *run)
{
    hullpippin_work work = {0};
    uint32_t unread = HULLPIPPIN_CLEARED_LOOKS_ON;
    for (size_t index = 0; unread == HULLPIPPIN_CLEARED_LOOKS_ON; index++) {
        bool is_item = hullpippin_live_unread_of_thread(&run->engine->live, run->thread->seat, index, &work);
        unread = hullpippin_cleared_unread(is_item, work.kind, index);
    }
    return unread == HULLPIPPIN_CLEARED_IS_TOLD;
}

/* Takes a death notification back; a thread that is told of it is told at once, and not with a reply. */
static int run_clearing(struct run *run, const uint8_t *command, uint32_t size)
{
    if (!run->thread->has_looped)
        return clear_for_process(run, command, size);
    if (!owed_take(run->thread))
        return ENOMEM;
    int error = engine_command(run->engine, run->thread->seat, command, size);
    run->thread->reader.clearings += is_done(run, error);
    run->thread->reader.is_prompt = run->thread->reader.is_prompt || (!error && is_clearing_unread(run));
    return error;
}

/* The kernel doesn't let the manager have references on itself. */
static int run_reference(struct run *run, const uint8_t *command, uint32_t size)
{
    enum { OWN_MANAGER = 4 }; /* N4 */
    struct process *process = run->thread->process;
    uint32_t handle;
    bool is_new;
    memcpy(&handle, command + sizeof(uint32_t), sizeof handle);
    if (!kept_take_handle(process, handle, &is_new))
        return ENOMEM;
    int error = engine_command(run->engine, run->thread->seat, command, size);
    kept_note_handle(process, handle, is_new, is_done(run, error));
    bool is_own = !error && run->engine->answer.notes && run->engine->answer.number == OWN_MANAGER;
    return is_own ? EINVAL : error;
}

static int run_release(struct run *run, const uint8_t *command, uint32_t size)
{
    uint32_t handle;
    memcpy(&handle, command + sizeof(uint32_t), sizeof handle);
    int error = engine_command(run->engine, run->thread->seat, command, size);
    if (is_done(run, error))
        kept_release_handle(run->thread->process, handle);
    return error;
}

static int run_asking(struct run *run, const uint8_t *command, uint32_t size)
{
    struct process *process = run->thread->process;
    if (!kept_take_death(process))
        return ENOMEM;
    int error = engine_command(run->engine, run->thread->seat, command, size);
    kept_note_death(process, run->engine->answer.from, is_done(run, error));
    return error;
}

static int run_command(struct run *run, uint32_t code, const uint8_t *command)
{
    const uint8_t *payload = command + sizeof code;
    uint32_t size = sizeof code + _IOC_SIZE(code);
    switch (code) {
    case BC_TRANSACTION:
    case BC_REPLY:
    case BC_TRANSACTION_SG:
    case BC_REPLY_SG:
        return run_call(run, code, payload);
    case BC_FREE_BUFFER:
        return run_free(run, payload);
    case BC_REGISTER_LOOPER:
    case BC_ENTER_LOOPER:
    case BC_EXIT_LOOPER:
        return run_looper(run, code);
    case BC_CLEAR_DEATH_NOTIFICATION:
    case BC_DEAD_BINDER_DONE:
        return run_clearing(run, command, size);
    case BC_REQUEST_DEATH_NOTIFICATION:
        return run_asking(run, command, size);
    case BC_INCREFS:
    case BC_ACQUIRE:
        return run_reference(run, command, size);
    case BC_RELEASE:
    case BC_DECREFS:
        return run_release(run, command, size);
    default:
        return engine_command(run->engine, run->thread->seat, command, size);
    }
}

/* Whether what is left of the stream waits for another turn. Buffers that are given back right behind a reply are so before anybody has
   that: who has it may call again, and need their room. */
static bool is_to_stop(const struct run *run, const uint8_t *rest, uint32_t left)
{
    struct turns *turns = &run->engine->loop.turns;
    uint32_t code = 0;
    if (!turns_is_over(turns))
        return false;
    if (left >= sizeof code)
        memcpy(&code, rest, sizeof code);
    return code != BC_FREE_BUFFER || turns_has_made_steps(turns);
}

int commands_run(struct thread *thread, const uint8_t *stream, uint32_t size, struct hand *hand)
{
    struct run run = {thread, thread->process->engine, hand};
    struct page_answer *answer = &thread->answer;
    while (answer->consumed < size) {
        const uint8_t *command = stream + answer->consumed;
        uint32_t code, left = size - answer->consumed;
        if (left < sizeof code)
            return EINVAL;
        memcpy(&code, command, sizeof code);
        if (left - sizeof code < _IOC_SIZE(code))
            return EINVAL;
        int error = run_command(&run, code, command);
        if (error)
            return error == PUT_OFF ? 0 : error;
        answer->consumed += sizeof code + _IOC_SIZE(code);
        bool is_over = is_to_stop(&run, stream + answer->consumed, size - answer->consumed);
        if (run.engine->answer.kind == HULLPIPPIN_WROTE && run.engine->answer.stop == HULLPIPPIN_AT_CAUSE) {
            log_event("process %d: command %08x is refused by X%u", thread->process->pid, code, run.engine->answer.number);
            answer->refused = 1;
            return 0;
        }
        if (is_over)
            return 0;
    }
    return 0;
}
