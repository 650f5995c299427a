/* SPDX-License-Identifier: Apache-2.0 OR MIT */
/*
 * sendings.c: who of a process is told of an object that it sends, and in which order, as with Linux's driver. Which objects the process's
 * threads have sent without having read yet that they were taken the library keeps (include/hullpippin.h, "Sendings"), and says who is told of
 * each, and what goes before what. Here it is done: returns move between what the threads have read. What the library doesn't know, also for
 * want of memory, is told by the rules.
 */
#include "daemon.h"

#include <string.h>

#define TOLD_SIZE (sizeof(uint32_t) + sizeof(struct binder_ptr_cookie))

/* There are none where none was sent: then the library says that everything stays as it is. */
void sendings_note(struct thread *thread, const struct parcel *parcel, const struct process *receiver)
{
    hullpippin_sendings *sendings = &thread->process->sendings;
    hullpippin_sending sending = {.step = thread->process->engine->steps, .sender = thread->seat};
    if (!parcel->offsets_size)
        return;
    if (receiver) {
        sending.receiver = receiver->engine_pid;
        sending.let_go = receiver->objects_let_go;
    }
    hullpippin_sendings_new(sendings); /* MISUSE where there are some */
    hullpippin_sendings_note(sendings, &sending, parcel->data, parcel->data_size, parcel->offsets, parcel->offsets_size);
    thread->has_sent_objects = true;
}

void sendings_end(struct thread *thread)
{
    if (thread->has_sent_objects && hullpippin_sendings_end(&thread->process->sendings, thread->seat))
        hullpippin_free_sendings(&thread->process->sendings);
    thread->has_sent_objects = false;
}

/* It may wait, and have something to be told by that. */
static void fetch_for(struct thread *thread)
{
    returns_fetch_sent(thread);
    settle_touch(thread);
}

void sendings_gather(struct thread *thread)
{
    hullpippin_sendings *sendings = &thread->process->sendings;
    uint32_t sender;
    for (size_t i = 0; thread->has_sent_objects && i < hullpippin_sendings_count(sendings); i++)
        if (hullpippin_sendings_sender(sendings, thread->seat, i, &sender))
            fetch_for(thread->process->engine->lent[sender]);
}

/* The code and the object of what an owner is told; 0 at the end, and where it is something else. */
static uint32_t told_at(const struct thread *thread, uint32_t at, binder_uintptr_t *ptr)
{
    uint32_t code = 0;
    if (at < thread->pending_size)
        memcpy(&code, thread->pending + at, sizeof code);
    if (code != BR_INCREFS && code != BR_ACQUIRE)
        return 0;
    memcpy(ptr, thread->pending + at + sizeof code, sizeof *ptr);
    return code;
}

/* Behind the return at a place. */
static uint32_t behind(const struct thread *thread, uint32_t at)
{
    uint32_t code;
    memcpy(&code, thread->pending + at, sizeof code);
    return at + sizeof code + _IOC_SIZE(code);
}

/* Takes a return out of the pending ones, and puts it in before a place. */
static void move_to(struct thread *from, uint32_t at, struct thread *to, uint32_t before)
{
    uint8_t told[TOLD_SIZE];
    memcpy(told, from->pending + at, sizeof told);
    from->pending_size -= sizeof told;
    memmove(from->pending + at, from->pending + at + sizeof told, from->pending_size - at);
    memmove(to->pending + before + sizeof told, to->pending + before, to->pending_size - before);
    memcpy(to->pending + before, told, sizeof told);
    to->pending_size += sizeof told;
}

/* The thread that is told of an object in place of this one, if it has room for that; else NULL. */
static struct thread *told_instead(const struct thread *thread, binder_uintptr_t ptr)
{
    uint32_t seat = hullpippin_sendings_told(&thread->process->sendings, thread->seat, ptr);
    struct thread *other = seat != thread->seat ? thread->process->engine->lent[seat] : NULL;
    return other && other->pending_size + TOLD_SIZE <= sizeof other->pending ? other : NULL;
}

/* What the thread has read of objects of which others are told goes to these, who have more to read if they have anything. */
static void hand_over(struct thread *thread)
{
    for (uint32_t at = 0; at < thread->pending_size;) {
        binder_uintptr_t ptr;
        struct thread *other = told_at(thread, at, &ptr) ? told_instead(thread, ptr) : NULL;
        if (other) {
            other->reader.is_behind = true;
            settle_touch(other);
            move_to(thread, at, other, other->pending_size);
        } else {
            at = behind(thread, at);
        }
    }
}

/* Before how many of the returns in front of it, which tell of objects too, one of an object goes; these begin at a place. */
static uint32_t place_in_run(const struct thread *thread, uint32_t begin, uint32_t at, binder_uintptr_t ptr)
{
    binder_uintptr_t before;
    while (at > begin && told_at(thread, at - TOLD_SIZE, &before)
           && hullpippin_sendings_before(&thread->process->sendings, thread->seat, ptr, before))
        at -= TOLD_SIZE;
    return at;
}

static void put_in_order(struct thread *thread)
{
    uint32_t begin = 0;
    for (uint32_t at = 0; at < thread->pending_size; at = behind(thread, at)) {
        binder_uintptr_t ptr;
        if (!told_at(thread, at, &ptr)) {
            begin = behind(thread, at);
            continue;
        }
        uint32_t to = place_in_run(thread, begin, at, ptr);
        if (to < at)
            move_to(thread, at, thread, to);
    }
}

void sendings_sort(struct thread *thread)
{
    hand_over(thread);
    put_in_order(thread);
}
