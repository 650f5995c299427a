/* SPDX-License-Identifier: Apache-2.0 OR MIT */
/*
 * sent.c: what the engine keeps for who sends: a call or reply with its bytes and its objects, until its buffer ends; and of a thread the
 * calls that it waits for and what it hasn't read of its own. Each counts in the share of its sender's process, also once that has ended:
 * else who sends without end would take the memory of all with calls that nobody reads.
 */
#include "daemon.h"

#include <stdlib.h>

/* A process's pieces are taken so many more at a time, and what it has no use for is kept up to twice as many: so few calls have to ask
   what all share. So many records that are in no use are kept too. */
#define PIECES_EACH 32u
#define SPARE_MOST 256u

/* What a call takes beside the bytes of its parcel is reckoned by pieces, of which each of its objects takes one more. */
#define PIECE 1024u

/* As many buffers as a window has room for: none takes less than 8 bytes. */
#define ENDED_MOST (WINDOW_MAX / 8)

/* A thread's are taken so many at a time, so that few calls have to. */
#define OWED_EACH 32u

/* A process's share, as long as anything lives that it has sent. */
struct purse {
    struct account *account;
    uint32_t spare;  /* pieces that are taken, and in no use */
    uint32_t living; /* calls and replies */
    bool is_left;    /* its process has ended */
};

struct sent {
    struct sent *next;
    struct purse *purse;
    uint64_t step;
    uint32_t pieces;
    bool is_wrapped;      /* its parcel has a trailer, and wasn't read yet */
    bool has_descriptors; /* .. and brings descriptors on their way (tickets.c) */
    struct fixups fixups;
};

bool sent_all_begin(struct sent_all *all)
{
    all->heads = calloc(SENT_LISTS, sizeof *all->heads);
    all->ended = malloc(ENDED_MOST * sizeof *all->ended);
    return all->heads && all->ended;
}

/* --- A process's share. --- */

static struct purse *purse_of(struct process *process)
{
    if (!process->purse && (process->purse = malloc(sizeof *process->purse)))
        *process->purse = (struct purse){.account = process->account};
    return process->purse;
}

static bool take(struct purse *purse, uint32_t pieces)
{
    if (purse->spare < pieces) {
        uint32_t more = pieces - purse->spare + PIECES_EACH;
        if (!account_take(purse->account, SHARED_CALLS, more))
            return false;
        purse->spare += more;
    }
    purse->spare -= pieces;
    purse->living++;
    return true;
}

/* What it has no use for goes back, and it goes itself once nothing of its process lives. */
static __attribute__((noinline)) void give_spare_back(struct purse *purse, uint32_t kept)
{
    account_give(purse->account, SHARED_CALLS, purse->spare - kept);
    purse->spare = kept;
    if (purse->is_left && !purse->living)
        free(purse);
}

static void give(struct purse *purse, uint32_t pieces)
{
    uint32_t kept = purse->is_left ? 0 : PIECES_EACH;
    purse->spare += pieces;
    purse->living--;
    if (purse->spare > 2 * kept)
        give_spare_back(purse, kept);
}

void purse_leave(struct process *process)
{
    struct purse *purse = process->purse;
    process->purse = NULL;
    if (!purse)
        return;
    account_give(purse->account, SHARED_CALLS, purse->spare);
    purse->spare = 0;
    purse->is_left = true;
    if (!purse->living)
        free(purse);
}

/* --- What was sent. --- */

static struct sent *new_sent(struct sent_all *all)
{
    struct sent *sent = all->spare;
    if (!sent)
        return malloc(sizeof *sent);
    all->spare = sent->next;
    all->spare_count--;
    return sent;
}

static void let_go(struct sent_all *all, struct sent *sent)
{
    if (all->spare_count >= SPARE_MOST) {
        free(sent);
        return;
    }
    sent->next = all->spare;
    all->spare = sent;
    all->spare_count++;
}

struct sent *sent_new(struct process *process, struct parcel *parcel)
{
    uint64_t bytes = parcel->data_size + parcel->offsets_size, objects = parcel->offsets_size / sizeof(binder_size_t);
    bytes += parcel->fixups.count * sizeof *parcel->fixups.all;
    uint32_t pieces = (uint32_t)(1 + objects + bytes / PIECE);
    struct sent_all *all = &process->engine->sent;
    struct purse *purse = purse_of(process);
    struct sent *sent = purse ? new_sent(all) : NULL;
    if (!sent)
        return NULL;
    if (!take(purse, pieces)) {
        let_go(all, sent);
        return NULL;
    }
    *sent = (struct sent){.purse = purse, .pieces = pieces, .is_wrapped = parcel->is_wrapped,
                           .has_descriptors = parcel->is_on_way, .fixups = parcel->fixups};
    parcel->fixups = (struct fixups){NULL, 0};
    return sent;
}

void sent_free(struct sent_all *all, struct sent *sent)
{
    give(sent->purse, sent->pieces);
    free(sent->fixups.all);
    let_go(all, sent);
}

void sent_keep(struct sent_all *all, struct sent *sent, uint64_t step)
{
    struct sent **head = &all->heads[step % SENT_LISTS];
    sent->step = step;
    sent->next = *head;
    *head = sent;
    all->wrapped += sent->is_wrapped;
}

/* Where it is linked, or its list ends. */
static struct sent **place_of(const struct sent_all *all, uint64_t step)
{
    struct sent **at = &all->heads[step % SENT_LISTS];
    while (*at && (*at)->step != step)
        at = &(*at)->next;
    return at;
}

static struct sent *find(const struct sent_all *all, uint64_t step)
{
    return *place_of(all, step);
}

struct account *sent_payer(const struct sent_all *all, uint64_t step)
{
    const struct sent *sent = find(all, step);
    return sent ? sent->purse->account : NULL;
}

struct fixups sent_unwrap(struct sent_all *all, uint64_t step)
{
    struct sent *sent = find(all, step);
    struct fixups fixups = {NULL, 0};
    if (!sent)
        return fixups;
    fixups = sent->fixups;
    sent->fixups = (struct fixups){NULL, 0};
    all->wrapped -= sent->is_wrapped;
    sent->is_wrapped = false;
    return fixups;
}

static void end(struct sent_all *all, struct sent **at)
{
    struct sent *sent = *at;
    *at = sent->next;
    all->wrapped -= sent->is_wrapped;
    sent_free(all, sent);
}

void sent_see_ended(struct engine *engine)
{
    struct sent_all *all = &engine->sent;
    size_t count = hullpippin_live_ended(&engine->live, all->ended, ENDED_MOST);
    for (size_t i = 0; i < count; i++) {
        struct sent **at = place_of(all, all->ended[i]);
        if (*at && (*at)->has_descriptors)
            tickets_end(engine, all->ended[i]);
        if (*at)
            end(all, at);
    }
}

void sent_all_end(struct sent_all *all)
{
    for (size_t i = 0; all->heads && i < SENT_LISTS; i++)
        while (all->heads[i])
            end(all, &all->heads[i]);
    for (struct sent *sent; (sent = all->spare);) {
        all->spare = sent->next;
        free(sent);
    }
    free(all->heads);
    free(all->ended);
}

/* --- Of a thread. --- */

static __attribute__((noinline)) bool owed_change(struct thread *thread, uint32_t owed)
{
    struct account *account = thread->process->account;
    uint32_t wanted = (owed / OWED_EACH + 1) * OWED_EACH;
    if (wanted < thread->owed)
        account_give(account, SHARED_OWED, thread->owed - wanted);
    else if (!account_take(account, SHARED_OWED, wanted - thread->owed))
        return false;
    thread->owed = wanted;
    return true;
}

/* Few calls have to change what is taken. */
bool owed_take(struct thread *thread)
{
    uint32_t owed = thread->reader.calling + thread->reader.untold + thread->reader.refusals + thread->reader.clearings;
    return (owed < thread->owed && thread->owed - owed <= 2 * OWED_EACH) || owed_change(thread, owed);
}

void owed_end(struct thread *thread)
{
    account_give(thread->process->account, SHARED_OWED, thread->owed);
    thread->owed = 0;
}
