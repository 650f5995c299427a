/* SPDX-License-Identifier: Apache-2.0 OR MIT */
/*
 * tickets.c: the descriptors of parcels that are on their way, from when the sender's step is made until they are handed over, or their
 * buffer ends. Which of them goes with which parcel the library keeps (include/hullpippin.h, "Tickets"): proved is that none is lost, and
 * none handed out twice. Here what it hands out is sent on or closed.
 *
 * A descriptor on its way counts in the share of who has sent it (shares.c), also when that one has ended. Where that is used up the
 * next parcel is refused, and nobody else notices.
 */
#include "daemon.h"

bool tickets_put(struct process *process, uint64_t step, const int *fds, uint32_t count)
{
    if (!account_take(process->account, SHARED_DESCRIPTORS, count)) {
        log_event("process %d has its share of descriptors, and can't send %u more", process->pid, count);
        return false;
    }
    if (hullpippin_tickets_put(&process->engine->tickets, step, (const uint32_t *)fds, count) == HULLPIPPIN_DONE)
        return true;
    account_give(process->account, SHARED_DESCRIPTORS, count);
    return false;
}

uint32_t tickets_take(struct engine *engine, uint64_t step, int fds[DESCRIPTORS_MAX])
{
    size_t count = 0;
    hullpippin_tickets_take(&engine->tickets, step, (uint32_t *)fds, DESCRIPTORS_MAX, &count);
    return (uint32_t)count;
}

void tickets_close(struct account *account, int *fds, uint32_t count)
{
    struct account *before = descriptors_close_for(account);
    descriptors_close(fds, count);
    descriptors_close_for(before);
    if (account)
        account_give(account, SHARED_DESCRIPTORS, count);
}

void tickets_end(struct engine *engine, uint64_t step)
{
    int fds[DESCRIPTORS_MAX];
    uint32_t count = tickets_take(engine, step, fds);
    if (count)
        tickets_close(sent_payer(&engine->sent, step), fds, count);
}

void tickets_end_all(struct engine *engine)
{
    uint64_t step;
    while (hullpippin_tickets_some_step(&engine->tickets, &step))
        tickets_end(engine, step);
    hullpippin_free_tickets(&engine->tickets);
}
