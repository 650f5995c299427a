/* SPDX-License-Identifier: Apache-2.0 OR MIT */
/*
 * doorbells.c: what a client's thread polls in the place of its binder file. It is readable while the thread's read
 * would find something.
 *
 * It is a pair of sockets, of which the daemon keeps both ends: it rings by a byte, and takes the byte back, each
 * without waiting whatever the client has made of its end. An eventfd would be one description for both, which a
 * client could make block.
 */
#include "daemon.h"

#include <sys/socket.h>

bool doorbell_make(struct thread *thread)
{
    int ends[2];
    if (thread->doorbell >= 0)
        return true;
    if (!account_take(thread->process->account, SHARED_DESCRIPTORS, DOORBELL_DESCRIPTORS))
        return false;
    if (socketpair(AF_UNIX, SOCK_STREAM | SOCK_CLOEXEC, 0, ends)) {
        account_give(thread->process->account, SHARED_DESCRIPTORS, DOORBELL_DESCRIPTORS);
        return false;
    }
    thread->doorbell = ends[0];
    thread->doorbell_end = ends[1];
    thread->is_rung = false;
    thread->waits.polls = true;
    thread->process->pollers++;
    return true;
}

void doorbell_set(struct thread *thread, bool rings)
{
    char byte = 0;
    if (thread->doorbell < 0 || thread->is_rung == rings)
        return;
    thread->is_rung = rings;
    ssize_t done = rings ? send(thread->doorbell, &byte, 1, MSG_DONTWAIT | MSG_NOSIGNAL)
                         : recv(thread->doorbell_end, &byte, 1, MSG_DONTWAIT);
    if (done != 1)
        log_event("a doorbell of process %d was tampered with", thread->process->pid);
}

void doorbell_free(struct thread *thread)
{
    if (thread->doorbell >= 0) {
        account_give(thread->process->account, SHARED_DESCRIPTORS, DOORBELL_DESCRIPTORS);
        thread->waits.polls = false;
        thread->process->pollers--;
    }
    descriptor_end(&thread->doorbell);
    descriptor_end(&thread->doorbell_end);
}
