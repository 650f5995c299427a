/* SPDX-License-Identifier: Apache-2.0 OR MIT */
/*
 * flight.c: descriptors on their way to a client. They lie in a socket until it takes them, and the kernel lets no user have more of them
 * there than descriptors in one process: then nobody gets any. So in each socket there is one packet of them at a time. Those in a thread's
 * link count as long in its process's share; of a connection they are no more than count for that itself.
 */
#include "daemon.h"

#include <linux/sock_diag.h>
#include <sys/socket.h>

bool flight_is_taken(int socket)
{
    uint32_t memory[SK_MEMINFO_VARS] = {0};
    socklen_t size = sizeof memory;
    return getsockopt(socket, SOL_SOCKET, SO_MEMINFO, memory, &size) == 0 && !memory[SK_MEMINFO_WMEM_ALLOC];
}

void flight_look(struct thread *thread)
{
    if (thread->in_flight && flight_is_taken(thread->link.fd))
        flight_end(thread);
}

bool flight_send(struct thread *thread, const int *fds, uint32_t count)
{
    flight_look(thread);
    if (thread->in_flight || !account_take(thread->process->account, SHARED_DESCRIPTORS, count))
        return false;
    thread->in_flight = count;
    if (packet_send(thread->link.fd, &count, sizeof count, fds, count, MSG_DONTWAIT))
        return true;
    flight_end(thread);
    return false;
}

void flight_end(struct thread *thread)
{
    account_give(thread->process->account, SHARED_DESCRIPTORS, thread->in_flight);
    thread->in_flight = 0;
}
