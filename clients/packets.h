/* SPDX-License-Identifier: Apache-2.0 OR MIT */
/*
 * packets.h: packets with descriptors, over sockets that keep packets apart. Both the daemon and the preloaded library
 * are built with packets.c.
 */
#ifndef HULLPIPPIN_PACKETS_H
#define HULLPIPPIN_PACKETS_H

#include <stdbool.h>
#include <stddef.h>
#include <stdint.h>
#include <sys/socket.h>

/* Both go on after signals; with MSG_DONTWAIT for a flag they don't wait. A packet of another size, or with more
   descriptors, is none. */
bool packet_send(int fd, const void *bytes, size_t size, const int *fds, uint32_t count, int flags);
/* Tells 1: a packet; 0: none is there; -1 and EMFILE: not all of its descriptors can be had here; -1 and ENODEV: the other
   end has gone, or sends what it shouldn't. */
int packet_receive(int fd, void *bytes, size_t size, int *fds, uint32_t room, uint32_t *count, int flags);
/* Takes the descriptors out of a message that was received; closes what there is no room for. False where there was such a
   one. */
bool packet_take(struct msghdr *message, int *fds, uint32_t room, uint32_t *count);

/* Closes descriptors that nobody gets, which are -1 then. Each of the two programs has a way of its own. */
void descriptors_close(int *fds, uint32_t count);

#endif
