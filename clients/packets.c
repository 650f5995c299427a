/* SPDX-License-Identifier: Apache-2.0 OR MIT */
/* packets.c: packets with descriptors, over sockets that keep packets apart. */
#include "packets.h"
#include "protocol.h"

#include <errno.h>
#include <string.h>

#define CONTROL_ROOM CMSG_SPACE(sizeof(int) * DESCRIPTORS_MAX)

bool packet_send(int fd, const void *bytes, size_t size, const int *fds, uint32_t count, int flags)
{
    _Alignas(struct cmsghdr) char control[CONTROL_ROOM];
    struct iovec vector = {.iov_base = (void *)(uintptr_t)bytes, .iov_len = size};
    struct msghdr message = {.msg_iov = &vector, .msg_iovlen = 1};
    if (count) {
        message.msg_control = control;
        message.msg_controllen = CMSG_SPACE(sizeof(int) * count);
        memset(control, 0, message.msg_controllen);
        struct cmsghdr *header = CMSG_FIRSTHDR(&message);
        *header = (struct cmsghdr){.cmsg_len = CMSG_LEN(sizeof(int) * count), .cmsg_level = SOL_SOCKET, .cmsg_type = SCM_RIGHTS};
        memcpy(CMSG_DATA(header), fds, sizeof(int) * count);
    }
    ssize_t sent;
    do
        sent = sendmsg(fd, &message, flags | MSG_NOSIGNAL);
    while (sent < 0 && errno == EINTR);
    return sent == (ssize_t)size;
}

bool packet_take(struct msghdr *message, int *fds, uint32_t room, uint32_t *count)
{
    bool all = !(message->msg_flags & MSG_CTRUNC);
    for (struct cmsghdr *header = CMSG_FIRSTHDR(message); header; header = CMSG_NXTHDR(message, header)) {
        if (header->cmsg_level != SOL_SOCKET || header->cmsg_type != SCM_RIGHTS)
            continue;
        size_t there = (header->cmsg_len - CMSG_LEN(0)) / sizeof(int);
        for (size_t i = 0; i < there; i++) {
            int fd;
            memcpy(&fd, CMSG_DATA(header) + i * sizeof fd, sizeof fd);
            if (*count < room) {
                fds[(*count)++] = fd;
            } else {
                descriptors_close(&fd, 1);
                all = false;
            }
        }
    }
    return all;
}

int packet_receive(int fd, void *bytes, size_t size, int *fds, uint32_t room, uint32_t *count, int flags)
{
    _Alignas(struct cmsghdr) char control[CONTROL_ROOM];
    struct iovec vector = {.iov_base = bytes, .iov_len = size};
    struct msghdr message = {.msg_iov = &vector, .msg_iovlen = 1, .msg_control = control, .msg_controllen = sizeof control};
    ssize_t received;
    *count = 0;
    do
        received = recvmsg(fd, &message, flags | MSG_CMSG_CLOEXEC);
    while (received < 0 && errno == EINTR);
    if (received < 0 && errno == EAGAIN)
        return 0;
    if (received < 0)
        return errno = ENODEV, -1;
    bool all = packet_take(&message, fds, room, count);
    if (all && received == (ssize_t)size && !(message.msg_flags & MSG_TRUNC))
        return 1;
    descriptors_close(fds, *count);
    *count = 0;
    errno = message.msg_flags & MSG_CTRUNC ? EMFILE : ENODEV; /* there is room for as many as a packet takes */
    return -1;
}
