/* SPDX-License-Identifier: Apache-2.0 OR MIT */
#include "hostile.h"

#include <fcntl.h>
#include <linux/futex.h>
#include <stdio.h>
#include <stdlib.h>
#include <string.h>
#include <sys/mman.h>
#include <sys/socket.h>
#include <sys/syscall.h>
#include <sys/time.h>
#include <sys/un.h>
#include <time.h>
#include <unistd.h>

#define MOST_DESCRIPTORS 253
/* A look at the page is never further away than so many milliseconds. */
#define LOOKS_EACH 100u

unsigned hostile_patience = 30000;

static uint64_t state;

void chance_begin(uint64_t seed)
{
    state = seed * UINT64_C(0x9e3779b97f4a7c15) + 1;
}

uint64_t chance(void)
{
    state ^= state << 13;
    state ^= state >> 7;
    state ^= state << 17;
    return state * UINT64_C(0x2545f4914f6cdd1d);
}

uint32_t below(uint32_t bound)
{
    return (uint32_t)((chance() >> 32) % bound);
}

uint64_t odd_number(void)
{
    uint64_t power = UINT64_C(1) << below(64);
    switch (below(6)) {
    case 0:
        return below(3);
    case 1:
        return power + below(3) - 1;
    case 2:
        return UINT64_MAX - below(64);
    case 3:
        return below(256) * 8;
    case 4:
        return below(1 << 20);
    default:
        return chance();
    }
}

void fill(void *at, size_t size)
{
    uint8_t *bytes = at;
    for (size_t i = 0; i < size; i++)
        bytes[i] = (uint8_t)chance();
}

bool hostile_send(int socket, const void *bytes, size_t size, size_t descriptors)
{
    struct iovec part = {(void *)(uintptr_t)bytes, size};
    union {
        struct cmsghdr header;
        char room[CMSG_SPACE(sizeof(int) * MOST_DESCRIPTORS)];
    } control = {0};
    struct msghdr message = {.msg_iov = &part, .msg_iovlen = 1};
    if (descriptors) {
        int all[MOST_DESCRIPTORS];
        for (size_t i = 0; i < descriptors; i++)
            all[i] = 2;
        control.header = (struct cmsghdr){CMSG_LEN(sizeof(int) * descriptors), SOL_SOCKET, SCM_RIGHTS};
        memcpy(CMSG_DATA(&control.header), all, sizeof(int) * descriptors);
        message.msg_control = &control;
        message.msg_controllen = CMSG_SPACE(sizeof(int) * descriptors);
    }
    return sendmsg(socket, &message, MSG_NOSIGNAL | MSG_DONTWAIT) == (ssize_t)size;
}

/* Asks over the control socket; tells the descriptors that came with the answer, of which there are at most 3. */
static bool ask(struct hostile *hostile, const struct control_request *request, int descriptors[3])
{
    struct control_answer answer = {.error = -1};
    struct iovec part = {&answer, sizeof answer};
    union {
        struct cmsghdr header;
        char room[CMSG_SPACE(sizeof(int) * 3)];
    } control;
    struct msghdr message = {.msg_iov = &part, .msg_iovlen = 1, .msg_control = &control, .msg_controllen = sizeof control};
    if (!hostile_send(hostile->control, request, sizeof *request, 0))
        return false;
    if (recvmsg(hostile->control, &message, MSG_CMSG_CLOEXEC) != sizeof answer || answer.error)
        return false;
    struct cmsghdr *header = CMSG_FIRSTHDR(&message);
    if (header)
        memcpy(descriptors, CMSG_DATA(header), header->cmsg_len - CMSG_LEN(0));
    return true;
}

bool hostile_connect(struct hostile *hostile)
{
    struct sockaddr_un address = {.sun_family = AF_UNIX};
    struct timeval patience = {hostile_patience / 1000, hostile_patience % 1000 * 1000};
    const char *path = getenv("HULLPIPPIN_SOCKET");
    *hostile = (struct hostile){-1, -1, -1, -1, -1, NULL};
    snprintf(address.sun_path, sizeof address.sun_path, "%s", path ? path : "");
    hostile->control = socket(AF_UNIX, SOCK_SEQPACKET | SOCK_CLOEXEC, 0);
    setsockopt(hostile->control, SOL_SOCKET, SO_RCVTIMEO, &patience, sizeof patience);
    return connect(hostile->control, (struct sockaddr *)&address, sizeof address) == 0;
}

static struct control_request request_of(enum control_op op)
{
    return (struct control_request){.version = PROTOCOL_VERSION, .op = op};
}

bool hostile_open(struct hostile *hostile, const char *device)
{
    int none[3];
    struct control_request request = request_of(CONTROL_OPEN);
    snprintf(request.device, sizeof request.device, "%s", device);
    return ask(hostile, &request, none);
}

bool hostile_map(struct hostile *hostile, uint64_t size)
{
    int memory[3] = {-1, -1, -1};
    struct control_request request = request_of(CONTROL_MAP);
    request.size = size;
    request.base = 0x7f0000000000;
    bool mapped = ask(hostile, &request, memory);
    hostile->window_memory = memory[0];
    return mapped;
}

bool hostile_thread(struct hostile *hostile)
{
    int three[3] = {-1, -1, -1};
    struct control_request request = request_of(CONTROL_THREAD);
    if (!ask(hostile, &request, three))
        return false;
    hostile->link = three[0];
    hostile->page_memory = three[1];
    hostile->bell = three[2];
    void *page = mmap(NULL, sizeof(struct page), PROT_READ | PROT_WRITE, MAP_SHARED, hostile->page_memory, 0);
    hostile->page = page == MAP_FAILED ? NULL : page;
    return hostile->page != NULL;
}

bool hostile_begin(struct hostile *hostile, const char *device)
{
    return hostile_connect(hostile) && hostile_open(hostile, device) && hostile_map(hostile, 1 << 20) && hostile_thread(hostile);
}

void hostile_end(struct hostile *hostile)
{
    int all[] = {hostile->control, hostile->window_memory, hostile->link, hostile->page_memory, hostile->bell};
    if (hostile->page)
        munmap(hostile->page, sizeof *hostile->page);
    for (size_t i = 0; i < sizeof all / sizeof *all; i++)
        if (all[i] >= 0)
            close(all[i]);
    *hostile = (struct hostile){-1, -1, -1, -1, -1, NULL};
}

bool hostile_ring(struct hostile *hostile)
{
    uint64_t one = 1;
    return write(hostile->bell, &one, sizeof one) == sizeof one;
}

bool hostile_ask(struct hostile *hostile, unsigned milliseconds)
{
    struct timespec while_ = {.tv_nsec = milliseconds * 1000000L};
    atomic_store(&hostile->page->state, PAGE_ASKED);
    if (!hostile_ring(hostile))
        return false;
    if (milliseconds && atomic_load(&hostile->page->state) == PAGE_ASKED)
        syscall(SYS_futex, &hostile->page->state, FUTEX_WAIT, PAGE_ASKED, &while_, NULL, 0);
    return atomic_load(&hostile->page->state) == PAGE_ANSWERED;
}

bool hostile_await(struct hostile *hostile)
{
    const struct timespec moment = {.tv_nsec = LOOKS_EACH * 1000000L};
    bool is_answered = hostile_ask(hostile, 0);
    for (unsigned waited = 0; !is_answered && waited < hostile_patience; waited += LOOKS_EACH) {
        syscall(SYS_futex, &hostile->page->state, FUTEX_WAIT, PAGE_ASKED, &moment, NULL, 0);
        is_answered = atomic_load(&hostile->page->state) == PAGE_ANSWERED;
    }
    return is_answered;
}

bool hostile_write(struct hostile *hostile, const void *stream, size_t size, uint32_t room, uint32_t descriptors)
{
    if (size)
        memcpy(hostile->page->stream, stream, size);
    hostile->page->request = (struct page_request){PAGE_WRITE_READ, (uint32_t)size, room, PAGE_NONBLOCK, descriptors};
    return hostile_ask(hostile, 20);
}

bool hostile_give(int socket, const void *word, size_t size, int descriptor)
{
    union {
        struct cmsghdr header;
        char room[CMSG_SPACE(sizeof descriptor)];
    } control = {.header = {CMSG_LEN(sizeof descriptor), SOL_SOCKET, SCM_RIGHTS}};
    struct iovec part = {(void *)word, size};
    struct msghdr message = {.msg_iov = &part, .msg_iovlen = 1, .msg_control = &control, .msg_controllen = sizeof control};
    memcpy(CMSG_DATA(&control.header), &descriptor, sizeof descriptor);
    return sendmsg(socket, &message, MSG_NOSIGNAL) == (ssize_t)size;
}
