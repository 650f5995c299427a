/* SPDX-License-Identifier: Apache-2.0 OR MIT */
/* Acts of pairs, which call each other on a device of their own; and of bells, whose settings the daemon and they
   share. */
#include "acts.h"
#include "hostile.h"

#include <fcntl.h>
#include <linux/android/binder.h>
#include <pthread.h>
#include <string.h>
#include <sys/socket.h>
#include <unistd.h>

/* A pair that calls itself: one end becomes the manager of the device, if it can. */
static bool pair_begin(struct hostile pair[2])
{
    if (!hostile_begin(&pair[0], "/dev/vndbinder") || !hostile_begin(&pair[1], "/dev/vndbinder"))
        return false;
    pair[0].page->request = (struct page_request){.op = PAGE_SET_MANAGER, .flags = PAGE_TAKES_DESCRIPTORS};
    hostile_ask(&pair[0], 20);
    uint32_t enter = BC_ENTER_LOOPER;
    hostile_write(&pair[0], &enter, sizeof enter, 0, 0);
    return true;
}

/* Puts a one-way call of the manager into a page, with so many bytes or descriptors, and tells the size of its
   stream. */
static uint32_t put_call(struct page *page, uint64_t size, uint64_t descriptors)
{
    struct __attribute__((packed)) {
        uint32_t code;
        struct binder_transaction_data record;
    } call = {BC_TRANSACTION, {.flags = TF_ONE_WAY | TF_ACCEPT_FDS}};
    for (uint64_t i = 0; i < descriptors; i++) {
        struct binder_fd_object object = {.hdr.type = BINDER_TYPE_FD, .fd = (uint32_t)i};
        uint64_t place = i * sizeof object;
        memcpy(page->area + place, &object, sizeof object);
        memcpy(page->area + descriptors * sizeof object + 8 * i, &place, sizeof place);
        size = descriptors * sizeof object;
    }
    call.record.data_size = size;
    call.record.offsets_size = 8 * descriptors;
    call.record.data.ptr.offsets = size;
    memcpy(page->stream, &call, sizeof call);
    return sizeof call;
}

static void call_manager(struct hostile *hostile, uint64_t size, uint64_t descriptors)
{
    uint32_t count = (uint32_t)descriptors;
    if (count)
        hostile_send(hostile->link, &count, sizeof count, count);
    uint32_t stream = put_call(hostile->page, size, descriptors);
    hostile->page->request = (struct page_request){PAGE_WRITE_READ, stream, 0, PAGE_NONBLOCK, count};
    hostile_ask(hostile, 20);
}

static void take_away(int memory)
{
    if (below(4))
        (void)!ftruncate(memory, 4096 * below(3));
    else
        fallocate(memory, FALLOC_FL_PUNCH_HOLE | FALLOC_FL_KEEP_SIZE, 0, 1 << 20);
}

/* Takes memory away from under the daemon, once all is asked for that has it read there, or write: it only rings
   then. */
void act_shrinking_memory(void)
{
    struct hostile pair[2];
    if (!pair_begin(pair))
        return;
    pair[1].page->request = (struct page_request){PAGE_WRITE_READ, put_call(pair[1].page, 60000, 0), 0, PAGE_NONBLOCK, 0};
    pair[0].page->request = (struct page_request){PAGE_WRITE_READ, 0, 256, PAGE_NONBLOCK, 0};
    atomic_store(&pair[1].page->state, PAGE_ASKED);
    atomic_store(&pair[0].page->state, PAGE_ASKED);
    take_away(below(2) ? pair[0].window_memory : pair[below(2)].page_memory);
    hostile_ring(&pair[1]);
    hostile_ring(&pair[0]);
    usleep(20000);
}

/* Sends descriptors to a process that never reads them. */
void act_hoard(void)
{
    struct hostile pair[2];
    if (!pair_begin(pair))
        return;
    for (int i = 0; i < 200; i++)
        call_manager(&pair[1], 0, 253);
    usleep(100000);
}

/* Takes in what was sent to it, and never what comes with it over the link. */
void act_silent_receiver(void)
{
    struct hostile pair[2];
    if (!pair_begin(pair))
        return;
    for (int i = 0; i < 100; i++) {
        uint8_t free_it[12];
        uint32_t code = BC_FREE_BUFFER;
        uint64_t first = 0x7f0000000000;
        memcpy(free_it, &code, 4);
        memcpy(free_it + 4, &first, 8);
        call_manager(&pair[1], 0, 1 + below(253));
        hostile_write(&pair[0], free_it, i ? sizeof free_it : 0, 256, 0);
    }
}

static void *drain(void *with)
{
    uint64_t count;
    while (read(*(int *)with, &count, sizeof count) > 0 || usleep(10) == 0)
        ;
    return NULL;
}

/* Plays with a bell whose settings it shares with the daemon: makes it wait, fills it up, and takes each ring away. */
static void play_bell(int bell)
{
    static int shared;
    uint64_t most = UINT64_MAX - 1;
    pthread_t thread;
    shared = bell;
    fcntl(bell, F_SETFL, 0);
    if (below(2)) {
        fcntl(bell, F_SETFL, O_NONBLOCK);
        (void)!write(bell, &most, sizeof most);
        fcntl(bell, F_SETFL, 0);
    } else if (!pthread_create(&thread, NULL, drain, &shared)) {
        pthread_detach(thread);
    }
}

void act_shared_bell(void)
{
    struct hostile hostile;
    if (!hostile_begin(&hostile, act_device()))
        return;
    play_bell(hostile.bell);
    for (int i = 0; i < ROUNDS; i++) {
        act_request(hostile.page, hostile_commands(hostile.page));
        atomic_store(&hostile.page->state, PAGE_ASKED);
        hostile_ring(&hostile);
    }
}

/* The same with the descriptor by which it would wait for something to read. */
void act_shared_doorbell(void)
{
    struct hostile pair[2];
    uint8_t byte;
    union {
        struct cmsghdr header;
        char room[CMSG_SPACE(sizeof(int))];
    } control;
    struct iovec part = {&byte, 1};
    struct msghdr message = {.msg_iov = &part, .msg_iovlen = 1, .msg_control = &control, .msg_controllen = sizeof control};
    if (!pair_begin(pair))
        return;
    pair[0].page->request = (struct page_request){.op = PAGE_DOORBELL};
    if (!hostile_ask(&pair[0], 100) || recvmsg(pair[0].link, &message, MSG_DONTWAIT) < 0 || !CMSG_FIRSTHDR(&message))
        return;
    int doorbell;
    memcpy(&doorbell, CMSG_DATA(CMSG_FIRSTHDR(&message)), sizeof doorbell);
    play_bell(doorbell);
    for (int i = 0; i < ROUNDS; i++) {
        call_manager(&pair[1], 8, 0);
        hostile_write(&pair[0], "", 0, 256, 0);
    }
}
