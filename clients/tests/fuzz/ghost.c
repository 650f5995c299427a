/* SPDX-License-Identifier: Apache-2.0 OR MIT */
/*
 * ghost: a context manager's connection is sent to the manager itself, which never reads the parcel, and is killed. So the daemon has
 * the other end of what it waits for. The manager goes all the same, and another can be it. So it is with one that hangs up and asks to
 * be the manager once more, both at the same moment.
 */
#include "../raw/raw.h"
#include "hostile.h"

#include <stdio.h>
#include <string.h>
#include <sys/socket.h>
#include <unistd.h>

#define DEVICE "/dev/vndbinder"

static bool becomes_manager(struct hostile *hostile)
{
    hostile->page->request = (struct page_request){.op = PAGE_SET_MANAGER, .flags = PAGE_TAKES_DESCRIPTORS};
    return hostile_await(hostile) && !hostile->page->answer.error;
}

/* In a child, which has its parent's connection. */
static void send_connection(void *with)
{
    const struct hostile *parents = with;
    const struct binder_fd_object object = {.hdr.type = BINDER_TYPE_FD};
    const uint64_t offset = 0;
    struct hostile sender;
    struct __attribute__((packed)) {
        uint32_t code;
        struct binder_transaction_data record;
    } call = {BC_TRANSACTION, {.flags = TF_ONE_WAY, .data_size = sizeof object, .offsets_size = sizeof offset,
                               .data.ptr.offsets = sizeof object}};
    CHECK(hostile_begin(&sender, DEVICE), "no daemon");
    memcpy(sender.page->area, &object, sizeof object);
    memcpy(sender.page->area + sizeof object, &offset, sizeof offset);
    uint32_t count = 1;
    CHECK(hostile_give(sender.link, &count, sizeof count, parents->control), "can't send a descriptor");
    bool is_answered = hostile_write(&sender, &call, sizeof call, 256, 1);
    for (int i = 0; i < RAW_PATIENCE && !is_answered; i++, usleep(1000))
        is_answered = atomic_load(&sender.page->state) == PAGE_ANSWERED;
    uint32_t told;
    memcpy(&told, sender.page->returns + sizeof told, sizeof told);
    CHECK(is_answered && told == BR_TRANSACTION_COMPLETE, "the connection wasn't taken: %x", told);
    raw_ready();
}

static void manage(void *with)
{
    struct hostile hostile;
    (void)with;
    CHECK(hostile_begin(&hostile, DEVICE) && becomes_manager(&hostile), "can't be the context manager");
    raw_join(raw_start(send_connection, &hostile));
    raw_ready();
    pause();
}

static void inherit(struct hostile *heir)
{
    double start = raw_now();
    CHECK(hostile_begin(heir, DEVICE), "no daemon");
    while (!becomes_manager(heir)) {
        CHECK(raw_now() - start < RAW_PATIENCE * 1e3, "the dead one is the context manager still");
        usleep(1000);
    }
}

/* The daemon finds both at once, and hears of the request first. */
static void hang_up_asking(struct hostile *manager)
{
    raw_stop_daemon();
    hostile_ask(manager, 0);
    shutdown(manager->control, SHUT_WR);
    raw_continue_daemon();
}

int main(void)
{
    struct hostile first_heir, last_heir;
    raw_begin(30);
    raw_kill(raw_start(manage, NULL));
    inherit(&first_heir);
    hang_up_asking(&first_heir);
    inherit(&last_heir);
    printf("another is the manager\n");
    return 0;
}
