/* SPDX-License-Identifier: Apache-2.0 OR MIT */
/*
 * unheard: a client that always says that it waits by its link, and never takes what comes there. It is told of each answer by a
 * packet, until there are some: more the daemon doesn't leave in the kernel's memory, and it goes on answering.
 */
#include "../raw/raw.h"
#include "hostile.h"

#include <stdio.h>
#include <sys/socket.h>
#include <unistd.h>

#define ASKED 2000
#define MOST 16

int main(void)
{
    struct hostile hostile;
    uint32_t bytes, packets = 0;
    raw_begin(60);
    CHECK(hostile_begin(&hostile, "/dev/vndbinder"), "no daemon");
    atomic_store(&hostile.page->is_long, 1);
    for (int i = 0; i < ASKED; i++) {
        hostile.page->request = (struct page_request){PAGE_WRITE_READ, 0, 256, PAGE_NONBLOCK, 0};
        atomic_store(&hostile.page->state, PAGE_ASKED);
        CHECK(hostile_ring(&hostile), "can't ring");
        for (int tries = 0; tries < 10000 && atomic_load(&hostile.page->state) != PAGE_ANSWERED; tries++)
            usleep(tries < 10 ? 0 : 1000);
        CHECK(atomic_load(&hostile.page->state) == PAGE_ANSWERED, "request %d isn't answered", i);
    }
    while (recv(hostile.link, &bytes, sizeof bytes, MSG_DONTWAIT) == sizeof bytes)
        packets++;
    CHECK(packets && packets <= MOST, "%u packets tell of %d answers", packets, ASKED);
    printf("%u packets tell of %d answers\n", packets, ASKED);
    return 0;
}
