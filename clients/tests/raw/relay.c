/* SPDX-License-Identifier: Apache-2.0 OR MIT */
/*
 * relay sockets|page [CALLS]: what a round trip costs without any engine: a client, a relay and a server as
 * processes, which hand 100 bytes on through sockets, or ring one another by futexes on a shared page.
 */
#include "raw.h"

#include <linux/futex.h>
#include <stdatomic.h>
#include <stdio.h>
#include <stdlib.h>
#include <string.h>
#include <sys/epoll.h>
#include <sys/mman.h>
#include <sys/socket.h>
#include <sys/syscall.h>
#include <unistd.h>

#define BYTES 100

/* Ends of two pairs: the client's or server's, and the relay's. */
struct pairs {
    int client[2], server[2];
};

static void relay_sockets(void *with)
{
    struct pairs *pairs = with;
    int both[2] = {pairs->client[1], pairs->server[1]}, poll = epoll_create1(0);
    uint8_t bytes[BYTES];
    for (int i = 0; i < 2; i++) {
        struct epoll_event event = {.events = EPOLLIN, .data.u32 = i};
        CHECK(!epoll_ctl(poll, EPOLL_CTL_ADD, both[i], &event), "epoll");
    }
    raw_ready();
    for (struct epoll_event event; epoll_wait(poll, &event, 1, -1) == 1;) {
        int from = event.data.u32;
        if (read(both[from], bytes, BYTES) != BYTES || write(both[!from], bytes, BYTES) != BYTES)
            return;
    }
}

static void serve_sockets(void *with)
{
    struct pairs *pairs = with;
    uint8_t bytes[BYTES];
    raw_ready();
    while (read(pairs->server[0], bytes, BYTES) == BYTES && write(pairs->server[0], bytes, BYTES) == BYTES)
        ;
}

static void call_sockets(void *with)
{
    struct pairs *pairs = with;
    uint8_t bytes[BYTES] = {0};
    CHECK(write(pairs->client[0], bytes, BYTES) == BYTES && read(pairs->client[0], bytes, BYTES) == BYTES, "the relay ended");
}

/* Bells, each on a line of its own: of the relay, the client and the server; and who of the two has asked. */
enum { RELAY, CLIENT, SERVER, CLIENT_ASKED, SERVER_ASKED, BELLS };
struct page {
    struct {
        _Alignas(64) atomic_int rung;
    } bell[BELLS];
};

static void ring(struct page *page, int bell)
{
    atomic_store(&page->bell[bell].rung, 1);
    syscall(SYS_futex, &page->bell[bell].rung, FUTEX_WAKE, 1, NULL, NULL, 0);
}

static void await(struct page *page, int bell)
{
    while (!atomic_exchange(&page->bell[bell].rung, 0))
        syscall(SYS_futex, &page->bell[bell].rung, FUTEX_WAIT, 0, NULL, NULL, 0);
}

static noreturn void relay_page(void *with)
{
    struct page *page = with;
    raw_ready();
    for (;;) {
        await(page, RELAY);
        if (atomic_exchange(&page->bell[CLIENT_ASKED].rung, 0))
            ring(page, SERVER);
        if (atomic_exchange(&page->bell[SERVER_ASKED].rung, 0))
            ring(page, CLIENT);
    }
}

static noreturn void serve_page(void *with)
{
    struct page *page = with;
    raw_ready();
    for (;;) {
        await(page, SERVER);
        atomic_store(&page->bell[SERVER_ASKED].rung, 1);
        ring(page, RELAY);
    }
}

static void call_page(void *with)
{
    struct page *page = with;
    atomic_store(&page->bell[CLIENT_ASKED].rung, 1);
    ring(page, RELAY);
    await(page, CLIENT);
}

static void measure(void (*call)(void *), void *with, size_t calls)
{
    double *times = calloc(calls + 1, sizeof *times);
    CHECK(times && calls, "nothing to be measured");
    for (size_t i = 0; i < calls; i++) {
        double start = raw_now();
        call(with);
        times[i] = raw_now() - start;
    }
    struct spread spread = raw_spread(times, calls);
    printf("median %.1f tenth %.1f last %.1f\n", spread.median, spread.tenth, spread.last);
    free(times);
}

int main(int argc, char **argv)
{
    struct pairs pairs;
    size_t calls = argc > 2 ? strtoul(argv[2], NULL, 10) : 5000;
    bool sockets = argc > 1 && !strcmp(argv[1], "sockets");
    void *page = mmap(NULL, sizeof(struct page), PROT_READ | PROT_WRITE, MAP_SHARED | MAP_ANONYMOUS, -1, 0);
    CHECK(argc > 1 && page != MAP_FAILED, "usage: relay sockets|page [CALLS]");
    CHECK(!socketpair(AF_UNIX, SOCK_STREAM, 0, pairs.client) && !socketpair(AF_UNIX, SOCK_STREAM, 0, pairs.server), "no sockets");
    raw_begin(60);
    void *with = sockets ? (void *)&pairs : page;
    pid_t relay = raw_start(sockets ? relay_sockets : relay_page, with);
    pid_t server = raw_start(sockets ? serve_sockets : serve_page, with);
    measure(sockets ? call_sockets : call_page, with, calls);
    raw_kill(relay);
    raw_kill(server);
    return 0;
}
