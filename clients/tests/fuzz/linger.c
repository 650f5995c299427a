/* SPDX-License-Identifier: Apache-2.0 OR MIT */
/*
 * linger: a client leaves a connection that lingers for some seconds in a socket of the daemon's and is gone, so that
 * whoever closes that waits. Nobody else may: prints how long the next client took to come, in milliseconds, and fails
 * where that is over a second. Then it leaves many such connections, and behind them local sockets: all are closed within seconds, so
 * long before they have lingered.
 */
#include "../raw/raw.h"
#include "hostile.h"

#include <fcntl.h>
#include <netinet/in.h>
#include <poll.h>
#include <stdio.h>
#include <string.h>
#include <sys/socket.h>
#include <unistd.h>

#define LINGER_SECONDS 20
#define MOST_MS 5000
#define LINGERING 40
#define LOCAL 200
#define LOCAL_MS 5000
#define ALL_MS 12000

#define DEVICE "/dev/binder"

/* Sends a descriptor, and keeps it no longer. */
static void give(int socket, int descriptor)
{
    char byte = 0;
    CHECK(hostile_give(socket, &byte, sizeof byte, descriptor), "can't send a descriptor");
    close(descriptor);
}

/* A connection with more to be sent than its other end, which is here, will ever take. */
static int lingering(void)
{
    static const char bytes[1 << 12];
    const int little = 1;
    struct sockaddr_in address = {.sin_family = AF_INET, .sin_addr.s_addr = htonl(INADDR_LOOPBACK)};
    struct linger linger = {1, LINGER_SECONDS};
    socklen_t size = sizeof address;
    int listener = socket(AF_INET, SOCK_STREAM, 0), one = socket(AF_INET, SOCK_STREAM, 0);
    setsockopt(listener, SOL_SOCKET, SO_RCVBUF, &little, sizeof little);
    setsockopt(one, SOL_SOCKET, SO_SNDBUF, &little, sizeof little);
    CHECK(!bind(listener, (struct sockaddr *)&address, size) && !listen(listener, 1)
              && !getsockname(listener, (struct sockaddr *)&address, &size) && !connect(one, (struct sockaddr *)&address, size)
              && accept(listener, NULL, NULL) >= 0 && !setsockopt(one, SOL_SOCKET, SO_LINGER, &linger, sizeof linger),
          "no connection");
    while (send(one, bytes, sizeof bytes, MSG_DONTWAIT) > 0)
        ;
    close(listener);
    return one;
}

static void leave_in_link(struct hostile *hostile)
{
    give(hostile->link, lingering());
}

/* The packet isn't one that the daemon takes, so it closes what came with it. */
static void leave_within(struct hostile *hostile)
{
    int pair[2];
    CHECK(!socketpair(AF_UNIX, SOCK_STREAM, 0, pair), "no pair");
    give(pair[0], lingering());
    close(pair[0]);
    give(hostile->control, pair[1]);
}

static void wait_for_end(int end, double until)
{
    struct pollfd file = {.fd = end};
    double left = (until - raw_now()) / 1e3;
    CHECK(poll(&file, 1, left > 0 ? (int)left : 0) == 1 && file.revents & POLLHUP, "a socket is open after %d ms", LOCAL_MS);
    close(end);
}

/* Tells in milliseconds how long it took until all local sockets were closed. */
static double leave_many(void)
{
    struct hostile hostile;
    int ends[LOCAL], pair[2];
    CHECK(hostile_begin(&hostile, DEVICE), "no daemon");
    for (int i = 0; i < LINGERING; i++)
        leave_in_link(&hostile);
    hostile_end(&hostile);
    usleep(300000); /* the daemon has begun to close them */
    CHECK(hostile_begin(&hostile, DEVICE), "no daemon");
    for (int i = 0; i < LOCAL; i++) {
        CHECK(!socketpair(AF_UNIX, SOCK_STREAM, 0, pair), "no pair");
        ends[i] = pair[0];
        give(hostile.link, pair[1]);
    }
    hostile_end(&hostile);
    double start = raw_now();
    for (int i = 0; i < LOCAL; i++)
        wait_for_end(ends[i], start + LOCAL_MS * 1e3);
    return (raw_now() - start) / 1e3;
}

static void wait_for_all(size_t before)
{
    double until = raw_now() + ALL_MS * 1e3;
    while (raw_descriptors(raw_daemon()) > before) {
        CHECK(raw_now() < until, "the daemon has %zu descriptors after %zu", raw_descriptors(raw_daemon()), before);
        usleep(10000);
    }
}

int main(void)
{
    void (*const ways[])(struct hostile *) = {leave_in_link, leave_within};
    raw_begin(30);
    for (size_t i = 0; i < sizeof ways / sizeof *ways; i++) {
        struct hostile hostile, next;
        CHECK(hostile_begin(&hostile, DEVICE), "no daemon");
        ways[i](&hostile);
        hostile_end(&hostile);
        usleep(100000); /* the daemon sees that */
        double start = raw_now();
        CHECK(hostile_begin(&next, DEVICE), "the next client couldn't come, by way %zu", i);
        double took = (raw_now() - start) / 1e3;
        CHECK(took < MOST_MS, "the next client waited for %.0f ms, by way %zu", took, i);
        hostile_end(&next);
        printf("%s%.1f ms", i ? ", " : "the next clients came after ", took);
    }
    usleep(1500000); /* by then the two are closed as well */
    size_t before = raw_descriptors(raw_daemon());
    printf("; local sockets were closed after %.0f ms\n", leave_many());
    wait_for_all(before);
    return 0;
}
