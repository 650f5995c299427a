/* SPDX-License-Identifier: Apache-2.0 OR MIT */
/*
 * dropped: a client's thread asks for what isn't run, or has no descriptors, with a descriptor in its link. The daemon closes that, whatever
 * else the request comes to, and takes for the thread's next request what came with that one.
 */
#include "../raw/raw.h"
#include "hostile.h"

#include <fcntl.h>
#include <poll.h>
#include <stdio.h>
#include <unistd.h>

#define DEVICE "/dev/binder"

/* A number that no request has. */
enum { PAGE_NOTHING = 99 };

static const struct page_request requests[] = {
    {.op = PAGE_WRITE_READ, .stream_size = PAGE_STREAM + 1, .flags = PAGE_NONBLOCK},
    {.op = PAGE_WRITE_READ, .room = PAGE_RETURNS + 1, .flags = PAGE_NONBLOCK},
    {.op = PAGE_SET_MANAGER},
    {.op = PAGE_PLACE},
    {.op = PAGE_EXIT_THREAD},
    {.op = PAGE_NOTHING},
};

/* Makes a request with so many descriptors: its error. */
static int ask(struct hostile *hostile, struct page_request request, uint32_t descriptors)
{
    request.descriptors = descriptors;
    hostile->page->request = request;
    CHECK(hostile_await(hostile), "there is no answer");
    return hostile->page->answer.error;
}

/* Sends the writing end of a pipe and keeps it no longer: the other end. */
static int leave_in_link(struct hostile *hostile)
{
    const uint32_t one = 1;
    int ends[2];
    CHECK(!pipe2(ends, O_CLOEXEC) && hostile_give(hostile->link, &one, sizeof one, ends[1]), "can't send a descriptor");
    close(ends[1]);
    return ends[0];
}

/* Asks for it, with a descriptor that then nobody has. */
static void ask_with_one(struct hostile *hostile, const struct page_request *request)
{
    int reading = leave_in_link(hostile);
    struct pollfd file = {.fd = reading, .events = POLLIN};
    ask(hostile, *request, 1);
    CHECK(poll(&file, 1, RAW_PATIENCE) == 1 && file.revents == POLLHUP, "request %u of %u bytes and room for %u leaves its descriptor open",
          request->op, request->stream_size, request->room);
    close(reading);
}

/* Writes nothing, with two descriptors: whether just these came. */
static bool gets_two(struct hostile *hostile)
{
    const uint32_t two = 2;
    CHECK(hostile_send(hostile->link, &two, sizeof two, two), "can't send descriptors");
    return !ask(hostile, (struct page_request){.op = PAGE_WRITE_READ, .flags = PAGE_NONBLOCK}, two);
}

int main(void)
{
    const size_t count = sizeof requests / sizeof *requests;
    struct hostile unmapped, hostile;
    raw_begin(60);
    CHECK(hostile_connect(&unmapped) && hostile_open(&unmapped, DEVICE) && hostile_thread(&unmapped), "no daemon");
    CHECK(hostile_begin(&hostile, DEVICE), "no daemon");
    for (size_t i = 0; i < count; i++) {
        ask_with_one(&unmapped, &requests[i]);
        ask_with_one(&hostile, &requests[i]);
        CHECK(gets_two(&hostile), "the descriptors of a write behind request %zu weren't its own", i);
    }
    hostile_end(&unmapped);
    hostile_end(&hostile);
    printf("%zu requests, of 2 clients, leave no descriptor\n", count);
    return 0;
}
