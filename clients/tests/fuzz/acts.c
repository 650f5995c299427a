/* SPDX-License-Identifier: Apache-2.0 OR MIT */
/* Acts of the hostile on their own, as clients that nobody talks to. */
#include "acts.h"
#include "hostile.h"

#include <pthread.h>
#include <string.h>
#include <sys/socket.h>
#include <unistd.h>

const char *act_device(void)
{
    return below(3) ? "/dev/vndbinder" : "/dev/binder";
}

/* Packets of any size with any content, and true ones with a field that lies. */
void act_garbage_packets(void)
{
    struct hostile hostile;
    uint8_t bytes[2048];
    if (!hostile_connect(&hostile))
        return;
    for (int i = 0; i < ROUNDS; i++) {
        struct control_request request = {below(8) ? PROTOCOL_VERSION : (uint32_t)odd_number(), below(9), odd_number(), odd_number(), ""};
        memset(request.device, below(2) ? 'x' : '/', sizeof request.device);
        if (below(2))
            memcpy(request.device, act_device(), 12);
        fill(bytes, sizeof bytes);
        if (below(3))
            hostile_send(hostile.control, &request, below(16) ? sizeof request : below(sizeof request), below(8) ? 0 : below(254));
        else
            hostile_send(hostile.control, bytes, below(sizeof bytes), below(8) ? 0 : below(254));
        if (below(2))
            recv(hostile.control, bytes, sizeof bytes, MSG_DONTWAIT);
        if (!below(40) && (hostile_end(&hostile), !hostile_connect(&hostile)))
            return;
    }
}

/* Asks for more and more, and never reads an answer. */
void act_deaf(void)
{
    struct hostile hostile;
    struct control_request request = {.version = PROTOCOL_VERSION};
    if (!hostile_connect(&hostile) || !hostile_open(&hostile, act_device()) || !hostile_map(&hostile, 65536))
        return;
    for (int i = 0; i < 20 * ROUNDS; i++) {
        request.op = !below(4) ? CONTROL_THREAD : !below(4) ? CONTROL_STATE : below(2) ? CONTROL_SPAM : CONTROL_MAX_THREADS;
        request.size = request.op == CONTROL_STATE ? odd_number() : below(2);
        request.base = odd_number();
        if (!hostile_send(hostile.control, &request, sizeof request, 0))
            usleep(100);
    }
    usleep(200000);
}

void act_request(struct page *page, uint32_t stream)
{
    page->request = (struct page_request){
        .op = below(8) ? PAGE_WRITE_READ : (uint32_t)odd_number() % 8,
        .stream_size = stream,
        .room = below(4) ? 256 : (uint32_t)odd_number(),
        .flags = below(16) ? PAGE_NONBLOCK : (uint32_t)odd_number(),
        .descriptors = below(8) ? 0 : (uint32_t)odd_number(),
    };
}

/* Gives back what isn't its own, and more at once than there is room for. */
static void lie_about_frees(struct page *page)
{
    for (size_t i = 0; i < PAGE_FREES; i++)
        page->frees[i] = below(2) ? odd_number() : 8 * below(1 << 17);
    atomic_store(&page->freed, atomic_load(&page->freed) + (below(2) ? below(PAGE_FREES) : (uint32_t)odd_number()));
    atomic_store(&page->taken, (uint32_t)odd_number());
}

/* Streams that are nearly right, requests that aren't, and states that nobody may set. */
void act_garbage_page(void)
{
    struct hostile hostile;
    if (!hostile_begin(&hostile, act_device()))
        return;
    for (int i = 0; i < ROUNDS; i++) {
        act_request(hostile.page, hostile_commands(hostile.page));
        if (!below(6))
            fill(hostile.page->stream, sizeof hostile.page->stream);
        if (!below(6))
            hostile_send(hostile.link, "x", below(2), below(254));
        if (!below(10))
            atomic_store(&hostile.page->cancel, (uint32_t)odd_number());
        if (!below(10))
            atomic_store(&hostile.page->is_long, below(2));
        if (!below(10))
            lie_about_frees(hostile.page);
        hostile_ask(&hostile, below(4) ? 5 : 0);
        if (!below(10))
            atomic_store(&hostile.page->state, (uint32_t)odd_number());
    }
}

static void *scribble(void *with)
{
    struct page *page = with;
    uint64_t other = 88172645463325252;
    for (;;) {
        other ^= other << 13, other ^= other >> 7, other ^= other << 17;
        size_t at = (other >> 20) % (offsetof(struct page, area) + 4096);
        ((volatile uint8_t *)page)[at] = (uint8_t)other;
        if (!(other & 0xfff))
            page->request.stream_size = (uint32_t)(other >> 40);
    }
    return NULL;
}

/* The same, while another thread writes over all of the page. */
void act_changing_page(void)
{
    struct hostile hostile;
    pthread_t thread;
    if (!hostile_begin(&hostile, act_device()) || pthread_create(&thread, NULL, scribble, hostile.page))
        return;
    for (int i = 0; i < ROUNDS; i++) {
        act_request(hostile.page, hostile_commands(hostile.page));
        hostile_ask(&hostile, 1);
    }
}

/* Hundreds of connections and threads, which all end at once. */
void act_crowd(void)
{
    static struct hostile many[300];
    size_t count = 0;
    for (; count < 300 && hostile_connect(&many[count]); count++)
        if (!below(3) && hostile_open(&many[count], act_device()) && hostile_map(&many[count], 4 << 20))
            for (uint32_t threads = below(10); threads && hostile_thread(&many[count]); threads--)
                ;
    usleep(50000);
}

/* Rings again and again with nothing to say, as fast as it can. */
void act_ringing(void)
{
    struct hostile hostile;
    if (!hostile_begin(&hostile, act_device()))
        return;
    for (int i = 0; i < 500 * ROUNDS; i++)
        hostile_ring(&hostile);
}

/* Is gone the moment it has asked. */
void act_gone(void)
{
    struct hostile hostile;
    for (int i = 0; i < 20 && hostile_begin(&hostile, act_device()); i++) {
        act_request(hostile.page, hostile_commands(hostile.page));
        hostile_ask(&hostile, 0);
        if (below(2))
            close(hostile.control), hostile.control = -1;
        hostile_end(&hostile);
    }
    if (hostile_begin(&hostile, act_device()))
        hostile_ask(&hostile, 0);
    _exit(0);
}
