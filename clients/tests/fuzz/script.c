/* SPDX-License-Identifier: Apache-2.0 OR MIT */
/* script.c: what the clients of inside.c do, as an input says. Most of it is what an honest client may do, in any order. */
#include "inside.h"

#include <linux/android/binder.h>
#include <stdio.h>
#include <string.h>
#include <sys/mman.h>
#include <unistd.h>

/* A script has no more acts, so that none takes long. */
#define ACTS_MOST 96

static struct actor clients[CLIENTS];

uint32_t take(struct input *input)
{
    if (!input->left)
        return 0;
    input->left--;
    return *input->at++;
}

uint64_t take_odd(struct input *input)
{
    uint32_t how = take(input), word = take(input);
    switch (how % 6) {
    case 0:
        return word;
    case 1:
        return (UINT64_C(1) << how / 6 % 64) + word % 3 - 1;
    case 2:
        return UINT64_MAX - word;
    case 3:
        return 8 * word;
    case 4:
        return word << 12;
    default:
        return (uint64_t)word << 56 | how;
    }
}

uint64_t take_mostly(struct input *input, uint64_t right)
{
    return take(input) < 250 ? right : take_odd(input);
}

/* --- A client's way to the daemon. --- */

static struct member *member_of(struct input *input, struct actor *client)
{
    struct member *first = &client->members[0], *it = &client->members[take(input) % THREADS];
    return it->page ? it : first->page ? first : NULL;
}

static void leave_member(struct member *member)
{
    if (!member->page)
        return;
    munmap(member->page, sizeof *member->page);
    close(member->link);
    close(member->bell);
    *member = (struct member){-1, -1, NULL, 0};
}

static void hang_up(struct actor *client)
{
    if (client->control < 0)
        return;
    for (size_t i = 0; i < THREADS; i++)
        leave_member(&client->members[i]);
    if (client->window)
        munmap((void *)(uintptr_t)client->window, client->window_size);
    close(client->control);
    *client = (struct actor){.control = -1};
}

static void close_all(const int *descriptors, unsigned count)
{
    for (unsigned i = 0; i < count; i++)
        close(descriptors[i]);
}

/* What a control socket may be told. */
union told {
    struct state_page page;
    struct control_answer answer;
};

/* A client may have left answers to earlier packets where they are: they are none to the next request. */
static void drop_answers(const struct actor *client)
{
    union told told;
    int descriptors[DESCRIPTORS_MAX];
    unsigned count = 0;
    while (receive(client->control, &told, sizeof told, descriptors, &count) > 0)
        close_all(descriptors, count);
}

/* Takes the answer to a control request, and what came with it. */
static bool take_answer(struct actor *client, struct control_answer *answer, int *descriptors, unsigned *count)
{
    long size = receive(client->control, answer, sizeof *answer, descriptors, count);
    bool is_good = size == sizeof *answer && !answer->error;
    if (!is_good)
        close_all(descriptors, *count);
    return is_good;
}

static bool ask(struct actor *client, struct control_request *request, struct control_answer *answer, int *descriptors, unsigned *count)
{
    request->version = PROTOCOL_VERSION;
    *count = 0;
    if (client->control < 0)
        return false;
    drop_answers(client);
    if (!give(client->control, request, sizeof *request, NULL, 0))
        return false;
    daemon_goes_on();
    return take_answer(client, answer, descriptors, count);
}

static void connect_client(struct actor *client, unsigned helper)
{
    int ends[2];
    hang_up(client);
    if (!helper_connect(helper, ends))
        return;
    client->helper = helper;
    client->control = ends[0];
    daemon_accepts(ends[1]);
}

static bool open_device(struct actor *client, const char *device)
{
    struct control_request request = {.op = CONTROL_OPEN};
    struct control_answer answer;
    int none[3];
    unsigned count;
    snprintf(request.device, sizeof request.device, "%s", device);
    return ask(client, &request, &answer, none, &count);
}

static bool map_window(struct actor *client, uint64_t size)
{
    struct control_request request = {.op = CONTROL_MAP, .size = size, .base = CLIENT_BASE};
    struct control_answer answer;
    int memory[3];
    unsigned count;
    if (!ask(client, &request, &answer, memory, &count))
        return false;
    expect(count == 1 && answer.size, "a window comes with its memory");
    void *at = mmap(NULL, answer.size, PROT_READ, MAP_SHARED, memory[0], 0);
    close_all(memory, count);
    expect(at != MAP_FAILED, "a window can be mapped");
    client->window = at;
    client->window_size = answer.size;
    return true;
}

static void become_thread(struct actor *client, struct member *member)
{
    struct control_request request = {.op = CONTROL_THREAD, .size = 1};
    struct control_answer answer;
    int three[3];
    unsigned count;
    leave_member(member);
    if (!ask(client, &request, &answer, three, &count))
        return;
    expect(count == 3, "a thread gets its link, page and bell");
    void *page = mmap(NULL, sizeof(struct page), PROT_READ | PROT_WRITE, MAP_SHARED, three[1], 0);
    close(three[1]);
    expect(page != MAP_FAILED, "a page can be mapped");
    *member = (struct member){three[0], three[2], page, 0};
}

static void ring(const struct member *member)
{
    uint64_t one = 1;
    expect(write(member->bell, &one, sizeof one) == sizeof one, "a bell can be rung");
}

/* Takes what lies in the link. */
static void take_from_link(const struct actor *client, struct member *member)
{
    uint32_t told;
    int descriptors[DESCRIPTORS_MAX];
    unsigned count;
    while (!client->is_deaf && member->page && receive(member->link, &told, sizeof told, descriptors, &count) > 0) {
        close_all(descriptors, count);
        member->landed = count ? count : member->landed;
    }
}

/* Has the page's request done. */
static void run_request(struct actor *client, struct member *member, struct page_request request, uint32_t cancel)
{
    member->page->request = request;
    atomic_store(&member->page->cancel, cancel);
    atomic_store(&member->page->state, PAGE_ASKED);
    ring(member);
    daemon_goes_on();
    take_from_link(client, member);
}

/* --- Acts. --- */

/* A client with a window and a thread, which may be the context manager and wait in the loop. */
static void act_begin(struct input *input, struct actor *client)
{
    static const uint64_t windows[] = {4096, 1 << 16, 1 << 20, 5 << 20};
    static const uint32_t loops = BC_ENTER_LOOPER;
    struct member *member = &client->members[0];
    uint32_t how = take(input);
    connect_client(client, how % HELPERS);
    if (open_device(client, how & 16 ? "/dev/hwbinder" : "/dev/binder") && map_window(client, windows[how >> 6]))
        become_thread(client, member);
    client->is_deaf = how & 32 && how & 64;
    if (member->page && how & 4)
        run_request(client, member, (struct page_request){.op = PAGE_SET_MANAGER, .flags = PAGE_TAKES_DESCRIPTORS}, CANCEL_NOT);
    if (!member->page || !(how & 8))
        return;
    calls_collect(client, member);
    memcpy(member->page->stream, &loops, sizeof loops);
    run_request(client, member, (struct page_request){.op = PAGE_WRITE_READ, .stream_size = sizeof loops, .room = 256}, CANCEL_NOT);
}

/* A control packet, which may be any. */
static void act_control(struct input *input, struct actor *client)
{
    static const char *const devices[] = {"/dev/binder", "/dev/hwbinder", "/dev/none", ""};
    union told told;
    struct control_request request = {.version = PROTOCOL_VERSION};
    int descriptors[DESCRIPTORS_MAX];
    unsigned count, sent;
    request.op = (uint32_t)take_mostly(input, take(input) % 10);
    request.version = (uint32_t)take_mostly(input, PROTOCOL_VERSION);
    request.size = take_odd(input);
    request.base = take_odd(input);
    strcpy(request.device, devices[take(input) % 4]);
    if (take(input) > 250)
        memset(request.device, 'x', sizeof request.device);
    sent = take(input) > 240 ? 1 + take(input) % 3 : 0;
    if (client->control < 0 || !give(client->control, &request, take_mostly(input, sizeof request) % (sizeof request + 1), calls_descriptors(), sent))
        return;
    daemon_goes_on();
    if (take(input) < 240 && receive(client->control, &told, sizeof told, descriptors, &count) >= 0)
        close_all(descriptors, count);
}

/* Asks for what stands in the page. */
static void ask_page(struct input *input, struct actor *client, struct member *member, struct page_request request)
{
    run_request(client, member, request, take(input) < 230 ? CANCEL_NOT : take(input) % 4);
}

static void act_write(struct input *input, struct actor *client, struct member *member)
{
    struct page_request request = {.op = PAGE_WRITE_READ};
    uint32_t how = take(input);
    request.stream_size = calls_write(input, client, member, &request.descriptors);
    request.room = how & 1 ? 0 : (uint32_t)take_mostly(input, how & 2 ? 256 : how & 4 ? 80 : 100);
    request.flags = how & 8 ? 0 : PAGE_NONBLOCK;
    request.stream_size = (uint32_t)take_mostly(input, request.stream_size);
    ask_page(input, client, member, request);
}

/* A request whose page may be any. */
static void act_page(struct input *input, struct actor *client, struct member *member)
{
    struct page_request request = {.op = PAGE_WRITE_READ};
    uint32_t size = 0, wanted = take(input);
    for (; size < wanted && input->left; size++)
        member->page->stream[size] = (uint8_t)take(input);
    request.stream_size = (uint32_t)take_mostly(input, size);
    request.room = (uint32_t)take_mostly(input, 256);
    request.flags = PAGE_NONBLOCK;
    request.descriptors = (uint32_t)take_mostly(input, 0);
    ask_page(input, client, member, request);
}

static void act_other(struct input *input, struct actor *client, struct member *member)
{
    static const uint32_t ops[] = {PAGE_SET_MANAGER, PAGE_EXIT_THREAD, PAGE_DOORBELL, PAGE_PLACE};
    struct page_request request = {.op = ops[take(input) % 4]};
    uint32_t how = take(input);
    if (request.op == PAGE_SET_MANAGER)
        request.flags = how & 1 ? PAGE_TAKES_DESCRIPTORS : 0;
    if (request.op == PAGE_PLACE)
        request.stream_size = (uint32_t)take_mostly(input, member->landed);
    for (unsigned i = 0; request.op == PAGE_PLACE && i < DESCRIPTORS_MAX; i++)
        member->page->numbers[i] = (int32_t)(how + i);
    request.op = (uint32_t)take_mostly(input, request.op);
    request.descriptors = (uint32_t)take_mostly(input, 0);
    ask_page(input, client, member, request);
}

/* Rings with nothing to ask, or gives back some buffers, or has a read come back. */
static void act_ring(struct input *input, struct actor *client, struct member *member)
{
    uint32_t count = take(input) % 8, freed = atomic_load(&member->page->freed);
    for (uint32_t i = 0; i < count; i++, freed++)
        member->page->frees[freed % PAGE_FREES] = take_mostly(input, client->buffers[take(input) % BUFFERS]);
    atomic_store(&member->page->freed, (uint32_t)take_mostly(input, freed));
    atomic_store(&member->page->cancel, take(input) % 4);
    atomic_store(&member->page->is_long, take(input) > 200);
    ring(member);
    daemon_goes_on();
}

/* A packet over the link that no request asks for, or too many. */
static void act_link(struct input *input, struct member *member)
{
    uint32_t word = take(input), count = take(input) % (KINDS + 1), size = (uint32_t)take_mostly(input, sizeof word);
    uint8_t bytes[16] = {0};
    memcpy(bytes, &word, sizeof word);
    give(member->link, bytes, size % (sizeof bytes + 1), calls_descriptors(), count);
}

static void act_end(struct input *input, struct actor *client)
{
    uint32_t how = take(input);
    if (how < 128)
        leave_member(&client->members[how % THREADS]);
    else if (how < 240)
        hang_up(client);
    else
        helper_renew(client->helper);
    daemon_goes_on();
}

static void act_wait(struct input *input)
{
    uint32_t how = take(input);
    time_passes(how * UINT64_C(30000000));
    daemon_goes_on();
    if (how & 1)
        daemon_rests();
}

/* The acts that need a thread. */
static void act_of_thread(struct input *input, uint32_t act, struct actor *client)
{
    struct member *member = member_of(input, client);
    if (!member)
        return;
    if (act < 8)
        act_write(input, client, member);
    else if (act == 8)
        act_page(input, client, member);
    else if (act < 11)
        act_other(input, client, member);
    else if (act == 11)
        act_ring(input, client, member);
    else
        act_link(input, member);
}

static void play(struct input *input)
{
    uint32_t act = take(input) % 21;
    struct actor *client = &clients[take(input) % CLIENTS];
    switch (act) {
    case 13:
    case 14:
        act_begin(input, client);
        break;
    case 15:
        act_control(input, client);
        break;
    case 16:
        become_thread(client, &client->members[take(input) % THREADS]);
        break;
    case 17:
        act_end(input, client);
        break;
    case 18:
        act_wait(input);
        break;
    case 19:
        helper_change_user(client->helper);
        break;
    case 20:
        connect_client(client, take(input) % HELPERS);
        break;
    default:
        act_of_thread(input, act, client);
    }
}

/* Each reads what it is told before the next one does anything. */
static void collect(void)
{
    for (size_t i = 0; i < CLIENTS; i++)
        for (size_t j = 0; j < THREADS; j++)
            calls_collect(&clients[i], &clients[i].members[j]);
}

void script_play(struct input *input)
{
    for (size_t i = 0; i < CLIENTS; i++)
        clients[i] = (struct actor){.control = -1};
    for (int i = 0; i < ACTS_MOST && input->left; i++) {
        play(input);
        collect();
    }
    for (size_t i = 0; i < CLIENTS; i++)
        hang_up(&clients[i]);
    daemon_goes_on();
}
