/* SPDX-License-Identifier: Apache-2.0 OR MIT */
/*
 * leftovers: no byte of an earlier parcel goes on with a later one. A secret is sent, as data and as a buffer, and then a parcel whose buffer
 * of one byte leaves much of the room that was asked for; its receiver looks behind that byte. And the sender looks at its page, which the daemon
 * copies from: there is nothing left in what belongs to the parcel. What was sent with TF_CLEAR_BUF has gone from the receiver's
 * window once its buffer is given back, and nothing beside it has.
 */
#include "raw.h"

#include "../../protocol.h"

#include <stdio.h>
#include <string.h>

enum { KEEP = 1, LOOK, HOLD, LET_GO };

#define SECRET 0x5a
#define SECRETS 8000
#define ROOM 1024

/* How many bytes that aren't 0 lie behind the first one. */
static uint32_t left_behind(const uint8_t *bytes)
{
    uint32_t left = 0;
    for (size_t i = 1; i < ROOM; i++)
        left += bytes[i] != 0;
    return left;
}

/* Parcels that the receiver holds, and their sizes. */
#define HELD 3
static struct held {
    const uint8_t *at;
    size_t size;
} held[HELD];
static size_t held_count;

static bool is_all(const struct held *it, uint8_t byte)
{
    size_t same = 0;
    while (same < it->size && it->at[same] == byte)
        same++;
    return same == it->size;
}

/* Gives one back; tells whether its bytes have gone and all others are there, as another parcel needs no place of theirs. */
static uint32_t let_go(struct looper *looper, size_t which)
{
    put_pointer(&looper->commands, BC_FREE_BUFFER, (uintptr_t)held[which].at);
    put_code(&looper->commands, BC_ENTER_LOOPER); /* what isn't waited for is done by then */
    CHECK(looper_flush(looper), "a buffer can't be given back");
    bool is_right = is_all(&held[which], 0);
    held[which].size = 0;
    for (size_t i = 0; i < HELD; i++)
        is_right = is_right && is_all(&held[i], SECRET);
    return is_right;
}

/* Serves a call, and keeps its buffer. */
static void hold(struct looper *looper, const struct binder_transaction_data *call)
{
    uint32_t all = is_all(&(struct held){raw_data(call), call->data_size}, SECRET);
    held[held_count++ % HELD] = (struct held){raw_data(call), call->data_size};
    raw_answer(looper, &all, sizeof all);
}

static void serve(struct looper *looper, const struct binder_transaction_data *call)
{
    uint32_t left = 0;
    if (call->code == LET_GO)
        left = let_go(looper, raw_number(call));
    if (call->code == LOOK) {
        struct binder_buffer_object object;
        memcpy(&object, raw_data(call), sizeof object);
        CHECK(binder_has(looper->binder, object.buffer, ROOM), "the buffer's room isn't in the window");
        left = left_behind((const uint8_t *)(uintptr_t)object.buffer);
    }
    raw_answer(looper, &left, sizeof left);
}

/* The manager's loop gives each buffer back itself. This one leaves those to be held. */
static void run_manager(void *with)
{
    struct client client;
    uint8_t room[256];
    (void)with;
    raw_open(&client, WINDOW, serve);
    CHECK(binder_become_manager(&client.binder), "can't be the context manager");
    raw_ready();
    put_code(&client.looper.commands, BC_ENTER_LOOPER);
    for (;;) {
        ssize_t size = binder_exchange(&client.binder, &client.looper.commands, room, sizeof room);
        struct returns returns = {room, room + size};
        struct binder_transaction_data call;
        const uint8_t *payload;
        uint32_t code;
        CHECK(size >= 0, "the manager's device failed");
        while (next_return(&returns, &code, &payload)) {
            if (code != BR_TRANSACTION)
                continue;
            memcpy(&call, payload, sizeof call);
            if (call.code == HOLD) {
                hold(&client.looper, &call);
            } else {
                serve(&client.looper, &call);
                looper_free(&client.looper, &call);
            }
        }
    }
}

/* They lie side by side, and the one in the middle goes first. */
static void clears(struct client *client, const uint8_t *secret)
{
    static const uint32_t order[] = {1, 0, 2};
    for (size_t i = 0; i < HELD; i++)
        CHECK(raw_ask(&client->looper, (struct call){.code = HOLD, .flags = TF_CLEAR_BUF, .bytes = secret, .size = 1000 * (i + 1) + 8}),
              "parcel %zu came otherwise", i);
    for (size_t i = 0; i < HELD; i++)
        CHECK(raw_ask(&client->looper, (struct call){.code = LET_GO, .bytes = &order[i], .size = sizeof order[i]}),
              "a buffer that was given back isn't cleared, or another one is");
}

/* The area of the calling thread's page. */
static const uint8_t *find_area(void)
{
    char line[512];
    unsigned long at = 0;
    FILE *maps = fopen("/proc/self/maps", "r");
    CHECK(maps, "/proc/self/maps");
    while (!at && fgets(line, sizeof line, maps))
        if (strstr(line, "hullpippin-page"))
            CHECK(sscanf(line, "%lx", &at) == 1, "%s", line);
    fclose(maps);
    CHECK(at, "there is no page");
    return (const uint8_t *)at + offsetof(struct page, area);
}

int main(void)
{
    static uint8_t secret[SECRETS];
    struct client client;
    struct binder_transaction_data reply;
    struct writer writer = {0}, earlier = {0};
    raw_begin(30);
    pid_t manager = raw_start(run_manager, NULL);
    raw_open(&client, WINDOW, NULL);
    memset(secret, SECRET, sizeof secret);
    clears(&client, secret);
    raw_ask(&client.looper, (struct call){.code = KEEP, .bytes = secret, .size = sizeof secret});
    write_buffer(&earlier, secret, sizeof secret, -1, 0);
    CHECK(raw_call_with(&client.looper, (struct call){.code = KEEP}, &earlier, &reply) == BR_REPLY, "the secret isn't taken");
    looper_free(&client.looper, &reply);
    write_buffer(&writer, "1", 1, -1, 0);
    writer.buffers = ROOM;
    size_t behind = writer.size + sizeof(binder_size_t);
    CHECK(raw_call_with(&client.looper, (struct call){.code = LOOK}, &writer, &reply) == BR_REPLY, "the parcel isn't taken");
    CHECK(raw_number(&reply) == 0, "the receiver found %u bytes that weren't sent to it", raw_number(&reply));
    const uint8_t *rest = find_area() + behind;
    CHECK(rest[0] == '1' && !left_behind(rest), "%u bytes of an earlier parcel are left in the page", left_behind(rest));
    printf("nothing is left of an earlier parcel, or of what was to be cleared\n");
    raw_kill(manager);
    return 0;
}
