/* SPDX-License-Identifier: Apache-2.0 OR MIT */
/*
 * slow_service: services are added to hullpippin-hwservicemanager that never tell their interfaces, which it asks them for. Nobody
 * else waits for that: others add and find services meanwhile. Who has as many of these waiting as a process may have is told that
 * the next isn't added; and when their processes end, more are taken.
 */
#include "raw.h"

#include <pthread.h>
#include <stdio.h>
#include <string.h>
#include <unistd.h>

#define INTERFACE "android.hidl.manager@1.0::IServiceManager"
#define ECHO_INTERFACE "hullpippin.test@1.0::IEcho"
#define CHAIN B_PACK_CHARS(0x0f, 'C', 'H', 'N')

enum { GET = 1, ADD = 2 };

/* As many as may wait of a process, in each of so many processes. */
#define THREADS 4
#define PROCESSES 2

#define MOST_MS 10000

/* As hidl_string and hidl_vec lie in memory. */
struct vector {
    uint64_t pointer;
    uint32_t size;
    uint32_t owns;
};

static void write_token(struct writer *writer)
{
    uint8_t text[(sizeof INTERFACE + 3) / 4 * 4] = INTERFACE;
    for (size_t i = 0; i < sizeof text; i += 4) {
        uint32_t word;
        memcpy(&word, text + i, sizeof word);
        write_number(writer, word);
    }
}

/* Both have to stay until the parcel is out. */
static void write_text(struct writer *writer, struct vector *vector, const char *text)
{
    *vector = (struct vector){.pointer = (uintptr_t)text, .size = (uint32_t)strlen(text)};
    int whole = write_buffer(writer, vector, sizeof *vector, -1, 0);
    write_buffer(writer, text, strlen(text) + 1, whole, 0);
}

/* Answers with the interface alone. */
static void tell_chain(struct looper *looper, const struct binder_transaction_data *call)
{
    static struct vector all, name;
    struct writer writer = {0};
    CHECK(call->code == CHAIN, "call %x in place of the question for interfaces", call->code);
    name = (struct vector){.pointer = (uintptr_t)ECHO_INTERFACE, .size = sizeof ECHO_INTERFACE - 1};
    all = (struct vector){.pointer = (uintptr_t)&name, .size = 1};
    write_number(&writer, 0);
    int outer = write_buffer(&writer, &all, sizeof all, -1, 0), inner = write_buffer(&writer, &name, sizeof name, outer, 0);
    write_buffer(&writer, ECHO_INTERFACE, sizeof ECHO_INTERFACE, inner, 0);
    struct binder_transaction_data answer = record_of(&writer);
    CHECK(looper_answer(looper, &answer, writer.buffers), "can't answer");
    writer_free(&writer);
}

static atomic_uint hanging;

/* Serves the question for interfaces by not answering it. */
static void hang(struct looper *looper, const struct binder_transaction_data *call)
{
    (void)looper;
    CHECK(call->code == CHAIN, "call %x in place of the question for interfaces", call->code);
    atomic_fetch_add(&hanging, 1);
    pause();
}

/* Whether the manager adds the service. */
static bool adds(struct looper *looper, const char *instance)
{
    struct writer writer = {0};
    struct vector vector;
    struct binder_transaction_data reply;
    uint32_t words[2];
    write_token(&writer);
    write_text(&writer, &vector, instance);
    write_own_object(&writer, (uintptr_t)instance, 0);
    CHECK(raw_call_with(looper, (struct call){.code = ADD}, &writer, &reply) == BR_REPLY, "%s: no answer", instance);
    CHECK(reply.data_size == sizeof words, "%s: %llu bytes came", instance, (unsigned long long)reply.data_size);
    memcpy(words, raw_data(&reply), sizeof words);
    looper_free(looper, &reply);
    return words[1];
}

static bool finds(struct looper *looper, const char *instance)
{
    struct writer writer = {0};
    struct vector vectors[2];
    struct binder_transaction_data reply;
    write_token(&writer);
    write_text(&writer, &vectors[0], ECHO_INTERFACE);
    write_text(&writer, &vectors[1], instance);
    CHECK(raw_call_with(looper, (struct call){.code = GET}, &writer, &reply) == BR_REPLY, "%s: no answer", instance);
    bool is_found = reply.offsets_size == sizeof(binder_size_t);
    looper_free(looper, &reply);
    return is_found;
}

static void *add_slow(void *with)
{
    struct looper looper;
    raw_looper(&looper, with, hang);
    adds(&looper, "slow");
    return NULL;
}

/* Once all have asked, one more is told at once that it isn't added. */
static void be_slow(void *with)
{
    struct client client;
    struct looper looper;
    pthread_t thread;
    (void)with;
    raw_open(&client, WINDOW, NULL);
    for (int i = 0; i < THREADS; i++)
        CHECK(!pthread_create(&thread, NULL, add_slow, &client), "no thread");
    while (atomic_load(&hanging) < THREADS)
        usleep(1000);
    raw_looper(&looper, &client, hang);
    CHECK(!adds(&looper, "one more"), "one service more was added");
    raw_ready();
    pause();
}

/* Adds a service and finds it; tells how many milliseconds that took. */
static double add_honest(struct client *client, const char *instance)
{
    double start = raw_now();
    CHECK(!finds(&client->looper, instance), "%s is there before it is added", instance);
    CHECK(adds(&client->looper, instance), "%s wasn't added", instance);
    CHECK(finds(&client->looper, instance), "%s isn't found", instance);
    double took = (raw_now() - start) / 1e3;
    CHECK(took < MOST_MS, "it took %.0f ms to add and find %s", took, instance);
    return took;
}

int main(void)
{
    struct client client;
    pid_t slow[PROCESSES];
    raw_begin(30);
    raw_open(&client, WINDOW, tell_chain);
    add_honest(&client, "before");
    slow[0] = raw_start(be_slow, NULL);
    double took = add_honest(&client, "beside one");
    slow[1] = raw_start(be_slow, NULL);
    CHECK(finds(&client.looper, "beside one"), "a service has gone");
    for (int i = 0; i < PROCESSES; i++)
        raw_kill(slow[i]);
    usleep(200000);
    add_honest(&client, "after");
    CHECK(finds(&client.looper, "before") && !finds(&client.looper, "slow"), "other services than were added");
    printf("a service was added and found in %.1f ms beside %d that never answer\n", took, THREADS);
    return 0;
}
