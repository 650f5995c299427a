/* SPDX-License-Identifier: Apache-2.0 OR MIT */
/*
 * storm SEED PROCESSES WORKERS LOOPERS ACTIONS [ENDS]: processes of several threads that call one another at random, by objects that a
 * context manager keeps for them: two-way and one-way, with objects, called back while they call, asking for references and for news
 * of deaths. So many of them are killed in the midst of it, and another one begins in the place of each. What comes of it differs from
 * run to run: it is there to be recorded and judged.
 */
#include "raw.h"

#include <pthread.h>
#include <stdatomic.h>
#include <stdio.h>
#include <stdlib.h>
#include <string.h>
#include <unistd.h>

/* What the low byte of a code asks for; the rest is a number. */
enum asked { STORE = 1, FETCH, COUNT, CALL_BACK, MAKE, NOTE };
enum { SHELVES = 8, OWN_OBJECTS = 3, HELD = 6, NESTED = 4, PLENTY = 1000 };

static struct {
    unsigned seed, processes, workers, loopers, actions, ends;
} wanted;
static struct client its;

/* What the manager keeps. */
static pthread_mutex_t shelves_lock = PTHREAD_MUTEX_INITIALIZER;
static uint32_t shelves[SHELVES];

static __thread unsigned dice, nested;

static unsigned below(unsigned end)
{
    dice = dice * 1103515245u + 12345u;
    return (dice >> 9) % end;
}

static void send(struct looper *looper)
{
    /* A refusal that has to be read first holds commands back; they go out with the next exchange. */
    (void)looper_flush(looper);
}

/* The handle that a parcel begins its objects with, taken hold of; 0 where it has none. */
static uint32_t hold(struct looper *looper, const struct binder_transaction_data *record)
{
    struct flat_binder_object object;
    binder_size_t at;
    if (record->offsets_size < sizeof at)
        return 0;
    memcpy(&at, (const void *)(uintptr_t)record->data.ptr.offsets, sizeof at);
    memcpy(&object, (const uint8_t *)raw_data(record) + at, sizeof object);
    if (object.hdr.type != BINDER_TYPE_HANDLE)
        return 0;
    put_handle(&looper->commands, BC_ACQUIRE, object.handle);
    return object.handle;
}

static void write_one_of_own(struct writer *writer)
{
    unsigned which = below(OWN_OBJECTS);
    write_own_object(writer, 0x10000 + 64 * which, 0x20000 + which);
}

static void answer(struct looper *looper, struct writer *writer)
{
    struct binder_transaction_data record = record_of(writer);
    CHECK(looper_answer(looper, &record, writer->buffers), "no answer goes out");
    send(looper);
    writer_free(writer);
}

/* --- the context manager --- */

static uint32_t put_on_shelf(unsigned shelf, uint32_t handle)
{
    pthread_mutex_lock(&shelves_lock);
    uint32_t before = shelves[shelf];
    shelves[shelf] = handle;
    pthread_mutex_unlock(&shelves_lock);
    return before;
}

static uint32_t on_shelf(unsigned shelf)
{
    pthread_mutex_lock(&shelves_lock);
    uint32_t handle = shelves[shelf];
    pthread_mutex_unlock(&shelves_lock);
    return handle;
}

static void keep(struct looper *looper, const struct binder_transaction_data *call)
{
    struct writer writer = {0};
    unsigned shelf = (call->code >> 8) % SHELVES;
    if ((call->code & 255) == STORE) {
        uint32_t before = put_on_shelf(shelf, hold(looper, call));
        if (before)
            put_handle(&looper->commands, BC_RELEASE, before);
    } else if ((call->code & 255) == FETCH) {
        uint32_t handle = on_shelf(shelf);
        if (handle)
            write_strong_handle(&writer, handle);
    }
    answer(looper, &writer);
}

/* --- the others, as they are called --- */

static void call_back(struct looper *looper, uint32_t handle)
{
    struct binder_transaction_data reply;
    nested++;
    if (raw_call(looper, (struct call){.handle = handle, .code = COUNT, .bytes = "called back", .size = 12}, &reply) == BR_REPLY)
        looper_free(looper, &reply);
    nested--;
}

static void serve(struct looper *looper, const struct binder_transaction_data *call)
{
    struct writer writer = {0};
    bool is_one_way = call->flags & TF_ONE_WAY;
    uint32_t handle = hold(looper, call);
    if (handle && (call->code & 255) == CALL_BACK && nested < NESTED && !is_one_way)
        call_back(looper, handle);
    if (handle)
        put_handle(&looper->commands, BC_RELEASE, handle);
    if (is_one_way)
        return;
    if ((call->code & 255) == MAKE)
        write_one_of_own(&writer);
    else if ((call->code & 255) == COUNT)
        write_number(&writer, call->code >> 8);
    answer(looper, &writer);
}

/* --- the others, as they call --- */

struct held {
    uint32_t handle;
    binder_uintptr_t death; /* the cookie of what was asked for, or 0 */
};

static binder_uintptr_t new_cookie(void)
{
    static atomic_uint last;
    return 0x100000 + atomic_fetch_add(&last, 1);
}

static void let_go(struct looper *looper, struct held *it)
{
    if (it->death)
        put_death(&looper->commands, BC_CLEAR_DEATH_NOTIFICATION, it->handle, it->death);
    if (it->handle)
        put_handle(&looper->commands, BC_RELEASE, it->handle);
    *it = (struct held){0};
}

static void store(struct looper *looper)
{
    struct writer writer = {0};
    struct binder_transaction_data reply;
    write_one_of_own(&writer);
    if (raw_call_with(looper, (struct call){.code = STORE | below(SHELVES) << 8}, &writer, &reply) == BR_REPLY)
        looper_free(looper, &reply);
}

static void fetch(struct looper *looper, struct held *it)
{
    struct binder_transaction_data reply;
    if (raw_call(looper, (struct call){.code = FETCH | below(SHELVES) << 8}, &reply) != BR_REPLY)
        return;
    uint32_t handle = hold(looper, &reply);
    looper_free(looper, &reply);
    if (handle) {
        let_go(looper, it);
        it->handle = handle;
    }
}

static void call_it(struct looper *looper, uint32_t handle, enum asked asked)
{
    struct writer writer = {0};
    struct binder_transaction_data reply;
    uint32_t number = below(PLENTY);
    if (asked == CALL_BACK)
        write_one_of_own(&writer);
    else
        write_number(&writer, number);
    if (raw_call_with(looper, (struct call){.handle = handle, .code = asked | number << 8}, &writer, &reply) != BR_REPLY)
        return;
    uint32_t got = hold(looper, &reply);
    looper_free(looper, &reply);
    if (got)
        put_handle(&looper->commands, BC_RELEASE, got);
}

static void note_it(struct looper *looper, uint32_t handle, bool with_object)
{
    struct writer writer = {0};
    struct binder_transaction_data none;
    if (with_object)
        write_one_of_own(&writer);
    else
        write_number(&writer, below(PLENTY));
    raw_call_with(looper, (struct call){.handle = handle, .code = NOTE, .flags = TF_ONE_WAY}, &writer, &none);
}

static void ask_or_clear(struct looper *looper, struct held *it)
{
    if (it->death) {
        put_death(&looper->commands, BC_CLEAR_DEATH_NOTIFICATION, it->handle, it->death);
        it->death = 0;
    } else {
        it->death = new_cookie();
        put_death(&looper->commands, BC_REQUEST_DEATH_NOTIFICATION, it->handle, it->death);
    }
}

static void act(struct looper *looper, struct held *it)
{
    switch (below(it->handle ? 12 : 4)) {
    case 0:
    case 1:
        store(looper);
        break;
    case 2:
    case 3:
        fetch(looper, it);
        break;
    case 4:
    case 5:
        call_it(looper, it->handle, COUNT);
        break;
    case 6:
        call_it(looper, it->handle, CALL_BACK);
        break;
    case 7:
        call_it(looper, it->handle, MAKE);
        break;
    case 8:
        note_it(looper, it->handle, false);
        break;
    case 9:
        note_it(looper, it->handle, true);
        break;
    case 10:
        ask_or_clear(looper, it);
        break;
    default:
        let_go(looper, it);
    }
    if (looper->commands.size > PLENTY)
        send(looper);
}

/* --- threads and processes --- */

static void *work(void *with)
{
    struct looper looper;
    struct held held[HELD] = {0};
    raw_looper(&looper, &its, serve);
    dice = wanted.seed * 7919 + (unsigned)(uintptr_t)with * 104729;
    for (unsigned i = 0; i < wanted.actions; i++)
        act(&looper, &held[below(HELD)]);
    send(&looper);
    return NULL;
}

static void *loop(void *with)
{
    struct looper looper;
    raw_looper(&looper, &its, with ? serve : keep);
    dice = wanted.seed + (unsigned)getpid();
    looper_run(&looper);
    return NULL;
}

static void start_loopers(unsigned count, void *with)
{
    pthread_t thread;
    for (unsigned i = 0; i < count; i++)
        CHECK(!pthread_create(&thread, NULL, loop, with), "no thread");
}

static void run_manager(void *with)
{
    (void)with;
    raw_open(&its, WINDOW, keep);
    CHECK(binder_become_manager(&its.binder), "it isn't the context manager");
    start_loopers(wanted.loopers - 1, NULL);
    raw_ready();
    loop(NULL);
}

static void run_process(void *with)
{
    pthread_t workers[64];
    raw_open(&its, WINDOW, serve);
    start_loopers(wanted.loopers, &its);
    raw_ready();
    for (uintptr_t i = 0; i < wanted.workers; i++)
        CHECK(!pthread_create(&workers[i], NULL, work, (void *)((uintptr_t)with * 64 + i)), "no thread");
    for (unsigned i = 0; i < wanted.workers; i++)
        pthread_join(workers[i], NULL);
    _exit(0);
}

static unsigned word(int count, char **words, int at)
{
    return at < count ? (unsigned)strtoul(words[at], NULL, 10) : 0;
}

int main(int count, char **words)
{
    pid_t pids[64];
    wanted.seed = word(count, words, 1), wanted.processes = word(count, words, 2), wanted.workers = word(count, words, 3);
    wanted.loopers = word(count, words, 4), wanted.actions = word(count, words, 5), wanted.ends = word(count, words, 6);
    CHECK(wanted.loopers && wanted.processes && wanted.processes <= 64 && wanted.workers <= 64, "usage: storm SEED PROCESSES WORKERS LOOPERS ACTIONS [ENDS]");
    raw_begin(120);
    pid_t manager = raw_start(run_manager, NULL);
    for (uintptr_t i = 0; i < wanted.processes; i++)
        pids[i] = raw_start(run_process, (void *)(i + 1));
    dice = wanted.seed;
    for (unsigned i = 0; i < wanted.ends; i++) {
        usleep(20000 + below(30000));
        unsigned which = below(wanted.processes);
        raw_kill(pids[which]);
        pids[which] = raw_start(run_process, (void *)(uintptr_t)(wanted.processes + i + 1));
    }
    for (unsigned i = 0; i < wanted.processes; i++)
        raw_join(pids[i]);
    raw_kill(manager);
    printf("storm %u of %u processes is over, %u of them killed\n", wanted.seed, wanted.processes + wanted.ends, wanted.ends);
    return 0;
}
