/* SPDX-License-Identifier: Apache-2.0 OR MIT */
/*
 * mourners CALLERS [THREADS]: some threads (2) wait for what comes to their process, each in a read with room for one return, and as
 * many objects die at once of whose end the process is to be told. Each of the threads hears of one, and doesn't wait for another to read
 * again, however many callers hear of the same end.
 */
#include "raw.h"

#include <pthread.h>
#include <semaphore.h>
#include <stdio.h>
#include <stdlib.h>
#include <time.h>
#include <unistd.h>

enum { GIVE = 1, HANG };

#define STACK ((size_t)128 << 10)
/* The least that a return is handed over in. */
#define ROOM 80

static struct client mourner, callers;
static sem_t called, heard;

static void serve(struct looper *looper, const struct binder_transaction_data *call)
{
    static binder_uintptr_t pointer = 0x4000;
    struct writer object = {0};
    if (call->code == HANG)
        pause();
    pointer += 16;
    write_own_object(&object, pointer, pointer);
    struct binder_transaction_data answer = record_of(&object);
    CHECK(looper_answer(looper, &answer, 0), "can't answer");
    writer_free(&object);
}

/* Of so many objects that the server gives. */
static void ask_to_be_told(int count)
{
    struct binder_transaction_data reply;
    for (int i = 0; i < count; i++) {
        CHECK(raw_call(&mourner.looper, (struct call){.code = GIVE}, &reply) == BR_REPLY, "no object came");
        uint32_t handle = raw_keep(&mourner.looper, &reply);
        looper_free(&mourner.looper, &reply);
        put_death(&mourner.looper.commands, BC_REQUEST_DEATH_NOTIFICATION, handle, handle);
        CHECK(looper_flush(&mourner.looper), "can't write");
    }
}

static void *mourn(void *with)
{
    uint8_t room[ROOM];
    struct commands commands = {0};
    uint32_t code = 0;
    (void)with;
    put_code(&commands, BC_ENTER_LOOPER);
    while (code != BR_DEAD_BINDER) {
        const uint8_t *payload;
        ssize_t size = binder_exchange(&mourner.binder, &commands, room, sizeof room);
        CHECK(size >= 0, "can't read");
        struct returns returns = {room, room + size};
        while (code != BR_DEAD_BINDER && next_return(&returns, &code, &payload))
            ;
    }
    sem_post(&heard);
    pause();
    return NULL;
}

static void *call(void *with)
{
    struct looper looper;
    struct binder_transaction_data reply;
    (void)with;
    raw_looper(&looper, &callers, NULL);
    sem_post(&called);
    CHECK(raw_call(&looper, (struct call){.code = HANG}, &reply) == BR_DEAD_REPLY, "who has ended answers");
    pause();
    return NULL;
}

static void start(void *(*body)(void *with), int count)
{
    pthread_attr_t attributes;
    pthread_t thread;
    pthread_attr_init(&attributes);
    pthread_attr_setstacksize(&attributes, STACK);
    for (int i = 0; i < count; i++)
        CHECK(!pthread_create(&thread, &attributes, body, NULL), "no thread");
    pthread_attr_destroy(&attributes);
}

int main(int argc, char **argv)
{
    int count = argc > 1 ? atoi(argv[1]) : 0, mourners = argc > 2 ? atoi(argv[2]) : 2;
    struct timespec end;
    raw_begin(60);
    CHECK(!sem_init(&called, 0, 0) && !sem_init(&heard, 0, 0), "no semaphores");
    pid_t server = raw_start_manager(serve);
    raw_open(&mourner, WINDOW, NULL);
    raw_open(&callers, WINDOW, NULL);
    ask_to_be_told(mourners);
    start(mourn, mourners);
    start(call, count);
    for (int i = 0; i < count; i++)
        sem_wait(&called);
    usleep(500000); /* all wait by now */
    raw_kill(server);
    clock_gettime(CLOCK_REALTIME, &end);
    end.tv_sec += RAW_PATIENCE / 1000;
    for (int i = 0; i < mourners; i++)
        CHECK(!sem_timedwait(&heard, &end), "%d of %d threads have heard of the end beside %d callers", i, mourners, count);
    printf("%d threads hear of an end beside %d callers\n", mourners, count);
    return 0;
}
