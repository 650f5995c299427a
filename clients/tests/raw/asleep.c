/* SPDX-License-Identifier: Apache-2.0 OR MIT */
/*
 * asleep COUNT: descriptors come whole to who has waited for long, and to who has not. Then so many threads wait, each in a read
 * or, the last eighth, for a reply, until the device has ended under them: `ready` is printed once they do, and when they have
 * been told.
 */
#include "raw.h"

#include <errno.h>
#include <fcntl.h>
#include <pthread.h>
#include <stdatomic.h>
#include <stdio.h>
#include <stdlib.h>
#include <string.h>
#include <unistd.h>

enum { GIVE = 1, PASS, KEEP_WAITING };

#define STACK ((size_t)128 << 10)
#define ROUNDS 4
/* Microseconds in which a wait gets long. */
#define LONG 100000

/* What can be read once from the descriptor that a call carries. */
static uint32_t taken_from(const struct binder_transaction_data *call)
{
    struct binder_fd_object object;
    uint32_t number = 0;
    CHECK(call->data_size >= sizeof object, "no descriptor came");
    memcpy(&object, raw_data(call), sizeof object);
    CHECK(read((int)object.fd, &number, sizeof number) == sizeof number, "nothing in descriptor %d", (int)object.fd);
    close((int)object.fd);
    return number;
}

static void serve(struct looper *looper, const struct binder_transaction_data *call)
{
    struct writer writer = {0};
    if (call->code == KEEP_WAITING)
        pause();
    if (call->code == PASS) {
        uint32_t number = taken_from(call);
        raw_answer(looper, &number, sizeof number);
        return;
    }
    write_own_object(&writer, 0x1000, 0x1000); /* one that takes descriptors */
    struct binder_transaction_data answer = record_of(&writer);
    CHECK(looper_answer(looper, &answer, 0), "can't answer");
    writer_free(&writer);
}

static void pass(struct client *client, uint32_t handle, uint32_t number)
{
    struct writer writer = {0};
    struct binder_transaction_data reply;
    int ends[2];
    CHECK(!pipe2(ends, O_CLOEXEC) && write(ends[1], &number, sizeof number) == sizeof number, "no pipe");
    write_descriptor(&writer, ends[0]);
    CHECK(raw_call_with(&client->looper, (struct call){.handle = handle, .code = PASS}, &writer, &reply) == BR_REPLY,
          "call %u", number);
    CHECK(raw_number(&reply) == number, "%u came back for %u", raw_number(&reply), number);
    looper_free(&client->looper, &reply);
    close(ends[0]);
    close(ends[1]);
}

/* In turn after a long wait, and at once. Before that the server has waited for a call without any. */
static void pass_some(struct client *client)
{
    struct binder_transaction_data reply;
    usleep(LONG);
    CHECK(raw_call(&client->looper, (struct call){.code = GIVE}, &reply) == BR_REPLY, "no object came");
    uint32_t handle = raw_keep(&client->looper, &reply);
    looper_free(&client->looper, &reply);
    for (uint32_t i = 0; i < 2 * ROUNDS; i++) {
        usleep(i % 2 ? 0 : LONG);
        pass(client, handle, i);
    }
}

static struct client client;
static atomic_size_t count;

static void await(size_t wanted)
{
    while (count < wanted)
        usleep(1000);
}

/* A thread's first ioctl comes back at once, so it makes another one before: a reader makes no step from then on, and what a caller makes
   is its call. */
static void *wait_for_end(void *calls)
{
    struct looper looper;
    struct turn turn;
    struct binder_transaction_data reply;
    raw_looper(&looper, &client, NULL);
    if (!calls)
        put_code(&looper.commands, BC_ENTER_LOOPER);
    CHECK(looper_flush(&looper), "can't write");
    atomic_fetch_add(&count, 1);
    errno = 0;
    if (calls)
        CHECK(!raw_call(&looper, (struct call){.code = KEEP_WAITING}, &reply), "a call was answered");
    else
        while (looper_turn(&looper, &turn))
            ;
    CHECK(errno == ENODEV, "a wait has ended otherwise");
    return NULL;
}

int main(int argc, char **argv)
{
    size_t wanted = argc > 1 ? strtoul(argv[1], NULL, 10) : 100;
    pthread_t *threads = calloc(wanted + 1, sizeof *threads);
    pthread_attr_t attributes;
    raw_begin(110);
    pid_t manager = raw_start_manager(serve);
    raw_open(&client, WINDOW, NULL);
    pass_some(&client);
    pthread_attr_init(&attributes);
    pthread_attr_setstacksize(&attributes, STACK);
    for (size_t i = 0, readers = wanted - (wanted + 7) / 8; i < wanted; i++) {
        if (i == readers)
            await(readers); /* so that no step comes behind those of the callers */
        CHECK(threads && !pthread_create(&threads[i], &attributes, wait_for_end, i < readers ? NULL : &client), "thread %zu", i);
    }
    await(wanted);
    puts("ready");
    for (size_t i = 0; i < wanted; i++)
        pthread_join(threads[i], NULL);
    printf("%zu threads were told of the end\n", wanted);
    raw_kill(manager);
    free(threads);
    return 0;
}
