/* SPDX-License-Identifier: Apache-2.0 OR MIT */
/*
 * hullpippin-hello [NAME]: a service to begin with. It registers with the context manager of /dev/binder as `hello`, or
 * as what is said, and answers each call with a greeting until it is killed.
 */
#include "manager.h"

#include <errno.h>
#include <stdio.h>
#include <string.h>
#include <sys/prctl.h>

#define WINDOW (1 << 16)
#define WORD_ROOM 128
#define ADD_SERVICE 3

/* The context manager's handle. */
#define MANAGER 0

static void write_word(struct writer *writer, const char *word)
{
    uint8_t units[2 * WORD_ROOM] = {0};
    size_t length = strnlen(word, WORD_ROOM);
    for (size_t i = 0; i < length; i++)
        units[2 * i] = (uint8_t)word[i];
    write_name(writer, units, 2 * length);
}

static void serve(struct looper *looper, const struct binder_transaction_data *call)
{
    struct writer writer = {0};
    if (call->flags & TF_ONE_WAY)
        return;
    if (call->code != AIDL_PING) {
        write_number(&writer, 0); /* no exception */
        write_word(&writer, "hello");
    }
    struct binder_transaction_data answer = record_of(&writer);
    if (!writer.failed)
        looper_answer(looper, &answer, 0);
    else
        looper_answer_status(looper, STATUS_NO_MEMORY);
    writer_free(&writer);
}

static bool add(struct looper *looper, const char *name)
{
    struct writer writer = {0};
    struct binder_transaction_data reply;
    write_number(&writer, 0); /* strict mode */
    write_word(&writer, "android.os.IServiceManager");
    write_word(&writer, name);
    write_own_object(&writer, (uintptr_t)looper, 0);
    struct binder_transaction_data call = record_of(&writer);
    call.target.handle = MANAGER;
    call.code = ADD_SERVICE;
    bool is_added = !writer.failed && looper_call(looper, &call, 0, &reply) == BR_REPLY && !(reply.flags & TF_STATUS_CODE);
    writer_free(&writer);
    return is_added;
}

int main(int argc, char **argv)
{
    const char *name = argc > 1 ? argv[1] : "hello";
    struct binder binder;
    struct looper looper = {.binder = &binder, .serve = serve};
    prctl(PR_SET_NAME, "hello"); /* the kernel keeps 15 letters, and all here begin alike */
    setvbuf(stdout, NULL, _IOLBF, 0); /* so that who waits for a line gets it */
    if (!binder_open(&binder, "/dev/binder", WINDOW)) {
        fprintf(stderr, "hullpippin-hello: /dev/binder: %s\n", strerror(errno));
        return 1;
    }
    if (!add(&looper, name)) {
        fprintf(stderr, "hullpippin-hello: no context manager of /dev/binder takes %s\n", name);
        return 1;
    }
    printf("hullpippin-hello: ready as %s\n", name);
    looper_run(&looper);
    fprintf(stderr, "hullpippin-hello: /dev/binder: %s\n", strerror(errno));
    return 1;
}
