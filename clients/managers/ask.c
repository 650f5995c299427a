/* SPDX-License-Identifier: Apache-2.0 OR MIT */
/*
 * hullpippin-ask [NAME]: a client to begin with. It asks the context manager of /dev/binder for the service `hello`, or for
 * the one that is named, pings it, makes one call, and prints the text of the reply.
 */
#include "manager.h"

#include <errno.h>
#include <stdio.h>
#include <string.h>

#define WINDOW (1 << 16)
#define WORD_ROOM 128
#define CHECK_SERVICE 2
#define GREET 1

/* The context manager's handle. */
#define MANAGER 0

static void write_word(struct writer *writer, const char *word)
{
    uint8_t units[2 * WORD_ROOM] = {0};
    size_t length = strnlen(word, WORD_ROOM);
    for (size_t i = 0; i < length; i++)
        units[2 * i] = (uint8_t)word[i];
    write_name(writer, units, 2 * length);
}

/* Makes a call; whether there was a reply that is a parcel. */
static bool call(struct looper *looper, uint32_t handle, uint32_t code, const struct writer *writer,
                 struct binder_transaction_data *reply)
{
    struct binder_transaction_data record = record_of(writer);
    record.target.handle = handle;
    record.code = code;
    return !writer->failed && looper_call(looper, &record, 0, reply) == BR_REPLY && !(reply->flags & TF_STATUS_CODE);
}

/* The handle of a service. It is acquired before the reply that brought it is freed, or it would go with that. */
static bool find(struct looper *looper, const char *name, uint32_t *handle)
{
    struct writer writer = {0};
    struct binder_transaction_data reply;
    struct flat_binder_object object;
    const uint8_t *bytes;
    write_number(&writer, 0); /* strict mode */
    write_word(&writer, "android.os.IServiceManager");
    write_word(&writer, name);
    bool is_found = call(looper, MANAGER, CHECK_SERVICE, &writer, &reply) && reply.offsets_size == sizeof(binder_size_t);
    writer_free(&writer);
    if (!is_found)
        return false;
    struct reader reader = reader_of(&reply);
    is_found = read_bytes(&reader, &bytes, sizeof object);
    if (is_found) {
        memcpy(&object, bytes, sizeof object);
        *handle = object.handle;
        put_handle(&looper->commands, BC_ACQUIRE, *handle);
    }
    looper_free(looper, &reply);
    return is_found;
}

/* Prints the text of a reply: a number, which tells of an exception, and then the text. What is no plain letter is a dot. */
static bool print_text(const struct binder_transaction_data *reply)
{
    struct reader reader = reader_of(reply);
    uint32_t exception;
    const uint8_t *units;
    size_t size;
    if (!read_number(&reader, &exception) || exception || !read_name(&reader, &units, &size))
        return false;
    for (size_t i = 0; i + 1 < size; i += 2)
        putchar(units[i + 1] || units[i] < ' ' || units[i] > '~' ? '.' : units[i]);
    putchar('\n');
    return true;
}

static bool ask(struct looper *looper, uint32_t handle)
{
    struct writer nothing = {0};
    struct binder_transaction_data reply;
    if (!call(looper, handle, AIDL_PING, &nothing, &reply))
        return false;
    looper_free(looper, &reply);
    if (!call(looper, handle, GREET, &nothing, &reply))
        return false;
    bool is_printed = print_text(&reply);
    looper_free(looper, &reply);
    return is_printed;
}

static void serve_nothing(struct looper *looper, const struct binder_transaction_data *call)
{
    if (!(call->flags & TF_ONE_WAY))
        looper_answer_status(looper, STATUS_UNKNOWN_CALL);
}

int main(int argc, char **argv)
{
    const char *name = argc > 1 ? argv[1] : "hello";
    struct binder binder;
    struct looper looper = {.binder = &binder, .serve = serve_nothing};
    uint32_t handle;
    if (!binder_open(&binder, "/dev/binder", WINDOW)) {
        fprintf(stderr, "hullpippin-ask: /dev/binder: %s\n", strerror(errno));
        return 1;
    }
    if (!find(&looper, name, &handle)) {
        fprintf(stderr, "hullpippin-ask: no context manager of /dev/binder knows %s\n", name);
        return 1;
    }
    if (!ask(&looper, handle)) {
        fprintf(stderr, "hullpippin-ask: %s doesn't answer as hullpippin-hello does\n", name);
        return 1;
    }
    looper_flush(&looper);
    return 0;
}
