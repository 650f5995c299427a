/* SPDX-License-Identifier: Apache-2.0 OR MIT */
/*
 * objects: a process sends an object of its own to another, over an engine that keeps no history. Its commands and its parcel are
 * spelled by the library, and what both read is read by it.
 *
 *     objects
 *
 * Prints each return that is read, and the objects of a transaction: the run *object sent* of examples/, in words.
 */
#include "hullpippin.h"

#include <inttypes.h>
#include <stdio.h>

/* The seats: the context manager's thread, and its client's. */
enum { MANAGER, CLIENT, SEATS };

#define MOST 256

static bool fails(const char *why)
{
    fprintf(stderr, "objects: %s\n", why);
    return false;
}

/* Whether a step was made, and came to this kind of answer. */
static bool is_made(uint32_t status, const hullpippin_answer *answer, uint32_t kind)
{
    if (status != HULLPIPPIN_DONE)
        return fails(status == HULLPIPPIN_NO_MEMORY ? "no memory" : "the step wasn't made");
    return (answer->kind == kind && answer->stop == HULLPIPPIN_AT_END) || fails("another answer");
}

/* Runs a command with its parcel, which has the sizes that its record says. */
static bool run(hullpippin_live *live, uint32_t seat, const hullpippin_command *command, const uint8_t *data, const uint8_t *offsets)
{
    uint8_t bytes[68];
    hullpippin_answer answer;
    size_t size = hullpippin_spell_command(command, bytes, sizeof bytes);
    uint32_t status = hullpippin_live_command(live, seat, bytes, size, data, (size_t)command->transaction.data_size, offsets,
                                              (size_t)command->transaction.offsets_size, &answer);
    return is_made(status, &answer, HULLPIPPIN_WROTE);
}

/* Calls the manager one-way, with one object of the client's at the beginning of the data. */
static bool send_object(hullpippin_live *live)
{
    static const uint8_t offsets[8] = {0};
    uint8_t data[24];
    hullpippin_flat_object object = {.kind = HULLPIPPIN_TYPE_BINDER, .binder = 0x1000, .cookie = 0x2000, .start = 0};
    hullpippin_command command = {.code = HULLPIPPIN_BC_TRANSACTION,
                                  .transaction = {.code = 1, .flags = HULLPIPPIN_TF_ONE_WAY, .data_size = sizeof data,
                                                  .offsets_size = sizeof offsets}};
    if (hullpippin_put_object(&object, data, sizeof data))
        return fails("the object has no place");
    return run(live, CLIENT, &command, data, offsets);
}

/* Prints the objects of a parcel. */
static bool say_objects(const uint8_t *data, size_t data_size, const uint8_t *offsets, size_t offsets_size)
{
    hullpippin_walk walk = {0, 0, 0};
    hullpippin_flat_object object;
    while (hullpippin_next_object(data, data_size, offsets, offsets_size, &walk, &object)) {
        bool is_handle = object.kind == HULLPIPPIN_TYPE_HANDLE || object.kind == HULLPIPPIN_TYPE_WEAK_HANDLE;
        printf("    at %zu: %s 0x%" PRIx64 "\n", object.start, is_handle ? "handle" : "ptr", object.binder);
    }
    return !walk.cause || fails("no parcel");
}

/* Prints a return that was read, which so has a name. */
static void say_return(const hullpippin_return *returned)
{
    const hullpippin_transaction *call = &returned->transaction;
    printf("  %s", hullpippin_text(HULLPIPPIN_TEXT_RETURN, returned->code));
    if (returned->code == HULLPIPPIN_BR_INCREFS || returned->code == HULLPIPPIN_BR_ACQUIRE)
        printf(" ptr 0x%" PRIx64 " cookie 0x%" PRIx64, returned->pointer, returned->cookie);
    if (returned->code == HULLPIPPIN_BR_TRANSACTION)
        printf(" code %" PRIu32 " flags 0x%" PRIx32 " euid %" PRIu32 ", %" PRIu64 " bytes", call->code, call->flags, call->sender_euid,
               call->data_size);
    printf("\n");
}

/* Prints each return of a stream. */
static bool say_returns(const uint8_t *stream, size_t size)
{
    hullpippin_return returned;
    for (size_t at = 0; at < size; at += returned.size) {
        if (hullpippin_next_return(stream + at, size - at, &returned))
            return fails("no return");
        say_return(&returned);
    }
    return true;
}

/* Reads, and prints what was read. */
static bool read_and_say(hullpippin_live *live, uint32_t seat, const char *who)
{
    uint8_t stream[MOST], data[MOST], offsets[MOST];
    hullpippin_answer answer;
    if (!is_made(hullpippin_live_read(live, seat, MOST, &answer), &answer, HULLPIPPIN_GOT))
        return false;
    if (hullpippin_live_bytes(live, HULLPIPPIN_STREAM, stream, MOST) > MOST || hullpippin_live_bytes(live, HULLPIPPIN_DATA, data, MOST) > MOST
        || hullpippin_live_bytes(live, HULLPIPPIN_OFFSETS, offsets, MOST) > MOST)
        return fails("too many bytes");
    printf("%s reads\n", who);
    return say_returns(stream, answer.stream) && say_objects(data, answer.data, offsets, answer.offsets);
}

static bool play(hullpippin_live *live)
{
    static const hullpippin_command enter = {.code = HULLPIPPIN_BC_ENTER_LOOPER};
    hullpippin_answer answer;
    return is_made(hullpippin_live_open(live, MANAGER, 100, 1000, 4096, &answer), &answer, HULLPIPPIN_OPENED)
           && is_made(hullpippin_live_manager(live, MANAGER, &answer), &answer, HULLPIPPIN_SET)
           && run(live, MANAGER, &enter, HULLPIPPIN_NOWHERE, HULLPIPPIN_NOWHERE)
           && is_made(hullpippin_live_open(live, CLIENT, 200, 2000, 4096, &answer), &answer, HULLPIPPIN_OPENED) && send_object(live)
           && read_and_say(live, CLIENT, "the client") && read_and_say(live, MANAGER, "the manager");
}

int main(void)
{
    hullpippin_live live = HULLPIPPIN_NO_LIVE;
    if (hullpippin_live_new(SEATS, &live) != HULLPIPPIN_DONE) {
        fails("no memory");
        return 1;
    }
    bool done = play(&live);
    hullpippin_free_live(&live);
    return done ? 0 : 1;
}
