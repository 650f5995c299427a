/* SPDX-License-Identifier: Apache-2.0 OR MIT */
/*
 * waiting: clients that call a server, each in a thread of its own that sleeps until it has something to read
 * (include/hullpippin_wait.h).
 *
 *     waiting [CALLS]
 *
 * Each client makes so many calls (200), one after the other, with a number that the server replies with one more. Every other one makes
 * its writes itself, the others hand theirs over. Prints how many calls were answered in all, and how many replies were wrong.
 */
#include "hullpippin.h"
#include "hullpippin_wait.h"

#include <pthread.h>
#include <stdio.h>
#include <stdlib.h>
#include <string.h>

enum { CLIENTS = 4, SEATS = CLIENTS + 1, RECORD = 64, LONGEST = 256 };

/* A stream of commands with the area that they speak of. */
struct stream {
    uint8_t bytes[2 * (4 + RECORD)], area[8];
    size_t size;
};

struct part {
    pthread_t thread;
    hullpippin_seat seat;
    uint32_t number, calls, wrong;
};

static hullpippin_bell bell = HULLPIPPIN_BELL;
static uint32_t calls_each = 200;

static void fail(const char *why)
{
    fprintf(stderr, "waiting: %s\n", why);
    exit(1);
}

static void append(struct stream *stream, const void *bytes, size_t size)
{
    memcpy(stream->bytes + stream->size, bytes, size);
    stream->size += size;
}

/* A transaction or a reply to handle 0 that carries a number. */
static void append_call(struct stream *stream, uint32_t command, uint32_t number)
{
    uint8_t record[RECORD] = { 0 };
    uint64_t size = sizeof number, offsets = sizeof stream->area;
    memcpy(record + 32, &size, sizeof size);
    memcpy(record + 56, &offsets, sizeof offsets);
    memcpy(stream->area, &number, sizeof number);
    append(stream, &command, sizeof command);
    append(stream, record, sizeof record);
}

static void append_free(struct stream *stream, uint64_t buffer)
{
    uint32_t command = HULLPIPPIN_BC_FREE_BUFFER;
    append(stream, &command, sizeof command);
    append(stream, &buffer, sizeof buffer);
}

static uint32_t write_once(hullpippin_seat *seat, void *given, hullpippin_answer *answer)
{
    struct stream *stream = given;
    return hullpippin_write(seat, stream->bytes, stream->size, stream->area, sizeof stream->area, answer);
}

static uint32_t read_once(hullpippin_seat *seat, void *given, hullpippin_answer *answer)
{
    (void)given;
    return hullpippin_read(seat, LONGEST, answer);
}

static uint32_t open_once(hullpippin_seat *seat, void *given, hullpippin_answer *answer)
{
    return hullpippin_open(seat, *(uint32_t *)given, 1000, 1 << 16, answer);
}

static uint32_t manager_once(hullpippin_seat *seat, void *given, hullpippin_answer *answer)
{
    (void)given;
    return hullpippin_manager(seat, answer);
}

/* Makes a request, which has to be answered so. */
static hullpippin_answer ask(struct part *part, hullpippin_request_of *request, void *given, uint32_t kind)
{
    hullpippin_answer answer;
    if (hullpippin_insist(&bell, &part->seat, request, given, &answer) != HULLPIPPIN_DONE || answer.kind != kind || answer.stop)
        fail("a request has another answer");
    return answer;
}

/* Has a stream run: by a call, posted, or by whichever is at hand. */
static void write_stream(struct part *part, struct stream *stream)
{
    hullpippin_request request = { .kind = HULLPIPPIN_WRITE };
    hullpippin_answer answer;
    uint32_t status;
    switch (part->number % 3) {
    case 1:
        ask(part, write_once, stream, HULLPIPPIN_WROTE);
        return;
    case 2:
        status = hullpippin_hand_over(&bell, &part->seat, &request, stream->bytes, stream->size, stream->area, sizeof stream->area, &answer);
        break;
    default:
        status = hullpippin_post(&part->seat, &request, stream->bytes, stream->size, stream->area, sizeof stream->area);
        if (status == HULLPIPPIN_DONE)
            status = hullpippin_await(&bell, &part->seat, &answer);
    }
    if (status != HULLPIPPIN_DONE || answer.kind != HULLPIPPIN_WROTE || answer.stop)
        fail("what was handed over has another answer");
}

/* Sleeps until a call or a reply is there, and reads it: the number that it carries, and its buffer. */
static uint32_t receive(struct part *part, uint32_t wanted, uint64_t *buffer)
{
    for (;;) {
        uint8_t stream[LONGEST];
        uint32_t code = 0, number = 0;
        hullpippin_sleep(&bell, &part->seat, part->number, NULL);
        hullpippin_answer got = ask(part, read_once, NULL, HULLPIPPIN_GOT);
        hullpippin_answer_bytes(&part->seat, HULLPIPPIN_STREAM, stream, sizeof stream);
        if (got.stream < 4 + RECORD)
            continue;
        uint8_t *last = stream + got.stream - 4 - RECORD;
        memcpy(&code, last, sizeof code);
        if (code != wanted)
            continue;
        memcpy(buffer, last + 4 + 48, sizeof *buffer);
        hullpippin_answer_bytes(&part->seat, HULLPIPPIN_DATA, (uint8_t *)&number, sizeof number);
        return number;
    }
}

static void *serve(void *given)
{
    struct part *part = given;
    for (uint32_t i = 0; i < CLIENTS * calls_each; i++) {
        struct stream stream = { .size = 0 };
        uint64_t buffer;
        uint32_t number = receive(part, HULLPIPPIN_BR_TRANSACTION, &buffer);
        append_free(&stream, buffer);
        append_call(&stream, HULLPIPPIN_BC_REPLY, number + 1);
        write_stream(part, &stream);
        part->calls++;
    }
    return NULL;
}

static void *call(void *given)
{
    struct part *part = given;
    for (uint32_t i = 0; i < calls_each; i++) {
        struct stream stream = { .size = 0 }, after = { .size = 0 };
        uint64_t buffer;
        append_call(&stream, HULLPIPPIN_BC_TRANSACTION, 1000 * part->number + i);
        write_stream(part, &stream);
        part->wrong += receive(part, HULLPIPPIN_BR_REPLY, &buffer) != 1000 * part->number + i + 1;
        append_free(&after, buffer);
        write_stream(part, &after);
        part->calls++;
    }
    return NULL;
}

/* The server is seat 0 and the context manager, the clients are the others. */
static void begin(hullpippin_driver *driver, struct part *parts)
{
    struct stream enter = { .size = 0 };
    uint32_t command = HULLPIPPIN_BC_ENTER_LOOPER;
    append(&enter, &command, sizeof command);
    if (hullpippin_new(SEATS, driver))
        fail("there is no driver");
    for (uint32_t i = 0; i < SEATS; i++) {
        uint32_t pid = 100 + i;
        parts[i].number = i;
        if (hullpippin_take_seat(driver, &parts[i].seat))
            fail("there is no seat");
        ask(&parts[i], open_once, &pid, HULLPIPPIN_OPENED);
    }
    ask(&parts[0], manager_once, NULL, HULLPIPPIN_SET);
    ask(&parts[0], write_once, &enter, HULLPIPPIN_WROTE);
}

int main(int count, char **words)
{
    static struct part parts[SEATS];
    hullpippin_driver driver = HULLPIPPIN_NO_DRIVER;
    uint32_t calls = 0, wrong = 0;
    if (count > 1)
        calls_each = (uint32_t)strtoul(words[1], NULL, 10);
    begin(&driver, parts);
    for (int i = 0; i < SEATS; i++)
        if (pthread_create(&parts[i].thread, NULL, i ? call : serve, &parts[i]))
            fail("there is no thread");
    for (int i = 0; i < SEATS; i++) {
        pthread_join(parts[i].thread, NULL);
        calls += i ? parts[i].calls : 0;
        wrong += parts[i].wrong;
        hullpippin_free_seat(&parts[i].seat);
    }
    hullpippin_free_driver(&driver);
    printf("%u calls, %u wrong\n", calls, wrong);
    return wrong ? 1 : 0;
}
