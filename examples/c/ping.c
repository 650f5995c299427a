/* SPDX-License-Identifier: Apache-2.0 OR MIT */
/*
 * ping: two seats of one driver, each in a thread of its own. The first opens a process and becomes the context manager;
 * the second calls it. With the word `call` the call is two-way and is replied to; with `one-way` it isn't.
 *
 *     ping one-way|call [JOURNAL]
 *
 * Prints what the player prints for the runs of those names (examples/), and writes the journal of the history.
 */
#include "hullpippin.h"

#include <inttypes.h>
#include <pthread.h>
#include <sched.h>
#include <stdarg.h>
#include <stdatomic.h>
#include <stdio.h>
#include <string.h>

/* How often a thread looks whether it is its turn. */
#define TURNS 100000000

/* A place for each line that is printed, so that the lines come in their order whatever the threads do. */
#define LINES 16
static char lines[LINES][512];

/* One thread's part of the run. */
struct part {
    hullpippin_seat seat;
    bool two_way;
};

/* A part has failed, so the other's turn won't come. */
static atomic_bool failed;

static void say(int line, const char *format, ...)
{
    va_list rest;
    va_start(rest, format);
    vsnprintf(lines[line], sizeof lines[line], format, rest);
    va_end(rest);
}

static bool fails(const char *why)
{
    fprintf(stderr, "ping: %s\n", why);
    failed = true;
    return false;
}

/* Waits until the history has so many steps and the engine is free: then it is this thread's turn. A step is published
   before the engine is put back, so a call that is made in between comes back. */
static bool wait_for(struct part *part, uint32_t stamp)
{
    hullpippin_page page;
    for (long turn = 0; turn < TURNS && !failed; turn++) {
        hullpippin_look(&part->seat, &page);
        if (page.stamp >= stamp && !page.taken)
            return true;
        sched_yield();
    }
    return failed ? false : fails("its turn didn't come");
}

/* Whether a call was made and answered so. */
static bool is_answered(uint32_t status, const hullpippin_answer *answer, uint32_t kind)
{
    if (status == HULLPIPPIN_NO_MEMORY)
        return fails("no memory");
    if (status != HULLPIPPIN_DONE)
        return fails("the call wasn't made");
    if (answer->kind == HULLPIPPIN_BACK)
        return fails(answer->why == HULLPIPPIN_BACK_NO_MEMORY ? "no memory" : "the call came back");
    if (answer->kind != kind)
        return fails("another answer");
    return true;
}

static void put32(uint8_t *at, uint32_t value)
{
    for (int i = 0; i < 4; i++)
        at[i] = (uint8_t)(value >> 8 * i);
}

/* A transaction or a reply with data and no objects, the data at the beginning of the area. Its offsets begin behind it, at the
   next multiple of 8. The targets are handle 0. */
static void transaction(uint8_t stream[68], uint32_t command, uint32_t code, uint32_t flags, uint32_t size)
{
    memset(stream, 0, 68);
    put32(stream, command);
    put32(stream + 4 + 16, code);
    put32(stream + 4 + 20, flags);
    put32(stream + 4 + 32, size);
    put32(stream + 4 + 56, (size + 7) / 8 * 8);
}

/* Writes one command, and says how much of it was run. */
static bool write_line(struct part *part, int line, const uint8_t *stream, size_t size, const uint8_t *area, size_t area_size)
{
    hullpippin_answer answer;
    uint32_t status = hullpippin_write(&part->seat, stream, size, area, area_size, &answer);
    if (!is_answered(status, &answer, HULLPIPPIN_WROTE))
        return false;
    if (answer.stop != HULLPIPPIN_AT_END)
        return fails(answer.number == HULLPIPPIN_FAULT_NO_MEMORY ? "no memory" : "the write stopped");
    say(line, "wrote %u %" PRIu64 " %" PRIu64, answer.consumed, answer.from, answer.to);
    return true;
}

/* The hex digits of a part of the latest answer, or a dash. The part is known to fit, since a read's limit is 256 here and
   no call has more data. */
static void digits(struct part *part, uint32_t which, char *to)
{
    uint8_t bytes[256];
    size_t size = hullpippin_answer_bytes(&part->seat, which, bytes, sizeof bytes);
    strcpy(to, size ? "" : "-");
    for (size_t i = 0; i < size && i < sizeof bytes; i++)
        sprintf(to + 2 * i, "%02x", bytes[i]);
}

/* Reads, and says what was read. */
static bool read_line(struct part *part, int line)
{
    hullpippin_answer answer;
    char stream[513], data[513], offsets[513];
    uint32_t status = hullpippin_read(&part->seat, 256, &answer);
    if (!is_answered(status, &answer, HULLPIPPIN_GOT))
        return false;
    digits(part, HULLPIPPIN_STREAM, stream);
    digits(part, HULLPIPPIN_DATA, data);
    digits(part, HULLPIPPIN_OFFSETS, offsets);
    say(line, "got %s %s %s %" PRIu64 " %" PRIu64, stream, data, offsets, answer.from, answer.to);
    return true;
}

/* Opens a process, or says why not. */
static bool open_line(struct part *part, int line, uint32_t pid, uint32_t euid)
{
    hullpippin_answer answer;
    uint32_t status = hullpippin_open(&part->seat, pid, euid, 4096, &answer);
    if (!is_answered(status, &answer, HULLPIPPIN_OPENED))
        return false;
    say(line, "opened %" PRIu64 " %" PRIu64, answer.from, answer.to);
    return true;
}

static bool become_manager(struct part *part, int line)
{
    hullpippin_answer answer;
    uint32_t status = hullpippin_manager(&part->seat, &answer);
    if (!is_answered(status, &answer, HULLPIPPIN_SET))
        return false;
    say(line, "set %" PRIu64 " %" PRIu64, answer.from, answer.to);
    return true;
}

static bool look_line(struct part *part, int line)
{
    hullpippin_page page;
    hullpippin_look(&part->seat, &page);
    say(line, "page %u %x %u", page.stamp, page.ready, page.taken);
    return true;
}

/* The context manager's thread. */
static void *serve(void *given)
{
    struct part *part = given;
    uint8_t enter[4], reply[68], area[8] = {0x2a};
    put32(enter, HULLPIPPIN_BC_ENTER_LOOPER);
    transaction(reply, HULLPIPPIN_BC_REPLY, 0, 0, 1);
    (void)(wait_for(part, 0) && open_line(part, 2, 100, 1000) && become_manager(part, 3)
           && write_line(part, 4, enter, sizeof enter, NULL, 0) && wait_for(part, 6) && read_line(part, 8)
           && (!part->two_way
               || (write_line(part, 9, reply, sizeof reply, area, sizeof area) && wait_for(part, 9) && read_line(part, 11))));
    return NULL;
}

/* The client's thread. */
static void *ask(void *given)
{
    struct part *part = given;
    uint8_t call[68], area[8] = {1, 2, 3, 4}, word[8] = {'h', 'i'};
    transaction(call, HULLPIPPIN_BC_TRANSACTION, part->two_way ? 9 : 7, part->two_way ? 0 : HULLPIPPIN_TF_ONE_WAY, part->two_way ? 4 : 2);
    (void)(wait_for(part, 3) && open_line(part, 5, 200, 2000)
           && write_line(part, 6, call, sizeof call, part->two_way ? area : word, 8) && read_line(part, 7)
           && (!part->two_way || (wait_for(part, 8) && read_line(part, 10) && wait_for(part, 10) && look_line(part, 12))));
    return NULL;
}

/* Each part in a thread of its own. */
static bool run(struct part parts[2])
{
    pthread_t threads[2];
    void *(*const work[2])(void *) = {serve, ask};
    int started = 0;
    while (started < 2 && pthread_create(&threads[started], NULL, work[started], &parts[started]) == 0)
        started++;
    if (started < 2)
        fails("no thread");
    for (int i = 0; i < started; i++)
        pthread_join(threads[i], NULL);
    return !failed;
}

/* Writes the journal of an ended driver to a file, first asking for its size. */
static bool write_journal(hullpippin_driver *driver, const char *path)
{
    static uint8_t journal[65536];
    size_t size = 0;
    hullpippin_verdict_on verdict;
    if (hullpippin_journal(driver, NULL, 0, &size) != HULLPIPPIN_DONE || size > sizeof journal
        || hullpippin_journal(driver, journal, sizeof journal, &size) != HULLPIPPIN_DONE
        || hullpippin_verdict(journal, size, &verdict) != HULLPIPPIN_DONE)
        return fprintf(stderr, "ping: no memory\n"), false;
    if (!verdict.lawful)
        return fprintf(stderr, "ping: an unlawful journal\n"), false;
    FILE *file = path ? fopen(path, "wb") : NULL;
    if (path && (!file || fwrite(journal, 1, size, file) != size || fclose(file)))
        return fprintf(stderr, "ping: no file\n"), false;
    return true;
}

int main(int count, char **words)
{
    hullpippin_driver driver = HULLPIPPIN_NO_DRIVER;
    struct part parts[2] = {{HULLPIPPIN_NO_SEAT, false}, {HULLPIPPIN_NO_SEAT, false}};
    if (count < 2 || (strcmp(words[1], "call") && strcmp(words[1], "one-way")))
        return fprintf(stderr, "ping one-way|call [JOURNAL]\n"), 2;
    parts[0].two_way = parts[1].two_way = !strcmp(words[1], "call");
    if (hullpippin_new(2, &driver))
        return fprintf(stderr, "ping: no memory\n"), 1;
    bool done = !hullpippin_take_seat(&driver, &parts[0].seat) && !hullpippin_take_seat(&driver, &parts[1].seat);
    if (!done)
        fprintf(stderr, "ping: no memory\n");
    done = done && run(parts);
    for (int i = 0; i < 2; i++)
        hullpippin_return_seat(&driver, &parts[i].seat);
    done = done && !hullpippin_finish(&driver) && write_journal(&driver, count > 2 ? words[2] : NULL);
    hullpippin_free_driver(&driver);
    for (int line = 0; done && line < LINES; line++)
        if (lines[line][0])
            printf("%d: %s\n", line, lines[line]);
    return done ? 0 : 1;
}
