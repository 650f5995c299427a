/* SPDX-License-Identifier: Apache-2.0 OR MIT */
/*
 * live: a one-way call from one process to another, over an engine that keeps no history. Each step's entry is appended to a file
 * as soon as the step is made, and the file is a journal once the number of its entries is put into its heading.
 *
 *     live JOURNAL
 *
 * Prints what the player prints for the same run (examples/), and writes the journal that it writes.
 */
#include "hullpippin.h"

#include <inttypes.h>
#include <stdarg.h>
#include <stdio.h>
#include <string.h>

/* The seats: the context manager's thread, and its client's. */
enum { MANAGER, CLIENT, SEATS };

/* The engine, the file that its entries go to, and what is printed once all went well. */
struct run {
    hullpippin_live live;
    FILE *file;
    int line;
    char said[4096];
    size_t length;
};

/* There is room: a line has at most three parts of 256 bytes, of which there are two. */
static void say(struct run *run, const char *format, ...)
{
    va_list rest;
    va_start(rest, format);
    run->length += (size_t)vsnprintf(run->said + run->length, sizeof run->said - run->length, format, rest);
    va_end(rest);
}

static bool fails(const char *why)
{
    fprintf(stderr, "live: %s\n", why);
    return false;
}

static void put32(uint8_t *at, uint32_t value)
{
    for (int i = 0; i < 4; i++)
        at[i] = (uint8_t)(value >> 8 * i);
}

/* Writes what a journal of so many entries begins with to the beginning of the file. */
static bool write_heading(struct run *run, uint64_t count)
{
    uint8_t heading[16];
    size_t size;
    uint32_t status = hullpippin_live_heading(&run->live, count, heading, sizeof heading, &size);
    if (status != HULLPIPPIN_DONE)
        return fails(status == HULLPIPPIN_NO_MEMORY ? "no memory" : "no journal");
    return (fseek(run->file, 0, SEEK_SET) == 0 && fwrite(heading, 1, size, run->file) == size) || fails("no file");
}

/* Appends the latest step's entry to the file. Its size is asked for first: a read's entry has all that was read. */
static bool append_entry(struct run *run)
{
    uint8_t entry[1024];
    size_t size;
    uint32_t status = hullpippin_live_entry(&run->live, entry, sizeof entry, &size);
    if (status != HULLPIPPIN_DONE)
        return fails(status == HULLPIPPIN_NO_MEMORY ? "no memory" : "no journal");
    if (size > sizeof entry)
        return fails("an entry without room");
    return fwrite(entry, 1, size, run->file) == size || fails("no file");
}

/* Whether a step was made and answered so. Then it goes to the file. */
static bool is_answered(struct run *run, uint32_t status, const hullpippin_answer *answer, uint32_t kind)
{
    if (status == HULLPIPPIN_NO_MEMORY)
        return fails("no memory");
    if (status != HULLPIPPIN_DONE)
        return fails("the step wasn't made");
    if (answer->kind != kind)
        return fails("another answer");
    run->line++;
    return append_entry(run);
}

static bool open_line(struct run *run, uint32_t seat, uint32_t pid, uint32_t euid)
{
    hullpippin_answer answer;
    uint32_t status = hullpippin_live_open(&run->live, seat, pid, euid, 4096, &answer);
    if (!is_answered(run, status, &answer, HULLPIPPIN_OPENED))
        return false;
    say(run, "%d: opened %" PRIu64 " %" PRIu64 "\n", run->line, answer.from, answer.to);
    return true;
}

static bool become_manager(struct run *run, uint32_t seat)
{
    hullpippin_answer answer;
    uint32_t status = hullpippin_live_manager(&run->live, seat, &answer);
    if (!is_answered(run, status, &answer, HULLPIPPIN_SET))
        return false;
    say(run, "%d: set %" PRIu64 " %" PRIu64 "\n", run->line, answer.from, answer.to);
    return true;
}

/* Runs one command, with the data of its parcel, which has no objects. */
static bool command_line(struct run *run, uint32_t seat, const uint8_t *command, size_t size, const uint8_t *data, size_t data_size)
{
    hullpippin_answer answer;
    uint32_t status =
        hullpippin_live_command(&run->live, seat, command, size, data, data_size, NULL, 0, &answer);
    if (!is_answered(run, status, &answer, HULLPIPPIN_WROTE))
        return false;
    if (answer.stop != HULLPIPPIN_AT_END || answer.notes)
        return fails("the command was refused");
    say(run, "%d: wrote %u %" PRIu64 " %" PRIu64 "\n", run->line, (unsigned)size, answer.from, answer.to);
    return true;
}

/* Says the hex digits of a part of what was read, or a dash. It is known to fit: the read's limit is 256. */
static void say_digits(struct run *run, uint32_t part)
{
    uint8_t bytes[256];
    size_t size = hullpippin_live_bytes(&run->live, part, bytes, sizeof bytes);
    say(run, "%s", size ? " " : " -");
    for (size_t i = 0; i < size && i < sizeof bytes; i++)
        say(run, "%02x", bytes[i]);
}

static bool read_line(struct run *run, uint32_t seat)
{
    hullpippin_answer answer;
    if (!hullpippin_live_ready(&run->live, seat))
        return fails("there is nothing to read");
    uint32_t status = hullpippin_live_read(&run->live, seat, 256, &answer);
    if (!is_answered(run, status, &answer, HULLPIPPIN_GOT))
        return false;
    say(run, "%d: got", run->line);
    say_digits(run, HULLPIPPIN_STREAM);
    say_digits(run, HULLPIPPIN_DATA);
    say_digits(run, HULLPIPPIN_OFFSETS);
    say(run, " %" PRIu64 " %" PRIu64 "\n", answer.from, answer.to);
    return true;
}

/* The call: handle 0, code 7, one-way, with two bytes of data. Where a write's record has pointers into its area, this has those
   that the player's writes have: they are the journal's, and nothing is looked at there. */
static void one_way_call(uint8_t command[68])
{
    memset(command, 0, 68);
    put32(command, HULLPIPPIN_BC_TRANSACTION);
    put32(command + 4 + 16, 7);
    put32(command + 4 + 20, HULLPIPPIN_TF_ONE_WAY);
    put32(command + 4 + 32, 2);
    put32(command + 4 + 56, 8);
}

/* All steps, in their order, and in the end the number of entries. */
static bool play(struct run *run)
{
    uint8_t enter[4], call[68];
    put32(enter, HULLPIPPIN_BC_ENTER_LOOPER);
    one_way_call(call);
    return write_heading(run, UINT32_MAX) && open_line(run, MANAGER, 100, 1000) && become_manager(run, MANAGER)
           && command_line(run, MANAGER, enter, sizeof enter, NULL, 0) && open_line(run, CLIENT, 200, 2000)
           && command_line(run, CLIENT, call, sizeof call, (const uint8_t *)"hi", 2) && read_line(run, CLIENT)
           && read_line(run, MANAGER) && write_heading(run, hullpippin_live_len(&run->live));
}

int main(int count, char **words)
{
    static struct run run = {.line = 1};
    if (count != 2)
        return fprintf(stderr, "live JOURNAL\n"), 2;
    run.file = fopen(words[1], "wb");
    if (!run.file)
        return fails("no file"), 1;
    bool done = hullpippin_live_new(SEATS, &run.live) == HULLPIPPIN_DONE || fails("no memory");
    done = done && play(&run);
    hullpippin_free_live(&run.live);
    if (fclose(run.file) && done)
        done = fails("no file");
    if (done)
        fputs(run.said, stdout);
    return done ? 0 : 1;
}
