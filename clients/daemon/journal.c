/* SPDX-License-Identifier: Apache-2.0 OR MIT */
/*
 * journal.c: the file that an engine's entries go to (recorder.c). It begins with the heading of more entries than there ever
 * are, so that nobody takes a file that was cut off for a journal; the right number is put there at the end.
 *
 * An engine with more than 31 seats has a journal of version three, whose heading is longer (docs/FORMATS.md, "The journal"); the
 * entries are the same. Beside the journal of a file stand the times of its entries, and who had which seat ("Times and names" there).
 */
#include "daemon.h"

#include <endian.h>
#include <stdlib.h>
#include <string.h>

#define FIRST_ROOM 4096u
#define HEADING_ROOM 32u

/* What the library spells headings for. */
#define NARROW_SEATS 31u

/* What begins a journal of version three; numbers are little-endian. */
struct wide_heading {
    char mark[8];
    uint32_t seats;
    uint64_t count;
} __attribute__((packed));

/* More entries than a history can have. */
#define GROWING UINT64_MAX

static size_t spell_wide_heading(uint32_t seats, uint64_t count, uint8_t *heading)
{
    struct wide_heading wide = {.seats = htole32(seats), .count = htole64(count)};
    memcpy(wide.mark, "BNDJ0003", sizeof wide.mark);
    memcpy(heading, &wide, sizeof wide);
    return sizeof wide;
}

/* The heading of so many entries: its size, or 0 where there is none. */
static size_t spell_heading(const struct journal *journal, hullpippin_live *live, uint64_t count, uint8_t *heading)
{
    size_t size = 0;
    uint64_t narrow_count = count == GROWING ? UINT32_MAX : count;
    if (journal->seats > NARROW_SEATS)
        return spell_wide_heading(journal->seats, count, heading);
    bool is_there = hullpippin_live_heading(live, narrow_count, heading, HEADING_ROOM, &size) == HULLPIPPIN_DONE && size <= HEADING_ROOM;
    return is_there ? size : 0;
}

/* What the file of times begins with. */
struct times_front {
    char mark[8];
    uint64_t offset;
};

#define WHO_FRONT "HPWHO 1 "

static bool begin(struct journal *journal, struct device *device, hullpippin_live *live)
{
    uint8_t heading[HEADING_ROOM];
    char who[sizeof WHO_FRONT + ESCAPED * DEVICE_NAME_ROOM] = WHO_FRONT;
    struct times_front times = {.offset = htole64(realtime_offset())};
    size_t size = spell_heading(journal, live, GROWING, heading), length = strlen(who) + name_escape(device->name, who + strlen(who));
    if (!size || !journal->entry) {
        log_line("%s: no memory for its heading", journal->path);
        return false;
    }
    memcpy(times.mark, "HPTIMES1", sizeof times.mark);
    who[length++] = '\n';
    const struct span fronts[TRACKS] = {{&times, sizeof times}, {who, length}, {heading, size}};
    journal->recorder = recorder_begin(journal->path, device->files, fronts);
    return journal->recorder != NULL;
}

bool journal_open(struct journal *journal, struct device *device, hullpippin_live *live, uint32_t seats)
{
    *journal = (struct journal){.path = device->journal, .seats = seats, .room = FIRST_ROOM, .entry = malloc(FIRST_ROOM),
                                .first = hullpippin_live_len(live)};
    return begin(journal, device, live);
}

/* Makes room for so many bytes of an entry. */
static bool grow(struct journal *journal, size_t size)
{
    uint8_t *larger = realloc(journal->entry, size);
    if (!larger)
        return false;
    journal->entry = larger;
    journal->room = size;
    return true;
}

uint64_t narrow_most = UINT32_MAX;

/* Whether the latest step's entry can be counted. */
static bool has_number(const struct journal *journal, hullpippin_live *live)
{
    return journal->seats > NARROW_SEATS || hullpippin_live_len(live) - journal->first <= narrow_most;
}

/* Fetches the latest step's entry: its size, or 0 where it can't be had. */
static size_t fetch(struct journal *journal, hullpippin_live *live)
{
    size_t size = 0;
    if (!has_number(journal, live)) {
        recorder_break_off(journal->recorder, "a journal of so few seats counts no more entries");
        return 0;
    }
    uint32_t status = hullpippin_live_entry(live, journal->entry, journal->room, &size);
    if (status == HULLPIPPIN_DONE && size > journal->room)
        status = grow(journal, size) ? hullpippin_live_entry(live, journal->entry, journal->room, &size) : HULLPIPPIN_NO_MEMORY;
    if (status == HULLPIPPIN_DONE)
        return size;
    recorder_break_off(journal->recorder, status == HULLPIPPIN_NO_MEMORY ? "no memory for an entry" : "an entry has no spelling");
    return 0;
}

size_t journal_append(struct journal *journal, hullpippin_live *live, uint64_t time)
{
    if (!journal->recorder || journal->has_broken_off)
        return 0;
    uint64_t spelled = htole64(time);
    size_t size = fetch(journal, live);
    const struct span spans[TRACKS] = {{&spelled, sizeof spelled}, {NULL, 0}, {journal->entry, size}};
    journal->has_broken_off = !size || !recorder_append(journal->recorder, spans);
    return sizeof spelled + size;
}

/* The longest line without its name: a number of twenty digits, two of ten, one of five, and what is between them. */
#define LINE_ROOM (64 + ESCAPED * COMM_ROOM)

void journal_note_seat(struct journal *journal, hullpippin_live *live, uint32_t seat, pid_t pid, const struct name *name)
{
    char line[LINE_ROOM];
    unsigned long long place = hullpippin_live_len(live) - journal->first;
    if (!journal->recorder || journal->has_broken_off)
        return;
    size_t size = (size_t)(name ? sprintf(line, "%llu %u %d %d ", place, seat, pid, name->tid) : sprintf(line, "%llu %u -", place, seat));
    size += name ? name_escape(name->comm, line + size) : 0;
    line[size++] = '\n';
    const struct span spans[TRACKS] = {{NULL, 0}, {line, size}, {NULL, 0}};
    journal->has_broken_off = !recorder_append(journal->recorder, spans);
}

bool journal_close(struct journal *journal, hullpippin_live *live)
{
    bool is_whole = true;
    if (journal->recorder) {
        uint8_t heading[HEADING_ROOM];
        uint64_t count = hullpippin_live_len(live) - journal->first;
        size_t size = spell_heading(journal, live, count, heading);
        is_whole = recorder_end(journal->recorder, (struct span){heading, size}) && size;
        if (is_whole)
            log_line("%s: %llu entries", journal->path, (unsigned long long)count);
        else if (!size && !journal->has_broken_off)
            log_line("%s: no memory for its heading; `bplay mend` puts it right", journal->path);
    }
    free(journal->entry);
    *journal = (struct journal){0};
    return is_whole;
}
