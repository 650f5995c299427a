/* SPDX-License-Identifier: Apache-2.0 OR MIT */
#include "script.h"

#include <stdio.h>
#include <stdlib.h>
#include <string.h>

enum { LONGEST_LINE = 1 << 16 };

/* A verb, its kind of request, the command that is written, and what its words are: p a pid, e a euid, w a window, l a limit, o whether
   reports are asked for; h a handle, b a ptr, c a cookie, t a target, n a code, f flags; d data, i the offsets of its objects; s a stream,
   a an area. */
struct verb {
    const char *word;
    uint32_t kind, code;
    const char *words;
};

static const struct verb VERBS[] = {
    {"open", HULLPIPPIN_OPEN, 0, "pew"},
    {"attach", HULLPIPPIN_ATTACH, 0, "p"},
    {"manager", HULLPIPPIN_MANAGER, 0, ""},
    {"spam", HULLPIPPIN_SET_SPAM, 0, "o"},
    {"read", HULLPIPPIN_READ, 0, "l"},
    {"exitthread", HULLPIPPIN_EXIT_THREAD, 0, ""},
    {"exitprocess", HULLPIPPIN_EXIT_PROCESS, 0, ""},
    {"write", HULLPIPPIN_WRITE, 0, "sa"},
    {"tx", HULLPIPPIN_WRITE, HULLPIPPIN_BC_TRANSACTION, "tnfdi"},
    {"reply", HULLPIPPIN_WRITE, HULLPIPPIN_BC_REPLY, "nfdi"},
    {"enter", HULLPIPPIN_WRITE, HULLPIPPIN_BC_ENTER_LOOPER, ""},
    {"exitloop", HULLPIPPIN_WRITE, HULLPIPPIN_BC_EXIT_LOOPER, ""},
    {"free", HULLPIPPIN_WRITE, HULLPIPPIN_BC_FREE_BUFFER, "b"},
    {"increfs", HULLPIPPIN_WRITE, HULLPIPPIN_BC_INCREFS, "h"},
    {"acquire", HULLPIPPIN_WRITE, HULLPIPPIN_BC_ACQUIRE, "h"},
    {"release", HULLPIPPIN_WRITE, HULLPIPPIN_BC_RELEASE, "h"},
    {"decrefs", HULLPIPPIN_WRITE, HULLPIPPIN_BC_DECREFS, "h"},
    {"increfsdone", HULLPIPPIN_WRITE, HULLPIPPIN_BC_INCREFS_DONE, "bc"},
    {"acquiredone", HULLPIPPIN_WRITE, HULLPIPPIN_BC_ACQUIRE_DONE, "bc"},
    {"askdeath", HULLPIPPIN_WRITE, HULLPIPPIN_BC_REQUEST_DEATH_NOTIFICATION, "hc"},
    {"cleardeath", HULLPIPPIN_WRITE, HULLPIPPIN_BC_CLEAR_DEATH_NOTIFICATION, "hc"},
    {"deaddone", HULLPIPPIN_WRITE, HULLPIPPIN_BC_DEAD_BINDER_DONE, "c"},
};

/* Verbs that have no request of their own. */
static const char *const OTHERS[] = {"look", "await", "post", "serve", "collect", "withdraw"};

#define COUNT(list) (sizeof(list) / sizeof(list)[0])

/* ---- bytes */

/* Appends so many bytes, or zeros where none are given. */
static bool append(struct script *script, const void *bytes, size_t size)
{
    if (MOST_BYTES - script->used < size)
        return false;
    if (bytes)
        memcpy(script->bytes + script->used, bytes, size);
    else
        memset(script->bytes + script->used, 0, size);
    script->used += size;
    return true;
}

static struct bytes appended_since(const struct script *script, size_t start)
{
    return (struct bytes){script->bytes + start, script->used - start};
}

static bool append_digits(struct script *script, const char *digits)
{
    unsigned byte;
    if (!strcmp(digits, "-"))
        return true;
    for (; *digits; digits += 2) {
        if (!digits[1] || sscanf(digits, "%2x", &byte) != 1 || !append(script, &(uint8_t){(uint8_t)byte}, 1))
            return false;
    }
    return true;
}

/* Numbers with commas between them, 8 bytes each, little-endian as this program's machine is. */
static bool append_offsets(struct script *script, const char *numbers)
{
    if (!strcmp(numbers, "-"))
        return true;
    for (char *end = NULL;; numbers = end + 1) {
        uint64_t number = strtoull(numbers, &end, 10);
        if (!append(script, &number, sizeof number))
            return false;
        if (*end != ',')
            return *end == '\0';
    }
}

/* ---- words */

/* What the words of a line come to besides its request. */
struct parts {
    hullpippin_command command;
    struct bytes stream, area;
};

static bool take_bytes(struct script *script, const char *digits, struct bytes *taken)
{
    size_t start = script->used;
    bool done = append_digits(script, digits);
    *taken = appended_since(script, start);
    return done;
}

/* The data, filled up with zeros to a multiple of 8, behind which the offsets come. */
static bool take_data(struct script *script, const char *digits, struct parts *parts)
{
    if (!take_bytes(script, digits, &parts->area))
        return false;
    parts->command.transaction.data_size = parts->area.size;
    size_t more = -parts->area.size % 8;
    parts->area.size += more;
    parts->command.transaction.offsets = parts->area.size;
    return append(script, NULL, more);
}

static bool take_offsets(struct script *script, const char *numbers, struct parts *parts)
{
    size_t start = script->used;
    if (!append_offsets(script, numbers))
        return false;
    parts->command.transaction.offsets_size = script->used - start;
    parts->area.size += script->used - start;
    return true;
}

/* Where a word that is a number of 32 bits goes. */
static uint32_t *number_at(char letter, hullpippin_request *request, hullpippin_command *command)
{
    switch (letter) {
    case 'p':
        return &request->pid;
    case 'e':
        return &request->euid;
    case 'w':
        return &request->window;
    case 'l':
        return &request->limit;
    case 'o':
        return &request->on;
    case 'h':
        return &command->handle;
    case 'n':
        return &command->transaction.code;
    default:
        return &command->transaction.flags;
    }
}

static bool take_word(struct script *script, char letter, const char *word, hullpippin_request *request, struct parts *parts)
{
    switch (letter) {
    case 's':
        return take_bytes(script, word, &parts->stream);
    case 'a':
        return take_bytes(script, word, &parts->area);
    case 'd':
        return take_data(script, word, parts);
    case 'i':
        return take_offsets(script, word, parts);
    case 'b':
        parts->command.pointer = strtoull(word, NULL, 10);
        return true;
    case 'c':
        parts->command.cookie = strtoull(word, NULL, 10);
        return true;
    case 't':
        parts->command.transaction.target = strtoull(word, NULL, 10);
        return true;
    default:
        *number_at(letter, request, &parts->command) = (uint32_t)strtoul(word, NULL, 10);
        return true;
    }
}

/* ---- lines */

/* The bytes of the command that a verb writes. */
static bool spell(struct script *script, const hullpippin_command *command, struct bytes *stream)
{
    uint8_t bytes[68];
    size_t start = script->used, size = hullpippin_spell_command(command, bytes, sizeof bytes);
    bool done = append(script, bytes, size);
    *stream = appended_since(script, start);
    return done;
}

static void note_pid(struct script *script, uint32_t pid)
{
    for (size_t i = 0; i < script->pid_count; i++)
        if (script->pids[i] == pid)
            return;
    if (script->pid_count < MOST_PIDS)
        script->pids[script->pid_count++] = pid;
}

/* The words behind a verb, which are the next of the line that is read. */
static bool take_words(struct script *script, const struct verb *verb, struct line *line)
{
    struct parts parts = {.command = {.code = verb->code}};
    line->request = (hullpippin_request){.kind = verb->kind};
    for (const char *letter = verb->words; *letter; letter++) {
        const char *word = strtok(NULL, " \n");
        if (!word || !take_word(script, *letter, word, &line->request, &parts))
            return false;
    }
    if (verb->code && !spell(script, &parts.command, &parts.stream))
        return false;
    if (verb->kind == HULLPIPPIN_OPEN)
        note_pid(script, line->request.pid);
    line->stream = parts.stream;
    line->area = parts.area;
    return !strtok(NULL, " \n");
}

static bool has_no_request(const char *word)
{
    for (size_t i = 0; i < COUNT(OTHERS); i++)
        if (!strcmp(OTHERS[i], word))
            return true;
    return false;
}

static bool take_line(struct script *script, unsigned number, uint32_t seat, const char *word)
{
    struct line *line = &script->lines[script->count];
    if (has_no_request(word))
        return true;
    if (script->count == MOST_LINES || seat >= script->seats)
        return false;
    *line = (struct line){.number = number, .seat = seat};
    for (size_t i = 0; i < COUNT(VERBS); i++)
        if (!strcmp(VERBS[i].word, word)) {
            script->count++;
            return take_words(script, &VERBS[i], line);
        }
    return false;
}

/* A line of the file: a comment, the number of seats, or what a seat does. */
static bool take_text(struct script *script, unsigned number, char *text)
{
    const char *first = strtok(text, " \n"), *second = strtok(NULL, " \n");
    if (!first || *first == '#')
        return true;
    if (!second)
        return false;
    uint32_t value = (uint32_t)strtoul(strcmp(first, "seats") ? first : second, NULL, 10);
    if (strcmp(first, "seats"))
        return take_line(script, number, value, second);
    script->seats = value;
    return true;
}

bool read_script(const char *path, struct script *script)
{
    static char text[LONGEST_LINE];
    FILE *file = fopen(path, "r");
    unsigned number = 0;
    bool done = file != NULL;
    while (done && fgets(text, sizeof text, file))
        done = take_text(script, ++number, text);
    if (file)
        fclose(file);
    if (!done)
        fprintf(stderr, "starved: line %u of %s can't be read\n", number, path);
    return done;
}
