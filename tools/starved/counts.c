/* SPDX-License-Identifier: Apache-2.0 OR MIT */
#include "counts.h"

#include <stdio.h>
#include <string.h>

enum { MOST_NAMES = 128, LONGEST_NAME = 48 };

const char *const WAY_NAMES[WAYS] = {"call", "hand over", "live"};

static struct {
    char name[LONGEST_NAME];
    long counts[WAYS][WHOS];
} rows[MOST_NAMES];

void count(enum way way, enum who who, const char *name)
{
    size_t i = 0;
    while (i < MOST_NAMES - 1 && rows[i].name[0] && strcmp(rows[i].name, name))
        i++;
    snprintf(rows[i].name, LONGEST_NAME, "%s", name);
    rows[i].counts[way][who]++;
}

static void count_number(enum way way, enum who who, char letter, uint32_t number)
{
    char name[LONGEST_NAME];
    snprintf(name, sizeof name, "%c%u", letter, number);
    count(way, who, name);
}

/* What the first command of a write came to, unless it was accepted. */
static void count_first(enum way way, enum who who, const struct outcome *outcome)
{
    const hullpippin_answer *answer = &outcome->answer;
    uint64_t steps = answer->to - answer->from;
    if (answer->notes > 0 && outcome->notes[0].command == 0)
        count_number(way, who, 'N', outcome->notes[0].number);
    else if (answer->stop == HULLPIPPIN_AT_CAUSE && steps == 1)
        count_number(way, who, 'X', answer->number);
    else if (answer->stop == HULLPIPPIN_AT_FAULT && steps == 0)
        count_number(way, who, 'F', answer->number);
}

static void count_returns(enum way way, enum who who, const uint8_t *stream, size_t size)
{
    hullpippin_return returned;
    for (size_t at = 0; at < size && !hullpippin_next_return(stream + at, size - at, &returned); at += returned.size)
        count(way, who, hullpippin_text(HULLPIPPIN_TEXT_RETURN, returned.code));
}

static void count_command(enum way way, enum who who, struct bytes stream)
{
    hullpippin_command command;
    if (!hullpippin_next_command(stream.at, stream.size, &command))
        count(way, who, hullpippin_text(HULLPIPPIN_TEXT_COMMAND, command.code));
}

void count_request(enum way way, enum who who, const struct line *line, const struct outcome *outcome)
{
    static const char *const KINDS[] = {[HULLPIPPIN_OPEN] = "open", [HULLPIPPIN_ATTACH] = "attach", [HULLPIPPIN_MANAGER] = "manager",
                                        [HULLPIPPIN_WRITE] = "write", [HULLPIPPIN_READ] = "read",
                                        [HULLPIPPIN_EXIT_THREAD] = "exitthread", [HULLPIPPIN_EXIT_PROCESS] = "exitprocess",
                                        [HULLPIPPIN_SET_SPAM] = "spam"};
    const hullpippin_answer *answer = &outcome->answer;
    count(way, who, KINDS[line->request.kind]);
    if (line->request.kind == HULLPIPPIN_WRITE)
        count_command(way, who, line->stream);
    if (answer->kind == HULLPIPPIN_WROTE)
        count_first(way, who, outcome);
    if (answer->kind == HULLPIPPIN_REFUSED)
        count_number(way, who, 'F', answer->number);
    if (answer->kind == HULLPIPPIN_GOT)
        count_returns(way, who, outcome->parts[HULLPIPPIN_STREAM], answer->stream);
}

void print_counts(void)
{
    for (size_t i = 0; i < MOST_NAMES && rows[i].name[0]; i++)
        for (int column = 0; column < WAYS * WHOS; column++) {
            int way = column / WHOS, who = column % WHOS;
            if (rows[i].counts[way][who])
                printf("%s%s: %s: %ld\n", WAY_NAMES[way], who == COPIES ? ", copies" : "", rows[i].name, rows[i].counts[way][who]);
        }
}
