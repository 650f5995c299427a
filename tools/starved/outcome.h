/* SPDX-License-Identifier: Apache-2.0 OR MIT */
/* What a request comes to: its answer with all that is fetched besides. */
#ifndef HULLPIPPIN_STARVED_OUTCOME_H
#define HULLPIPPIN_STARVED_OUTCOME_H

#include "hullpippin.h"

enum { PARTS = 3, MOST_NOTES = 1024, MOST_GOT = 1 << 13 };

struct outcome {
    hullpippin_answer answer;
    hullpippin_note notes[MOST_NOTES];
    /* The returns, the data and the offsets that were read. */
    uint8_t parts[PARTS][MOST_GOT];
};

/* Text that grows, and is cut off at its end. */
struct text {
    size_t size;
    char at[1 << 17];
};

/* Whether a request was made again, or in part, since memory was refused. */
bool is_starved(const hullpippin_answer *answer);

/* Puts what the rest of a write came to behind what its beginning did; nothing may have been done yet. */
void join(struct outcome *whole, const struct outcome *rest);

/* Appends the line that the player prints for it (docs/FORMATS.md). */
void say(struct text *text, unsigned number, const struct outcome *outcome);

#endif
