/* SPDX-License-Identifier: Apache-2.0 OR MIT */
/* How often memory was refused to what. */
#ifndef HULLPIPPIN_STARVED_COUNTS_H
#define HULLPIPPIN_STARVED_COUNTS_H

#include "outcome.h"
#include "script.h"

/* The ways in which a script is played. */
enum way { CALL, HAND_OVER, LIVE, WAYS };
extern const char *const WAY_NAMES[WAYS];

/* Who was refused: the engine, or the call that copies what it is given before the engine is asked. */
enum who { ENGINE, COPIES, WHOS };

/* Counts a refusal in this way, under a name. */
void count(enum way way, enum who who, const char *name);

/* Counts one to a request, by its kind, the command that memory was refused to, and what both came to. */
void count_request(enum way way, enum who who, const struct line *line, const struct outcome *outcome);

/* Prints each name with its count in a way: `way: name: count`, or `way, copies: name: count`. */
void print_counts(void);

#endif
