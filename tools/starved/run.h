/* SPDX-License-Identifier: Apache-2.0 OR MIT */
/* A script that is played in one way, in which one request for memory may be refused. */
#ifndef HULLPIPPIN_STARVED_RUN_H
#define HULLPIPPIN_STARVED_RUN_H

#include "counts.h"
#include "outcome.h"
#include "script.h"

/* A driver's history asks for more room once its entries have come to FULL bytes, as a journal spells them. */
enum { MOST_SEATS = 31, MOST_STEPS = 4096, FULL = 1 << 18, MOST_JOURNAL = 2 * FULL };

struct run {
    const struct script *script;
    enum way way;
    /* So many bytes of data has a call ahead of the script, which a seat without a process is refused: a step that fills the history. None
       comes where this is 0. */
    uint32_t ahead;
    /* The place of the step at which the history grows, where something comes ahead. */
    uint64_t grows_at;
    /* The run in which nothing was refused; none where this is it. */
    const struct run *undisturbed;
    hullpippin_driver driver;
    hullpippin_seat seats[MOST_SEATS];
    hullpippin_live live;
    /* What each seat's latest answer has besides its numbers, as a sum. */
    uint64_t kept[MOST_SEATS];
    /* The longest stream and area that each seat wrote by a call since a write of its came back: it has room for so many bytes. */
    size_t room[MOST_SEATS][2];
    /* Of a live engine, undisturbed: what all looks tell once it has made so many steps. */
    uint64_t sums[MOST_STEPS + 1];
    /* All that a live engine's polls tell, as a sum. */
    uint64_t polled;
    /* The same of the lists that it tells to have been filled or emptied. */
    uint64_t reached;
    /* A live engine was given a parcel of other lengths, where a driver's seat gives none. */
    bool has_other_parcels;
    /* What came of it: a line for each request, the number of steps, and the journal. */
    struct text text;
    uint64_t steps;
    /* The requests for memory of the line in which the history grows, the first and the last. */
    long growing[2];
    size_t journal_size;
    uint8_t journal[MOST_JOURNAL];
};

/* Plays it. False where something isn't as it has to be, which `complaint` tells. */
bool play(struct run *run);

/* What the player prints for each write that memory stopped. */
extern struct text stops;

/* Whether these numbers of seats are refused, and no memory is asked for by that. */
bool refuses_seat_counts(void);

/* What was wrong first. */
extern const char *complaint;
bool fails(const char *why);

/* Whether no memory was asked for since there were so many requests. */
bool took_none(long before);

/* Makes a call that answers a status, and once more where memory was refused to it, as it then has to say. */
bool makes(struct run *run, const char *name, uint32_t (*call)(struct run *run, uint32_t number), uint32_t number);

/* What no call that isn't made may have written over. */
extern const hullpippin_answer FILLER;
bool is_filler(const hullpippin_answer *answer);

/* Each way: it begins, tries to make a request once, sees that nothing has changed since before a request that was refused, and ends. */
struct actions {
    bool (*begin)(struct run *run);
    uint32_t (*attempt)(struct run *run, const struct line *line, struct outcome *outcome);
    uint64_t (*seen)(struct run *run, uint32_t seat);
    bool (*end)(struct run *run);
};
extern const struct actions BY_CALL, BY_HANDING_OVER, BY_STEP;

#endif
