/* SPDX-License-Identifier: Apache-2.0 OR MIT */
/* Plays a script over the library in each way, by calls, handed over and by the steps of a live engine; first undisturbed, and then twice
 * for each request for memory that the library made: with that one refused, and with all refused from it on until the call is back.
 *
 *     starved SCRIPT
 *
 * A call that memory was refused to is made all the same; or it has to say so and to change nothing, and is made again, and of a write
 * that is stopped after some of its commands the rest. So each run has to come to the same answers, the same journal, and an engine of
 * which all looks tell the same; and so have all ways. Then the same is tried of each line with a driver whose history asks for more room
 * just then.
 *
 * Prints the answers, as the player does; behind `stopped:` the same of each write that memory stopped, as often as it did; then how often
 * memory was refused to what, in which way. The last line is how many requests were refused, and how many runs differ. Prints to the
 * standard error what was otherwise, and then ends with status 1.
 */
#include "refusals.h"
#include "run.h"

#include <stdio.h>
#include <string.h>

static struct script script;
static struct run undisturbed[WAYS], ahead, disturbed;
static long refused, differ;

static bool is_same_text(const struct run *a, const struct run *b)
{
    return (a->text.size == b->text.size && !memcmp(a->text.at, b->text.at, a->text.size)) || fails("other answers");
}

static bool is_same_journal(const struct run *a, const struct run *b)
{
    return (a->journal_size == b->journal_size && !memcmp(a->journal, b->journal, a->journal_size)) || fails("another journal");
}

static void tell(const struct run *run, bool is_well, const char *refusal)
{
    if (is_well)
        return;
    fprintf(stderr, "%s, %u bytes ahead, %s: %s\n", WAY_NAMES[run->way], run->ahead, refusal, complaint);
    differ++;
}

/* Plays a script with nothing refused, behind so many bytes. */
static bool plays_undisturbed(struct run *run, const struct script *played, enum way way, uint32_t bytes, uint64_t grows_at)
{
    *run = (struct run){.script = played, .way = way, .ahead = bytes, .grows_at = grows_at};
    refuse(0, false);
    return play(run);
}

/* Refuses this request, or all from it on: everything has to come to the same. */
static void try_request(const struct run *wanted, long request, bool all)
{
    char refusal[64];
    disturbed = (struct run){.script = &script, .way = wanted->way, .ahead = wanted->ahead, .grows_at = wanted->grows_at, .undisturbed = wanted};
    refuse(request, all);
    refused++;
    bool is_well = play(&disturbed) && is_same_text(&disturbed, wanted) && is_same_journal(&disturbed, wanted)
                   && (disturbed.polled == wanted->polled || fails("other seats were told to be ready"))
                   && (disturbed.reached == wanted->reached || fails("other lists were told to be filled or emptied"));
    snprintf(refusal, sizeof refusal, "request %ld%s refused", request, all ? " and all behind it" : "");
    tell(wanted, is_well, refusal);
}

static void try_requests(const struct run *wanted, long first, long last)
{
    for (long request = first; request <= last; request++) {
        try_request(wanted, request, false);
        try_request(wanted, request, true);
    }
}

/* All requests of one way, which has to come to what calls come to. */
static void try_way(enum way way)
{
    struct run *run = &undisturbed[way], *calls = &undisturbed[CALL];
    bool is_well = plays_undisturbed(run, &script, way, 0, 0);
    long last = requests();
    is_well = is_well && is_same_text(run, calls) && (run->has_other_parcels || is_same_journal(run, calls));
    tell(run, is_well, "undisturbed");
    try_requests(run, 1, last);
}

/* ---- a history that grows */

/* The heading of a journal of few seats: the magic, the number of seats, and that of entries. */
enum { HEADING = 16 };

static size_t word_at(const uint8_t *at)
{
    return at[0] | (size_t)at[1] << 8 | (size_t)at[2] << 16 | (size_t)at[3] << 24;
}

/* Where the entry that begins here ends: it has a seat, and two blocks with their lengths. */
static size_t entry_end(const uint8_t *journal, size_t at)
{
    at += 4;
    for (int block = 0; block < 2; block++)
        at += 4 + word_at(journal + at);
    return at;
}

/* The bytes of the entry of the call that comes ahead, but for its data; 0 where they aren't to be told. */
static uint32_t bare_size(void)
{
    static const struct script nothing = {.seats = 1};
    size_t sizes[2] = {0};
    for (uint32_t i = 0; i < 2; i++) {
        tell(&ahead, plays_undisturbed(&ahead, &nothing, CALL, 1000 * (i + 1), 0), "ahead of nothing");
        sizes[i] = ahead.journal_size - HEADING - 1000 * (i + 1);
    }
    return sizes[0] == sizes[1] ? (uint32_t)sizes[0] : 0;
}

/* The requests of the line in which the history grows, by its step at this place: room is left for so many bytes of the script. */
static void try_growth(enum way way, uint32_t bare, size_t room, uint64_t place)
{
    tell(&ahead, plays_undisturbed(&ahead, &script, way, (uint32_t)(FULL - room) - bare, place), "undisturbed");
    if (ahead.growing[0])
        try_requests(&ahead, ahead.growing[0], ahead.growing[1]);
}

/* The same of each step of the script. The call that comes ahead is a step, too. A step asks for the room of its longest answer, so all but a
   byte of its entry is left: then those before it find enough. */
static void try_growths(void)
{
    const struct run *calls = &undisturbed[CALL];
    uint32_t bare = bare_size();
    uint64_t place = 0;
    for (size_t at = HEADING; at < calls->journal_size;) {
        place++;
        at = entry_end(calls->journal, at);
        try_growth(CALL, bare, at - HEADING - 1, place);
        try_growth(HAND_OVER, bare, at - HEADING - 1, place);
    }
    tell(calls, (bare > 0 && place == calls->steps) || fails("its entries aren't those of its journal"), "undisturbed");
}

int main(int words, char **word)
{
    if (words != 2)
        return fprintf(stderr, "starved SCRIPT\n"), 2;
    if (!read_script(word[1], &script))
        return 2;
    tell(&disturbed, refuses_seat_counts(), "numbers of seats");
    for (int way = 0; way < WAYS; way++)
        try_way((enum way)way);
    try_growths();
    fwrite(undisturbed[CALL].text.at, 1, undisturbed[CALL].text.size, stdout);
    printf("stopped:\n");
    fwrite(stops.at, 1, stops.size, stdout);
    print_counts();
    printf("%ld refused, %ld differ\n", refused, differ);
    return differ ? 1 : 0;
}
