/* SPDX-License-Identifier: Apache-2.0 OR MIT */
/*
 * kept.c: what a process has the engine keep for as long as it likes: handles by references that it has asked for, and death notifications.
 * They count in its share. Which of them are gone again, as with a name that goes, the engine is asked, some each time that others come.
 */
#include "daemon.h"

#include <stdlib.h>
#include <string.h>

/* For each that comes so many are looked at that were there; and so many where there is no share left. */
#define LOOKS_EACH 2u
#define LOOKS_WITHOUT_SHARE 128u

/* No process has so many names. */
#define HANDLES_MOST (1u << 22)
#define HANDLES_OF_WORD 64u

static uint64_t bit_of(uint32_t handle)
{
    return UINT64_C(1) << handle % HANDLES_OF_WORD;
}

static bool is_kept(const struct kept *kept, uint32_t handle)
{
    return handle / HANDLES_OF_WORD < kept->words && kept->handles[handle / HANDLES_OF_WORD] & bit_of(handle);
}

static void let_go(struct process *process, uint32_t handle)
{
    process->kept.handles[handle / HANDLES_OF_WORD] &= ~bit_of(handle);
    account_give(process->account, SHARED_HANDLES, 1);
}

static bool is_named(struct process *process, uint32_t handle)
{
    hullpippin_object_id id;
    return hullpippin_live_named(&process->engine->live, process->engine_pid, handle, &id);
}

/* Looks at words of handles, the next ones in turn, until it has looked at so many handles. */
static void look_at_handles(struct process *process, uint32_t looks)
{
    struct kept *kept = &process->kept;
    for (uint32_t words = 0; looks && words < kept->words && words < LOOKS_WITHOUT_SHARE; words++) {
        uint32_t word = kept->next_word = kept->next_word + 1 < kept->words ? kept->next_word + 1 : 0;
        for (uint64_t left = kept->handles[word]; looks && left; left &= left - 1, looks--) {
            uint32_t handle = word * HANDLES_OF_WORD + (uint32_t)__builtin_ctzll(left);
            if (!is_named(process, handle))
                let_go(process, handle);
        }
    }
}

static bool has_word(struct kept *kept, uint32_t handle)
{
    uint32_t wanted = handle / HANDLES_OF_WORD + 1, words = kept->words ? kept->words : 4;
    while (words < wanted)
        words *= 2;
    if (wanted <= kept->words)
        return true;
    uint64_t *handles = realloc(kept->handles, words * sizeof *handles);
    if (!handles)
        return false;
    memset(handles + kept->words, 0, (words - kept->words) * sizeof *handles);
    kept->handles = handles;
    kept->words = words;
    return true;
}

bool kept_take_handle(struct process *process, uint32_t handle, bool *is_new)
{
    *is_new = false;
    if (handle >= HANDLES_MOST || is_kept(&process->kept, handle))
        return true;
    if (!has_word(&process->kept, handle))
        return false;
    if (!account_take(process->account, SHARED_HANDLES, 1)) {
        look_at_handles(process, LOOKS_WITHOUT_SHARE);
        if (!account_take(process->account, SHARED_HANDLES, 1))
            return false;
    }
    process->kept.handles[handle / HANDLES_OF_WORD] |= bit_of(handle);
    *is_new = true;
    return true;
}

void kept_note_handle(struct process *process, uint32_t handle, bool is_new, bool is_taken)
{
    if (is_new && !is_taken)
        let_go(process, handle);
    else if (is_new)
        look_at_handles(process, LOOKS_EACH);
}

void kept_release_handle(struct process *process, uint32_t handle)
{
    if (is_kept(&process->kept, handle) && !is_named(process, handle))
        let_go(process, handle);
}

/* --- Death notifications. --- */

static void look_at_deaths(struct process *process, uint32_t looks)
{
    struct kept *kept = &process->kept;
    hullpippin_death death;
    for (; looks && kept->death_count; looks--) {
        uint32_t next = kept->next_death = kept->next_death + 1 < kept->death_count ? kept->next_death + 1 : 0;
        if (hullpippin_live_death(&process->engine->live, kept->deaths[next], &death))
            continue;
        kept->deaths[next] = kept->deaths[--kept->death_count];
        account_give(process->account, SHARED_DEATHS, 1);
    }
}

bool kept_take_death(struct process *process)
{
    struct kept *kept = &process->kept;
    if (kept->death_count == kept->death_room) {
        uint32_t room = kept->death_room ? 2 * kept->death_room : 16;
        uint64_t *deaths = realloc(kept->deaths, room * sizeof *deaths);
        if (!deaths)
            return false;
        kept->deaths = deaths;
        kept->death_room = room;
    }
    if (account_take(process->account, SHARED_DEATHS, 1))
        return true;
    look_at_deaths(process, LOOKS_WITHOUT_SHARE);
    return account_take(process->account, SHARED_DEATHS, 1);
}

void kept_note_death(struct process *process, uint64_t step, bool is_taken)
{
    struct kept *kept = &process->kept;
    if (!is_taken) {
        account_give(process->account, SHARED_DEATHS, 1);
        return;
    }
    kept->deaths[kept->death_count++] = step;
    look_at_deaths(process, LOOKS_EACH);
}

void kept_free(struct process *process)
{
    struct kept *kept = &process->kept;
    uint64_t handles = 0;
    for (uint32_t i = 0; i < kept->words; i++)
        handles += (uint64_t)__builtin_popcountll(kept->handles[i]);
    account_give(process->account, SHARED_HANDLES, handles);
    account_give(process->account, SHARED_DEATHS, kept->death_count);
    free(kept->handles);
    free(kept->deaths);
    *kept = (struct kept){0};
}
