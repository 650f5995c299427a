/* SPDX-License-Identifier: Apache-2.0 OR MIT */
/* Whom of a process it is told of what its threads send (include/hullpippin.h, "Sendings"): some that were worked out by hand, and many beside a
   plain model of the header's words. Complains where it is otherwise, and prints nothing else. */
#include "asking.h"

#include <stdio.h>

#define THREADS 20u
#define OBJECTS 40u
#define STEPS 4000u

/* So many are known of a thread, of all, and of a parcel. */
#define EACH 32u
#define MOST 512u

/* Types of objects. */
#define STRONG 0x73622a85u
#define WEAK 0x77622a85u
#define HANDLE 0x73682a85u

/* What the model knows of an object that a thread has sent. */
struct known {
    uint64_t when; /* 0: nothing */
    hullpippin_sending by;
    bool is_strong, is_others;
};

static struct known model[THREADS][OBJECTS];
static uint64_t now;

static struct known *told_elsewhere(uint32_t thread, uint32_t object)
{
    for (uint32_t i = 0; i < THREADS; i++)
        if (i != thread && model[i][object].when && !model[i][object].is_others)
            return &model[i][object];
    return NULL;
}

static bool has_reference(const struct known *known, const hullpippin_sending *by)
{
    bool is_same = by->receiver && known->by.receiver == by->receiver && known->by.let_go == by->let_go;
    return known->is_strong && (known->by.step == by->step || is_same);
}

static size_t count_of(uint32_t thread)
{
    size_t count = 0;
    for (uint32_t i = 0; i < OBJECTS; i++)
        count += model[thread][i].when > 0;
    return count;
}

static size_t count_all(void)
{
    size_t count = 0;
    for (uint32_t i = 0; i < THREADS; i++)
        count += count_of(i);
    return count;
}

static void put_known(uint32_t object, const hullpippin_sending *by, bool is_strong, bool is_others)
{
    if (count_of(by->sender) < EACH && count_all() < MOST)
        model[by->sender][object] = (struct known){++now, *by, is_strong, is_others};
}

static void send_one(uint32_t object, uint32_t type, const hullpippin_sending *by)
{
    struct known *own = &model[by->sender][object], *other = told_elsewhere(by->sender, object);
    if (type == WEAK && !own->when && !other)
        put_known(object, by, false, false);
    if (type != STRONG || (own->when && !own->is_others && has_reference(own, by)))
        return;
    bool is_others = other && has_reference(other, by);
    own->when = 0;
    if (other && !is_others)
        other->when = 0;
    put_known(object, by, true, is_others);
}

static uint32_t told(uint32_t thread, uint32_t object)
{
    const struct known *own = &model[thread][object], *other = told_elsewhere(thread, object);
    return own->when && own->is_others && other ? other->by.sender : thread;
}

/* Where it stands among all that are known. */
static size_t index_of(const struct known *known)
{
    size_t index = 0;
    for (uint32_t i = 0; i < THREADS; i++)
        for (uint32_t j = 0; j < OBJECTS; j++)
            index += model[i][j].when && model[i][j].when < known->when;
    return index;
}

static uint64_t ptr_of(uint32_t object)
{
    return 0x100000000u * (object + 1);
}

static bool knows_sender(hullpippin_sendings *sendings, uint32_t thread, uint32_t sender, uint32_t object)
{
    const struct known *known = &model[sender][object];
    if (!known->when)
        return true;
    uint32_t found = 77;
    bool is_for = sender != thread && known->is_others && model[thread][object].when && !model[thread][object].is_others;
    bool is_told = hullpippin_sendings_sender(sendings, thread, index_of(known), &found);
    return is(is_told == is_for && found == (is_for ? sender : 77), "another sender is told");
}

static bool agrees(hullpippin_sendings *sendings, uint32_t thread, uint32_t object)
{
    if (!is(hullpippin_sendings_count(sendings) == count_all(), "another number is known"))
        return false;
    for (uint32_t i = 0; i < OBJECTS; i++) {
        uint64_t one = model[thread][i].when, other = model[thread][object].when;
        if (!is(hullpippin_sendings_told(sendings, thread, ptr_of(i)) == told(thread, i), "another thread is told")
            || !is(hullpippin_sendings_before(sendings, thread, ptr_of(i), ptr_of(object)) == (one && other && one < other), "the order is another"))
            return false;
    }
    for (uint32_t i = 0; i < THREADS; i++)
        if (!knows_sender(sendings, thread, i, object))
            return false;
    return true;
}

static uint32_t any(uint32_t below)
{
    static uint32_t state = 1;
    state ^= state << 13;
    state ^= state >> 17;
    state ^= state << 5;
    return state % below;
}

struct parcel {
    uint8_t data[(EACH + 1) * OBJECT_SIZE];
    uint64_t offsets[EACH + 1];
    uint32_t count;
};

static void put_object(struct parcel *parcel, uint32_t type, uint64_t ptr)
{
    uint8_t *at = parcel->data + parcel->count * OBJECT_SIZE;
    memset(at, 0, OBJECT_SIZE);
    memcpy(at, &type, sizeof type);
    memcpy(at + 8, &ptr, sizeof ptr);
    parcel->offsets[parcel->count] = parcel->count * OBJECT_SIZE;
    parcel->count++;
}

static void note(hullpippin_sendings *sendings, const hullpippin_sending *by, const struct parcel *parcel)
{
    hullpippin_sendings_note(sendings, by, parcel->data, parcel->count * OBJECT_SIZE, (const uint8_t *)parcel->offsets,
                             parcel->count * sizeof *parcel->offsets);
}

/* A parcel of a few objects, or of one too many. */
static void send_some(hullpippin_sendings *sendings, uint64_t step)
{
    static const uint32_t types[] = {STRONG, STRONG, WEAK, HANDLE};
    struct parcel parcel = {.count = 0};
    hullpippin_sending by = {.step = step, .sender = any(THREADS), .receiver = any(40) ? 1 : any(3), .let_go = !any(40)};
    bool is_known = any(20);
    for (uint32_t left = is_known ? 1 + any(6) : EACH + 1; left; left--) {
        uint32_t type = types[any(4)], object = any(OBJECTS);
        put_object(&parcel, type, ptr_of(object));
        if (is_known)
            send_one(object, type, &by);
    }
    note(sendings, &by, &parcel);
}

static bool ends(hullpippin_sendings *sendings, uint32_t thread)
{
    memset(model[thread], 0, sizeof model[thread]);
    return is(hullpippin_sendings_end(sendings, thread) == !count_all(), "what is left is told otherwise");
}

static bool goes_as_the_model(hullpippin_sendings *sendings)
{
    size_t most = 0;
    for (uint64_t step = 1; step <= STEPS; step++) {
        uint32_t one_in = step % 2000 < 1500 ? 300 : 4; /* it fills, and empties */
        if (any(one_in))
            send_some(sendings, step);
        else if (!ends(sendings, any(THREADS)))
            return false;
        if (!agrees(sendings, any(THREADS), any(OBJECTS)))
            return false;
        most = count_all() > most ? count_all() : most;
    }
    for (uint32_t i = 0; i < THREADS; i++)
        if (!ends(sendings, i))
            return false;
    return is(most == MOST, "it was never full");
}

/* By hand: the second that sends to the receiver isn't told, a third that sends to another is from then on, and a weak reference comes before what
   was sent strongly again. */
static bool is_told_by_hand(hullpippin_sendings *sendings)
{
    struct parcel first = {.count = 0}, both = {.count = 0};
    put_object(&first, STRONG, 5);
    put_object(&both, WEAK, 7);
    put_object(&both, STRONG, 8);
    put_object(&both, STRONG, 7);
    note(sendings, &(hullpippin_sending){.step = 1, .sender = 1, .receiver = 9}, &first);
    note(sendings, &(hullpippin_sending){.step = 2, .sender = 2, .receiver = 9}, &first);
    uint32_t sender = 77;
    if (!is(hullpippin_sendings_told(sendings, 2, 5) == 1 && hullpippin_sendings_told(sendings, 1, 5) == 1, "who was first isn't told")
        || !is(hullpippin_sendings_sender(sendings, 1, 1, &sender) && sender == 2, "who was second isn't read for"))
        return false;
    note(sendings, &(hullpippin_sending){.step = 3, .sender = 3, .receiver = 8}, &first);
    note(sendings, &(hullpippin_sending){.step = 4, .sender = 1}, &both);
    return is(hullpippin_sendings_told(sendings, 2, 5) == 3 && hullpippin_sendings_told(sendings, 1, 5) == 1, "another receiver changes nothing")
           && is(hullpippin_sendings_before(sendings, 1, 8, 7) && !hullpippin_sendings_before(sendings, 1, 7, 8), "what is strong stays where it was")
           && is(!hullpippin_sendings_end(sendings, 1) && !hullpippin_sendings_end(sendings, 2) && hullpippin_sendings_end(sendings, 3), "something is left");
}

/* An offset at which there is no object. */
static bool is_safe(hullpippin_sendings *sendings)
{
    struct parcel one = {.count = 0};
    put_object(&one, STRONG, 5);
    one.offsets[0] = UINT64_MAX;
    note(sendings, &(hullpippin_sending){.step = 1, .sender = 1, .receiver = 9}, &one);
    one.offsets[0] = 1;
    note(sendings, &(hullpippin_sending){.step = 1, .sender = 1, .receiver = 9}, &one);
    return is(hullpippin_sendings_count(sendings) == 0, "an object is known that isn't there");
}

/* With an empty handle everything is told by the rules. */
static bool is_told_by_the_rules(hullpippin_sendings *sendings)
{
    uint32_t sender = 77;
    struct parcel one = {.count = 0};
    put_object(&one, STRONG, 5);
    note(sendings, &(hullpippin_sending){.step = 1, .sender = 1, .receiver = 9}, &one);
    return is(!hullpippin_sendings_count(sendings) && hullpippin_sendings_told(sendings, 3, 5) == 3 && !hullpippin_sendings_before(sendings, 1, 5, 5)
                  && !hullpippin_sendings_sender(sendings, 1, 0, &sender) && sender == 77 && !hullpippin_sendings_end(sendings, 1),
              "an empty handle is used");
}

int main(void)
{
    hullpippin_sendings sendings = HULLPIPPIN_NO_SENDINGS;
    bool done = is_told_by_the_rules(&sendings) && is_done(hullpippin_sendings_new(&sendings))
                && is(hullpippin_sendings_new(&sendings) == HULLPIPPIN_MISUSE, "a full handle is filled") && is_told_by_hand(&sendings)
                && is_safe(&sendings) && goes_as_the_model(&sendings);
    hullpippin_free_sendings(&sendings);
    done = done && is(!sendings.at, "what was let go of is there") && is_told_by_the_rules(&sendings);
    hullpippin_free_sendings(&sendings);
    if (!done)
        fprintf(stderr, "sendings: %s\n", complaint);
    return !done;
}
