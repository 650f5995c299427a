/* SPDX-License-Identifier: Apache-2.0 OR MIT */
/* Commands, returns and parcels as bytes: each command and return of docs/FORMATS.md is spelled and read, in its bytes as that page has
   them; each beginning of one, each code with one bit turned and 200,000 random streams are read; and parcels with each fault are walked.
   Complains where something is read or spelled otherwise, or a refusal writes to what it doesn't fill. Prints nothing else. */
#include "hullpippin.h"

#include <stdio.h>
#include <stdlib.h>
#include <string.h>

enum { RECORD_SIZE = 64, LONGEST = 4 + RECORD_SIZE, OBJECT_SIZE = 24 };

/* Numbers of docs/FORMATS.md. */
enum { SHORT_COMMAND = 1, UNKNOWN_COMMAND = 2, REFUSED_COMMAND = 3 };
enum { OFFSETS_SIZE = 8, BAD_OBJECT = 9, UNSUPPORTED_OBJECT = 10 };

static const char *complaint;

static bool fails(const char *why)
{
    if (!complaint)
        complaint = why;
    return false;
}

static void put(uint8_t *at, uint64_t value, int size)
{
    for (int i = 0; i < size; i++)
        at[i] = (uint8_t)(value >> 8 * i);
}

/* ---- commands and returns, in one form */

/* A code and its payload: r a transaction record, h a handle, p a pointer, c a cookie. */
struct row {
    uint32_t code;
    const char *payload;
};

static const struct row commands[] = {
    {0x40406300, "r"}, {0x40406301, "r"}, {0x40086303, "p"}, {0x40046304, "h"}, {0x40046305, "h"},
    {0x40046306, "h"}, {0x40046307, "h"}, {0x40106308, "pc"}, {0x40106309, "pc"}, {0x0000630c, ""},
    {0x0000630d, ""}, {0x400c630e, "hc"}, {0x400c630f, "hc"}, {0x40086310, "c"},
};

static const uint32_t refused[] = {0x4008630a, 0x40046302, 0x0000630b, 0x40486311, 0x40486312};

static const struct row returns[] = {
    {0x80407202, "r"}, {0x80407203, "r"}, {0x00007205, ""}, {0x00007206, ""}, {0x80107207, "pc"}, {0x80107208, "pc"}, {0x80107209, "pc"},
    {0x8010720a, "pc"}, {0x0000720c, ""}, {0x8008720f, "c"}, {0x80087210, "c"}, {0x00007211, ""}, {0x00007213, ""},
};

/* What either has. */
struct fields {
    uint32_t code, handle;
    uint64_t pointer, cookie;
    hullpippin_transaction transaction;
    size_t size;
};

static size_t spell_command(const struct fields *it, uint8_t *out, size_t room)
{
    hullpippin_command command = {it->code, it->handle, it->pointer, it->cookie, it->transaction, it->size};
    return hullpippin_spell_command(&command, out, room);
}

static size_t spell_return(const struct fields *it, uint8_t *out, size_t room)
{
    hullpippin_return returned = {it->code, it->pointer, it->cookie, it->transaction, it->size};
    return hullpippin_spell_return(&returned, out, room);
}

static uint32_t next_command(const uint8_t *stream, size_t size, struct fields *it)
{
    hullpippin_command command = {it->code, it->handle, it->pointer, it->cookie, it->transaction, it->size};
    uint32_t fault = hullpippin_next_command(stream, size, &command);
    *it = (struct fields){command.code, command.handle, command.pointer, command.cookie, command.transaction, command.size};
    return fault;
}

static uint32_t next_return(const uint8_t *stream, size_t size, struct fields *it)
{
    hullpippin_return returned = {it->code, it->pointer, it->cookie, it->transaction, it->size};
    uint32_t fault = hullpippin_next_return(stream, size, &returned);
    *it = (struct fields){returned.code, fault ? it->handle : 0, returned.pointer, returned.cookie, returned.transaction, returned.size};
    return fault;
}

/* A table with its two functions. */
struct protocol {
    const struct row *rows;
    size_t row_count;
    const uint32_t *refused;
    size_t refused_count;
    size_t (*spell)(const struct fields *, uint8_t *, size_t);
    uint32_t (*next)(const uint8_t *, size_t, struct fields *);
};

#define COUNT(list) (sizeof(list) / sizeof(list)[0])

static const struct protocol protocols[] = {
    {commands, COUNT(commands), refused, COUNT(refused), spell_command, next_command},
    {returns, COUNT(returns), NULL, 0, spell_return, next_return},
};

/* Each field another number, in each of its bytes. */
static const struct fields full = {
    0, 0xa1a2a3a4, 0xb1b2b3b4b5b6b7b8, 0xc1c2c3c4c5c6c7c8,
    {0x0102030405060708, 0x1112131415161718, 0x21222324, 0x31323334, -0x41424345, 0xd1d2d3d4, 0x5152535455565758, 0x6162636465666768,
     0x7172737475767778, 0x8182838485868788},
    12345,
};

static bool is_same(const struct fields *a, const struct fields *b)
{
    const hullpippin_transaction *s = &a->transaction, *t = &b->transaction;
    return a->code == b->code && a->handle == b->handle && a->pointer == b->pointer && a->cookie == b->cookie && a->size == b->size
           && s->target == t->target && s->cookie == t->cookie && s->code == t->code && s->flags == t->flags
           && s->sender_pid == t->sender_pid && s->sender_euid == t->sender_euid && s->data_size == t->data_size
           && s->offsets_size == t->offsets_size && s->buffer == t->buffer && s->offsets == t->offsets;
}

/* The record's bytes, field by field as the table of docs/FORMATS.md has them. */
static void put_record(uint8_t *at, const hullpippin_transaction *t)
{
    put(at, t->target, 8);
    put(at + 8, t->cookie, 8);
    put(at + 16, t->code, 4);
    put(at + 20, t->flags, 4);
    put(at + 24, (uint32_t)t->sender_pid, 4);
    put(at + 28, t->sender_euid, 4);
    put(at + 32, t->data_size, 8);
    put(at + 40, t->offsets_size, 8);
    put(at + 48, t->buffer, 8);
    put(at + 56, t->offsets, 8);
}

/* One field's bytes, which `kept` has from then on. */
static size_t put_field(uint8_t *at, char letter, struct fields *kept)
{
    switch (letter) {
    case 'r':
        kept->transaction = full.transaction;
        put_record(at, &full.transaction);
        return RECORD_SIZE;
    case 'h':
        kept->handle = full.handle;
        put(at, full.handle, 4);
        return 4;
    case 'p':
        kept->pointer = full.pointer;
        put(at, full.pointer, 8);
        return 8;
    default:
        kept->cookie = full.cookie;
        put(at, full.cookie, 8);
        return 8;
    }
}

/* The bytes of a row, and what they are read as: what it has no use for is 0. */
static size_t put_row(uint8_t bytes[LONGEST], const struct row *row, struct fields *kept)
{
    *kept = (struct fields){.code = row->code};
    put(bytes, row->code, 4);
    kept->size = 4;
    for (const char *letter = row->payload; *letter; letter++)
        kept->size += put_field(bytes + kept->size, *letter, kept);
    return kept->size;
}

/* ---- each of them */

/* What isn't all there is refused, and nothing is written. */
static bool is_refused(const struct protocol *protocol, const uint8_t *bytes, size_t size, uint32_t fault)
{
    struct fields it = full;
    uint8_t *exact = malloc(size + !size); /* so that valgrind sees each look behind the end */
    if (!exact)
        return fails("no memory");
    memcpy(exact, bytes, size);
    uint32_t answer = protocol->next(exact, size, &it);
    free(exact);
    return (answer == fault && is_same(&it, &full)) || fails("a refusal that isn't as it should be");
}

static bool is_spelled(const struct protocol *protocol, const struct row *row, const uint8_t *bytes, size_t size)
{
    uint8_t out[LONGEST + 1], blank[LONGEST + 1];
    struct fields given = full;
    given.code = row->code;
    memset(out, 0xee, sizeof out);
    memset(blank, 0xee, sizeof blank);
    if (protocol->spell(&given, out, size - 1) != size || memcmp(out, blank, sizeof out))
        return fails("what doesn't fit is written");
    return (protocol->spell(&given, out, size) == size && !memcmp(out, bytes, size) && out[size] == 0xee) || fails("spelled otherwise");
}

static bool is_read(const struct protocol *protocol, const uint8_t *bytes, size_t size, const struct fields *kept)
{
    uint8_t stream[LONGEST + 8];
    struct fields exact = full, more = full;
    memset(stream, 0xff, sizeof stream);
    memcpy(stream, bytes, size);
    return (!protocol->next(bytes, size, &exact) && is_same(&exact, kept) && !protocol->next(stream, size + 8, &more)
            && is_same(&more, kept))
           || fails("read otherwise");
}

static bool knows(const struct protocol *protocol, const struct row *row)
{
    uint8_t bytes[LONGEST];
    struct fields kept;
    size_t size = put_row(bytes, row, &kept);
    bool done = is_spelled(protocol, row, bytes, size) && is_read(protocol, bytes, size, &kept);
    for (size_t cut = 0; done && cut < size; cut++)
        done = is_refused(protocol, bytes, cut, SHORT_COMMAND);
    return done;
}

/* The fault of a code, with all bytes that it may call for behind it: 0 where it is one of the table's. */
static uint32_t fault_of(const struct protocol *protocol, uint32_t code)
{
    for (size_t i = 0; i < protocol->row_count; i++)
        if (protocol->rows[i].code == code)
            return 0;
    for (size_t i = 0; i < protocol->refused_count; i++)
        if (protocol->refused[i] == code)
            return REFUSED_COMMAND;
    return UNKNOWN_COMMAND;
}

/* A code that may be none. */
static bool takes(const struct protocol *protocol, uint32_t code)
{
    uint8_t bytes[LONGEST] = {0}, out[LONGEST];
    struct fields it = full;
    uint32_t fault = fault_of(protocol, code);
    put(bytes, code, 4);
    if (fault && !is_refused(protocol, bytes, sizeof bytes, fault))
        return false;
    it.code = code;
    if (fault && protocol->spell(&it, out, sizeof out))
        return fails("what has no bytes is spelled");
    return fault || (!protocol->next(bytes, sizeof bytes, &it) && it.code == code) || fails("a code is refused");
}

static bool knows_all(const struct protocol *protocol)
{
    bool done = true;
    for (size_t i = 0; done && i < protocol->row_count; i++) {
        done = knows(protocol, &protocol->rows[i]) && takes(protocol, protocol->rows[i].code);
        for (int bit = 0; done && bit < 32; bit++)
            done = takes(protocol, protocol->rows[i].code ^ (uint32_t)1 << bit);
    }
    for (size_t i = 0; done && i < protocol->refused_count; i++)
        done = takes(protocol, protocol->refused[i]);
    return done && takes(protocol, 0) && takes(protocol, UINT32_MAX);
}

/* ---- random bytes */

static uint64_t state = 88172645463325252u;

static uint64_t any(void)
{
    state ^= state << 13;
    state ^= state >> 7;
    state ^= state << 17;
    return state;
}

/* What is read of random bytes behind a code is spelled as they were, and else nothing is read of them. */
static bool reads_any(const struct protocol *protocol)
{
    uint8_t bytes[LONGEST + 8], out[LONGEST];
    size_t size = any() % (sizeof bytes + 1);
    struct fields it = full;
    for (size_t i = 0; i < sizeof bytes; i++)
        bytes[i] = (uint8_t)any();
    if (any() % 8)
        put(bytes, protocol->rows[any() % protocol->row_count].code, 4);
    if (protocol->next(bytes, size, &it))
        return is_same(&it, &full) || fails("a refusal fills something");
    return (it.size <= size && protocol->spell(&it, out, sizeof out) == it.size && !memcmp(out, bytes, it.size))
           || fails("what is read is spelled otherwise");
}

static bool reads_random(void)
{
    bool done = true;
    for (int i = 0; done && i < 100000; i++)
        done = reads_any(&protocols[0]) && reads_any(&protocols[1]);
    return done;
}

/* ---- parcels */

static const uint32_t kinds[] = {0x73622a85, 0x77622a85, 0x73682a85, 0x77682a85};
static const uint32_t unsupported[] = {0x66642a85, 0x66646185, 0x70742a85};

/* Data, and offsets of it, in blocks of their own. */
struct parcel {
    uint8_t *data, *offsets;
    size_t data_size, offsets_size;
};

static struct parcel parcel_of(size_t data_size, const uint64_t *offsets, size_t count)
{
    struct parcel parcel = {calloc(data_size + 1, 1), calloc(8 * count + 1, 1), data_size, 8 * count};
    for (size_t i = 0; parcel.offsets && i < count; i++)
        put(parcel.offsets + 8 * i, offsets[i], 8);
    if (!parcel.data || !parcel.offsets)
        fails("no memory");
    return parcel;
}

static void free_parcel(struct parcel *parcel)
{
    free(parcel->data);
    free(parcel->offsets);
}

static bool next_of(const struct parcel *parcel, hullpippin_walk *walk, hullpippin_flat_object *object)
{
    return hullpippin_next_object(parcel->data, parcel->data_size, parcel->offsets, parcel->offsets_size, walk, object);
}

static hullpippin_flat_object object_at(uint32_t kind, size_t start)
{
    return (hullpippin_flat_object){kind, 0x13 + (uint32_t)start, 0xb1b2b3b4b5b6b7b8 + start, 0xc1c2c3c4c5c6c7c8 + start, start};
}

static bool is_object(const hullpippin_flat_object *a, const hullpippin_flat_object *b)
{
    return a->kind == b->kind && a->flags == b->flags && a->binder == b->binder && a->cookie == b->cookie && a->start == b->start;
}

/* An object's bytes, as docs/FORMATS.md has them. */
static void put_object(uint8_t *at, const hullpippin_flat_object *object)
{
    put(at, object->kind, 4);
    put(at + 4, object->flags, 4);
    put(at + 8, object->binder, 8);
    put(at + 16, object->cookie, 8);
}

/* Goes through a parcel: so many objects of these kinds, and then this cause, twice. */
static bool walks(const struct parcel *parcel, const uint64_t *offsets, const uint32_t *types, size_t count, uint32_t cause)
{
    hullpippin_walk walk = {0, 0, 77};
    hullpippin_flat_object object;
    for (size_t i = 0; i < count; i++) {
        hullpippin_flat_object wanted = object_at(types[i], offsets[i]);
        if (!next_of(parcel, &walk, &object) || walk.cause || walk.index != i + 1 || !is_object(&object, &wanted))
            return fails("another object");
    }
    for (int again = 0; again < 2; again++) {
        hullpippin_flat_object kept = object_at(1, 2), same = kept;
        if (next_of(parcel, &walk, &kept) || walk.cause != cause || walk.index != count || !is_object(&kept, &same))
            return fails("a walk that doesn't end as it should");
    }
    return true;
}

/* Four objects with gaps, written by hand and by the library, which have to be the same bytes. */
static bool walks_all_kinds(void)
{
    static const uint64_t offsets[] = {0, 28, 52, 100};
    struct parcel parcel = parcel_of(124, offsets, 4), written = parcel_of(124, offsets, 4);
    bool done = !complaint;
    for (int i = 0; done && i < 4; i++) {
        hullpippin_flat_object object = object_at(kinds[i], offsets[i]);
        put_object(parcel.data + offsets[i], &object);
        done = !hullpippin_put_object(&object, written.data, written.data_size) || fails("an object isn't written");
    }
    done = done && (!memcmp(parcel.data, written.data, parcel.data_size) || fails("an object is written otherwise"))
           && walks(&parcel, offsets, kinds, 4, 0);
    free_parcel(&parcel);
    free_parcel(&written);
    return done;
}

/* A parcel of an object and then one of this type at this offset is refused for it. */
static bool refuses_second(uint64_t offset, uint32_t type, uint32_t cause)
{
    const uint64_t offsets[] = {0, offset};
    struct parcel parcel = parcel_of(72, offsets, 2);
    bool done = !complaint;
    if (done) {
        hullpippin_flat_object first = object_at(kinds[0], 0), second = object_at(type, offset);
        if (offset <= parcel.data_size - OBJECT_SIZE)
            put_object(parcel.data + offset, &second);
        put_object(parcel.data, &first);
        done = walks(&parcel, offsets, kinds, 1, cause);
    }
    free_parcel(&parcel);
    return done;
}

static bool refuses_places(void)
{
    static const uint64_t bad[] = {25, 26, 27, 20, 0, 52, 72, 1u << 31, (uint64_t)1 << 32, UINT64_MAX - 23, UINT64_MAX - 3};
    bool done = true;
    for (size_t i = 0; done && i < COUNT(bad); i++)
        done = refuses_second(bad[i], kinds[1], BAD_OBJECT);
    return done && refuses_second(24, 0, BAD_OBJECT) && refuses_second(24, UINT32_MAX, BAD_OBJECT)
           && refuses_second(24, unsupported[0], UNSUPPORTED_OBJECT) && refuses_second(48, unsupported[1], UNSUPPORTED_OBJECT)
           && refuses_second(28, unsupported[2], UNSUPPORTED_OBJECT) && refuses_second(20, unsupported[2], BAD_OBJECT);
}

/* Offsets that are no whole numbers, none, too little data, and a walk that is made up. */
static bool refuses_odd(void)
{
    static const uint64_t offsets[] = {0};
    struct parcel parcel = parcel_of(OBJECT_SIZE, offsets, 1);
    hullpippin_walk far = {SIZE_MAX, 0, 0}, late = {0, SIZE_MAX, 0};
    hullpippin_flat_object object = object_at(kinds[2], 0);
    bool done = !complaint;
    if (done) {
        put_object(parcel.data, &object);
        done = walks(&parcel, offsets, kinds + 2, 1, 0) && (!next_of(&parcel, &far, &object) || fails("an object behind the end"))
               && ((!next_of(&parcel, &late, &object) && late.cause == BAD_OBJECT) || fails("an object before its place"));
        parcel.data_size--;
        done = done && walks(&parcel, offsets, kinds, 0, BAD_OBJECT);
        parcel.offsets_size = 7;
        done = done && walks(&parcel, offsets, kinds, 0, OFFSETS_SIZE);
        parcel.offsets_size = 0;
        done = done && walks(&parcel, offsets, kinds, 0, 0);
    }
    free_parcel(&parcel);
    return done;
}

/* An object that has no place, or isn't one, isn't written. */
static bool writes_nowhere(uint32_t kind, size_t start, size_t size, uint32_t cause)
{
    uint8_t data[64], blank[64];
    hullpippin_flat_object object = object_at(kind, start);
    memset(data, 0xee, sizeof data);
    memset(blank, 0xee, sizeof blank);
    return (hullpippin_put_object(&object, data, size) == cause && !memcmp(data, blank, sizeof data))
           || fails("an object is written that is none");
}

static bool writes_no_others(void)
{
    return writes_nowhere(kinds[0], 2, 64, BAD_OBJECT) && writes_nowhere(kinds[1], 44, 64, BAD_OBJECT)
           && writes_nowhere(kinds[2], SIZE_MAX - 3, 64, BAD_OBJECT) && writes_nowhere(kinds[3], 0, 23, BAD_OBJECT)
           && writes_nowhere(kinds[3], 0, 0, BAD_OBJECT) && writes_nowhere(0, 8, 64, BAD_OBJECT)
           && writes_nowhere(unsupported[0], 8, 64, UNSUPPORTED_OBJECT) && writes_nowhere(unsupported[1], 0, 64, UNSUPPORTED_OBJECT)
           && writes_nowhere(unsupported[2], 40, 64, UNSUPPORTED_OBJECT) && writes_nowhere(unsupported[2], 41, 64, BAD_OBJECT);
}

int main(void)
{
    bool done = knows_all(&protocols[0]) && knows_all(&protocols[1]) && reads_random() && walks_all_kinds() && refuses_places()
                && refuses_odd() && writes_no_others();
    if (!done)
        fprintf(stderr, "codec: %s\n", complaint);
    return done ? 0 : 1;
}
