/* SPDX-License-Identifier: Apache-2.0 OR MIT */
/* Parcels with PTR, FD and FDA objects are laid out, wrapped, and come to their place (include/hullpippin.h). What is wanted was worked out by hand.
   Complains where it is otherwise, and prints nothing else. */
#include "asking.h"

#include <stdio.h>

enum { PTR_SIZE = 40, FDA_SIZE = 32, FD_SIZE = 24, HAS_PARENT = 1, BASE = 0x7000 };

static void put64(uint8_t *at, uint64_t value)
{
    for (int i = 0; i < 8; i++)
        at[i] = (uint8_t)(value >> 8 * i);
}

static uint64_t get64(const uint8_t *at)
{
    uint64_t value = 0;
    for (int i = 0; i < 8; i++)
        value |= (uint64_t)at[i] << 8 * i;
    return value;
}

/* A parcel that is sent, and what came of it. */
struct parcel {
    uint8_t data[256], offsets[8 * 8], room[64];
    size_t data_size, offsets_size, room_size, descriptors;
    uint8_t out[512];
    uint64_t known[4];
    hullpippin_fixup fixups[8];
    hullpippin_layout layout;
};

static uint8_t *add(struct parcel *parcel, uint32_t type, size_t size)
{
    uint8_t *at = parcel->data + parcel->data_size;
    put32(at, type);
    put64(parcel->offsets + parcel->offsets_size, parcel->data_size);
    parcel->offsets_size += 8;
    parcel->data_size += size;
    return at;
}

static void add_buffer(struct parcel *parcel, uint64_t length, uint32_t flags, uint64_t parent, uint64_t offset)
{
    uint8_t *at = add(parcel, HULLPIPPIN_TYPE_PTR, PTR_SIZE);
    put32(at + 4, flags);
    put64(at + 16, length);
    put64(at + 24, parent);
    put64(at + 32, offset);
    parcel->room_size += (length + 7) / 8 * 8;
}

static void add_array(struct parcel *parcel, uint64_t count, uint64_t parent, uint64_t offset)
{
    uint8_t *at = add(parcel, HULLPIPPIN_TYPE_FDA, FDA_SIZE);
    put64(at + 8, count);
    put64(at + 16, parent);
    put64(at + 24, offset);
}

static bool lays_out(struct parcel *parcel, size_t room)
{
    return is_done(hullpippin_lay_out(parcel->data, parcel->data_size, parcel->offsets, parcel->offsets_size, parcel->room, parcel->room_size,
                                      parcel->descriptors, parcel->out, room, parcel->known, 4, parcel->fixups, 8, &parcel->layout));
}

/* A number, a buffer of 20 bytes, one of 3 whose address stands in the first from byte 8 on, two descriptors behind that, and one alone. */
static struct parcel begun(void)
{
    struct parcel parcel = {.data_size = 8, .descriptors = 3};
    memset(parcel.room, 0x55, sizeof parcel.room);
    add_buffer(&parcel, 20, 0, 0, 0);
    add_buffer(&parcel, 3, HAS_PARENT, 0, 4);
    add_array(&parcel, 2, 0, 12);
    add(&parcel, HULLPIPPIN_TYPE_BINDER, FD_SIZE);
    add(&parcel, HULLPIPPIN_TYPE_FD, FD_SIZE);
    return parcel;
}

static bool has(const struct parcel *parcel, size_t index, uint32_t kind, uint64_t at, uint64_t to)
{
    const hullpippin_fixup *fixup = &parcel->fixups[index];
    return is(fixup->kind == kind && fixup->at == at && fixup->to == to, "another fix-up");
}

/* The data take 168 bytes and the offsets 40; so the buffers lie at 208 and 232, and end at 240. */
static bool is_planned(struct parcel *parcel)
{
    static const uint8_t padded[8] = {0x55, 0x55, 0x55};
    if (!lays_out(parcel, sizeof parcel->out))
        return false;
    const hullpippin_layout *layout = &parcel->layout;
    return is(!layout->is_refused && layout->size == 240 && layout->known == 1 && layout->fixups == 5 && layout->taken == 3, "another layout")
           && is(parcel->known[0] == 8 + 2 * PTR_SIZE + FDA_SIZE, "another known object")
           && is(!memcmp(parcel->out, parcel->data, 168) && !memcmp(parcel->out + 168, parcel->offsets, 40), "other data go on")
           && is(!memcmp(parcel->out + 208, parcel->room, 20) && !memcmp(parcel->out + 232, padded, 8), "other buffers go on")
           && has(parcel, 0, HULLPIPPIN_FIXUP_POINTER, 8 + 8, 208) && has(parcel, 1, HULLPIPPIN_FIXUP_POINTER, 48 + 8, 232)
           && has(parcel, 2, HULLPIPPIN_FIXUP_POINTER, 208 + 4, 232) && has(parcel, 3, HULLPIPPIN_FIXUP_DESCRIPTORS, 208 + 12, 2)
           && has(parcel, 4, HULLPIPPIN_FIXUP_DESCRIPTOR, 144 + 8, 0);
}

static bool lands(struct parcel *parcel)
{
    const hullpippin_fixup past = {HULLPIPPIN_FIXUP_DESCRIPTORS, 233, 2}, none = {4, 0, 0};
    for (size_t i = 0; i < parcel->layout.fixups; i++)
        if (!hullpippin_put_fixup(&parcel->fixups[i], parcel->out, parcel->layout.size, BASE))
            return fails("a fix-up isn't written");
    if (hullpippin_put_fixup(&past, parcel->out, parcel->layout.size, BASE) || hullpippin_put_fixup(&none, parcel->out, parcel->layout.size, BASE)
        || hullpippin_put_fixup(&parcel->fixups[0], parcel->out, parcel->layout.size, UINT64_MAX - 100))
        return fails("what is no fix-up of the parcel is written");
    return is(get64(parcel->out + 16) == BASE + 208 && get64(parcel->out + 56) == BASE + 232 && get64(parcel->out + 212) == BASE + 232,
              "another address")
           && is(get64(parcel->out + 220) == UINT64_MAX && get64(parcel->out + 152) == UINT32_MAX, "another number for no descriptor");
}

static bool is_refused(struct parcel parcel)
{
    memset(parcel.out, 7, sizeof parcel.out);
    return lays_out(&parcel, sizeof parcel.out) && is(parcel.layout.is_refused && !parcel.layout.size && parcel.out[0] == 7, "a parcel is taken");
}

/* Where something was put already; with a descriptor too few; into a buffer that was closed by one without a parent; at an odd place. */
static bool refuses(void)
{
    struct parcel again = begun(), few = begun(), closed = begun(), odd = begun();
    put64(again.data + 8 + 2 * PTR_SIZE + 24, 8);
    few.descriptors = 2;
    put32(closed.data + 48 + 4, 0);
    put64(odd.data + 48 + 32, 3);
    return is_refused(again) && is_refused(few) && is_refused(closed) && is_refused(odd);
}

static bool is_told_without_room(void)
{
    struct parcel parcel = begun();
    memset(parcel.out, 7, sizeof parcel.out);
    return lays_out(&parcel, 239) && is(parcel.layout.size == 240 && parcel.out[0] == 7 && parcel.fixups[0].kind == 1, "bytes without room");
}

static bool is_no_request(void)
{
    hullpippin_layout layout = {.size = 7};
    uint32_t status = hullpippin_lay_out(NULL, 0, NULL, 0, NULL, 0, (size_t)UINT32_MAX + 1, NULL, 0, NULL, 0, NULL, 0, &layout);
    return is(status == HULLPIPPIN_NO_SUCH_REQUEST && layout.size == 7, "so many descriptors come");
}

/* What is laid out takes 240 bytes, and zeros follow to the end of the room, and the trailer. A receiver finds it, whatever came of the known
   object; but not where an object reaches into it. */
static bool is_wrapped(const struct parcel *begun)
{
    struct parcel parcel = *begun;
    const hullpippin_trailer sent = {parcel.data_size, parcel.offsets_size, 40, UINT64_C(0x123456789), 3, 1000};
    hullpippin_trailer found = {0};
    memset(parcel.out + 240, 7, 8);
    if (hullpippin_put_trailer(parcel.out, 295, parcel.layout.size, &sent) || hullpippin_put_trailer(parcel.out, sizeof parcel.out, 249, &sent))
        return fails("a trailer has room that isn't there");
    size_t size = hullpippin_put_trailer(parcel.out, sizeof parcel.out, parcel.layout.size, &sent);
    if (!is(size == 248 + HULLPIPPIN_TRAILER_SIZE && !get64(parcel.out + 240), "a parcel is wrapped otherwise"))
        return false;
    memset(parcel.out + parcel.known[0], 7, FD_SIZE);
    if (!hullpippin_find_trailer(parcel.out, size, (const uint8_t *)parcel.known, 8, &found))
        return fails("a trailer isn't found");
    uint64_t inside = 248 + HULLPIPPIN_TRAILER_SIZE - FD_SIZE;
    return is(!memcmp(&found, &sent, sizeof sent), "another trailer is found")
           && is(!hullpippin_find_trailer(parcel.out, size, (const uint8_t *)&inside, 8, &found), "an object is taken for a trailer")
           && is(!hullpippin_find_trailer(parcel.out, size - 1, NULL, 0, &found), "a trailer is found where none ends");
}

static bool goes(const struct parcel *parcel, size_t most, uint32_t tells, uint32_t way)
{
    return is(hullpippin_parcel_way(parcel->data, parcel->data_size, parcel->offsets, parcel->offsets_size, most, tells) == way, "another way");
}

/* One known object, among others and alone; and a parcel that ends as if it were wrapped. */
static bool goes_its_way(void)
{
    struct parcel mixed = begun(), plain = {0};
    add(&plain, HULLPIPPIN_TYPE_BINDER, FD_SIZE);
    if (!goes(&mixed, 1, 0, HULLPIPPIN_WAY_WRAPPED) || !goes(&mixed, 0, 0, HULLPIPPIN_WAY_LOST) || !goes(&plain, 1, 0, HULLPIPPIN_WAY_PLAIN)
        || !goes(&plain, 1, 1, HULLPIPPIN_WAY_WRAPPED))
        return false;
    memcpy(plain.data + FD_SIZE + HULLPIPPIN_TRAILER_SIZE - 8, "trailer", 8);
    plain.data_size += HULLPIPPIN_TRAILER_SIZE;
    return goes(&plain, 1, 0, HULLPIPPIN_WAY_WRAPPED);
}

/* 10 bytes of data from 3 on, two offsets at 16, and 8 bytes of buffers behind them at 32. */
static bool is_copied(void)
{
    const hullpippin_asked asked = {3, 10, 16, 16, 8}, odd = {3, 10, 16, 16, 4}, far = {UINT64_MAX, 10, 16, 16, 8};
    hullpippin_parts parts = {0};
    if (!hullpippin_parcel_parts(&asked, 40, 2, &parts))
        return fails("a parcel isn't to be had");
    return is(parts.data.from == 3 && !parts.data.to && parts.data.size == 10 && parts.offsets.from == 16 && parts.offsets.to == 16
                  && parts.buffers.from == 32 && parts.buffers.to == 32 && parts.buffers.size == 8, "it is copied otherwise")
           && is(!hullpippin_parcel_parts(&asked, 39, 2, &parts) && !hullpippin_parcel_parts(&asked, 40, 1, &parts)
                     && !hullpippin_parcel_parts(&odd, 40, 2, &parts) && !hullpippin_parcel_parts(&far, 40, 2, &parts),
                 "what isn't inside of the area is copied");
}

int main(void)
{
    struct parcel parcel = begun();
    bool done = is_planned(&parcel) && lands(&parcel) && refuses() && is_told_without_room() && is_no_request() && is_wrapped(&parcel)
                && goes_its_way() && is_copied();
    if (!done)
        fprintf(stderr, "layouts: %s\n", complaint);
    return !done;
}
