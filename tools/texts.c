/* SPDX-License-Identifier: Apache-2.0 OR MIT */
/* Prints each text that the library has, a line for each: the kind, the number, the text. All numbers below 65536 are tried, and
   all codes of the sizes that commands and returns have. Complains where a text comes otherwise with little room, or where the
   library that is linked has another version than the header. */
#include "hullpippin.h"

#include <stdio.h>
#include <string.h>

/* The upper halves of the codes of commands and returns: the direction, and the size of what follows. */
static const uint32_t SIZES[] = {0, 0x4004, 0x4008, 0x400c, 0x4010, 0x4040, 0x4048, 0x8008, 0x8010, 0x8040};

/* Whether the text is the same with just enough room, and isn't written with less. */
static int is_whole(uint32_t kind, uint32_t number, const char *text)
{
    uint8_t out[HULLPIPPIN_TEXT_ROOM] = {0};
    size_t size = strlen(text);
    if (hullpippin_text_bytes(kind, number, HULLPIPPIN_NOWHERE, 0) != size)
        return 0;
    if (hullpippin_text_bytes(kind, number, out, size - 1) != size || out[0])
        return 0;
    return hullpippin_text_bytes(kind, number, out, size) == size && !memcmp(out, text, size) && !out[size];
}

static int tell(uint32_t kind, uint32_t number)
{
    const char *text = hullpippin_text(kind, number);
    if (!text)
        return 1;
    printf("%u %u %s\n", (unsigned)kind, (unsigned)number, text);
    return is_whole(kind, number, text);
}

static int tell_kind(uint32_t kind)
{
    for (size_t i = 0; i < sizeof SIZES / sizeof SIZES[0]; i++)
        for (uint32_t low = 0; low < 0x10000; low++)
            if (!tell(kind, SIZES[i] << 16 | low))
                return 0;
    return tell(kind, UINT32_MAX);
}

int main(void)
{
    if (hullpippin_version() != HULLPIPPIN_VERSION)
        return fprintf(stderr, "texts: the library has version %x\n", (unsigned)hullpippin_version()), 1;
    for (uint32_t kind = 0; kind <= HULLPIPPIN_TEXT_RETURN + 1; kind++)
        if (!tell_kind(kind))
            return fprintf(stderr, "texts: another text with little room\n"), 1;
    return 0;
}
