/* SPDX-License-Identifier: Apache-2.0 OR MIT */
/* Ptrs that a hash map of the kit puts into one place, for a process that the step at PLACE opened.

       collide PLACE COUNT

   The map's seed is fixed, so whoever chooses the keys can compute where they go. A key is the owner's number (4 bytes) and the ptr (8).
   Its hash is folded to 32 bits: the low ones say in which group of lanes the search begins, the high 8 tell the entries of a group apart.
   Those found agree in the low 11 and the high 8, so up to 2,048 groups (18,432 entries) none is told from another but by comparing keys. */
#include <stdint.h>
#include <stdio.h>
#include <stdlib.h>

static const uint64_t MULTIPLIER = 0x9e3779b97f4a7c15, SEED = 0x243f6a8885a308d3;
static const uint32_t AGREE = 0xff0007ff;

static uint64_t folded(uint64_t a, uint64_t b)
{
    unsigned __int128 product = (unsigned __int128)a * b;
    return (uint64_t)product ^ (uint64_t)(product >> 64);
}

int main(int count, char **words)
{
    if (count != 3)
        return 1;
    uint64_t owner = strtoull(words[1], 0, 10);
    long left = strtol(words[2], 0, 10);
    uint64_t state = folded(SEED ^ (owner | owner << 32), MULTIPLIER ^ 8);
    for (uint64_t ptr = 8; left > 0; ptr += 8) {
        uint64_t hash = folded(state ^ ptr, MULTIPLIER ^ 16);
        if ((((uint32_t)hash ^ (uint32_t)(hash >> 32)) & AGREE) == (0x55000123 & AGREE)) {
            printf("%llu\n", (unsigned long long)ptr);
            left--;
        }
    }
    return 0;
}
