/* SPDX-License-Identifier: Apache-2.0 OR MIT */
/* The one function of the library that isn't in Rattle, where nothing can count what a whole program makes. Each driver gets a number
   here that no other one of this copy of the library has, its key, by which it knows its own seats. */
#include "hullpippin.h"

#include <stdatomic.h>

/* What crates/bd_c has for C of that name. No two calls may be given one key. */
uint32_t hullpippin_new_with_key(uint32_t seats, uint64_t key, hullpippin_driver *driver);

uint32_t hullpippin_new(uint32_t seats, hullpippin_driver *driver)
{
    /* 2^64 drivers are more than any program makes. */
    static _Atomic uint64_t next_key;
    return hullpippin_new_with_key(seats, atomic_fetch_add_explicit(&next_key, 1, memory_order_relaxed), driver);
}
