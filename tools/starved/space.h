/* SPDX-License-Identifier: Apache-2.0 OR MIT */
/* What all looks at a live engine tell, as one number: equal engines have equal ones, wherever their histories begin. */
#ifndef HULLPIPPIN_STARVED_SPACE_H
#define HULLPIPPIN_STARVED_SPACE_H

#include "script.h"

/* A sum of numbers in their order (FNV-1a, 64 bits at a time). */
#define NO_SUM UINT64_C(0xcbf29ce484222325)
uint64_t added(uint64_t sum, uint64_t number);
uint64_t added_bytes(uint64_t sum, const uint8_t *bytes, size_t size);

/* The sum of an engine that plays this script from its step at this place on. */
uint64_t sum_of(hullpippin_live *live, const struct script *script, uint64_t first);

#endif
