/* SPDX-License-Identifier: Apache-2.0 OR MIT */
/* The library's requests for memory, one of which may be refused. The program asks for none itself, so all that are counted are the
   library's. Linked with malloc, realloc and free wrapped (cc -Wl,--wrap=malloc,--wrap=realloc,--wrap=free). */
#ifndef HULLPIPPIN_STARVED_REFUSALS_H
#define HULLPIPPIN_STARVED_REFUSALS_H

#include <stdbool.h>

/* From now on requests are counted anew, and the one with this number, from 1, is refused; with 0 none is. Where `all` is so, each behind
   it is refused too, until somebody asks whether one was. */
void refuse(long request, bool all);

/* How many there were since. */
long requests(void);

/* Whether one was refused since this was asked last. */
bool was_refused(void);

/* How many blocks are in use. */
long blocks(void);

#endif
