/* SPDX-License-Identifier: Apache-2.0 OR MIT */
/* opens COUNT: has the device open so often at once, each time with a window of one page, and waits to be ended. */
#include "raw.h"

#include <stdio.h>
#include <stdlib.h>
#include <unistd.h>

#define PAGE ((size_t)4096)

int main(int argc, char **argv)
{
    size_t count = argc > 1 ? strtoul(argv[1], NULL, 10) : 1;
    raw_begin(120);
    for (size_t i = 0; i < count; i++) {
        struct binder binder; /* it ends with the process */
        CHECK(binder_open(&binder, raw_device(), PAGE), "open %zu of %s", i, raw_device());
    }
    printf("ready\n");
    pause();
    return 0;
}
