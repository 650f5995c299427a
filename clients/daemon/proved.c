/* SPDX-License-Identifier: Apache-2.0 OR MIT */
/* proved.c: what is known of the engine that this daemon was linked with. tools/install writes it beside the program, since no
   constant of the library can say it: what nothing has proved would have the same. */
#include "daemon.h"

#include <limits.h>
#include <stdlib.h>
#include <string.h>
#include <unistd.h>

#define UNKNOWN "not known to be proved"

/* Where the first line lies, for a program in a folder `bin`: PREFIX/share/hullpippin/hullpippind.proved. */
static bool record_path(char *path, size_t room)
{
    static const char bin[] = "/bin/hullpippind", record[] = "/share/hullpippin/hullpippind.proved";
    ssize_t size = readlink("/proc/self/exe", path, room);
    if (size < (ssize_t)sizeof bin - 1 || (size_t)size + sizeof record > room)
        return false;
    char *end = path + size - (sizeof bin - 1);
    if (memcmp(end, bin, sizeof bin - 1))
        return false;
    memcpy(end, record, sizeof record);
    return true;
}

/* Tells the version, and what is known of the engine. */
void version_tell(FILE *out)
{
    char path[PATH_MAX], line[512] = UNKNOWN;
    FILE *file = record_path(path, sizeof path) ? fopen(path, "re") : NULL;
    if (file && !fgets(line, sizeof line, file))
        strcpy(line, UNKNOWN);
    if (file)
        fclose(file);
    line[strcspn(line, "\n")] = 0;
    fprintf(out, "hullpippind " HULLPIPPIND_VERSION ": Binder protocol %d, library protocol %u\n", BINDER_CURRENT_PROTOCOL_VERSION,
            PROTOCOL_VERSION);
    fprintf(out, "engine %s\n", line);
}
