/* SPDX-License-Identifier: Apache-2.0 OR MIT */
/* log.c: what the daemon tells: on standard error, or in a file. */
#include "daemon.h"

#include <poll.h>
#include <stdarg.h>
#include <time.h>

/* A line goes out at once, whichever thread tells it. */
#define LINE_ROOM 1024

static FILE *file; /* NULL: standard error */
static bool is_verbose;

bool log_open(const char *path, bool verbose)
{
    is_verbose = verbose;
    if (!path)
        return true;
    file = fopen(path, "ae");
    if (file)
        setvbuf(file, NULL, _IOLBF, 0);
    return file != NULL;
}

void log_close(void)
{
    if (file)
        fclose(file);
    file = NULL;
}

static void write_line(const char *format, va_list rest)
{
    FILE *out = file ? file : stderr;
    char line[LINE_ROOM];
    struct timespec now;
    clock_gettime(CLOCK_MONOTONIC, &now);
    vsnprintf(line, sizeof line, format, rest);
    fprintf(out, "hullpippind: %lld.%06ld %s\n", (long long)now.tv_sec, now.tv_nsec / 1000, line);
}

void log_event(const char *format, ...)
{
    if (!is_verbose)
        return;
    va_list rest;
    va_start(rest, format);
    write_line(format, rest);
    va_end(rest);
}

/* A pipe that nobody reads may be full. */
static bool takes_line(void)
{
    struct pollfd log = {.fd = fileno(file ? file : stderr), .events = POLLOUT};
    return poll(&log, 1, 0) == 1 && log.revents & POLLOUT;
}

void log_line_at_once(const char *format, ...)
{
    if (!takes_line())
        return;
    va_list rest;
    va_start(rest, format);
    write_line(format, rest);
    va_end(rest);
}

void log_line(const char *format, ...)
{
    va_list rest;
    va_start(rest, format);
    write_line(format, rest);
    va_end(rest);
}
