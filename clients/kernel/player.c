/* SPDX-License-Identifier: Apache-2.0 OR MIT */
/*
 * player FILE: plays scripts on /dev/binder. Each is given as
 *
 *     script NAME
 *     LINE SEAT open PID EUID WINDOW | attach PID | manager | spam N | read LIMIT | wait LIMIT | write STREAM AREA | exitthread
 *     LINE SEAT exitprocess
 *     end
 *
 * and told as `script NAME`, a line `LINE SEAT ANSWER` for each answer, one for each read of another seat that the line has brought to its
 * end, `process PID ITS` for each process, and `end`. A stream is told without pointers.
 */
#include "player.h"

#include <errno.h>
#include <fcntl.h>
#include <signal.h>
#include <stdarg.h>
#include <stdio.h>
#include <stdlib.h>
#include <string.h>
#include <sys/socket.h>
#include <sys/wait.h>
#include <unistd.h>

void give_up(const char *what)
{
    fprintf(stderr, "player: %s: %s\n", what, strerror(errno));
    _exit(70);
}

bool player_is_patient(void)
{
    return getenv("PLAYER_PATIENCE");
}

/* Gives what nobody waits for its time. */
static void be_patient(void)
{
    if (player_is_patient())
        usleep((useconds_t)atoi(getenv("PLAYER_PATIENCE")));
}

void say(struct text *text, const char *format, ...)
{
    va_list words;
    if (text->room - text->size < 4096)
        text->at = realloc(text->at, text->room = 2 * text->room + 65536);
    NEED(text->at, "memory");
    va_start(words, format);
    text->size += (size_t)vsnprintf(text->at + text->size, text->room - text->size, format, words);
    va_end(words);
}

void say_hex(struct text *text, const uint8_t *bytes, size_t size)
{
    for (size_t i = 0; i < size; i++)
        say(text, "%02x", bytes[i]);
    if (!size)
        say(text, "-");
}

static bool move_all(int socket, char *at, size_t size, bool out)
{
    for (size_t done = 0; done < size;) {
        ssize_t moved = out ? write(socket, at + done, size - done) : read(socket, at + done, size - done);
        if (moved <= 0 && !(moved < 0 && errno == EINTR))
            return false;
        done += moved > 0 ? (size_t)moved : 0;
    }
    return true;
}

bool message_put(int socket, const char *text)
{
    uint32_t size = (uint32_t)strlen(text) + 1;
    return move_all(socket, (char *)&size, sizeof size, true) && move_all(socket, (char *)text, size, true);
}

char *message_take(int socket)
{
    uint32_t size;
    char *text = move_all(socket, (char *)&size, sizeof size, false) ? malloc(size) : NULL;
    if (text && !move_all(socket, text, size, false)) {
        free(text);
        return NULL;
    }
    return text;
}

/* The processes of a script, and which one each seat's thread is of. */
struct process {
    uint32_t pid;
    pid_t its;
    int socket;
    unsigned waiting; /* seats that wait in a read */
};
static struct process processes[SEATS];
static struct process *of_seat[SEATS];
static unsigned live;

/* The driver ends a process some time after its file is closed. */
static void see_ended(void)
{
    be_patient();
    for (int turn = 0; turn < 20000 && !player_is_patient(); turn++) {
        char told[4096] = "";
        int file = open("/sys/kernel/debug/binder/stats", O_RDONLY);
        NEED(file >= 0 && read(file, told, sizeof told - 1) > 0, "the driver's statistics");
        close(file);
        const char *active = strstr(told, "\nproc: active ");
        if ((active ? strtoul(active + 14, NULL, 10) : 0) == live)
            return;
        usleep(200);
    }
    NEED(player_is_patient(), "a process doesn't go");
}

static void kill_process(struct process *process)
{
    kill(process->its, SIGKILL);
    waitpid(process->its, NULL, 0);
    close(process->socket);
    process->its = 0;
    live--;
    for (uint32_t i = 0; i < SEATS; i++)
        if (of_seat[i] == process)
            of_seat[i] = NULL;
}

static struct process *process_of_pid(uint32_t pid)
{
    for (struct process *it = processes; it < processes + SEATS; it++)
        if (it->its && it->pid == pid)
            return it;
    return NULL;
}

static struct process *free_process(void)
{
    for (struct process *it = processes; it < processes + SEATS; it++)
        if (!it->its)
            return it;
    give_up("too many processes");
}

static void leave_others(void)
{
    for (uint32_t i = 0; i < SEATS; i++)
        if (processes[i].its)
            close(processes[i].socket);
}

static void start_process(uint32_t seat, uint32_t pid, uint32_t euid, size_t window)
{
    int pair[2];
    NEED(!socketpair(AF_UNIX, SOCK_STREAM | SOCK_CLOEXEC, 0, pair), "socketpair");
    fflush(stdout);
    pid_t its = fork();
    NEED(its >= 0, "fork");
    if (!its) {
        close(pair[0]);
        leave_others();
        process_main(pair[1], euid, window);
    }
    close(pair[1]);
    live++;
    of_seat[seat] = free_process();
    *of_seat[seat] = (struct process){pid, its, pair[0], 0};
    printf("process %u %d\n", pid, its);
}

/* Tells which reads have ended that waited. */
static void tell_returned(unsigned long line)
{
    for (struct process *it = processes; it < processes + SEATS; it++) {
        char *told = it->its && it->waiting && message_put(it->socket, "returned") ? message_take(it->socket) : NULL;
        for (char *rest, *each = told ? strtok_r(told, "\n", &rest) : NULL; each; each = strtok_r(NULL, "\n", &rest)) {
            printf("%lu %s\n", line, each);
            it->waiting--;
        }
        free(told);
    }
}

/* Plays what a line says behind its number: a seat, and what it asks for. */
static void play_line(unsigned long line, const char *message)
{
    char *request;
    uint32_t seat = (uint32_t)strtoul(message, &request, 10);
    NEED(seat < SEATS && *request++ == ' ', "a bad line");
    unsigned pid, euid, window;
    bool opens = sscanf(request, "open %u %u %u", &pid, &euid, &window) == 3;
    if (opens)
        start_process(seat, pid, euid, window);
    if (sscanf(request, "attach %u", &pid) == 1)
        of_seat[seat] = process_of_pid(pid);
    struct process *process = of_seat[seat];
    NEED(process, "a seat without a process");
    if (!strcmp(request, "exitprocess")) {
        kill_process(process);
        see_ended();
        printf("%lu %u exited\n", line, seat);
        return;
    }
    char *answer = opens || message_put(process->socket, message) ? message_take(process->socket) : NULL;
    printf("%lu %u %s\n", line, seat, answer ? answer : "gone");
    process->waiting += answer && !strcmp(answer, "waits");
    if (!strcmp(request, "exitthread"))
        of_seat[seat] = NULL;
    if (!strncmp(request, "write 0363", 10))
        be_patient(); /* the library may send a freed buffer's pointer without waiting */
    free(answer);
}

static void end_script(void)
{
    for (struct process *it = processes; it < processes + SEATS; it++)
        if (it->its)
            kill_process(it);
    see_ended();
    puts("end");
    fflush(stdout);
}

int main(int count, char **words)
{
    FILE *file = count == 2 ? fopen(words[1], "r") : NULL;
    NEED(file, "usage: player FILE");
    signal(SIGPIPE, SIG_IGN);
    static char out[1 << 20];
    setvbuf(stdout, out, _IOFBF, sizeof out);
    char *line = NULL;
    for (size_t room = 0; getline(&line, &room, file) > 0;) {
        line[strcspn(line, "\n")] = 0;
        if (!strcmp(line, "end")) {
            end_script();
        } else if (!strncmp(line, "script ", 7)) {
            puts(line);
        } else {
            char *rest;
            unsigned long number = strtoul(line, &rest, 10);
            NEED(*rest == ' ', "a bad line");
            play_line(number, rest + 1);
            tell_returned(number);
        }
    }
    free(line);
    return 0;
}
