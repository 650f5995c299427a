/* SPDX-License-Identifier: Apache-2.0 OR MIT */
/* A process of a script: a main thread that hands requests to the threads of its seats. */
#include "player.h"

#include <errno.h>
#include <fcntl.h>
#include <linux/android/binder.h>
#include <pthread.h>
#include <sched.h>
#include <semaphore.h>
#include <signal.h>
#include <stdio.h>
#include <stdlib.h>
#include <string.h>
#include <sys/ioctl.h>
#include <sys/mman.h>
#include <sys/prctl.h>
#include <sys/resource.h>
#include <sys/syscall.h>
#include <unistd.h>

int device;

static struct seat {
    pthread_t thread;
    sem_t asked, answered;
    char *request;
    char *_Atomic answer;
    bool lives, waits;
} seats[SEATS];

static void be_urgent(enum priority priority)
{
    if (player_is_patient())
        return;
    NEED(!pthread_setschedparam(pthread_self(), SCHED_FIFO, &(struct sched_param){.sched_priority = priority}), "priority");
}

/* The driver keeps the euid of the first manager for good, so all become it with the same one. */
static void do_manager(struct text *text)
{
    uid_t real, effective, saved;
    getresuid(&real, &effective, &saved);
    syscall(SYS_setresuid, -1, 0, -1);
    int failed = ioctl(device, BINDER_SET_CONTEXT_MGR, 0), error = errno;
    syscall(SYS_setresuid, -1, effective, -1);
    say(text, failed ? "manager %s" : "set", error == EBUSY ? "EBUSY" : "E");
}

/* Has the file's reads wait, or not. */
static void let_wait(bool wait)
{
    NEED(!fcntl(device, F_SETFL, O_RDWR | (wait ? 0 : O_NONBLOCK)), "fcntl");
}

/* Does what a line asks for; whether the thread goes on. */
static bool do_request(struct text *text, uint32_t seat, char *line)
{
    char *rest, *verb = strtok_r(line, " ", &rest), *first = strtok_r(NULL, " ", &rest), *second = strtok_r(NULL, " ", &rest);
    if (!strcmp(verb, "read") || !strcmp(verb, "wait")) {
        do_read(text, seat, strtoull(first, NULL, 10));
    } else if (!strcmp(verb, "write")) {
        do_write(text, first, second);
    } else if (!strcmp(verb, "manager")) {
        do_manager(text);
    } else if (!strcmp(verb, "spam")) {
        uint32_t is_on = (uint32_t)atoi(first);
        say(text, ioctl(device, BINDER_ENABLE_ONEWAY_SPAM_DETECTION, &is_on) ? "spam refused" : "set");
    } else if (!strcmp(verb, "exitthread")) {
        ioctl(device, BINDER_THREAD_EXIT, 0);
        say(text, "exited");
        return false;
    } else {
        say(text, !strcmp(verb, "attach") ? "opened" : "unknown");
    }
    return true;
}

static void *seat_main(void *with)
{
    struct seat *seat = with;
    be_urgent(OF_SEAT);
    struct binder_version version;
    ioctl(device, BINDER_VERSION, &version); /* the driver ends the first read of a thread that hasn't asked for anything before */
    sem_post(&seat->answered);
    for (bool goes_on = true; goes_on;) {
        while (sem_wait(&seat->asked))
            ;
        struct text text = {0};
        goes_on = do_request(&text, (uint32_t)(seat - seats), seat->request);
        seat->answer = text.at;
        sem_post(&seat->answered);
    }
    return NULL;
}

static void start(struct seat *seat)
{
    NEED(!sem_init(&seat->asked, 0, 0) && !sem_init(&seat->answered, 0, 0), "semaphore");
    seat->lives = true;
    NEED(!pthread_create(&seat->thread, NULL, seat_main, seat), "thread");
    while (sem_wait(&seat->answered)) /* until then it isn't urgent */
        ;
}

/* The answer of a seat's thread, or NULL if none is to be waited for and it has none; it is to be freed. */
static char *answer_of(struct seat *seat, bool is_sure)
{
    while (is_sure ? sem_wait(&seat->answered) : sem_trywait(&seat->answered))
        if (errno != EINTR)
            return NULL;
    char *answer = seat->answer;
    seat->answer = NULL;
    free(seat->request);
    return answer;
}

/* Hands a line to its seat; tells its answer, or that it waits. */
static void hand_over(int socket, uint32_t number, const char *request)
{
    struct seat *seat = &seats[number];
    bool may_wait = !strncmp(request, "wait", 4), ends = !strcmp(request, "exitthread");
    if (!seat->lives)
        start(seat);
    seat->request = strdup(request);
    if (may_wait)
        let_wait(true);
    sem_post(&seat->asked);
    if (may_wait)
        let_wait(false); /* by now its thread waits, or has its answer */
    char *answer = answer_of(seat, !may_wait);
    seat->waits = !answer;
    if (ends) {
        pthread_join(seat->thread, NULL);
        seat->lives = false;
    }
    message_put(socket, answer ? answer : "waits");
    free(answer);
}

/* Tells which waiting seats have an answer by now, line by line. */
static void tell_returned(int socket)
{
    struct text text = {0};
    say(&text, "%s", "");
    for (uint32_t i = 0; i < SEATS; i++) {
        char *answer = seats[i].waits ? answer_of(&seats[i], false) : NULL;
        if (!answer)
            continue;
        seats[i].waits = false;
        say(&text, "%u %s\n", i, answer);
        free(answer);
    }
    message_put(socket, text.at);
    free(text.at);
}

static void begin(uint32_t euid, size_t window)
{
    prctl(PR_SET_PDEATHSIG, SIGKILL);
    NEED(player_is_patient() || !setrlimit(RLIMIT_RTPRIO, &(struct rlimit){OF_SEAT, OF_SEAT}), "the limit of priorities");
    be_urgent(OF_PROCESS);
    NEED(!setresuid((uid_t)-1, euid, 0), "euid");
    device = open("/dev/binder", O_RDWR | O_CLOEXEC | O_NONBLOCK);
    NEED(device >= 0 && mmap(NULL, window, PROT_READ, MAP_PRIVATE, device, 0) != MAP_FAILED, "the device");
}

void process_main(int socket, uint32_t euid, size_t window)
{
    begin(euid, window);
    message_put(socket, "opened");
    for (char *line; (line = message_take(socket)); free(line)) {
        char *verb;
        uint32_t seat = (uint32_t)strtoul(line, &verb, 10);
        if (!strcmp(line, "returned"))
            tell_returned(socket);
        else if (seat < SEATS)
            hand_over(socket, seat, verb + 1);
    }
    _exit(0);
}
