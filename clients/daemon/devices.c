/* SPDX-License-Identifier: Apache-2.0 OR MIT */
/*
 * devices.c: the device names, and the engine of each: made when a client first opens it, or at once where it has a
 * journal.
 */
#include "daemon.h"

#include <errno.h>
#include <fcntl.h>
#include <limits.h>
#include <string.h>
#include <sys/file.h>
#include <sys/stat.h>
#include <sys/timerfd.h>
#include <unistd.h>

/* How often it is looked who has opened nothing, while there are such. */
#define STRANGERS_SECONDS 1

static struct device *find(struct daemon *daemon, const char *name, size_t length)
{
    for (uint32_t i = 0; i < daemon->device_count; i++)
        if (strlen(daemon->devices[i].name) == length && !memcmp(daemon->devices[i].name, name, length))
            return &daemon->devices[i];
    return NULL;
}

bool devices_add(struct daemon *daemon, const char *names)
{
    while (*names) {
        size_t length = strcspn(names, ",");
        if (!length || length >= DEVICE_NAME_ROOM || daemon->device_count == DEVICES_MAX || find(daemon, names, length))
            return false;
        struct device *device = &daemon->devices[daemon->device_count++];
        memcpy(device->name, names, length);
        for (size_t i = 0; i < TRACKS; i++)
            device->files[i] = -1;
        names += length + (names[length] == ',');
    }
    return daemon->device_count > 0;
}

bool devices_set_journal(struct daemon *daemon, const char *word)
{
    size_t length = strcspn(word, "=");
    struct device *device = word[length] ? find(daemon, word, length) : &daemon->devices[0];
    if (!device || device->journal)
        return false;
    device->journal = word[length] ? word + length + 1 : word;
    return *device->journal;
}

static bool begin(struct daemon *daemon, struct device *device)
{
    device->engine = engine_new(daemon, device);
    return device->engine != NULL;
}

/* What a journal's path ends with for what stands beside it. */
static const char *const endings[TRACKS] = {[TRACK_TIMES] = ".times", [TRACK_WHO] = ".who", [TRACK_JOURNAL] = ""};

/* Why a journal can't be opened, which an errno alone doesn't tell of a pipe. */
static const char *why_not_open(const char *path)
{
    int error = errno;
    struct stat file;
    bool is_pipe = error == ENXIO && stat(path, &file) == 0 && S_ISFIFO(file.st_mode);
    return is_pipe ? "nobody reads this pipe" : strerror(error);
}

/* The files that are opened already, so that no file is opened for two devices or purposes. */
struct opened {
    struct stat files[DEVICES_MAX * TRACKS];
    uint32_t count;
};

static bool is_same(const struct stat *file, const struct stat *other)
{
    return file->st_dev == other->st_dev && file->st_ino == other->st_ino;
}

static bool is_among(const struct stat *file, const struct opened *opened)
{
    for (uint32_t i = 0; i < opened->count; i++)
        if (is_same(file, &opened->files[i]))
            return true;
    return false;
}

/* No other daemon writes it from now on. A file system without locks can't say so. */
static bool can_lock(int fd)
{
    return flock(fd, LOCK_EX | LOCK_NB) == 0 || errno != EWOULDBLOCK;
}

/* Opens a file, once and for good; what is in it stays. Nobody is waited for: a pipe has its reader already, or can't be had. A name that
   nobody has chosen is no link to somewhere else, and none is a further name of somebody's file, which would be written anew with it. Why it
   can't be had, or NULL. */
static const char *open_file(const char *path, bool is_chosen, int *fd, struct opened *opened)
{
    struct stat *file = &opened->files[opened->count];
    *fd = open(path, O_WRONLY | O_CREAT | O_NONBLOCK | O_NOCTTY | O_CLOEXEC | (is_chosen ? 0 : O_NOFOLLOW), 0666);
    if (*fd < 0)
        return why_not_open(path);
    if (fstat(*fd, file))
        return strerror(errno);
    if (!S_ISREG(file->st_mode) && !(is_chosen && S_ISFIFO(file->st_mode)))
        return is_chosen ? "it is neither a file nor a pipe" : "it is no file";
    if (S_ISREG(file->st_mode) && file->st_nlink > 1)
        return "it is a file that has other names";
    if (is_among(file, opened))
        return "two devices can't have one journal, nor may one stand beside another's";
    if (S_ISREG(file->st_mode) && !can_lock(*fd))
        return "another daemon writes this journal";
    opened->count++;
    return NULL;
}

static bool open_track(struct device *device, enum track track, struct opened *opened)
{
    char path[PATH_MAX];
    bool fits = (size_t)snprintf(path, sizeof path, "%s%s", device->journal, endings[track]) < sizeof path;
    const char *why = fits ? open_file(path, track == TRACK_JOURNAL, &device->files[track], opened) : strerror(ENAMETOOLONG);
    if (why)
        log_line("%s: %s", path, why);
    return !why;
}

/* Whether a journal is a file of its own name, beside which others may stand: a pipe isn't, nor what the daemon prints to. */
static bool has_neighbours(const struct stat *journal)
{
    struct stat printed;
    return S_ISREG(journal->st_mode) && !(fstat(STDOUT_FILENO, &printed) == 0 && is_same(journal, &printed));
}

static bool open_journal(struct device *device, struct opened *opened)
{
    if (!open_track(device, TRACK_JOURNAL, opened))
        return false;
    return !has_neighbours(&opened->files[opened->count - 1])
           || (open_track(device, TRACK_TIMES, opened) && open_track(device, TRACK_WHO, opened));
}

/* Before one journal is written anew, all have to be files of their own, by whatever names. */
static bool open_journals(struct daemon *daemon)
{
    struct opened opened = {.count = 0};
    for (uint32_t i = 0; i < daemon->device_count; i++)
        if (daemon->devices[i].journal && !open_journal(&daemon->devices[i], &opened))
            return false;
    return true;
}

bool devices_begin(struct daemon *daemon)
{
    if (!open_journals(daemon))
        return false;
    for (uint32_t i = 0; i < daemon->device_count; i++)
        if (daemon->devices[i].journal && !begin(daemon, &daemon->devices[i]))
            return false;
    return true;
}

bool device_is_there(struct daemon *daemon, const char *name)
{
    return find(daemon, name, strlen(name)) != NULL;
}

struct engine *device_engine(struct daemon *daemon, const char *name)
{
    struct device *device = find(daemon, name, strlen(name));
    errno = device ? ENOMEM : ENOENT;
    if (!device || (!device->engine && !begin(daemon, device)))
        return NULL;
    return device->engine;
}

/* Who opens nothing goes. Whether one has gone, and the next may have to. */
bool strangers_end_some(void *context)
{
    struct daemon *daemon = context;
    const struct itimerspec time = {.it_value.tv_sec = STRANGERS_SECONDS};
    enum strangers strangers = process_end_stranger(daemon);
    if (strangers == STRANGERS_WAIT && !daemon->strangers_are_timed)
        daemon->strangers_are_timed = timerfd_settime(daemon->patience.fd, 0, &time, NULL) == 0;
    return strangers == STRANGERS_END;
}

static void end_all(struct list *processes)
{
    while (!list_is_empty(processes))
        process_end(container_of(processes->next, struct process, in_engine));
}

void devices_end(struct daemon *daemon)
{
    end_all(&daemon->strangers);
    for (uint32_t i = 0; i < daemon->device_count; i++) {
        struct device *device = &daemon->devices[i];
        if (device->engine)
            engine_free(device->engine);
        device->engine = NULL;
        for (size_t j = 0; j < TRACKS; j++)
            descriptor_close(&device->files[j]);
    }
}
