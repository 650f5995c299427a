/* SPDX-License-Identifier: Apache-2.0 OR MIT */
/*
 * recorder.c: files that a thread of its own writes, so that nobody's call writes to a disk. What is appended waits in a ring,
 * and is in its file within a second, whether anything follows or not: from the first bytes on the thread gathers for a while, or
 * until there are many, and then writes all that there are. Each byte goes there once and in order. So whenever the daemon is
 * killed, a file has a beginning of what was appended.
 *
 * A recording is a journal and what stands beside it (enum track). What is appended together comes into the journal last, when the
 * rest of it is in the other files already: these may be ahead of the journal, and are never behind.
 *
 * Where more comes than the disk takes, who appends waits for room, but for a second at most. Where there is none by then, or the
 * disk refuses, the recording breaks off: nothing is appended any more, so that there is no hole in it, and all else goes on.
 */
#include "daemon.h"

#include <errno.h>
#include <fcntl.h>
#include <stdlib.h>
#include <string.h>
#include <sys/mman.h>
#include <sys/resource.h>
#include <sys/stat.h>
#include <sys/vfs.h>
#include <time.h>
#include <unistd.h>

/* A ring has whole pieces, and of each a part at a time is written. */
#define PIECE ((size_t)1 << 18)
#define RING_ROOM (256 * PIECE)

/* What is appended in this time, or is more than a piece, is written together. The rest of a second is for the disk. */
#define GATHER_MILLISECONDS 200
/* How long a step waits for room in the rings. */
#define ROOM_MILLISECONDS 1000
/* At its end the daemon waits for so long for a disk that takes nothing. */
#define END_MILLISECONDS 5000
/* How often it is asked how much of the disk is left. */
#define LOOK_MILLISECONDS 500

/* The thread writes, and has no memory of its own. */
#define STACK_BYTES ((size_t)1 << 18)

/* A file, and what waits for it. */
struct output {
    int file; /* -1: there is none, and nothing for it */
    uint8_t *ring;
    size_t from, count; /* of the bytes that aren't written yet */
};

struct recorder {
    _Atomic uint64_t left;   /* bytes that the journal may still have, as far as is known .. */
    _Atomic size_t unwritten; /* .. and those that wait */
    uint64_t looked_at;      /* milliseconds: when that was last asked for */
    uint64_t largest;        /* that a file may be */
    pthread_mutex_t lock; /* held for no longer than it takes to copy an entry, and never while anything is written */
    pthread_cond_t has_more;
    pthread_cond_t has_moved;
    pthread_t thread;
    const char *path;
    struct output tracks[TRACKS];
    bool is_ending;     /* what is there is to be written at once, and then nothing more comes */
    bool is_broken;     /* it has broken off */
    bool is_done;       /* the thread has written all that it ever will */
};

static struct timespec later(long milliseconds)
{
    struct timespec time;
    clock_gettime(CLOCK_MONOTONIC, &time);
    time.tv_sec += milliseconds / 1000;
    time.tv_nsec += milliseconds % 1000 * 1000000;
    if (time.tv_nsec >= 1000000000)
        time.tv_sec++, time.tv_nsec -= 1000000000;
    return time;
}

/* Without the lock, since a log may wait for who reads it, and clients wait for the lock. */
static void tell(const struct recorder *recorder, const char *why)
{
    log_line("%s broke off: %s; `bplay check --cut` judges what is there", recorder->path, why);
}

/* With the lock, as all that follow and take a recorder. Whether that is to be told. */
static bool break_off(struct recorder *recorder)
{
    bool was_whole = !recorder->is_broken;
    recorder->is_broken = true;
    return was_whole;
}

/* How large a file may become by the daemon's limit, which may be asked for only before the daemon is kept to what it needs (filter.c). */
static uint64_t largest_file(void)
{
    struct rlimit limit;
    return getrlimit(RLIMIT_FSIZE, &limit) == 0 && limit.rlim_cur != RLIM_INFINITY ? limit.rlim_cur : UINT64_MAX;
}

/* How much the journal may still have, by its file system and by that limit: a pipe has no bound. */
static uint64_t left_of(int file, uint64_t largest)
{
    struct stat stat;
    struct statfs disk;
    if (fstat(file, &stat) || !S_ISREG(stat.st_mode) || fstatfs(file, &disk))
        return UINT64_MAX;
    uint64_t free = (uint64_t)disk.f_bavail * (uint64_t)disk.f_bsize, size = (uint64_t)stat.st_size, left = largest > size ? largest - size : 0;
    return free < left ? free : left;
}

static void look_at_disk(struct recorder *recorder)
{
    uint64_t now = nanoseconds() / 1000000u;
    if (recorder->looked_at && now - recorder->looked_at < LOOK_MILLISECONDS)
        return;
    recorder->looked_at = now;
    atomic_store_explicit(&recorder->left, left_of(recorder->tracks[TRACK_JOURNAL].file, recorder->largest), memory_order_relaxed);
}

struct recording recorder_look(const struct recorder *recorder)
{
    return (struct recording){.left = atomic_load_explicit(&recorder->left, memory_order_relaxed),
                              .is_pressed = atomic_load_explicit(&recorder->unwritten, memory_order_relaxed) > RING_ROOM / 2};
}

/* How many bytes wait to be written, of all tracks. */
static size_t waiting(const struct recorder *recorder)
{
    size_t count = 0;
    for (size_t i = 0; i < TRACKS; i++)
        count += recorder->tracks[i].count;
    return count;
}

/* Waits until there is something to be written, or nothing comes any more. */
static void await_first(struct recorder *recorder)
{
    while (!waiting(recorder) && !recorder->is_ending)
        pthread_cond_wait(&recorder->has_more, &recorder->lock);
}

/* Waits for what comes soon, so that it is written with that. */
static void gather(struct recorder *recorder)
{
    struct timespec until = later(GATHER_MILLISECONDS);
    int waited = 0;
    while (waiting(recorder) < PIECE && !recorder->is_ending && waited != ETIMEDOUT)
        waited = pthread_cond_clockwait(&recorder->has_more, &recorder->lock, CLOCK_MONOTONIC, &until);
}

/* Memory that was written isn't kept, but for the first piece, in which nearly everything finds room. */
static void give_back(const struct output *track, uint8_t *bytes, size_t size)
{
    size_t page = (size_t)sysconf(_SC_PAGESIZE), skipped = -(uintptr_t)bytes % page;
    if ((size_t)(bytes - track->ring) >= PIECE && size >= skipped + page)
        madvise(bytes + skipped, (size - skipped) / page * page, MADV_DONTNEED);
}

/* Nobody has these bytes any more. An empty ring begins at its front again, where there is memory. */
static void move_on(struct recorder *recorder, struct output *track, size_t size)
{
    track->count -= size;
    track->from = track->count ? (track->from + size) % RING_ROOM : 0;
    atomic_store_explicit(&recorder->unwritten, recorder->tracks[TRACK_JOURNAL].count, memory_order_relaxed);
    pthread_cond_broadcast(&recorder->has_moved);
}

/* What isn't written yet never will be. */
static void give_up(struct recorder *recorder, const char *why)
{
    bool is_to_tell = break_off(recorder);
    for (size_t i = 0; i < TRACKS; i++)
        move_on(recorder, &recorder->tracks[i], recorder->tracks[i].count);
    pthread_mutex_unlock(&recorder->lock);
    if (is_to_tell)
        tell(recorder, why);
    pthread_mutex_lock(&recorder->lock);
}

/* Writes some of the first bytes that wait, of so many, meanwhile without the lock: how many were. */
static size_t write_some(struct recorder *recorder, struct output *track, size_t size)
{
    size_t most = PIECE - track->from % PIECE;
    uint8_t *bytes = track->ring + track->from;
    pthread_mutex_unlock(&recorder->lock);
    ssize_t written = write(track->file, bytes, size < most ? size : most);
    int error = errno;
    if (written > 0)
        give_back(track, bytes, (size_t)written);
    pthread_mutex_lock(&recorder->lock);
    if (written > 0)
        move_on(recorder, track, (size_t)written);
    else if (written == 0)
        give_up(recorder, "nothing of a write was taken");
    else if (error != EINTR)
        give_up(recorder, strerror(error));
    return written > 0 ? (size_t)written : 0;
}

/* Writes so many bytes, unless all that waits is given up. */
static void write_track(struct recorder *recorder, struct output *track, size_t size)
{
    while (size && track->count)
        size -= write_some(recorder, track, size);
}

/* Writes what waits now, the journal's last; what comes meanwhile waits on, so that nothing of the journal is there before what is
   beside it. */
static void write_round(struct recorder *recorder)
{
    size_t sizes[TRACKS];
    look_at_disk(recorder);
    for (size_t i = 0; i < TRACKS; i++)
        sizes[i] = recorder->tracks[i].count;
    for (size_t i = 0; i < TRACKS; i++)
        write_track(recorder, &recorder->tracks[i], sizes[i]);
}

static void *write_all(void *with)
{
    struct recorder *recorder = with;
    pthread_mutex_lock(&recorder->lock);
    while (!recorder->is_ending || waiting(recorder)) {
        if (waiting(recorder)) {
            write_round(recorder);
        } else {
            await_first(recorder);
            gather(recorder);
        }
    }
    recorder->is_done = true;
    pthread_cond_broadcast(&recorder->has_moved);
    pthread_mutex_unlock(&recorder->lock);
    return NULL;
}

static void recorder_free(struct recorder *recorder)
{
    pthread_mutex_destroy(&recorder->lock);
    pthread_cond_destroy(&recorder->has_more);
    pthread_cond_destroy(&recorder->has_moved);
    for (size_t i = 0; i < TRACKS; i++) {
        descriptor_close(&recorder->tracks[i].file);
        if (recorder->tracks[i].ring)
            munmap(recorder->tracks[i].ring, RING_ROOM);
    }
    free(recorder);
}

static bool write_front(const struct output *track, struct span front)
{
    ssize_t written = write(track->file, front.bytes, front.size);
    if (written >= 0 && (size_t)written < front.size)
        errno = ENOSPC; /* there is room for a part of it alone */
    return written == (ssize_t)front.size;
}

/* A file is written anew; a pipe isn't waited for, and is from then on. */
static bool begin_file(const struct output *track, struct span front)
{
    struct stat file;
    if (fstat(track->file, &file) || (S_ISREG(file.st_mode) && ftruncate(track->file, 0)))
        return false;
    int flags = fcntl(track->file, F_GETFL);
    return write_front(track, front) && flags >= 0 && fcntl(track->file, F_SETFL, flags & ~O_NONBLOCK) == 0;
}

static bool begin_track(struct output *track, struct span front)
{
    void *ring = mmap(NULL, RING_ROOM, PROT_READ | PROT_WRITE, MAP_PRIVATE | MAP_ANONYMOUS | MAP_NORESERVE, -1, 0);
    track->ring = ring == MAP_FAILED ? NULL : ring;
    return track->ring && begin_file(track, front);
}

static bool start_thread(struct recorder *recorder)
{
    pthread_attr_t attributes;
    pthread_attr_init(&attributes);
    pthread_attr_setstacksize(&attributes, STACK_BYTES);
    errno = pthread_create(&recorder->thread, &attributes, write_all, recorder);
    pthread_attr_destroy(&attributes);
    return !errno;
}

static bool start(struct recorder *recorder, const struct span fronts[TRACKS])
{
    for (size_t i = 0; i < TRACKS; i++)
        if (recorder->tracks[i].file >= 0 && !begin_track(&recorder->tracks[i], fronts[i]))
            return false;
    look_at_disk(recorder);
    return start_thread(recorder);
}

struct recorder *recorder_begin(const char *path, int files[TRACKS], const struct span fronts[TRACKS])
{
    struct recorder *recorder = malloc(sizeof *recorder);
    if (recorder) {
        *recorder = (struct recorder){.path = path, .largest = largest_file(), .lock = PTHREAD_MUTEX_INITIALIZER, .has_more = PTHREAD_COND_INITIALIZER,
                                      .has_moved = PTHREAD_COND_INITIALIZER};
        for (size_t i = 0; i < TRACKS; i++) {
            recorder->tracks[i].file = files[i];
            files[i] = -1;
        }
        if (start(recorder, fronts))
            return recorder;
    }
    log_line("%s: %s", path, strerror(errno));
    if (recorder)
        recorder_free(recorder);
    return NULL;
}

static bool has_room(const struct recorder *recorder, const struct span spans[TRACKS])
{
    bool has = !recorder->is_broken;
    for (size_t i = 0; i < TRACKS; i++)
        has = has && RING_ROOM - recorder->tracks[i].count >= spans[i].size;
    return has;
}

static bool await_room(struct recorder *recorder, const struct span spans[TRACKS])
{
    struct timespec until = later(ROOM_MILLISECONDS);
    int waited = 0;
    while (!has_room(recorder, spans) && !recorder->is_broken && waited != ETIMEDOUT)
        waited = pthread_cond_clockwait(&recorder->has_moved, &recorder->lock, CLOCK_MONOTONIC, &until);
    return has_room(recorder, spans);
}

/* Puts bytes into a track's ring, for which there is room, and a file. */
static void put(struct output *track, struct span span)
{
    size_t to = (track->from + track->count) % RING_ROOM, left = RING_ROOM - to, behind = span.size < left ? span.size : left;
    memcpy(track->ring + to, span.bytes, behind);
    memcpy(track->ring, (const uint8_t *)span.bytes + behind, span.size - behind);
    track->count += span.size;
}

/* There is room. The thread is told of the first bytes, and once there is a piece. */
static void put_all(struct recorder *recorder, const struct span spans[TRACKS])
{
    size_t before = waiting(recorder), after = before;
    for (size_t i = 0; i < TRACKS; i++) {
        if (!spans[i].size || recorder->tracks[i].file < 0)
            continue;
        put(&recorder->tracks[i], spans[i]);
        after += spans[i].size;
    }
    atomic_store_explicit(&recorder->unwritten, recorder->tracks[TRACK_JOURNAL].count, memory_order_relaxed);
    if (!before || (before < PIECE && after >= PIECE))
        pthread_cond_signal(&recorder->has_more);
}

bool recorder_append(struct recorder *recorder, const struct span spans[TRACKS])
{
    pthread_mutex_lock(&recorder->lock);
    bool is_taken = has_room(recorder, spans) || await_room(recorder, spans);
    if (is_taken)
        put_all(recorder, spans);
    bool is_to_tell = !is_taken && break_off(recorder);
    pthread_mutex_unlock(&recorder->lock);
    if (is_to_tell)
        tell(recorder, "more comes than the disk takes");
    return is_taken;
}

void recorder_break_off(struct recorder *recorder, const char *why)
{
    pthread_mutex_lock(&recorder->lock);
    bool is_to_tell = break_off(recorder);
    pthread_mutex_unlock(&recorder->lock);
    if (is_to_tell)
        tell(recorder, why);
}

/* Waits until all is written, for as long as the disk takes something. */
static bool await_end(struct recorder *recorder)
{
    int waited = 0;
    recorder->is_ending = true;
    pthread_cond_signal(&recorder->has_more);
    while (!recorder->is_done && waited != ETIMEDOUT) {
        struct timespec until = later(END_MILLISECONDS);
        waited = pthread_cond_clockwait(&recorder->has_moved, &recorder->lock, CLOCK_MONOTONIC, &until);
    }
    return recorder->is_done;
}

/* What can't be written over, as a pipe, keeps the front that it has. */
static bool replace_front(const struct recorder *recorder, struct span front)
{
    const struct output *journal = &recorder->tracks[TRACK_JOURNAL];
    if (lseek(journal->file, 0, SEEK_SET) == 0 && write_front(journal, front))
        return true;
    int error = errno;
    log_line("%s: its heading stays as it is: %s; `bplay mend` puts it right", recorder->path, strerror(error));
    return error == ESPIPE;
}

bool recorder_end(struct recorder *recorder, struct span front)
{
    pthread_mutex_lock(&recorder->lock);
    bool is_done = await_end(recorder);
    bool is_to_tell = !is_done && break_off(recorder);
    bool is_whole = !recorder->is_broken;
    pthread_mutex_unlock(&recorder->lock);
    if (is_to_tell)
        tell(recorder, "the disk takes nothing");
    if (!is_done)
        return false; /* its thread is in a write, and may come back any time: nothing of it goes */
    pthread_join(recorder->thread, NULL);
    is_whole = is_whole && replace_front(recorder, front);
    recorder_free(recorder);
    return is_whole;
}
