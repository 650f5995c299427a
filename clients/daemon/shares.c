/* SPDX-License-Identifier: Apache-2.0 OR MIT */
/*
 * shares.c: how much one user and one process may have of what all clients share: the daemon's descriptors, threads, memory for windows,
 * and what the engine keeps for them, which is counted by the piece. Of the memory that the daemon may have, by the machine, its limits
 * and its control groups, all of that together is less than nine parts of ten.
 *
 * A process may have a quarter of what is free then, a user as much as is free, root and the daemon's own user three times as much, as
 * all have together that count with the same one (account.c). So there is always something left for who comes next, however many have had
 * their shares.
 */
#include "daemon.h"

#include <inttypes.h>
#include <limits.h>
#include <pthread.h>
#include <stdlib.h>
#include <string.h>
#include <sys/resource.h>
#include <unistd.h>

/* Descriptors that aren't shared out: the daemon's own, and those that a request has just brought. */
#define OWN_DESCRIPTORS 512u

/* A process may have so many threads in any case that there is a seat for each. */
#define LEAST_THREADS 4096u

/* What the engine keeps of a thing, as an object, takes no more than so much; and all things of one kind together this part of the
   memory at most. Of a thread so much of its page is mapped. */
#define THING_BYTES 1024u
#define PART_OF_THINGS 16u
#define THREAD_BYTES (64u << 10)

/* All users that count with the same one may have so many times what is free. */
#define WHOLE_TIMES 3u

struct account {
    struct list in_bucket;
    struct account *above; /* a process's user, that one's whole; NULL: it is a whole */
    int kind; /* as of a share */
    uint64_t whose;
    uid_t uid;
    pid_t pid;
    uint32_t references;
    uint64_t used[SHARED_KINDS], refused[SHARED_KINDS];
};

static struct {
    pthread_mutex_t lock;
    struct list buckets[SHARE_LISTS];
    uint64_t limits[SHARED_KINDS], used[SHARED_KINDS];
    uint64_t memory; /* that the daemon may have */
    uint32_t closed; /* so many devices have no memory but for ends */
    uid_t own; /* the daemon's user, which the kernel tells no more once the daemon is kept to what it needs (filter.c) */
} shares = {.lock = PTHREAD_MUTEX_INITIALIZER};

/* The number that a file begins with; UINT64_MAX where it can't be had, or says that there is no bound. */
static uint64_t number_in(const char *path)
{
    FILE *file = fopen(path, "re");
    uint64_t number = UINT64_MAX;
    if (file && fscanf(file, "%" SCNu64, &number) != 1)
        number = UINT64_MAX;
    if (file)
        fclose(file);
    return number;
}

/* What the control groups leave that the daemon is in: the least bound on the way from its own up to the root. */
static uint64_t memory_of_groups(void)
{
    char line[PATH_MAX] = "", path[PATH_MAX + 64];
    uint64_t least = UINT64_MAX;
    FILE *file = fopen("/proc/self/cgroup", "re");
    while (file && fgets(line, sizeof line, file) && strncmp(line, "0::/", 4))
        line[0] = 0;
    if (file)
        fclose(file);
    line[strcspn(line, "\n")] = 0;
    for (char *end = line + strlen(line); end > line + 3; *(end = strrchr(line, '/')) = 0) {
        snprintf(path, sizeof path, "/sys/fs/cgroup%s/memory.max", line + 3);
        uint64_t bound = number_in(path);
        least = bound < least ? bound : least;
    }
    return least;
}

/* Bytes of memory that the daemon may have, beyond the address space that it has already. */
static uint64_t memory_most(void)
{
    struct rlimit limit;
    uint64_t page = (uint64_t)sysconf(_SC_PAGESIZE), most = (uint64_t)sysconf(_SC_PHYS_PAGES) * page, groups = memory_of_groups();
    most = groups < most ? groups : most;
    if (getrlimit(RLIMIT_AS, &limit) == 0 && limit.rlim_cur != RLIM_INFINITY) {
        uint64_t pages = number_in("/proc/self/statm"), used = pages < limit.rlim_cur / page ? pages * page : 0;
        most = limit.rlim_cur - used < most ? limit.rlim_cur - used : most;
    }
    return most;
}

void shares_begin(uint32_t seats)
{
    struct rlimit limit;
    uint64_t memory = shares.memory = memory_most(), descriptors = 1024, threads = seats > LEAST_THREADS ? seats : LEAST_THREADS;
    shares.own = geteuid();
    if (getrlimit(RLIMIT_NOFILE, &limit) == 0)
        descriptors = limit.rlim_cur;
    shares.limits[SHARED_DESCRIPTORS] = descriptors > 2 * OWN_DESCRIPTORS ? descriptors - OWN_DESCRIPTORS : descriptors / 2;
    shares.limits[SHARED_THREADS] = threads < memory / 16 / THREAD_BYTES ? threads : memory / 16 / THREAD_BYTES;
    shares.limits[SHARED_WINDOWS] = memory / 2;
    for (enum shared what = SHARED_CALLS; what <= SHARED_DEATHS; what++)
        shares.limits[what] = memory / PART_OF_THINGS / THING_BYTES;
    for (size_t i = 0; i < SHARE_LISTS; i++)
        list_begin(&shares.buckets[i]);
}

uint64_t shares_memory(void)
{
    return shares.memory;
}

bool user_is_own(uid_t uid)
{
    return uid == 0 || uid == shares.own;
}

/* What an account is found by: what doesn't apply to its kind is 0. */
struct key {
    int kind;
    uint64_t whose;
    uid_t uid;
    pid_t pid;
};

static struct list *bucket_of(const struct key *key)
{
    return &shares.buckets[(key->whose * 7 + key->uid * 31 + (uint32_t)key->pid + (uint32_t)key->kind) % SHARE_LISTS];
}

static struct account *find(const struct key *key)
{
    struct list *bucket = bucket_of(key);
    for (struct list *entry = bucket->next; entry != bucket; entry = entry->next) {
        struct account *account = container_of(entry, struct account, in_bucket);
        if (account->kind == key->kind && account->whose == key->whose && account->uid == key->uid && account->pid == key->pid)
            return account;
    }
    return NULL;
}

static bool is_unused(const struct account *account)
{
    for (size_t i = 0; i < SHARED_KINDS; i++)
        if (account->used[i])
            return false;
    return true;
}

/* An account that has something still stays until that is given back; and with it goes its reference on the one above. */
static void release(struct account *account)
{
    while (account) {
        struct account *above = account->above;
        account->references -= account->references > 0;
        if (account->references || !is_unused(account))
            return;
        list_remove(&account->in_bucket);
        free(account);
        account = above;
    }
}

/* The account of a key, below another one, of which a new one takes the reference. */
static struct account *hold(struct key key, struct account *above)
{
    struct account *account = find(&key);
    bool is_new = !account && (account = calloc(1, sizeof *account));
    if (is_new) {
        *account = (struct account){.above = above, .kind = key.kind, .whose = key.whose, .uid = key.uid, .pid = key.pid};
        list_append(bucket_of(&key), &account->in_bucket);
    } else {
        release(above);
    }
    if (account)
        account->references++;
    return account;
}

struct account *account_hold(uint64_t whose, uid_t uid, pid_t pid)
{
    pthread_mutex_lock(&shares.lock);
    struct account *account = hold((struct key){OF_WHOLE, whose, 0, 0}, NULL);
    if (account)
        account = hold((struct key){OF_USER, whose, uid, 0}, account);
    if (account)
        account = hold((struct key){OF_PROCESS, whose, uid, pid}, account);
    pthread_mutex_unlock(&shares.lock);
    return account;
}

struct account *account_keep(struct account *account)
{
    pthread_mutex_lock(&shares.lock);
    account->references++;
    pthread_mutex_unlock(&shares.lock);
    return account;
}

void account_release(struct account *account)
{
    pthread_mutex_lock(&shares.lock);
    release(account);
    pthread_mutex_unlock(&shares.lock);
}

static bool is_within(const struct account *account, enum shared what, uint64_t amount)
{
    if (shares.closed || shares.used[what] + amount > shares.limits[what])
        return false;
    const struct account *user = account->above;
    uint64_t left = shares.limits[what] - shares.used[what] - amount;
    uint64_t times = user_is_own(account->uid) ? 3 : 1;
    return account->used[what] + amount <= left / 4 && user->used[what] + amount <= left * times
           && user->above->used[what] + amount <= left * WHOLE_TIMES;
}

bool account_take(struct account *account, enum shared what, uint64_t amount)
{
    pthread_mutex_lock(&shares.lock);
    bool is_taken = is_within(account, what, amount);
    if (is_taken)
        shares.used[what] += amount;
    for (struct account *it = account; it; it = it->above)
        it->refused[what] += !is_taken;
    for (struct account *it = is_taken ? account : NULL; it; it = it->above)
        it->used[what] += amount;
    pthread_mutex_unlock(&shares.lock);
    return is_taken;
}

void account_refuse(struct account *account, enum shared what)
{
    pthread_mutex_lock(&shares.lock);
    for (struct account *it = account; it; it = it->above)
        it->refused[what]++;
    pthread_mutex_unlock(&shares.lock);
}

void account_force(struct account *account, enum shared what, uint64_t amount)
{
    pthread_mutex_lock(&shares.lock);
    shares.used[what] += amount;
    for (struct account *it = account; it; it = it->above)
        it->used[what] += amount;
    pthread_mutex_unlock(&shares.lock);
}

const struct account *account_whole(const struct account *account)
{
    return account->above->above;
}

void account_give(struct account *account, enum shared what, uint64_t amount)
{
    pthread_mutex_lock(&shares.lock);
    shares.used[what] -= amount;
    for (struct account *it = account; it; it = it->above)
        it->used[what] -= amount;
    if (!account->references)
        release(account);
    pthread_mutex_unlock(&shares.lock);
}

void shares_close(void)
{
    pthread_mutex_lock(&shares.lock);
    shares.closed++;
    pthread_mutex_unlock(&shares.lock);
}

void shares_open(void)
{
    pthread_mutex_lock(&shares.lock);
    shares.closed--;
    pthread_mutex_unlock(&shares.lock);
}

/* Those of one account, of which each kind that it has nothing to do with is left out. */
static void tell(const struct account *account, uint64_t *skipped, struct share *all, uint32_t room, uint32_t *count)
{
    for (enum shared what = 0; what < SHARED_KINDS && *count < room; what++) {
        if (!account->used[what] && !account->refused[what])
            continue;
        if (*skipped)
            --*skipped;
        else
            all[(*count)++] = (struct share){account->kind, account->whose, account->uid, account->pid, what, account->used[what],
                                             account->refused[what]};
    }
}

uint32_t shares_tell(uint32_t list, uint64_t skipped, struct share *all, uint32_t room)
{
    uint32_t count = 0;
    pthread_mutex_lock(&shares.lock);
    const struct list *bucket = &shares.buckets[list];
    for (const struct list *entry = bucket->next; entry != bucket && count < room; entry = entry->next)
        tell(container_of(entry, struct account, in_bucket), &skipped, all, room, &count);
    pthread_mutex_unlock(&shares.lock);
    return count;
}
