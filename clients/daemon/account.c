/* SPDX-License-Identifier: Apache-2.0 OR MIT */
/*
 * account.c: with whose a client is counted. A person may have thousands of user ids to give to containers and the like, each of which
 * would have as many turns, and as large a share, as anybody else. So the ids that /etc/subuid and /etc/subgid give to somebody count
 * with that one's own. Another user's process counts with the slice that systemd has put it into, where there is one; who is in none
 * counts by the user id. Root and the daemon's own user are nobody else's.
 *
 * The files are read as the daemon begins, while it may still ask who has a name.
 */
#include "daemon.h"

#include <fcntl.h>
#include <pwd.h>
#include <stdlib.h>
#include <string.h>
#include <unistd.h>

/* So many ranges of a file are known. */
#define RANGES_MOST 65536u

/* An account that is a slice's, and no user's, has this besides the hash of its name. */
#define OF_SLICE (UINT64_C(1) << 32)

struct range {
    uint64_t from, to;
    uid_t owner;
};

struct ranges {
    struct range *all;
    size_t count;
};

static struct ranges users, groups;

/* A user by name or number; false where there is none. */
static bool find_owner(const char *word, uid_t *owner)
{
    const struct passwd *found = getpwnam(word);
    char *end;
    unsigned long number = strtoul(word, &end, 10);
    *owner = found ? found->pw_uid : (uid_t)number;
    return found || (end != word && !*end && number < UINT32_MAX);
}

/* Reads NAME:FROM:COUNT. */
static bool read_range(char *line, struct range *range)
{
    uint64_t count;
    char *from = strchr(line, ':');
    if (!from || sscanf(from, ":%lu:%lu", &range->from, &count) != 2 || !count || count > UINT32_MAX)
        return false;
    *from = 0;
    range->to = range->from + count;
    return range->from <= UINT32_MAX && find_owner(line, &range->owner);
}

static void read_ranges(const char *path, struct ranges *ranges)
{
    FILE *file = fopen(path, "re");
    char line[512];
    struct range range;
    while (file && ranges->count < RANGES_MOST && fgets(line, sizeof line, file)) {
        struct range *all = read_range(line, &range) ? realloc(ranges->all, (ranges->count + 1) * sizeof *all) : NULL;
        if (!all)
            continue;
        ranges->all = all;
        ranges->all[ranges->count++] = range;
    }
    if (file)
        fclose(file);
}

void accounts_begin(void)
{
    read_ranges("/etc/subuid", &users);
    read_ranges("/etc/subgid", &groups);
    log_event("%zu ranges of users and %zu of groups are somebody's", users.count, groups.count);
}

void accounts_end(void)
{
    free(users.all);
    free(groups.all);
    users = groups = (struct ranges){0};
}

static bool find_range(const struct ranges *ranges, uint64_t id, uint64_t *account)
{
    for (size_t i = 0; i < ranges->count; i++)
        if (ranges->all[i].from <= id && id < ranges->all[i].to) {
            *account = ranges->all[i].owner;
            return true;
        }
    return false;
}

/* Whether the user is somebody's, or counts for itself wherever it is. */
static bool is_owned(uid_t uid, gid_t gid, uint64_t *account)
{
    *account = uid;
    return user_is_own(uid) || find_range(&users, uid, account) || find_range(&groups, gid, account);
}

uint64_t account_of(uid_t uid, gid_t gid)
{
    uint64_t account;
    is_owned(uid, gid, &account);
    return account;
}

/* Where the path in systemd's own hierarchy begins, of one like `0::/user.slice/user-1000.slice/session-2.scope`; or NULL. */
static const char *path_in(const char *line)
{
    const char *named = strstr(line, ":name=systemd:");
    return named ? named + strlen(":name=systemd:") : !strncmp(line, "0::", 3) ? line + 3 : NULL;
}

/* How long the path is up to its last slice: what is below a service or scope is its own user's, who may call it as he likes. */
static size_t slices_in(const char *path)
{
    static const char ending[] = ".slice";
    size_t size = 0;
    for (;;) {
        size_t word = path[size] == '/' ? strcspn(path + size + 1, "/\n") : 0;
        if (word < sizeof ending || memcmp(path + size + 1 + word - (sizeof ending - 1), ending, sizeof ending - 1))
            return size;
        size += 1 + word;
    }
}

/* The account of a path that ends with a slice: a user's is that one's. */
static uint64_t account_at(const char *path, size_t size)
{
    uint32_t hash = 2166136261u, uid;
    int end = 0;
    char name[64];
    const char *slash = memrchr(path, '/', size);
    snprintf(name, sizeof name, "%.*s", (int)(path + size - slash), slash);
    if (sscanf(name, "/user-%u.slice%n", &uid, &end) == 1 && end && !name[end])
        return uid;
    for (size_t i = 0; i < size; i++)
        hash = (hash ^ (uint8_t)path[i]) * 16777619u;
    return OF_SLICE | hash;
}

uint64_t account_in(uid_t uid, gid_t gid, int folder)
{
    char text[4096], *rest = text;
    uint64_t account;
    int fd = is_owned(uid, gid, &account) ? -1 : openat(folder, "cgroup", O_RDONLY | O_CLOEXEC);
    ssize_t size = fd >= 0 ? read(fd, text, sizeof text - 1) : 0;
    if (fd >= 0)
        close(fd);
    text[size > 0 ? size : 0] = 0;
    for (const char *line; (line = strsep(&rest, "\n"));) {
        const char *path = path_in(line);
        size_t slices = path ? slices_in(path) : 0;
        if (slices)
            return account_at(path, slices);
    }
    return account;
}
