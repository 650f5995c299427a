/* SPDX-License-Identifier: Apache-2.0 OR MIT */
/*
 * paths: the device is found by all the ways in which programs look for a file, and is a character device to all of them; what isn't
 * there isn't there for any.
 */
#include "raw.h"

#include <errno.h>
#include <fcntl.h>
#include <stdio.h>
#include <string.h>
#include <sys/ioctl.h>
#include <sys/stat.h>
#include <sys/sysmacros.h>
#include <unistd.h>

#define NONE "/dev/nobinder"

static int folder;

static int by_open(const char *path)
{
    return open(path, O_RDWR | O_CLOEXEC);
}

static int by_openat(const char *path)
{
    return openat(folder, path + strlen("/dev/"), O_RDWR | O_CLOEXEC);
}

static int by_creat(const char *path)
{
    return creat(path, 0600);
}

static int by_fopen(const char *path)
{
    FILE *stream = fopen(path, "r+");
    return stream ? fileno(stream) : -1;
}

/* The same path, written otherwise. */
static int by_slashes(const char *path)
{
    char other[64];
    snprintf(other, sizeof other, "//dev//.%s", path + strlen("/dev"));
    return open(other, O_RDWR | O_CLOEXEC);
}

static int by_folder(const char *path)
{
    char here[4096];
    CHECK(getcwd(here, sizeof here) && !chdir("/dev/shm"), "no /dev/shm");
    char other[64];
    snprintf(other, sizeof other, "..%s", path + strlen("/dev"));
    int fd = open(other, O_RDWR | O_CLOEXEC);
    int error = errno;
    CHECK(!chdir(here), "can't go back");
    errno = error;
    return fd;
}

static void is_a_device(const struct stat *stat, const char *way)
{
    CHECK(S_ISCHR(stat->st_mode) && (stat->st_mode & 0666) == 0666 && major(stat->st_rdev), "%s tells of %o", way, stat->st_mode);
}

static void is_described(const char *path, int fd)
{
    struct stat by_path, by_link, by_file, by_folder_and_name;
    struct statx more;
    char target[16];
    CHECK(!stat(path, &by_path) && !lstat(path, &by_link) && !fstat(fd, &by_file)
              && !fstatat(folder, path + strlen("/dev/"), &by_folder_and_name, 0),
          "it isn't told of");
    is_a_device(&by_path, "stat");
    is_a_device(&by_link, "lstat");
    is_a_device(&by_file, "fstat");
    is_a_device(&by_folder_and_name, "fstatat");
    CHECK(by_path.st_rdev == by_file.st_rdev && by_path.st_ino == by_file.st_ino && by_path.st_dev == by_file.st_dev,
          "stat and fstat tell of two files");
    CHECK(!statx(AT_FDCWD, path, 0, STATX_BASIC_STATS, &more) && S_ISCHR(more.stx_mode), "statx");
    CHECK(!statx(fd, "", AT_EMPTY_PATH, STATX_BASIC_STATS, &more) && S_ISCHR(more.stx_mode), "statx of the file");
    CHECK(!access(path, F_OK) && !access(path, R_OK | W_OK) && !faccessat(folder, path + strlen("/dev/"), W_OK, AT_EACCESS), "access");
    CHECK(access(path, X_OK) && errno == EACCES, "it can be run");
    CHECK(readlink(path, target, sizeof target) == -1 && errno == EINVAL, "readlink");
    CHECK(open(path, O_RDWR | O_CREAT | O_EXCL, 0600) == -1 && errno == EEXIST, "it can be made");
    CHECK(open(path, O_RDONLY | O_DIRECTORY) == -1 && errno == ENOTDIR, "it is a folder");
}

int main(void)
{
    static const struct {
        int (*open)(const char *path);
        const char *name;
    } ways[] = {{by_open, "open"}, {by_openat, "openat"}, {by_creat, "creat"}, {by_fopen, "fopen"}, {by_slashes, "slashes"},
                {by_folder, "a folder"}};
    struct stat none;
    raw_begin(10);
    folder = open("/dev", O_RDONLY | O_DIRECTORY | O_CLOEXEC);
    for (size_t i = 0; i < sizeof ways / sizeof *ways; i++) {
        struct binder_version version = {0};
        int fd = ways[i].open(raw_device());
        CHECK(fd >= 0 && !ioctl(fd, BINDER_VERSION, &version) && version.protocol_version, "by %s there is no device", ways[i].name);
        is_described(raw_device(), fd);
        close(fd);
        fd = i == 2 ? -1 : ways[i].open(NONE);
        CHECK(fd < 0 && (i == 2 || errno == ENOENT), "by %s there is a device that isn't there", ways[i].name);
    }
    CHECK(stat(NONE, &none) && errno == ENOENT && access(NONE, F_OK) && errno == ENOENT, "what isn't there is told of");
    CHECK(readlink(NONE, (char[8]){0}, 8) == -1 && errno == ENOENT, "readlink of what isn't there");
    printf("found in %zu ways, and told of as a character device\n", sizeof ways / sizeof *ways);
    return 0;
}
