/* SPDX-License-Identifier: Apache-2.0 OR MIT */
/*
 * hanging: another user leaves files in the daemon whose closing never ends, as those of a file system that answers no FLUSH: twenty, and
 * then many that wait behind these. Others' descriptors are closed all the same. Only root can have such a file system here; without
 * /dev/fuse nothing is seen, which it says.
 */
#include "../raw/raw.h"
#include "hostile.h"

#include <errno.h>
#include <fcntl.h>
#include <linux/fuse.h>
#include <poll.h>
#include <sched.h>
#include <signal.h>
#include <stdio.h>
#include <stdlib.h>
#include <string.h>
#include <sys/mount.h>
#include <sys/prctl.h>
#include <sys/socket.h>
#include <sys/stat.h>
#include <unistd.h>

#define DEVICE "/dev/binder"
#define FILES 20
#define LOCAL 100
#define LOCAL_MS 10000
#define NOBODY 65534
#define SECONDS 100
#define ROOM (1 << 17)

enum { FILE_NODE = 2 };

static int device = -1;

static void answer(const struct fuse_in_header *in, int error, const void *bytes, size_t size)
{
    char out[1024];
    struct fuse_out_header header = {.len = (uint32_t)(sizeof header + size), .error = error, .unique = in->unique};
    memcpy(out, &header, sizeof header);
    if (size)
        memcpy(out + sizeof header, bytes, size);
    if (write(device, out, header.len) < 0)
        return; /* it was interrupted */
}

static struct fuse_attr attributes(uint64_t node)
{
    return (struct fuse_attr){.ino = node, .mode = node == FILE_NODE ? S_IFREG | 0666 : S_IFDIR | 0777, .nlink = 1};
}

/* A file system with one file, which answers whatever is needed to open that, and no FLUSH. */
static void serve_files(void)
{
    static char in[ROOM];
    while (read(device, in, sizeof in) > 0) {
        const struct fuse_in_header *header = (const void *)in;
        struct fuse_init_out init = {.major = FUSE_KERNEL_VERSION, .minor = FUSE_KERNEL_MINOR_VERSION, .max_write = 4096};
        struct fuse_entry_out entry = {.nodeid = FILE_NODE, .attr = attributes(FILE_NODE)};
        struct fuse_attr_out attribute = {.attr = attributes(header->nodeid)};
        struct fuse_open_out opened = {.fh = 1};
        switch (header->opcode) {
        case FUSE_INIT:
            answer(header, 0, &init, sizeof init);
            break;
        case FUSE_LOOKUP:
            answer(header, 0, &entry, sizeof entry);
            break;
        case FUSE_GETATTR:
            answer(header, 0, &attribute, sizeof attribute);
            break;
        case FUSE_OPEN:
            answer(header, 0, &opened, sizeof opened);
            break;
        case FUSE_FLUSH: /* never */
        case FUSE_RELEASE:
        case FUSE_FORGET:
        case FUSE_INTERRUPT:
            break;
        default:
            answer(header, -ENOSYS, NULL, 0);
        }
    }
}

/* Dies with who has started it, whatever user it is, and by itself. */
static void be_bounded(void)
{
    prctl(PR_SET_PDEATHSIG, SIGKILL);
    alarm(SECONDS);
}

/* Mounts it in a place of this process's own, and has a process serve it that has no file of it: with that one's end all that hangs ends.
   Its pid, or -1 where that can't be. */
static pid_t mount_files(const char *folder)
{
    char words[128];
    device = open("/dev/fuse", O_RDWR | O_CLOEXEC);
    snprintf(words, sizeof words, "fd=%d,rootmode=40000,user_id=0,group_id=0,allow_other", device);
    if (device < 0 || unshare(CLONE_NEWNS) || mount("none", "/", NULL, MS_REC | MS_PRIVATE, NULL)
        || mount("hanging", folder, "fuse", MS_NOSUID | MS_NODEV, words))
        return -1;
    pid_t server = fork();
    if (!server) {
        be_bounded();
        serve_files();
        _exit(0);
    }
    close(device);
    return server;
}

/* Leaves a descriptor in the daemon, which closes it. Nothing is closed here, since that would hang as well. */
static void leave(struct hostile *hostile, int descriptor)
{
    char byte = 0;
    CHECK(hostile_give(hostile->link, &byte, sizeof byte, descriptor), "can't send a descriptor");
}

static void attack(void *with)
{
    char path[300];
    struct hostile hostile;
    int file = -1;
    snprintf(path, sizeof path, "%s/file", (const char *)with);
    CHECK(!setgid(NOBODY) && !setuid(NOBODY), "can't be another user");
    CHECK(!prctl(PR_SET_DUMPABLE, 1), "can't be seen");
    be_bounded();
    for (int i = 0; i < FILES; i++) {
        CHECK(hostile_begin(&hostile, DEVICE), "no daemon");
        CHECK((file = open(path, O_RDONLY | O_CLOEXEC)) >= 0, "%s", path);
        leave(&hostile, file);
        hostile_end(&hostile);
    }
    raw_ready();
    for (;;)
        pause();
}

/* How long it takes in milliseconds until as many local sockets are closed that somebody else has left. */
static double closed_after(void)
{
    int ends[LOCAL], pair[2];
    struct hostile hostile;
    CHECK(hostile_begin(&hostile, DEVICE), "no daemon");
    for (int i = 0; i < LOCAL; i++) {
        CHECK(!socketpair(AF_UNIX, SOCK_STREAM, 0, pair), "no pair");
        ends[i] = pair[0];
        leave(&hostile, pair[1]);
        close(pair[1]);
    }
    hostile_end(&hostile);
    double start = raw_now();
    for (int i = 0; i < LOCAL; i++) {
        struct pollfd end = {.fd = ends[i]};
        double left = LOCAL_MS - (raw_now() - start) / 1e3;
        if (poll(&end, 1, left > 0 ? (int)left : 0) != 1)
            return -1;
    }
    return (raw_now() - start) / 1e3;
}

int main(void)
{
    char folder[] = "/tmp/hullpippin-hanging-XXXXXX";
    raw_begin(SECONDS);
    CHECK(mkdtemp(folder), "no folder");
    pid_t server = geteuid() ? -1 : mount_files(folder);
    if (server < 0) {
        rmdir(folder);
        puts("nothing was seen: only root can have such files here");
        return 0;
    }
    pid_t attacker = raw_start(attack, folder);
    usleep(2500000); /* as many threads close them as may */
    double took = closed_after();
    raw_kill(server);
    raw_kill(attacker);
    umount2(folder, MNT_DETACH);
    rmdir(folder);
    CHECK(took >= 0, "beside files of another user that hang not all of %d descriptors are closed after %d ms", LOCAL, LOCAL_MS);
    printf("beside %d files of another user that hang %d descriptors were closed after %.0f ms\n", FILES, LOCAL, took);
    return 0;
}
