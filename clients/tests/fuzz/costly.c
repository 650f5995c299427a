/* SPDX-License-Identifier: Apache-2.0 OR MIT */
/*
 * costly [control]: has what takes its time to be closed, though nothing is waited for: memory of which there is much, and sockets that
 * listen, with connections that nobody has accepted. Says `ready`, and a second later leaves all of it to the daemon, says `left`, and
 * waits. It leaves it in the link of a thread, or with `control` to who takes connections, in one for each that opens nothing.
 */
#include "../raw/raw.h"
#include "hostile.h"

#include <netinet/in.h>
#include <stdio.h>
#include <string.h>
#include <sys/mman.h>
#include <sys/resource.h>
#include <sys/socket.h>
#include <unistd.h>

#define DEVICE "/dev/binder"
#define BYTES ((size_t)400 << 20)
#define LISTENERS 6
#define CONNECTIONS 2500

static int much_memory(void)
{
    int fd = memfd_create("costly", MFD_CLOEXEC);
    CHECK(fd >= 0 && !ftruncate(fd, BYTES), "no memory");
    uint8_t *at = mmap(NULL, BYTES, PROT_READ | PROT_WRITE, MAP_SHARED, fd, 0);
    CHECK(at != MAP_FAILED, "no memory");
    for (size_t i = 0; i < BYTES; i += 4096)
        at[i] = 1;
    munmap(at, BYTES);
    return fd;
}

/* Its clients go on beside it until this program ends. */
static int listener_with_many(void)
{
    struct sockaddr_in address = {.sin_family = AF_INET, .sin_addr.s_addr = htonl(INADDR_LOOPBACK)};
    socklen_t size = sizeof address;
    int listener = socket(AF_INET, SOCK_STREAM, 0);
    CHECK(!bind(listener, (struct sockaddr *)&address, size) && !listen(listener, CONNECTIONS)
              && !getsockname(listener, (struct sockaddr *)&address, &size), "no listener");
    for (int i = 0; i < CONNECTIONS; i++) {
        int one = socket(AF_INET, SOCK_STREAM | SOCK_NONBLOCK, 0);
        CHECK(one >= 0, "no socket");
        if (connect(one, (struct sockaddr *)&address, size) && i % 64 == 0)
            usleep(1000);
    }
    return listener;
}

/* The daemon has it alone then. */
static void give(int socket, int fd)
{
    char byte = 0;
    CHECK(hostile_give(socket, &byte, sizeof byte, fd), "can't send a descriptor");
    close(fd);
}

static void leave_in_link(const int *all)
{
    static struct hostile hostile;
    CHECK(hostile_begin(&hostile, DEVICE), "no daemon");
    puts("ready");
    sleep(1);
    for (int i = 0; i <= LISTENERS; i++)
        give(hostile.link, all[i]);
    hostile_end(&hostile);
}

static void leave_in_connections(const int *all)
{
    static struct hostile hostile[LISTENERS + 1];
    puts("ready");
    sleep(1);
    for (int i = 0; i <= LISTENERS; i++) {
        CHECK(hostile_connect(&hostile[i]), "no daemon");
        give(hostile[i].control, all[i]);
    }
}

int main(int argc, char **argv)
{
    struct rlimit limit;
    int all[LISTENERS + 1];
    raw_begin(40);
    CHECK(!getrlimit(RLIMIT_NOFILE, &limit), "no limit");
    limit.rlim_cur = limit.rlim_max;
    CHECK(!setrlimit(RLIMIT_NOFILE, &limit), "no descriptors");
    all[0] = much_memory();
    for (int i = 1; i <= LISTENERS; i++)
        all[i] = listener_with_many();
    if (argc > 1 && !strcmp(argv[1], "control"))
        leave_in_connections(all);
    else
        leave_in_link(all);
    puts("left");
    pause();
    return 0;
}
