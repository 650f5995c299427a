/* SPDX-License-Identifier: Apache-2.0 OR MIT */
/*
 * follow DEVICE FILE [STEPS]: looks at the latest steps of a device until there were so many more (1), and appends each that it has found
 * whole to FILE. Tells how many these were, how many were written over before, and how many while they were copied; and, of those that are
 * tried again and again where that is likely, how often a copy was found spoiled. Where the daemon doesn't let it, it tells the error and ends with 2.
 */
#include "../../address.h"
#include "../../packets.h"
#include "../../protocol.h"
#include "../../ring.h"

#include <fcntl.h>
#include <sys/mman.h>

/* How often the next slot is tried between two looks at what there is. */
#define TRIES 32

void descriptors_close(int *fds, uint32_t count)
{
    for (uint32_t i = 0; i < count; i++)
        close(fds[i]);
}

/* Prints why, and ends. */
static void end(const char *what, int error, int status)
{
    printf("%s: %s\n", what, strerrorname_np(error));
    exit(status);
}

static int dial(void)
{
    struct sockaddr_un address;
    int fd = daemon_dial(NULL, 0, &address);
    if (fd < 0)
        end("the daemon", errno, 1);
    return fd;
}

/* The memory with the steps; nobody can write there, by whatever way. */
static const struct ring_heading *open_ring(const char *device)
{
    struct control_request request = {.version = PROTOCOL_VERSION, .op = CONTROL_RING};
    struct control_answer answer;
    uint32_t count;
    int memory, control = dial();
    snprintf(request.device, sizeof request.device, "%s", device);
    if (!packet_send(control, &request, sizeof request, NULL, 0, 0) || packet_receive(control, &answer, sizeof answer, &memory, 1, &count, 0) != 1)
        end("no answer", errno, 1);
    if (answer.error || !count)
        end("no steps", answer.error, 2);
    if (mmap(NULL, answer.size, PROT_READ | PROT_WRITE, MAP_SHARED, memory, 0) != MAP_FAILED || ftruncate(memory, 0) == 0
        || pwrite(memory, "", 1, 0) == 1)
        end("the daemon's memory can be changed", 0, 1);
    void *at = mmap(NULL, answer.size, PROT_READ, MAP_SHARED, memory, 0);
    if (at == MAP_FAILED || (mprotect(at, answer.size, PROT_READ | PROT_WRITE) == 0))
        end("the daemon's memory", errno, 1);
    return at;
}

struct found {
    uint64_t whole, lost, torn, spoiled;
};

static void keep(const struct ring_slot *slot, FILE *file, struct found *found)
{
    found->whole++;
    if (fwrite(slot, sizeof *slot, 1, file) != 1)
        end("a step can't be written", errno, 1);
}

static void copy_step(const struct ring_heading *ring, uint64_t place, FILE *file, struct found *found)
{
    struct ring_slot slot;
    if (ring_copy(ring, place, &slot) == 1)
        keep(&slot, file, found);
    else
        found->torn++;
}

/* Copies a step again and again while it is likely that the copy is spoiled. Of those that are called whole the first of a step is kept
   that is to come, and of the oldest the last: `tried` has it until there is another step's. */
static void try_step(const struct ring_heading *ring, uint64_t place, bool is_to_come, struct ring_slot *tried, FILE *file,
                     struct found *found)
{
    struct ring_slot slot;
    for (int i = 0; i < TRIES; i++) {
        int copied = ring_copy(ring, place, &slot);
        bool is_another = copied == 1 && tried->sequence != slot.sequence;
        found->spoiled += copied < 0;
        if (is_another && tried->sequence)
            keep(tried, file, found);
        if (is_another || (copied == 1 && !is_to_come))
            *tried = slot;
    }
}

/* Copies the steps from one on, up to the latest one that is there; which comes next. Then it tries the slot that is written next, both
   as the oldest step and as the one to come. */
static uint64_t copy_steps(const struct ring_heading *ring, uint64_t next, FILE *file, struct found *found)
{
    static struct ring_slot oldest, newest;
    uint64_t count = __atomic_load_n(&ring->count, __ATOMIC_ACQUIRE);
    if (count - next > ring->slot_count) {
        found->lost += count - next - ring->slot_count;
        next = count - ring->slot_count;
    }
    for (; next < count; next++)
        copy_step(ring, next, file, found);
    if (count >= ring->slot_count)
        try_step(ring, count - ring->slot_count, false, &oldest, file, found);
    try_step(ring, count, true, &newest, file, found);
    return next;
}

int main(int argc, char **argv)
{
    if (argc < 3)
        end("usage: follow DEVICE FILE [STEPS]", EINVAL, 1);
    const struct ring_heading *ring = open_ring(argv[1]);
    uint64_t next = 0, last = ring->count + (argc > 3 ? strtoul(argv[3], NULL, 10) : 1);
    struct found found = {0};
    FILE *file = fopen(argv[2], "we");
    if (!file || memcmp(ring->magic, RING_MAGIC, sizeof ring->magic) || ring->slot_size != sizeof(struct ring_slot))
        end("what is read or written", errno, 1);
    alarm(60);
    printf("ready\n");
    fflush(stdout);
    while (next < last && !__atomic_load_n(&ring->is_over, __ATOMIC_ACQUIRE))
        next = copy_steps(ring, next, file, &found);
    if (fwrite(ring, sizeof *ring, 1, file) != 1 || fclose(file))
        end("the heading can't be written", errno, 1);
    printf("whole %llu lost %llu torn %llu spoiled %llu\n", (unsigned long long)found.whole, (unsigned long long)found.lost,
           (unsigned long long)found.torn, (unsigned long long)found.spoiled);
    return 0;
}
