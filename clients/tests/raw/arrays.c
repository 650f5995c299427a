/* SPDX-License-Identifier: Apache-2.0 OR MIT */
/*
 * arrays [TIMES]: two descriptors of an FDA object, and one of an FD object, go to the server, which sends them back, as often
 * as asked. Those of the FDA object are open until their receiver gives the buffer back, and closed then, by their numbers:
 * also where that is written along with the reply that sends them on, and with a read that waits. The other is the receiver's
 * own. What came with a buffer that is never given back goes with the file, but not by a child that closes its parent's. (That last
 * is the library's: Linux's driver leaves them open then.)
 */
#include "raw.h"

#include <errno.h>
#include <fcntl.h>
#include <poll.h>
#include <stdio.h>
#include <stdlib.h>
#include <string.h>
#include <sys/ioctl.h>
#include <unistd.h>


enum { GIVE = 1, PASS };

/* The descriptors of a parcel: two in an array, and one alone. */
struct three {
    uint32_t array[2];
    int alone;
};

/* Nothing can be put into a buffer whose object stands at the very front. */
static void write_three(struct writer *writer, const struct three *three)
{
    write_number(writer, 3);
    int buffer = write_buffer(writer, three->array, sizeof three->array, -1, 0);
    write_descriptors(writer, 2, buffer, 0);
    write_descriptor(writer, three->alone);
}

static struct three received(const struct binder_transaction_data *record)
{
    struct {
        uint32_t count;
        struct binder_buffer_object buffer;
        struct binder_fd_array_object array;
        struct binder_fd_object alone;
    } __attribute__((packed)) parcel;
    struct three three;
    CHECK(record->data_size == sizeof parcel, "%llu bytes in place of descriptors", (unsigned long long)record->data_size);
    memcpy(&parcel, raw_data(record), sizeof parcel);
    CHECK(parcel.array.hdr.type == BINDER_TYPE_FDA && parcel.count == 3 && parcel.array.num_fds == 2, "no two descriptors in an array");
    memcpy(three.array, (const void *)(uintptr_t)parcel.buffer.buffer, sizeof three.array);
    three.alone = (int)parcel.alone.fd;
    return three;
}

/* The answer is left to go out with what gives the call's buffer back, and with the next read. */
static void serve(struct looper *looper, const struct binder_transaction_data *call)
{
    static struct writer writer;
    static struct three three = {.alone = -1};
    if (three.alone >= 0)
        close(three.alone);
    writer_free(&writer);
    three.alone = -1;
    if (call->code == GIVE) {
        write_own_object(&writer, 0x1000, 0x1000);
    } else {
        three = received(call);
        CHECK(write(three.alone, "r", 1) == 1 && write((int)three.array[0], "r", 1) == 1 && write((int)three.array[1], "r", 1) == 1,
              "descriptors %u, %u and %d aren't open", three.array[0], three.array[1], three.alone);
        write_three(&writer, &three);
    }
    struct binder_transaction_data answer = record_of(&writer);
    put_record_sg(&looper->commands, BC_REPLY_SG, &answer, writer.buffers);
    looper->answers++;
}

static bool is_open(uint32_t fd)
{
    return fcntl((int)fd, F_GETFD) >= 0;
}

/* Opens the device; the server's object, which takes descriptors as the manager's own doesn't. */
static uint32_t begin(struct client *client)
{
    struct binder_transaction_data reply;
    raw_open(client, WINDOW, NULL);
    CHECK(raw_call(&client->looper, (struct call){.code = GIVE}, &reply) == BR_REPLY, "no object came");
    uint32_t handle = raw_keep(&client->looper, &reply);
    looper_free(&client->looper, &reply);
    return handle;
}

/* Sends the writing ends of three pipes, and tells what came back; the reading ends stay here. */
static struct three pass(struct client *client, uint32_t handle, int reading[3], struct binder_transaction_data *reply)
{
    struct writer writer = {0};
    int ends[3][2];
    for (int i = 0; i < 3; i++) {
        CHECK(!pipe2(ends[i], O_CLOEXEC), "no pipe");
        reading[i] = ends[i][0];
    }
    const struct three three = {{(uint32_t)ends[0][1], (uint32_t)ends[1][1]}, ends[2][1]};
    write_three(&writer, &three);
    CHECK(raw_call_with(&client->looper, (struct call){.handle = handle, .code = PASS}, &writer, reply) == BR_REPLY, "nothing came back");
    for (int i = 0; i < 3; i++) {
        char byte;
        close(ends[i][1]);
        CHECK(read(reading[i], &byte, 1) == 1, "nothing was written to descriptor %d of the three", i);
    }
    struct three back = received(reply);
    CHECK(is_open(back.array[0]) && is_open(back.array[1]) && is_open((uint32_t)back.alone), "what came back isn't open");
    return back;
}

/* Nobody has the writing end any more, or will have it soon. */
static bool is_over(int reading)
{
    struct pollfd file = {.fd = reading, .events = POLLIN};
    return poll(&file, 1, RAW_PATIENCE) == 1 && file.revents == POLLHUP;
}

static void pass_and_free(struct client *client, uint32_t handle)
{
    struct binder_transaction_data reply;
    int reading[3];
    struct three back = pass(client, handle, reading, &reply);
    CHECK(dup2(back.alone, (int)back.array[1]) >= 0, "no copy"); /* another's number from here on */
    looper_free(&client->looper, &reply);
    CHECK(is_open(back.array[0]) && is_open(back.array[1]), "closed before the buffer is given back");
    CHECK(looper_flush(&client->looper), "can't write");
    CHECK(!is_open(back.array[0]) && !is_open(back.array[1]), "open after the buffer was given back");
    CHECK(!close(back.alone), "an FD object's descriptor was closed");
    CHECK(is_over(reading[0]) && is_over(reading[1]), "the server has them open, though it has given the buffer back");
    for (int i = 0; i < 3; i++)
        close(reading[i]);
}

/* What follows a command that is cut short is no command, though it looks as if it gave the buffer back. (Linux's driver takes the
   rest of the first one from it.) */
static void give_back_in_vain(struct client *client, uint32_t handle)
{
    struct binder_transaction_data reply;
    int reading[3];
    struct three back = pass(client, handle, reading, &reply);
    const struct {
        uint32_t cut, free;
        binder_uintptr_t buffer;
    } __attribute__((packed)) stream = {BC_TRANSACTION_SG, BC_FREE_BUFFER, reply.data.ptr.buffer};
    struct binder_write_read both = {.write_size = sizeof stream, .write_buffer = (uintptr_t)&stream};
    CHECK(ioctl(client->binder.fd, BINDER_WRITE_READ, &both) && errno == EINVAL, "a command that is cut short was taken");
    CHECK(is_open(back.array[0]) && is_open(back.array[1]), "closed by what follows a command that is cut short");
    looper_free(&client->looper, &reply);
    CHECK(looper_flush(&client->looper) && !close(back.alone), "can't give it back");
    for (int i = 0; i < 3; i++)
        close(reading[i]);
}

/* In a child: what is closed there is none of its parent's. */
struct parents {
    struct client client;
    struct three three;
};

static void be_a_child(void *with)
{
    struct parents *parents = with;
    raw_ready();
    close(parents->client.binder.fd);
    CHECK(is_open(parents->three.array[0]) && is_open(parents->three.array[1]), "a child has closed what its parent got");
}

static void goes_with_the_file(void)
{
    struct parents parents;
    struct binder_transaction_data reply;
    int reading[3];
    uint32_t handle = begin(&parents.client);
    parents.three = pass(&parents.client, handle, reading, &reply);
    raw_join(raw_start(be_a_child, &parents));
    binder_close(&parents.client.binder);
    CHECK(!is_open(parents.three.array[0]) && !is_open(parents.three.array[1]), "open after the file was closed");
    CHECK(!close(parents.three.alone), "an FD object's descriptor was closed with the file");
    for (int i = 0; i < 3; i++)
        close(reading[i]);
}

int main(int argc, char **argv)
{
    uint32_t times = argc > 1 ? (uint32_t)atoi(argv[1]) : 1000;
    struct client client;
    raw_begin(60);
    pid_t manager = raw_start_manager(serve);
    uint32_t handle = begin(&client);
    pass_and_free(&client, handle);
    size_t here = raw_descriptors(getpid()), there = raw_descriptors(manager);
    for (uint32_t i = 0; i < times; i++)
        pass_and_free(&client, handle);
    CHECK(raw_descriptors(getpid()) == here, "the client has %zu descriptors after %zu", raw_descriptors(getpid()), here);
    CHECK(raw_descriptors(manager) == there, "the server has %zu descriptors after %zu", raw_descriptors(manager), there);
    give_back_in_vain(&client, handle);
    goes_with_the_file();
    printf("%u times there and back, %zu open here, %zu there\n", times, here, there);
    raw_kill(manager);
    return 0;
}
