/* SPDX-License-Identifier: Apache-2.0 OR MIT */
/*
 * buffers: of the PTR and FDA objects of a parcel those are taken that Linux's driver takes, and a receiver finds the pointers in
 * its buffers that the objects tell of. All others are refused: nothing is put over anything else, or where no buffer is.
 */
#include "raw.h"

#include <fcntl.h>
#include <stdio.h>
#include <string.h>
#include <unistd.h>

#define PARENT 32
#define OBJECTS 4
#define HEAD 8

enum { GIVE = 1, POINT };

/* An object of a case: none, a buffer, a buffer pointed at by another, or an array of descriptors. */
struct shape {
    enum { NONE, BUFFER, CHILD, ARRAY } kind;
    uint32_t parent;
    uint64_t offset; /* in the parent, where the object's pointer or descriptors go */
    uint64_t size;   /* of a buffer; of an array: descriptors */
};

struct parcel_case {
    const char *what;
    bool is_good;
    struct shape shapes[OBJECTS];
    bool has_no_head; /* the first object stands at the front */
    uint64_t more;    /* room for buffers that none has */
};

static const struct parcel_case cases[] = {
    {"a child", true, {{BUFFER, 0, 0, PARENT}, {CHILD, 0, 8, 64}}, false, 0},
    {"two children, side by side", true, {{BUFFER, 0, 0, PARENT}, {CHILD, 0, 0, 64}, {CHILD, 0, 8, 1}}, false, 0},
    {"a child of a child, and another child", true, {{BUFFER, 0, 0, PARENT}, {CHILD, 0, 0, 16}, {CHILD, 1, 8, 5}, {CHILD, 0, 16, 9}}, false, 0},
    {"a child behind descriptors", true, {{BUFFER, 0, 0, PARENT}, {ARRAY, 0, 0, 2}, {CHILD, 0, 8, 3}}, false, 0},
    {"more room than there are buffers", true, {{BUFFER, 0, 0, PARENT}, {CHILD, 0, 4, 3}}, false, 64},
    {"two children at the same place", false, {{BUFFER, 0, 0, PARENT}, {CHILD, 0, 0, 64}, {CHILD, 0, 0, 1}}, false, 0},
    {"a child four bytes behind another", false, {{BUFFER, 0, 0, PARENT}, {CHILD, 0, 0, 64}, {CHILD, 0, 4, 1}}, false, 0},
    {"a child before another", false, {{BUFFER, 0, 0, PARENT}, {CHILD, 0, 8, 64}, {CHILD, 0, 0, 1}}, false, 0},
    {"descriptors over a pointer", false, {{BUFFER, 0, 0, PARENT}, {CHILD, 0, 0, 16}, {ARRAY, 0, 4, 2}}, false, 0},
    {"a pointer over descriptors", false, {{BUFFER, 0, 0, PARENT}, {ARRAY, 0, 0, 3}, {CHILD, 0, 8, 16}}, false, 0},
    {"a parent before the last buffer", false, {{BUFFER, 0, 0, PARENT}, {BUFFER, 0, 0, 16}, {CHILD, 0, 0, 8}}, false, 0},
    {"a parent beside the last child", false, {{BUFFER, 0, 0, PARENT}, {CHILD, 0, 0, 16}, {CHILD, 0, 8, 16}, {CHILD, 1, 0, 8}}, false, 0},
    {"a child past its parent's end", false, {{BUFFER, 0, 0, 12}, {CHILD, 0, 8, 16}}, false, 0},
    {"a child at no multiple of four", false, {{BUFFER, 0, 0, PARENT}, {CHILD, 0, 9, 16}}, false, 0},
    {"its own child", false, {{BUFFER, 0, 0, PARENT}, {CHILD, 1, 0, 16}}, false, 0},
    {"a child of what isn't there", false, {{BUFFER, 0, 0, PARENT}, {CHILD, 7, 0, 16}}, false, 0},
    {"a child of what stands at the front", false, {{BUFFER, 0, 0, PARENT}, {CHILD, 0, 0, 16}}, true, 0},
    {"room for buffers that isn't a multiple of eight", false, {{BUFFER, 0, 0, PARENT}}, false, 4},
};

static const struct parcel_case *wanted;

/* An object's place in the data. */
static size_t place_of(size_t index)
{
    return (wanted->has_no_head ? 0 : HEAD) + index * sizeof(struct binder_buffer_object);
}

static struct binder_buffer_object object_at(const struct binder_transaction_data *call, size_t index)
{
    struct binder_buffer_object object;
    memcpy(&object, (const uint8_t *)raw_data(call) + place_of(index), sizeof object);
    return object;
}

/* A child's pointer stands in its parent, and leads to what was sent. */
static void check_child(const struct binder_transaction_data *call, size_t index, const struct shape *shape)
{
    struct binder_buffer_object object = object_at(call, index), parent = object_at(call, shape->parent);
    uint64_t pointer;
    memcpy(&pointer, (const uint8_t *)(uintptr_t)parent.buffer + shape->offset, sizeof pointer);
    CHECK(pointer == object.buffer, "%s: the parent of object %zu has %llx, not %llx", wanted->what, index, (unsigned long long)pointer,
          (unsigned long long)object.buffer);
    CHECK(*(const uint8_t *)(uintptr_t)pointer == 'a' + index, "%s: another buffer than that of object %zu", wanted->what, index);
}

/* The reply's buffer stays, so that no parcel that comes lies at the front of the window. */
static void hold_front(struct looper *looper, uint32_t handle)
{
    struct binder_transaction_data reply;
    CHECK(raw_call(looper, (struct call){.handle = handle}, &reply) == BR_REPLY, "no reply");
}

static void serve(struct looper *looper, const struct binder_transaction_data *call)
{
    struct writer writer = {0};
    if (call->code == GIVE) {
        hold_front(looper, raw_keep(looper, call));
        write_own_object(&writer, 0x1000, 0x1000);
        struct binder_transaction_data answer = record_of(&writer);
        CHECK(looper_answer(looper, &answer, 0), "can't answer");
        writer_free(&writer);
        return;
    }
    wanted = &cases[call->code - POINT];
    CHECK(wanted->is_good, "%s: came", wanted->what);
    for (size_t i = 0; i < OBJECTS; i++)
        if (wanted->shapes[i].kind == CHILD)
            check_child(call, i, &wanted->shapes[i]);
    raw_answer(looper, NULL, 0);
}

/* The parcel of a case, as bytes of one size for each object. */
struct composed {
    uint8_t data[HEAD + OBJECTS * sizeof(struct binder_buffer_object)];
    uint8_t buffers[OBJECTS][64];
    binder_size_t offsets[OBJECTS];
    size_t count, room;
};

static void compose_array(struct composed *all, size_t index, const struct shape *shape, int descriptor)
{
    struct binder_fd_array_object array = {.hdr.type = BINDER_TYPE_FDA, .num_fds = shape->size, .parent = shape->parent,
                                           .parent_offset = shape->offset};
    for (size_t i = 0; i < shape->size; i++)
        memcpy(all->buffers[shape->parent] + shape->offset + i * sizeof descriptor, &descriptor, sizeof descriptor);
    memcpy(all->data + place_of(index), &array, sizeof array);
}

static void compose_buffer(struct composed *all, size_t index, const struct shape *shape)
{
    struct binder_buffer_object object = {.hdr.type = BINDER_TYPE_PTR, .flags = shape->kind == CHILD ? BINDER_BUFFER_FLAG_HAS_PARENT : 0,
                                          .buffer = (uintptr_t)all->buffers[index], .length = shape->size, .parent = shape->parent,
                                          .parent_offset = shape->offset};
    memcpy(all->data + place_of(index), &object, sizeof object);
    all->room += (shape->size + 7) / 8 * 8;
}

static void compose(struct composed *all, int descriptor)
{
    memset(all, 0, sizeof *all);
    for (size_t i = 0; i < OBJECTS; i++)
        memset(all->buffers[i], 'a' + (int)i, sizeof all->buffers[i]);
    for (; all->count < OBJECTS && wanted->shapes[all->count].kind; all->count++) {
        const struct shape *shape = &wanted->shapes[all->count];
        all->offsets[all->count] = place_of(all->count);
        if (shape->kind == ARRAY)
            compose_array(all, all->count, shape, descriptor);
        else
            compose_buffer(all, all->count, shape);
    }
}

static void play(struct client *client, uint32_t handle, uint32_t index, int descriptor)
{
    struct composed all;
    struct binder_transaction_data reply;
    wanted = &cases[index];
    compose(&all, descriptor);
    struct binder_transaction_data call = {
        .target.handle = handle, .code = POINT + index, .data_size = place_of(all.count), .offsets_size = 8 * all.count,
        .data.ptr = {.buffer = (uintptr_t)all.data, .offsets = (uintptr_t)all.offsets},
    };
    uint32_t ending = looper_call(&client->looper, &call, all.room + wanted->more, &reply);
    CHECK(ending == (wanted->is_good ? BR_REPLY : BR_FAILED_REPLY), "%s: ended as %x", wanted->what, ending);
    if (wanted->is_good)
        looper_free(&client->looper, &reply);
}

int main(void)
{
    struct client client;
    struct writer writer = {0};
    struct binder_transaction_data reply;
    uint32_t count = sizeof cases / sizeof *cases;
    int descriptor = open("/dev/null", O_RDONLY | O_CLOEXEC);
    raw_begin(30);
    pid_t manager = raw_start_manager(serve);
    raw_open(&client, WINDOW, NULL);
    write_own_object(&writer, 0x2000, 0x2000);
    CHECK(raw_call_with(&client.looper, (struct call){.code = GIVE}, &writer, &reply) == BR_REPLY, "no object came");
    uint32_t handle = raw_keep(&client.looper, &reply);
    looper_free(&client.looper, &reply);
    for (uint32_t i = 0; i < count; i++)
        play(&client, handle, i, descriptor);
    printf("%u parcels taken or refused as they should be\n", count);
    raw_kill(manager);
    return 0;
}
