/* SPDX-License-Identifier: Apache-2.0 OR MIT */
/* Modes of the client about what parcels carry: many bytes, too many, descriptors, and values of all kinds. */
#include "client.h"
#include "common.h"

#include <string.h>
#include <unistd.h>

static guint8 *filled(gsize size)
{
    guint8 *bytes = g_malloc(size + 1);
    for (gsize i = 0; i < size; i++)
        bytes[i] = (guint8)(i * 7 + i / 251);
    return bytes;
}

static GBinderLocalRequest *with_bytes(const guint8 *bytes, gsize size)
{
    GBinderWriter writer;
    GBinderLocalRequest *with = request();
    gbinder_local_request_init_writer(with, &writer);
    gbinder_writer_append_byte_array(&writer, bytes, (gint32)size);
    return with;
}

void play_big(void)
{
    gsize size = (gsize)numbers[0], come = 0;
    guint8 *bytes = filled(size);
    GBinderReader reader;
    for (int turn = 0; turn < 20; turn++) {
        usleep(50000); /* both give the buffers of the turn before back */
        echo("free them");
        GBinderRemoteReply *reply = answered(BYTES, with_bytes(bytes, size));
        gbinder_remote_reply_init_reader(reply, &reader);
        const void *back = gbinder_reader_read_byte_array(&reader, &come);
        NEED(back && come == size && !memcmp(back, bytes, size), "%zu bytes came back for %zu, or others", come, size);
        gbinder_remote_reply_unref(reply);
    }
    g_free(bytes);
    printf("%zu bytes came back the same\n", size);
}

void play_past(void)
{
    gsize size = (gsize)numbers[0];
    guint8 *bytes = filled(size);
    for (int turn = 0; turn < 5; turn++) {
        refused(BYTES, with_bytes(bytes, size));
        echo("and yet");
    }
    g_free(bytes);
    printf("%zu bytes were refused\n", size);
}

static void pass(long number)
{
    GBinderWriter writer;
    GBinderReader reader;
    GBinderLocalRequest *with = request();
    char *word = g_strdup_printf("pipe %ld", number), *expected = g_strconcat("read: ", word, NULL);
    int given = pipe_with(word);
    gbinder_local_request_init_writer(with, &writer);
    gbinder_writer_append_fd(&writer, given);
    close(given);
    GBinderRemoteReply *reply = answered(DESCRIPTOR, with);
    gbinder_remote_reply_init_reader(reply, &reader);
    char *back = word_from(gbinder_reader_read_dup_fd(&reader));
    NEED(!strcmp(back, expected), "\"%s\" was read for \"%s\"", back, expected);
    gbinder_remote_reply_unref(reply);
    g_free(back);
    g_free(expected);
    g_free(word);
}

/* libgbinder frees a reply's descriptors a little later, so the counts may still differ by what is under way. */
void play_descriptors(void)
{
    for (long i = 0; i < 100; i++)
        pass(i);
    int there = asked(OPEN_FILES, request()), here = open_files();
    for (long i = 0; i < numbers[0]; i++)
        pass(i);
    int there_now = asked(OPEN_FILES, request()), here_now = open_files();
    NEED(there_now <= there + 4 && here_now <= here + 4, "open: %d there and %d here, before %d and %d", there_now, here_now, there, here);
    printf("%ld descriptors there and back, open %d there and %d here\n", numbers[0], there_now, here_now);
}

void play_mixed(void)
{
    static const guint8 bytes[] = {0, 1, 254, 255, 7};
    GBinderLocalRequest *with = request();
    GBinderWriter writer;
    GBinderReader come;
    gsize size, size_back;
    gbinder_local_request_init_writer(with, &writer);
    gsize header = gbinder_writer_bytes_written(&writer);
    gbinder_writer_append_int32(&writer, 0x80000001);
    gbinder_writer_append_int64(&writer, G_MAXUINT64 - 5);
    gbinder_writer_append_double(&writer, -0.1);
    gbinder_writer_append_bool(&writer, TRUE);
    gbinder_writer_append_string8(&writer, "narrow");
    gbinder_writer_append_string16(&writer, "w\xc3\xaf" "de");
    gbinder_writer_append_byte_array(&writer, bytes, sizeof bytes);
    const guint8 *data = gbinder_writer_get_data(&writer, &size);
    guint8 *copy = g_memdup2(data + header, size - header);
    GBinderRemoteReply *reply = answered(MIXED, with);
    gbinder_remote_reply_init_reader(reply, &come);
    const void *back = gbinder_reader_get_data(&come, &size_back);
    NEED(size_back == size - header && !memcmp(back, copy, size_back), "other values came back");
    gbinder_remote_reply_unref(reply);
    g_free(copy);
    printf("%zu bytes of values came back the same\n", size_back);
}
