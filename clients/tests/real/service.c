/* SPDX-License-Identifier: Apache-2.0 OR MIT */
/*
 * service NAME [COUNT [DEVICE [PROTOCOL]]]: registers a test service by libgbinder, or with a COUNT so many, as
 * NAME0, NAME1 and so on, and serves until it is killed. Prints `ready` then, and `dead` for each object whose end it
 * hears of.
 */
#include "codes.h"
#include "common.h"

#include <unistd.h>

static guint counted;
static GSList *kept;

static void died(GBinderRemoteObject *object, void *with)
{
    (void)with;
    kept = g_slist_remove(kept, object);
    gbinder_remote_object_unref(object);
    printf("dead\n");
}

static gint32 called_back(GBinderReader *reader)
{
    gint32 answer = -1;
    int status;
    GBinderRemoteObject *object = gbinder_reader_read_object(reader);
    if (!object)
        return answer;
    GBinderClient *client = gbinder_client_new(object, CALLBACK_INTERFACE);
    GBinderLocalRequest *request = gbinder_client_new_request(client);
    gbinder_local_request_append_int32(request, 41);
    GBinderRemoteReply *reply = gbinder_client_transact_sync_reply(client, GBINDER_FIRST_CALL_TRANSACTION, request, &status);
    if (reply)
        gbinder_remote_reply_read_int32(reply, &answer);
    gbinder_remote_reply_unref(reply);
    gbinder_local_request_unref(request);
    gbinder_client_unref(client);
    gbinder_remote_object_unref(object);
    return answer;
}

static gint32 keep(GBinderReader *reader)
{
    GBinderRemoteObject *object = gbinder_reader_read_object(reader);
    if (!object)
        return -1;
    kept = g_slist_prepend(kept, object);
    gbinder_remote_object_add_death_handler(object, died, NULL);
    return 0;
}

static void pass(GBinderReader *reader, GBinderWriter *writer)
{
    char *word = word_from(gbinder_reader_read_dup_fd(reader));
    char *answer = g_strconcat("read: ", word, NULL);
    int back = pipe_with(answer);
    gbinder_writer_append_fd(writer, back);
    close(back);
    g_free(answer);
    g_free(word);
}

/* Each value is read and written again, so that one that came wrong goes back wrong. */
static void mix(GBinderReader *reader, GBinderWriter *writer)
{
    gint32 number = 0;
    gint64 long_number = 0;
    gdouble real = 0;
    gboolean truth = FALSE;
    gsize size = 0;
    gbinder_reader_read_int32(reader, &number);
    gbinder_reader_read_int64(reader, &long_number);
    gbinder_reader_read_double(reader, &real);
    gbinder_reader_read_bool(reader, &truth);
    const char *narrow = gbinder_reader_read_string8(reader);
    char *wide = gbinder_reader_read_string16(reader);
    const void *bytes = gbinder_reader_read_byte_array(reader, &size);
    gbinder_writer_append_int32(writer, number);
    gbinder_writer_append_int64(writer, long_number);
    gbinder_writer_append_double(writer, real);
    gbinder_writer_append_bool(writer, truth);
    gbinder_writer_append_string8(writer, narrow);
    gbinder_writer_append_string16(writer, wide);
    gbinder_writer_append_byte_array(writer, bytes, (gint32)size);
    g_free(wide);
}

static void answer(guint code, GBinderReader *reader, GBinderWriter *writer)
{
    gsize size = 0;
    char *word;
    switch (code) {
    case ECHO:
        word = gbinder_reader_read_string16(reader);
        gbinder_writer_append_string16(writer, word);
        g_free(word);
        break;
    case TELL_COUNT:
        gbinder_writer_append_int32(writer, counted);
        break;
    case CALL_BACK:
        gbinder_writer_append_int32(writer, (guint32)called_back(reader));
        break;
    case KEEP:
        gbinder_writer_append_int32(writer, (guint32)keep(reader));
        break;
    case BYTES: {
        const void *bytes = gbinder_reader_read_byte_array(reader, &size);
        gbinder_writer_append_byte_array(writer, bytes, (gint32)size);
        break;
    }
    case DESCRIPTOR:
        pass(reader, writer);
        break;
    case OPEN_FILES:
        gbinder_writer_append_int32(writer, (guint32)open_files());
        break;
    case MIXED:
        mix(reader, writer);
        break;
    }
}

static GBinderLocalReply *serve(GBinderLocalObject *object, GBinderRemoteRequest *request, guint code, guint flags, int *status,
                                void *with)
{
    (void)with;
    *status = code <= MIXED ? GBINDER_STATUS_OK : GBINDER_STATUS_FAILED;
    if (flags & GBINDER_TX_FLAG_ONEWAY) {
        counted += code == COUNT;
        return NULL;
    }
    return reply_of(answer, object, request, code);
}

int main(int argc, char **argv)
{
    const char *device = argc > 3 ? argv[3] : "/dev/binder", *protocol = argc > 4 ? argv[4] : NULL;
    int count = argc > 2 ? atoi(argv[2]) : 0;
    setvbuf(stdout, NULL, _IOLBF, 0);
    NEED(argc > 1, "usage: service NAME [COUNT [DEVICE [PROTOCOL]]]");
    GBinderServiceManager *manager = gbinder_servicemanager_new2(device, protocol, protocol);
    NEED(manager, "no device %s", device);
    for (int i = 0; i < (count ? count : 1); i++) {
        char *name = count ? g_strdup_printf("%s%d", argv[1], i) : g_strdup(argv[1]);
        add_service(manager, name, INTERFACE, serve);
        g_free(name);
    }
    printf("ready\n");
    g_main_loop_run(g_main_loop_new(NULL, FALSE));
    return 0;
}
