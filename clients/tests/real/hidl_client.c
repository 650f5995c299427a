/* SPDX-License-Identifier: Apache-2.0 OR MIT */
/* hidl_client: calls hidl_service in each of its ways; strings and vectors go as scatter-gather buffers that point
   at one another. Prints a line, or says what is wrong and ends with 1. */
#include "codes.h"

#include <string.h>
#include <unistd.h>

static GBinderClient *client;

/* Calls, and begins to read the answer behind its status. */
static GBinderRemoteReply *answered(guint code, GBinderLocalRequest *request, GBinderReader *reader)
{
    gint32 said = -1;
    int status = 0;
    GBinderRemoteReply *reply = gbinder_client_transact_sync_reply(client, code, request, &status);
    NEED(reply && status == GBINDER_STATUS_OK, "call %u ended with status %d", code, status);
    gbinder_remote_reply_init_reader(reply, reader);
    NEED(gbinder_reader_read_int32(reader, &said) && said == GBINDER_STATUS_OK, "call %u was answered by %d", code, said);
    gbinder_local_request_unref(request);
    return reply;
}

static void say(const char *word)
{
    GBinderReader reader;
    GBinderLocalRequest *request = gbinder_client_new_request(client);
    gbinder_local_request_append_hidl_string(request, word);
    GBinderRemoteReply *reply = answered(1, request, &reader);
    char *expected = g_strdup_printf("you said %s", word);
    const char *come = gbinder_reader_read_hidl_string_c(&reader);
    NEED(come && !strcmp(come, expected), "\"%s\" came for \"%s\"", come ? come : "nothing", expected);
    g_free(expected);
    gbinder_remote_reply_unref(reply);
}

/* A vector of so many strings: three levels of buffers. */
static void list(int count)
{
    GBinderReader reader;
    GBinderWriter writer;
    char **words = g_new0(char *, count + 1);
    for (int i = 0; i < count; i++)
        words[i] = g_strdup_printf("word %d%*s", i, i % 17, "");
    GBinderLocalRequest *request = gbinder_client_new_request(client);
    gbinder_local_request_init_writer(request, &writer);
    gbinder_writer_append_hidl_string_vec(&writer, (const char **)words, count);
    GBinderRemoteReply *reply = answered(2, request, &reader);
    char **come = gbinder_reader_read_hidl_string_vec(&reader);
    NEED(come && g_strv_equal((const char *const *)come, (const char *const *)words), "other words than those %d came", count);
    g_strfreev(come);
    g_strfreev(words);
    gbinder_remote_reply_unref(reply);
}

static void count_oneway(gint32 calls)
{
    gint32 counted = 0;
    for (gint32 i = 0; i < calls; i++) {
        GBinderLocalRequest *request = gbinder_client_new_request(client);
        NEED(gbinder_client_transact_sync_oneway(client, 3, request) == GBINDER_STATUS_OK, "one-way call %d", i);
        gbinder_local_request_unref(request);
    }
    for (int turn = 0; turn < 500 && counted < calls; turn++, usleep(10000)) {
        GBinderReader reader;
        GBinderRemoteReply *reply = answered(4, gbinder_client_new_request(client), &reader);
        gbinder_reader_read_int32(&reader, &counted);
        gbinder_remote_reply_unref(reply);
    }
    NEED(counted == calls, "%d of %d one-way calls came", counted, calls);
}

int main(void)
{
    int status = 0;
    GBinderServiceManager *manager = gbinder_servicemanager_new("/dev/hwbinder");
    NEED(manager && gbinder_servicemanager_wait(manager, 5000), "no context manager");
    GBinderRemoteObject *service = gbinder_servicemanager_get_service_sync(manager, "hullpippin.test@1.0::IEcho/default", &status);
    NEED(service, "no service: %d", status);
    client = gbinder_client_new(service, "hullpippin.test@1.0::IEcho");
    for (int turn = 0; turn < 100; turn++) {
        say("hello");
        say("");
        list(turn);
    }
    count_oneway(100);
    printf("strings, vectors of up to 99, one-way calls\n");
    return 0;
}
