/* SPDX-License-Identifier: Apache-2.0 OR MIT */
/* hidl_service: a HIDL service by libgbinder, hullpippin.test@1.0::IEcho/default on /dev/hwbinder. Code 1 answers
   a string by a string, 2 a vector of strings by the same, 3 counts one-way calls, 4 tells the count. Prints
   `ready`. */
#include "codes.h"
#include "common.h"

static guint counted;

static void answer(guint code, GBinderReader *reader, GBinderWriter *writer)
{
    gbinder_writer_append_int32(writer, GBINDER_STATUS_OK);
    if (code == 1) {
        const char *word = gbinder_reader_read_hidl_string_c(reader);
        char *said = g_strdup_printf("you said %s", word ? word : "nothing");
        gbinder_writer_add_cleanup(writer, g_free, said);
        gbinder_writer_append_hidl_string(writer, said);
    } else if (code == 2) {
        char **words = gbinder_reader_read_hidl_string_vec(reader);
        gbinder_writer_add_cleanup(writer, (GDestroyNotify)g_strfreev, words);
        gbinder_writer_append_hidl_string_vec(writer, (const char **)words, -1);
    } else {
        gbinder_writer_append_int32(writer, counted);
    }
}

static GBinderLocalReply *serve(GBinderLocalObject *object, GBinderRemoteRequest *request, guint code, guint flags, int *status,
                                void *with)
{
    (void)with;
    *status = GBINDER_STATUS_OK;
    if (flags & GBINDER_TX_FLAG_ONEWAY) {
        counted += code == 3;
        return NULL;
    }
    return reply_of(answer, object, request, code);
}

int main(void)
{
    setvbuf(stdout, NULL, _IOLBF, 0);
    GBinderServiceManager *manager = gbinder_servicemanager_new("/dev/hwbinder");
    NEED(manager, "no device");
    add_service(manager, "default", "hullpippin.test@1.0::IEcho", serve);
    printf("ready\n");
    g_main_loop_run(g_main_loop_new(NULL, FALSE));
    return 0;
}
