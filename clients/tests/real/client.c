/* SPDX-License-Identifier: Apache-2.0 OR MIT */
/*
 * client NAME MODE [NUMBER [NUMBER]]: a client by libgbinder of the service in service.c; the modes stand in the
 * table at the end. Prints a line, or says what is wrong and ends with 1. DEVICE and PROTOCOL in the environment say
 * how to get there.
 */
#include "client.h"

#include <string.h>
#include <unistd.h>

static GBinderServiceManager *manager;
static GBinderRemoteObject *service;
static GBinderClient *client;
static GMainLoop *loop;
long numbers[2];

GBinderLocalRequest *request(void)
{
    return gbinder_client_new_request(client);
}

GBinderRemoteReply *answered(guint code, GBinderLocalRequest *with)
{
    int status = 0;
    GBinderRemoteReply *reply = gbinder_client_transact_sync_reply(client, code, with, &status);
    NEED(reply && status == GBINDER_STATUS_OK, "call %u ended with status %d", code, status);
    gbinder_local_request_unref(with);
    return reply;
}

void refused(guint code, GBinderLocalRequest *with)
{
    int status = 0;
    GBinderRemoteReply *reply = gbinder_client_transact_sync_reply(client, code, with, &status);
    NEED(!reply, "call %u was answered, where it had to be refused", code);
    gbinder_local_request_unref(with);
}

gint32 asked(guint code, GBinderLocalRequest *with)
{
    gint32 number = -1;
    GBinderRemoteReply *reply = answered(code, with);
    NEED(gbinder_remote_reply_read_int32(reply, &number), "call %u was answered by no number", code);
    gbinder_remote_reply_unref(reply);
    return number;
}

void echo(const char *word)
{
    GBinderLocalRequest *with = request();
    gbinder_local_request_append_string16(with, word);
    GBinderRemoteReply *reply = answered(ECHO, with);
    char *back = gbinder_remote_reply_read_string16(reply);
    NEED(back && !strcmp(back, word), "\"%s\" came back for \"%s\"", back ? back : "nothing", word);
    g_free(back);
    gbinder_remote_reply_unref(reply);
}

static void play_call(void)
{
    echo("hello, binder");
    echo("");
    echo("gr\xc3\xbc\xc3\x9f dich");
    printf("the same came back\n");
}

static int compared(const void *one, const void *other)
{
    gint64 difference = *(const gint64 *)one - *(const gint64 *)other;
    return (difference > 0) - (difference < 0);
}

static void play_time(void)
{
    long calls = numbers[0];
    gint64 *times = g_new0(gint64, calls);
    for (long i = -50; i < calls; i++) {
        gint64 start = g_get_monotonic_time();
        echo("hello");
        if (i >= 0)
            times[i] = g_get_monotonic_time() - start;
    }
    qsort(times, calls, sizeof *times, compared);
    printf("median %ld tenth %ld last %ld\n", (long)times[calls / 2], (long)times[calls / 10], (long)times[calls * 99 / 100]);
    g_free(times);
}

static void play_oneway(void)
{
    gint32 before = asked(TELL_COUNT, request()), now = before;
    for (long i = 0; i < numbers[0]; i++) {
        GBinderLocalRequest *with = request();
        int status = gbinder_client_transact_sync_oneway(client, COUNT, with);
        NEED(status == GBINDER_STATUS_OK, "one-way call %ld ended with status %d", i, status);
        gbinder_local_request_unref(with);
    }
    for (int turn = 0; turn < 500 && now - before < numbers[0]; turn++, usleep(10000))
        now = asked(TELL_COUNT, request());
    NEED(now - before == numbers[0], "%d of %ld one-way calls came", now - before, numbers[0]);
    printf("%ld one-way calls came\n", numbers[0]);
}

static GBinderLocalReply *on_call_back(GBinderLocalObject *object, GBinderRemoteRequest *call, guint code, guint flags,
                                       int *status, void *with)
{
    gint32 number = 0;
    (void)code, (void)flags, (void)with;
    gbinder_remote_request_read_int32(call, &number);
    *status = GBINDER_STATUS_OK;
    GBinderLocalReply *reply = gbinder_local_object_new_reply(object);
    gbinder_local_reply_append_int32(reply, (guint32)number + 1);
    return reply;
}

/* A request with a new object, which has to be kept as long as others may have it. */
static GBinderLocalRequest *with_object(GBinderLocalObject **object)
{
    GBinderLocalRequest *with = request();
    *object = gbinder_servicemanager_new_local_object(manager, CALLBACK_INTERFACE, on_call_back, NULL);
    gbinder_local_request_append_local_object(with, *object);
    return with;
}

static gint32 nested_answer = -1;

static void on_nested(GBinderClient *who, GBinderRemoteReply *reply, int status, void *with)
{
    (void)who, (void)status, (void)with;
    if (reply)
        gbinder_remote_reply_read_int32(reply, &nested_answer);
    g_main_loop_quit(loop);
}

static gboolean give_up(gpointer with)
{
    (void)with;
    g_main_loop_quit(loop);
    return FALSE;
}

/* The call back is served by the main loop, so the call mustn't hold that up. */
static void play_nested(void)
{
    for (long i = 0; i < numbers[0]; i++) {
        GBinderLocalObject *object;
        GBinderLocalRequest *with = with_object(&object);
        nested_answer = -1;
        gbinder_client_transact(client, CALL_BACK, 0, with, on_nested, NULL, NULL);
        gbinder_local_request_unref(with);
        guint patience = g_timeout_add(10000, give_up, NULL);
        g_main_loop_run(loop);
        g_source_remove(patience);
        NEED(nested_answer == 42, "nested call %ld gave %d", i, nested_answer);
        gbinder_local_object_drop(object);
    }
    printf("%ld calls with a call back\n", numbers[0]);
}

/* Gives an object and is gone without a word; the service is to hear of it. */
static void play_keep(void)
{
    GBinderLocalObject *object;
    NEED(asked(KEEP, with_object(&object)) == 0, "the object wasn't kept");
    printf("kept\n");
    _exit(0);
}

static gpointer call_in_thread(gpointer number)
{
    for (long i = 0; i < numbers[1]; i++) {
        char *word = g_strdup_printf("thread %ld call %ld", (long)number, i);
        echo(word);
        g_free(word);
    }
    return NULL;
}

static void play_threads(void)
{
    GThread *threads[64];
    for (long i = 0; i < numbers[0]; i++)
        threads[i] = g_thread_new("caller", call_in_thread, (gpointer)i);
    for (long i = 0; i < numbers[0]; i++)
        g_thread_join(threads[i]);
    printf("%ld threads, %ld calls each\n", numbers[0], numbers[1]);
}

static gboolean is_told;

static void on_death(GBinderRemoteObject *object, void *with)
{
    (void)with;
    is_told = gbinder_remote_object_is_dead(object);
    g_main_loop_quit(loop);
}

/* Waits for the service's death, which somebody else sees to. */
static void play_death(void)
{
    gbinder_remote_object_add_death_handler(service, on_death, NULL);
    echo("alive");
    printf("waiting\n");
    g_timeout_add(20000, give_up, NULL);
    g_main_loop_run(loop);
    NEED(is_told, "the service's death wasn't told");
    refused(ECHO, request());
    printf("heard of the service's death\n");
}

static void play_list(void)
{
    char **names = gbinder_servicemanager_list_sync(manager);
    for (char **name = names; name && *name; name++)
        printf("%s\n", *name);
    g_strfreev(names);
}

static const struct {
    const char *name;
    void (*play)(void);
} modes[] = {
    {"call", play_call}, {"time", play_time}, {"oneway", play_oneway}, {"nested", play_nested}, {"keep", play_keep},
    {"threads", play_threads}, {"death", play_death}, {"big", play_big}, {"past", play_past},
    {"descriptors", play_descriptors}, {"mixed", play_mixed}, {"list", play_list},
};

int main(int argc, char **argv)
{
    const char *device = getenv("DEVICE") ? getenv("DEVICE") : "/dev/binder", *protocol = getenv("PROTOCOL");
    int status = 0;
    setvbuf(stdout, NULL, _IOLBF, 0);
    NEED(argc > 2, "usage: client NAME MODE [NUMBER [NUMBER]]");
    for (int i = 3; i < argc && i < 5; i++)
        numbers[i - 3] = atol(argv[i]);
    manager = gbinder_servicemanager_new2(device, protocol, protocol);
    NEED(manager && gbinder_servicemanager_wait(manager, 5000), "no context manager on %s", device);
    service = gbinder_servicemanager_get_service_sync(manager, argv[1], &status);
    NEED(service, "no service %s: %d", argv[1], status);
    gbinder_remote_object_ref(service);
    client = gbinder_client_new(service, INTERFACE);
    loop = g_main_loop_new(NULL, FALSE);
    for (size_t i = 0; i < G_N_ELEMENTS(modes); i++)
        if (!strcmp(argv[2], modes[i].name)) {
            modes[i].play();
            return 0;
        }
    fprintf(stderr, "no mode %s\n", argv[2]);
    return 1;
}
