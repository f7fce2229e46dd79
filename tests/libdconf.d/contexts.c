/* A client that is made in a thread with a main context of its own: its signals come in that thread, whoever changes what. */
#include <dconf.h>
#include <stdio.h>

enum { WANTED = 3 };

static GMutex lock;
static GCond made;
static DConfClient *client;
static int heard, heard_here;
static GThread *thread;

static void on_changed(DConfClient *it, const gchar *prefix, const gchar *const *changes, const gchar *tag, gpointer data)
{
    (void)it, (void)changes, (void)tag, (void)data;
    printf("%s\n", prefix);
    heard++;
    heard_here += g_thread_self() == thread;
}

static gboolean gives_up(gpointer data)
{
    (void)data;
    heard = WANTED;
    return G_SOURCE_REMOVE;
}

static gpointer listens(gpointer data)
{
    GMainContext *context = g_main_context_new();
    GSource *timeout = g_timeout_source_new_seconds(5);
    (void)data;
    g_main_context_push_thread_default(context);
    g_source_set_callback(timeout, gives_up, NULL, NULL);
    g_source_attach(timeout, context);
    g_mutex_lock(&lock);
    thread = g_thread_self();
    client = dconf_client_new();
    g_signal_connect(client, "changed", G_CALLBACK(on_changed), NULL);
    dconf_client_watch_sync(client, "/contexts/");
    g_cond_signal(&made);
    g_mutex_unlock(&lock);
    while (heard < WANTED)
        g_main_context_iteration(context, TRUE);
    dconf_client_sync(client);
    g_object_unref(client);
    g_source_destroy(timeout);
    g_source_unref(timeout);
    g_main_context_pop_thread_default(context);
    g_main_context_unref(context);
    return NULL;
}

static void await(int signals)
{
    while (heard < signals)
        g_usleep(1000);
}

int main(void)
{
    GThread *listener = g_thread_new("listens", listens, NULL);
    g_mutex_lock(&lock);
    while (!client)
        g_cond_wait(&made, &lock);
    g_mutex_unlock(&lock);
    DConfClient *other = dconf_client_new();
    dconf_client_write_sync(other, "/contexts/a", g_variant_new_int32(5), NULL, NULL, NULL);
    await(1);
    dconf_client_write_fast(client, "/contexts/b", g_variant_new_int32(5), NULL);
    await(2);
    dconf_client_write_sync(client, "/contexts/c", g_variant_new_int32(5), NULL, NULL, NULL);
    g_thread_join(listener);
    dconf_client_write_sync(other, "/contexts/", NULL, NULL, NULL, NULL);
    g_object_unref(other);
    printf("%d of %d in its thread\n", heard_here, heard);
    return 0;
}
