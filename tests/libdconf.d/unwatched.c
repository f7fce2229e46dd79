/* A client that is watched in a thread, and whose watch another thread ends and begins anew while the first one's source is amid a look: what is read then of
 * what others set. The look is held where it warns of a database that was damaged.
 *
 *   unwatched DATABASE */
#include <dconf.h>
#include <stdio.h>
#include <stdlib.h>
#include <unistd.h>

enum { PIPES = 8 };

static GMutex lock;
static GCond turned;
static GThread *listener;
static DConfClient *client;
static gboolean is_armed, is_inside, is_free, is_over;

static void await(const gboolean *flag)
{
    while (!*flag)
        g_cond_wait(&turned, &lock);
}

static void say(gboolean *flag)
{
    *flag = TRUE;
    g_cond_broadcast(&turned);
}

static GLogWriterOutput holds(GLogLevelFlags level, const GLogField *fields, gsize count, gpointer data)
{
    (void)level, (void)fields, (void)count, (void)data;
    g_mutex_lock(&lock);
    if (is_armed && g_thread_self() == listener) {
        is_armed = FALSE;
        say(&is_inside);
        await(&is_free);
    }
    g_mutex_unlock(&lock);
    return G_LOG_WRITER_HANDLED;
}

static gpointer listens(gpointer data)
{
    GMainContext *context = g_main_context_new();
    (void)data;
    g_main_context_push_thread_default(context);
    g_mutex_lock(&lock);
    listener = g_thread_self();
    g_mutex_unlock(&lock);
    DConfClient *it = dconf_client_new();
    dconf_client_watch_sync(it, "/");
    g_mutex_lock(&lock);
    client = it;
    g_cond_broadcast(&turned);
    while (!is_inside) {
        g_mutex_unlock(&lock);
        g_main_context_iteration(context, TRUE);
        g_mutex_lock(&lock);
    }
    say(&is_over);
    g_mutex_unlock(&lock);
    g_main_context_pop_thread_default(context);
    return context;
}

static void damage(const char *database)
{
    g_autofree gchar *bytes = g_strnfill(1000, 'x');
    if (!g_file_set_contents(database, bytes, -1, NULL))
        abort();
}

static void print_key(void)
{
    g_autoptr(GVariant) value = dconf_client_read(client, "/k");
    printf("%d\n", value ? g_variant_get_int32(value) : 0);
}

int main(int count, char **words)
{
    int pipes[PIPES][2];
    if (count != 2)
        return 2;
    alarm(20);
    g_log_set_writer_func(holds, NULL, NULL);
    DConfClient *other = dconf_client_new();
    dconf_client_write_sync(other, "/k", g_variant_new_int32(1), NULL, NULL, NULL);
    GThread *thread = g_thread_new("listens", listens, NULL);
    g_mutex_lock(&lock);
    while (!client)
        g_cond_wait(&turned, &lock);
    is_armed = TRUE;
    g_mutex_unlock(&lock);
    print_key();
    damage(words[1]);
    g_mutex_lock(&lock);
    await(&is_inside);
    g_mutex_unlock(&lock);
    dconf_client_unwatch_sync(client, "/");
    dconf_client_watch_sync(client, "/");
    g_mutex_lock(&lock);
    say(&is_free);
    await(&is_over);
    g_mutex_unlock(&lock);
    GMainContext *context = g_thread_join(thread);
    /* One of them has the number that the first source's descriptor had. */
    for (int i = 0; i < PIPES; i++) {
        if (pipe(pipes[i]) != 0)
            abort();
    }
    dconf_client_write_sync(other, "/k", g_variant_new_int32(5), NULL, NULL, NULL);
    print_key();
    g_object_unref(client);
    g_object_unref(other);
    g_main_context_unref(context);
    return 0;
}
