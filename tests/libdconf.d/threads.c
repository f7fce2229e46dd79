/* Six threads over one client: three change keys of their own, fast and sync, one reads, one lists and watches, and the main one hears the signals.
 *
 *   threads TURNS */
#include <dconf.h>
#include <stdio.h>
#include <stdlib.h>

enum { WRITERS = 3, THREADS = 5 };

static DConfClient *client;
static int turns;
static gint ended, heard;

static G_GNUC_NORETURN void fails(const char *what, int turn)
{
    fprintf(stderr, "threads: %s, turn %d\n", what, turn);
    abort();
}

static void expect(const char *key, int wanted)
{
    GVariant *value = dconf_client_read(client, key);
    if (!value || g_variant_get_int32(value) != wanted)
        fails("what was written isn't read", wanted);
    g_variant_unref(value);
}

static void writes(int number)
{
    for (int turn = 0; turn < turns; turn++) {
        g_autofree gchar *key = g_strdup_printf("/threads/%d/k", number), *other = g_strdup_printf("/threads/%d/other", number);
        dconf_client_write_fast(client, key, g_variant_new_int32(turn), NULL);
        expect(key, turn);
        if (turn % 20 == number)
            dconf_client_write_sync(client, other, g_variant_new_int32(turn), NULL, NULL, NULL);
        if (turn % 50 == 0)
            dconf_client_sync(client);
        expect(key, turn);
    }
}

static void reads(void)
{
    for (int turn = 0; turn < turns; turn++) {
        GVariant *value = dconf_client_read_full(client, "/threads/0/k", DCONF_READ_USER_VALUE, NULL);
        g_clear_pointer(&value, g_variant_unref);
        if (!dconf_client_is_writable(client, "/threads/0/k") || dconf_client_is_writable(client, "/x/locked"))
            fails("another key is locked", turn);
    }
}

static void watches(void)
{
    for (int turn = 0; turn < turns; turn++) {
        dconf_client_watch_fast(client, "/threads/0/");
        g_strfreev(dconf_client_list(client, "/threads/", NULL));
        g_strfreev(dconf_client_list_locks(client, "/", NULL));
        dconf_client_unwatch_fast(client, "/threads/0/");
    }
}

static gpointer work(gpointer data)
{
    int number = GPOINTER_TO_INT(data);
    if (number < WRITERS)
        writes(number);
    else if (number == WRITERS)
        reads();
    else
        watches();
    g_atomic_int_inc(&ended);
    g_main_context_wakeup(NULL);
    return NULL;
}

static void hears(DConfClient *it, const gchar *prefix, const gchar *const *changes, const gchar *tag, gpointer data)
{
    (void)it, (void)prefix, (void)changes, (void)tag, (void)data;
    heard++;
}

int main(int count, char **words)
{
    GThread *threads[THREADS];
    turns = count > 1 ? atoi(words[1]) : 100;
    client = dconf_client_new();
    g_signal_connect(client, "changed", G_CALLBACK(hears), NULL);
    dconf_client_watch_sync(client, "/threads/");
    for (int i = 0; i < THREADS; i++)
        threads[i] = g_thread_new("work", work, GINT_TO_POINTER(i));
    while (g_atomic_int_get(&ended) < THREADS)
        g_main_context_iteration(NULL, TRUE);
    for (int i = 0; i < THREADS; i++)
        g_thread_join(threads[i]);
    dconf_client_sync(client);
    while (g_main_context_iteration(NULL, FALSE))
        ;
    for (int i = 0; i < WRITERS; i++) {
        g_autofree gchar *key = g_strdup_printf("/threads/%d/k", i);
        expect(key, turns - 1);
    }
    if (heard < WRITERS * turns)
        fails("signals are lost", heard);
    g_object_unref(client);
    return 0;
}
