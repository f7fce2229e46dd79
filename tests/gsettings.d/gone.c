/* Backends that nobody holds any longer.
 *
 *   gone default        the one that GSETTINGS_BACKEND names, used and let go as GLib's own test program does at its end
 *   gone others TURNS   others, one after another: each sets, listens and is let go, and the next reads what it set. Prints how many threads
 *                       and files the program has more than after the first
 *   gone at-once TURNS  the same in four threads at once, each in a room of its own; some have no main loop, so that a handler runs in the
 *                       thread of the backend and lets go of it last. Prints how many `changed` came
 *   gone held           one that can't write, as another program has its turn: prints after how many seconds it is let go, and waits for a line
 */
#define G_SETTINGS_ENABLE_BACKEND
#include <gio/gio.h>
#include <gio/gsettingsbackend.h>
#include <stdio.h>
#include <stdlib.h>
#include <string.h>

enum { THREADS = 4, MILLISECOND = 1000, A_WHILE = 20 };

static int turns;

static void is_changed(GSettings *room, const char *key, gpointer count)
{
    g_variant_unref(g_settings_get_value(room, key));
    g_atomic_int_inc((gint *)count);
}

static GSettingsBackend *another(void)
{
    GIOExtensionPoint *point = g_io_extension_point_lookup(G_SETTINGS_BACKEND_EXTENSION_POINT_NAME);
    GIOExtension *ours = g_io_extension_point_get_extension_by_name(point, g_getenv("GSETTINGS_BACKEND"));
    return g_object_new(g_io_extension_get_type(ours), NULL);
}

static void run_for(GMainContext *context, int milliseconds)
{
    for (gint64 end = g_get_monotonic_time() + milliseconds * MILLISECOND; g_get_monotonic_time() < end; g_usleep(MILLISECOND)) {
        while (g_main_context_iteration(context, FALSE))
            ;
    }
}

/* Sets a number in a room, if the one before it is there, or comes in so many seconds. Without a sync: what waits is written before the backend
 * goes. */
static void use(GSettingsBackend *backend, int number, guint turn, int seconds, GMainContext *context, gint *heard)
{
    gint64 end = g_get_monotonic_time() + seconds * G_USEC_PER_SEC;
    char path[64];
    snprintf(path, sizeof path, "/org/example/gone/%d/", number);
    GSettings *room = g_settings_new_with_backend_and_path("org.example.room", backend, path);
    g_signal_connect(room, "changed", G_CALLBACK(is_changed), heard);
    while (g_settings_get_uint(room, "first") != turn && g_get_monotonic_time() < end)
        g_usleep(MILLISECOND);
    if (g_settings_get_uint(room, "first") != turn)
        g_error("%s has %u, and not %u", path, g_settings_get_uint(room, "first"), turn);
    g_settings_set_uint(room, "second", turn);
    if (context)
        run_for(context, 3);
    g_settings_set_uint(room, "first", turn + 1);
    g_object_unref(room);
}

static int count_in(const char *folder)
{
    int count = 0;
    GDir *dir = g_dir_open(folder, 0, NULL);
    while (dir && g_dir_read_name(dir))
        count++;
    g_clear_pointer(&dir, g_dir_close);
    return count;
}

static int the_default(void)
{
    gint heard = 0;
    GSettingsBackend *backend = g_settings_backend_get_default();
    use(backend, 0, 0, 0, g_main_context_default(), &heard);
    g_settings_sync();
    run_for(NULL, 10);
    g_object_unref(backend); /* GLib's own */
    g_assert_finalize_object(G_OBJECT(backend));
    printf("%d\n", heard);
    return 0;
}

static int others(void)
{
    gint heard = 0;
    int threads = 0, files = 0;
    for (guint turn = 0; turn < (guint)turns; turn++) {
        GSettingsBackend *backend = another();
        use(backend, 0, turn, 0, g_main_context_default(), &heard);
        run_for(NULL, 1);
        g_assert_finalize_object(G_OBJECT(backend));
        if (turn == 0) {
            threads = count_in("/proc/self/task");
            files = count_in("/proc/self/fd");
        }
    }
    printf("%d %d\n", count_in("/proc/self/task") - threads, count_in("/proc/self/fd") - files);
    return heard < turns;
}

static gint heard_by_all;

static gpointer work(gpointer data)
{
    int number = GPOINTER_TO_INT(data);
    GMainContext *own = number % 2 ? g_main_context_new() : NULL;
    if (own)
        g_main_context_push_thread_default(own);
    for (guint turn = 0; turn < (guint)turns; turn++) {
        GSettingsBackend *backend = another();
        /* The worker of the one before it may have let go of that last, and write it now. */
        use(backend, number, turn, A_WHILE, own, &heard_by_all);
        g_object_unref(backend);
    }
    if (own) {
        run_for(own, 10);
        g_main_context_pop_thread_default(own);
        g_main_context_unref(own);
    }
    return NULL;
}

static int at_once(void)
{
    GThread *threads[THREADS];
    for (int i = 0; i < THREADS; i++)
        threads[i] = g_thread_new("gone", work, GINT_TO_POINTER(i));
    for (int i = 0; i < THREADS; i++)
        g_thread_join(threads[i]);
    printf("%d\n", g_atomic_int_get(&heard_by_all));
    return 0;
}

static int held(void)
{
    gint heard = 0;
    GSettingsBackend *backend = another();
    use(backend, 0, 0, 0, NULL, &heard);
    gint64 began = g_get_monotonic_time();
    g_object_unref(backend);
    printf("%.1f\n", (double)(g_get_monotonic_time() - began) / G_USEC_PER_SEC);
    fflush(stdout);
    return getchar() == EOF;
}

int main(int argc, char **argv)
{
    const char *what = argc > 1 ? argv[1] : "";
    turns = argc > 2 ? atoi(argv[2]) : 0;
    /* So that the module is there. */
    if (strcmp(what, "default") != 0)
        g_settings_backend_get_default();
    return strcmp(what, "default") == 0 ? the_default()
        : strcmp(what, "others") == 0   ? others()
        : strcmp(what, "at-once") == 0  ? at_once()
        : strcmp(what, "held") == 0     ? held()
                                        : 2;
}
