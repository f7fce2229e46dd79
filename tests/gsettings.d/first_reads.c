/* Reads for the first time, in a child of fork() and in four threads at once, so many microseconds after the first GSettings.
 *
 *   first_reads WAIT    the status is 1 where the child reads something wrong, 2 where it never ends, 3 where a thread reads something wrong
 */
#include <gio/gio.h>
#include <stdlib.h>
#include <sys/wait.h>
#include <unistd.h>

enum { THREADS = 4 };

/* What the site says of them. */
static gboolean is_right(GSettings *desk)
{
    char *name = g_settings_get_string(desk, "name");
    gboolean is = g_strcmp0(name, "site") == 0 && g_settings_get_uint(desk, "size") == 24;
    g_free(name);
    return is && !g_settings_is_writable(desk, "size");
}

static gpointer read_it(gpointer desk)
{
    return GINT_TO_POINTER(is_right(desk));
}

/* It can set nothing, and ends by exit(), with all that then runs, or at once. */
static void be_child(GSettings *desk, gboolean exits)
{
    alarm(10);
    gboolean may_set = g_settings_is_writable(desk, "name") || g_settings_set_string(desk, "name", "child");
    int status = is_right(desk) && !may_set ? 0 : 1;
    if (exits)
        exit(status);
    _exit(status);
}

static gboolean all_threads_are_right(GSettings **desks)
{
    GThread *threads[THREADS];
    gboolean are = TRUE;
    for (int i = 0; i < THREADS; i++)
        threads[i] = g_thread_new("reads", read_it, desks[i]);
    for (int i = 0; i < THREADS; i++)
        are = g_thread_join(threads[i]) && are;
    return are;
}

/* A fork() leaves a lock of GLib's locked too, which nobody here can help. So GLib knows beforehand all that it needs to watch files. */
static void prepare(void)
{
    GFile *root = g_file_new_for_path("/");
    GFileMonitor *monitor = g_file_monitor_directory(root, G_FILE_MONITOR_NONE, NULL, NULL);
    g_clear_object(&monitor);
    g_object_unref(root);
}

int main(int argc, char **argv)
{
    GSettings *desks[THREADS];
    int status = 0;
    gint64 wait = argc == 2 ? atoi(argv[1]) : 0;
    prepare();
    for (int i = 0; i < THREADS; i++)
        desks[i] = g_settings_new("org.example.desk");
    for (gint64 begun = g_get_monotonic_time(); g_get_monotonic_time() - begun < wait;)
        ;
    pid_t child = fork();
    if (child == 0)
        be_child(desks[0], wait % 2 == 0);
    gboolean are = all_threads_are_right(desks);
    if (child < 0 || waitpid(child, &status, 0) != child)
        return 4;
    return WIFSIGNALED(status) ? 2 : status != 0 ? 1 : are ? 0 : 3;
}
