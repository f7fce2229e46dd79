/* Eight threads over GSettings at once: three set, two get, one resets and syncs, one listens in a main loop of its own, one forks
 * children that read.
 *
 *   races TURNS               prints how many `changed` came
 */
#include <gio/gio.h>
#include <signal.h>
#include <stdio.h>
#include <stdlib.h>
#include <sys/wait.h>
#include <unistd.h>

enum { SETTERS = 3, GETTERS = 2, THREADS = 8, LISTENER = 6, CHILDREN_EACH = 20 };

static int turns;
static gint changes, done;

static _Noreturn void fails(const char *what, int found)
{
    fprintf(stderr, "races: %s: %d\n", what, found);
    abort();
}

static GSettings *room_of(int number)
{
    char path[64];
    snprintf(path, sizeof path, "/org/example/races/%d/", number % SETTERS);
    return g_settings_new_with_path("org.example.room", path);
}

static void set(int number)
{
    GSettings *room = room_of(number);
    for (int turn = 0; turn < turns; turn++) {
        g_settings_set_uint(room, "first", (guint)turn);
        if (g_settings_get_uint(room, "first") != (guint)turn)
            fails("what was set isn't read", turn);
    }
    g_object_unref(room);
}

static void get(int number)
{
    GSettings *room = room_of(number), *desk = g_settings_new("org.example.desk");
    for (int turn = 0; turn < turns; turn++) {
        g_settings_get_uint(room, "first");
        g_free(g_settings_get_string(desk, "name"));
        g_settings_is_writable(desk, "size");
        g_variant_unref(g_settings_get_default_value(desk, "size"));
    }
    g_object_unref(desk);
    g_object_unref(room);
}

static void reset(int number)
{
    GSettings *room = room_of(number);
    for (int turn = 0; turn < turns; turn++) {
        g_settings_set_string(room, "name", "mine");
        g_settings_reset(room, "name");
        if (turn % 16 == 0)
            g_settings_sync();
    }
    g_object_unref(room);
}

static void is_changed(GSettings *room, const char *key, gpointer data)
{
    (void)data;
    g_variant_unref(g_settings_get_value(room, key));
    g_atomic_int_inc(&changes);
}

static void listen(void)
{
    GMainContext *own = g_main_context_new();
    GSettings *rooms[SETTERS];
    g_main_context_push_thread_default(own);
    for (int i = 0; i < SETTERS; i++) {
        rooms[i] = room_of(i);
        g_signal_connect(rooms[i], "changed", G_CALLBACK(is_changed), NULL);
    }
    /* The last to be waited for: the others are done then. */
    while (g_atomic_int_get(&done) < THREADS - 1) {
        g_main_context_iteration(own, FALSE);
        g_usleep(1000);
    }
    while (g_main_context_iteration(own, FALSE))
        ;
    for (int i = 0; i < SETTERS; i++)
        g_object_unref(rooms[i]);
    g_main_context_pop_thread_default(own);
    g_main_context_unref(own);
}

static void have_children(int number)
{
    GSettings *room = room_of(number);
    for (int turn = 0; turn < turns / CHILDREN_EACH; turn++) {
        int status = 0;
        pid_t child = fork();
        if (child == 0) {
            alarm(2); /* GLib's own locks may be another thread's, for good */
            g_settings_get_uint(room, "first");
            _exit(g_settings_set_uint(room, "second", 7) ? 1 : 0);
        }
        if (child < 0 || waitpid(child, &status, 0) != child)
            fails("no child", turn);
        if (status != 0 && !(WIFSIGNALED(status) && WTERMSIG(status) == SIGALRM))
            fails("how a child ends", status);
    }
    g_object_unref(room);
}

static gpointer work(gpointer data)
{
    int number = GPOINTER_TO_INT(data);
    if (number < SETTERS)
        set(number);
    else if (number < SETTERS + GETTERS)
        get(number);
    else if (number < LISTENER)
        reset(number);
    else if (number == LISTENER)
        listen();
    else
        have_children(number);
    g_atomic_int_inc(&done);
    return NULL;
}

int main(int argc, char **argv)
{
    GThread *threads[THREADS];
    turns = argc == 2 ? atoi(argv[1]) : 0;
    if (turns <= 0)
        return 2;
    /* How GLib hands the first backend to the other threads is not seen. */
    g_object_unref(g_settings_new("org.example.desk"));
    for (int i = 0; i < THREADS; i++)
        threads[i] = g_thread_new("races", work, GINT_TO_POINTER(i));
    for (int i = 0; i < THREADS; i++)
        g_thread_join(threads[i]);
    g_settings_sync();
    printf("%d\n", g_atomic_int_get(&changes));
    return 0;
}
