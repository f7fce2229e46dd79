/* Calls of GSettings, with the backend that the environment names, for `bench/gsettings`, which counts their instructions.
 *
 *   gsettings WORK TIMES           so many calls of a kind, and what one took by the clock, in nanoseconds
 *   gsettings WORK TIMES toggles   callgrind, which collects nothing at the start, collects during these calls
 */
#include <gio/gio.h>
#include <stdio.h>
#include <stdlib.h>
#include <string.h>
#include <valgrind/callgrind.h>

typedef struct {
    GSettings *desk, *rooms[100];
    guint opened;
} Bench;

static void on_change(GSettings *settings, const char *key, gpointer data)
{
    (void)settings, (void)key, (void)data;
}

static void read_key(Bench *bench, const char *key)
{
    g_variant_unref(g_settings_get_value(bench->desk, key));
}

static void read_string(Bench *bench, guint i)
{
    (void)i;
    read_key(bench, "name");
}

static void read_strings(Bench *bench, guint i)
{
    (void)i;
    read_key(bench, "tags");
}

static void read_missing(Bench *bench, guint i)
{
    (void)i;
    read_key(bench, "places");
}

static void ask_writable(Bench *bench, guint i)
{
    (void)i;
    g_settings_is_writable(bench->desk, "name");
}

static void set(Bench *bench, guint i)
{
    char name[16];
    snprintf(name, sizeof name, "name %u", i);
    if (!g_settings_set_string(bench->desk, "name", name))
        exit(3);
}

static void set_and_sync(Bench *bench, guint i)
{
    set(bench, i);
    g_settings_sync();
}

static void open_first(Bench *bench, guint i)
{
    (void)i;
    bench->desk = g_settings_new("org.example.desk");
}

static void open_and_read(Bench *bench, guint i)
{
    open_first(bench, i);
    read_string(bench, i);
}

static void subscribe(Bench *bench, guint i)
{
    char path[64];
    snprintf(path, sizeof path, "/org/example/rooms/%u/", i);
    GSettings *room = g_settings_new_with_path("org.example.room", path);
    g_signal_connect(room, "changed", G_CALLBACK(on_change), NULL);
    bench->rooms[bench->opened++ % 100] = room;
}

static const struct {
    const char *name;
    void (*call)(Bench *bench, guint i);
    gboolean is_open; /* a settings object is there before it */
    guint before;     /* so many calls that aren't counted */
} works[] = {
    {"string", read_string, TRUE, 10},     {"strings", read_strings, TRUE, 10}, {"missing", read_missing, TRUE, 10},
    {"writable", ask_writable, TRUE, 10},  {"set", set, TRUE, 1},               {"sync", set_and_sync, TRUE, 1},
    {"open", open_first, FALSE, 0},        {"first", open_and_read, FALSE, 0},  {"subscribe", subscribe, TRUE, 0},
};

static void measure(Bench *bench, gsize work, guint times, gboolean toggles)
{
    for (guint i = 0; i < works[work].before; i++)
        works[work].call(bench, i);
    gint64 begun = g_get_monotonic_time();
    if (toggles)
        CALLGRIND_TOGGLE_COLLECT;
    for (guint i = 0; i < times; i++)
        works[work].call(bench, works[work].before + i);
    if (toggles)
        CALLGRIND_TOGGLE_COLLECT;
    gint64 took = g_get_monotonic_time() - begun;
    printf("%.0f\n", times ? 1000.0 * (double)took / times : 0.0);
}

int main(int argc, char **argv)
{
    Bench bench = {NULL, {NULL}, 0};
    if (argc < 3)
        return 2;
    for (gsize work = 0; work < G_N_ELEMENTS(works); work++) {
        if (strcmp(works[work].name, argv[1]) != 0)
            continue;
        if (works[work].is_open)
            bench.desk = g_settings_new("org.example.desk");
        measure(&bench, work, (guint)atoi(argv[2]), argc == 4);
        g_settings_sync();
        return 0;
    }
    return 2;
}
