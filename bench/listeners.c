/* Programs over GSettings that hear of each other, for `bench/listeners` and `bench/service`. Times are in microseconds of the monotonic clock.
 *
 *   listeners hears COUNT           prints `ready`, and then the time at each of so many changes of the name
 *   listeners sets COUNT PAUSE      sets the name so many times, each after so many milliseconds, and prints the times before it and once it is kept
 */
#include <gio/gio.h>
#include <inttypes.h>
#include <stdio.h>
#include <stdlib.h>
#include <string.h>

enum { MILLISECOND = 1000 };

typedef struct {
    GMainLoop *loop;
    int left;
} Hearing;

static int64_t now(void)
{
    return g_get_monotonic_time();
}

static void hear(GSettings *desk, const char *key, gpointer data)
{
    (void)desk, (void)key;
    Hearing *hearing = data;
    printf("%" PRId64 "\n", now());
    fflush(stdout);
    if (--hearing->left == 0)
        g_main_loop_quit(hearing->loop);
}

static int hears(GSettings *desk, int count)
{
    Hearing hearing = {g_main_loop_new(NULL, FALSE), count};
    g_signal_connect(desk, "changed::name", G_CALLBACK(hear), &hearing);
    g_free(g_settings_get_string(desk, "name"));
    puts("ready");
    fflush(stdout);
    g_main_loop_run(hearing.loop);
    /* What it took stands in /proc as long as it is there. */
    return getchar() == EOF ? 0 : 1;
}

static int sets(GSettings *desk, int count, int pause)
{
    char name[32]; /* another one each time */
    for (int i = 0; i < count; i++) {
        g_usleep((gulong)pause * MILLISECOND);
        int64_t before = now();
        snprintf(name, sizeof name, "%" PRId64, before);
        if (!g_settings_set_string(desk, "name", name))
            return 3;
        g_settings_sync();
        printf("%" PRId64 " %" PRId64 "\n", before, now());
    }
    return 0;
}

int main(int argc, char **argv)
{
    if (argc < 3)
        return 2;
    GSettings *desk = g_settings_new("org.example.desk");
    if (strcmp(argv[1], "hears") == 0)
        return hears(desk, atoi(argv[2]));
    return argc == 4 ? sets(desk, atoi(argv[2]), atoi(argv[3])) : 2;
}
