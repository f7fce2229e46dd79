/* Programs that wait for their turn to write, for the part `turns`:
 *
 *   turns stays NAME SECONDS   sets the name, and lets the main loop run so long
 *   turns leaves NAME          sets the name, and ends
 *   turns forks NAME           sets the name, forks amid the write, and tells the child's number; both go on
 *   turns piles ROOM SECONDS   sets two keys of a room fifty times a second for so long; then tells what it set last, whether that is
 *                              there after g_settings_sync(), and after how many milliseconds this returned
 */
#include <gio/gio.h>
#include <stdbool.h>
#include <stdio.h>
#include <stdlib.h>
#include <string.h>
#include <unistd.h>

enum { A_SECOND = 50, PAUSE = G_USEC_PER_SEC / A_SECOND, AMID = 300000 };

static void turn_for(double seconds)
{
    gint64 end = g_get_monotonic_time() + (gint64)(seconds * G_USEC_PER_SEC);
    while (g_get_monotonic_time() < end) {
        while (g_main_context_iteration(NULL, FALSE))
            ;
        g_usleep(PAUSE / 4);
    }
}

static int forks(void)
{
    g_usleep(AMID);
    pid_t child = fork();
    if (child == 0) {
        /* Nobody waits for what it says. */
        close(STDOUT_FILENO);
        close(STDERR_FILENO);
        return pause();
    }
    printf("%d\n", (int)child);
    return child < 0 || fflush(stdout) != 0 ? 1 : pause();
}

static int piles(const char *path, double seconds)
{
    GSettings *room = g_settings_new_with_path("org.example.room", path);
    guint count = (guint)(seconds * A_SECOND);
    for (guint number = 1; number <= count; number++) {
        g_settings_set_uint(room, "first", number);
        g_settings_set_uint(room, "second", number);
        turn_for(1.0 / A_SECOND);
    }
    gint64 began = g_get_monotonic_time();
    g_settings_sync();
    int took = (int)((g_get_monotonic_time() - began) / 1000);
    bool stands = g_settings_get_uint(room, "first") == count && g_settings_get_uint(room, "second") == count;
    printf("%u %d %d\n", count, stands, took);
    g_object_unref(room);
    return fflush(stdout) != 0;
}

int main(int argc, char **argv)
{
    if (argc < 3)
        return 2;
    if (strcmp(argv[1], "piles") == 0)
        return argc == 4 ? piles(argv[2], atof(argv[3])) : 2;
    GSettings *desk = g_settings_new("org.example.desk");
    if (!g_settings_set_string(desk, "name", argv[2]))
        return 1;
    if (strcmp(argv[1], "forks") == 0)
        return forks();
    if (argc == 4)
        turn_for(atof(argv[3]));
    g_object_unref(desk);
    return 0;
}
