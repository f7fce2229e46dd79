/* Sets two keys to the same numbers, one after another, all of a number at once or none of it; instead of each fifth they are reset.
 *
 *   sets PATH FROM COUNT EVERY     COUNT numbers from FROM on, at PATH of org.example.room; after EVERY of them they are
 *                                  kept by g_settings_sync(), and then the number is told by a line
 */
#include <gio/gio.h>
#include <stdio.h>
#include <stdlib.h>

enum { RESET = 5 };

static void change(GSettings *room, const char *key, guint number)
{
    if (number % RESET)
        g_settings_set_uint(room, key, number);
    else
        g_settings_reset(room, key);
}

int main(int argc, char **argv)
{
    if (argc != 5)
        return 2;
    guint from = (guint)atoi(argv[2]), count = (guint)atoi(argv[3]), every = (guint)atoi(argv[4]);
    GSettings *room = g_settings_new_with_path("org.example.room", argv[1]);
    g_settings_delay(room);
    for (guint number = from; number < from + count; number++) {
        change(room, "first", number);
        change(room, "second", number);
        g_settings_apply(room);
        if (number % every != 0)
            continue;
        g_settings_sync();
        printf("%u\n", number);
        fflush(stdout);
    }
    g_object_unref(room);
    return 0;
}
