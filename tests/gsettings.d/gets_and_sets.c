/* Gets and sets, signals and changes as a whole, so many times, for a look at the memory.
 *
 *   gets_and_sets TURNS
 */
#include <gio/gio.h>
#include <stdio.h>
#include <stdlib.h>

static void on_change(GSettings *settings, const char *key, gpointer count)
{
    g_variant_unref(g_settings_get_value(settings, key));
    ++*(guint *)count;
}

static void turn(GSettings *desk, guint number)
{
    char name[32];
    const char *const tags[] = {"a", "b", name, NULL};
    snprintf(name, sizeof name, "name %u", number);
    g_settings_set_string(desk, "name", name);
    g_settings_set_strv(desk, "tags", tags);
    g_settings_set_uint(desk, "size", number); /* it is locked */
    char *seen = g_settings_get_string(desk, "name");
    char **seen_tags = g_settings_get_strv(desk, "tags");
    if (g_strcmp0(seen, name) != 0 || g_strv_length(seen_tags) != 3 || g_settings_get_uint(desk, "size") != 24)
        exit(3);
    g_free(seen);
    g_strfreev(seen_tags);
    GVariant *users = g_settings_get_user_value(desk, "name"), *defaults = g_settings_get_default_value(desk, "name");
    if (users)
        g_variant_unref(users);
    g_variant_unref(defaults);
    if (g_settings_is_writable(desk, "size") || !g_settings_is_writable(desk, "name"))
        exit(4);
}

int main(int argc, char **argv)
{
    guint turns = argc == 2 ? (guint)atoi(argv[1]) : 0, heard = 0;
    GSettings *desk = g_settings_new("org.example.desk"), *later = g_settings_new("org.example.types");
    g_signal_connect(desk, "changed", G_CALLBACK(on_change), &heard);
    g_settings_delay(later);
    for (guint number = 0; number < turns; number++) {
        turn(desk, number);
        g_settings_set_double(later, "double", number + 0.5);
        g_settings_set_uint(later, "uint32", number);
        if (number % 10 == 0)
            g_settings_apply(later);
        if (number % 100 == 99) {
            g_settings_reset(desk, "tags");
            g_settings_sync();
        }
        while (g_main_context_iteration(NULL, FALSE))
            ;
    }
    g_object_unref(later);
    g_object_unref(desk);
    printf("%u\n", heard);
    return 0;
}
