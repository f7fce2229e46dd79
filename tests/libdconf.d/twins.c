/* A program with both GSettings and a client of libdconf: how long each of three fast changes takes while a write of GSettings waits for the disk.
 *
 *   twins   the milliseconds of the longest
 */
#include <dconf.h>
#include <gio/gio.h>
#include <stdio.h>

enum { MILLISECOND = 1000, COUNT = 3 };

static void turn(int milliseconds)
{
    for (gint64 end = g_get_monotonic_time() + milliseconds * MILLISECOND; g_get_monotonic_time() < end; g_usleep(MILLISECOND))
        g_main_context_iteration(NULL, FALSE);
}

static void is_told(void)
{
}

int main(void)
{
    GSettings *desk = g_settings_new("org.example.desk");
    DConfClient *client = dconf_client_new();
    gint64 longest = 0;
    g_signal_connect(client, "changed", G_CALLBACK(is_told), NULL);
    dconf_client_watch_sync(client, "/");
    g_free(g_settings_get_string(desk, "name"));
    turn(300);
    g_settings_set_string(desk, "name", "slow");
    g_usleep(100 * MILLISECOND);
    for (int i = 0; i < COUNT; i++) {
        gint64 began = g_get_monotonic_time();
        dconf_client_write_fast(client, "/twins/key", g_variant_new_int32(i), NULL);
        longest = MAX(longest, g_get_monotonic_time() - began);
    }
    printf("%.1f\n", (double)longest / MILLISECOND);
    g_settings_sync();
    dconf_client_sync(client);
    g_object_unref(client);
    g_object_unref(desk);
    return 0;
}
