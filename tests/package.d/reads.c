/* reads SECONDS: a program over libdconf that reads by GSettings what it is told of, and prints how often it was told, and how often
 * it read another value than libdconf has. */
#include <dconf.h>
#include <gio/gio.h>

#include <stdio.h>
#include <stdlib.h>

static int told, other;

static void changed(DConfClient *client)
{
    GSettings *settings = g_settings_new("org.gnome.desktop.interface");
    GVariant *value = dconf_client_read(client, "/org/gnome/desktop/interface/cursor-size");
    told++;
    if (!value || g_variant_get_int32(value) != g_settings_get_int(settings, "cursor-size"))
        other++;
    if (value)
        g_variant_unref(value);
    g_object_unref(settings);
}

int main(int count, char **words)
{
    GSettings *settings = g_settings_new("org.gnome.desktop.interface");
    DConfClient *client = dconf_client_new();
    GMainLoop *loop = g_main_loop_new(NULL, FALSE);
    if (count != 2)
        return 2;
    g_settings_get_int(settings, "cursor-size");
    g_signal_connect(client, "changed", G_CALLBACK(changed), NULL);
    dconf_client_watch_sync(client, "/org/gnome/desktop/interface/");
    g_timeout_add_seconds((guint)atoi(words[1]), G_SOURCE_FUNC(g_main_loop_quit), loop);
    puts("ready");
    fflush(stdout);
    g_main_loop_run(loop);
    printf("%d %d\n", told, other);
    g_main_loop_unref(loop);
    g_object_unref(client);
    g_object_unref(settings);
    return 0;
}
