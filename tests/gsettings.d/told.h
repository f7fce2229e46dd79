/* What a listener is told: it prints the key, and what that is by then. */
#ifndef TOLD_H
#define TOLD_H

#include <gio/gio.h>
#include <stdio.h>

static void is_told(GSettings *settings, const char *key)
{
    GVariant *value = g_settings_get_value(settings, key);
    char *text = g_variant_print(value, FALSE);
    printf("%s %s\n", key, text);
    fflush(stdout);
    g_free(text);
    g_variant_unref(value);
}

#endif
