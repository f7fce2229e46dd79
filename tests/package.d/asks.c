/* A program over libdconf. asks PATH..: prints each value, or nothing, and whether it can be set. asks -s PATH TEXT: sets it. */
#include <dconf.h>

#include <stdio.h>
#include <string.h>

static int set(DConfClient *client, const char *path, const char *text)
{
    g_autoptr(GError) error = NULL;
    g_autoptr(GVariant) value = g_variant_parse(NULL, text, NULL, NULL, &error);
    if (value && dconf_client_write_sync(client, path, value, NULL, NULL, &error))
        return 0;
    fprintf(stderr, "asks: %s\n", error->message);
    return 1;
}

int main(int count, char **words)
{
    g_autoptr(DConfClient) client = dconf_client_new();
    if (count == 4 && strcmp(words[1], "-s") == 0)
        return set(client, words[2], words[3]);
    for (int i = 1; i < count; i++) {
        g_autoptr(GVariant) value = dconf_client_read(client, words[i]);
        g_autofree char *text = value ? g_variant_print(value, FALSE) : g_strdup("");
        printf("%s %s\n", text, dconf_client_is_writable(client, words[i]) ? "true" : "false");
    }
    return 0;
}
