/* Sets the string `name` by GSettings, has it kept, and says what is read before and after that: module TEXT. */
#include <gio/gio.h>
#include <stdio.h>

static void told(GSettings *desk)
{
    char *name = g_settings_get_string(desk, "name");
    printf("%s\n", name);
    fflush(stdout);
    g_free(name);
}

int main(int argc, char **argv)
{
    if (argc != 2)
        return 2;
    GSettings *desk = g_settings_new("org.example.desk");
    told(desk);
    g_settings_set_string(desk, "name", argv[1]);
    g_settings_sync();
    told(desk);
    g_object_unref(desk);
    return 0;
}
