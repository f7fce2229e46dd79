/* What `dconf blame` prints: each call, who made it, and what ran then, in dconf's form. */
#include "service.h"

struct Blame {
    GString *text;
};

Blame *blame_new(void)
{
    const DconfdbServed known = {.is_noted = g_getenv("DCONF_BLAME") != NULL};
    if (dconfdb_served_after(DCONFDB_SERVED_CALLED, &known) != DCONFDB_SERVED_GOES_ON)
        return NULL;
    Blame *blame = g_new(Blame, 1);
    blame->text = g_string_new(NULL);
    return blame;
}

void blame_free(Blame *blame)
{
    g_string_free(blame->text, TRUE);
    g_free(blame);
}

static void add_process(GString *text, GDBusMethodInvocation *call)
{
    GDBusConnection *bus = g_dbus_method_invocation_get_connection(call);
    const char *sender = g_dbus_method_invocation_get_sender(call);
    g_autoptr(GVariant) answer = g_dbus_connection_call_sync(bus, "org.freedesktop.DBus", "/", "org.freedesktop.DBus", "GetConnectionUnixProcessID",
                                                             g_variant_new("(s)", sender), G_VARIANT_TYPE("(u)"), G_DBUS_CALL_FLAGS_NONE, -1, NULL, NULL);
    if (!answer)
        return;
    guint process = 0;
    g_variant_get(answer, "(u)", &process);
    g_string_append_printf(text, "PID: %u\n", process);
}

/* The texts come from other programs, and what isn't UTF-8 of them can't be sent. */
static void add_processes(GString *text)
{
    g_autofree char *printed = NULL;
    int status = 0;
    g_string_append(text, "\n=== Process table from time of call follows ('ps fx') ===\n");
    if (!g_spawn_command_line_sync("ps fx", &printed, NULL, &status, NULL))
        return;
    g_autofree char *valid = g_utf8_make_valid(printed, -1);
    g_string_append_printf(text, "%s\nps exit status: %d\n", valid, status);
}

void blame_record(Blame *blame, GDBusMethodInvocation *call)
{
    if (!blame)
        return;
    g_autofree char *words = g_variant_print(g_dbus_method_invocation_get_parameters(call), FALSE);
    if (blame->text->len > 0)
        g_string_append(blame->text, "\n====================================================================\n");
    g_string_append_printf(blame->text, "Sender: %s\nObject path: %s\nMethod: %s\nParameters: %s\n", g_dbus_method_invocation_get_sender(call),
                           g_dbus_method_invocation_get_object_path(call), g_dbus_method_invocation_get_method_name(call), words);
    add_process(blame->text, call);
    add_processes(blame->text);
}

const char *blame_text(const Blame *blame)
{
    return blame->text->str;
}
