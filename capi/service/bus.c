/* The bus: the interfaces, and what becomes of each call. */
#include "service.h"

#include <string.h>

static const char interfaces[] =
    "<node>"
    "<interface name='ca.desrt.dconf.Writer'>"
    "<method name='Init'/>"
    "<method name='Change'><arg name='blob' type='ay' direction='in'/><arg name='tag' type='s' direction='out'/></method>"
    "<signal name='Notify'><arg name='prefix' type='s'/><arg name='changes' type='as'/><arg name='tag' type='s'/></signal>"
    "</interface>"
    "<interface name='ca.desrt.dconf.ServiceInfo'><method name='Blame'><arg name='blame' type='s' direction='out'/></method></interface>"
    "</node>";

/* ---- answers */

/* It fails where the bus is gone. */
static void send_answer(const Service *service, GDBusMessage *call, GDBusMessage *answer)
{
    const DconfdbServed known = {.wants_none = (g_dbus_message_get_flags(call) & G_DBUS_MESSAGE_FLAGS_NO_REPLY_EXPECTED) != 0};
    if (dconfdb_served_after(DCONFDB_SERVED_ANSWERED, &known) == DCONFDB_SERVED_GOES_ON)
        g_dbus_connection_send_message(service->bus, answer, G_DBUS_SEND_MESSAGE_FLAGS_NONE, NULL, NULL);
    g_object_unref(answer);
    g_object_unref(call);
}

void call_answer(const Service *service, GDBusMessage *call, GVariant *words)
{
    GDBusMessage *answer = g_dbus_message_new_method_reply(call);
    if (words)
        g_dbus_message_set_body(answer, words);
    send_answer(service, call, answer);
}

void call_refuse(const Service *service, GDBusMessage *call, uint32_t served, const char *why)
{
    static const char failed[] = "org.freedesktop.DBus.Error.Failed", exceeded[] = "org.freedesktop.DBus.Error.LimitsExceeded";
    static const struct {
        const char *name, *text;
    } said[] = {[DCONFDB_SERVED_FAILED] = {failed, NULL},
                [DCONFDB_SERVED_CLOSED] = {failed, NULL},
                [DCONFDB_SERVED_ODD] = {"org.freedesktop.DBus.Error.InvalidArgs", "the changes are not in normal form"},
                [DCONFDB_SERVED_TOO_LARGE] = {exceeded, "a change has at most 64 MiB"},
                [DCONFDB_SERVED_TOO_MUCH] = {exceeded, "10,000 changes, or 256 MiB of them, wait to be written already"},
                [DCONFDB_SERVED_TOO_MANY_NAMES] = {exceeded, "64 databases are in use already"},
                [DCONFDB_SERVED_LATE] = {failed, "the service ends, and could not write it in time"},
                [DCONFDB_SERVED_UNSUPPORTED] = {"org.freedesktop.DBus.Error.NotSupported", "dconfdb has no service-db"}};
    g_autofree char *text = g_utf8_make_valid(said[served].text ? said[served].text : why, -1);
    send_answer(service, call, g_dbus_message_new_method_error_literal(call, said[served].name, text));
}

/* ---- calls */

static DconfdbBytes bytes_of(const char *text)
{
    static const DconfdbBytes nothing = DCONFDB_NOTHING;
    return text ? (DconfdbBytes){(const uint8_t *)text, strlen(text)} : nothing;
}

/* The name of the database that a message asks to be changed, where GDBus hands it to call_writer in any case. NULL: it is another one. */
static const char *changed_name(GDBusMessage *message)
{
    bool is_call = g_dbus_message_get_message_type(message) == G_DBUS_MESSAGE_TYPE_METHOD_CALL;
    DconfdbBytes object = bytes_of(g_dbus_message_get_path(message)), interface = bytes_of(g_dbus_message_get_interface(message)),
                 member = bytes_of(g_dbus_message_get_member(message)), signature = bytes_of(g_dbus_message_get_signature(message));
    size_t at = dconfdb_changed_database(is_call, object.at, object.len, interface.at, interface.len, member.at, member.len, signature.at, signature.len);
    return at > 0 ? (const char *)object.at + at : NULL;
}

/* The message of a call, which is answered by it alone. */
static GDBusMessage *message_of(GDBusMethodInvocation *call)
{
    GDBusMessage *message = g_object_ref(g_dbus_method_invocation_get_message(call));
    g_object_unref(call);
    return message;
}

static void change(Service *service, const char *name, GDBusMessage *call)
{
    DconfdbError error = DCONFDB_ERROR_INIT;
    g_autoptr(GVariant) bytes = g_variant_get_child_value(g_dbus_message_get_body(call), 0);
    DconfdbServed known = service_knows(service, g_variant_get_size(bytes));
    known.is_used = g_hash_table_contains(service->writers, name);
    uint32_t served = dconfdb_served_after(DCONFDB_SERVED_CAME, &known);
    if (served != DCONFDB_SERVED_GOES_ON) {
        call_refuse(service, call, served, NULL);
        return;
    }
    Writer *writer = writer_named(service, name, &error);
    known.is_open = writer != NULL;
    served = dconfdb_served_after(DCONFDB_SERVED_USED, &known);
    if (served == DCONFDB_SERVED_GOES_ON)
        service_add(service, change_new(writer, call));
    else
        call_refuse(service, call, served, error.text);
}

/* GDBus has looked at the method and at its words. There is nothing to be made ready. */
static void call_writer(GDBusConnection *bus, const char *sender, const char *object, const char *interface, const char *method, GVariant *words,
                        GDBusMethodInvocation *call, gpointer data)
{
    Service *service = data;
    (void)bus, (void)sender, (void)interface, (void)words;
    blame_record(service->blame, call);
    if (strcmp(method, "Init") == 0) {
        call_answer(service, message_of(call), NULL);
        return;
    }
    GDBusMessage *message = message_of(call);
    bool has_passed = changed_name(message);
    change(service, strrchr(object, '/') + 1, message);
    if (has_passed)
        service_has_passed(service);
}

/* Databases in the memory of a session, and keyfiles as databases, are of profiles with a line `service-db`. */
static void call_unsupported(GDBusConnection *bus, const char *sender, const char *object, const char *interface, const char *method, GVariant *words,
                             GDBusMethodInvocation *call, gpointer data)
{
    Service *service = data;
    const DconfdbServed known = {.is_service_db = true};
    (void)bus, (void)sender, (void)object, (void)interface, (void)method, (void)words;
    blame_record(service->blame, call);
    call_refuse(service, message_of(call), dconfdb_served_after(DCONFDB_SERVED_CAME, &known), NULL);
}

static void call_info(GDBusConnection *bus, const char *sender, const char *object, const char *interface, const char *method, GVariant *words,
                      GDBusMethodInvocation *call, gpointer data)
{
    Service *service = data;
    (void)bus, (void)sender, (void)object, (void)interface, (void)method, (void)words;
    blame_record(service->blame, call);
    call_answer(service, message_of(call), g_variant_new("(s)", blame_text(service->blame)));
}

/* ---- changes that needn't go by the main thread */

/* In GDBus's own thread. What is taken is had. */
static GDBusMessage *take(GDBusConnection *bus, GDBusMessage *message, gboolean comes, gpointer data)
{
    (void)bus;
    const char *name = comes ? changed_name(message) : NULL;
    return name && service_takes(data, name, message) ? NULL : message;
}

/* ---- objects of any name */

static char **enumerate(GDBusConnection *bus, const char *sender, const char *object, gpointer data)
{
    (void)bus, (void)sender, (void)object, (void)data;
    return g_new0(char *, 1);
}

static GDBusInterfaceInfo **introspect(GDBusConnection *bus, const char *sender, const char *object, const char *node, gpointer data)
{
    const Service *service = data;
    (void)bus, (void)sender, (void)object;
    GDBusInterfaceInfo **found = g_new0(GDBusInterfaceInfo *, 2);
    if (node)
        found[0] = g_dbus_interface_info_ref(service->interfaces->interfaces[0]);
    return found;
}

static const GDBusInterfaceVTable writer_calls = {.method_call = call_writer}, unsupported_calls = {.method_call = call_unsupported},
                                  info_calls = {.method_call = call_info};

static const GDBusInterfaceVTable *dispatch_writer(GDBusConnection *bus, const char *sender, const char *object, const char *interface, const char *node,
                                                   gpointer *given, gpointer data)
{
    (void)bus, (void)sender, (void)object, (void)interface;
    *given = data;
    return node ? &writer_calls : NULL;
}

static const GDBusInterfaceVTable *dispatch_unsupported(GDBusConnection *bus, const char *sender, const char *object, const char *interface,
                                                        const char *node, gpointer *given, gpointer data)
{
    (void)bus, (void)sender, (void)object, (void)interface;
    *given = data;
    return node ? &unsupported_calls : NULL;
}

static const GDBusSubtreeVTable writers = {.enumerate = enumerate, .introspect = introspect, .dispatch = dispatch_writer},
                                unsupported = {.enumerate = enumerate, .introspect = introspect, .dispatch = dispatch_unsupported};

static bool add_subtree(Service *service, const char *path, const GDBusSubtreeVTable *table, GError **error)
{
    return g_dbus_connection_register_subtree(service->bus, path, table, G_DBUS_SUBTREE_FLAGS_DISPATCH_TO_UNENUMERATED_NODES, service, NULL, error) > 0;
}

static bool add_info(Service *service, GError **error)
{
    service->blame = blame_new();
    if (!service->blame)
        return true;
    return g_dbus_connection_register_object(service->bus, "/ca/desrt/dconf", service->interfaces->interfaces[1], &info_calls, service, NULL, error) > 0;
}

bool bus_register(Service *service)
{
    g_autoptr(GError) error = NULL;
    service->interfaces = g_dbus_node_info_new_for_xml(interfaces, &error);
    if (service->interfaces && add_subtree(service, "/ca/desrt/dconf/Writer", &writers, &error)
        && add_subtree(service, "/ca/desrt/dconf/shm", &unsupported, &error)
        && add_subtree(service, "/ca/desrt/dconf/keyfile", &unsupported, &error) && add_info(service, &error)) {
        g_dbus_connection_add_filter(service->bus, take, service, NULL);
        return true;
    }
    g_printerr("dconfdb-service: %s\n", error->message);
    return false;
}
