/* dconfdb-blame: what the service ca.desrt.dconf notes for `dconf blame`.
 *
 *     dconfdb-blame                     prints what it has noted
 *     dconfdb-blame PROGRAM NAME WORD.. has it note this process, as one that changes the user's database, and becomes PROGRAM
 *
 * Commands write files themselves. So where DCONF_BLAME is set the launcher runs those that change something by this program, which calls Init
 * of that database: it does nothing, and is noted. */
#include "dconfdb.h"
#include "place.h"

#include <errno.h>
#include <gio/gio.h>
#include <unistd.h>

static const char service[] = "ca.desrt.dconf";

static int refuse(const char *why)
{
    g_printerr("error: %s\n", why);
    return 1;
}

static GVariant *call(const char *object, const char *interface, const char *method, const GVariantType *answer, GError **error)
{
    g_autoptr(GDBusConnection) bus = g_bus_get_sync(G_BUS_TYPE_SESSION, NULL, error);
    return bus ? g_dbus_connection_call_sync(bus, service, object, interface, method, NULL, answer, G_DBUS_CALL_FLAGS_NONE, -1, NULL, error) : NULL;
}

static int print_noted(void)
{
    g_autoptr(GError) error = NULL;
    g_autoptr(GVariant) answer = call("/ca/desrt/dconf", "ca.desrt.dconf.ServiceInfo", "Blame", G_VARIANT_TYPE("(s)"), &error);
    if (!answer)
        return refuse(error->message);
    const char *noted;
    g_variant_get(answer, "(&s)", &noted);
    g_print("%s", noted);
    return 0;
}

/* The object of the user's database; NULL: there is none, or it can't be found out, of which the command says more. */
static char *object_of_user(void)
{
    StorePlace place;
    DconfdbError error = DCONFDB_ERROR_INIT;
    if (!place_find(NULL, &place, &error))
        return NULL;
    DconfdbStore *store = place_open(&place, DCONFDB_WATCHER_COMMAND, &error);
    size_t len = 0;
    const char *name = store ? place_user(store, &len) : NULL;
    char *object = name ? g_strdup_printf("/ca/desrt/dconf/Writer/%.*s", (int)len, name) : NULL;
    if (store)
        dconfdb_store_close(store);
    place_release(&place);
    return object;
}

/* What can't be noted is written all the same. */
static void note(void)
{
    g_autofree char *object = object_of_user();
    if (!object || !g_variant_is_object_path(object))
        return;
    g_autoptr(GError) error = NULL;
    g_autoptr(GVariant) answer = call(object, "ca.desrt.dconf.Writer", "Init", NULL, &error);
    if (!answer)
        g_printerr("warning: the service doesn't note this: %s\n", error->message);
}

int main(int count, char **words)
{
    if (count == 1)
        return print_noted();
    if (count == 2)
        return refuse("a PROGRAM has a NAME");
    note();
    execv(words[1], words + 2);
    return refuse(g_strerror(errno));
}
