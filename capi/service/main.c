/* dconfdb-service: the D-Bus service ca.desrt.dconf, by which programs with dconf's own library write, in a sandbox, say. */
#include "folders.h"
#include "looked.h"
#include "service.h"

#include <glib-unix.h>
#include <stdlib.h>
#include <unistd.h>

enum { MILLISECOND = 1000 }; /* in microseconds */

static void say(const char *text)
{
    g_printerr("dconfdb-service: %s\n", text);
}

/* ---- the end */

/* How long it is waited for what was accepted. */
typedef struct {
    Service *service;
    DconfdbPatience time;
} Ending;

static bool goes_on(Ending *ending)
{
    Service *service = ending->service;
    DconfdbFileTime changed = folder_written(service->place.folder);
    g_mutex_lock(&service->lock);
    DconfdbProgress progress = {service->settled, service->added, 0, 0, UINT64_MAX};
    bool is = dconfdb_patience_goes_on(&ending->time, &progress, &changed, (uint64_t)g_get_monotonic_time());
    g_mutex_unlock(&service->lock);
    return is;
}

static gboolean end_when_settled(gpointer data)
{
    Ending *ending = data;
    if (goes_on(ending))
        return G_SOURCE_CONTINUE;
    g_main_loop_quit(ending->service->loop);
    return G_SOURCE_REMOVE;
}

/* Who calls from now on has another service started. What this one was sent before, it takes. */
static void begin_end(Service *service)
{
    if (service->is_ending)
        return;
    service->is_ending = true;
    g_clear_handle_id(&service->owner, g_bus_unown_name);
    Ending *ending = g_new(Ending, 1);
    *ending = (Ending){.service = service, .time = {.each = dconfdb_patience_for(DCONFDB_PATIENCE_END)}};
    g_timeout_add_full(G_PRIORITY_LOW, (guint)(dconfdb_patience_for(DCONFDB_PATIENCE_LOOKS) / MILLISECOND), end_when_settled, ending, g_free);
}

static gboolean on_signal(gpointer data)
{
    begin_end(data);
    return G_SOURCE_CONTINUE;
}

static void on_closed(GDBusConnection *bus, gboolean is_others, GError *error, gpointer data)
{
    (void)bus, (void)is_others, (void)error;
    begin_end(data);
}

/* ---- the name */

static void on_name(GDBusConnection *bus, const char *name, gpointer data)
{
    (void)bus, (void)name;
    ((Service *)data)->had_name = true;
}

static void on_no_name(GDBusConnection *bus, const char *name, gpointer data)
{
    Service *service = data;
    (void)bus;
    const DconfdbServed known = {.had_name = service->had_name, .is_bus_closed = g_dbus_connection_is_closed(service->bus)};
    if (dconfdb_served_after(DCONFDB_SERVED_NAMELESS, &known) == DCONFDB_SERVED_ENDS) {
        begin_end(service);
        return;
    }
    g_printerr("dconfdb-service: another service has the name %s\n", name);
    service->has_failed = true;
    g_main_loop_quit(service->loop);
}

/* ---- its life */

/* Where it can't be opened each call tries it again. */
static void open_user(Service *service)
{
    DconfdbError error = DCONFDB_ERROR_INIT;
    if (!writer_named(service, "user", &error))
        say(error.text);
}

static bool connect_bus(Service *service)
{
    g_autoptr(GError) error = NULL;
    service->bus = g_bus_get_sync(G_BUS_TYPE_SESSION, NULL, &error);
    if (!service->bus) {
        say(error->message);
        return false;
    }
    g_dbus_connection_set_exit_on_close(service->bus, FALSE);
    g_signal_connect(service->bus, "closed", G_CALLBACK(on_closed), service);
    return bus_register(service);
}

static void run(Service *service)
{
    static const int signals[] = {SIGTERM, SIGINT, SIGHUP};
    for (size_t i = 0; i < G_N_ELEMENTS(signals); i++)
        g_unix_signal_add(signals[i], on_signal, service);
    /* Who has it started by a call finds all in its place. */
    service->owner = g_bus_own_name_on_connection(service->bus, "ca.desrt.dconf", G_BUS_NAME_OWNER_FLAGS_DO_NOT_QUEUE, on_name, on_no_name, service, NULL);
    g_main_loop_run(service->loop);
    bool is_over = service_stop_writing(service);
    /* It fails where the bus is gone. */
    g_dbus_connection_flush_sync(service->bus, NULL, NULL);
    if (is_over)
        return;
    if (service->left == DCONFDB_SERVED_LATE)
        say("what was asked for last isn't on the disk");
    /* The thread ends with the process, whatever it is amid: nothing is lost by that which was acknowledged. */
    _exit(service->left != DCONFDB_SERVED_ENDS);
}

static void clear(Service *service)
{
    g_clear_handle_id(&service->owner, g_bus_unown_name);
    g_clear_pointer(&service->interfaces, g_dbus_node_info_unref);
    if (service->blame) /* GDBus's own thread may be asking whether there was one */
        blame_free(service->blame);
    g_clear_object(&service->bus);
    g_hash_table_unref(service->writers);
    g_main_loop_unref(service->loop);
    free(service->files);
    place_release(&service->place);
}

static void make_folder(const char *path)
{
    int fault = folder_make(path);
    if (fault != 0)
        g_printerr("dconfdb-service: %s: %s\n", path, g_strerror(fault));
}

static void make_flags(const StorePlace *place)
{
    g_autofree char *flags = g_build_filename(place->runtime, "dconf", NULL);
    make_folder(flags);
}

/* False: there is no bus. */
static bool begin(Service *service)
{
    const StorePlace *place = &service->place;
    uint32_t task = DCONFDB_BEGINS_SERVING;
    if (!connect_bus(service))
        return false;
    while ((task = dconfdb_served_begins(task, place->is_dconfs, place->lent.runtime.len)) < DCONFDB_BEGINS_SERVES) {
        switch (task) {
        case DCONFDB_BEGINS_FOLDER: make_folder(place->folder); break;
        case DCONFDB_BEGINS_FLAGS: make_flags(place); break;
        default: open_user(service); break;
        }
    }
    return true;
}

/* False: it can't be found, which is said. */
static bool find(const char *folder, Service *service)
{
    bool are_all;
    DconfdbError error = DCONFDB_ERROR_INIT;
    bool has_place = place_find(folder, &service->place, &error);
    service->files = has_place ? place_files(&service->place, &service->profiles, &are_all, &error) : NULL;
    if (service->files)
        return true;
    if (has_place)
        place_release(&service->place);
    say(error.text);
    return false;
}

static int serve(const char *folder)
{
    static Service service;
    if (!find(folder, &service))
        return 1;
    service.loop = g_main_loop_new(NULL, FALSE);
    service.writers = g_hash_table_new_full(g_str_hash, g_str_equal, NULL, (GDestroyNotify)writer_free);
    bool is_ready = begin(&service), is_running = is_ready && service_begin_writing(&service);
    if (is_running)
        run(&service);
    else if (is_ready && service_stop_writing(&service))
        say("no thread can be had");
    bool has_failed = !is_running || service.has_failed;
    clear(&service);
    return has_failed;
}

int main(int count, char **words)
{
    g_autofree char *folder = NULL;
    g_autoptr(GError) error = NULL;
    const GOptionEntry options[] = {{"store", 0, 0, G_OPTION_ARG_FILENAME, &folder, "The store's folder, and not the user's own", "FOLDER"}, {0}};
    g_autoptr(GOptionContext) context = g_option_context_new("- write settings for programs with dconf's library");
    g_option_context_add_main_entries(context, options, NULL);
    if (!g_option_context_parse(context, &count, &words, &error)) {
        say(error->message);
        return 2;
    }
    if (count == 1)
        return serve(folder);
    say("there are no words but options");
    return 2;
}
