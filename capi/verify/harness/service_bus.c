/* service/bus.c: each call is answered once, or its change waits. Whether the database can be opened, and what waits already, is anything. */
#include "service/bus.c"
#include "glib_world.h"
#include "machines/served.h"
#include "world.h"

#include <stdlib.h>

/* narrows libdconfdb/dconfdb.h: char text[512]; => char text[8]; */

static Service service;
static Writer writer;
static Change a_change;
static GDBusMessage call;
static GDBusMethodInvocation invocation;
static DconfdbServed known_now;
static unsigned added, recorded, registered, passed;
static bool is_made, is_asked, is_filtered;

uint32_t dconfdb_served_after(uint32_t done, const DconfdbServed *known)
{
    if (done == DCONFDB_SERVED_ANSWERED)
        return served_given(done, known);
    if (done == DCONFDB_SERVED_USED) {
        CHECK(is_asked, "order: a change is taken before its database is opened");
        return served_given(done, known);
    }
    CHECK(done == DCONFDB_SERVED_CAME && known->size == known_now.size && known->waiting == known_now.waiting, "answer: what is known of what waits");
    is_asked = true;
    return served_given(done, known);
}

DconfdbServed service_knows(Service *at, size_t size)
{
    CHECK(at == &service, "step: of the service");
    return known_now = (DconfdbServed){.size = size, .waiting = any_u64(), .waiting_size = any_u64(), .names = any_u64()};
}

gboolean g_hash_table_contains(GHashTable *table, gconstpointer key)
{
    CHECK(table == service.writers && strcmp(key, "a") == 0, "step: whether the database that is named is in use");
    return any_bool();
}

Writer *writer_named(Service *at, const char *name, DconfdbError *error)
{
    CHECK(at == &service && strcmp(name, "a") == 0 && known_now.size <= 67108864, "step: the database that is named, of a change that is taken");
    if (any_bool())
        return &writer;
    error->text[0] = 0;
    return NULL;
}

Change *change_new(Writer *of, GDBusMessage *at)
{
    CHECK(of == &writer && at == &call && call.references == 1 && call.answers == 0 && !is_made, "step: a change, with its call");
    is_made = true;
    return &a_change;
}

void service_add(Service *at, Change *change)
{
    CHECK(at == &service && change == &a_change && is_made, "step: what is made waits");
    added++;
}

void blame_record(Blame *blame, GDBusMethodInvocation *at)
{
    CHECK(blame == service.blame && at == &invocation && invocation.references == 1 && call.answers == 0, "order: who called is known before it is answered");
    recorded++;
}

const char *blame_text(const Blame *blame)
{
    CHECK(blame == service.blame, "step: of the service");
    return "";
}

/* ---- what a message is of: what a change's is, or another one's */

static const char *const paths[] = {"/ca/desrt/dconf/Writer/a", "/ca/desrt/dconf/Writer/a/a", "/ca/desrt/dconf/a", NULL};
static unsigned of_path;
static bool of_other_kind, of_other_interface, of_other_member, of_other_words;

GDBusMessageType g_dbus_message_get_message_type(GDBusMessage *at)
{
    CHECK(at == &call, "memory: a message that is had");
    return of_other_kind ? G_DBUS_MESSAGE_TYPE_SIGNAL : G_DBUS_MESSAGE_TYPE_METHOD_CALL;
}

static const char *text_of(const GDBusMessage *at, bool is_other, const char *text)
{
    CHECK(at == &call, "memory: a message that is had");
    return !is_other ? text : of_path == 0 ? NULL : "o";
}

const char *g_dbus_message_get_path(GDBusMessage *at) { return at == &call ? paths[of_path] : NULL; }
const char *g_dbus_message_get_interface(GDBusMessage *at) { return text_of(at, of_other_interface, "ca.desrt.dconf.Writer"); }
const char *g_dbus_message_get_member(GDBusMessage *at) { return text_of(at, of_other_member, "Change"); }
const char *g_dbus_message_get_signature(GDBusMessage *at) { return text_of(at, of_other_words, "ay"); }

size_t dconfdb_changed_database(bool is_call, const uint8_t *object, size_t object_len, const uint8_t *interface, size_t interface_len,
                                const uint8_t *member, size_t member_len, const uint8_t *signature, size_t signature_len)
{
    CHECK(__CPROVER_r_ok(object, object_len) && __CPROVER_r_ok(interface, interface_len) && __CPROVER_r_ok(member, member_len), "memory: texts that are there");
    CHECK(__CPROVER_r_ok(signature, signature_len) && is_call == !of_other_kind && (object_len == 0) == (of_path == 3), "answer: what the message says");
    CHECK((interface_len == 21) == !of_other_interface && (member_len == 6) == !of_other_member && (signature_len == 2) == !of_other_words,
          "answer: each text in its place");
    return is_call && of_path == 0 && interface_len == 21 && member_len == 6 && signature_len == 2 ? 23 : 0;
}

static bool is_some_message(void)
{
    of_path = any_u32();
    GIVEN(of_path < 4);
    of_other_kind = any_bool();
    of_other_interface = any_bool();
    of_other_member = any_bool();
    of_other_words = any_bool();
    return of_path == 0 && !of_other_kind && !of_other_interface && !of_other_member && !of_other_words;
}

void service_has_passed(Service *at)
{
    CHECK(at == &service && (call.references == 0 || added == 1), "order: none that came later is taken before it");
    passed++;
}

/* harness service_calls: unwind 32, with glib.c gdbus.c, quick */
int service_calls(void)
{
    static const char object[] = "/a";
    int what = any_int();
    bool is_one = is_some_message();
    service.blame = any_bool() ? (Blame *)(void *)&writer : NULL;
    call_begin(&call);
    invocation_begin(&invocation, &call);
    if (what == 0)
        call_writer(NULL, ":1", object, "i", "Init", NULL, &invocation, &service);
    else if (what == 1)
        call_writer(NULL, ":1", object, "i", "Change", NULL, &invocation, &service);
    else if (what == 2)
        call_info(NULL, ":1", object, "i", "Blame", NULL, &invocation, &service);
    else
        call_unsupported(NULL, ":1", object, "i", "Change", NULL, &invocation, &service);
    CHECK(recorded == 1 && invocation.references == 0, "step: each call is recorded once");
    CHECK(call.references + (int)(call.is_silent ? 0 : call.answers) == (call.is_silent ? (int)added : 1), "answer: each call is answered once, or its change waits");
    CHECK(call.references == (int)added && (added == 1) == is_made, "answer: what is made waits");
    CHECK(what != 0 || !call.is_refused, "answer: there is nothing to be made ready");
    CHECK(what <= 0 || what == 2 || is_asked, "answer: what becomes of a change is asked");
    CHECK(passed == (what == 1 && is_one), "answer: what was on its way has come");
    if (added == 1)
        REACHED("a change that waits");
    if (what == 1 && call.answers == 1)
        REACHED("a change that is refused");
    if (added == 1)
        call_refuse(&service, &call, DCONFDB_SERVED_LATE, NULL);
    call_end(&call);
    CHECK(values_had == 0, "memory: each value is given back");
    return 0;
}

bool service_takes(Service *at, const char *name, GDBusMessage *message)
{
    CHECK(at == &service && strcmp(name, "a") == 0 && message == &call && !is_asked, "step: a change, of the database that is named");
    is_asked = true;
    return is_made = any_bool();
}

/* harness service_message: unwind 32, with glib.c gdbus.c, quick */
int service_message(void)
{
    bool is_one = is_some_message(), comes = any_bool();
    GDBusMessage *left = take(NULL, &call, comes, &service);
    CHECK(is_asked == (is_one && comes), "step: whether it is taken is asked of each change that comes, and of nothing else");
    CHECK(left == (is_made ? NULL : &call), "memory: a message has one owner");
    if (is_made)
        REACHED("it is taken");
    if (is_asked && !is_made)
        REACHED("it is one for the main thread");
    return 0;
}

/* harness service_refusal: unwind 4, with glib.c gdbus.c, quick */
int service_refusal(void)
{
    uint32_t served = any_u32();
    GIVEN((served > DCONFDB_SERVED_ACKNOWLEDGED && served <= DCONFDB_SERVED_LATE) || served == DCONFDB_SERVED_UNSUPPORTED);
    call_begin(&call);
    call_refuse(&service, &call, served, served == DCONFDB_SERVED_FAILED || served == DCONFDB_SERVED_CLOSED ? "w" : NULL);
    CHECK(call.is_refused || call.is_silent, "answer: it is refused");
    call_end(&call);
    REACHED("it is refused");
    return 0;
}

/* ---- what is registered. It fails with an error. */

static GDBusInterfaceInfo interfaces_had[2], *interface_list[2] = {&interfaces_had[0], &interfaces_had[1]};
static GDBusNodeInfo node = {interface_list};

static guint some_number_or(GError **error)
{
    if (any_bool())
        return ++registered;
    *error = g_malloc(sizeof **error);
    **error = (GError){1, "e"};
    return 0;
}

GDBusNodeInfo *g_dbus_node_info_new_for_xml(const char *text, GError **error)
{
    CHECK(text == interfaces && !*error, "step: the interfaces");
    return some_number_or(error) > 0 ? &node : NULL;
}

guint g_dbus_connection_register_subtree(GDBusConnection *bus, const char *path, const GDBusSubtreeVTable *table, gint flags, gpointer data,
                                         GDestroyNotify frees, GError **error)
{
    (void)bus, (void)flags, (void)frees;
    CHECK(path && (table == &writers || table == &unsupported) && data == &service && !*error, "step: objects of the service");
    return some_number_or(error);
}

guint g_dbus_connection_register_object(GDBusConnection *bus, const char *path, GDBusInterfaceInfo *interface, const GDBusInterfaceVTable *table,
                                        gpointer data, GDestroyNotify frees, GError **error)
{
    (void)bus, (void)path, (void)frees;
    CHECK(interface == &interfaces_had[1] && table == &info_calls && data == &service && !*error, "step: what is asked of the service");
    return some_number_or(error);
}

Blame *blame_new(void) { return any_bool() ? (Blame *)(void *)&node : NULL; }

void g_error_free(GError *error)
{
    CHECK(error->code == 1, "memory: what is freed is had");
    free(error);
}

guint g_dbus_connection_add_filter(GDBusConnection *bus, GDBusMessageFilterFunction filter, gpointer data, GDestroyNotify frees)
{
    (void)bus, (void)frees;
    CHECK(filter == take && data == &service && registered >= 4, "step: changes are taken once all is there");
    is_filtered = true;
    return 1;
}

/* harness service_register: unwind 4, with glib.c gdbus.c, quick */
int service_register(void)
{
    bool is = bus_register(&service);
    CHECK(is == (registered == (service.blame ? 5 : 4)), "answer: all is registered, or that is told");
    CHECK(is_filtered == is, "step: changes are taken where all is there");
    if (is && service.blame)
        REACHED("all is registered");
    return 0;
}
