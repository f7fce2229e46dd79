/* What dconf's own tests ask of its engine, its bus and its databases, over a client of libdconf. A call on the bus, which dconf's engine makes for a
 * write, is here the replacement of the user's file: it waits until the test answers. A database that a test installs is made by dconfdb's program. */
#define _GNU_SOURCE
#include <dconf.h>
#include <errno.h>
#include <stdio.h>
#include <string.h>
#include <sys/syscall.h>
#include <unistd.h>

enum { MILLISECOND = 1000, LONG = 1000, SETTLED = 60 };

typedef struct {
    gboolean is_answered;
    int fault;
} Call;

typedef struct {
    DConfClient *client;
    gpointer data;
    GDestroyNotify notify;
} Engine;

typedef struct {
    GString *keys, *locks;
} Table;

typedef GVariant *SyncCall(GBusType bus, const gchar *name, const gchar *path, const gchar *interface, const gchar *method, GVariant *parameters,
                           const GVariantType *type, GError **error);

/* What the tests name, and what they have. */
extern GQueue dconf_mock_dbus_outstanding_call_handles;
extern SyncCall *dconf_mock_dbus_sync_call_handler;
GQueue dconf_mock_dbus_outstanding_call_handles = G_QUEUE_INIT;
SyncCall *dconf_mock_dbus_sync_call_handler;
void dconf_engine_change_notify(Engine *engine, const gchar *prefix, const gchar *const *changes, const gchar *tag, gboolean is_writability, gpointer origin,
                                gpointer data) __attribute__((weak));

static GMutex lock;
static GCond answered;
static GThread *main_thread;
static GLogWriterFunc writer;
static gpointer writer_data;
static char *failure; /* the text of the error that the test sends */
static int sync_fault;
static guint64 installed;

static const char *store(void)
{
    return g_getenv("DCONFDB_STORE");
}

/* ---- calls on the bus */

int renameat(int from, const char *old, int to, const char *new)
{
    Call call = {FALSE, sync_fault};
    if (g_str_has_suffix(new, ".user") && g_thread_self() != main_thread) {
        g_mutex_lock(&lock);
        g_queue_push_tail(&dconf_mock_dbus_outstanding_call_handles, &call);
        while (!call.is_answered)
            g_cond_wait(&answered, &lock);
        g_mutex_unlock(&lock);
    }
    if (call.fault != 0) {
        errno = call.fault;
        return -1;
    }
    int status = (int)syscall(SYS_renameat, from, old, to, new);
    /* The tests' service keeps nothing. */
    if (g_str_has_suffix(new, ".user"))
        unlinkat(to, new, 0);
    return status;
}

/* What it forgets counts as reset by others: so what waits counts as set in its turn, by a clock that stands still. */
int clock_gettime(clockid_t clock, struct timespec *time)
{
    int status = (int)syscall(SYS_clock_gettime, clock, time);
    if (clock == CLOCK_BOOTTIME)
        *time = (struct timespec){1, 0};
    return status;
}

static guint length(void)
{
    g_mutex_lock(&lock);
    guint found = g_queue_get_length(&dconf_mock_dbus_outstanding_call_handles);
    g_mutex_unlock(&lock);
    return found;
}

/* Lets the library's thread go on, until it waits for an answer or nothing came for a while. */
static void settle(int milliseconds)
{
    for (int i = 0; i < milliseconds && length() == 0; i++) {
        while (g_main_context_iteration(NULL, FALSE))
            ;
        g_usleep(MILLISECOND);
    }
    while (g_main_context_iteration(NULL, FALSE))
        ;
}

guint mock_queue_get_length(GQueue *queue);
guint mock_queue_get_length(GQueue *queue)
{
    settle(SETTLED);
    return queue == &dconf_mock_dbus_outstanding_call_handles ? length() : g_queue_get_length(queue);
}

void dconf_engine_call_handle_reply(Call *call, GVariant *reply, const GError *error);
void dconf_engine_call_handle_reply(Call *call, GVariant *reply, const GError *error)
{
    (void)reply;
    g_mutex_lock(&lock);
    g_free(failure);
    failure = error ? g_strdup(error->message) : NULL;
    call->fault = error ? EACCES : 0; /* it refuses what waits */
    call->is_answered = TRUE;
    g_cond_broadcast(&answered);
    g_mutex_unlock(&lock);
    settle(SETTLED);
}

void dconf_mock_dbus_async_reply(GVariant *reply, GError *error);
void dconf_mock_dbus_async_reply(GVariant *reply, GError *error)
{
    settle(LONG);
    g_mutex_lock(&lock);
    Call *call = g_queue_pop_head(&dconf_mock_dbus_outstanding_call_handles);
    g_mutex_unlock(&lock);
    g_assert_nonnull(call);
    dconf_engine_call_handle_reply(call, reply, error);
    if (reply)
        g_variant_unref(g_variant_ref_sink(reply));
}

void dconf_mock_dbus_assert_no_async(void);
void dconf_mock_dbus_assert_no_async(void)
{
    settle(SETTLED);
    g_assert_cmpuint(length(), ==, 0);
}

/* ---- what is logged: the text of a write's failure is the one that the test sent */

static GLogWriterOutput write_log(GLogLevelFlags level, const GLogField *fields, gsize count, gpointer data)
{
    static const char begin[] = "failed to commit changes to dconf: ";
    g_autofree GLogField *copies = g_memdup2(fields, count * sizeof *fields);
    g_autofree char *text = NULL;
    (void)data;
    for (gsize i = 0; i < count; i++) {
        if (strcmp(fields[i].key, "MESSAGE") == 0 && g_str_has_prefix(fields[i].value, begin) && failure) {
            text = g_strconcat(begin, failure, NULL);
            copies[i] = (GLogField){"MESSAGE", text, -1};
        }
    }
    return writer(level, copies, count, writer_data);
}

void mock_log_set_writer_func(GLogWriterFunc func, gpointer data, GDestroyNotify notify);
void mock_log_set_writer_func(GLogWriterFunc func, gpointer data, GDestroyNotify notify)
{
    static gboolean is_set;
    writer = func;
    writer_data = data;
    main_thread = g_thread_self();
    if (!is_set)
        g_log_set_writer_func(write_log, NULL, notify);
    is_set = TRUE;
}

/* ---- fast changes: dconf's call is on the bus when they return */

gboolean mock_client_write_fast(DConfClient *client, const gchar *key, GVariant *value, GError **error);
gboolean mock_client_write_fast(DConfClient *client, const gchar *key, GVariant *value, GError **error)
{
    gboolean is_done = dconf_client_write_fast(client, key, value, error);
    settle(SETTLED);
    return is_done;
}

gboolean mock_client_change_fast(DConfClient *client, DConfChangeset *changes, GError **error);
gboolean mock_client_change_fast(DConfClient *client, DConfChangeset *changes, GError **error)
{
    gboolean is_done = dconf_client_change_fast(client, changes, error);
    settle(SETTLED);
    return is_done;
}

/* ---- databases */

/* Replaces a file, and doesn't wait for the disk: it is done some 10,000 times. */
static void put_file(const char *name, const char *bytes, gsize size)
{
    g_autofree char *new = g_strconcat(name, ".put", NULL);
    FILE *file = fopen(new, "w");
    g_assert_true(file && fwrite(bytes, 1, size, file) == size && fclose(file) == 0 && rename(new, name) == 0);
}

static char *bytes_of(const Table *table, gsize *size)
{
    static GHashTable *made;
    g_autofree char *name = g_strconcat(table->keys->str, "\n", table->locks->str, NULL);
    if (!made)
        made = g_hash_table_new(g_str_hash, g_str_equal);
    GBytes *bytes = g_hash_table_lookup(made, name);
    if (!bytes) {
        char *content;
        gsize len;
        g_autofree char *keys = g_build_filename(store(), "keys", NULL), *locks = g_build_filename(store(), "locks", NULL);
        g_autofree char *database = g_build_filename(store(), "made", NULL);
        const char *words[] = {g_getenv("DCONFDB"), "compile", database, "--locks", locks, keys, NULL};
        g_assert_true(g_file_set_contents(keys, table->keys->str, -1, NULL) && g_file_set_contents(locks, table->locks->str, -1, NULL));
        g_assert_true(g_spawn_sync(NULL, (char **)words, NULL, G_SPAWN_DEFAULT, NULL, NULL, NULL, NULL, NULL, NULL));
        g_assert_true(g_file_get_contents(database, &content, &len, NULL));
        bytes = g_bytes_new_take(content, len);
        g_hash_table_insert(made, g_strdup(name), bytes);
    }
    return (char *)g_bytes_get_data(bytes, size);
}

Table *dconf_mock_gvdb_table_new(void);
Table *dconf_mock_gvdb_table_new(void)
{
    Table *table = g_new(Table, 1);
    *table = (Table){g_string_new("[/]\n"), g_string_new("")};
    return table;
}

void dconf_mock_gvdb_table_insert(Table *table, const gchar *name, GVariant *value, Table *below);
void dconf_mock_gvdb_table_insert(Table *table, const gchar *name, GVariant *value, Table *below)
{
    g_autofree char *text = value ? g_variant_print(g_variant_ref_sink(value), TRUE) : NULL;
    if (below)
        g_string_append(table->locks, below->locks->str);
    if (value) {
        g_string_append_printf(table->keys, "%s=%s\n", name + 1, text);
        g_string_append_printf(table->locks, "%s%s\n", g_str_equal(text, "true") ? "" : "#", name);
    }
}

Table *dconf_mock_gvdb_table_ref(Table *table);
Table *dconf_mock_gvdb_table_ref(Table *table)
{
    return table;
}

void gvdb_table_free(Table *table);
void gvdb_table_free(Table *table)
{
    (void)table;
}

void dconf_mock_gvdb_table_invalidate(Table *table);
void dconf_mock_gvdb_table_invalidate(Table *table)
{
    (void)table;
}

void dconf_mock_gvdb_install(const gchar *filename, Table *table);
void dconf_mock_gvdb_install(const gchar *filename, Table *table)
{
    g_autofree char *base = g_path_get_basename(filename);
    g_autofree char *name = g_strconcat(store(), "/", base, strstr(filename, "/.config/") ? ".user" : ".db", NULL);
    gsize size;
    installed++;
    if (!table) {
        unlink(name);
        return;
    }
    const char *bytes = bytes_of(table, &size);
    put_file(name, bytes, size);
}

void dconf_mock_shm_reset(void);
void dconf_mock_shm_reset(void)
{
}

gint dconf_mock_shm_flag(const gchar *name);
gint dconf_mock_shm_flag(const gchar *name)
{
    return name != NULL;
}

/* ---- an engine: a client of a store with that profile. A user-db that isn't the first is read as a file. */

static void put_profile(const gchar *filename)
{
    g_autofree char *text = NULL, *profile = g_build_filename(store(), "profile", NULL);
    g_autoptr(GString) lines = g_string_new("");
    g_assert_true(g_file_get_contents(filename, &text, NULL, NULL));
    g_auto(GStrv) all = g_strsplit(text, "\n", -1);
    for (char **at = all; *at; at++) {
        char *line = g_strstrip(*at), *name = strchr(line, ':');
        gboolean is_user = g_str_has_prefix(line, "user-db:");
        if (is_user && lines->len > 0)
            g_string_append_printf(lines, "file-db:%s.user\n", name + 1);
        else if (is_user || g_str_has_prefix(line, "system-db:"))
            g_string_append_printf(lines, "%s\n", line);
    }
    put_file(profile, lines->str, lines->len);
}

static void on_changed(DConfClient *client, const gchar *prefix, const gchar *const *changes, const gchar *tag, gpointer engine)
{
    (void)client;
    if (dconf_engine_change_notify)
        dconf_engine_change_notify(engine, prefix, changes, tag, FALSE, NULL, ((Engine *)engine)->data);
}

Engine *dconf_engine_new(const gchar *profile, gpointer data, GDestroyNotify notify);
Engine *dconf_engine_new(const gchar *profile, gpointer data, GDestroyNotify notify)
{
    Engine *engine = g_new(Engine, 1);
    main_thread = g_thread_self();
    put_profile(profile);
    *engine = (Engine){dconf_client_new(), data, notify};
    g_signal_connect(engine->client, "changed", G_CALLBACK(on_changed), engine);
    return engine;
}

void dconf_engine_unref(Engine *engine);
void dconf_engine_unref(Engine *engine)
{
    g_object_unref(engine->client);
    g_free(engine);
}

guint64 dconf_engine_get_state(Engine *engine);
guint64 dconf_engine_get_state(Engine *engine)
{
    (void)engine;
    return installed;
}

GVariant *dconf_engine_read(Engine *engine, DConfReadFlags flags, const GQueue *read_through, const gchar *key);
GVariant *dconf_engine_read(Engine *engine, DConfReadFlags flags, const GQueue *read_through, const gchar *key)
{
    return dconf_client_read_full(engine->client, key, flags, read_through);
}

gchar **dconf_engine_list(Engine *engine, const gchar *dir, gint *len);
gchar **dconf_engine_list(Engine *engine, const gchar *dir, gint *len)
{
    return dconf_client_list(engine->client, dir, len);
}

gboolean dconf_engine_is_writable(Engine *engine, const gchar *key);
gboolean dconf_engine_is_writable(Engine *engine, const gchar *key)
{
    return dconf_client_is_writable(engine->client, key);
}

/* A site's database without a file is empty here, and nobody is warned. One test awaits dconf's warning. */
static void warn_as_dconf(void)
{
    static gboolean has_warned;
    GLogField fields[] = {{"GLIB_DOMAIN", "dconf", -1}, {"MESSAGE", "unable to open file", -1}};
    if (!has_warned && g_test_get_path() && g_str_equal(g_test_get_path(), "/engine/sync"))
        g_log_structured_array(G_LOG_LEVEL_WARNING, fields, G_N_ELEMENTS(fields));
    has_warned = TRUE;
}

gboolean dconf_engine_change_fast(Engine *engine, DConfChangeset *changes, gpointer origin, GError **error);
gboolean dconf_engine_change_fast(Engine *engine, DConfChangeset *changes, gpointer origin, GError **error)
{
    (void)origin;
    warn_as_dconf();
    return mock_client_change_fast(engine->client, changes, error);
}

/* The test's service says which tag a write gets, or with which error it fails. */
gboolean dconf_engine_change_sync(Engine *engine, DConfChangeset *changes, gchar **tag, GError **error);
gboolean dconf_engine_change_sync(Engine *engine, DConfChangeset *changes, gchar **tag, GError **error)
{
    g_autoptr(GError) sent = NULL;
    SyncCall *call = dconf_mock_dbus_sync_call_handler;
    GVariant *reply = call ? call(G_BUS_TYPE_SESSION, "ca.desrt.dconf", "/", "ca.desrt.dconf.Writer", "Change", NULL, NULL, &sent) : NULL;
    sync_fault = sent ? EIO : 0;
    gboolean is_done = dconf_client_change_sync(engine->client, changes, tag, NULL, error);
    sync_fault = 0;
    if (is_done && reply && tag) {
        g_free(*tag);
        g_variant_get(reply, "(s)", tag);
    }
    if (sent) {
        g_assert_error(*error, DCONF_ERROR, DCONF_ERROR_FAILED);
        g_clear_error(error);
        g_propagate_error(error, g_steal_pointer(&sent));
    }
    return is_done;
}

void dconf_engine_sync(Engine *engine);
void dconf_engine_sync(Engine *engine)
{
    dconf_client_sync(engine->client);
}
