/* Prints what each call of libdconf answers to what it must not be given: each in a child of its own, since some abort; with the messages of the log. */
#include <dconf.h>
#include <stdio.h>
#include <stdlib.h>
#include <string.h>
#include <sys/wait.h>
#include <unistd.h>

static void print_message(const gchar *domain, GLogLevelFlags level, const gchar *text, gpointer data)
{
    (void)data;
    if ((level & (G_LOG_LEVEL_DEBUG | G_LOG_LEVEL_INFO)) != 0)
        return;
    printf("  %s %d: %s\n", domain ? domain : "-", (int)level & G_LOG_LEVEL_MASK & ~G_LOG_FLAG_FATAL, text);
    fflush(stdout);
}

static GLogWriterOutput write_message(GLogLevelFlags level, const GLogField *fields, gsize count, gpointer data)
{
    const char *domain = NULL, *text = "";
    for (gsize i = 0; i < count; i++) {
        if (strcmp(fields[i].key, "MESSAGE") == 0)
            text = fields[i].value;
        if (strcmp(fields[i].key, "GLIB_DOMAIN") == 0)
            domain = fields[i].value;
    }
    print_message(domain, level, text, data);
    return G_LOG_WRITER_HANDLED;
}

static void print_error(gboolean answer, GError *error)
{
    printf("  %d", answer);
    if (error)
        printf(" %s %d %s", g_quark_to_string(error->domain), error->code, error->message);
    printf("\n");
    g_clear_error(&error);
}

static void print_value(GVariant *value)
{
    char *text = value ? g_variant_print(value, TRUE) : g_strdup("NULL");
    printf("  %s\n", text);
    g_free(text);
    g_clear_pointer(&value, g_variant_unref);
}

static int by_text(const void *one, const void *other)
{
    return strcmp(*(char *const *)one, *(char *const *)other);
}

/* Names and rows come in any order from dconf. */
static void print_list(gchar **list, gint length)
{
    if (list)
        qsort(list, g_strv_length(list), sizeof *list, by_text);
    printf("  %d", length);
    for (gchar **at = list; at && *at; at++)
        printf(" %s", *at);
    printf("%s\n", list ? "" : " NULL");
    g_strfreev(list);
}

static gboolean print_row(const gchar *path, GVariant *value, gpointer data)
{
    char *text = value ? g_variant_print(value, TRUE) : g_strdup("nothing");
    g_ptr_array_add(data, g_strdup_printf("%s: %s", path, text));
    g_free(text);
    return TRUE;
}

static void print_set(DConfChangeset *set)
{
    GPtrArray *rows = g_ptr_array_new_with_free_func(g_free);
    if (set)
        dconf_changeset_all(set, print_row, rows);
    if (rows->len > 0)
        qsort(rows->pdata, rows->len, sizeof(gpointer), by_text);
    printf("  %s", set ? "set" : "NULL");
    for (guint i = 0; i < rows->len; i++)
        printf(", %s", (char *)rows->pdata[i]);
    printf("\n");
    g_ptr_array_unref(rows);
    g_clear_pointer(&set, dconf_changeset_unref);
}

static DConfClient *client;
static int number;

/* A case in a child, since some end it. */
#define CASE(...) \
    do { \
        printf("case %d %s\n", number++, #__VA_ARGS__); \
        fflush(stdout); \
        pid_t child = fork(); \
        if (child == 0) { \
            __VA_ARGS__; \
            fflush(stdout); \
            _exit(0); \
        } \
        int status = 0; \
        waitpid(child, &status, 0); \
        if (status != 0) \
            printf("  ended by %s %d\n", WIFSIGNALED(status) ? "signal" : "status", WIFSIGNALED(status) ? WTERMSIG(status) : WEXITSTATUS(status)); \
    } while (0)

static GVariant *five(void) { return g_variant_new_int32(5); }

static const char *const TEXTS[] = {NULL, "", "/", "a", "a/", "/a", "/a/", "//", "/a//b", "a//", "/a/b/", "a/b", "a//b/", "/a/b//", "/a/k"};

static void of_paths(void)
{
    gboolean (*const calls[])(const gchar *, GError **) = {dconf_is_path, dconf_is_key, dconf_is_dir, dconf_is_rel_path, dconf_is_rel_key, dconf_is_rel_dir};
    for (size_t i = 0; i < G_N_ELEMENTS(TEXTS); i++) {
        for (size_t j = 0; j < G_N_ELEMENTS(calls); j++) {
            GError *error = NULL;
            printf("case path %s %zu\n", TEXTS[i] ? TEXTS[i] : "NULL", j);
            gboolean is = calls[j](TEXTS[i], &error);
            print_error(is, error);
            if (is != calls[j](TEXTS[i], NULL))
                printf("  otherwise without an error\n");
        }
    }
}

static void of_client(DConfClient *it)
{
    for (size_t i = 0; i < G_N_ELEMENTS(TEXTS); i++) {
        const char *text = TEXTS[i];
        gint length = -1;
        GError *error = NULL;
        gchar *tag = NULL;
        printf("case client %d %s\n", it != NULL, text ? text : "NULL");
        CASE(print_value(dconf_client_read(it, text)));
        CASE(print_value(dconf_client_read_full(it, text, DCONF_READ_USER_VALUE, NULL)));
        CASE(print_value(dconf_client_read_full(it, text, DCONF_READ_DEFAULT_VALUE, NULL)));
        CASE(print_value(dconf_client_read_full(it, text, DCONF_READ_DEFAULT_VALUE | DCONF_READ_USER_VALUE, NULL)));
        CASE(gchar **list = dconf_client_list(it, text, &length); print_list(list, length));
        CASE(gchar **list = dconf_client_list(it, text, NULL); print_list(list, -2));
        CASE(gchar **list = dconf_client_list_locks(it, text, &length); print_list(list, length));
        CASE(gchar **list = dconf_client_list_locks(it, text, NULL); print_list(list, -2));
        CASE(printf("  %d\n", dconf_client_is_writable(it, text)));
        CASE(gboolean is = dconf_client_write_fast(it, text, five(), &error); print_error(is, error));
        CASE(gboolean is = dconf_client_write_sync(it, text, five(), &tag, NULL, &error); print_error(is, error); printf("  %d\n", tag != NULL));
        CASE(gboolean is = dconf_client_write_fast(it, text, NULL, &error); print_error(is, error));
        CASE(gboolean is = dconf_client_write_sync(it, text, NULL, &tag, NULL, &error); print_error(is, error); printf("  %d\n", tag != NULL));
        CASE(dconf_client_watch_fast(it, text));
        CASE(dconf_client_watch_sync(it, text));
        CASE(dconf_client_unwatch_fast(it, text));
        CASE(dconf_client_unwatch_sync(it, text));
    }
}

static gboolean always(const gchar *path, GVariant *value, gpointer data) { return path && (value || !data); }

static void of_changesets(void)
{
    for (size_t i = 0; i < G_N_ELEMENTS(TEXTS); i++) {
        const char *text = TEXTS[i];
        GVariant *value = NULL;
        printf("case changeset %s\n", text ? text : "NULL");
        CASE(DConfChangeset *set = dconf_changeset_new(); dconf_changeset_set(set, text, five()); print_set(set));
        CASE(DConfChangeset *set = dconf_changeset_new(); dconf_changeset_set(set, text, NULL); print_set(set));
        CASE(DConfChangeset *set = dconf_changeset_new_database(NULL); dconf_changeset_set(set, text, five()); print_set(set));
        CASE(DConfChangeset *set = dconf_changeset_new_database(NULL); dconf_changeset_set(set, text, NULL); print_set(set));
        CASE(print_set(dconf_changeset_new_write(text, five())));
        CASE(print_set(dconf_changeset_new_write(text, NULL)));
        CASE(DConfChangeset *set = dconf_changeset_new_write("/a/k", five()); printf("  %d\n", dconf_changeset_get(set, text, &value)); print_value(value));
        CASE(DConfChangeset *set = dconf_changeset_new_write("/a/", NULL); printf("  %d\n", dconf_changeset_get(set, text, &value)); print_value(value));
        CASE(DConfChangeset *set = dconf_changeset_new(); dconf_changeset_seal(set); dconf_changeset_set(set, text, five()); print_set(set));
    }
}

static void of_pairs(void)
{
    DConfChangeset *set = dconf_changeset_new_write("/a/k", five()), *empty = dconf_changeset_new(), *sealed = dconf_changeset_new_write("/b", five());
    DConfChangeset *database = dconf_changeset_new_database(NULL), *none = NULL;
    const gchar *prefix = "-";
    const gchar *const *paths = NULL;
    GVariant *const *values = NULL;
    GError *error = NULL;
    gchar *tag = NULL;
    dconf_changeset_set(database, "/a/k", five());
    dconf_changeset_seal(sealed);
    CASE(dconf_changeset_change(set, database); print_set(set));
    CASE(dconf_changeset_change(database, set); print_set(database));
    CASE(dconf_changeset_change(sealed, set); print_set(sealed));
    CASE(dconf_changeset_change(set, sealed); print_set(set));
    CASE(dconf_changeset_change(set, set); print_set(set));
    CASE(dconf_changeset_change(none, set));
    CASE(dconf_changeset_change(set, none); print_set(set));
    CASE(print_set(dconf_changeset_new_database(set)));
    CASE(print_set(dconf_changeset_new_database(database)));
    CASE(print_set(dconf_changeset_filter_changes(set, database)));
    CASE(print_set(dconf_changeset_filter_changes(database, database)));
    CASE(print_set(dconf_changeset_filter_changes(set, set)));
    CASE(print_set(dconf_changeset_filter_changes(none, set)));
    CASE(print_set(dconf_changeset_filter_changes(database, none)));
    CASE(print_set(dconf_changeset_filter_changes(database, set)));
    CASE(print_set(dconf_changeset_filter_changes(database, sealed)));
    CASE(print_set(dconf_changeset_diff(set, database)));
    CASE(print_set(dconf_changeset_diff(database, set)));
    CASE(print_set(dconf_changeset_diff(database, database)));
    CASE(print_set(dconf_changeset_diff(none, database)));
    CASE(print_set(dconf_changeset_diff(database, none)));
    CASE(printf("  %d\n", dconf_changeset_is_similar_to(set, database)));
    CASE(printf("  %d\n", dconf_changeset_is_similar_to(none, database)));
    CASE(printf("  %d\n", dconf_changeset_is_similar_to(set, none)));
    CASE(printf("  %d\n", dconf_changeset_is_empty(none)));
    CASE(printf("  %d\n", dconf_changeset_all(none, always, NULL)));
    CASE(printf("  %d\n", dconf_changeset_all(set, NULL, NULL)));
    CASE(printf("  %d\n", dconf_changeset_all(empty, NULL, NULL)));
    CASE(printf("  %u\n", dconf_changeset_describe(none, &prefix, &paths, &values)));
    CASE(printf("  %u\n", dconf_changeset_describe(set, NULL, NULL, NULL)));
    CASE(printf("  %u\n", dconf_changeset_describe(empty, &prefix, &paths, &values)); printf("  %s %d %d\n", prefix ? prefix : "NULL", paths != NULL, values != NULL));
    CASE(printf("  %u\n", dconf_changeset_describe(database, &prefix, &paths, &values)); printf("  %s %s\n", prefix, paths[0]));
    CASE(dconf_changeset_seal(none));
    CASE(dconf_changeset_unref(none));
    CASE(printf("  %d\n", dconf_changeset_ref(none) == NULL));
    CASE(dconf_changeset_serialise(none));
    CASE(print_set(dconf_changeset_deserialise(NULL)));
    CASE(print_set(dconf_changeset_deserialise(g_variant_ref_sink(five()))));
    CASE(print_set(dconf_changeset_deserialise(g_variant_ref_sink(g_variant_new_parsed("{'/a/': @mv <1>, 'x': @mv <2>, '/b/': @mv nothing, '/b//': @mv nothing}")))));
    CASE(print_set(dconf_changeset_deserialise(g_variant_ref_sink(g_variant_new_parsed("@a{smv} {}")))));
    CASE(gboolean is = dconf_client_change_fast(client, none, &error); print_error(is, error));
    CASE(gboolean is = dconf_client_change_sync(client, none, &tag, NULL, &error); print_error(is, error));
    CASE(gboolean is = dconf_client_change_fast(client, empty, &error); print_error(is, error));
    CASE(gboolean is = dconf_client_change_sync(client, empty, &tag, NULL, &error); print_error(is, error); printf("  %s\n", tag ? tag : "NULL"));
    CASE(gboolean is = dconf_client_change_fast(NULL, set, &error); print_error(is, error));
    CASE(gboolean is = dconf_client_change_sync(NULL, set, &tag, NULL, &error); print_error(is, error));
    CASE(dconf_client_change_fast(client, empty, NULL); dconf_changeset_set(empty, "/a/k", five()));
    CASE(dconf_client_change_sync(client, empty, NULL, NULL, NULL); dconf_changeset_set(empty, "/a/k", five()));
    CASE(dconf_client_sync(NULL));
}

int main(void)
{
    g_log_set_default_handler(print_message, NULL);
    g_log_set_writer_func(write_message, NULL, NULL);
    client = dconf_client_new();
    of_paths();
    of_changesets();
    of_pairs();
    of_client(NULL);
    of_client(client);
    return 0;
}
