/* A value, and whether a key takes it: its type, and its range, enumeration or flags. */
#define G_SETTINGS_ENABLE_BACKEND
#include "lint.h"

#include <gio/gsettingsbackend.h>

GVariant *value_of_bytes(const DconfdbBytes *bytes, const DconfdbBytes *type_text)
{
    char *type = g_strndup((const char *)type_text->at, type_text->len);
    GVariant *value = NULL;
    if (g_variant_type_string_is_valid(type)) {
        GBytes *copy = g_bytes_new(bytes->at, bytes->len);
        GVariant *read = g_variant_ref_sink(g_variant_new_from_bytes((const GVariantType *)type, copy, FALSE));
        value = g_variant_get_normal_form(read);
        g_variant_unref(read);
        g_bytes_unref(copy);
    }
    g_free(type);
    return value;
}

/* ---- what GSettings itself makes of a value: an enumeration may have other names, which no public call lists */

/* A backend that has this value at every path. */
typedef struct {
    GSettingsBackend parent;
    GVariant *value;
} OneValue;

typedef GSettingsBackendClass OneValueClass;

GType one_value_get_type(void);

G_DEFINE_TYPE(OneValue, one_value, G_TYPE_SETTINGS_BACKEND)

static GVariant *read_one(GSettingsBackend *backend, const char *path, const GVariantType *type, gboolean is_default)
{
    (void)path, (void)type, (void)is_default;
    return g_variant_ref(((OneValue *)backend)->value);
}

static gboolean is_writable(GSettingsBackend *backend, const char *path)
{
    (void)backend, (void)path;
    return FALSE;
}

static void one_value_class_init(OneValueClass *class)
{
    class->read = read_one;
    class->get_writable = is_writable;
}

static void one_value_init(OneValue *self)
{
    (void)self;
}

/* The settings of a schema at a directory. Those asked for last are kept, since a group's rows come together. */
static GSettings *settings_of(GSettingsSchema *schema, const char *path, size_t len)
{
    static GSettingsSchema *last;
    static char *directory;
    static GSettings *settings;
    if (schema == last && path && strlen(directory) == len && strncmp(directory, path, len) == 0)
        return settings;
    g_clear_object(&settings);
    g_clear_pointer(&directory, g_free);
    last = schema;
    if (!schema)
        return NULL;
    GSettingsBackend *backend = g_object_new(one_value_get_type(), NULL);
    directory = g_strndup(path, len);
    settings = g_settings_new_full(schema, backend, directory);
    g_object_unref(backend);
    return settings;
}

void values_end(void)
{
    settings_of(NULL, NULL, 0);
}

/* Whether GSettings takes a value that is no name of the range's. */
static bool is_other_name(GSettingsSchema *schema, const char *path, GVariant *value)
{
    const char *name = strrchr(path, '/') + 1;
    GSettings *settings = settings_of(schema, path, (size_t)(name - path));
    GSettingsBackend *backend = NULL;
    g_object_get(settings, "backend", &backend, NULL);
    ((OneValue *)backend)->value = value;
    GVariant *taken = g_settings_get_user_value(settings, name);
    bool is = taken != NULL;
    if (taken)
        g_variant_unref(taken);
    g_object_unref(backend);
    return is;
}

/* ---- what is said of it */

enum { LONGEST = 200 };

/* A value as text, so much of it: to be freed. */
static char *shown(GVariant *value)
{
    char *text = g_variant_print(value, FALSE);
    if (strlen(text) <= LONGEST)
        return text;
    char *end = text + LONGEST;
    while (end > text && ((unsigned char)*end & 0xc0) == 0x80)
        end--;
    *end = 0;
    char *cut = g_strconcat(text, "..", NULL);
    g_free(text);
    return cut;
}

/* What a key takes, in words: to be freed. */
static char *words_of_range(GSettingsSchemaKey *key)
{
    const char *kind = NULL;
    GVariant *what = NULL, *range = g_settings_schema_key_get_range(key);
    g_variant_get(range, "(&sv)", &kind, &what);
    char *text = shown(what), *words;
    if (strcmp(kind, "range") == 0)
        words = g_strconcat("in the range ", text, NULL);
    else if (strcmp(kind, "flags") == 0)
        words = g_strconcat("made of the flags ", text, NULL);
    else
        words = g_strconcat("one of ", text, NULL);
    g_variant_unref(what);
    g_variant_unref(range);
    g_free(text);
    return words;
}

void find_not_taken(Place at, const char *path, const GPtrArray *keys, GVariant *value)
{
    Known *first = g_ptr_array_index(keys, 0);
    if (!first->takes)
        first->takes = words_of_range(first->key);
    char *text = shown(value);
    find(DCONFDB_FOUND_NOT_TAKEN, at, "%s: %s is not %s", path, text, first->takes);
    g_free(text);
}

void find_other_type(Place at, const char *path, const GPtrArray *keys, GVariant *value)
{
    const Known *first = g_ptr_array_index(keys, 0);
    char *text = g_variant_type_dup_string(g_settings_schema_key_get_value_type(first->key));
    find(DCONFDB_FOUND_OTHER_TYPE, at, "%s: the value is of type %s, and the key of type %s", path, g_variant_get_type_string(value), text);
    g_free(text);
}

/* ---- what GLib says of it */

static bool is_of_type(const Known *known, GVariant *value)
{
    return g_variant_is_of_type(value, g_settings_schema_key_get_value_type(known->key));
}

static bool is_taken(const Known *known, const char *path, GVariant *value)
{
    return is_of_type(known, value) && (g_settings_schema_key_range_check(known->key, value) || is_other_name(known->schema, path, value));
}

void judge_value(const char *path, const GPtrArray *keys, GVariant *value, DconfdbFinding *known)
{
    known->has_value = true;
    known->is_of_type = is_of_type(g_ptr_array_index(keys, 0), value);
    for (guint i = 0; i < keys->len && !known->is_taken; i++)
        known->is_taken = is_taken(g_ptr_array_index(keys, i), path, value);
}
