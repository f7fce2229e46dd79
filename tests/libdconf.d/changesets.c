/* Prints what random calls of changesets answer. A line is that of one call, and the same with each library; where a directory is reset
 * and something is set below it, the filtered changes have a line that begins otherwise. */
#include <dconf.h>
#include <stdio.h>
#include <stdlib.h>
#include <string.h>

static const char *const PATHS[] = {"/a", "/a/b", "/a/b/c", "/a/d", "/b/", "/a/", "/a/b/", "/", "/b/x", "/b/y/z", "/b/y/", "/ab", "/ab/c"};
static const char *const KEYS[] = {"/a", "/a/b", "/a/b/c", "/b/x", "/b/y/z", "/none", "/", "/a/", "/b/y/", "bad", "", "//", "/a//b"};

static int by_text(const void *one, const void *other)
{
    return strcmp(*(char *const *)one, *(char *const *)other);
}

/* Texts in their order, in one line. */
static void print_sorted(GPtrArray *texts)
{
    if (texts->len > 0)
        qsort(texts->pdata, texts->len, sizeof(gpointer), by_text);
    for (guint i = 0; i < texts->len; i++)
        printf(" %s", (char *)texts->pdata[i]);
    printf("\n");
    g_ptr_array_unref(texts);
}

static void print_serial(const char *name, DConfChangeset *set)
{
    GVariant *serial = g_variant_ref_sink(dconf_changeset_serialise(set));
    GPtrArray *texts = g_ptr_array_new_with_free_func(g_free);
    for (gsize i = 0; i < g_variant_n_children(serial); i++) {
        GVariant *child = g_variant_get_child_value(serial, i);
        g_ptr_array_add(texts, g_variant_print(child, TRUE));
        g_variant_unref(child);
    }
    printf("%s serialised %s:", name, g_variant_get_type_string(serial));
    print_sorted(texts);
    DConfChangeset *again = dconf_changeset_deserialise(serial);
    printf("%s similar %d %d\n", name, dconf_changeset_is_similar_to(set, again), dconf_changeset_is_similar_to(again, set));
    dconf_changeset_unref(again);
    g_variant_unref(serial);
}

static gboolean is_value(const gchar *path, GVariant *value, gpointer data)
{
    return value || g_str_has_suffix(path, data);
}

static void print_gets(const char *name, DConfChangeset *set)
{
    printf("%s get", name);
    for (size_t i = 0; i < G_N_ELEMENTS(KEYS); i++) {
        GVariant *value = (GVariant *)&set;
        gboolean has = dconf_changeset_get(set, KEYS[i], &value);
        printf(" %d", has);
        if (value == (GVariant *)&set || !value) {
            printf("%s", value ? "kept" : "NULL");
        } else {
            printf("%s", g_variant_get_type_string(value));
            g_variant_unref(value);
        }
    }
    printf(" %d %d\n", dconf_changeset_all(set, is_value, "/"), dconf_changeset_all(set, is_value, "b"));
}

static void print_described(const char *name, DConfChangeset *set)
{
    const gchar *prefix = "-", *const *paths = NULL;
    GVariant *const *values = NULL;
    guint count = dconf_changeset_describe(set, &prefix, &paths, &values);
    printf("%s: %u below %s, empty %d:", name, count, prefix ? prefix : "NULL", dconf_changeset_is_empty(set));
    for (guint i = 0; i < count; i++) {
        char *text = values[i] ? g_variant_print(values[i], TRUE) : g_strdup("reset");
        printf(" [%s] %s", paths[i], text);
        g_free(text);
    }
    printf("%s\n", count == 0 ? (paths || values ? " odd" : " none") : "");
}

static void print(const char *name, DConfChangeset *set)
{
    if (!set) {
        printf("%s: NULL\n", name);
        return;
    }
    DConfChangeset *copy = dconf_changeset_new();
    print_serial(name, set);
    print_gets(name, set);
    dconf_changeset_change(copy, set);
    print_described(name, copy);
    dconf_changeset_unref(copy);
}

static void fill(GRand *rand, DConfChangeset *set, gboolean is_database)
{
    for (int i = g_rand_int_range(rand, 0, 7); i > 0; i--) {
        const char *path = PATHS[g_rand_int_range(rand, 0, G_N_ELEMENTS(PATHS))];
        gboolean is_directory = g_str_has_suffix(path, "/");
        int kind = g_rand_int_range(rand, 0, 3);
        GVariant *value = kind == 1 ? g_variant_new_int32(i) : g_variant_new_string("x");
        g_variant_ref_sink(value);
        dconf_changeset_set(set, path, is_directory || (kind == 0 && !is_database) ? NULL : value);
        g_variant_unref(value);
    }
}

typedef struct {
    DConfChangeset *set;
    gboolean is;
} Below;

static gboolean is_reset_above(const gchar *path, GVariant *value, gpointer data)
{
    Below *below = data;
    gchar *up = g_path_get_dirname(path);
    (void)value;
    /* The set as it was before: without the path itself, is there a reset of a directory above it? */
    while (!below->is && strlen(up) > 1) {
        gchar *directory = g_strconcat(up, "/", NULL);
        GVariant *found = (GVariant *)below;
        below->is = !g_str_equal(directory, path) && dconf_changeset_get(below->set, directory, &found);
        g_free(directory);
        gchar *next = g_path_get_dirname(up);
        g_free(up);
        up = next;
    }
    below->is = below->is || (!g_str_equal(path, "/") && dconf_changeset_get(below->set, "/", NULL));
    g_free(up);
    return !below->is;
}

static gboolean has_below(DConfChangeset *set)
{
    Below below = {set, FALSE};
    dconf_changeset_all(set, is_reset_above, &below);
    return below.is;
}

static int size_of(DConfChangeset *set)
{
    GVariant *serial = set ? g_variant_ref_sink(dconf_changeset_serialise(set)) : NULL;
    int size = serial ? (int)g_variant_n_children(serial) : -1;
    g_clear_pointer(&serial, g_variant_unref);
    return size;
}

/* Whether both changes make the same of the database. */
static gboolean does_the_same(DConfChangeset *from, DConfChangeset *filtered, DConfChangeset *changes)
{
    DConfChangeset *one = dconf_changeset_new_database(from), *other = dconf_changeset_new_database(from);
    if (filtered)
        dconf_changeset_change(one, filtered);
    dconf_changeset_change(other, changes);
    DConfChangeset *diff = dconf_changeset_diff(one, other);
    gboolean is = !diff;
    g_clear_pointer(&diff, dconf_changeset_unref);
    dconf_changeset_unref(one);
    dconf_changeset_unref(other);
    return is;
}

static void of_seed(guint32 seed)
{
    GRand *rand = g_rand_new_with_seed(seed);
    DConfChangeset *one = dconf_changeset_new(), *two = dconf_changeset_new(), *merged = dconf_changeset_new();
    DConfChangeset *from = dconf_changeset_new_database(NULL), *to = dconf_changeset_new_database(NULL);
    fill(rand, one, FALSE);
    fill(rand, two, FALSE);
    fill(rand, from, TRUE);
    fill(rand, to, TRUE);
    printf("seed %u\n", seed);
    print("one", one);
    print("two", two);
    print("from", from);
    DConfChangeset *diff = dconf_changeset_diff(from, to), *copy = dconf_changeset_new_database(from);
    DConfChangeset *filtered = dconf_changeset_filter_changes(from, one);
    print("diff", diff);
    if (has_below(one)) {
        printf("filtered-below %d holds %d\n", size_of(filtered), does_the_same(from, filtered, one));
    } else {
        print("filtered", filtered);
    }
    dconf_changeset_change(copy, one);
    print("changed", copy);
    dconf_changeset_change(merged, one);
    dconf_changeset_change(merged, two);
    print("merged", merged);
    print_described("one", one);
    DConfChangeset *all[] = {one, two, merged, from, to, copy, diff, filtered};
    for (size_t i = 0; i < G_N_ELEMENTS(all); i++)
        g_clear_pointer(&all[i], dconf_changeset_unref);
    g_rand_free(rand);
}

int main(int count, char **words)
{
    guint32 seeds = count > 1 ? (guint32)atoi(words[1]) : 100;
    for (guint32 seed = 0; seed < seeds; seed++)
        of_seed(seed);
    return 0;
}
