/* Calls of the library, and dconf's own on the same files, for `bench/library`, which counts their instructions.
 *
 *   library WORK FOLDER PATH    one call that callgrind leaves out, and then those that it counts: as many as `works` says
 *   library same FOLDER PATH    ends with 0 where both read the same at the key, and take it for writable alike
 *
 * FOLDER is a store of ours, and the environment has dconf look at the same files. dconf's library is taken as it is
 * installed, by dlopen(). Memory is counted by --wrap of malloc, calloc and realloc: a call of ours that only reads takes
 * none, or this ends with 4.
 */
#include "dconfdb.h"

#include <dlfcn.h>
#include <stdio.h>
#include <stdlib.h>
#include <string.h>
#include <valgrind/callgrind.h>

void *__real_malloc(size_t size);
void *__real_calloc(size_t count, size_t size);
void *__real_realloc(void *old, size_t size);
void *__wrap_malloc(size_t size);
void *__wrap_calloc(size_t count, size_t size);
void *__wrap_realloc(void *old, size_t size);

static long growths;

void *__wrap_malloc(size_t size) {
    growths++;
    return __real_malloc(size);
}

void *__wrap_calloc(size_t count, size_t size) {
    growths++;
    return __real_calloc(count, size);
}

void *__wrap_realloc(void *old, size_t size) {
    growths++;
    return __real_realloc(old, size);
}

/* What the works are done with, and what they answer. */
static const char *folder;
/* Aligned, since what strlen() takes depends on it: the place of a word of main's depends on how long the environment is. */
static _Alignas(64) char path[64];
static DconfdbStore *store;
static DconfdbSnapshot *now;
static DconfdbValue value;
static bool answer;

/* There is nothing to measure where something fails. */
static void needs(bool done, const char *what) {
    if (done)
        return;
    fprintf(stderr, "library: %s\n", what);
    exit(3);
}

/* ---- ours */

static void our_start(void) {
    DconfdbError error = DCONFDB_ERROR_INIT;
    store = dconfdb_store_open(folder, &error);
    needs(store, store ? "" : error.text);
    now = dconfdb_store_snapshot(store);
}

/* The call of a work, and the loop. */
static void do_nothing(void) {
}

static void our_read(void) {
    answer = dconfdb_snapshot_read(now, path, &value);
}

static void our_writable(void) {
    answer = dconfdb_snapshot_is_writable(now, path);
}

/* What is in the value that was read. */
static void our_value_start(void) {
    our_start();
    our_read();
}

static void our_int32(void) {
    int32_t number;
    answer = dconfdb_value_get_int32(&value, &number);
}

static void our_string(void) {
    answer = dconfdb_value_get_string(&value, NULL) != NULL;
}

static void our_child(void) {
    DconfdbValue child;
    answer = dconfdb_value_child(&value, 5, &child);
}

/* The `as` of 40,000 texts, and room for its children. */
enum { TEXTS = 40000 };
static DconfdbValue many_texts, children[TEXTS];

static void our_walk_start(void) {
    enum { WIDTH = 4 };
    unsigned char *bytes = calloc(TEXTS, 1 + WIDTH);
    needs(bytes, "there is no memory");
    for (size_t i = 0; i < TEXTS; i++)
        for (size_t j = 0; j < WIDTH; j++)
            bytes[TEXTS + WIDTH * i + j] = (unsigned char)((i + 1) >> 8 * j);
    many_texts = (DconfdbValue){bytes, TEXTS * (1 + WIDTH), "as", 2, 0, 0};
}

/* Each child by its index in what one call put. */
static void our_walk(void) {
    answer = dconfdb_value_children(&many_texts, children, TEXTS) == TEXTS;
    for (size_t i = 0; i < TEXTS; i++)
        answer = answer && children[i].size == 1;
}

/* The same one by one, as if nothing had been asked before. */
static void our_each(void) {
    DconfdbValue child;
    many_texts.passed = 0;
    answer = true;
    for (size_t i = 0; i < TEXTS; i++)
        answer = dconfdb_value_child(&many_texts, i, &child) && child.size == 1 && answer;
}

static void our_lookup(void) {
    DconfdbValue child;
    answer = dconfdb_value_lookup(&value, "five", &child);
}

static void our_print(void) {
    char *printed = dconfdb_value_print(&value, NULL);
    answer = printed && *printed;
    free(printed);
}

/* The text of the value that was read. */
static char *text;

static void our_text_start(void) {
    our_value_start();
    text = dconfdb_value_print(&value, NULL);
    needs(text, "the value can't be printed");
}

static void our_parse(void) {
    DconfdbValue parsed;
    answer = dconfdb_value_parse(text, &parsed, NULL);
    free(answer ? (void *)parsed.data : NULL);
}

/* All keys, with their values. */
static void our_iterate(void) {
    const char *at;
    DconfdbIterator *iterator = dconfdb_snapshot_iterate(now, "/", NULL);
    needs(iterator, "the keys can't be iterated");
    while (dconfdb_iterator_next(iterator, &at, &value))
        answer = true;
    dconfdb_iterator_free(iterator);
}

static void our_list_user(void) {
    char *names = dconfdb_snapshot_list_user(now, "/dir/7/", NULL, NULL);
    answer = names && *names;
    free(names);
}

static void our_dispatch_start(void) {
    our_start();
    needs(dconfdb_store_fd(store, NULL) >= 0, "the store can't be watched");
}

static void our_dispatch(void) {
    char *paths = dconfdb_store_dispatch(store, NULL, NULL);
    answer = paths && !*paths;
    free(paths);
}

static void our_snapshot(void) {
    dconfdb_snapshot_unref(dconfdb_store_snapshot(store));
}

static void our_refresh(void) {
    answer = dconfdb_store_refresh(store, NULL, NULL);
}

static void our_open(void) {
    DconfdbStore *opened = dconfdb_store_open(folder, NULL);
    needs(opened, "the store can't be opened again");
    DconfdbSnapshot *first = dconfdb_store_snapshot(opened);
    answer = dconfdb_snapshot_read(first, path, &value);
    dconfdb_snapshot_unref(first);
    dconfdb_store_close(opened);
}

/* Sets another value each time, since the same one would change nothing. */
static void set(const char *at, const DconfdbSnapshot *expected) {
    static char other[] = "changed 0";
    DconfdbEdit edit = {at, "s", other, sizeof other};
    other[sizeof other - 2] ^= 1;
    answer = dconfdb_store_change(store, expected, &edit, 1, NULL);
    needs(answer, "a change is refused");
}

static void our_change(void) {
    set(path, NULL);
}

static void our_expected(void) {
    DconfdbSnapshot *seen = dconfdb_store_snapshot(store);
    set(path, seen);
    dconfdb_snapshot_unref(seen);
}

/* What the store was before a change of the key, or of one that wasn't there. */
static DconfdbSnapshot *before;

static void start_changed(const char *changed) {
    our_start();
    our_change();
    before = dconfdb_store_snapshot(store);
    set(changed, NULL);
    dconfdb_snapshot_unref(now);
    now = dconfdb_store_snapshot(store);
}

static void our_changed_start(void) {
    start_changed(path);
}

static void our_added_start(void) {
    start_changed("/a/key/that/was/not/there");
}

static void our_differences(void) {
    char *differences = dconfdb_snapshot_differences(now, before, NULL, NULL);
    answer = differences && *differences;
    free(differences);
}

/* ---- dconf's */

typedef struct DConfClient DConfClient;
typedef struct GVariant GVariant;

static DConfClient *(*dconf_client_new)(void);
static GVariant *(*dconf_client_read)(DConfClient *client, const char *key);
static int (*dconf_client_is_writable)(DConfClient *client, const char *key);
static void (*g_object_unref)(void *object);
static void (*g_variant_unref)(GVariant *variant);
static const void *(*g_variant_get_data)(GVariant *variant);
static size_t (*g_variant_get_size)(GVariant *variant);
static const char *(*g_variant_get_type_string)(GVariant *variant);
static int32_t (*g_variant_get_int32)(GVariant *variant);
static const char *(*g_variant_get_string)(GVariant *variant, size_t *length);
static GVariant *(*g_variant_get_child_value)(GVariant *variant, size_t index);
static GVariant *(*g_variant_lookup_value)(GVariant *variant, const char *key, const void *type);
static char *(*g_variant_print)(GVariant *variant, int annotate);
static GVariant *(*g_variant_parse)(const void *type, const char *text, const char *limit, const char **end, void **error);
static GVariant *(*g_variant_new_from_data)(const void *type, const void *data, size_t size, int trusted, void (*frees)(void *), void *of);
static void (*g_free)(void *memory);

static DConfClient *client;

/* The library needs GLib, so that its names are found in it too. */
static void their_start(void) {
    void *dconf = dlopen("libdconf.so.1", RTLD_NOW);
    needs(dconf, "there is no libdconf.so.1");
    const struct {
        const char *name;
        void *at;
    } calls[] = {
        {"dconf_client_new", &dconf_client_new},
        {"dconf_client_read", &dconf_client_read},
        {"dconf_client_is_writable", &dconf_client_is_writable},
        {"g_object_unref", &g_object_unref},
        {"g_variant_unref", &g_variant_unref},
        {"g_variant_get_data", &g_variant_get_data},
        {"g_variant_get_size", &g_variant_get_size},
        {"g_variant_get_type_string", &g_variant_get_type_string},
        {"g_variant_get_int32", &g_variant_get_int32},
        {"g_variant_get_string", &g_variant_get_string},
        {"g_variant_get_child_value", &g_variant_get_child_value},
        {"g_variant_lookup_value", &g_variant_lookup_value},
        {"g_variant_print", &g_variant_print},
        {"g_variant_parse", &g_variant_parse},
        {"g_variant_new_from_data", &g_variant_new_from_data},
        {"g_free", &g_free},
    };
    for (size_t i = 0; i < sizeof calls / sizeof calls[0]; i++) {
        void *found = dlsym(dconf, calls[i].name);
        needs(found, calls[i].name);
        memcpy(calls[i].at, &found, sizeof found);
    }
    client = dconf_client_new();
}

static void their_read(void) {
    GVariant *variant = dconf_client_read(client, path);
    answer = variant;
    if (variant)
        g_variant_unref(variant);
}

static GVariant *variant;

static void their_value_start(void) {
    their_start();
    variant = dconf_client_read(client, path);
    needs(variant, "there is no value");
}

static void their_int32(void) {
    answer = g_variant_get_int32(variant) != 0;
}

static void their_string(void) {
    answer = g_variant_get_string(variant, NULL) != NULL;
}

static void their_child(void) {
    GVariant *child = g_variant_get_child_value(variant, 5);
    answer = child;
    g_variant_unref(child);
}

static void their_walk_start(void) {
    their_start();
    our_walk_start();
}

/* The same of a value that GLib has not looked at yet. */
static void their_each(void) {
    GVariant *list = g_variant_new_from_data("as", many_texts.data, many_texts.size, 0, NULL, NULL);
    answer = true;
    for (size_t i = 0; i < TEXTS; i++) {
        GVariant *child = g_variant_get_child_value(list, i);
        answer = child && g_variant_get_size(child) == 1 && answer;
        g_variant_unref(child);
    }
    g_variant_unref(list);
}

static void their_lookup(void) {
    GVariant *child = g_variant_lookup_value(variant, "five", NULL);
    answer = child;
    if (child)
        g_variant_unref(child);
}

static void their_print(void) {
    char *printed = g_variant_print(variant, 1);
    answer = *printed;
    g_free(printed);
}

static void their_text_start(void) {
    their_value_start();
    text = g_variant_print(variant, 1);
}

static void their_parse(void) {
    GVariant *parsed = g_variant_parse(NULL, text, NULL, NULL, NULL);
    answer = parsed;
    if (parsed)
        g_variant_unref(parsed);
}

static void their_writable(void) {
    answer = dconf_client_is_writable(client, path);
}

static void their_open(void) {
    DConfClient *kept = client;
    client = dconf_client_new();
    their_read();
    g_object_unref(client);
    client = kept;
}

/* ---- both */

static bool are_same(void) {
    GVariant *theirs = dconf_client_read(client, path);
    our_read();
    if (!theirs)
        return !answer;
    const char *type = g_variant_get_type_string(theirs);
    bool same = answer && g_variant_get_size(theirs) == value.size && memcmp(g_variant_get_data(theirs), value.data, value.size) == 0
                && strlen(type) == value.type_size && memcmp(type, value.type, value.type_size) == 0;
    g_variant_unref(theirs);
    return same && dconfdb_snapshot_is_writable(now, path) == !!dconf_client_is_writable(client, path);
}

typedef struct {
    const char *name;
    void (*start)(void);
    void (*call)(void);
    int times; /* how many calls, or children, are counted */
    bool reads; /* and takes no memory */
} Work;

static const Work works[] = {
    {"nothing", our_start, do_nothing, 1000, true},
    {"read", our_start, our_read, 1000, true},
    {"writable", our_start, our_writable, 1000, true},
    {"int32", our_value_start, our_int32, 1000, true},
    {"string", our_value_start, our_string, 1000, true},
    {"child", our_value_start, our_child, 1000, true},
    {"lookup", our_value_start, our_lookup, 1000, true},
    {"walk", our_walk_start, our_walk, TEXTS, true},
    {"each", our_walk_start, our_each, TEXTS, true},
    {"print", our_value_start, our_print, 1000, false},
    {"parse", our_text_start, our_parse, 1000, false},
    {"iterate", our_start, our_iterate, 1, false},
    {"list-user", our_start, our_list_user, 1, false},
    {"dispatch", our_dispatch_start, our_dispatch, 1000, false},
    {"snapshot", our_start, our_snapshot, 1000, true},
    {"refresh", our_start, our_refresh, 1000, false},
    {"open", our_start, our_open, 1, false},
    {"change", our_start, our_change, 1, false},
    {"expected", our_start, our_expected, 1, false},
    {"changed", our_changed_start, our_differences, 1, false},
    {"added", our_added_start, our_differences, 1, false},
    {"dconf-read", their_start, their_read, 1000, false},
    {"dconf-int32", their_value_start, their_int32, 1000, false},
    {"dconf-string", their_value_start, their_string, 1000, false},
    {"dconf-child", their_value_start, their_child, 1000, false},
    {"dconf-each", their_walk_start, their_each, TEXTS, false},
    {"dconf-lookup", their_value_start, their_lookup, 1000, false},
    {"dconf-print", their_value_start, their_print, 1000, false},
    {"dconf-parse", their_text_start, their_parse, 1000, false},
    {"dconf-writable", their_start, their_writable, 1000, false},
    {"dconf-open", their_start, their_open, 1, false},
};

static void measure(const Work *work) {
    work->start();
    work->call();
    bool first = answer;
    growths = 0;
    int calls = work->times == TEXTS ? 1 : work->times; /* which goes through all children */
    CALLGRIND_TOGGLE_COLLECT;
    for (int i = 0; i < calls; i++)
        work->call();
    CALLGRIND_TOGGLE_COLLECT;
    needs(answer == first, "it answers otherwise after a while");
    if (work->reads && growths > 0)
        exit(4);
    printf("%d\n", work->times);
}

int main(int argc, char **argv) {
    needs(argc == 4 && strlen(argv[3]) < sizeof path, "library WORK FOLDER PATH");
    folder = argv[2];
    strcpy(path, argv[3]);
    if (strcmp(argv[1], "same") == 0) {
        our_start();
        their_start();
        return are_same() ? 0 : 1;
    }
    for (size_t i = 0; i < sizeof works / sizeof works[0]; i++) {
        if (strcmp(argv[1], works[i].name) == 0) {
            measure(&works[i]);
            return 0;
        }
    }
    needs(false, "there is no such work");
}
