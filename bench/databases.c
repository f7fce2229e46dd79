/* Makes a database of so many keys and asks it, for `bench/databases`, which counts the instructions.
 *
 *   databases size KEYS          how many bytes the database has
 *   databases CASE KEYS          one call that callgrind leaves out, and then one that it counts
 *   databases gvdb-CASE KEYS     the same by GLib's gvdb, on the same bytes and by the same paths
 *
 * The keys are counted out, so that each run measures the same bytes. GLib keeps gvdb to itself: its static library has it, and no header names it.
 */
#include <glib.h>
#include <stdbool.h>
#include <stdint.h>
#include <stdio.h>
#include <stdlib.h>
#include <string.h>
#include <unistd.h>
#include <valgrind/callgrind.h>

typedef const uint8_t *bytes_at;

bool dconf_bench_open(bytes_at file, size_t file_len);
bool dconf_bench_find(bytes_at file, size_t file_len, bytes_at name, size_t name_len, size_t *len);
bool dconf_bench_find_bytes(bytes_at file, size_t file_len, bytes_at name, size_t name_len, size_t *len);
bool dconf_bench_check(bytes_at file, size_t file_len, bool *sound);
bool dconf_bench_database(bytes_at paths, size_t paths_len, uint8_t *room, size_t room_len, size_t *len);

typedef struct GvdbTable GvdbTable;
typedef struct GvdbItem GvdbItem;

GvdbTable *gvdb_table_new_from_bytes(GBytes *bytes, gboolean trusted, GError **error);
void gvdb_table_free(GvdbTable *table);
gboolean gvdb_table_has_value(GvdbTable *table, const char *key);
GVariant *gvdb_table_get_value(GvdbTable *table, const char *key);
GHashTable *gvdb_hash_table_new(GHashTable *parent, const char *key);
GvdbItem *gvdb_hash_table_insert(GHashTable *table, const char *key);
void gvdb_item_set_value(GvdbItem *item, GVariant *value);
void gvdb_item_set_parent(GvdbItem *item, GvdbItem *parent);
gboolean gvdb_table_write_contents(GHashTable *table, const char *file, gboolean byteswap, GError **error);

/* The longest path that is made here, with its zero byte; and a safe bound of what a path takes in the file: its value,
 * its key and the items, numbers and names of itself and two directories. */
enum { LONGEST = 64, ROOM_OF_ONE = 512 };

typedef struct {
    size_t keys;
    uint8_t *paths, *file;
    size_t paths_len, file_room, file_len;
    char there[LONGEST], missing[LONGEST];
    /* How long they are, which no run measures: ours is given it, and what gvdb does to find it out is gvdb's. */
    size_t there_len, missing_len;
    /* What gvdb reads: the same bytes, and a table of them that is open. */
    GBytes *bytes;
    GvdbTable *table;
} Input;

/* Directories of up to 16 keys in directories of up to 16 of them: a lookup then walks two parents, as it mostly does
 * in a database of dconf. */
static int put_path(char *to, const char *last, size_t i) {
    return snprintf(to, LONGEST, "/dir-%zu/sub-%zu/%s-%zu", i / 256, i / 16 % 16, last, i);
}

/* Memory that no run measures; there is nothing to do without it. */
static uint8_t *memory(size_t len) {
    uint8_t *at = malloc(len);
    if (at == NULL)
        exit(3);
    return at;
}

static Input input_of(size_t keys) {
    Input in = {.keys = keys, .file_room = 4096 + ROOM_OF_ONE * keys};
    in.paths = memory(LONGEST * keys);
    in.file = memory(in.file_room);
    for (size_t i = 0; i < keys; i++)
        in.paths_len += put_path((char *)in.paths + in.paths_len, "key", i) + 1;
    /* One in the middle; and one beside it in the same directory, which no key has. */
    in.there_len = put_path(in.there, "key", keys / 2);
    in.missing_len = put_path(in.missing, "kei", keys / 2);
    return in;
}

/* Each case says whether it found what it must, so that no wrong answer is measured. */

static bool open_file(Input *in) {
    return dconf_bench_open(in->file, in->file_len);
}

static bool find_in(bytes_at file, size_t file_len, const char *name, size_t name_len) {
    size_t len = 0;
    bool found = dconf_bench_find(file, file_len, (bytes_at)name, name_len, &len);
    return found && len == name_len + 1;
}

/* What is stored is the text with its zero byte, a zero byte and the text of its type. */
static bool find_bytes_in(bytes_at file, size_t file_len, const char *name, size_t name_len) {
    size_t len = 0;
    bool found = dconf_bench_find_bytes(file, file_len, (bytes_at)name, name_len, &len);
    return found && len == name_len + 3;
}

/* What is left of opening, and of looking up, where there is no file: the call from C, and the test that the name is UTF-8. */

static bool open_nothing(Input *in) {
    return !dconf_bench_open(in->file, 0);
}

static bool find_in_nothing(Input *in) {
    return !find_in(in->file, 0, in->there, in->there_len);
}

static bool find_bytes_in_nothing(Input *in) {
    return !find_bytes_in(in->file, 0, in->there, in->there_len);
}

static bool find_there(Input *in) {
    return find_in(in->file, in->file_len, in->there, in->there_len);
}

static bool find_bytes(Input *in) {
    return find_bytes_in(in->file, in->file_len, in->there, in->there_len);
}

static bool find_missing(Input *in) {
    return !find_in(in->file, in->file_len, in->missing, in->missing_len);
}

static bool check(Input *in) {
    bool sound = false;
    return dconf_bench_check(in->file, in->file_len, &sound) && sound;
}

static bool map_and_write(Input *in) {
    return dconf_bench_database(in->paths, in->paths_len, in->file, in->file_room, &in->file_len)
        && in->file_len <= in->file_room;
}

/* dconf reads without trust in the file, too. */
static GvdbTable *gvdb_opened(const Input *in) {
    return gvdb_table_new_from_bytes(in->bytes, FALSE, NULL);
}

static bool gvdb_open(Input *in) {
    GvdbTable *table = gvdb_opened(in);
    gvdb_table_free(table);
    return table != NULL;
}

/* Whether a name's value is a text of so many bytes, with its zero byte. */
static bool gvdb_has(GvdbTable *table, const char *name, size_t name_len) {
    GVariant *value = gvdb_table_get_value(table, name);
    if (value == NULL)
        return false;
    bool is_it = g_variant_get_size(value) == name_len + 1;
    g_variant_unref(value);
    return is_it;
}

static bool gvdb_there(Input *in) {
    GvdbTable *table = gvdb_opened(in);
    bool found = gvdb_has(table, in->there, in->there_len);
    gvdb_table_free(table);
    return found;
}

static bool gvdb_missing(Input *in) {
    GvdbTable *table = gvdb_opened(in);
    bool found = gvdb_has(table, in->missing, in->missing_len);
    gvdb_table_free(table);
    return !found;
}

static bool gvdb_there_open(Input *in) {
    return gvdb_has(in->table, in->there, in->there_len);
}

static bool gvdb_has_open(Input *in) {
    return gvdb_table_has_value(in->table, in->there);
}

static bool gvdb_missing_open(Input *in) {
    return !gvdb_has(in->table, in->missing, in->missing_len);
}

/* The directory that a name lies in, which is made where it isn't there, as dconf does it. */
static GvdbItem *gvdb_directory(GHashTable *table, const char *name) {
    size_t len = strlen(name);
    do
        len--;
    while (len > 0 && name[len - 1] != '/');
    if (len == 0)
        return NULL;
    char *directory = g_strndup(name, len);
    GvdbItem *item = g_hash_table_lookup(table, directory);
    if (item == NULL) {
        item = gvdb_hash_table_insert(table, directory);
        GvdbItem *above = gvdb_directory(table, directory);
        if (above != NULL)
            gvdb_item_set_parent(item, above);
    }
    g_free(directory);
    return item;
}

static GHashTable *gvdb_map_of(const Input *in) {
    GHashTable *table = gvdb_hash_table_new(NULL, NULL);
    const char *end = (const char *)in->paths + in->paths_len;
    for (const char *path = (const char *)in->paths; path < end; path += strlen(path) + 1) {
        GvdbItem *item = gvdb_hash_table_insert(table, path);
        gvdb_item_set_parent(item, gvdb_directory(table, path));
        gvdb_item_set_value(item, g_variant_new_string(path));
    }
    return table;
}

/* gvdb hands its bytes to nothing but a file. */
static bool gvdb_map_and_write(Input *in) {
    char name[LONGEST];
    snprintf(name, sizeof name, "/tmp/bench-gvdb-%d", getpid());
    GHashTable *table = gvdb_map_of(in);
    bool written = gvdb_table_write_contents(table, name, FALSE, NULL);
    g_hash_table_unref(table);
    return written && remove(name) == 0;
}

static const struct {
    const char *name;
    bool (*run)(Input *in);
} CASES[] = {
    {"nothing", open_nothing},
    {"name", find_in_nothing},
    {"bytes-name", find_bytes_in_nothing},
    {"open", open_file},
    {"there", find_there},
    {"bytes", find_bytes},
    {"missing", find_missing},
    {"check", check},
    {"write", map_and_write},
    {"gvdb-open", gvdb_open},
    {"gvdb-there", gvdb_there},
    {"gvdb-missing", gvdb_missing},
    {"gvdb-there-open", gvdb_there_open},
    {"gvdb-has-open", gvdb_has_open},
    {"gvdb-missing-open", gvdb_missing_open},
    {"gvdb-write", gvdb_map_and_write},
};

/* The first call is left out: it has the cost of first uses, such as those of the loader and of the allocator. */
static int count(bool (*run)(Input *in), Input *in) {
    bool first = run(in);
    CALLGRIND_TOGGLE_COLLECT;
    bool second = run(in);
    CALLGRIND_TOGGLE_COLLECT;
    return first && second ? 0 : 4;
}

int main(int argc, char **argv) {
    if (argc != 3)
        return 2;
    Input in = input_of(strtoul(argv[2], NULL, 10));
    if (!map_and_write(&in))
        return 3;
    if (strcmp(argv[1], "size") == 0) {
        printf("%zu\n", in.file_len);
        return 0;
    }
    in.bytes = g_bytes_new_static(in.file, in.file_len);
    in.table = gvdb_opened(&in);
    for (size_t i = 0; i < sizeof CASES / sizeof *CASES; i++)
        if (strcmp(argv[1], CASES[i].name) == 0)
            return count(CASES[i].run, &in);
    return 2;
}
