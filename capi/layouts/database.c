/* A database: its layers, what is read of it, and how it is changed. */
#include "layouts.h"

#include <stdio.h>
#include <string.h>

uint32_t dconfdb_open(const void *old, bool was_mapped, const uint8_t *file, size_t len, bool is_there, bool is_lenient, void *layer, void *unsound,
                      uint32_t *telling);
bool dconfdb_read(const void *layers, size_t n, const uint8_t *path, size_t path_len, void *found);
bool dconfdb_fault_text(uint32_t number, void *text);
bool dconfdb_child_at(void *whole, bool of_variant, size_t index, void *found);
size_t dconfdb_put_children(const uint8_t *type_text, size_t type_text_len, const uint8_t *value, size_t value_len, size_t origin, void *room,
                            size_t room_len);
uint32_t dconfdb_profile(uint32_t step, const uint8_t *text, size_t len, bool is_lenient, bool has_kept, void *room, size_t room_len, size_t *names,
                         uint32_t *fault, size_t *line);
uint32_t dconfdb_change(const void *layers, size_t n, bool writable, const void *changes, size_t changes_len, const uint8_t *old,
                        size_t old_len, uint8_t *room, size_t room_len, size_t *len, size_t *at, bool *is_same);

/* ---- a database of which all numbers differ: `/k` has the `as` of one x; `/d/` and `/e` are locked */

uint8_t file[] = {
    71, 86, 97, 114, 105, 97, 110, 116, 0, 0, 0, 0, 0, 0, 0, 0, 24, 0, 0, 0, 124, 0, 0, 0, 1, 0, 0, 48, 4, 0,
    0, 0, 255, 255, 255, 255, 0, 0, 0, 0, 1, 0, 0, 0, 1, 0, 0, 0, 1, 0, 0, 0, 212, 181, 2, 0, 255, 255, 255,
    255, 124, 0, 0, 0, 1, 0, 76, 0, 128, 0, 0, 0, 132, 0, 0, 0, 191, 112, 89, 0, 0, 0, 0, 0, 132, 0, 0, 0, 1,
    0, 118, 0, 136, 0, 0, 0, 142, 0, 0, 0, 143, 57, 13, 123, 255, 255, 255, 255, 142, 0, 0, 0, 6, 0, 72, 0, 148,
    0, 0, 0, 252, 0, 0, 0, 47, 0, 0, 0, 1, 0, 0, 0, 107, 0, 0, 0, 120, 0, 2, 0, 97, 115, 46, 108, 111, 99, 107,
    115, 5, 0, 0, 72, 7, 0, 0, 0, 255, 255, 255, 255, 255, 255, 255, 255, 255, 255, 255, 255, 255, 255, 255,
    255, 255, 255, 255, 255, 0, 0, 0, 0, 0, 0, 0, 0, 0, 0, 0, 0, 1, 0, 0, 0, 1, 0, 0, 0, 1, 0, 0, 0, 1, 0, 0,
    0, 231, 135, 135, 11, 255, 255, 255, 255, 252, 0, 0, 0, 3, 0, 118, 0, 0, 1, 0, 0, 3, 1, 0, 0, 185, 112, 89,
    0, 255, 255, 255, 255, 3, 1, 0, 0, 2, 0, 118, 0, 8, 1, 0, 0, 11, 1, 0, 0, 47, 100, 47, 0, 0, 0, 98, 47, 101,
    0, 0, 0, 0, 0, 98,
};
enum { VALUE = 136, VALUE_LEN = 3, TYPE = 140, TYPE_LEN = 2, DIRECTORY = 252, THIRD_HASH = 100 };

/* What is known of its two tables. */
typedef struct {
    size_t start, end;
    uint32_t bloom_words, bloom_shift, buckets;
    size_t first_item;
    uint32_t items;
} Numbers;

static const Numbers of_values = {24, 124, 1, 6, 4, 52, 3}, of_locks = {148, 252, 5, 9, 7, 204, 2};

/* ---- what the calls write */

static void finds_bytes(void)
{
    static const char text[] = "no memory is left";
    Written room = room_of("DconfdbBytes");
    const char *at;
    is_so(dconfdb_fault_text(1, room.bytes), "dconfdb_fault_text");
    len_in_lent = finds_word(&room, "len", sizeof text - 1);
    at_in_lent = len_in_lent == 0 ? WORD : 0;
    memcpy(&at, room.bytes + at_in_lent, WORD);
    is_so(memcmp(at, text, sizeof text - 1) == 0, "DconfdbBytes");
    takes(&room, "at", at_in_lent, WORD);
    is_so(ends(&room) == LENT, "DconfdbBytes");
}

static void opens(const uint8_t *bytes, size_t len, bool is_there, uint8_t *layer)
{
    _Alignas(16) uint8_t unused[ROOM];
    uint32_t telling = UNTOUCHED;
    is_so(dconfdb_open(empty_layer(), false, bytes, len, is_there, false, layer, unused, &telling) == 0 && telling == 0, "dconfdb_open");
}

/* The fields of a table, which takes so many bytes. */
static void finds_table(Written *layer, size_t from, size_t size, const Numbers *has)
{
    uint8_t lent[LENT];
    lends(lent, file, sizeof file);
    const struct {
        const char *name;
        const void *bytes;
        size_t width;
    } fields[] = {
        {"file", lent, LENT},
        {"start", &has->start, WORD},
        {"end", &has->end, WORD},
        {"bloom_words", &has->bloom_words, NUMBER},
        {"bloom_shift", &has->bloom_shift, NUMBER},
        {"buckets", &has->buckets, NUMBER},
        {"first_item", &has->first_item, WORD},
        {"items", &has->items, NUMBER},
    };
    for (size_t i = 0; i < sizeof fields / sizeof fields[0]; i++) {
        size_t at = place_of(layer, from, from + size, fields[i].bytes, fields[i].width);
        lies("DconfdbTable", fields[i].name, at - from, fields[i].width);
    }
}

/* The one place after the tables where a layer and another one have these bytes. */
static size_t finds_flag(const uint8_t *one, const uint8_t *other, size_t from, uint8_t in_one, uint8_t in_other)
{
    size_t found = ROOM, count = 0;
    for (size_t at = from; at < ROOM; at++) {
        if (one[at] == in_one && other[at] == in_other) {
            found = at;
            count++;
        }
    }
    is_so(count == 1, "DconfdbLayer");
    return found;
}

/* A layer, a layer whose locks are all of keys, and an empty one; `/cP` has the hash of `/d/`. */
static size_t finds_layer(void)
{
    Written layer = room_of("DconfdbLayer"), keys = layer, empty = layer;
    opens(file, sizeof file, true, layer.bytes);
    memcpy(file + DIRECTORY, "/cP", 3);
    opens(file, sizeof file, true, keys.bytes);
    memcpy(file + DIRECTORY, "/d/", 3);
    opens(file, sizeof file, false, empty.bytes);
    size_t size = place_of(&layer, 0, ROOM, &of_locks.start, WORD) - place_of(&layer, 0, ROOM, &of_values.start, WORD);
    is_so(size < ROOM / 2, "DconfdbLayer");
    printf("TAKES(DconfdbTable, %zu);\n", size);
    finds_table(&layer, 0, size, &of_values);
    finds_table(&layer, size, size, &of_locks);
    takes(&layer, "values", 0, size);
    takes(&layer, "locks", size, size);
    layer.widest = WORD;
    takes(&layer, "locks_directories", finds_flag(layer.bytes, keys.bytes, 2 * size, 1, 0), FLAG);
    takes(&layer, "has_locks", finds_flag(keys.bytes, empty.bytes, 2 * size, 1, 0), FLAG);
    return ends(&layer);
}

static void finds_unsound(void)
{
    Written room = room_of("DconfdbUnsound");
    _Alignas(16) uint8_t unused[ROOM];
    uint32_t telling = UNTOUCHED;
    file[THIRD_HASH] ^= 1;
    is_so(dconfdb_open(empty_layer(), false, file, sizeof file, true, true, unused, room.bytes, &telling) != 0 && telling == 2, "dconfdb_open");
    file[THIRD_HASH] ^= 1;
    finds_number(&room, "rule", 4);
    finds_number(&room, "item", 2);
    uint8_t yes = 1;
    takes(&room, "has_item", place_of(&room, 0, ROOM, &yes, FLAG), FLAG);
    ends(&room);
}

/* The second of two layers has the value: so they are read from where an array has them. Gives where
 * the value lies. */
static size_t finds_found(size_t layer_size)
{
    _Alignas(16) uint8_t layers[2 * ROOM];
    Written room = room_of("DconfdbFound");
    opens(file, sizeof file, false, layers);
    opens(file, sizeof file, true, layers + layer_size);
    is_so(dconfdb_read(layers, 2, (const uint8_t *)"/k", 2, room.bytes), "dconfdb_read");
    finds_word(&room, "origin", 1);
    finds_lent(&room, "type_text", file + TYPE, TYPE_LEN);
    size_t value = finds_lent(&room, "value", file + VALUE, VALUE_LEN);
    ends(&room);
    return value;
}

/* The one text in the value. */
static void finds_part(void)
{
    static const uint8_t type[] = "(as)";
    Written whole = room_of("DconfdbChild"), room = room_of("DconfdbPart");
    is_so(dconfdb_put_children(type, sizeof type - 1, file + VALUE, VALUE_LEN, 0, whole.bytes, 1) == 1, "dconfdb_put_children");
    is_so(dconfdb_child_at(whole.bytes, false, 0, room.bytes), "dconfdb_child_at");
    finds_lent(&room, "type_text", type + 2, TYPE_LEN - 1);
    finds_lent(&room, "value", file + VALUE, VALUE_LEN - 1);
    ends(&room);
}

/* The two texts of an array: the second child is as far from the first as the struct is long. */
static void finds_child(void)
{
    static const uint8_t texts[] = {'o', 'n', 'e', 0, 't', 'w', 'o', '!', 0, 4, 9}, type[] = "as";
    Written one = room_of("DconfdbChild"), two = one;
    is_so(dconfdb_put_children(type, 2, texts, sizeof texts, 77, one.bytes, 1) == 2, "dconfdb_put_children");
    is_so(dconfdb_put_children(type, 2, texts, sizeof texts, 77, two.bytes, 3) == 2, "dconfdb_put_children");
    finds_lent(&one, "type_text", type + 1, 1);
    uint8_t lent[LENT];
    lends(lent, texts + 4, 5);
    size_t value = finds_lent(&one, "value", texts, 4), size = place_of(&two, 0, ROOM, lent, LENT) - value;
    finds_word(&one, "origin", 77);
    finds_word(&one, "passed", 0);
    is_so(ends(&one) == size, "DconfdbChild");
}

/* The step of a profile's file. */
enum { COUNTS = 4 };

/* Two elements of an array: the second is as far from the first as the struct is long. */
static void finds_name(void)
{
    static const uint8_t text[] = "user-db:alice\nfile-db:bob";
    Written one = room_of("DconfdbName"), two = one;
    size_t count, line;
    uint32_t fault;
    is_so(dconfdb_profile(COUNTS, text, 13, false, false, one.bytes, 2, &count, &fault, &line) == 0 && count == 1, "dconfdb_profile");
    is_so(dconfdb_profile(COUNTS, text, sizeof text - 1, false, false, two.bytes, 2, &count, &fault, &line) == 0 && count == 2, "dconfdb_profile");
    uint8_t lent[LENT];
    lends(lent, text + 22, 3);
    size_t name = finds_lent(&one, "name", text + 8, 5), size = place_of(&two, 0, ROOM, lent, LENT) - name;
    uint32_t kind = 2;
    takes(&one, "kind", place_of(&two, size, 2 * size, &kind, NUMBER) - size, NUMBER);
    is_so(ends(&one) == size, "DconfdbName");
}

/* ---- what the calls read: two changes, the second a reset, in a store that has this file */

enum { NEW_VALUE = 16, NEW_TYPE = 32, SETS = 48, CHANGE = 56 };

static void makes_change(uint8_t *change, const char *path, const char *value, size_t size, const char *type)
{
    memset(change, UNTOUCHED, CHANGE);
    lends(change + PATH, path, strlen(path));
    lends(change + NEW_VALUE, value, size);
    lends(change + NEW_TYPE, type, strlen(type));
    change[SETS] = size > 0;
}

/* Whether a layer has bytes at a path; NULL: none. */
static bool has(const uint8_t *layer, size_t value_in_found, const char *path, const char *bytes, size_t size)
{
    _Alignas(16) uint8_t found[ROOM];
    const char *at;
    if (!dconfdb_read(layer, 1, (const uint8_t *)path, strlen(path), found))
        return !bytes;
    memcpy(&at, found + value_in_found + at_in_lent, WORD);
    return bytes && memcmp(at, bytes, size) == 0;
}

static void tries_change(size_t value)
{
    _Alignas(16) uint8_t before[ROOM], after[ROOM], changes[2 * CHANGE], made[1024];
    size_t len = 0, at = 0;
    bool is_same = true;
    opens(file, sizeof file, true, before);
    makes_change(changes, "/new/key", "text", 5, "s");
    makes_change(changes + CHANGE, "/k", "", 0, "");
    is_so(has(before, value, "/k", "x", 2), "DconfdbFound");
    is_so(dconfdb_change(before, 1, true, changes, 2, file, sizeof file, made, sizeof made, &len, &at, &is_same) == 0, "DconfdbChange");
    is_so(len <= sizeof made && !is_same, "DconfdbChange");
    opens(made, len, true, after);
    is_so(has(after, value, "/new/key", "text", 5) && has(after, value, "/k", NULL, 0), "DconfdbChange");
    lies("DconfdbChange", "path", PATH, LENT);
    lies("DconfdbChange", "value", NEW_VALUE, LENT);
    lies("DconfdbChange", "type_text", NEW_TYPE, LENT);
    lies("DconfdbChange", "sets", SETS, FLAG);
    printf("TAKES(DconfdbChange, %d);\n", CHANGE);
}

void finds_database(void)
{
    finds_bytes();
    size_t layer_size = finds_layer();
    finds_unsound();
    size_t value = finds_found(layer_size);
    finds_part();
    finds_child();
    finds_name();
    tries_change(value);
}
