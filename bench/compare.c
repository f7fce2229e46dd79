/* Does the same work by the proved crates and by GLib, for `bench/run`, which measures both.
 *
 *   compare list                       each case and size, a line each
 *   compare check CASE SIZE            says whether both sides answer the same
 *   compare time  CASE SIZE SIDE       the least wall time of some calls, in nanoseconds
 *   compare count CASE SIZE SIDE       one call that callgrind leaves out, and then one that it counts
 *
 * A side is `ours`, `glib`, or `more`: ours, where a tree is written 4 times more, or 40 for the time.
 *
 * The inputs come of a generator with a fixed seed, so that each run measures the same bytes.
 */
#include <glib.h>
#include <stdbool.h>
#include <stdint.h>
#include <stdio.h>
#include <string.h>
#include <time.h>
#include <valgrind/callgrind.h>

/* ---- the proved crates: a slice is a pointer and a length, a type the bytes of its text ---- */

#define SLICE(name) const uint8_t *name, size_t name##_len
#define ROOM uint8_t *room, size_t room_len, size_t *len

bool dconf_bench_number(SLICE(of), SLICE(bytes), uint32_t *found);
bool dconf_bench_text(SLICE(of), SLICE(bytes), size_t *len);
bool dconf_bench_walk(SLICE(of), SLICE(bytes), uint64_t *total);
bool dconf_bench_walk_members(SLICE(of), SLICE(bytes), uint64_t *total);
bool dconf_bench_lookup(SLICE(of), SLICE(bytes), SLICE(key), size_t *len);
bool dconf_bench_print(SLICE(of), SLICE(bytes), ROOM);
bool dconf_bench_tree(SLICE(of), SLICE(bytes), uint64_t *count);
bool dconf_bench_written(SLICE(of), SLICE(bytes), uint32_t before, ROOM);
bool dconf_bench_normal(SLICE(of), SLICE(bytes), bool *found);
bool dconf_bench_read(SLICE(text), uint64_t *count);
bool dconf_bench_read_written(SLICE(text), ROOM);

/* ---- what a side is given, and what it answers ---- */

typedef struct {
    const char *type;
    GBytes *bytes; /* the value, or the text that is parsed */
    const char *key;
    GVariant *tree; /* the value as a tree of GLib's, where the call works on one */
    uint32_t more;  /* how many times more a tree of ours is written */
    bool trusted;   /* whether GLib is told that the bytes are normal */
} Input;

typedef struct {
    bool done;
    uint64_t number;
    uint8_t *room; /* answers that are texts or bytes are here */
    size_t room_len;
    size_t len;
} Answer;

typedef void Side(const Input *in, Answer *out);

#define TEXT(text) (const uint8_t *)(text), strlen(text)
#define OF(in) TEXT((in)->type)
#define AT(in) g_bytes_get_data((in)->bytes, NULL), g_bytes_get_size((in)->bytes)

static void put(Answer *out, const void *at, size_t len) {
    out->len = len;
    if (len <= out->room_len)
        memcpy(out->room, at, len);
}

/* Untrusted, as one reads a file, unless the case says so. */
static GVariant *value_of(const Input *in) {
    return g_variant_ref_sink(g_variant_new_from_bytes(G_VARIANT_TYPE(in->type), in->bytes, in->trusted));
}

/* The two sides of a case that finds one number: CALL puts a TYPE where it is told, and OF_GLIB gives it of a value. */
#define NUMBER_CASE(NAME, TYPE, CALL, OF_GLIB)              \
    static void NAME##_ours(const Input *in, Answer *out) { \
        TYPE found = 0;                                     \
        out->done = CALL(OF(in), AT(in), &found);           \
        out->number = found;                                \
    }                                                       \
    static void NAME##_glib(const Input *in, Answer *out) { \
        GVariant *value = value_of(in);                     \
        out->number = OF_GLIB(value);                       \
        g_variant_unref(value);                             \
    }

/* ---- reading ---- */

static uint64_t text_length(GVariant *value) {
    gsize len = 0;
    g_variant_get_string(value, &len);
    return len;
}

NUMBER_CASE(number, uint32_t, dconf_bench_number, g_variant_get_uint32)
NUMBER_CASE(text, size_t, dconf_bench_text, text_length)

/* ---- walking: the sizes of the children added up, which shows that each was come to ---- */

/* What SIZE gives of each child, added up. */
static uint64_t sum_over_children(GVariant *value, uint64_t (*size)(GVariant *)) {
    uint64_t total = 0;
    gsize count = g_variant_n_children(value);
    for (gsize i = 0; i < count; i++) {
        GVariant *child = g_variant_get_child_value(value, i);
        total += size(child);
        g_variant_unref(child);
    }
    return total;
}

static uint64_t size_of(GVariant *value) {
    return g_variant_get_size(value);
}

static uint64_t sizes(GVariant *value) {
    return sum_over_children(value, size_of);
}

static uint64_t member_sizes(GVariant *value) {
    return sum_over_children(value, sizes);
}

NUMBER_CASE(walk, uint64_t, dconf_bench_walk, sizes)
NUMBER_CASE(members, uint64_t, dconf_bench_walk_members, member_sizes)

/* ---- looking up: the size of the `v` under the key ---- */

static void lookup_ours(const Input *in, Answer *out) {
    size_t len = 0;
    bool found = dconf_bench_lookup(OF(in), AT(in), TEXT(in->key), &len);
    out->number = found ? len : 0;
}

static void lookup_glib(const Input *in, Answer *out) {
    GVariant *value = value_of(in);
    GVariant *found = g_variant_lookup_value(value, in->key, NULL);
    out->number = 0;
    if (found != NULL) {
        /* GLib hands out what the `v` holds. */
        out->number = g_variant_get_size(found) + 1 + strlen(g_variant_get_type_string(found));
        g_variant_unref(found);
    }
    g_variant_unref(value);
}

/* ---- printing ---- */

static void print_ours(const Input *in, Answer *out) {
    out->done = dconf_bench_print(OF(in), AT(in), out->room, out->room_len, &out->len);
}

static void put_text(GVariant *value, Answer *out) {
    gchar *text = g_variant_print(value, TRUE);
    put(out, text, strlen(text));
    g_free(text);
}

static void print_glib(const Input *in, Answer *out) {
    GVariant *value = value_of(in);
    put_text(value, out);
    g_variant_unref(value);
}

/* ---- trees ---- */

/* GLib has no public call for this: a builder makes it, part by part. */
static GVariant *tree_of(GVariant *value) {
    if (!g_variant_is_container(value)) {
        switch (g_variant_classify(value)) {
        case G_VARIANT_CLASS_BOOLEAN: return g_variant_new_boolean(g_variant_get_boolean(value));
        case G_VARIANT_CLASS_BYTE: return g_variant_new_byte(g_variant_get_byte(value));
        case G_VARIANT_CLASS_INT32: return g_variant_new_int32(g_variant_get_int32(value));
        case G_VARIANT_CLASS_UINT32: return g_variant_new_uint32(g_variant_get_uint32(value));
        case G_VARIANT_CLASS_STRING: return g_variant_new_string(g_variant_get_string(value, NULL));
        default: g_error("no input has this type");
        }
    }
    GVariantBuilder builder;
    g_variant_builder_init(&builder, g_variant_get_type(value));
    gsize count = g_variant_n_children(value);
    for (gsize i = 0; i < count; i++) {
        GVariant *child = g_variant_get_child_value(value, i);
        g_variant_builder_add_value(&builder, tree_of(child));
        g_variant_unref(child);
    }
    return g_variant_builder_end(&builder);
}

static uint64_t nodes(GVariant *value) {
    return 1 + (g_variant_is_container(value) ? sum_over_children(value, nodes) : 0);
}

static void tree_ours(const Input *in, Answer *out) {
    out->done = dconf_bench_tree(OF(in), AT(in), &out->number);
}

static void tree_glib(const Input *in, Answer *out) {
    GVariant *value = value_of(in);
    g_variant_unref(g_variant_ref_sink(tree_of(value)));
    g_variant_unref(value);
    (void)out;
}

/* The making of a tree, and its bytes: `bench/run` tells from two counts what the bytes cost. */
static void written_ours(const Input *in, Answer *out) {
    out->done = dconf_bench_written(OF(in), AT(in), in->more, out->room, out->room_len, &out->len);
}

static void written_glib(const Input *in, Answer *out) {
    out->len = g_variant_get_size(in->tree);
    if (out->len <= out->room_len)
        g_variant_store(in->tree, out->room);
}

static void print_tree_glib(const Input *in, Answer *out) {
    put_text(in->tree, out);
}

/* ---- the normal test ---- */

NUMBER_CASE(normal, bool, dconf_bench_normal, g_variant_is_normal_form)

/* ---- parsing ---- */

static void parse_ours(const Input *in, Answer *out) {
    out->done = dconf_bench_read(AT(in), &out->number);
}

static void parse_glib(const Input *in, Answer *out) {
    gsize len;
    const gchar *text = g_bytes_get_data(in->bytes, &len);
    GVariant *value = g_variant_parse(NULL, text, text + len, NULL, NULL);
    out->done = value != NULL;
    if (value != NULL)
        g_variant_unref(value);
}

/* What was parsed, for the check alone: its bytes, a zero byte and its type. */
static void parsed_ours(const Input *in, Answer *out) {
    out->done = dconf_bench_read_written(AT(in), out->room, out->room_len, &out->len);
}

static void parsed_glib(const Input *in, Answer *out) {
    gsize len;
    const gchar *text = g_bytes_get_data(in->bytes, &len);
    GVariant *value = g_variant_parse(NULL, text, text + len, NULL, NULL);
    out->done = value != NULL;
    if (value == NULL)
        return;
    GByteArray *all = g_byte_array_new();
    g_byte_array_append(all, g_variant_get_data(value), g_variant_get_size(value));
    g_byte_array_append(all, (const guint8 *)"", 1);
    g_byte_array_append(all, TEXT(g_variant_get_type_string(value)));
    put(out, all->data, all->len);
    g_byte_array_unref(all);
    g_variant_unref(value);
}

/* ---- the inputs ---- */

static uint64_t seed = 20240229;

/* splitmix64 */
static uint64_t next(uint64_t below) {
    uint64_t z = (seed += 0x9e3779b97f4a7c15);
    z = (z ^ (z >> 30)) * 0xbf58476d1ce4e5b9;
    z = (z ^ (z >> 27)) * 0x94d049bb133111eb;
    return (z ^ (z >> 31)) % below;
}

static void letters(char *to, int least, int most) {
    int len = least + (int)next(most - least + 1);
    for (int i = 0; i < len; i++)
        to[i] = "abcdefghijklmnopqrstuvwxyz '\\-_0123456789"[next(40)];
    to[len] = 0;
}

static GBytes *data_of(GVariant *value) {
    g_variant_ref_sink(value);
    GBytes *bytes = g_bytes_new(g_variant_get_data(value), g_variant_get_size(value));
    g_variant_unref(value);
    return bytes;
}

static GVariant *one_of_some(void) {
    char text[16];
    switch (next(4)) {
    case 0: return g_variant_new_uint32(next(1000000));
    case 1: return g_variant_new_int32((int)next(1000000) - 500000);
    case 2: return g_variant_new_boolean(next(2));
    default: letters(text, 3, 12); return g_variant_new_string(text);
    }
}

static GVariant *element(const char *type, size_t i) {
    char text[32];
    if (strcmp(type, "a{sv}") == 0) {
        snprintf(text, sizeof text, "key-%zu", i);
        return g_variant_new("{sv}", text, one_of_some());
    }
    if (strcmp(type, "au") == 0)
        return g_variant_new_uint32(next(1000000));
    if (strcmp(type, "ai") == 0)
        return g_variant_new_int32((int)next(2000000) - 1000000);
    letters(text, 3, 8);
    if (strcmp(type, "aay") == 0)
        return g_variant_new_bytestring(text);
    if (strcmp(type, "a(siu)") == 0)
        return g_variant_new("(siu)", text, (int)next(1000), (guint32)next(1000));
    return g_variant_new_string(text);
}

static GVariant *array(const char *type, size_t size) {
    GVariantBuilder builder;
    g_variant_builder_init(&builder, G_VARIANT_TYPE(type));
    for (size_t i = 0; i < size; i++)
        g_variant_builder_add_value(&builder, element(type, i));
    return g_variant_builder_end(&builder);
}

static GBytes *array_data(const char *type, size_t size) {
    return data_of(array(type, size));
}

static GBytes *array_text(const char *type, size_t size) {
    GVariant *value = g_variant_ref_sink(array(type, size));
    gchar *text = g_variant_print(value, TRUE);
    g_variant_unref(value);
    return g_bytes_new_take(text, strlen(text));
}

static GBytes *one_number(const char *type, size_t size) {
    (void)type, (void)size;
    return data_of(g_variant_new_uint32(next(1000000)));
}

static GBytes *one_text(const char *type, size_t size) {
    (void)type;
    GString *text = g_string_new(NULL);
    /* every eighth character has two bytes */
    while (text->len < size)
        g_string_append_unichar(text, next(8) == 0 && text->len + 2 <= size ? 0xe9 : 'a' + next(26));
    GBytes *bytes = data_of(g_variant_new_string(text->str));
    g_string_free(text, TRUE);
    return bytes;
}

static GBytes *nested_variants(const char *type, size_t size) {
    (void)type;
    GVariant *value = g_variant_new_int32(5);
    for (size_t i = 0; i < size; i++)
        value = g_variant_new_variant(value);
    return data_of(value);
}

static GBytes *nested_brackets(const char *type, size_t size) {
    (void)type;
    GString *text = g_string_new(NULL);
    for (size_t i = 0; i < size; i++)
        g_string_append_c(text, '[');
    g_string_append_c(text, '1');
    for (size_t i = 0; i < size; i++)
        g_string_append_c(text, ']');
    return g_string_free_to_bytes(text);
}

static GBytes *escapes(const char *type, size_t size) {
    (void)type;
    static const char *const some[] = {"\\n", "\\t", "\\\\", "\\'", "\\u00e9", "\\U0001f600", "\\a", "\\\""};
    GString *text = g_string_new("'");
    for (size_t i = 0; i < size; i++)
        g_string_append(text, some[next(8)]);
    g_string_append_c(text, '\'');
    return g_string_free_to_bytes(text);
}

static GBytes *plain_string(const char *type, size_t size) {
    (void)type;
    GString *text = g_string_new("'");
    for (size_t i = 0; i < size; i++)
        g_string_append_c(text, (char)('a' + next(26)));
    g_string_append_c(text, '\'');
    return g_string_free_to_bytes(text);
}

/* Each level has the one below as its first and as its last element. */
static GBytes *tower(const char *type, size_t size) {
    (void)type;
    GByteArray *all = g_byte_array_new();
    g_byte_array_append(all, (const guint8 *)"", 1);
    for (size_t i = 0; i < size; i++) {
        guint8 ends[3] = {all->len, 0, all->len};
        g_byte_array_append(all, ends, 3);
    }
    return g_byte_array_free_to_bytes(all);
}

/* Tuples in variants, so many levels of them, both of whose variants are the same bytes. */
static GBytes *twins(const char *type, size_t size) {
    (void)type;
    GByteArray *all = g_byte_array_new();
    g_byte_array_append(all, (const guint8 *)"\5\0y", 3);
    for (size_t i = 0; i < size; i++) {
        guint8 end = all->len;
        guint8 ends[5] = {end, 0, end, 0, 0};
        g_byte_array_append(all, ends, 5);
        g_byte_array_append(all, (const guint8 *)"\0(ssvsvs)", 9);
    }
    return g_byte_array_free_to_bytes(all);
}

/* ---- the cases ---- */

static const size_t GROWING[] = {10, 1000, 10000, 100000, 0};
static const size_t ONE[] = {1, 0};
static const size_t DEEP[] = {10, 50, 126, 0};
static const size_t BRACKETS[] = {16, 64, 127, 0};
static const size_t TOWERS[] = {10, 15, 18, 0};
static const size_t TWINS[] = {8, 0};

typedef enum {
    PLAIN,
    TRUSTED, /* GLib trusts the bytes, and holds on to what it knows of the type */
} Manner;

typedef struct {
    const char *name;
    const char *type; /* NULL: as many `a` as the tower wants */
    const size_t *sizes;
    GBytes *(*make)(const char *type, size_t size);
    Side *ours, *glib;
    Side *check_ours, *check_glib; /* where the check wants more than the measured call answers */
    const char *key;               /* NULL for none, "last" for the last one of so many */
    Manner manner;
} Case;

static const Case CASES[] = {
    {"read `u`", "u", ONE, one_number, number_ours, number_glib, 0, 0, 0, PLAIN},
    {"read `s`", "s", GROWING, one_text, text_ours, text_glib, 0, 0, 0, PLAIN},
    {"walk `as`", "as", GROWING, array_data, walk_ours, walk_glib, 0, 0, 0, PLAIN},
    {"walk `a{sv}`", "a{sv}", GROWING, array_data, walk_ours, walk_glib, 0, 0, 0, PLAIN},
    {"walk `a(siu)`", "a(siu)", GROWING, array_data, walk_ours, walk_glib, 0, 0, 0, PLAIN},
    {"walk `a{sv}`, keys and values", "a{sv}", GROWING, array_data, members_ours, members_glib, 0, 0, 0, PLAIN},
    {"walk `a(siu)`, members", "a(siu)", GROWING, array_data, members_ours, members_glib, 0, 0, 0, PLAIN},
    {"look up the first key", "a{sv}", GROWING, array_data, lookup_ours, lookup_glib, 0, 0, "key-0", PLAIN},
    {"look up the last key", "a{sv}", GROWING, array_data, lookup_ours, lookup_glib, 0, 0, "last", PLAIN},
    {"look up a missing key", "a{sv}", GROWING, array_data, lookup_ours, lookup_glib, 0, 0, "none", PLAIN},
    {"print `a{sv}`", "a{sv}", GROWING, array_data, print_ours, print_glib, 0, 0, 0, PLAIN},
    {"print `a{sv}`, GLib's tree", "a{sv}", GROWING, array_data, print_ours, print_tree_glib, 0, 0, 0, PLAIN},
    {"print `aay`", "aay", GROWING, array_data, print_ours, print_glib, 0, 0, 0, PLAIN},
    {"print `au`", "au", GROWING, array_data, print_ours, print_glib, 0, 0, 0, PLAIN},
    {"print `v` in `v`", "v", DEEP, nested_variants, print_ours, print_glib, 0, 0, 0, PLAIN},
    {"walk `as`, trusted", "as", GROWING, array_data, walk_ours, walk_glib, 0, 0, 0, TRUSTED},
    {"look up the first key, trusted", "a{sv}", GROWING, array_data, lookup_ours, lookup_glib, 0, 0, "key-0", TRUSTED},
    {"print `a{sv}`, trusted", "a{sv}", GROWING, array_data, print_ours, print_glib, 0, 0, 0, TRUSTED},
    {"tree of `as`", "as", GROWING, array_data, tree_ours, tree_glib, 0, 0, 0, PLAIN},
    {"tree of `a{sv}`", "a{sv}", GROWING, array_data, tree_ours, tree_glib, 0, 0, 0, PLAIN},
    {"serialise `as`", "as", GROWING, array_data, written_ours, written_glib, 0, 0, 0, PLAIN},
    {"serialise `a{sv}`", "a{sv}", GROWING, array_data, written_ours, written_glib, 0, 0, 0, PLAIN},
    {"normal test of `as`", "as", GROWING, array_data, normal_ours, normal_glib, 0, 0, 0, PLAIN},
    {"normal test of `a{sv}`", "a{sv}", GROWING, array_data, normal_ours, normal_glib, 0, 0, 0, PLAIN},
    {"normal test of `au`", "au", GROWING, array_data, normal_ours, normal_glib, 0, 0, 0, PLAIN},
    {"parse `a{sv}`", "a{sv}", GROWING, array_text, parse_ours, parse_glib, parsed_ours, parsed_glib, 0, PLAIN},
    {"parse `ai`", "ai", GROWING, array_text, parse_ours, parse_glib, parsed_ours, parsed_glib, 0, PLAIN},
    {"parse nested brackets", "", BRACKETS, nested_brackets, parse_ours, parse_glib, parsed_ours, parsed_glib, 0, PLAIN},
    {"parse a string of escapes", "", GROWING, escapes, parse_ours, parse_glib, parsed_ours, parsed_glib, 0, PLAIN},
    {"parse a plain string", "", GROWING, plain_string, parse_ours, parse_glib, parsed_ours, parsed_glib, 0, PLAIN},
    {"print a tower", NULL, TOWERS, tower, print_ours, print_glib, 0, 0, 0, PLAIN},
    {"normal test of a tower", NULL, TOWERS, tower, normal_ours, normal_glib, 0, 0, 0, PLAIN},
    {"print twins `(ssvsvs)`", "v", TWINS, twins, print_ours, print_glib, 0, 0, 0, PLAIN},
    {"normal test of twins `(ssvsvs)`", "v", TWINS, twins, normal_ours, normal_glib, 0, 0, 0, PLAIN},
};

static Input input_of(const Case *c, size_t size) {
    Input in = {.type = c->type, .key = c->key, .trusted = c->manner == TRUSTED};
    if (c->type == NULL) {
        char *text = g_malloc0(size + 3);
        memset(text, 'a', size + 1);
        text[size + 1] = 'y';
        in.type = text;
    }
    in.bytes = c->make(in.type, size);
    if (in.trusted)
        value_of(&in); /* kept, and what GLib knows of its type with it */
    if (c->key != NULL && strcmp(c->key, "last") == 0)
        in.key = g_strdup_printf("key-%zu", size - 1);
    return in;
}

static Answer answer_to(const Input *in) {
    size_t room_len = 4096 + 64 * g_bytes_get_size(in->bytes);
    return (Answer){.done = true, .room = g_malloc(room_len), .room_len = room_len};
}

/* A tree keeps its size once that is asked for, so each call gets a new one, which isn't measured. */
static void renew(const Case *c, Input *in) {
    if (c->glib != written_glib && c->glib != print_tree_glib)
        return;
    if (in->tree != NULL)
        g_variant_unref(in->tree);
    GVariant *value = g_variant_ref_sink(g_variant_new_from_bytes(G_VARIANT_TYPE(in->type), in->bytes, TRUE));
    in->tree = g_variant_ref_sink(tree_of(value));
    g_variant_unref(value);
}

/* ---- the modes ---- */

static void list(void) {
    for (size_t i = 0; i < G_N_ELEMENTS(CASES); i++)
        for (const size_t *size = CASES[i].sizes; *size != 0; size++)
            printf("%zu\t%s\t%zu\n", i, CASES[i].name, *size);
}

/* How many values both trees have, which GLib has no call for. */
static void count_nodes(const Input *in, Answer *out) {
    GVariant *value = value_of(in);
    out->number = nodes(value);
    g_variant_unref(value);
}

static int check(const Case *c, Input *in) {
    renew(c, in);
    Answer ours = answer_to(in), glib = answer_to(in);
    (c->check_ours ? c->check_ours : c->ours)(in, &ours);
    (c->check_glib ? c->check_glib : c->glib)(in, &glib);
    if (c->glib == tree_glib)
        count_nodes(in, &glib);
    if (!ours.done) {
        puts("refused");
        return 0;
    }
    bool same = ours.done == glib.done && ours.number == glib.number && ours.len == glib.len;
    same = same && ours.len <= ours.room_len && memcmp(ours.room, glib.room, ours.len) == 0;
    puts(same ? "same" : "OTHER");
    return !same;
}

static uint64_t now(void) {
    struct timespec t;
    clock_gettime(CLOCK_MONOTONIC, &t);
    return (uint64_t)t.tv_sec * 1000000000 + t.tv_nsec;
}

/* Up to a second or 1,000 calls, and never fewer than one. */
static void least_time(const Case *c, Side *side, Input *in) {
    Answer out = answer_to(in);
    uint64_t least = UINT64_MAX, begin = now();
    for (int i = 0; i < 1000 && (i == 0 || now() - begin < 1000000000); i++) {
        renew(c, in);
        uint64_t from = now();
        side(in, &out);
        least = MIN(least, now() - from);
    }
    printf("%" G_GUINT64_FORMAT "\n", least);
}

static void count(const Case *c, Side *side, Input *in) {
    Answer out = answer_to(in);
    renew(c, in);
    side(in, &out);
    renew(c, in);
    CALLGRIND_TOGGLE_COLLECT;
    side(in, &out);
    CALLGRIND_TOGGLE_COLLECT;
}

int main(int argc, char **argv) {
    if (argc == 2 && strcmp(argv[1], "list") == 0) {
        list();
        return 0;
    }
    if (argc < 4)
        return 2;
    const Case *c = &CASES[atoi(argv[2])];
    Input in = input_of(c, strtoul(argv[3], NULL, 10));
    if (strcmp(argv[1], "check") == 0)
        return check(c, &in);
    if (argc < 5)
        return 2;
    Side *side = strcmp(argv[4], "glib") == 0 ? c->glib : c->ours;
    if (strcmp(argv[4], "more") == 0)
        in.more = strcmp(argv[1], "time") == 0 ? 40 : 4;
    if (strcmp(argv[1], "time") == 0)
        least_time(c, side, &in);
    else
        count(c, side, &in);
    return 0;
}
