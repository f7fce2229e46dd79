/* Prints what is in values: a line of type text, a blank and bytes in hexadecimal, each. With WITH_GLIB it asks GLib's GVariant, else the
 * library: tests/library compares the two. */
#include <inttypes.h>
#include <stdint.h>
#include <stdio.h>
#include <stdlib.h>
#include <string.h>

enum { LINE = 1 << 16 };

static void prints_text(const char *text, size_t len)
{
    putchar('"');
    for (size_t i = 0; i < len; i++)
        printf(text[i] > ' ' && text[i] < 127 && text[i] != '"' ? "%c" : "\\%02x", (unsigned char)text[i]);
    putchar('"');
}

/* The bits, since a double that is no number equals none. */
static void prints_double(double number)
{
    uint64_t bits;
    memcpy(&bits, &number, sizeof bits);
    printf("d%016" PRIx64, bits);
}

#ifdef WITH_GLIB
#include <glib.h>

static void prints(GVariant *value)
{
    const char *type = g_variant_get_type_string(value);
    if (strchr("sog", type[0])) {
        gsize len;
        const char *text = g_variant_get_string(value, &len);
        prints_text(text, len);
    } else
        switch (type[0]) {
        case 'b': printf("b%d", g_variant_get_boolean(value)); break;
        case 'y': printf("y%u", g_variant_get_byte(value)); break;
        case 'n': printf("n%d", g_variant_get_int16(value)); break;
        case 'q': printf("q%u", g_variant_get_uint16(value)); break;
        case 'i': printf("i%" PRId32, g_variant_get_int32(value)); break;
        case 'h': printf("i%" PRId32, g_variant_get_handle(value)); break;
        case 'u': printf("u%" PRIu32, g_variant_get_uint32(value)); break;
        case 'x': printf("x%" PRId64, g_variant_get_int64(value)); break;
        case 't': printf("t%" PRIu64, g_variant_get_uint64(value)); break;
        case 'd': prints_double(g_variant_get_double(value)); break;
        default: {
            gsize count = g_variant_n_children(value);
            printf("%zu[", count);
            for (gsize i = 0; i < count; i++) {
                GVariant *child = g_variant_get_child_value(value, i);
                printf("%s:", g_variant_get_type_string(child));
                prints(child);
                putchar(' ');
                g_variant_unref(child);
            }
            putchar(']');
        }
        }
    if (g_str_has_prefix(type, "a{s")) {
        GVariant *found = g_variant_lookup_value(value, "a", NULL);
        printf(" a=");
        /* g_variant_lookup_value() opens a variant. */
        if (found) {
            printf("%s:", g_variant_get_type_string(found));
            prints(found);
            g_variant_unref(found);
        }
    }
}

static void prints_bytes(const char *type, const uint8_t *data, size_t size)
{
    GBytes *bytes = g_bytes_new(data, size);
    GVariant *value = g_variant_ref_sink(g_variant_new_from_bytes(G_VARIANT_TYPE(type), bytes, FALSE));
    prints(value);
    g_variant_unref(value);
    g_bytes_unref(bytes);
}
#else
#include "dconfdb.h"

/* At any other type than its own a value has no number. */
static void prints_number(const DconfdbValue *value)
{
    bool is;
    uint8_t byte;
    int16_t int16;
    uint16_t uint16;
    int32_t int32;
    uint32_t uint32;
    int64_t int64;
    uint64_t uint64;
    double number;
    if (dconfdb_value_get_boolean(value, &is))
        printf("b%d", is);
    if (dconfdb_value_get_byte(value, &byte))
        printf("y%u", byte);
    if (dconfdb_value_get_int16(value, &int16))
        printf("n%d", int16);
    if (dconfdb_value_get_uint16(value, &uint16))
        printf("q%u", uint16);
    if (dconfdb_value_get_int32(value, &int32))
        printf("i%" PRId32, int32);
    if (dconfdb_value_get_uint32(value, &uint32))
        printf("u%" PRIu32, uint32);
    if (dconfdb_value_get_int64(value, &int64))
        printf("x%" PRId64, int64);
    if (dconfdb_value_get_uint64(value, &uint64))
        printf("t%" PRIu64, uint64);
    if (dconfdb_value_get_double(value, &number))
        prints_double(number);
}

static bool are_same(const DconfdbValue *one, const DconfdbValue *other)
{
    return one->size == other->size && one->type_size == other->type_size && one->origin == other->origin
        && memcmp(one->data, other->data, one->size) == 0 && memcmp(one->type, other->type, one->type_size) == 0;
}

/* Whatever was asked for before of the same value, the child at an index is the one: here in an order that goes up and down. */
static void takes_each(DconfdbValue value, const DconfdbValue *all, size_t count)
{
    DconfdbValue child;
    uint32_t random = 1;
    for (size_t i = 0; i < 3 * count; i++) {
        random = random * 1103515245 + 12345;
        size_t at = (random >> 8) % (count + 2);
        if (dconfdb_value_child(&value, at, &child) != (at < count) || (at < count && !are_same(&child, &all[at])))
            exit(1);
    }
}

/* All children at once are those at the indices, and a short room has the first of them. */
static void takes_children(const DconfdbValue *value)
{
    DconfdbValue whole = *value;
    size_t count = dconfdb_value_n_children(value), half = count / 2;
    DconfdbValue *all = calloc(count + 1, sizeof *all), *some = calloc(count + 1, sizeof *some), child, untouched = {NULL, 0, NULL, 0, 0, 0};
    if (!all || !some || dconfdb_value_children(value, all, count + 1) != count || dconfdb_value_children(value, some, half) != count)
        exit(1);
    for (size_t i = 0; i < count; i++)
        if (!dconfdb_value_child(&whole, i, &child) || !are_same(&child, &all[i]) || (i < half && !are_same(&child, &some[i])))
            exit(1);
    if (memcmp(&all[count], &untouched, sizeof untouched) != 0 || memcmp(&some[half], &untouched, sizeof untouched) != 0)
        exit(1);
    takes_each(*value, all, count);
    free(all);
    free(some);
}

static void prints(DconfdbValue value)
{
    size_t len;
    const char *text = dconfdb_value_get_string(&value, &len);
    if (text) {
        if (strlen(text) != len)
            exit(1);
        prints_text(text, len);
    }
    prints_number(&value);
    takes_children(&value);
    if (strchr("avm({", value.type[0])) {
        size_t count = dconfdb_value_n_children(&value);
        printf("%zu[", count);
        DconfdbValue child;
        for (size_t i = 0; dconfdb_value_child(&value, i, &child); i++) {
            printf("%.*s:", (int)child.type_size, child.type);
            prints(child);
            putchar(' ');
        }
        putchar(']');
    } else if (dconfdb_value_n_children(&value) != 0)
        exit(1);
    if (value.type_size > 2 && memcmp(value.type, "a{s", 3) == 0) {
        DconfdbValue found;
        printf(" a=");
        if (dconfdb_value_lookup(&value, "a", &found)) {
            dconfdb_value_get_variant(&found, &found);
            printf("%.*s:", (int)found.type_size, found.type);
            prints(found);
        }
    }
}

static void prints_bytes(const char *type, const uint8_t *data, size_t size)
{
    /* Of just its size, so that valgrind sees a read behind it. */
    void *copy = malloc(size + 1), *text = malloc(strlen(type) + 1);
    if (!copy || !text)
        exit(1);
    DconfdbValue value = {memcpy(copy, data, size), size, memcpy(text, type, strlen(type)), strlen(type), 0, 0};
    prints(value);
    free(copy);
    free(text);
}
#endif

static int digit(char c)
{
    return c <= '9' ? c - '0' : c - 'a' + 10;
}

int main(void)
{
    static char line[LINE];
    static uint8_t bytes[LINE / 2];
    while (fgets(line, sizeof line, stdin)) {
        char *hex = strchr(line, ' ');
        if (!hex)
            return 1;
        *hex++ = 0;
        size_t size = 0;
        for (; hex[0] > ' ' && hex[1] > ' '; hex += 2)
            bytes[size++] = (uint8_t)(digit(hex[0]) << 4 | digit(hex[1]));
        prints_bytes(line, bytes, size);
        putchar('\n');
    }
    return 0;
}
