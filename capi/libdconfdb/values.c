/* What is in a value, and the value of a text, over the proved calls. */
#define _DEFAULT_SOURCE
#define _POSIX_C_SOURCE 200809L
#define _FILE_OFFSET_BITS 64
#include "dconfdb.h"
#include "dconfdb_calls.h"
#include "errors.h"
#include "snapshot.h"
#include "texts.h"

#include <stddef.h>
#include <stdlib.h>
#include <string.h>

/* The bits of a number of the type with this letter. */
static bool number_in(const DconfdbValue *value, char letter, uint64_t *bits)
{
    return dconfdb_number_in((const uint8_t *)value->type, value->type_size, value->data, value->size, (uint8_t)letter, bits);
}

bool dconfdb_value_get_boolean(const DconfdbValue *value, bool *out)
{
    uint64_t bits = 0;
    if (!number_in(value, 'b', &bits))
        return false;
    *out = bits != 0;
    return true;
}

/* A number as its own type has it: the bits of a negative one are those of its two's complement. */
#define GETTER(name, type, unsigned_type, letter)                          \
    bool dconfdb_value_get_##name(const DconfdbValue *value, type *out)    \
    {                                                                      \
        uint64_t bits = 0;                                                 \
        if (!number_in(value, letter, &bits))                              \
            return false;                                                  \
        unsigned_type number = (unsigned_type)bits;                        \
        memcpy(out, &number, sizeof *out);                                 \
        return true;                                                       \
    }

GETTER(byte, uint8_t, uint8_t, 'y')
GETTER(int16, int16_t, uint16_t, 'n')
GETTER(uint16, uint16_t, uint16_t, 'q')
GETTER(int32, int32_t, uint32_t, 'i')
GETTER(uint32, uint32_t, uint32_t, 'u')
GETTER(int64, int64_t, uint64_t, 'x')
GETTER(uint64, uint64_t, uint64_t, 't')
GETTER(double, double, uint64_t, 'd')

const char *dconfdb_value_get_string(const DconfdbValue *value, size_t *length)
{
    DconfdbBytes found = DCONFDB_NOTHING;
    if (!dconfdb_text_in((const uint8_t *)value->type, value->type_size, value->data, value->size, &found))
        return NULL;
    if (length)
        *length = found.len;
    /* A default is the library's own, without a zero byte after it. */
    if (found.len == 0)
        return "";
    return found.len == 1 && *found.at == '/' ? "/" : (const char *)found.at;
}

/* A part, as the header has it: of the database that the whole is from. */
static bool part_of(const DconfdbValue *value, bool is_found, const DconfdbPart *part, DconfdbValue *out)
{
    if (!is_found)
        return false;
    size_t origin = value->origin; /* `out` may be `value` */
    *out = (DconfdbValue){part->value.at, part->value.len, (const char *)part->type_text.at, part->type_text.len, origin, 0};
    return true;
}

size_t dconfdb_value_n_children(const DconfdbValue *value)
{
    return dconfdb_count_children((const uint8_t *)value->type, value->type_size, value->data, value->size);
}

_Static_assert(offsetof(DconfdbValue, data) == offsetof(DconfdbChild, value.at)
                   && offsetof(DconfdbValue, size) == offsetof(DconfdbChild, value.len)
                   && offsetof(DconfdbValue, type) == offsetof(DconfdbChild, type_text.at)
                   && offsetof(DconfdbValue, type_size) == offsetof(DconfdbChild, type_text.len)
                   && offsetof(DconfdbValue, origin) == offsetof(DconfdbChild, origin)
                   && offsetof(DconfdbValue, passed) == offsetof(DconfdbChild, passed)
                   && sizeof(DconfdbValue) == sizeof(DconfdbChild),
               "a value is what the proved calls put and take, so that they have all in place");

static bool child_at(DconfdbValue *value, bool of_variant, size_t index, DconfdbValue *child)
{
    DconfdbPart part; /* the call writes all of it, or it isn't looked at */
    bool is_found = dconfdb_child_at((DconfdbChild *)(void *)value, of_variant, index, &part);
    return part_of(value, is_found, &part, child);
}

bool dconfdb_value_child(DconfdbValue *value, size_t index, DconfdbValue *child)
{
    return child_at(value, false, index, child);
}

size_t dconfdb_value_children(const DconfdbValue *value, DconfdbValue *children, size_t room)
{
    return dconfdb_put_children((const uint8_t *)value->type, value->type_size, value->data, value->size, value->origin,
                                (DconfdbChild *)(void *)children, room);
}

bool dconfdb_value_get_variant(const DconfdbValue *value, DconfdbValue *child)
{
    DconfdbValue whole = *value;
    return child_at(&whole, true, 0, child);
}

bool dconfdb_value_lookup(const DconfdbValue *value, const char *key, DconfdbValue *child)
{
    DconfdbPart part = {DCONFDB_NOTHING, DCONFDB_NOTHING};
    bool is_found = dconfdb_look_up((const uint8_t *)value->type, value->type_size, value->data, value->size, (const uint8_t *)key, strlen(key),
                                    &part);
    return part_of(value, is_found, &part, child);
}

/* ---- the value of a text */

/* Calls with a room that mostly is enough, and else with one that is. */
bool dconfdb_value_parse(const char *text, DconfdbValue *value, DconfdbError *error)
{
    size_t text_len = strlen(text), len = text_len < 1 << 24 ? 64 + 2 * text_len : 64, room_len, size = 0, start = 0, end = 0;
    uint32_t number = DCONFDB_MEMORY;
    do {
        room_len = len;
        uint8_t *room = malloc(room_len + 1);
        if (!room)
            return refuse_memory(error);
        number = dconfdb_parse_value((const uint8_t *)text, text_len, room, room_len, &len, &size, &start, &end);
        if (number == DCONFDB_OK && len <= room_len) {
            room[len] = 0;
            *value = (DconfdbValue){room, size, (const char *)room + size, len - size, 0, 0};
            return true;
        }
        free(room);
    } while (number == DCONFDB_OK);
    return refuse_text(error, number, start, end);
}

static uint32_t prints_value(const DconfdbSnapshot *snapshot, const void *of, uint8_t *room, size_t room_len, size_t *len)
{
    const DconfdbValue *value = of;
    (void)snapshot;
    return dconfdb_print_value(bytes_of(value->type), value->type_size, value->data, value->size, room, room_len, len);
}

char *dconfdb_value_print(const DconfdbValue *value, DconfdbError *error)
{
    return snapshot_listed(prints_value, NULL, value, "the value", NULL, error);
}
