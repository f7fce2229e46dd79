/* Where a field lies in the bytes that a call has written, and how many bytes they are. */
#include "layouts.h"

#include <stdio.h>
#include <stdlib.h>
#include <string.h>

void is_so(bool is, const char *what)
{
    if (!is) {
        fprintf(stderr, "layouts: the proved calls have %s otherwise than dconfdb_calls.h\n", what);
        exit(1);
    }
}

Written room_of(const char *type)
{
    Written room = {.type = type};
    memset(room.bytes, UNTOUCHED, ROOM);
    return room;
}

/* The one place from `from` to `to` at which these bytes are. */
size_t place_of(const Written *room, size_t from, size_t to, const void *bytes, size_t width)
{
    size_t step = width == LENT ? WORD : width, found = ROOM, count = 0;
    for (size_t at = from; at + width <= to; at += step) {
        if (!room->is_taken[at] && memcmp(room->bytes + at, bytes, width) == 0) {
            found = at;
            count++;
        }
    }
    is_so(count == 1, room->type);
    return found;
}

/* Says that a field of that type lies there. */
void lies(const char *type, const char *field, size_t at, size_t width)
{
    printf("LIES(%s, %s, %zu, %zu);\n", type, field, at, width);
}

size_t takes(Written *room, const char *field, size_t at, size_t width)
{
    size_t step = width == LENT ? WORD : width;
    lies(room->type, field, at, width);
    memset(room->is_taken + at, true, width);
    room->end = at + width > room->end ? at + width : room->end;
    room->widest = step > room->widest ? step : room->widest;
    return at;
}

size_t finds_number(Written *room, const char *field, uint32_t number)
{
    return takes(room, field, place_of(room, 0, ROOM, &number, NUMBER), NUMBER);
}

size_t finds_word(Written *room, const char *field, size_t word)
{
    return takes(room, field, place_of(room, 0, ROOM, &word, WORD), WORD);
}

/* Where a pointer and a length are, of bytes that are lent. */
size_t at_in_lent, len_in_lent;

void lends(uint8_t *to, const void *bytes, size_t len)
{
    memcpy(to + at_in_lent, &bytes, WORD);
    memcpy(to + len_in_lent, &len, WORD);
}

size_t finds_lent(Written *room, const char *field, const void *bytes, size_t len)
{
    uint8_t lent[LENT];
    lends(lent, bytes, len);
    return takes(room, field, place_of(room, 0, ROOM, lent, LENT), LENT);
}

/* Says how many bytes a struct takes of which all fields are found. Nothing is written after it. */
size_t ends(const Written *room)
{
    size_t size = (room->end + room->widest - 1) / room->widest * room->widest;
    for (size_t at = size; at < ROOM; at++)
        is_so(room->bytes[at] == UNTOUCHED, room->type);
    printf("TAKES(%s, %zu);\n", room->type, size);
    return size;
}

/* The one place at which a turn or a step has 1 and another one 0. */
size_t flag_of(const Written *one, const Written *other)
{
    size_t found = ROOM, count = 0;
    for (size_t at = 0; at < ROOM; at++) {
        if (!one->is_taken[at] && one->bytes[at] == 1 && other->bytes[at] == 0) {
            found = at;
            count++;
        }
    }
    is_so(count == 1, one->type);
    return found;
}

/* The one place of these where a struct and another one have these bytes. Bytes that nobody uses may look like any. */
size_t bit_of(const Written *one, const Written *other, size_t from, size_t to, uint8_t in_one, uint8_t in_other)
{
    size_t found = ROOM, count = 0;
    for (size_t at = from; at < to; at++) {
        if (one->bytes[at] == in_one && other->bytes[at] == in_other) {
            found = at;
            count++;
        }
    }
    is_so(count == 1, one->type);
    return found;
}

/* A number that lies before all else. */
void finds_first(Written *room, const char *field, uint32_t number)
{
    takes(room, field, place_of(room, 0, NUMBER, &number, NUMBER), NUMBER);
}

/* Whether just these bytes are lent there. */
bool is_lent(const uint8_t *lent, const char *wanted, size_t size)
{
    const char *at;
    size_t len;
    memcpy(&at, lent + at_in_lent, WORD);
    memcpy(&len, lent + len_in_lent, WORD);
    return len == size && memcmp(at, wanted, size) == 0;
}
