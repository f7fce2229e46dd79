/* What is found of how the proved calls have their structs, and how: these files don't include dconfdb_calls.h. They hand the calls plain
 * bytes, have them write values that all differ, and look where these lie. What the calls only read, changes and the elements of an array,
 * they lay out as it should be, and look whether just that is read. */
#ifndef LAYOUTS_H
#define LAYOUTS_H

#include <stdbool.h>
#include <stddef.h>
#include <stdint.h>

/* How many bytes a field takes: a bool, a uint32_t, a size_t or pointer, and bytes that are lent. */
enum { FLAG = 1, NUMBER = 4, WORD = 8, LENT = 16 };
enum { ROOM = 512, UNTOUCHED = 0xaa };

/* Where a path lies in what begins with one; and a fault that is no errno's own. */
enum { PATH = 0, FAULT = 77 };

void is_so(bool is, const char *what);

/* ---- bytes that a call writes */

typedef struct {
    const char *type; /* of dconfdb_calls.h */
    size_t end, widest;
    bool is_taken[ROOM];
    _Alignas(16) uint8_t bytes[ROOM];
} Written;

Written room_of(const char *type);

/* The one place from `from` to `to` at which these bytes are. */
size_t place_of(const Written *room, size_t from, size_t to, const void *bytes, size_t width);

/* Says that a field of that type lies there. */
void lies(const char *type, const char *field, size_t at, size_t width);
size_t takes(Written *room, const char *field, size_t at, size_t width);
size_t finds_number(Written *room, const char *field, uint32_t number);
size_t finds_word(Written *room, const char *field, size_t word);

/* A number that lies before all else. */
void finds_first(Written *room, const char *field, uint32_t number);

/* Where a pointer and a length are, of bytes that are lent. */
extern size_t at_in_lent, len_in_lent;
void lends(uint8_t *to, const void *bytes, size_t len);
size_t finds_lent(Written *room, const char *field, const void *bytes, size_t len);

/* Whether just these bytes are lent there. */
bool is_lent(const uint8_t *lent, const char *wanted, size_t size);

/* The one place at which a turn or a step has 1 and another one 0. */
size_t flag_of(const Written *one, const Written *other);

/* The one place of these where a struct and another one have these bytes. Bytes that nobody uses may look like any. */
size_t bit_of(const Written *one, const Written *other, size_t from, size_t to, uint8_t in_one, uint8_t in_other);

/* Says how many bytes a struct takes of which all fields are found. Nothing is written after it. */
size_t ends(const Written *room);

/* ---- what is found: of a database (database.c), of a turn to change a file (turn.c), of what waits (waits.c), of what is done next (rounds.c), of faults
 * (faults.c), of what others do (others.c), of where a store is (place.c), of lines (lines.c), and of changes to a set (changesets.c); and what inotify
 * tells (inotify.c) */

/* Of so many texts a path is made. */
enum { PART_OF_PATH = 4 };

/* What a name takes that is watched. */
enum { WATCHED_NAME = 24 };

extern uint8_t file[]; /* a database */
const void *empty_layer(void);

void finds_database(void);
void finds_turns(void);
void finds_waits(void);
void finds_next(void);
void finds_faults(void);
void finds_others(void);
void finds_places(void);
void finds_lines(void);
void tries_inotify(void);
void finds_changesets(void);

#endif
