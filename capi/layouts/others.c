/* What others have set, how a change ended, and what is told. */
#include "layouts.h"

#include <stdio.h>
#include <string.h>

uint32_t dconfdb_notes_read(const uint8_t *bytes, size_t bytes_len, void *left, void *room, size_t room_len, size_t *len);
uint32_t dconfdb_notes_written(const void *notes, size_t n, uint64_t moment, uint64_t time, const uint8_t *left, size_t left_len, const uint8_t *name,
                               size_t name_len, const void *file, bool is_synced, uint8_t *room, size_t room_len, size_t *len);
void dconfdb_store_after(void *known, uint32_t what, bool yes, uint64_t number, const void *old);
uint32_t dconfdb_told(const void *before, size_t before_n, const void *after, size_t after_n, bool was_writable, bool is_writable, bool same_others,
                      const void *asked, size_t count, uint8_t *room, size_t room_len, size_t *len);
uint32_t dconfdb_own_keys(const void *before, size_t before_n, const void *after, size_t after_n, const void *edits, size_t count, uint8_t *room,
                          size_t room_len, size_t *len);
uint32_t dconfdb_leave_out(const void *notes, size_t n, const void *seen, size_t seen_n, const void *edits, size_t count, uint64_t now, bool *room,
                           size_t room_len, size_t *len);
uint32_t dconfdb_note_seen(const void *notes, size_t n, const void *seen, size_t seen_n, uint64_t now, void *room, size_t room_len, size_t *len);
uint32_t dconfdb_settling_after(uint32_t task, bool yes, const void *known);
uint32_t dconfdb_is_changed(const void *before, size_t before_n, const void *after, size_t after_n, bool was_writable, bool is_writable,
                            bool same_others, const void *files_before, size_t files_before_n, const void *files_after, size_t files_after_n,
                            bool *is);
void dconfdb_ending(uint32_t outcome, uint32_t fault, bool before, bool is_aside, void *ending);
uint32_t dconfdb_course_after(uint32_t task, bool yes, uint32_t users, const void *changes, size_t n, const void *known);

/* ---- two times, of which the second is asked for */

enum { WHEN = 16, SET_VALUE = 24, TIME = 32, BEFORE_VALUE = 72, A_STAMP = 64 };

/* A file that is left nowhere, and no bytes. */
static const _Alignas(16) uint8_t no_file[A_STAMP];

static void makes_time(uint8_t *time, const char *path, uint64_t when)
{
    lends(time + PATH, path, strlen(path));
    memcpy(time + WHEN, &when, WORD);
    memset(time + SET_VALUE, 0, WORD);
}

static void tries_times(void)
{
    _Alignas(16) uint8_t times[2 * TIME];
    makes_time(times, "/a", 2);
    makes_time(times + TIME, "/k", 5);
    lies("DconfdbTime", "path", PATH, LENT);
    uint64_t value = 0x0102030405060708;
    memcpy(times + SET_VALUE, &value, WORD);
    uint8_t written[128];
    size_t len = 0;
    is_so(dconfdb_notes_written(times, 1, 0, 0, no_file, 0, no_file, 0, no_file, false, written, sizeof written, &len) == 0, "DconfdbTime");
    is_so(len <= sizeof written && memcmp(written + BEFORE_VALUE, &value, WORD) == 0, "DconfdbTime");
    lies("DconfdbTime", "when", WHEN, WORD);
    lies("DconfdbTime", "value", SET_VALUE, WORD);
    printf("TAKES(DconfdbTime, %d);\n", TIME);
}

/* How many bytes of files are read of a file of notes that has so many, and is full of those. */
static size_t files_of(size_t size)
{
    enum { LEN_AT = 56, FRAME = 72 };
    static uint8_t bytes[(1 << 20) + 8];
    _Alignas(16) uint8_t times[TIME], left[LENT];
    uint64_t path = size - FRAME;
    size_t len = 0;
    makes_time(times, "", 0);
    lends(left, "", 0);
    is_so(dconfdb_notes_written(times, 0, 0, 0, no_file, 0, no_file, 0, no_file, false, bytes, sizeof bytes, &len) == 0 && len == FRAME, "DconfdbTime");
    memcpy(bytes + LEN_AT, &path, WORD);
    is_so(dconfdb_notes_read(bytes, size, left, times, 1, &len) == 0 && len == 0, "DconfdbTime");
    memcpy(&len, left + len_in_lent, WORD);
    return len;
}

/* The longest one that is read. */
static void tries_most_noted(void)
{
    enum { MOST = 1 << 20, AROUND = 72 };
    is_so(files_of(MOST) == MOST - AROUND && files_of(MOST + 1) == 0, "DCONFDB_MOST_NOTED");
    printf("_Static_assert(DCONFDB_MOST_NOTED == %d, \"another file of notes is the longest in the proved calls\");\n", MOST);
}

/* ---- edits that are asked for, beside the guess that the second path was set at 5, and what was seen */

enum { ASKED_WHEN = 16, ASKED_CHANGE = 24, ASKED_WAS = 32, ASKED_IS = 40, IS_OWN = 48, HAS_LOOKED = 49, ASKED = 56, IS_NOTED = 32, SEEN = 40 };

static void makes_asked(uint8_t *asked, const char *path, uint64_t when, size_t change)
{
    memset(asked, 0, ASKED);
    lends(asked + PATH, path, strlen(path));
    memcpy(asked + ASKED_WHEN, &when, WORD);
    memcpy(asked + ASKED_CHANGE, &change, WORD);
}

/* Which of the edits are left out: a bit of each. */
static unsigned left_of(const uint8_t *edits, size_t count, const uint8_t *seen, size_t seen_count)
{
    _Alignas(16) uint8_t times[2 * TIME];
    bool left[3] = {false, false, false};
    size_t len = 0;
    makes_time(times, "/a", 2);
    makes_time(times + TIME, "/k", 5);
    is_so(dconfdb_leave_out(times, 2, seen, seen_count, edits, count, 9, left, 3, &len) == 0 && len == count, "DconfdbAsked");
    return left[0] | (unsigned)left[1] << 1 | (unsigned)left[2] << 2;
}

static void tries_asked(void)
{
    _Alignas(16) uint8_t edits[3 * ASKED], seen[SEEN] = {0};
    makes_asked(edits, "/j", 4, 7);
    makes_asked(edits + ASKED, "/k", 4, 8);
    makes_asked(edits + 2 * ASKED, "/j", 4, 8);
    is_so(left_of(edits, 3, seen, 0) == 6, "DconfdbAsked");
    edits[ASKED + IS_OWN] = 1;
    is_so(left_of(edits, 3, seen, 0) == 0, "DconfdbAsked");
    edits[ASKED + IS_OWN] = 0;
    edits[ASKED + HAS_LOOKED] = edits[ASKED + ASKED_WAS] = edits[ASKED + ASKED_IS] = 1;
    is_so(left_of(edits, 3, seen, 0) == 0, "DconfdbAsked");
    edits[ASKED + ASKED_IS] = 2;
    is_so(left_of(edits, 3, seen, 0) == 6, "DconfdbAsked");
    edits[ASKED + ASKED_IS] = 1;
    makes_time(seen, "/k", 5);
    is_so(left_of(edits, 3, seen, 1) == 6, "DconfdbSeen");
    makes_asked(edits + ASKED, "/k", 5, 8);
    is_so(left_of(edits, 3, seen, 1) == 0, "DconfdbAsked");
    lies("DconfdbAsked", "path", PATH, LENT);
    lies("DconfdbAsked", "when", ASKED_WHEN, WORD);
    lies("DconfdbAsked", "change", ASKED_CHANGE, WORD);
    lies("DconfdbAsked", "is_own", IS_OWN, FLAG);
    lies("DconfdbAsked", "was", ASKED_WAS, WORD);
    lies("DconfdbAsked", "is", ASKED_IS, WORD);
    lies("DconfdbAsked", "has_looked", HAS_LOOKED, FLAG);
    printf("TAKES(DconfdbAsked, %d);\n", ASKED);
}

static void tries_seen(void)
{
    _Alignas(16) uint8_t seen[2 * SEEN] = {0}, room[2 * TIME];
    size_t len = 0;
    makes_time(room, "", 0);
    makes_time(room + TIME, "", 0);
    makes_time(seen, "/a", 3);
    makes_time(seen + SEEN, "/k", 5);
    is_so(dconfdb_note_seen(room, 0, seen, 2, 9, room, 2, &len) == 0 && len == 2, "DconfdbSeen");
    seen[SEEN + IS_NOTED] = 1;
    is_so(dconfdb_note_seen(room, 0, seen, 2, 9, room, 2, &len) == 0 && len == 1, "DconfdbSeen");
    lies("DconfdbSeen", "time", 0, TIME);
    lies("DconfdbSeen", "is_noted", IS_NOTED, FLAG);
    printf("TAKES(DconfdbSeen, %d);\n", SEEN);
}

/* ---- the ending of a change that may be made, or was not, and of one that was */

enum { WAS_KEPT = 1, WAS_EITHER = 2, WAS_UNSETTLED = 3 };

static void finds_ending(void)
{
    Written either = room_of("DconfdbEnding"), kept = either, unsettled = either, aside = either;
    enum { FLAGS = 3 * NUMBER, END = FLAGS + 3 };
    dconfdb_ending(WAS_EITHER, FAULT, false, false, either.bytes);
    dconfdb_ending(WAS_KEPT, FAULT, false, false, kept.bytes);
    dconfdb_ending(WAS_UNSETTLED, FAULT, false, false, unsettled.bytes);
    dconfdb_ending(WAS_UNSETTLED, FAULT, false, true, aside.bytes);
    finds_number(&unsettled, "newest", 1);
    finds_number(&unsettled, "told", 4);
    finds_number(&unsettled, "outcome", 3);
    takes(&unsettled, "is_there", bit_of(&either, &unsettled, FLAGS, END, 0, 1), FLAG);
    takes(&unsettled, "is_unsettled", bit_of(&kept, &either, FLAGS, END, 0, 1), FLAG);
    takes(&unsettled, "keeps_fault", bit_of(&unsettled, &aside, FLAGS, END, 0, 1), FLAG);
    ends(&unsettled);
}

/* ---- what a store knows: each field is as what happened leaves it */

enum { NOTED = 0, HAS_NEWS = 8, HAS_SEEN = 9, HAS_TRIED = 10, IS_UNSETTLED = 11, IS_MADE = 12, STORE_KNOWN = 16 };

static bool knows(uint8_t *known, uint32_t what, uint64_t number, size_t field)
{
    static const _Alignas(16) uint8_t none[STORE_KNOWN];
    dconfdb_store_after(known, what, true, number, none);
    return known[field] == (field == NOTED ? number : 1);
}

static void tries_known(void)
{
    _Alignas(16) uint8_t known[STORE_KNOWN] = {0}, wanted[STORE_KNOWN] = {[NOTED] = 7, [HAS_NEWS] = 1, [HAS_TRIED] = 1, [IS_UNSETTLED] = 1, [IS_MADE] = 1};
    bool are = knows(known, 0, 0, HAS_NEWS) && knows(known, 2, 0, HAS_SEEN) && knows(known, 3, 7, NOTED) && knows(known, 4, 2, HAS_TRIED);
    is_so(are && knows(known, 6, 0, IS_MADE) && memcmp(known, wanted, IS_MADE + 1) == 0, "DconfdbStoreKnown");
    lies("DconfdbStoreKnown", "noted", NOTED, WORD);
    lies("DconfdbStoreKnown", "has_news", HAS_NEWS, FLAG);
    lies("DconfdbStoreKnown", "has_seen", HAS_SEEN, FLAG);
    lies("DconfdbStoreKnown", "has_tried", HAS_TRIED, FLAG);
    lies("DconfdbStoreKnown", "is_unsettled", IS_UNSETTLED, FLAG);
    lies("DconfdbStoreKnown", "is_made", IS_MADE, FLAG);
    printf("TAKES(DconfdbStoreKnown, %d);\n", STORE_KNOWN);
}

/* ---- a change from its beginning to its end, of which each field in turn changes what is done next */

enum { HAS_EDITS, HAS_USER, IS_LOCKED, STORE_IS_UNSYNCED, COURSE };

static bool is_done(uint32_t next, uint32_t task, size_t one, size_t other)
{
    uint8_t known[COURSE] = {0};
    known[one] = known[other] = 1;
    return dconfdb_course_after(task, true, 4, file, 0, known) == next;
}

static void tries_course(void)
{
    bool are = is_done(7, 0, HAS_USER, IS_LOCKED) && is_done(5, 0, HAS_EDITS, HAS_EDITS) && is_done(4, 0, HAS_EDITS, HAS_USER);
    are = are && is_done(5, 0, HAS_EDITS, IS_LOCKED) && is_done(6, 5, HAS_USER, HAS_USER) && is_done(7, 5, HAS_USER, STORE_IS_UNSYNCED);
    is_so(are, "DconfdbCourse");
    lies("DconfdbCourse", "has_edits", HAS_EDITS, FLAG);
    lies("DconfdbCourse", "has_user", HAS_USER, FLAG);
    lies("DconfdbCourse", "is_locked", IS_LOCKED, FLAG);
    lies("DconfdbCourse", "is_unsynced", STORE_IS_UNSYNCED, FLAG);
    printf("TAKES(DconfdbCourse, %d);\n", COURSE);
}

/* ---- a key that is asked for by itself, and the edits of it: it is told where these differ, for who asks for their type */

enum { EDIT_TYPE = 16, EDIT_WAITS = 32, WAIT_SETS = 33, WAITS = 40, KEY_TYPE = 16, KEY_BEFORE = 32, KEY_AFTER = 72, KEY = 112 };

static void makes_waits(uint8_t *edit, const char *value)
{
    lends(edit, value, 1);
    lends(edit + EDIT_TYPE, "y", 1);
    edit[EDIT_WAITS] = edit[WAIT_SETS] = 1;
}

static void makes_key(uint8_t *key, const char *path, const char *before, const char *after)
{
    memset(key, 0, KEY);
    lends(key, path, 2);
    lends(key + KEY_TYPE, "y", 0);
    makes_waits(key + KEY_BEFORE, before);
    makes_waits(key + KEY_AFTER, after);
}

/* How many bytes the paths take that are told. */
static size_t told_of(const uint8_t *keys, size_t count)
{
    size_t len = ROOM;
    uint8_t room[ROOM];
    is_so(dconfdb_told(file, 0, file, 0, true, true, false, keys, count, room, ROOM, &len) == 0, "DconfdbKeyAsked");
    return len;
}

static void tries_key(void)
{
    static const size_t flags[] = {KEY_BEFORE + EDIT_WAITS, KEY_BEFORE + WAIT_SETS, KEY_AFTER + EDIT_WAITS, KEY_AFTER + WAIT_SETS};
    _Alignas(16) uint8_t keys[2 * KEY];
    makes_key(keys, "/k", "1", "1");
    is_so(told_of(keys, 1) == 0, "DconfdbKeyAsked");
    makes_key(keys + KEY, "/j", "1", "2");
    is_so(told_of(keys, 2) == 3, "DconfdbKeyAsked");
    for (size_t i = 0; i < sizeof flags / sizeof *flags; i++) {
        makes_key(keys, "/k", "1", "1");
        keys[flags[i]] = 0;
        is_so(told_of(keys, 2) == 6, "DconfdbWaits");
    }
    makes_key(keys, "/k", "1", "2");
    lends(keys + KEY_TYPE, "n", 1);
    is_so(told_of(keys, 1) == 0, "DconfdbKeyAsked");
    lies("DconfdbWaits", "value", 0, LENT);
    lies("DconfdbWaits", "type_text", EDIT_TYPE, LENT);
    lies("DconfdbWaits", "waits", EDIT_WAITS, FLAG);
    lies("DconfdbWaits", "sets", WAIT_SETS, FLAG);
    printf("TAKES(DconfdbWaits, %d);\n", WAITS);
    lies("DconfdbKeyAsked", "path", 0, LENT);
    lies("DconfdbKeyAsked", "type_text", KEY_TYPE, LENT);
    lies("DconfdbKeyAsked", "before", KEY_BEFORE, WAITS);
    lies("DconfdbKeyAsked", "after", KEY_AFTER, WAITS);
    printf("TAKES(DconfdbKeyAsked, %d);\n", KEY);
}

/* ---- edits of two keys, of which the second is found, too */

static void tries_own(void)
{
    _Alignas(16) uint8_t edits[2 * LENT];
    uint8_t room[ROOM];
    size_t len = 0;
    lends(edits, "/k", 2);
    lends(edits + LENT, "/j", 2);
    is_so(dconfdb_own_keys(file, 0, file, 0, edits, 2, room, ROOM, &len) == 0, "dconfdb_own_keys");
    is_so(len == 6 && memcmp(room, "/j\0/k", len) == 0, "dconfdb_own_keys");
}

/* ---- whether the user's file is on the disk, of which each field in turn changes what is asked next */

enum { UNREADABLE = 0, HAS_FILE = 4, IS_KNOWN, IS_UNSYNCED, IS_IN_TURN, ASKS_ONLY, SETTLING = 12 };

/* Whether that comes after a task that was answered so, where there is a file, and that is known, too. */
static bool comes(uint32_t next, uint32_t task, bool yes, size_t known)
{
    _Alignas(16) uint8_t settling[SETTLING] = {[HAS_FILE] = 1};
    settling[known] = 1;
    return dconfdb_settling_after(task, yes, settling) == next;
}

static void tries_settling(void)
{
    _Alignas(16) const uint8_t nothing[SETTLING] = {0};
    bool are = dconfdb_settling_after(0, true, nothing) == 5 && comes(1, 0, true, HAS_FILE) && comes(5, 0, true, IS_KNOWN);
    are = are && comes(2, 1, false, HAS_FILE) && comes(3, 1, false, UNREADABLE) && comes(7, 1, false, ASKS_ONLY) && comes(6, 1, false, IS_UNSYNCED);
    are = are && comes(4, 2, true, HAS_FILE) && comes(5, 2, true, IS_IN_TURN);
    is_so(are, "DconfdbSettling");
    lies("DconfdbSettling", "errnum", UNREADABLE, NUMBER);
    lies("DconfdbSettling", "has_file", HAS_FILE, FLAG);
    lies("DconfdbSettling", "is_known", IS_KNOWN, FLAG);
    lies("DconfdbSettling", "is_unsynced", IS_UNSYNCED, FLAG);
    lies("DconfdbSettling", "is_in_turn", IS_IN_TURN, FLAG);
    lies("DconfdbSettling", "asks_only", ASKS_ONLY, FLAG);
    printf("TAKES(DconfdbSettling, %d);\n", SETTLING);
}

/* ---- a file before a look and after it, the second of two, of which one is mapped */

enum { FILE_PART = 0, DEVICE = 8, INODE = 16, FAULT_LINE = 24, FAULT_CODE = 32, ERRNUM = 36, IS_MAPPED = 40, FILE_SEEN = 48 };

/* Whether anything is otherwise where the file has another number there after the look. */
static bool differs_at(size_t at, bool is_mapped, bool is_new)
{
    _Alignas(16) uint8_t before[2 * FILE_SEEN] = {0}, after[2 * FILE_SEEN] = {0};
    bool is = false;
    before[FILE_SEEN + IS_MAPPED] = is_mapped;
    after[FILE_SEEN + FILE_PART] = is_new;
    after[FILE_SEEN + at] = at == IS_MAPPED ? 1 : 2;
    is_so(dconfdb_is_changed(file, 0, file, 0, false, false, false, before, 2, after, 2, &is) == 0, "dconfdb_is_changed");
    return is;
}

static void tries_file_seen(void)
{
    bool are = differs_at(FAULT_LINE, false, false) && differs_at(FAULT_CODE, false, false) && differs_at(ERRNUM, false, false);
    are = are && differs_at(FILE_PART, true, false) && !differs_at(FILE_PART, false, false);
    are = are && !differs_at(DEVICE, true, true) && !differs_at(INODE, true, true) && differs_at(IS_MAPPED, true, true);
    is_so(are, "DconfdbFileSeen");
    lies("DconfdbFileSeen", "part", FILE_PART, WORD);
    lies("DconfdbFileSeen", "device", DEVICE, WORD);
    lies("DconfdbFileSeen", "inode", INODE, WORD);
    lies("DconfdbFileSeen", "line", FAULT_LINE, WORD);
    lies("DconfdbFileSeen", "code", FAULT_CODE, NUMBER);
    lies("DconfdbFileSeen", "errnum", ERRNUM, NUMBER);
    lies("DconfdbFileSeen", "is_mapped", IS_MAPPED, FLAG);
    printf("TAKES(DconfdbFileSeen, %d);\n", FILE_SEEN);
}

void finds_others(void)
{
    tries_settling();
    tries_known();
    tries_course();
    tries_file_seen();
    tries_times();
    tries_most_noted();
    tries_asked();
    tries_seen();
    finds_ending();
    tries_key();
    tries_own();
}
