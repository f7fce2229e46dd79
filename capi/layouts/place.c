/* Where a store is. */
#include "layouts.h"

#include <stdio.h>
#include <string.h>

uint32_t dconfdb_place_kind(const void *environment, uint32_t giver, uint32_t known);
uint32_t dconfdb_place(const void *environment, uint32_t giver, const uint8_t *folder, size_t folder_len, uint32_t wanted, bool is_asked,
                       const uint8_t *base, size_t base_len, void *path);
bool dconfdb_database_path(const void *place, const uint8_t *profile, size_t profile_len, uint32_t kind, const uint8_t *name, size_t name_len,
                           void *path, void *flag);
void dconfdb_profile_step(const void *place, const void *look, void *next);

/* ---- a place, of which each text in turn is in a path */

enum { FOLDER = 0, NAMED = 16, DCONFS = 32, SESSION = 48, DATA = 64, USER = 80, IS_GIVEN = 96, IS_DCONFS = 97, DO_COUNT = 98, A_PLACE = 104 };

static void begins_place(uint8_t *place)
{
    memset(place, 0, A_PLACE);
    for (size_t at = FOLDER; at <= USER; at += LENT)
        lends(place + at, "", 0);
    place[DO_COUNT] = 1;
}

/* `/` and `.db` are the calls' own: so these parts are found by what they are. */
static void finds_path(void)
{
    static const char *const fields[PART_OF_PATH] = {"first", "second", "third", "fourth"};
    static const char *const parts[PART_OF_PATH] = {"/folder", "/", "site", ".db"};
    _Alignas(16) uint8_t place[A_PLACE], flag[PART_OF_PATH * LENT];
    Written path = room_of("DconfdbPath");
    begins_place(place);
    lends(place + FOLDER, "/folder", 7);
    is_so(!dconfdb_database_path(place, file, 0, 1, (const uint8_t *)"site", 4, path.bytes, flag), "dconfdb_database_path");
    for (size_t i = 0; i < PART_OF_PATH; i++) {
        is_so(is_lent(path.bytes + i * LENT, parts[i], strlen(parts[i])), "DconfdbPath");
        takes(&path, fields[i], i * LENT, LENT);
    }
    ends(&path);
}

enum { A_PATH = PART_OF_PATH * LENT, NAME = A_PATH, NEXT_DIR = 2 * A_PATH, STEP = 136, TELLING = 140, ERRNUM = 144, LOOKS = 148, HAS_PATH = 149, NEXT = 152 };
enum { WHICH = 0, FAILS = 4, DIR_AT = 8, IS_THERE = 16, IS_LENIENT = 17, HAS_KEPT = 18, LISTS = 19, PROFILE_LOOK = 24 };
enum { MANDATORY = 8, AT_PATH = 9, IN_RUNTIME = 10, SYSTEM = 11, IN_DATA = 12, BEGINS = 7 };

/* Whether that text lies there: it is that part of the path of the profile that is listed after such a one. */
static void tries_text(const char *field, size_t at, uint32_t which, bool is_dconfs, size_t part)
{
    _Alignas(16) uint8_t place[A_PLACE], look[PROFILE_LOOK] = {0}, next[NEXT];
    const char *const text = "/a text";
    begins_place(place);
    lends(place + at, text, strlen(text));
    place[IS_DCONFS] = is_dconfs;
    look[WHICH] = (uint8_t)which;
    look[LISTS] = 1;
    dconfdb_profile_step(place, look, next);
    is_so(next[HAS_PATH] == 1 && is_lent(next + part * LENT, text, strlen(text)), "DconfdbPlace");
    lies("DconfdbPlace", field, at, LENT);
}

/* A profile that the environment names by a path is listed behind the mandatory one, if it counts. */
static void tries_counts(void)
{
    _Alignas(16) uint8_t place[A_PLACE], look[PROFILE_LOOK] = {0}, next[NEXT];
    begins_place(place);
    lends(place + DCONFS, "/a text", 7);
    place[IS_DCONFS] = 1;
    look[WHICH] = MANDATORY;
    look[LISTS] = 1;
    dconfdb_profile_step(place, look, next);
    bool does = next[STEP] == AT_PATH;
    place[DO_COUNT] = 0;
    dconfdb_profile_step(place, look, next);
    is_so(does && next[STEP] == IN_RUNTIME, "DconfdbPlace");
    lies("DconfdbPlace", "counts", DO_COUNT, FLAG);
}

/* A database of the system is in the folder that is given, beside the profile of all users, or in dconf's folder. */
static void tries_flags(void)
{
    static const char everyones[] = "/etc/dconfdb/profile";
    _Alignas(16) uint8_t place[A_PLACE], path[PART_OF_PATH * LENT], flag[PART_OF_PATH * LENT];
    const uint8_t *profile = (const uint8_t *)everyones, *name = (const uint8_t *)"site";
    begins_place(place);
    lends(place + FOLDER, "/folder", 7);
    dconfdb_database_path(place, profile, sizeof everyones - 1, 1, name, 4, path, flag);
    bool are = is_lent(path, "/etc/dconfdb", 12);
    place[IS_GIVEN] = 1;
    dconfdb_database_path(place, profile, sizeof everyones - 1, 1, name, 4, path, flag);
    are = are && is_lent(path, "/folder", 7);
    place[IS_DCONFS] = 1;
    dconfdb_database_path(place, profile, sizeof everyones - 1, 1, name, 4, path, flag);
    is_so(are && is_lent(path + LENT, "/etc/dconf/db", 13), "DconfdbPlace");
    lies("DconfdbPlace", "is_given", IS_GIVEN, FLAG);
    lies("DconfdbPlace", "is_dconfs", IS_DCONFS, FLAG);
}

static void tries_place(void)
{
    tries_text("folder", FOLDER, BEGINS, false, 2);
    tries_text("named", NAMED, BEGINS, false, 3);
    tries_text("profile", DCONFS, MANDATORY, true, 3);
    tries_text("runtime", SESSION, MANDATORY, true, 1);
    tries_text("data_dirs", DATA, SYSTEM, true, 1);
    tries_text("user", USER, BEGINS, true, 3);
    tries_flags();
    tries_counts();
    printf("TAKES(DconfdbPlace, %d);\n", A_PLACE);
}

/* ---- an environment, of which each variable in turn is the first that counts */

enum {
    COUNTED = 0,
    STORE = 8,
    CONFIG = 24,
    HOME = 40,
    PROFILE = 56,
    RUNTIME = 72,
    CACHE = 88,
    MACHINE = 104,
    IS_UNREADABLE = 120,
    ENVIRONMENT = 128
};

/* Whether that variable lies there: the path that is wanted begins by it, or is the profile's. */
static void tries_variable(uint8_t *said, const char *field, size_t at, uint32_t wanted)
{
    _Alignas(16) uint8_t path[PART_OF_PATH * LENT];
    const char *const text = "/a path";
    lends(said + at, text, strlen(text));
    bool is = dconfdb_place(said, 0, file, 0, wanted, false, file, 0, path) == 0;
    is_so(is && is_lent(path + 2 * LENT, text, strlen(text)), "DconfdbEnvironment");
    lends(said + at, "", 0);
    lies("DconfdbEnvironment", field, at, LENT);
}

/* What the machine's file says. */
static void tries_machine(uint8_t *said)
{
    bool are = dconfdb_place_kind(said, 0, 2) == 0;
    lends(said + MACHINE, "dconf\n", 6);
    are = are && dconfdb_place_kind(said, 0, 2) == 1;
    said[IS_UNREADABLE] = 1;
    is_so(are && dconfdb_place_kind(said, 0, 2) == 2, "DconfdbEnvironment");
    said[IS_UNREADABLE] = 0;
    lies("DconfdbEnvironment", "machine", MACHINE, LENT);
    lies("DconfdbEnvironment", "is_unreadable", IS_UNREADABLE, FLAG);
}

static void tries_environment(void)
{
    _Alignas(16) uint8_t said[ENVIRONMENT] = {0}, path[PART_OF_PATH * LENT];
    for (size_t at = STORE; at <= MACHINE; at += LENT)
        lends(said + at, "", 0);
    said[COUNTED] = 1;
    tries_variable(said, "store", STORE, 0);
    tries_variable(said, "config", CONFIG, 0);
    tries_variable(said, "home", HOME, 0);
    tries_variable(said, "profile", PROFILE, 1);
    tries_machine(said);
    tries_variable(said, "runtime", RUNTIME, 2);
    tries_variable(said, "cache", CACHE, 2);
    said[COUNTED] = 0;
    lends(said + STORE, "/s", 2);
    is_so(dconfdb_place(said, 0, file, 0, 0, false, file, 0, path) != 0, "DconfdbEnvironment");
    lies("DconfdbEnvironment", "counts", COUNTED, FLAG);
    printf("TAKES(DconfdbEnvironment, %d);\n", ENVIRONMENT);
}

/* ---- a look at a profile, of which each field in turn changes what is told */

static bool leads(const uint8_t *place, const uint8_t *look, uint32_t step, size_t dir, uint32_t telling)
{
    _Alignas(16) uint8_t next[NEXT];
    dconfdb_profile_step(place, look, next);
    return memcmp(next + STEP, &step, NUMBER) == 0 && memcmp(next + NEXT_DIR, &dir, WORD) == 0 && memcmp(next + TELLING, &telling, NUMBER) == 0;
}

/* That of the second of three folders. */
static void tries_dir(uint8_t *place, uint8_t *look)
{
    lends(place + DATA, "/a:/b:/c", 8);
    look[WHICH] = IN_DATA;
    look[DIR_AT] = 1;
    is_so(leads(place, look, IN_DATA, 2, 0), "DconfdbProfileLook");
    lies("DconfdbProfileLook", "dir", DIR_AT, WORD);
}

/* By EIO, which is no fault of the file's own, and by EACCES. */
static void tries_profile_look(void)
{
    enum { NO_RIGHTS = 13, NO_DISK = 5 };
    _Alignas(16) uint8_t place[A_PLACE], look[PROFILE_LOOK] = {1}, missing[PROFILE_LOOK] = {0};
    begins_place(place);
    bool are = leads(place, look, 2, 0, 0);
    look[IS_THERE] = 1;
    are = are && leads(place, look, 4, 0, 0);
    look[LISTS] = 1;
    are = are && leads(place, look, 2, 0, 0);
    look[LISTS] = 0;
    look[FAILS] = NO_DISK;
    are = are && leads(place, look, 6, 0, 1);
    look[IS_LENIENT] = 1;
    are = are && leads(place, look, 6, 0, 1);
    look[FAILS] = NO_RIGHTS;
    are = are && leads(place, look, 2, 0, 2);
    look[HAS_KEPT] = 1;
    is_so(are && leads(place, look, 2, 0, 0), "DconfdbProfileLook");
    lies("DconfdbProfileLook", "which", WHICH, NUMBER);
    lies("DconfdbProfileLook", "errnum", FAILS, NUMBER);
    lies("DconfdbProfileLook", "is_there", IS_THERE, FLAG);
    lies("DconfdbProfileLook", "is_lenient", IS_LENIENT, FLAG);
    lies("DconfdbProfileLook", "has_kept", HAS_KEPT, FLAG);
    lies("DconfdbProfileLook", "lists", LISTS, FLAG);
    tries_dir(place, missing);
    printf("TAKES(DconfdbProfileLook, %d);\n", PROFILE_LOOK);
}

/* The session's that may not be read: the machine's comes; and one in a third folder, and none. */
static void finds_profile_next(void)
{
    _Alignas(16) uint8_t place[A_PLACE], look[PROFILE_LOOK] = {IN_RUNTIME, 0, 0, 0, 13}, listed[PROFILE_LOOK] = {MANDATORY};
    Written next = room_of("DconfdbProfileNext"), other = next, last = next;
    const uint32_t third = 2;
    begins_place(place);
    lends(place + SESSION, "/session", 8);
    place[IS_DCONFS] = 1;
    look[IS_LENIENT] = 1;
    dconfdb_profile_step(place, look, next.bytes);
    is_so(is_lent(next.bytes + LENT, "/etc/dconf/profile/", 19) && is_lent(next.bytes + NAME + LENT, "/session", 8), "DconfdbProfileNext");
    takes(&next, "path", 0, A_PATH);
    takes(&next, "name", NAME, A_PATH);
    takes(&next, "step", place_of(&next, NEXT_DIR, NEXT, &(uint32_t){SYSTEM}, NUMBER), NUMBER);
    takes(&next, "telling", place_of(&next, NEXT_DIR, NEXT, &third, NUMBER), NUMBER);
    takes(&next, "errnum", place_of(&next, NEXT_DIR, NEXT, &(uint32_t){13}, NUMBER), NUMBER);
    lends(place + SESSION, "", 0);
    listed[LISTS] = 1;
    dconfdb_profile_step(place, listed, other.bytes);
    listed[WHICH] = IN_DATA;
    listed[DIR_AT] = 1;
    lends(place + DATA, "/a:/b:/c", 8);
    dconfdb_profile_step(place, listed, last.bytes);
    takes(&next, "dir", place_of(&last, NEXT_DIR, NEXT, &(size_t){third}, WORD), WORD);
    is_so(next.bytes[HAS_PATH] == 1 && other.bytes[HAS_PATH] == 0 && other.bytes[LOOKS] == 1, "DconfdbProfileNext");
    takes(&next, "has_path", HAS_PATH, FLAG);
    listed[DIR_AT] = 2;
    dconfdb_profile_step(place, listed, last.bytes);
    is_so(next.bytes[LOOKS] == 1 && last.bytes[LOOKS] == 0, "DconfdbProfileNext");
    takes(&next, "looks", LOOKS, FLAG);
    next.widest = WORD;
    is_so(ends(&next) == NEXT, "DconfdbProfileNext");
}

void finds_places(void)
{
    finds_path();
    tries_place();
    tries_environment();
    tries_profile_look();
    finds_profile_next();
}
