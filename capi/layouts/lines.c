/* A text that is read line by line, and what is found in it. */
#include "layouts.h"

#include <stdio.h>
#include <string.h>

bool dconfdb_line(bool is_of_locks, void *cursor, void *line);
uint32_t dconfdb_is_nearer(void *nearing, bool is_end, const char *name, size_t name_len, const char *other, size_t other_len);
uint32_t dconfdb_read_as(const void *entry, const void *folders, size_t count, const char *name, size_t name_len, uint64_t size, const char *text, size_t len,
                         size_t *sources, size_t *stem, bool *is_source);
uint32_t dconfdb_option(void *read, bool is_end, const char *word, size_t len, size_t *from);
uint32_t dconfdb_program_of(const char *name, size_t name_len, const char *first, size_t first_len, const char *second, size_t second_len,
                            const void *line, bool *has_none, bool *is_homeless);
uint32_t dconfdb_finding(const void *known, const char *directory, size_t directory_len, const void *others, size_t count);

/* Of two lines, the first names the group of the second's key. */
enum { CURSOR_GROUP = 16, CURSOR_LINE = 32, CURSOR_PLACE = 40, CURSOR = 48, GROUP_AT = 1, VALUE_AT = 6 };

/* What is known of a key is read alone: what it is, and the fields of which these are so. */
enum { FINDING_WHAT = 0, FINDING_ERRNUM = 4, FINDING_IS_KNOWN = 8, FINDING_HAS_SCHEMAS, FINDING_MAY_BE_ELSEWHERE, FINDING_HAS_VALUE,
       FINDING_IS_TAKEN, FINDING_IS_OF_TYPE, FINDING_IS_SYSTEM, FINDING_IS_MADE, FINDING_IS_UNSEEN, FINDING_IS_AMONG_PROFILES,
       FINDING_HAS_DOUBLE, FINDING = 20 };

/* Beside one directory, of which `/a/` is a slip away, and `/ab/c/` isn't. */
static bool is_found_at(const char *directory, uint32_t what, unsigned fields, uint32_t finding)
{
    _Alignas(16) uint8_t known[FINDING] = {0}, other[LENT];
    lends(other, "/b/", 3);
    memcpy(known, &what, NUMBER);
    for (int i = 0; i < FINDING_HAS_DOUBLE + 1 - FINDING_IS_KNOWN; i++)
        known[FINDING_IS_KNOWN + i] = fields >> i & 1;
    return dconfdb_finding(known, directory, strlen(directory), other, 1) == finding;
}

static bool is_unread(uint32_t errnum, uint32_t finding)
{
    _Alignas(16) uint8_t known[FINDING] = {7}, other[LENT];
    lends(other, "/b/", 3);
    memcpy(known + FINDING_ERRNUM, &errnum, NUMBER);
    return dconfdb_finding(known, "/f", 2, other, 1) == finding;
}

static bool is_found(uint32_t what, unsigned fields, uint32_t finding)
{
    return is_found_at("/ab/c/", what, fields, finding);
}

static void finds_finding(void)
{
    enum { KNOWN = 1, SCHEMAS = 2, ELSEWHERE = 4, VALUE = 8, TAKEN = 16, TYPED = 32, SYSTEM = 64, MADE = 128, UNSEEN = 256, AMONG = 512, DOUBLE = 1024 };
    is_so(is_found(0, 0, 1) && is_found(1, 0, 2) && is_found(2, 0, 3) && is_found(0, KNOWN, 0), "DconfdbFinding");
    is_so(is_found(0, ELSEWHERE, 0) && is_found_at("/a/", 0, ELSEWHERE, 1) && is_found(0, ELSEWHERE | SCHEMAS, 1), "DconfdbFinding");
    is_so(is_found(0, KNOWN | VALUE, 4) && is_found(0, KNOWN | VALUE | TYPED, 5) && is_found(0, KNOWN | VALUE | TAKEN, 0), "DconfdbFinding");
    is_so(is_found_at("profile", 3, SYSTEM, 6) && is_found_at("profile", 3, 0, 0) && is_found_at("profile", 3, SYSTEM | KNOWN, 0), "DconfdbFinding");
    is_so(is_found_at("profile", 3, SYSTEM | MADE, 0) && is_found_at("profile", 3, SYSTEM | UNSEEN, 0) && is_found_at("profile", 3, SYSTEM | AMONG, 0),
          "DconfdbFinding");
    is_so(is_found(6, DOUBLE | VALUE, 0) && is_found(6, DOUBLE | VALUE | SYSTEM, 9) && is_found(6, DOUBLE | KNOWN | TAKEN, 10), "DconfdbFinding");
    is_so(is_found(6, KNOWN | TAKEN, 0) && is_found(6, TAKEN, 10) && is_found(6, KNOWN, 10), "DconfdbFinding");
    is_so(is_unread(0, 11) && is_unread(2, 11) && is_unread(22, 12) && is_unread(75, 13) && is_unread(13, 14), "DconfdbFinding");
    lies("DconfdbFinding", "what", FINDING_WHAT, NUMBER);
    lies("DconfdbFinding", "errnum", FINDING_ERRNUM, NUMBER);
    lies("DconfdbFinding", "is_known", FINDING_IS_KNOWN, FLAG);
    lies("DconfdbFinding", "has_schemas", FINDING_HAS_SCHEMAS, FLAG);
    lies("DconfdbFinding", "may_be_elsewhere", FINDING_MAY_BE_ELSEWHERE, FLAG);
    lies("DconfdbFinding", "has_value", FINDING_HAS_VALUE, FLAG);
    lies("DconfdbFinding", "is_taken", FINDING_IS_TAKEN, FLAG);
    lies("DconfdbFinding", "is_of_type", FINDING_IS_OF_TYPE, FLAG);
    lies("DconfdbFinding", "is_system", FINDING_IS_SYSTEM, FLAG);
    lies("DconfdbFinding", "is_made", FINDING_IS_MADE, FLAG);
    lies("DconfdbFinding", "is_unseen", FINDING_IS_UNSEEN, FLAG);
    lies("DconfdbFinding", "is_among_profiles", FINDING_IS_AMONG_PROFILES, FLAG);
    lies("DconfdbFinding", "has_double", FINDING_HAS_DOUBLE, FLAG);
    printf("TAKES(DconfdbFinding, %d);\n", FINDING);
}

enum { NEARING_USED = 0, NEARING_FOUND = 8, NEARING_PLACE = 16, NEARING_IS_HALF = 20, NEARING_IS_DIRECTORY = 21, NEARING = 24 };

/* Of two names of four letters, of which two are otherwise: that is half of them. */
static void finds_nearing(void)
{
    _Alignas(16) uint8_t nearing[NEARING] = {0}, half[NEARING] = {0};
    const uint64_t pairs = 25, found = 3, nothing = 0;
    half[NEARING_IS_HALF] = true;
    is_so(dconfdb_is_nearer(nearing, false, "abcd", 4, "abxy", 4) == 0 && dconfdb_is_nearer(half, false, "abcd", 4, "abxy", 4) == 1, "DconfdbNearing");
    is_so(memcmp(nearing + NEARING_USED, &pairs, WORD) == 0 && memcmp(nearing + NEARING_FOUND, &nothing, WORD) == 0, "DconfdbNearing");
    is_so(memcmp(half + NEARING_USED, &pairs, WORD) == 0 && memcmp(half + NEARING_FOUND, &found, WORD) == 0, "DconfdbNearing");
    nearing[NEARING_IS_DIRECTORY] = true; /* the place after the first is that of directories, and then none is left */
    is_so(dconfdb_is_nearer(nearing, true, "", 0, "", 0) == 1 && nearing[NEARING_PLACE] == 1, "DconfdbNearing");
    is_so(dconfdb_is_nearer(nearing, true, "", 0, "", 0) == 0 && nearing[NEARING_PLACE] == 6, "DconfdbNearing");
    lies("DconfdbNearing", "used", NEARING_USED, WORD);
    lies("DconfdbNearing", "place", NEARING_PLACE, NUMBER);
    lies("DconfdbNearing", "is_directory", NEARING_IS_DIRECTORY, FLAG);
    lies("DconfdbNearing", "found", NEARING_FOUND, WORD);
    lies("DconfdbNearing", "is_half", NEARING_IS_HALF, FLAG);
    printf("TAKES(DconfdbNearing, %d);\n", NEARING);
}

enum { ENTRY_WITHIN = 0, ENTRY_KIND = 4, ENTRY_IS_HIDDEN = 8, ENTRY_IS_LINK = 9, ENTRY_IS_MADE = 10, ENTRY_IS_ONE_READ = 11, ENTRY_IS_READ = 12, ENTRY_IS_STORE = 13, ENTRY = 16 };

/* What lies within that folder of a site, or in NAME.d where it isn't in one, is of that kind, and has just the flag at that place (0: none). */
static bool is_taken(uint32_t within, uint32_t kind, size_t flag, const char *name, uint32_t as)
{
    static const char text[] = "/a\n";
    _Alignas(16) uint8_t entry[ENTRY] = {0}, folder[LENT];
    size_t sources, stem;
    bool is_source;
    lends(folder, "a.d", 3);
    memcpy(entry + ENTRY_WITHIN, &within, NUMBER);
    memcpy(entry + ENTRY_KIND, &kind, NUMBER);
    if (flag != 0)
        entry[flag] = true;
    uint32_t is = dconfdb_read_as(entry, folder, 1, name, strlen(name), sizeof text - 1, text, sizeof text - 1, &sources, &stem, &is_source);
    return is == as && sources == 1;
}

static void finds_entry(void)
{
    is_so(is_taken(2, 0, 0, "k", 0) && is_taken(3, 0, 0, "k", 1) && is_taken(2, 1, 0, "k", 5) && is_taken(2, 2, 0, "k", 16), "DconfdbEntry");
    is_so(is_taken(2, 0, ENTRY_IS_HIDDEN, "k", 4) && is_taken(1, 0, 0, "k", 9) && is_taken(1, 0, ENTRY_IS_READ, "k", 17), "DconfdbEntry");
    is_so(is_taken(1, 0, ENTRY_IS_MADE, "k", 10) && is_taken(0, 0, 0, "k", 1) && is_taken(0, 0, ENTRY_IS_ONE_READ, "k", 0), "DconfdbEntry");
    is_so(is_taken(1, 0, 0, ".lock", 4) && is_taken(1, 0, ENTRY_IS_LINK, ".lock", 19), "DconfdbEntry");
    is_so(is_taken(1, 1, 0, "k", 17) && is_taken(1, 1, ENTRY_IS_STORE, "k", 4), "DconfdbEntry");
    lies("DconfdbEntry", "within", ENTRY_WITHIN, NUMBER);
    lies("DconfdbEntry", "kind", ENTRY_KIND, NUMBER);
    lies("DconfdbEntry", "is_hidden", ENTRY_IS_HIDDEN, FLAG);
    lies("DconfdbEntry", "is_link", ENTRY_IS_LINK, FLAG);
    lies("DconfdbEntry", "is_made", ENTRY_IS_MADE, FLAG);
    lies("DconfdbEntry", "is_one_read", ENTRY_IS_ONE_READ, FLAG);
    lies("DconfdbEntry", "is_read", ENTRY_IS_READ, FLAG);
    lies("DconfdbEntry", "is_store", ENTRY_IS_STORE, FLAG);
    printf("TAKES(DconfdbEntry, %d);\n", ENTRY);
}

enum { WORDS_WANTS = 0, WORDS_IS_LINT = 4, WORDS_IS_OVER = 5, WORDS_HAS_FOLDER = 6, WORDS_IS_USER = 7, WORDS_HAS_NAME = 8, WORDS = 12 };

/* A word after those that say just the byte at that place; it says the byte at another one. */
static bool is_word(size_t before, const char *word, uint32_t said, size_t begins, size_t after)
{
    _Alignas(16) uint8_t read[WORDS] = {0};
    size_t from = 0;
    read[before] = before != WORDS_WANTS;
    return dconfdb_option(read, false, word, strlen(word), &from) == said && from == begins && read[after] == 1;
}

static void finds_words(void)
{
    is_so(is_word(WORDS_WANTS, "--store", 0, 0, WORDS_WANTS) && is_word(WORDS_WANTS, "--store=x", 1, 8, WORDS_HAS_FOLDER), "DconfdbWords");
    is_so(is_word(WORDS_IS_LINT, "--schemas=x", 1, 10, WORDS_HAS_FOLDER) && is_word(WORDS_IS_OVER, "--user", 3, 0, WORDS_HAS_NAME), "DconfdbWords");
    is_so(is_word(WORDS_WANTS, "--", 0, 0, WORDS_IS_OVER) && is_word(WORDS_WANTS, "--user", 0, 0, WORDS_IS_USER), "DconfdbWords");
    is_so(is_word(WORDS_HAS_FOLDER, "--user", 7, 0, WORDS_HAS_FOLDER) && is_word(WORDS_IS_USER, "--user", 6, 0, WORDS_IS_USER), "DconfdbWords");
    lies("DconfdbWords", "wants", WORDS_WANTS, NUMBER);
    lies("DconfdbWords", "is_lint", WORDS_IS_LINT, FLAG);
    lies("DconfdbWords", "is_over", WORDS_IS_OVER, FLAG);
    lies("DconfdbWords", "has_folder", WORDS_HAS_FOLDER, FLAG);
    lies("DconfdbWords", "is_user", WORDS_IS_USER, FLAG);
    lies("DconfdbWords", "has_name", WORDS_HAS_NAME, FLAG);
    printf("TAKES(DconfdbWords, %d);\n", WORDS);
}

/* What else is known of a line. */
typedef struct {
    uint64_t count;
    bool flags[5];
} Known;

static uint32_t program_known(const char *name, const char *first, const char *second, const Known *line, bool *has_none, bool *is_homeless)
{
    return dconfdb_program_of(name, strlen(name), first, strlen(first), second, strlen(second), line, has_none, is_homeless);
}

/* The program of three words, the last of them a path or not. */
static uint32_t program_of(const char *name, const char *first, const char *second, uint64_t count, bool is_path, bool has_blame, bool is_noted)
{
    const Known line = {count, {is_path, has_blame, is_noted, true, false}};
    bool has_none = true, is_homeless = true;
    uint32_t program = program_known(name, first, second, &line, &has_none, &is_homeless);
    return has_none || is_homeless ? UINT32_MAX : program;
}

/* Where the environment doesn't count, or the store may be in the user's home. */
static bool is_bare(uint64_t count, bool counts, bool is_at_home)
{
    const Known line = {count, {true, true, true, counts, is_at_home}};
    bool has_none = counts, is_homeless = false;
    return program_known("dconf", "read", "", &line, &has_none, &is_homeless) == 0 && has_none == !counts && is_homeless;
}

static void finds_line(void)
{
    is_so(program_of("d", "watch", "/", 3, false, false, false) == 1 && program_of("d", "watch", "", 1, false, false, false) == 0, "DconfdbCommandLine");
    is_so(program_of("dconf", "watch", "/", 3, true, false, false) == 5 && program_of("dconf", "watch", "/", 3, false, true, true) == 0, "DconfdbCommandLine");
    is_so(program_of("dconf", "blame", "", 2, false, true, false) == 6 && program_of("dconf", "blame", "", 2, true, false, true) == 0, "DconfdbCommandLine");
    is_so(program_of("dconf", "load", "", 2, false, false, true) == 7 && program_of("dconf", "load", "", 2, true, true, false) == 0, "DconfdbCommandLine");
    is_so(is_bare(2, false, false) && is_bare(2, true, true), "DconfdbCommandLine");
    lies("DconfdbCommandLine", "count", 0, WORD);
    lies("DconfdbCommandLine", "is_path", 8, FLAG);
    lies("DconfdbCommandLine", "has_blame", 9, FLAG);
    lies("DconfdbCommandLine", "is_noted", 10, FLAG);
    lies("DconfdbCommandLine", "counts", 11, FLAG);
    lies("DconfdbCommandLine", "is_at_home", 12, FLAG);
    printf("TAKES(DconfdbCommandLine, %d);\n", 16);
}

void finds_lines(void)
{
    static const char text[] = "[g]\nk=vv\nrest";
    _Alignas(16) uint8_t cursor[CURSOR] = {0}, group[LENT];
    Written line = room_of("DconfdbLine");
    lends(cursor, text, sizeof text - 1);
    lends(cursor + CURSOR_GROUP, text, 0);
    is_so(dconfdb_line(false, cursor, line.bytes) && dconfdb_line(false, cursor, line.bytes), "DconfdbCursor");
    is_so(is_lent(cursor, "rest", 4) && is_lent(cursor + CURSOR_GROUP, "g", 1), "DconfdbCursor");
    is_so(cursor[CURSOR_LINE] == 2 && cursor[CURSOR_PLACE] == 1, "DconfdbCursor");
    lies("DconfdbCursor", "rest", 0, LENT);
    lies("DconfdbCursor", "group", CURSOR_GROUP, LENT);
    lies("DconfdbCursor", "line", CURSOR_LINE, WORD);
    lies("DconfdbCursor", "place", CURSOR_PLACE, NUMBER);
    printf("TAKES(DconfdbCursor, %d);\n", CURSOR);
    finds_lent(&line, "text", text + VALUE_AT, 2);
    lends(group, text + GROUP_AT, 1);
    size_t path = place_of(&line, 0, ROOM, group, LENT) - LENT;
    lies(line.type, "path", path, PART_OF_PATH * LENT);
    memset(line.is_taken + path, true, PART_OF_PATH * LENT);
    finds_number(&line, "kind", 1);
    ends(&line);
    finds_finding();
    finds_nearing();
    finds_entry();
    finds_words();
    finds_line();
}
