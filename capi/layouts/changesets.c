/* What the calls only read of a change to a set, of one whose caller waits for it, and of looks and words. */
#include "layouts.h"

#include <stdio.h>
#include <string.h>

bool dconfdb_makes_difference(const char *path, size_t path_len, bool sets, const void *base);
uint32_t dconfdb_changing_after(uint32_t task, bool yes, const void *known);
uint32_t dconfdb_fast_after(uint32_t task, const void *known);
bool dconfdb_is_said(const void *said, size_t count, bool is_stored);
bool dconfdb_is_unmade(const void *edit);
uint32_t dconfdb_look_due(uint32_t looker, const void *known);

enum { MOST_FLAGS = 16 };

typedef struct {
    uint8_t at[MOST_FLAGS];
} Flags;

static Flags flags_of(unsigned fields)
{
    Flags flags;
    for (int i = 0; i < MOST_FLAGS; i++)
        flags.at[i] = fields >> i & 1;
    return flags;
}

static bool is_difference(const char *path, bool sets, unsigned fields)
{
    Flags base = flags_of(fields);
    return dconfdb_makes_difference(path, strlen(path), sets, &base);
}

static void finds_base(void)
{
    enum { HAS = 1, SAME = 2, RESET = 4, BELOW = 8 };
    is_so(is_difference("/a/", false, BELOW) && !is_difference("/a/", false, HAS | SAME | RESET), "DconfdbBase");
    is_so(is_difference("/a", false, HAS) && !is_difference("/a", false, SAME | BELOW) && !is_difference("/a", false, HAS | RESET), "DconfdbBase");
    is_so(!is_difference("/a", true, HAS | SAME) && is_difference("/a", true, HAS) && is_difference("/a", true, HAS | SAME | RESET), "DconfdbBase");
    lies("DconfdbBase", "has", 0, FLAG);
    lies("DconfdbBase", "is_same", 1, FLAG);
    lies("DconfdbBase", "is_reset", 2, FLAG);
    lies("DconfdbBase", "has_below", 3, FLAG);
    printf("TAKES(DconfdbBase, %d);\n", 4);
}

static uint32_t task_after(uint32_t task, bool yes, unsigned fields)
{
    Flags known = flags_of(fields);
    return dconfdb_changing_after(task, yes, &known);
}

static void finds_changing(void)
{
    enum { EMPTY = 1, REFUSED = 2, STORE = 4, USER = 8, THERE = 16, LEFT = 32, NEWS = 64, WATCHED = 128, BARRED = 256, FIELDS = 9 };
    static const char *const names[FIELDS] = {"is_empty", "is_refused", "has_store", "has_user", "is_there",
                                              "is_left",  "is_news",    "is_watched", "is_barred"};
    is_so(task_after(0, true, EMPTY) == 7 && task_after(0, true, REFUSED | STORE) == 8 && task_after(0, true, REFUSED) == 1 && task_after(0, true, LEFT | NEWS | WATCHED) == 1, "DconfdbChanging");
    is_so(task_after(6, true, USER | THERE) == 9 && task_after(6, true, STORE | THERE) == 8 && task_after(1, true, STORE | THERE) == 6, "DconfdbChanging");
    is_so(task_after(1, true, STORE | USER | THERE) == 2 && task_after(1, true, STORE | USER) == 4, "DconfdbChanging");
    is_so(task_after(1, true, STORE | USER | LEFT) == 3 && task_after(4, true, NEWS | WATCHED) == 5 && task_after(4, true, NEWS) == 7, "DconfdbChanging");
    is_so(task_after(4, true, WATCHED) == 7 && task_after(6, true, STORE | USER | BARRED) == 8, "DconfdbChanging");
    is_so(task_after(1, false, EMPTY | REFUSED | STORE | USER | THERE | LEFT | BARRED) == 9, "DconfdbChanging");
    for (size_t i = 0; i < FIELDS; i++)
        lies("DconfdbChanging", names[i], i, FLAG);
    printf("TAKES(DconfdbChanging, %d);\n", FIELDS);
}

static uint32_t fast_after(uint32_t task, unsigned fields)
{
    Flags known = flags_of(fields);
    return dconfdb_fast_after(task, &known);
}

static void finds_fast(void)
{
    enum { REFUSED = 1, EMPTY = 2, NEWS = 4, FIELDS = 3 };
    static const char *const names[FIELDS] = {"is_refused", "is_empty", "is_news"};
    is_so(fast_after(0, REFUSED) == 5 && fast_after(0, EMPTY) == 4 && fast_after(0, NEWS) == 1 && fast_after(0, REFUSED | EMPTY) == 5, "DconfdbFast");
    is_so(fast_after(1, 0) == 2 && fast_after(2, NEWS) == 3 && fast_after(2, 0) == 4 && fast_after(3, NEWS) == 4, "DconfdbFast");
    for (size_t i = 0; i < FIELDS; i++)
        lies("DconfdbFast", names[i], i, FLAG);
    printf("TAKES(DconfdbFast, %d);\n", FIELDS);
}

static bool is_said(unsigned first, unsigned second, bool is_stored)
{
    enum { FIELDS = 3 };
    uint8_t said[2 * FIELDS];
    for (int i = 0; i < FIELDS; i++) {
        said[i] = first >> i & 1;
        said[FIELDS + i] = second >> i & 1;
    }
    return dconfdb_is_said(said, 2, is_stored);
}

static void finds_said(void)
{
    enum { SAYS = 1, SAME = 2, BELOW = 4 };
    is_so(is_said(SAYS | SAME, SAYS, false) && !is_said(SAYS, SAYS | SAME, true), "DconfdbSaid");
    is_so(is_said(SAME, SAYS | SAME, false) && is_said(0, SAME, true) && !is_said(SAME, SAME, false), "DconfdbSaid");
    is_so(!is_said(SAYS | SAME | BELOW, 0, true) && !is_said(0, BELOW, true) && is_said(SAYS | SAME, BELOW, false), "DconfdbSaid");
    lies("DconfdbSaid", "says", 0, FLAG);
    lies("DconfdbSaid", "is_same", 1, FLAG);
    lies("DconfdbSaid", "has_below", 2, FLAG);
    printf("TAKES(DconfdbSaid, %d);\n", 3);
}

static bool is_unmade(unsigned fields)
{
    Flags edit = flags_of(fields);
    return dconfdb_is_unmade(&edit);
}

static void finds_tried(void)
{
    enum { WRITTEN = 1, REFUSED = 2, LEFT = 4, NOW = 8, THERE = 16, AGAIN = 32, FIELDS = 6 };
    static const char *const names[FIELDS] = {"is_written", "is_refused", "is_left_out", "is_now", "is_there", "is_again"};
    is_so(is_unmade(REFUSED) && is_unmade(LEFT) && is_unmade(WRITTEN) && !is_unmade(0), "DconfdbTried");
    is_so(!is_unmade(WRITTEN | NOW) && !is_unmade(WRITTEN | THERE) && !is_unmade(WRITTEN | AGAIN) && is_unmade(WRITTEN | REFUSED | NOW | THERE), "DconfdbTried");
    for (size_t i = 0; i < FIELDS; i++)
        lies("DconfdbTried", names[i], i, FLAG);
    printf("TAKES(DconfdbTried, %d);\n", FIELDS);
}

static uint32_t look_due(uint32_t looker, uint64_t until, unsigned fields)
{
    struct {
        uint64_t until;
        Flags flags;
    } known = {until, flags_of(fields)};
    return dconfdb_look_due(looker, &known);
}

static void finds_looks(void)
{
    enum { OPEN = 1, WATCHED = 2, WHOLE = 4, TOLD = 8, OWN = 16, BUSY = 32, FIELDS = 6 };
    static const char *const names[FIELDS] = {"is_open", "is_watched", "is_whole", "is_told", "is_own", "is_busy"};
    enum { HEARD = OPEN | WATCHED | WHOLE | OWN };
    is_so(look_due(2, 0, HEARD) == 0 && look_due(2, 1, HEARD) == 2 && look_due(2, 1ull << 63, HEARD) == 2, "DconfdbLookKnown");
    is_so(look_due(2, 0, HEARD | TOLD) == 2 && look_due(2, 0, HEARD & ~OWN) == 2 && look_due(2, 0, HEARD & ~WHOLE) == 2, "DconfdbLookKnown");
    is_so(look_due(2, 0, HEARD & ~WATCHED) == 2 && look_due(2, 0, HEARD & ~OPEN) == 1 && look_due(2, 0, HEARD | TOLD | BUSY) == 3, "DconfdbLookKnown");
    lies("DconfdbLookKnown", "until", 0, WORD);
    for (size_t i = 0; i < FIELDS; i++)
        lies("DconfdbLookKnown", names[i], 8 + i, FLAG);
    printf("TAKES(DconfdbLookKnown, %d);\n", 16);
}

void finds_changesets(void)
{
    finds_base();
    finds_changing();
    finds_fast();
    finds_said();
    finds_tried();
    finds_looks();
}
