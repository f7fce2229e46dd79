/* What is done next: by who writes what waits, by a sync, and by who looks at the files. */
#include "layouts.h"

#include <stdio.h>
#include <string.h>

uint32_t dconfdb_round_after(uint32_t task, const void *known);
bool dconfdb_has_work(const void *known);
bool dconfdb_is_open(const void *known);
uint32_t dconfdb_glance_after(uint32_t task, const void *known);
uint32_t dconfdb_writer_after(uint32_t what, uint32_t task, bool yes, const void *known);

/* What is known of a round is read alone, too: the numbers, and the fields of which these are so. */
enum { ROUND_AGAIN = 0, ROUND_MOMENT = 8, ROUND_FAILED = 16, ROUND_LAST_TRY = 24, ROUND_FLAGS = 32, ROUND_ENDS = 32, ROUND_IS_LET_GO = 33,
       ROUND_WAITS = 34, ROUND_IS_IN_LINE = 35, ROUND_HAS_ASKED = 36, ROUND_HAS_UNTOLD = 37, ROUND_HAS_TURNED = 38,
       ROUND_IS_ASKED = 39, ROUND_ASKS = 40, ROUND_IS_WATCHED = 41, ROUND_IS_OTHERS = 42, ROUND = 48 };
enum { IT_ENDS = 1, LET_GO = 2, IT_WAITS = 4, IN_LINE = 8, HAS_ASKED = 16, UNTOLD = 32, TURNED = 64, ASKED = 128, ASKS = 256, WATCHED = 512,
       OTHERS = 1024 };

static void round_of(uint8_t *known, const uint64_t numbers[4], unsigned fields)
{
    memset(known, 0, ROUND);
    memcpy(known, numbers, ROUND_FLAGS);
    for (int i = 0; i < ROUND_IS_OTHERS + 1 - ROUND_FLAGS; i++)
        known[ROUND_FLAGS + i] = fields >> i & 1;
}

static bool is_after(uint32_t task, const uint64_t numbers[4], unsigned fields, uint32_t next)
{
    _Alignas(16) uint8_t known[ROUND];
    round_of(known, numbers, fields);
    return dconfdb_round_after(task, known) == next;
}

static bool works(const uint64_t numbers[4], unsigned fields)
{
    _Alignas(16) uint8_t known[ROUND];
    round_of(known, numbers, fields);
    return dconfdb_has_work(known);
}

static void finds_round(void)
{
    static const uint64_t none[4] = {0}, later[4] = {5, 4, 0, 0}, due[4] = {5, 5, 0, 0}, old[4] = {5, 0, 2, 2}, failed[4] = {5, 0, 2, 1};
    is_so(is_after(0, none, 0, 7) && is_after(0, none, UNTOLD, 1) && is_after(0, none, TURNED, 2) && is_after(0, none, IT_ENDS, 8), "DconfdbRound");
    is_so(is_after(0, later, IT_WAITS, 7) && is_after(0, due, IT_WAITS, 3) && is_after(0, due, IT_WAITS | WATCHED, 4), "DconfdbRound");
    is_so(is_after(0, due, IT_WAITS | WATCHED | ASKS, 3) && is_after(3, later, IT_WAITS | ASKED, 4), "DconfdbRound");
    is_so(is_after(3, later, IT_WAITS | IN_LINE, 4) && is_after(0, none, IN_LINE, 6) && is_after(4, later, 0, 6), "DconfdbRound");
    is_so(is_after(4, later, IT_WAITS | HAS_ASKED, 5) && is_after(4, later, IT_WAITS, 7), "DconfdbRound");
    is_so(is_after(4, later, IT_WAITS | HAS_ASKED | OTHERS, 5) && is_after(4, later, IT_WAITS | HAS_ASKED | OTHERS | IN_LINE, 7), "DconfdbRound");
    is_so(is_after(6, none, IT_ENDS | IN_LINE, 8) && is_after(6, none, IT_ENDS | IN_LINE | LET_GO, 7), "DconfdbRound");
    is_so(works(none, IT_WAITS) && works(none, IN_LINE) && works(later, 0) && !works(none, HAS_ASKED | UNTOLD | TURNED | ASKED), "DconfdbRound");
    is_so(is_after(4, old, IT_ENDS | IT_WAITS, 7) && is_after(4, failed, IT_ENDS | IT_WAITS, 9), "DconfdbRound");
    lies("DconfdbRound", "again", ROUND_AGAIN, WORD);
    lies("DconfdbRound", "moment", ROUND_MOMENT, WORD);
    lies("DconfdbRound", "failed", ROUND_FAILED, WORD);
    lies("DconfdbRound", "last_try", ROUND_LAST_TRY, WORD);
    lies("DconfdbRound", "ends", ROUND_ENDS, FLAG);
    lies("DconfdbRound", "is_let_go", ROUND_IS_LET_GO, FLAG);
    lies("DconfdbRound", "waits", ROUND_WAITS, FLAG);
    lies("DconfdbRound", "is_in_line", ROUND_IS_IN_LINE, FLAG);
    lies("DconfdbRound", "has_asked", ROUND_HAS_ASKED, FLAG);
    lies("DconfdbRound", "has_untold", ROUND_HAS_UNTOLD, FLAG);
    lies("DconfdbRound", "has_turned", ROUND_HAS_TURNED, FLAG);
    lies("DconfdbRound", "is_asked", ROUND_IS_ASKED, FLAG);
    lies("DconfdbRound", "asks", ROUND_ASKS, FLAG);
    lies("DconfdbRound", "is_watched", ROUND_IS_WATCHED, FLAG);
    lies("DconfdbRound", "is_others", ROUND_IS_OTHERS, FLAG);
    printf("TAKES(DconfdbRound, %d);\n", ROUND);
}

enum { SYNC_HAS_WRITER = 0, SYNC_HAS_FAILED = 1, SYNC_HAS_STORE = 2, SYNC_HAS_LOOKED = 3, SYNC_IS_TO_SETTLE = 4, SYNC = 5 };
enum { WRITER_SETTLED = 0, WRITER_ADDED = 8, WRITER_BEGUN_IN = 16, WRITER_PROCESS = 20, WRITER_SYNC = 24, WRITER_HAS_ENDED = 29,
       WRITER_HAS_THREAD = 30, WRITER_HAS_WAKE = 31, WRITER_HAS_LINE = 32, WRITER_IS_WANTED = 33, WRITER_IS_NEWS = 34, WRITER_ADDS = 35,
       WRITER_WAITS = 36, WRITER_IS_OWED = 37, WRITER_LISTENS = 38, WRITER_HAS_TURNED = 39, WRITER_EXITS = 40, WRITER_IS_THREAD = 41,
       WRITER_IS_LET_GO = 42, WRITER_END = 43, WRITER_SIZE = 48 };

/* Which call is asked, and what is answered to it. */
typedef struct {
    uint32_t what, task;
    bool yes;
} AskedOf;

/* What comes next, by the numbers and the flags of what is known of who writes: `flags` from those of a sync on. */
static uint32_t written_by(AskedOf asked, uint64_t settled, uint64_t added, uint32_t process, unsigned flags)
{
    _Alignas(16) uint8_t known[WRITER_SIZE] = {0};
    memcpy(known + WRITER_SETTLED, &settled, sizeof settled);
    memcpy(known + WRITER_ADDED, &added, sizeof added);
    memcpy(known + WRITER_PROCESS, &process, sizeof process);
    for (int i = 0; i < WRITER_END - WRITER_SYNC; i++)
        known[WRITER_SYNC + i] = flags >> i & 1;
    return dconfdb_writer_after(asked.what, asked.task, asked.yes, known);
}

static bool is_due(uint32_t task, unsigned fields, uint32_t next)
{
    return written_by((AskedOf){3, task, true}, 0, 0, 0, fields) == next;
}

/* At first nothing is to be done; each flag changes that, or what else is so. */
static void finds_writer(void)
{
    enum { ENDED = 32, THREAD = 64, WAKE = 128, LINE = 256, WANTED = 512, NEWS = 1024, ADDS = 2048, BEHIND = 4096, OWED = 8192, LISTENS = 16384,
           HAS_TURNED = 32768, EXITS = 65536, ITSELF = 131072, GONE = 262144 };
    const AskedOf need = {0, 0, true}, line = {1, 0, true}, sync = {3, 0, true}, end = {2, 0, true}, marked = {2, 1, true}, counted = {2, 8, true}, waited = {3, 3, true};
    is_so(written_by(need, 0, 0, 0, 0) == 5 && written_by(need, 0, 0, 0, WANTED) == 1, "DconfdbWriter");
    is_so(written_by(need, 0, 0, 0, WANTED | WAKE) == 2 && written_by(need, 0, 0, 1, WANTED | WAKE) == 5, "DconfdbWriter");
    is_so(written_by(need, 0, 0, 0, WANTED | WAKE | ENDED) == 5 && written_by(need, 0, 0, 0, THREAD | NEWS) == 3, "DconfdbWriter");
    is_so(written_by(need, 0, 0, 0, LISTENS) == 1 && written_by(need, 0, 0, 0, THREAD | LISTENS) == 5, "DconfdbWriter");
    is_so(written_by(need, 0, 0, 0, THREAD | HAS_TURNED) == 5 && written_by(need, 0, 0, 0, THREAD | LISTENS | HAS_TURNED) == 3, "DconfdbWriter");
    is_so(written_by(need, 0, 0, 0, THREAD | ADDS) == 3 && written_by(need, 0, 0, 0, THREAD | ADDS | BEHIND) == 5, "DconfdbWriter");
    is_so(written_by(need, 0, 0, 1, THREAD | NEWS | OWED) == 4, "DconfdbWriter");
    is_so(written_by(need, 0, 0, 0, OWED) == 4 && written_by(line, 0, 0, 0, LINE) == 4 && written_by(line, 0, 0, 0, ITSELF) == 1, "DconfdbWriter");
    is_so(written_by(line, 0, 0, 0, LINE | ITSELF) == 3 && written_by(sync, 0, 0, 0, 0) == 2 && written_by(sync, 0, 0, 1, 0) == 7, "DconfdbWriter");
    is_so(written_by(end, 0, 0, 0, EXITS) == 1 && written_by(end, 0, 0, 1, EXITS) == 11 && written_by(end, 0, 0, 1, 0) == 1, "DconfdbWriter");
    is_so(written_by(marked, 0, 0, 0, EXITS | THREAD) == 3 && written_by(marked, 0, 0, 0, EXITS | THREAD | ITSELF) == 2, "DconfdbWriter");
    is_so(written_by(marked, 0, 0, 0, EXITS | THREAD | GONE) == 4 && written_by(marked, 0, 0, 0, THREAD) == 5, "DconfdbWriter");
    is_so(written_by(counted, 4, 5, 0, 0) == 9 && written_by(counted, 5, 5, 0, 0) == 11 && written_by(waited, 4, 5, 0, 0) == 8, "DconfdbWriter");
    lies("DconfdbWriter", "settled", WRITER_SETTLED, WORD);
    lies("DconfdbWriter", "added", WRITER_ADDED, WORD);
    lies("DconfdbWriter", "begun_in", WRITER_BEGUN_IN, NUMBER);
    lies("DconfdbWriter", "process", WRITER_PROCESS, NUMBER);
    lies("DconfdbWriter", "sync", WRITER_SYNC, SYNC);
    lies("DconfdbWriter", "has_ended", WRITER_HAS_ENDED, FLAG);
    lies("DconfdbWriter", "has_thread", WRITER_HAS_THREAD, FLAG);
    lies("DconfdbWriter", "has_wake", WRITER_HAS_WAKE, FLAG);
    lies("DconfdbWriter", "has_line", WRITER_HAS_LINE, FLAG);
    lies("DconfdbWriter", "is_wanted", WRITER_IS_WANTED, FLAG);
    lies("DconfdbWriter", "is_news", WRITER_IS_NEWS, FLAG);
    lies("DconfdbWriter", "adds", WRITER_ADDS, FLAG);
    lies("DconfdbWriter", "waits", WRITER_WAITS, FLAG);
    lies("DconfdbWriter", "is_owed", WRITER_IS_OWED, FLAG);
    lies("DconfdbWriter", "listens", WRITER_LISTENS, FLAG);
    lies("DconfdbWriter", "has_turned", WRITER_HAS_TURNED, FLAG);
    lies("DconfdbWriter", "exits", WRITER_EXITS, FLAG);
    lies("DconfdbWriter", "is_thread", WRITER_IS_THREAD, FLAG);
    lies("DconfdbWriter", "is_let_go", WRITER_IS_LET_GO, FLAG);
    printf("TAKES(DconfdbWriter, %d);\n", WRITER_SIZE);
}

static void finds_sync(void)
{
    enum { WRITER = 1, HAS_FAILED = 2, STORE = 4, LOOKED = 8, SETTLE = 16 };
    is_so(is_due(0, 0, 2) && is_due(0, WRITER, 3) && is_due(4, 0, 7) && is_due(4, STORE, 5), "DconfdbSync");
    is_so(is_due(4, STORE | LOOKED, 7) && is_due(4, SETTLE, 6) && is_due(0, WRITER | HAS_FAILED, 1), "DconfdbSync");
    lies("DconfdbSync", "has_writer", SYNC_HAS_WRITER, FLAG);
    lies("DconfdbSync", "has_failed", SYNC_HAS_FAILED, FLAG);
    lies("DconfdbSync", "has_store", SYNC_HAS_STORE, FLAG);
    lies("DconfdbSync", "has_looked", SYNC_HAS_LOOKED, FLAG);
    lies("DconfdbSync", "is_to_settle", SYNC_IS_TO_SETTLE, FLAG);
    printf("TAKES(DconfdbSync, %d);\n", SYNC);
}

enum { GLANCE_FIRST = 0, GLANCE_SECOND = 4, GLANCE_FLAGS = 8, GLANCE_IS_OPEN = 8, GLANCE_KEEPS_PROFILE = 9, GLANCE_IS_DONE = 10,
       GLANCE_IS_SHOWN = 11, GLANCE_IS_OTHER = 12, GLANCE_WAITS = 13, GLANCE_HAS_SAME_FILES = 14, GLANCE_IS_BARRED = 15, GLANCE_IS_AMID = 16,
       GLANCE_IS_LATE = 17, GLANCE_IS_TO_SETTLE = 18, GLANCE_WAS_UNSEEN = 19, GLANCE_IS_UNSEEN = 20, GLANCE_IS_READING = 21, GLANCE_IS_FIRST = 22,
       GLANCE = 24 };

static bool is_next(uint32_t task, uint32_t first, uint32_t second, unsigned fields, uint32_t next)
{
    _Alignas(16) uint8_t known[GLANCE] = {0};
    memcpy(known + GLANCE_FIRST, &first, NUMBER);
    memcpy(known + GLANCE_SECOND, &second, NUMBER);
    for (int i = 0; i < GLANCE_IS_FIRST + 1 - GLANCE_FLAGS; i++)
        known[GLANCE_FLAGS + i] = fields >> i & 1;
    return dconfdb_glance_after(task, known) == next;
}

static void finds_glance(void)
{
    enum { IS_OPEN = 1, KEEPS = 2, IS_DONE = 4, IS_SHOWN = 8, IS_OTHER = 16, SETS_WAIT = 32, SAME_FILES = 64, BARRED = 128, AMID = 256, LATE = 512,
           SETTLES = 1024, WAS_UNSEEN = 2048, IS_UNSEEN = 4096, READS = 8192, NONE_BEFORE = 16384 };
    is_so(is_next(0, 0, 0, 0, 2) && is_next(0, 0, 0, IS_OPEN, 1) && is_next(0, 2, 0, IS_OPEN, 3), "DconfdbGlance");
    is_so(is_next(0, 2, 1, IS_OPEN | KEEPS, 1) && is_next(0, 0, 0, KEEPS, 2), "DconfdbGlance");
    is_so(is_next(0, 2, 1, IS_OPEN, 2) && is_next(1, 0, 0, IS_OPEN | IS_DONE, 4), "DconfdbGlance");
    is_so(is_next(1, 0, 0, IS_OPEN | IS_DONE | IS_SHOWN, 9) && is_next(1, 0, 0, IS_OPEN | IS_SHOWN, 4), "DconfdbGlance");
    is_so(is_next(4, 0, 0, IS_OTHER, 10) && is_next(4, 0, 0, SETS_WAIT, 10) && is_next(4, 0, 0, IS_OTHER | SETS_WAIT, 5), "DconfdbGlance");
    is_so(is_next(4, 0, 0, IS_OTHER | SETS_WAIT | NONE_BEFORE, 10), "DconfdbGlance");
    is_so(is_next(5, 2, 0, IS_OPEN | IS_DONE, 6) && is_next(5, 2, 0, IS_OPEN | IS_DONE | SAME_FILES, 9), "DconfdbGlance");
    is_so(is_next(6, 0, 0, IS_DONE | SETTLES, 7) && is_next(6, 0, 0, SETTLES, 10), "DconfdbGlance");
    is_so(is_next(0, 0, 0, BARRED, 8) && is_next(0, 0, 0, BARRED | LATE, 10) && is_next(0, 0, 0, BARRED | AMID, 4) && is_next(0, 0, 0, AMID, 2), "DconfdbGlance");
    is_so(is_next(0, 0, 0, IS_OPEN | WAS_UNSEEN, 3) && is_next(0, 0, 0, IS_OPEN | IS_UNSEEN, 3), "DconfdbGlance");
    is_so(is_next(0, 0, 0, BARRED | READS, 10) && is_next(0, 0, 0, BARRED | AMID | READS, 4) && is_next(0, 0, 0, READS, 2), "DconfdbGlance");
    lies("DconfdbGlance", "first", GLANCE_FIRST, NUMBER);
    lies("DconfdbGlance", "second", GLANCE_SECOND, NUMBER);
    lies("DconfdbGlance", "is_open", GLANCE_IS_OPEN, FLAG);
    lies("DconfdbGlance", "keeps_profile", GLANCE_KEEPS_PROFILE, FLAG);
    lies("DconfdbGlance", "is_done", GLANCE_IS_DONE, FLAG);
    lies("DconfdbGlance", "is_shown", GLANCE_IS_SHOWN, FLAG);
    lies("DconfdbGlance", "is_other", GLANCE_IS_OTHER, FLAG);
    lies("DconfdbGlance", "waits", GLANCE_WAITS, FLAG);
    lies("DconfdbGlance", "has_same_files", GLANCE_HAS_SAME_FILES, FLAG);
    lies("DconfdbGlance", "is_barred", GLANCE_IS_BARRED, FLAG);
    lies("DconfdbGlance", "is_amid", GLANCE_IS_AMID, FLAG);
    lies("DconfdbGlance", "is_late", GLANCE_IS_LATE, FLAG);
    lies("DconfdbGlance", "is_to_settle", GLANCE_IS_TO_SETTLE, FLAG);
    lies("DconfdbGlance", "was_unseen", GLANCE_WAS_UNSEEN, FLAG);
    lies("DconfdbGlance", "is_unseen", GLANCE_IS_UNSEEN, FLAG);
    lies("DconfdbGlance", "is_reading", GLANCE_IS_READING, FLAG);
    lies("DconfdbGlance", "is_first", GLANCE_IS_FIRST, FLAG);
    printf("TAKES(DconfdbGlance, %d);\n", GLANCE);
}

/* What is known of who writes. */
static bool is_open(uint32_t begun_in, uint32_t process, bool has_ended, bool has_user, bool is_closed, bool writes)
{
    const struct {
        uint32_t begun_in, process;
        bool flags[4];
    } known = {begun_in, process, {has_ended, has_user, is_closed, writes}};
    return dconfdb_is_open(&known);
}

static void finds_writing(void)
{
    is_so(is_open(7, 7, false, true, true, false) && !is_open(7, 8, false, true, false, false) && !is_open(0, 7, false, true, false, false), "DconfdbWriting");
    is_so(!is_open(7, 7, true, true, false, false) && !is_open(7, 7, false, false, false, false) && is_open(7, 8, true, true, false, true), "DconfdbWriting");
    is_so(!is_open(7, 7, false, true, true, true) && !is_open(7, 7, false, false, false, true), "DconfdbWriting");
    lies("DconfdbWriting", "begun_in", 0, NUMBER);
    lies("DconfdbWriting", "process", NUMBER, NUMBER);
    lies("DconfdbWriting", "has_ended", 8, FLAG);
    lies("DconfdbWriting", "has_user", 9, FLAG);
    lies("DconfdbWriting", "is_closed", 10, FLAG);
    lies("DconfdbWriting", "writes", 11, FLAG);
    printf("TAKES(DconfdbWriting, %d);\n", 12);
}

void finds_next(void)
{
    finds_writing();
    finds_round();
    finds_writer();
    finds_sync();
    finds_glance();
}
