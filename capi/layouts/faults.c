/* What is said of faults, how long it is waited meanwhile, what is told, and what the service answers. */
#include "layouts.h"

#include <stdio.h>
#include <string.h>

bool dconfdb_patience_goes_on(void *patience, const void *progress, const void *changed, uint64_t now);
uint32_t dconfdb_failing_met(void *failing, bool is_there, bool is_momentary, bool tries_again, uint64_t now);
uint32_t dconfdb_failing_look(void *failing, const void *seen, uint64_t now);
uint32_t dconfdb_tell_next(const void *known);
uint32_t dconfdb_served_after(uint32_t done, const void *known);
void dconfdb_sentence(const void *met, void *sentence);

/* One that is to take so long, and begins at moment 7, with nothing that waits. */
enum { PATIENCE = 5 };

static const uint64_t UNCHANGED[2] = {0, 0};

static void makes_patience(uint64_t patience[PATIENCE], uint64_t each)
{
    const uint64_t nothing[5] = {0};
    memset(patience, 0, PATIENCE * WORD);
    patience[1] = each;
    dconfdb_patience_goes_on(patience, nothing, UNCHANGED, 7);
}

/* What was written meanwhile is read alone. */
enum { SETTLED = 0, ADDED = 8, FAILED_TRY = 16, TRIES = 24, MOVED = 32, PROGRESS = 40 };

static bool goes_on(uint64_t settled, uint64_t added, uint64_t failed, uint64_t tries, uint64_t moved, uint64_t now)
{
    const uint64_t progress[5] = {settled, added, failed, tries, moved};
    uint64_t patience[PATIENCE];
    makes_patience(patience, 11);
    return dconfdb_patience_goes_on(patience, progress, UNCHANGED, now);
}

static void finds_progress(void)
{
    is_so(goes_on(1, 2, 3, 3, 7, 17) && !goes_on(2, 2, 3, 3, 7, 17) && !goes_on(1, 1, 3, 3, 7, 17), "DconfdbProgress");
    is_so(!goes_on(1, 2, 4, 3, 7, 17) && goes_on(1, 2, 4, 4, 7, 17) && !goes_on(1, 2, 3, 3, 7, 18), "DconfdbProgress");
    const uint64_t old[5] = {0, 1, 0, 0, 7}, moved[5] = {0, 1, 0, 0, 8};
    uint64_t patience[PATIENCE];
    makes_patience(patience, 9000000);
    is_so(!dconfdb_patience_goes_on(patience, old, UNCHANGED, 2000007) && dconfdb_patience_goes_on(patience, moved, UNCHANGED, 2000007),
          "DconfdbProgress");
    lies("DconfdbProgress", "settled", SETTLED, WORD);
    lies("DconfdbProgress", "added", ADDED, WORD);
    lies("DconfdbProgress", "failed", FAILED_TRY, WORD);
    lies("DconfdbProgress", "tries", TRIES, WORD);
    lies("DconfdbProgress", "moved", MOVED, WORD);
    printf("TAKES(DconfdbProgress, %d);\n", PROGRESS);
}

/* A fault that was met at moment 9 by the fifth try, and is tried again by somebody, or by nobody. */
enum { FAULT_SINCE, FAULT_PAUSE, FAULT_AGAIN, FAULT_DUE, FAULT_TRIES, FAULT_FAILED, FAULT_FLAGS, FAULT_IS_THERE = FAULT_FLAGS * WORD, FAULT_IS_SAID };

static void makes_failing(Written *failing, bool tries_again)
{
    const uint64_t tries = 5;
    memset(failing->bytes, 0, (FAULT_FLAGS + 1) * WORD);
    memcpy(failing->bytes + FAULT_TRIES * WORD, &tries, WORD);
    dconfdb_failing_met(failing->bytes, true, false, tries_again, 9);
}

static void finds_failing(void)
{
    Written failing = room_of("DconfdbFailing"), said = failing;
    makes_failing(&failing, true);
    makes_failing(&said, false);
    finds_word(&failing, "since", 9);
    finds_word(&failing, "pause", 50000);
    finds_word(&failing, "again", 50009);
    finds_word(&failing, "due", 1500009);
    finds_word(&failing, "tries", 5);
    is_so(said.bytes[FAULT_FAILED * WORD] == 5 && failing.bytes[FAULT_FAILED * WORD] == 0 && said.bytes[FAULT_DUE * WORD] == 0, "DconfdbFailing");
    is_so(failing.bytes[FAULT_IS_THERE] == 1 && said.bytes[FAULT_IS_THERE] == 1 && failing.bytes[FAULT_IS_SAID] == 0 && said.bytes[FAULT_IS_SAID] == 1,
          "DconfdbFailing");
    is_so(dconfdb_failing_met(said.bytes, true, false, true, 9) == 0 && dconfdb_failing_met(said.bytes, true, false, false, 9) == 2,
          "DconfdbFailing");
    lies("DconfdbFailing", "failed", FAULT_FAILED * WORD, WORD);
    lies("DconfdbFailing", "is_there", FAULT_IS_THERE, FLAG);
    lies("DconfdbFailing", "is_said", FAULT_IS_SAID, FLAG);
    printf("TAKES(DconfdbFailing, %d);\n", (FAULT_FLAGS + 1) * WORD);
}

enum { IS_MET, IS_OF_LOOK, HAS_LOOKED, IS_MOMENTARY, IS_REPEATED, FAULT_SEEN };

/* What is said of a fault that was there before or not, by what is seen of it. */
static uint32_t said_by(bool was_there, unsigned fields)
{
    _Alignas(16) uint8_t failing[(FAULT_FLAGS + 1) * WORD] = {0};
    bool seen[FAULT_SEEN];
    for (int i = 0; i < FAULT_SEEN; i++)
        seen[i] = fields >> i & 1;
    failing[FAULT_IS_THERE] = was_there;
    return dconfdb_failing_look(failing, seen, 9);
}

static void finds_seen(void)
{
    enum { MET = 1 << IS_MET, OF_LOOK = 1 << IS_OF_LOOK, LOOKED = 1 << HAS_LOOKED, MOMENTARY = 1 << IS_MOMENTARY, REPEATED = 1 << IS_REPEATED };
    is_so(said_by(false, 0) == 0 && said_by(false, MET) == 1 && said_by(true, 0) == 3, "DconfdbFaultSeen");
    is_so(said_by(true, OF_LOOK) == 1 && said_by(true, OF_LOOK | LOOKED) == 3, "DconfdbFaultSeen");
    is_so(said_by(false, MET | MOMENTARY | REPEATED) == 0 && said_by(false, MET | MOMENTARY) == 1 && said_by(false, MET | REPEATED) == 1, "DconfdbFaultSeen");
    lies("DconfdbFaultSeen", "is_met", IS_MET, FLAG);
    lies("DconfdbFaultSeen", "is_of_look", IS_OF_LOOK, FLAG);
    lies("DconfdbFaultSeen", "has_looked", HAS_LOOKED, FLAG);
    lies("DconfdbFaultSeen", "is_momentary", IS_MOMENTARY, FLAG);
    lies("DconfdbFaultSeen", "is_repeated", IS_REPEATED, FLAG);
    printf("TAKES(DconfdbFaultSeen, %d);\n", FAULT_SEEN);
}

enum { TAKEN_PATHS = 0, TELL_LIST = 8, TELL_FLAGS = 12, TELL_IS_FIRST = 12, TELL_ENDS = 13, TELL_IS_OTHER = 14, TELL_HAS_EDITS = 15, TELL_IS_FOUND = 16,
       TELL_HAS_PATH = 17, TELL_IS_LISTENED = 18, TELL_IS_BETWEEN = 19, TELL_HAS_RIGHTS = 20, TELL_IS_OF_FILES = 21, TELL_HAS_FAULTS = 22,
       TELL_IS_UNSEEN = 23, TELLING = 24 };

static uint32_t told_by(size_t taken_paths, uint32_t list, unsigned fields)
{
    _Alignas(16) uint8_t known[TELLING] = {0};
    memcpy(known, &taken_paths, WORD);
    memcpy(known + TELL_LIST, &list, NUMBER);
    for (int i = 0; i < TELL_IS_UNSEEN + 1 - TELL_FLAGS; i++)
        known[TELL_FLAGS + i] = fields >> i & 1;
    return dconfdb_tell_next(known);
}

static bool is_told(size_t taken_paths, unsigned fields, uint32_t next)
{
    return told_by(taken_paths, 0, fields) == next;
}

static void finds_telling(void)
{
    enum { FIRST = 1, PROGRAM_ENDS = 2, OTHER = 4, HAS_EDITS = 8, FOUND = 16, HERE = 32, LISTENED = 64, HEARD = FOUND | HERE | LISTENED };
    enum { BETWEEN = 128, RIGHTS = 256, OF_FILES = 512, FAULTS = 1024, UNSEEN = 2048 };
    is_so(is_told(0, OTHER | HEARD, 1) && is_told(255, OTHER | HEARD, 2) && is_told(0, HAS_EDITS | HEARD, 1), "DconfdbTelling");
    is_so(is_told(0, HEARD, 0) && is_told(0, OTHER | HEARD | FIRST, 0) && is_told(0, OTHER | HEARD | PROGRAM_ENDS, 0), "DconfdbTelling");
    is_so(is_told(0, OTHER | HERE | LISTENED, 4) && is_told(1, OTHER | FOUND | HERE, 0) && is_told(1, OTHER | FOUND | LISTENED, 3),
          "DconfdbTelling");
    is_so(told_by(0, 0, OTHER | BETWEEN | RIGHTS) == 6 && told_by(0, 0, OTHER | BETWEEN) == 7 && told_by(0, 6, OTHER | BETWEEN | RIGHTS) == 7,
          "DconfdbTelling");
    is_so(told_by(0, 7, OTHER | BETWEEN) == 10 && told_by(0, 0, BETWEEN | RIGHTS) == 10, "DconfdbTelling");
    is_so(told_by(0, 0, OTHER | BETWEEN | RIGHTS | UNSEEN) == 10, "DconfdbTelling");
    is_so(told_by(0, 0, OTHER | BETWEEN | OF_FILES) == 5 && told_by(0, 0, BETWEEN | FAULTS) == 8 && told_by(0, 0, BETWEEN | FAULTS | PROGRAM_ENDS) == 9,
          "DconfdbTelling");
    lies("DconfdbTelling", "taken", TAKEN_PATHS, WORD);
    lies("DconfdbTelling", "list", TELL_LIST, NUMBER);
    lies("DconfdbTelling", "is_first", TELL_IS_FIRST, FLAG);
    lies("DconfdbTelling", "ends", TELL_ENDS, FLAG);
    lies("DconfdbTelling", "is_other", TELL_IS_OTHER, FLAG);
    lies("DconfdbTelling", "has_edits", TELL_HAS_EDITS, FLAG);
    lies("DconfdbTelling", "is_found", TELL_IS_FOUND, FLAG);
    lies("DconfdbTelling", "has_path", TELL_HAS_PATH, FLAG);
    lies("DconfdbTelling", "is_listened", TELL_IS_LISTENED, FLAG);
    lies("DconfdbTelling", "is_between", TELL_IS_BETWEEN, FLAG);
    lies("DconfdbTelling", "has_rights", TELL_HAS_RIGHTS, FLAG);
    lies("DconfdbTelling", "is_of_files", TELL_IS_OF_FILES, FLAG);
    lies("DconfdbTelling", "has_faults", TELL_HAS_FAULTS, FLAG);
    lies("DconfdbTelling", "is_unseen", TELL_IS_UNSEEN, FLAG);
    printf("TAKES(DconfdbTelling, %d);\n", TELLING);
}

/* What is known of a change is read alone: the numbers, what is said, and the fields of which these are so. */
enum { SERVED_SIZE = 0, SERVED_WAITING = 8, SERVED_WAITING_SIZE = 16, SERVED_NAMES = 24, SERVED_ANSWERED = 32, SERVED_EDITS = 40, SERVED_RESETS = 48,
       SERVED_SAID = 56, SERVED_KIND = 60, SERVED_FLAGS = 64,
       SERVED_IS_USED = SERVED_FLAGS, SERVED_IS_NORMAL, SERVED_HAS_EDITS, SERVED_IS_WRITTEN, SERVED_IS_CLOSED, SERVED_ENDS, SERVED_IS_AMID,
       SERVED_IS_SAME, SERVED_IS_OPEN, SERVED_IS_PROFILE_OPEN, SERVED_HAS_SAME_FILE, SERVED_HAD_NAME, SERVED_IS_BUS_CLOSED, SERVED_IS_SHORT,
       SERVED_IS_AGAIN, SERVED_IS_COVERED, SERVED_SETS, SERVED_IS_USERS, SERVED_IS_UNMADE, SERVED_IS_SERVICE_DB, SERVED_IS_BEHIND,
       SERVED_HAS_PROFILE, SERVED_IS_FIRST, SERVED_IS_TURNED, SERVED_WANTS_NONE, SERVED_IS_NOTED, SERVED = 96 };

static bool is_served(uint32_t done, const uint64_t numbers[7], uint32_t said, unsigned fields, uint32_t next)
{
    _Alignas(16) uint8_t known[SERVED] = {0};
    memcpy(known, numbers, SERVED_SAID);
    memcpy(known + SERVED_SAID, &said, NUMBER);
    if (done == 9) /* of a path what it is, in the place of what is said */
        memcpy(known + SERVED_KIND, &said, NUMBER);
    for (int i = 0; i < SERVED_IS_NOTED + 1 - SERVED_FLAGS; i++)
        known[SERVED_FLAGS + i] = fields >> i & 1;
    return dconfdb_served_after(done, known) == next;
}

/* Of what stands in it. */
static void finds_sent(const uint64_t none[7])
{
    enum { WRITTEN = 8, SHORT = 1 << 13, AGAIN = SHORT << 1, COVERED = SHORT << 2, SETS = SHORT << 3, USERS = SHORT << 4, UNMADE = SHORT << 5,
           SERVICE_DB = SHORT << 6, BEHIND = SHORT << 7, HAS_PROFILE = SHORT << 8, IS_FIRST = SHORT << 9, USED = 1, ENDS = 32 };
    is_so(is_served(9, none, 1, SHORT, 0) && is_served(9, none, 1, SHORT | SETS, 14) && is_served(9, none, 2, SHORT, 14) && is_served(9, none, 1, 0, 15), "DconfdbServed");
    is_so(is_served(10, none, 0, 0, 0) && is_served(10, none, 0, AGAIN, 16) && is_served(10, none, 0, COVERED, 14) && is_served(10, none, 0, COVERED | SETS, 0),
          "DconfdbServed");
    is_so(is_served(11, none, 0, 0, 14) && is_served(11, none, 0, USERS | IS_FIRST, 0) && is_served(11, none, 0, USERS, 14) && is_served(11, none, 0, IS_FIRST, 14), "DconfdbServed");
    is_so(is_served(12, none, 0, WRITTEN, 0) && is_served(12, none, 0, WRITTEN | UNMADE, 15) && is_served(12, none, 0, UNMADE, 14), "DconfdbServed");
    is_so(is_served(0, none, 0, SERVICE_DB, 17) && is_served(13, none, 0, 0, 11), "DconfdbServed");
    is_so(is_served(14, none, 0, USED, 0) && is_served(14, none, 0, 0, 9) && is_served(14, none, 0, USED | BEHIND, 9) && is_served(14, none, 0, USED | ENDS, 9),
          "DconfdbServed");
    is_so(is_served(15, none, 0, 0, 0) && is_served(15, none, 0, HAS_PROFILE, 14), "DconfdbServed");
    lies("DconfdbServed", "kind", SERVED_KIND, NUMBER);
    lies("DconfdbServed", "is_short", SERVED_IS_SHORT, FLAG);
    lies("DconfdbServed", "is_again", SERVED_IS_AGAIN, FLAG);
    lies("DconfdbServed", "is_covered", SERVED_IS_COVERED, FLAG);
    lies("DconfdbServed", "sets", SERVED_SETS, FLAG);
    lies("DconfdbServed", "is_users", SERVED_IS_USERS, FLAG);
    lies("DconfdbServed", "is_unmade", SERVED_IS_UNMADE, FLAG);
    lies("DconfdbServed", "is_service_db", SERVED_IS_SERVICE_DB, FLAG);
    lies("DconfdbServed", "is_behind", SERVED_IS_BEHIND, FLAG);
    lies("DconfdbServed", "has_profile", SERVED_HAS_PROFILE, FLAG);
    lies("DconfdbServed", "is_first", SERVED_IS_FIRST, FLAG);
}

/* Of a call, and of where a database is. */
static void finds_called(const uint64_t none[7])
{
    enum { USED = 1, NORMAL = 2, OPEN = 1 << 8, IS_TURNED = 1 << 23, WANTS_NONE = IS_TURNED << 1, IS_NOTED = IS_TURNED << 2 };
    is_so(is_served(16, none, 0, 0, 0) && is_served(16, (const uint64_t[7]){4097}, 0, 0, 9), "DconfdbServed");
    is_so(is_served(21, none, 0, 0, 0) && is_served(21, (const uint64_t[7]){[5] = 17}, 0, 0, 9) && is_served(21, (const uint64_t[7]){[6] = 1}, 0, 0, 9), "DconfdbServed");
    is_so(is_served(17, none, 0, 0, 16) && is_served(17, none, 0, NORMAL, 0) && is_served(17, none, 0, NORMAL | IS_TURNED, 16), "DconfdbServed");
    is_so(is_served(18, none, 0, 0, 2) && is_served(18, none, 0, OPEN, 0) && is_served(19, none, 0, 0, 0) && is_served(19, none, 0, WANTS_NONE, 14),
          "DconfdbServed");
    is_so(is_served(20, none, 0, 0, 14) && is_served(20, none, 0, IS_NOTED, 0) && is_served(14, none, 0, USED | IS_NOTED, 9), "DconfdbServed");
    lies("DconfdbServed", "is_turned", SERVED_IS_TURNED, FLAG);
    lies("DconfdbServed", "wants_none", SERVED_WANTS_NONE, FLAG);
    lies("DconfdbServed", "is_noted", SERVED_IS_NOTED, FLAG);
}

/* Of what happens at the end, and before it is written, one field counts, or a few. */
static void finds_ending(const uint64_t none[7], const uint64_t one[7])
{
    enum { EDITS = 4 | 2, ENDS = 32, AMID = 64, SAME = 128, OPEN = 256, PROFILE = 512, SAME_FILE = 1024, HAD_NAME = 2048, BUS_CLOSED = 4096 };
    is_so(is_served(2, none, 0, EDITS, 0) && is_served(2, none, 0, ENDS | EDITS, 2) && is_served(4, none, 0, 0, 8) && is_served(4, none, 0, AMID, 0), "DconfdbServed");
    is_so(is_served(5, none, 0, 0, 9) && is_served(5, none, 0, SAME, 0) && is_served(7, none, 0, 0, 0), "DconfdbServed");
    is_so(is_served(7, one, 0, 0, 8) && is_served(7, (const uint64_t[7]){1, 1, 1, 1, 1}, 0, 0, 12), "DconfdbServed");
    is_so(is_served(6, none, 0, OPEN, 2) && is_served(6, none, 0, PROFILE, 2) && is_served(6, none, 0, OPEN | PROFILE, 11)
              && is_served(6, none, 0, OPEN | PROFILE | SAME_FILE, 10), "DconfdbServed");
    is_so(is_served(8, none, 0, 0, 13) && is_served(8, none, 0, HAD_NAME, 12) && is_served(8, none, 0, BUS_CLOSED, 12), "DconfdbServed");
}

static void finds_served(void)
{
    enum { USED = 1, NORMAL = 2, HAS_EDITS = 4, IS_WRITTEN = 8, IS_CLOSED = 16, PLAIN = NORMAL | HAS_EDITS };
    static const uint64_t few[7] = {1, 1, 1, 1}, large[7] = {67108865, 1, 1, 1}, many[7] = {1, 10000, 1, 1}, full[7] = {1, 1, 268435456, 1},
                          named[7] = {1, 1, 1, 64}, odd[7] = {32769, 1, 1, 1};
    is_so(is_served(0, few, 0, 0, 0) && is_served(0, large, 0, 0, 5) && is_served(0, many, 0, 0, 6) && is_served(0, full, 0, 0, 6), "DconfdbServed");
    is_so(is_served(0, named, 0, 0, 7) && is_served(0, named, 0, USED, 0) && is_served(1, odd, 0, 0, 4) && is_served(1, odd, 0, NORMAL, 0),
          "DconfdbServed");
    is_so(is_served(2, few, 0, PLAIN, 0) && is_served(2, few, 1, PLAIN, 2) && is_served(2, few, 1, NORMAL, 1), "DconfdbServed");
    is_so(is_served(2, few, 0, PLAIN | IS_WRITTEN, 1) && is_served(2, few, 0, PLAIN | IS_WRITTEN | IS_CLOSED, 3), "DconfdbServed");
    lies("DconfdbServed", "size", SERVED_SIZE, WORD);
    lies("DconfdbServed", "waiting", SERVED_WAITING, WORD);
    lies("DconfdbServed", "waiting_size", SERVED_WAITING_SIZE, WORD);
    lies("DconfdbServed", "names", SERVED_NAMES, WORD);
    lies("DconfdbServed", "answered", SERVED_ANSWERED, WORD);
    lies("DconfdbServed", "edits", SERVED_EDITS, WORD);
    lies("DconfdbServed", "resets", SERVED_RESETS, WORD);
    lies("DconfdbServed", "said", SERVED_SAID, NUMBER);
    lies("DconfdbServed", "is_used", SERVED_IS_USED, FLAG);
    lies("DconfdbServed", "is_normal", SERVED_IS_NORMAL, FLAG);
    lies("DconfdbServed", "has_edits", SERVED_HAS_EDITS, FLAG);
    lies("DconfdbServed", "is_written", SERVED_IS_WRITTEN, FLAG);
    lies("DconfdbServed", "is_closed", SERVED_IS_CLOSED, FLAG);
    finds_ending((const uint64_t[7]){0}, few);
    finds_sent(few);
    finds_called(few);
    lies("DconfdbServed", "ends", SERVED_ENDS, FLAG);
    lies("DconfdbServed", "is_amid", SERVED_IS_AMID, FLAG);
    lies("DconfdbServed", "is_same", SERVED_IS_SAME, FLAG);
    lies("DconfdbServed", "is_open", SERVED_IS_OPEN, FLAG);
    lies("DconfdbServed", "is_profile_open", SERVED_IS_PROFILE_OPEN, FLAG);
    lies("DconfdbServed", "has_same_file", SERVED_HAS_SAME_FILE, FLAG);
    lies("DconfdbServed", "had_name", SERVED_HAD_NAME, FLAG);
    lies("DconfdbServed", "is_bus_closed", SERVED_IS_BUS_CLOSED, FLAG);
    printf("TAKES(DconfdbServed, %d);\n", SERVED);
}

/* What is known of a fault is read alone: the numbers, and the fields of which these are so. */
enum { MET_OF = 0, MET_NUMBER = 4, MET_TOLD = 8, MET_OUTCOME = 12, MET_WAIT = 16, MET_LOOKED = 20, MET_ASKED = 24, MET_FLAGS = 28, MET_IS_THERE = 28,
       MET_HAS_USER = 29, MET_HAS_TEXT = 30, MET_HAS_LINE = 31, MET_HAS_RULE = 32, MET_HAS_ITEM = 33, MET_HAS_EDIT = 34, MET_IS_GIVEN = 35, MET = 36 };

/* The sentence of them: which it is, its code, errno and outcome, and what it names. */
static bool is_said(const uint32_t numbers[7], unsigned fields, const uint32_t said[5], bool is_placed)
{
    _Alignas(16) uint8_t met[MET] = {0};
    Written sentence = room_of("DconfdbSentence");
    memcpy(met, numbers, MET_FLAGS);
    for (int i = 0; i < MET_IS_GIVEN + 1 - MET_FLAGS; i++)
        met[MET_FLAGS + i] = fields >> i & 1;
    dconfdb_sentence(met, sentence.bytes);
    return memcmp(sentence.bytes, said, 5 * NUMBER) == 0 && sentence.bytes[5 * NUMBER] == is_placed && sentence.bytes[6 * NUMBER] == UNTOUCHED;
}

static void finds_sentence(void)
{
    enum { IS_THERE = 1, HAS_USER = 2, HAS_TEXT = 4, HAS_LINE = 8, HAS_RULE = 16, HAS_ITEM = 32, HAS_EDIT = 64, IS_GIVEN = 128 };
    static const uint32_t no_memory[7] = {0, 12}, busy[7] = {1, 11, 0, 0, 10000}, soon[7] = {1, 11, 0, 0, 7}, fails[7] = {1, 13},
                          unlooked[7] = {1, 13, 0, 0, 0, 13}, call[7] = {2, 7}, ended[7] = {3, 5, 3, 2}, edits[7] = {4, 13}, expected[7] = {8, 0},
                          home[7] = {5, 13, 0, 0, 0, 0, 2}, folder[7] = {5, 13};
    is_so(is_said(no_memory, 0, (const uint32_t[5]){2, 1, 0, 1, 0}, false) && is_said(busy, HAS_USER, (const uint32_t[5]){6, 65, 0, 1, 0}, true)
              && is_said(soon, 0, (const uint32_t[5]){7, 65, 0, 1, 2}, true),
          "DconfdbFaultMet");
    is_so(is_said(fails, IS_THERE, (const uint32_t[5]){4, 64, 13, 1, 1}, true) && is_said(unlooked, IS_THERE, (const uint32_t[5]){4, 64, 13, 1, 2}, true),
          "DconfdbFaultMet");
    is_so(is_said(call, HAS_TEXT, (const uint32_t[5]){13, 7, 0, 1, 0}, true) && is_said(call, HAS_TEXT | HAS_LINE, (const uint32_t[5]){14, 7, 0, 1, 0}, true)
              && is_said(call, HAS_RULE, (const uint32_t[5]){15, 7, 0, 1, 0}, true) && is_said(call, HAS_RULE | HAS_ITEM, (const uint32_t[5]){16, 7, 0, 1, 0}, true),
          "DconfdbFaultMet");
    is_so(is_said(ended, HAS_USER, (const uint32_t[5]){8, 64, 5, 2, 0}, true), "DconfdbSentence");
    is_so(is_said(edits, HAS_USER, (const uint32_t[5]){12, 13, 0, 1, 0}, true) && is_said(edits, HAS_EDIT, (const uint32_t[5]){12, 13, 0, 1, 3}, true),
          "DconfdbFaultMet");
    is_so(is_said(expected, 0, (const uint32_t[5]){24, 67, 0, 1, 3}, true), "DconfdbFaultMet");
    is_so(is_said(home, 0, (const uint32_t[5]){4, 64, 13, 1, 4}, true) && is_said(folder, 0, (const uint32_t[5]){4, 64, 13, 1, 5}, true)
              && is_said(home, IS_GIVEN, (const uint32_t[5]){4, 64, 13, 1, 0}, true),
          "DconfdbFaultMet");
    lies("DconfdbFaultMet", "of", MET_OF, NUMBER);
    lies("DconfdbFaultMet", "number", MET_NUMBER, NUMBER);
    lies("DconfdbFaultMet", "told", MET_TOLD, NUMBER);
    lies("DconfdbFaultMet", "outcome", MET_OUTCOME, NUMBER);
    lies("DconfdbFaultMet", "wait", MET_WAIT, NUMBER);
    lies("DconfdbFaultMet", "looked", MET_LOOKED, NUMBER);
    lies("DconfdbFaultMet", "asked", MET_ASKED, NUMBER);
    lies("DconfdbFaultMet", "is_there", MET_IS_THERE, FLAG);
    lies("DconfdbFaultMet", "has_user", MET_HAS_USER, FLAG);
    lies("DconfdbFaultMet", "has_text", MET_HAS_TEXT, FLAG);
    lies("DconfdbFaultMet", "has_line", MET_HAS_LINE, FLAG);
    lies("DconfdbFaultMet", "has_rule", MET_HAS_RULE, FLAG);
    lies("DconfdbFaultMet", "has_item", MET_HAS_ITEM, FLAG);
    lies("DconfdbFaultMet", "has_edit", MET_HAS_EDIT, FLAG);
    lies("DconfdbFaultMet", "is_given", MET_IS_GIVEN, FLAG);
    printf("TAKES(DconfdbFaultMet, %d);\n", MET);
    lies("DconfdbSentence", "says", 0, NUMBER);
    lies("DconfdbSentence", "code", NUMBER, NUMBER);
    lies("DconfdbSentence", "errnum", 2 * NUMBER, NUMBER);
    lies("DconfdbSentence", "outcome", 3 * NUMBER, NUMBER);
    lies("DconfdbSentence", "names", 4 * NUMBER, NUMBER);
    lies("DconfdbSentence", "is_placed", 5 * NUMBER, FLAG);
    printf("TAKES(DconfdbSentence, %d);\n", 6 * NUMBER);
}

void finds_faults(void)
{
    finds_progress();
    finds_failing();
    finds_seen();
    finds_telling();
    finds_served();
    finds_sentence();
}
