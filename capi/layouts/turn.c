/* A turn to change a file, a look at the files, and what is known of a file. */
#include "layouts.h"

#include <stdio.h>
#include <string.h>

void dconfdb_turn_begin(void *turn, void *step);
void dconfdb_turn_answered(void *turn, uint32_t fault, size_t n, void *step);
void dconfdb_refresh_begin(void *refresh, size_t count, bool has_old, bool in_turn, bool is_lenient, void *step);
uint32_t dconfdb_same_file(const void *old, const void *now, uint64_t opened, bool is_held);
uint32_t dconfdb_owner_and_bits(const void *old, const void *above, bool is_root, bool is_bad, void *given);
uint32_t dconfdb_fault_answer(uint32_t call, uint32_t fault, void *renamed);
uint32_t dconfdb_handing_after(uint32_t what, uint32_t done, uint32_t fault, const void *file, uint32_t *number);
uint32_t dconfdb_standing(uint32_t purpose, const void *stood, uint32_t *fault);
void dconfdb_refresh_answered(void *refresh, bool yes, uint32_t fault, void *step);
uint32_t dconfdb_beside(uint32_t purpose, const void *old, const void *now, const void *seen);
uint32_t dconfdb_notes_written(const void *notes, size_t n, uint64_t moment, uint64_t time, const uint8_t *left, size_t left_len, const uint8_t *name,
                               size_t name_len, const void *file, bool is_synced, uint8_t *room, size_t room_len, size_t *len);

/* ---- a turn, and its steps: of a new file of 7,777 bytes, of which 1,234 are written */

enum { BITS = 63, SET_ASIDE = 512, NO_BITS = 1024, WHOLE = 7777, PART = 1234 };
enum { REMOVING = 10, KEPT = 1, APPEND = 4, DONE = 14 };

/* A turn that came so far, whose read was answered so; and its step. */
static Written turn_at(size_t read, Written *step)
{
    Written turn = room_of("DconfdbTurn");
    const size_t answers[] = {0, read, WHOLE, 0, PART};
    dconfdb_turn_begin(turn.bytes, step->bytes);
    for (size_t i = 0; i < sizeof answers / sizeof answers[0]; i++)
        dconfdb_turn_answered(turn.bytes, 0, answers[i], step->bytes);
    return turn;
}

static Written turn_of(size_t read)
{
    Written step = room_of("DconfdbStep");
    return turn_at(read, &step);
}

static void fails(Written *turn)
{
    Written step = room_of("DconfdbStep");
    dconfdb_turn_answered(turn->bytes, FAULT, 0, step.bytes);
}

static void finds_turn(void)
{
    Written one = turn_of(BITS), chosen = turn_of(NO_BITS), keeps = turn_of(SET_ASIDE + BITS);
    fails(&one);
    fails(&keeps);
    fails(&chosen);
    /* First: a flag before bytes that nobody uses may look like a number. */
    takes(&one, "has_bits", flag_of(&one, &chosen), FLAG);
    takes(&one, "keeps", flag_of(&keeps, &one), FLAG);
    finds_number(&one, "state", REMOVING);
    finds_number(&one, "outcome", KEPT);
    finds_number(&one, "fault", FAULT);
    finds_number(&one, "bits", BITS);
    finds_word(&one, "len", WHOLE);
    finds_word(&one, "at", PART);
    Written left = one;
    fails(&left);
    takes(&one, "leaves_new", flag_of(&left, &one), FLAG);
    ends(&one);
}

static void finds_step(void)
{
    Written append = room_of("DconfdbStep"), sync = append, done = append, turn = turn_at(BITS, &append);
    dconfdb_turn_answered(turn.bytes, 0, WHOLE - PART, sync.bytes);
    for (size_t i = 0; i < 3; i++)
        dconfdb_turn_answered(turn.bytes, FAULT, 0, done.bytes);
    finds_number(&append, "kind", APPEND);
    finds_word(&append, "number", PART);
    uint32_t fault = FAULT;
    takes(&append, "fault", place_of(&done, 0, ROOM, &fault, NUMBER), NUMBER);
    takes(&append, "has_number", flag_of(&sync, &append), FLAG);
    ends(&append);
}

/* A look at nine files without an old snapshot, at the one after the sixth; and two of which nothing is done. */
static void finds_refresh(void)
{
    Written look = room_of("DconfdbRefresh"), step = room_of("DconfdbNext"), in_turn = look, plain = look, lenient = look;
    dconfdb_refresh_begin(in_turn.bytes, 9, true, true, false, step.bytes);
    dconfdb_refresh_begin(plain.bytes, 9, true, false, false, step.bytes);
    dconfdb_refresh_begin(lenient.bytes, 9, true, false, true, step.bytes);
    dconfdb_refresh_begin(look.bytes, 9, false, false, false, step.bytes);
    for (int i = 0; i < 12; i++)
        dconfdb_refresh_answered(look.bytes, true, 0, step.bytes);
    finds_first(&look, "stage", 1);
    finds_word(&look, "at", 6);
    finds_word(&look, "count", 9);
    size_t from = look.end, to = from + 4;
    takes(&look, "has_old", bit_of(&look, &plain, from, to, 0, 1), FLAG);
    takes(&look, "in_turn", bit_of(&in_turn, &plain, from, to, 1, 0), FLAG);
    takes(&look, "is_lenient", bit_of(&lenient, &plain, from, to, 1, 0), FLAG);
    takes(&look, "is_newer", bit_of(&look, &plain, from, to, 1, 0), FLAG);
    ends(&look);
    finds_first(&step, "kind", 1);
    finds_word(&step, "number", 6);
    ends(&step);
}

/* ---- files: a stamp is read alone, and each field but the last makes another file */

enum { STAMP_SIZE = 64, IS_THERE = 56 };

static void tries_stamp(void)
{
    static const char *const words[] = {"device", "inode", "size"};
    _Alignas(16) uint8_t old[STAMP_SIZE] = {0}, now[STAMP_SIZE];
    old[IS_THERE] = 1;
    for (size_t at = 0; at < IS_THERE; at += WORD) {
        memcpy(now, old, STAMP_SIZE);
        is_so(dconfdb_same_file(old, now, UINT64_MAX, false) == 0, "DconfdbFileStamp");
        now[at] = 1;
        is_so(dconfdb_same_file(old, now, UINT64_MAX, false) == 1, "DconfdbFileStamp");
    }
    for (size_t i = 0; i < sizeof words / sizeof words[0]; i++)
        lies("DconfdbFileStamp", words[i], i * WORD, WORD);
    uint64_t second = 1, nanosecond = 7;
    memcpy(old + 40, &second, WORD);
    memcpy(old + 48, &nanosecond, WORD);
    is_so(dconfdb_same_file(old, old, 1010000006, false) == 2 && dconfdb_same_file(old, old, 1010000007, false) == 0, "DconfdbFileStamp");
    lies("DconfdbFileStamp", "written", 24, 2 * WORD);
    lies("DconfdbFileStamp", "touched", 40, 2 * WORD);
    lies("DconfdbFileStamp", "is_there", IS_THERE, FLAG);
    printf("TAKES(DconfdbFileStamp, %d);\n", STAMP_SIZE);
    lies("DconfdbFileTime", "seconds", 0, WORD);
    lies("DconfdbFileTime", "nanoseconds", WORD, WORD);
}

/* What is known of a file of which something was made, each field of which makes it another one, or the same. */
enum { OPENED = 0, LOOK_FAULT = 8, WAS_CODE = 12, WAS_ERRNUM = 16, READ_CODE = 20, READ_ERRNUM = 24, HELD = 28, HAS_BYTES = 29, PART_SEEN = 32 };
enum { TO_KEEP, TO_TAKE };

/* What the file is, of which these bytes are known beside the moment. */
static uint32_t is_beside(uint32_t purpose, uint64_t opened, size_t one, size_t other, bool is_touched)
{
    _Alignas(16) uint8_t old[STAMP_SIZE] = {0}, now[STAMP_SIZE], seen[PART_SEEN] = {0};
    uint64_t second = 1, nanosecond = 7;
    old[IS_THERE] = 1;
    memcpy(old + 40, &second, WORD);
    memcpy(old + 48, &nanosecond, WORD);
    memcpy(now, old, STAMP_SIZE);
    now[48] += is_touched;
    memcpy(seen + OPENED, &opened, WORD);
    if (one != OPENED)
        seen[one] = seen[other] = 1;
    return dconfdb_beside(purpose, old, now, seen);
}

static void tries_part(void)
{
    enum { SAME, OTHER, IF_READABLE, LATER = 1010000007 };
    bool are = is_beside(TO_KEEP, LATER, OPENED, OPENED, false) == SAME && is_beside(TO_KEEP, LATER - 1, OPENED, OPENED, false) == OTHER;
    are = are && is_beside(TO_KEEP, LATER, LOOK_FAULT, LOOK_FAULT, false) == OTHER && is_beside(TO_KEEP, 0, HELD, HELD, true) == IF_READABLE;
    are = are && is_beside(TO_TAKE, 0, HAS_BYTES, HAS_BYTES, false) == SAME && is_beside(TO_TAKE, 0, HAS_BYTES, WAS_CODE, false) == OTHER;
    are = are && is_beside(TO_TAKE, 0, WAS_CODE, READ_CODE, false) == SAME && is_beside(TO_TAKE, 0, READ_CODE, HAS_BYTES, false) == OTHER;
    is_so(are, "DconfdbPartSeen");
    lies("DconfdbPartSeen", "opened", OPENED, WORD);
    lies("DconfdbPartSeen", "fault", LOOK_FAULT, NUMBER);
    lies("DconfdbPartSeen", "code", WAS_CODE, NUMBER);
    lies("DconfdbPartSeen", "errnum", WAS_ERRNUM, NUMBER);
    lies("DconfdbPartSeen", "read_code", READ_CODE, NUMBER);
    lies("DconfdbPartSeen", "read_errnum", READ_ERRNUM, NUMBER);
    lies("DconfdbPartSeen", "is_held", HELD, FLAG);
    lies("DconfdbPartSeen", "has_bytes", HAS_BYTES, FLAG);
    printf("TAKES(DconfdbPartSeen, %d);\n", PART_SEEN);
}

/* Which word of it is which: the record of a file that is left has its words in this order, behind a number for the name. */
static void tries_left(void)
{
    _Alignas(16) uint8_t stamp[STAMP_SIZE] = {0};
    enum { BEFORE_FILES = 64, NOTES = 128 };
    uint8_t notes[NOTES];
    size_t len = 0;
    uint64_t words[] = {1, 2, 3, 4, 5}, entry[7];
    memcpy(stamp, words, sizeof words);
    stamp[IS_THERE] = 1;
    is_so(dconfdb_notes_written(stamp, 0, 0, 0, stamp, 0, stamp, 0, stamp, true, notes, NOTES, &len) == 0 && len == NOTES, "DconfdbFileStamp");
    memcpy(entry, notes + BEFORE_FILES, sizeof entry);
    is_so(memcmp(entry + 1, words, sizeof words) == 0 && entry[6] == 1, "DconfdbFileStamp");
}

/* A link that is root's own, and one that is not; what was read, and what was not. */
enum { OLD_USER = 0, OLD_GROUP = 4, OLD_BITS = 8, OLD_IS_THERE = 12, OLD_IS_REGULAR = 13, OLD_IS_LINK = 14, OLD_IS_READ = 15, OLD_SIZE = 16 };

static void finds_owner(void)
{
    const uint32_t above[] = {11, 12}, numbers[] = {21, 22, 0751};
    _Alignas(16) uint8_t old[OLD_SIZE] = {0};
    Written first = room_of("DconfdbNewFile"), given = first;
    is_so(dconfdb_owner_and_bits(old, above, true, false, first.bytes) == 0, "DconfdbFileOwner");
    finds_number(&first, "user", 11);
    finds_number(&first, "group", 12);
    finds_number(&first, "bits", 0600);
    ends(&first);
    lies("DconfdbFileOwner", "user", 0, NUMBER);
    lies("DconfdbFileOwner", "group", NUMBER, NUMBER);
    printf("TAKES(DconfdbFileOwner, %d);\n", 2 * NUMBER);
    memcpy(old, numbers, sizeof numbers);
    old[OLD_IS_THERE] = old[OLD_IS_REGULAR] = 1;
    is_so(dconfdb_owner_and_bits(old, above, true, false, given.bytes) == 11, "DconfdbOldFile");
    old[OLD_IS_READ] = 1;
    is_so(dconfdb_owner_and_bits(old, above, true, false, given.bytes) == 0, "DconfdbOldFile");
    is_so(memcmp(given.bytes, numbers, sizeof numbers) == 0, "DconfdbOldFile");
    old[OLD_IS_LINK] = 1;
    is_so(dconfdb_owner_and_bits(old, above, true, true, given.bytes) == 13 && dconfdb_owner_and_bits(old, above, true, false, given.bytes) == 40,
          "DconfdbOldFile");
    lies("DconfdbOldFile", "user", OLD_USER, NUMBER);
    lies("DconfdbOldFile", "group", OLD_GROUP, NUMBER);
    lies("DconfdbOldFile", "bits", OLD_BITS, NUMBER);
    lies("DconfdbOldFile", "is_there", OLD_IS_THERE, FLAG);
    lies("DconfdbOldFile", "is_regular", OLD_IS_REGULAR, FLAG);
    lies("DconfdbOldFile", "is_link", OLD_IS_LINK, FLAG);
    lies("DconfdbOldFile", "is_read", OLD_IS_READ, FLAG);
    printf("TAKES(DconfdbOldFile, %d);\n", OLD_SIZE);
}

/* ---- what was made is read alone: a file of 0644 for user 9 and group 8, made by user 7 in a folder of that group */

enum { MADE_WANTED = 0, MADE_MADE = 12, MADE_ABOVE = 24, MADE_GIVES_GROUP = 28, MADE_IS_ROOT = 29, MADE_IS_BESIDE = 30, MADE_IS_EMPTY = 31, MADE = 32 };
enum { OWNER_GROUP = 4, OWNER_BITS = 8 };
enum { A_LOCK, A_FILE, A_FOLDER };

/* The step after that one if this field is another number. */
static uint32_t hands(uint32_t what, uint32_t done, size_t at, size_t width, uint32_t other, uint32_t *number)
{
    const uint32_t numbers[] = {9, 8, 0644, 7, 8, 0644, 8};
    _Alignas(16) uint8_t made[MADE] = {0};
    memcpy(made, numbers, sizeof numbers);
    memcpy(made + at, &other, width);
    return dconfdb_handing_after(what, done, 0, made, number);
}

/* The bits with which a file of 0640 and group 8 is made. */
static uint32_t first_bits(uint32_t above, uint32_t maker, uint8_t gives_group)
{
    const uint32_t numbers[] = {7, 8, 0640, 7, maker, 0, above};
    _Alignas(16) uint8_t made[MADE] = {[MADE_GIVES_GROUP] = gives_group};
    uint32_t number = 0;
    memcpy(made, numbers, sizeof numbers);
    dconfdb_handing_after(A_FILE, 0, 0, made, &number);
    return number;
}

/* The step after root made a folder. */
static uint32_t hands_folder(uint8_t is_beside, uint8_t is_empty)
{
    _Alignas(16) uint8_t made[MADE] = {[MADE_IS_BESIDE] = is_beside, [MADE_IS_EMPTY] = is_empty};
    uint32_t number;
    return dconfdb_handing_after(A_FOLDER, 1, 0, made, &number);
}

static void finds_made(void)
{
    uint32_t number = 1;
    is_so(hands(A_FILE, 1, MADE_IS_ROOT, FLAG, 0, &number) == 6 && number == 0, "DconfdbMadeFile");
    is_so(hands(A_FILE, 1, MADE_IS_ROOT, FLAG, 1, &number) == 4 && hands(A_LOCK, 1, MADE_WANTED + OWNER_BITS, NUMBER, 0755, &number) == 5 && number == 0600,
          "DconfdbMadeFile");
    is_so(hands(A_FILE, 1, MADE_WANTED + OWNER_BITS, NUMBER, 0640, &number) == 5 && number == 0640, "DconfdbMadeFile");
    is_so(hands(A_FILE, 1, MADE_MADE + OWNER_BITS, NUMBER, 0640, &number) == 5 && number == 0644, "DconfdbMadeFile");
    is_so(hands(A_FILE, 1, MADE_WANTED + OWNER_GROUP, NUMBER, 9, &number) == 3 && hands(A_FILE, 1, MADE_MADE + OWNER_GROUP, NUMBER, 9, &number) == 3,
          "DconfdbMadeFile");
    is_so(hands(A_FILE, 0, MADE_WANTED + OWNER_BITS, NUMBER, 0640, &number) == 1 && number == 0640, "DconfdbMadeFile");
    is_so(hands(A_FILE, 0, MADE_ABOVE, NUMBER, 9, &number) == 1 && number == 0644 && hands(A_FILE, 0, MADE_GIVES_GROUP, FLAG, 1, &number) == 1,
          "DconfdbMadeFile");
    is_so(first_bits(9, 8, 0) == 0600 && first_bits(8, 9, 0) == 0600 && first_bits(8, 9, 1) == 0640, "DconfdbMadeFile");
    is_so(hands_folder(1, 1) == 4 && hands_folder(0, 1) == 7 && hands_folder(1, 0) == 7, "DconfdbMadeFile");
    lies("DconfdbMadeFile", "wanted", MADE_WANTED, 3 * NUMBER);
    lies("DconfdbMadeFile", "made", MADE_MADE, 3 * NUMBER);
    lies("DconfdbMadeFile", "above", MADE_ABOVE, NUMBER);
    lies("DconfdbMadeFile", "gives_group", MADE_GIVES_GROUP, FLAG);
    lies("DconfdbMadeFile", "is_root", MADE_IS_ROOT, FLAG);
    lies("DconfdbMadeFile", "is_beside", MADE_IS_BESIDE, FLAG);
    lies("DconfdbMadeFile", "is_empty", MADE_IS_EMPTY, FLAG);
    printf("TAKES(DconfdbMadeFile, %d);\n", MADE);
}

/* ---- a file of root's, of 65,537 bytes, with one name, that is read, is a lock, or has links in it */

enum { STOOD_FAULT = 0, STOOD_MODE = 4, STOOD_USER = 8, STOOD_LINKS = 16, STOOD_LEN = 24, STOOD_MOST = 32, STOOD_TRIED = 40, STOOD_MAY_MAP = 48,
       STOOD_MAY_STOP = 49, STOOD_IS_NAMED = 50, STOOD_IS_MOVED = 51, STOOD_IS_ROOT = 52, STOOD_MAY_MAKE = 53, STOOD = 56 };
enum { TO_READ = 2, TO_HOLD = 4, TO_FOLLOW = 5, TO_ENTER = 14, LINKS = 40 };

/* What becomes of it if it is of that user, and this field is another number. */
static uint32_t stands(uint32_t purpose, uint32_t user, size_t at, size_t width, uint64_t number)
{
    static const uint32_t mode = 0100600;
    static const uint64_t links = 1, len = 65537;
    _Alignas(16) uint8_t stood[STOOD] = {[STOOD_IS_NAMED] = 1, [STOOD_IS_ROOT] = 1};
    uint32_t fault;
    memcpy(stood + STOOD_MODE, &mode, NUMBER);
    memcpy(stood + STOOD_USER, &user, NUMBER);
    memcpy(stood + STOOD_LINKS, &links, WORD);
    memcpy(stood + STOOD_LEN, &len, WORD);
    memcpy(stood + STOOD_MOST, &len, WORD);
    memcpy(stood + at, &number, width);
    return dconfdb_standing(purpose, stood, &fault);
}

/* What becomes of a folder that is missing. */
static uint32_t enters(uint8_t may_make)
{
    static const uint32_t missing = 2;
    _Alignas(16) uint8_t stood[STOOD] = {[STOOD_MAY_MAKE] = may_make};
    uint32_t fault;
    memcpy(stood + STOOD_FAULT, &missing, NUMBER);
    return dconfdb_standing(TO_ENTER, stood, &fault);
}

static void finds_stood(void)
{
    is_so(stands(TO_READ, 7, STOOD_FAULT, NUMBER, 0) == 0 && stands(TO_READ, 7, STOOD_FAULT, NUMBER, FAULT) == 5, "DconfdbStood");
    is_so(stands(TO_READ, 7, STOOD_MODE, NUMBER, 040600) == 5 && stands(TO_READ, 7, STOOD_LEN, WORD, 0) == 1, "DconfdbStood");
    is_so(stands(TO_READ, 7, STOOD_MOST, WORD, 65536) == 5 && stands(TO_READ, 7, STOOD_MAY_MAP, FLAG, 1) == 2, "DconfdbStood");
    is_so(stands(TO_READ, 7, STOOD_MAY_STOP, FLAG, 1) == 3 && stands(TO_HOLD, 7, STOOD_FAULT, NUMBER, 0) == 0, "DconfdbStood");
    is_so(stands(TO_HOLD, 7, STOOD_LINKS, WORD, 2) == 4 && stands(TO_HOLD, 7, STOOD_IS_NAMED, FLAG, 0) == 1, "DconfdbStood");
    is_so(stands(TO_HOLD, 7, STOOD_IS_MOVED, FLAG, 1) == 1, "DconfdbStood");
    is_so(stands(TO_FOLLOW, 7, STOOD_FAULT, NUMBER, 0) == 5 && stands(TO_FOLLOW, 7, STOOD_IS_ROOT, FLAG, 0) == 0, "DconfdbStood");
    is_so(stands(TO_FOLLOW, 0, STOOD_FAULT, NUMBER, 0) == 0 && stands(TO_FOLLOW, 0, STOOD_TRIED, WORD, LINKS) == 5, "DconfdbStood");
    is_so(stands(TO_FOLLOW, 0, STOOD_TRIED, WORD, LINKS - 1) == 0, "DconfdbStood");
    printf("_Static_assert(DCONFDB_MOST_LINKS == %d, \"other links are the last in the proved calls\");\n", LINKS);
    is_so(stands(TO_ENTER, 2, STOOD_FAULT, NUMBER, 2) == 5 && enters(1) == 1 && enters(0) == 5, "DconfdbStood");
    lies("DconfdbStood", "fault", STOOD_FAULT, NUMBER);
    lies("DconfdbStood", "mode", STOOD_MODE, NUMBER);
    lies("DconfdbStood", "user", STOOD_USER, NUMBER);
    lies("DconfdbStood", "links", STOOD_LINKS, WORD);
    lies("DconfdbStood", "size", STOOD_LEN, WORD);
    lies("DconfdbStood", "most", STOOD_MOST, WORD);
    lies("DconfdbStood", "tried", STOOD_TRIED, WORD);
    lies("DconfdbStood", "may_map", STOOD_MAY_MAP, FLAG);
    lies("DconfdbStood", "may_stop", STOOD_MAY_STOP, FLAG);
    lies("DconfdbStood", "is_named", STOOD_IS_NAMED, FLAG);
    lies("DconfdbStood", "is_moved", STOOD_IS_MOVED, FLAG);
    lies("DconfdbStood", "is_root", STOOD_IS_ROOT, FLAG);
    lies("DconfdbStood", "may_make", STOOD_MAY_MAKE, FLAG);
    printf("TAKES(DconfdbStood, %d);\n", STOOD);
}

/* ---- a name that is given to another file: what has it can have none (EPERM), and of a fault of the disk (EIO) nobody knows which it is */

enum { RENAMED_FAULT = 0, RENAMED_IS_NAMELESS = 4, RENAMED_IS_ASIDE = 5, RENAMED_GOES = 6, RENAMED = 8 };
enum { SETS_ASIDE = 2, PLACES = 3 };

static bool is_renamed(uint32_t call, uint32_t errnum, uint32_t fault, bool is_nameless, bool is_aside, bool goes)
{
    Written it = room_of("DconfdbRenamed");
    dconfdb_fault_answer(call, errnum, it.bytes);
    return memcmp(it.bytes + RENAMED_FAULT, &fault, NUMBER) == 0 && it.bytes[RENAMED_IS_NAMELESS] == is_nameless && it.bytes[RENAMED_IS_ASIDE] == is_aside
        && it.bytes[RENAMED_GOES] == goes && it.bytes[RENAMED] == UNTOUCHED;
}

static void finds_renamed(void)
{
    is_so(is_renamed(SETS_ASIDE, 1, 0, true, false, false) && is_renamed(SETS_ASIDE, 0, 0, false, true, false) && is_renamed(PLACES, 95, 95, false, false, true)
              && is_renamed(PLACES, 5, 5, false, false, false),
          "DconfdbRenamed");
    lies("DconfdbRenamed", "fault", RENAMED_FAULT, NUMBER);
    lies("DconfdbRenamed", "is_nameless", RENAMED_IS_NAMELESS, FLAG);
    lies("DconfdbRenamed", "is_aside", RENAMED_IS_ASIDE, FLAG);
    lies("DconfdbRenamed", "goes", RENAMED_GOES, FLAG);
    printf("TAKES(DconfdbRenamed, %d);\n", RENAMED);
}

void finds_turns(void)
{
    finds_turn();
    finds_step();
    finds_refresh();
    tries_stamp();
    tries_part();
    tries_left();
    finds_owner();
    finds_renamed();
    finds_made();
    finds_stood();
}
