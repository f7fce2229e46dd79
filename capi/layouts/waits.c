/* What waits: for a lock, to be written, and to be looked at. */
#include "layouts.h"
#include <stdio.h>
#include <string.h>

uint32_t dconfdb_entry(const void *edits, size_t count, bool *is_there);
uint32_t dconfdb_found(bool of_user, bool of_default, const void *known, bool *is_odd);
size_t dconfdb_waiting_line(void *line, size_t count, bool is_written, void *tally);
bool dconfdb_patience_goes_on(void *patience, const void *progress, const void *changed, uint64_t now);
void dconfdb_queue_answered(void *queue, void *edits, size_t count, uint32_t answer, size_t at, void *step);
void dconfdb_wait_begin(void *wait, uint32_t what, uint32_t longest, uint64_t now, void *step);
void dconfdb_wait_answered(void *wait, uint32_t tried, uint32_t fault, uint64_t at, void *step);
void dconfdb_taking_answered(void *taking, const void *stood);
uint32_t dconfdb_notice_told(void *notice, uint32_t what, uint32_t event, bool listens, uint64_t now);
uint64_t dconfdb_notice_answered(void *notice, bool yes, uint64_t now);
void dconfdb_watched_name(bool minds, const uint8_t *folder, size_t folder_len, const uint8_t *name, size_t name_len, bool is_last, bool is_unseen,
                          uint32_t mode, uint64_t links, uint64_t followed, bool is_profile, void *watched);
uint32_t dconfdb_watch_round(void *rounds, uint32_t what, bool is_known, bool is_had, bool is_needed);

/* The first has an end, the second hasn't. */
static void finds_wait(void)
{
    Written wait = room_of("DconfdbWait"), endless = wait, step = room_of("DconfdbNext");
    dconfdb_wait_begin(wait.bytes, 0, 10, 70, step.bytes);
    dconfdb_wait_answered(wait.bytes, 3, 28, 80, step.bytes);
    dconfdb_wait_begin(endless.bytes, 1, 10, 70, step.bytes);
    finds_number(&wait, "stage", 4);
    finds_number(&wait, "fault", 28);
    finds_word(&wait, "longest", 10);
    finds_word(&wait, "tries", 50);
    finds_word(&wait, "began", 70);
    finds_word(&wait, "paused", 0);
    finds_number(&wait, "tried", 3);
    takes(&wait, "is_timed", bit_of(&wait, &endless, wait.end, wait.end + 1, 1, 0), FLAG);
    ends(&wait);
}

/* What the system says in a try to take a lock. */
typedef struct { uint32_t fault, mode; } Said;

/* A try of which so much was said. */
static Written taking_by(const Said *said, size_t count)
{
    enum { MAY_MAKE = 53, STOOD = 56, TAKING = 24 };
    _Alignas(16) uint8_t stood[STOOD] = {[MAY_MAKE] = 1};
    Written taking = room_of("DconfdbTaking");
    memset(taking.bytes, 0, TAKING);
    dconfdb_taking_answered(taking.bytes, stood);
    for (size_t i = 0; i < count; i++) {
        memcpy(stood, &said[i], sizeof *said);
        dconfdb_taking_answered(taking.bytes, stood);
    }
    return taking;
}

/* Of the first the folder was made, two children of fork() and then others were in the way five times, and the disk was full; of the second the
 * lock's name was another's. */
static void finds_taking(void)
{
    enum { MISSING = 2, FORKED = 11, EXISTS = 17, FULL = 28, REGULAR = 0100600 };
    static const Said made[] = {{MISSING, 0}, {0, 0}, {0, 0}, {0, REGULAR}, {FORKED, 0}, {0, 0}, {0, 0}, {0, REGULAR}, {FORKED, 0}, {0, 0}, {0, 0}, {MISSING, 0}, {0, 0}, {EXISTS, 0}, {MISSING, 0},
                                {0, 0}, {EXISTS, 0}, {MISSING, 0}, {0, 0}, {EXISTS, 0}, {MISSING, 0}, {0, 0}, {EXISTS, 0}, {MISSING, 0}, {0, 0}, {EXISTS, 0}, {MISSING, 0}, {0, 0}, {FULL, 0}};
    static const Said moved[] = {{0, 0}, {0, REGULAR}, {0, 0}, {0, 0}, {0, REGULAR}};
    Written taking = taking_by(made, sizeof made / sizeof *made), again = taking_by(moved, sizeof moved / sizeof *moved);
    finds_number(&taking, "task", 15);
    finds_number(&taking, "tried", 3);
    finds_number(&taking, "fault", FULL);
    finds_number(&taking, "openings", 5);
    finds_number(&taking, "forks", 2);
    size_t from = taking.end;
    takes(&taking, "has_made", bit_of(&taking, &again, from, from + 2, 1, 0), FLAG);
    takes(&taking, "is_again", bit_of(&again, &taking, from, from + 2, 1, 0), FLAG);
    ends(&taking);
}

/* New edits are read alone: each field changes what becomes of one, and the second of two lies behind the first. */
enum { NEW_SETS = 0, NEW_MAY = 1, NEW_IS_SAME = 2, NEW_WAITS = 3, NEW_IS_ALONE = 4, NEW_IS_TAKEN = 5, NEW_EDIT = 6 };

/* Of an edit of which these fields are so. */
static uint32_t entry_of(unsigned fields)
{
    uint8_t edit[NEW_EDIT];
    for (int i = 0; i < NEW_EDIT; i++)
        edit[i] = fields >> i & 1;
    bool is_there;
    return dconfdb_entry(edit, 1, &is_there);
}

static void finds_new_edit(void)
{
    enum { A_SET = 1, MAY = 2, SAME = 4, WAITS = 8, ALONE = 16, TAKEN = 32, TWIN = MAY | SAME | WAITS | ALONE };
    uint8_t edits[2 * NEW_EDIT] = {0};
    bool is_there;
    is_so(entry_of(0) == 1 && entry_of(A_SET) == 0 && entry_of(MAY) == 4 && entry_of(MAY | SAME) == 3, "DconfdbNewEdit");
    is_so(entry_of(TWIN) == 2 && entry_of(TWIN | A_SET) == 2 && entry_of(TWIN | TAKEN) == 3, "DconfdbNewEdit");
    is_so(entry_of(TWIN & ~WAITS) == 3 && entry_of(TWIN & ~ALONE) == 3, "DconfdbNewEdit");
    is_so(dconfdb_entry(edits, 2, &is_there) == 1, "DconfdbNewEdit");
    edits[NEW_EDIT + NEW_SETS] = 1;
    is_so(dconfdb_entry(edits, 2, &is_there) == 0, "DconfdbNewEdit");
    lies("DconfdbNewEdit", "sets", NEW_SETS, FLAG);
    lies("DconfdbNewEdit", "may", NEW_MAY, FLAG);
    lies("DconfdbNewEdit", "is_same", NEW_IS_SAME, FLAG);
    lies("DconfdbNewEdit", "waits", NEW_WAITS, FLAG);
    lies("DconfdbNewEdit", "is_alone", NEW_IS_ALONE, FLAG);
    lies("DconfdbNewEdit", "is_taken", NEW_IS_TAKEN, FLAG);
    printf("TAKES(DconfdbNewEdit, %d);\n", NEW_EDIT);
}

/* What is known of a key is read alone, too. */
enum { KNOWN_WAITS = 0, KNOWN_SETS = 1, KNOWN_WRITABLE = 2, KNOWN_MAY = 3, KNOWN_EDIT = 4, KNOWN_STORED = 5, KNOWN = 6 };

/* Of a key of which these fields are so. */
static uint32_t found_of(bool of_user, unsigned fields)
{
    uint8_t known[KNOWN];
    for (int i = 0; i < KNOWN; i++)
        known[i] = fields >> i & 1;
    bool is_odd;
    return dconfdb_found(of_user, false, known, &is_odd);
}

static void finds_known(void)
{
    enum { WAITING = 1, A_SET = 2, USERS = 4, MAY = 8, EDIT_FITS = 16, STORED_FITS = 32, ALL = 63 };
    is_so(found_of(false, ALL) == 2 && found_of(false, ALL & ~WAITING) == 0 && found_of(false, ALL & ~A_SET) == 1, "DconfdbKnown");
    is_so(found_of(false, ALL & ~MAY) == 0 && found_of(false, ALL & ~EDIT_FITS) == 1 && found_of(false, ALL & ~USERS) == 2, "DconfdbKnown");
    is_so(found_of(false, ALL & ~STORED_FITS) == 2 && found_of(false, STORED_FITS) == 0 && found_of(false, 0) == 1, "DconfdbKnown");
    is_so(found_of(true, USERS) == 3 && found_of(true, ALL & ~USERS) == 4, "DconfdbKnown");
    lies("DconfdbKnown", "waits", KNOWN_WAITS, FLAG);
    lies("DconfdbKnown", "sets", KNOWN_SETS, FLAG);
    lies("DconfdbKnown", "writable", KNOWN_WRITABLE, FLAG);
    lies("DconfdbKnown", "may_write", KNOWN_MAY, FLAG);
    lies("DconfdbKnown", "edit_fits", KNOWN_EDIT, FLAG);
    lies("DconfdbKnown", "stored_fits", KNOWN_STORED, FLAG);
    printf("TAKES(DconfdbKnown, %d);\n", KNOWN);
}

static void finds_patience(void)
{
    Written patience = room_of("DconfdbPatience");
    const uint64_t each = 11, changed[2] = {23, 29}, progress[5] = {0};
    memset(patience.bytes, 0, 5 * WORD);
    memcpy(patience.bytes + WORD, &each, WORD);
    dconfdb_patience_goes_on(patience.bytes, progress, changed, 7);
    finds_word(&patience, "end", 18);
    finds_word(&patience, "each", 11);
    finds_word(&patience, "latest", 60000007);
    finds_word(&patience, "changed.seconds", 23);
    finds_word(&patience, "changed.nanoseconds", 29);
    ends(&patience);
}

/* The flags of a change in the line are read alone. */
enum { ONE_CHANGE = 0, ONE_SET = 8, ONE_NUMBER = 16, ONE_ALONE = 24, ONE_NEWEST = 32, ONE_NEWEST_ALONE = 40, ONE_FATE = 48, ONE_FLAGS = 52, ONE_TRIED = 52,
       ONE_REFUSED = 53, ONE_ASKS = 54, ONE_THERE = 55, ONE = 56 };
enum { TALLY_SETTLED, TALLY_OVERTAKEN, TALLY };

/* What becomes of one of which these fields are so, by the numbers of its edit and of the newest, both alone or not. */
static uint32_t fate_of(size_t number, size_t newest, uint8_t alone, uint8_t newest_alone, unsigned fields)
{
    _Alignas(16) uint8_t line[ONE] = {0};
    uint64_t tally[TALLY] = {3, 5};
    uint32_t fate = 77;
    memcpy(line + ONE_NUMBER, &number, WORD);
    memcpy(line + ONE_NEWEST, &newest, WORD);
    memcpy(line + ONE_FATE, &fate, NUMBER);
    line[ONE_ALONE] = alone;
    line[ONE_NEWEST_ALONE] = newest_alone;
    for (int i = 0; i < ONE_THERE + 1 - ONE_FLAGS; i++)
        line[ONE_FLAGS + i] = fields >> i & 1;
    size_t waits = dconfdb_waiting_line(line, 1, false, tally);
    memcpy(&fate, line + ONE_FATE, NUMBER);
    is_so(waits == (fate == 0), "DconfdbWaiter");
    is_so(tally[TALLY_SETTLED] == 3u + (fate == 1 || fate == 2) && tally[TALLY_OVERTAKEN] == 5u + (fate == 3), "DconfdbTally");
    return fate;
}

/* The second of two goes on waiting, and is the first then; so is one that was set before the other. */
static void finds_waiter(void)
{
    enum { TRIED = 1, REFUSED = 2, ASKS_IT = 4, THERE = 8 };
    _Alignas(16) uint8_t line[2 * ONE] = {0};
    const size_t changes[2] = {11, 13};
    const uint64_t sets[2] = {5, 3};
    uint64_t tally[TALLY] = {0};
    is_so(fate_of(1, 2, 1, 1, TRIED) == 3 && fate_of(2, 2, 1, 1, TRIED) == 0 && fate_of(1, 2, 0, 1, TRIED) == 0, "DconfdbWaiter");
    is_so(fate_of(1, 2, 1, 0, TRIED) == 0 && fate_of(1, 2, 1, 1, 0) == 0 && fate_of(1, 1, 1, 1, REFUSED) == 2, "DconfdbWaiter");
    is_so(fate_of(1, 1, 1, 1, ASKS_IT | THERE) == 1 && fate_of(1, 1, 1, 1, ASKS_IT) == 0 && fate_of(1, 1, 1, 1, THERE) == 0, "DconfdbWaiter");
    memcpy(line + ONE_CHANGE, &changes[0], WORD);
    memcpy(line + ONE + ONE_CHANGE, &changes[1], WORD);
    memcpy(line + ONE_SET, &sets[0], WORD);
    memcpy(line + ONE + ONE_SET, &sets[1], WORD);
    is_so(dconfdb_waiting_line(line, 2, false, tally) == 2 && memcmp(line + ONE_CHANGE, &changes[1], WORD) == 0, "DconfdbWaiter");
    line[ONE_REFUSED] = 1;
    is_so(dconfdb_waiting_line(line, 2, false, tally) == 1 && memcmp(line + ONE_CHANGE, &changes[0], WORD) == 0, "DconfdbWaiter");
    is_so(memcmp(line + ONE + ONE_CHANGE, &changes[1], WORD) == 0 && tally[TALLY_SETTLED] == 1, "DconfdbWaiter");
    lies("DconfdbTally", "settled", TALLY_SETTLED * WORD, WORD);
    lies("DconfdbTally", "overtaken", TALLY_OVERTAKEN * WORD, WORD);
    printf("TAKES(DconfdbTally, %d);\n", TALLY * WORD);
    lies("DconfdbWaiter", "change", ONE_CHANGE, WORD);
    lies("DconfdbWaiter", "set", ONE_SET, WORD);
    lies("DconfdbWaiter", "edit.number", ONE_NUMBER, WORD);
    lies("DconfdbWaiter", "edit.is_alone", ONE_ALONE, FLAG);
    lies("DconfdbWaiter", "newest.number", ONE_NEWEST, WORD);
    lies("DconfdbWaiter", "newest.is_alone", ONE_NEWEST_ALONE, FLAG);
    lies("DconfdbWaiter", "fate", ONE_FATE, NUMBER);
    lies("DconfdbWaiter", "is_tried", ONE_TRIED, FLAG);
    lies("DconfdbWaiter", "is_refused", ONE_REFUSED, FLAG);
    lies("DconfdbWaiter", "asks", ONE_ASKS, FLAG);
    lies("DconfdbWaiter", "is_there", ONE_THERE, FLAG);
    printf("TAKES(DconfdbWaiter, %d);\n", ONE);
}

/* A look is to come after one that failed, and other files may be the store's meanwhile. */
static void makes_notice(Written *notice, bool is_whole)
{
    dconfdb_notice_told(notice->bytes, 4, 0, false, 0);
    dconfdb_notice_answered(notice->bytes, is_whole, 5);
    dconfdb_notice_answered(notice->bytes, false, 5);
    dconfdb_notice_told(notice->bytes, 0, 0, false, 6);
    dconfdb_notice_told(notice->bytes, 0, 1, false, 6);
}

static void finds_notice(void)
{
    Written notice = room_of("DconfdbNotice"), partly = notice;
    makes_notice(&notice, true);
    makes_notice(&partly, false);
    finds_first(&notice, "stage", 1);
    finds_number(&notice, "owed", 2);
    finds_word(&notice, "pause", 20000);
    finds_word(&notice, "until", 20005);
    takes(&notice, "is_whole", bit_of(&notice, &partly, notice.end, notice.end + 1, 1, 0), FLAG);
    ends(&notice);
}

/* A profile's own name, at which a regular file stands, by its mode: it has a watch of its own, and nothing is behind it. */
static void finds_watched_name(void)
{
    enum { A_FILE = 0100644 };
    Written name = room_of("DconfdbWatchedName"), other = name, unseen = name;
    dconfdb_watched_name(true, (const uint8_t *)"/a", 2, (const uint8_t *)"b", 1, true, false, A_FILE, 1, 0, true, name.bytes);
    dconfdb_watched_name(true, (const uint8_t *)"/a", 2, (const uint8_t *)".", 1, true, false, A_FILE, 1, 0, true, other.bytes);
    dconfdb_watched_name(true, (const uint8_t *)"/a", 2, (const uint8_t *)"b", 1, true, true, 0, 0, 0, true, unseen.bytes);
    takes(&name, "is_needed", flag_of(&name, &other), FLAG);
    takes(&name, "is_missed", flag_of(&unseen, &name), FLAG);
    finds_number(&name, "watch", 3);
    finds_number(&name, "asked", 0x2c4);
    finds_number(&name, "asked_of_file", 0x8);
    finds_number(&name, "way", 0);
    finds_number(&name, "comes", 1);
    is_so(ends(&name) == WATCHED_NAME, "DconfdbWatchedName");
}

/* So many rounds, the last of which missed something, or found something new. */
enum { ROUNDS = 7, WATCH_ROUNDS = 8 };

static Written rounds_after(bool is_had)
{
    Written rounds = room_of("DconfdbWatchRounds");
    memset(rounds.bytes, 0, WATCH_ROUNDS);
    for (int i = 0; i < ROUNDS; i++)
        dconfdb_watch_round(rounds.bytes, 0, false, false, false);
    dconfdb_watch_round(rounds.bytes, 1, false, is_had, true);
    return rounds;
}

static void finds_rounds(void)
{
    Written missed = rounds_after(false), more = rounds_after(true);
    takes(&missed, "missed", flag_of(&missed, &more), FLAG);
    takes(&missed, "more", flag_of(&more, &missed), FLAG);
    finds_number(&missed, "count", ROUNDS);
    is_so(ends(&missed) == WATCH_ROUNDS, "DconfdbWatchRounds");
}

/* Edits are read and written: a set, and a reset that is of the same change. */
enum { TAKEN_AND_CLOSED = 24 }; /* of a queue */
enum { OF_CHANGE = 0, EDIT_SETS = 8, IS_LEFT_OUT = 9, IS_REFUSED = 10, EDIT = 16, EDITS = 6 };

static void makes_edit(uint8_t *edit, size_t change, bool sets)
{
    memset(edit, 0, EDIT);
    memcpy(edit + OF_CHANGE, &change, WORD);
    edit[EDIT_SETS] = sets;
}

/* The step is as that of another machine, and says whether the fault is kept, and whether what is kept is told. */
enum { STEP_KIND = 0, STEP_NUMBER = 8, STEP_KEEPS = 16, STEP_TELLS = 17, QUEUE_STEP = 24 };

static Written answered(uint8_t *queue, uint8_t *edits, uint32_t answer)
{
    Written step = room_of("DconfdbQueueStep");
    dconfdb_queue_answered(queue, edits, EDITS, answer, 0, step.bytes);
    return step;
}

static void answers(uint8_t *queue, uint8_t *edits, uint32_t answer)
{
    (void)answered(queue, edits, answer);
}

static bool is_step(const Written *step, uint32_t kind, size_t number, bool keeps, bool tells)
{
    return memcmp(step->bytes + STEP_KIND, &kind, NUMBER) == 0 && (kind > 3 || memcmp(step->bytes + STEP_NUMBER, &number, WORD) == 0)
        && step->bytes[STEP_KEEPS] == keeps && step->bytes[STEP_TELLS] == tells && step->bytes[QUEUE_STEP] == UNTOUCHED;
}

/* All are taken, and nobody may write there; then the first one, a reset, is left out, and so are the others: there is nothing to be written. */
static void finds_queue_step(void)
{
    _Alignas(16) uint8_t edits[EDITS * EDIT];
    Written queue = room_of("DconfdbQueue"), step = room_of("DconfdbQueueStep");
    for (size_t i = 0; i < EDITS; i++)
        makes_edit(edits + i * EDIT, i, false);
    step = answered(queue.bytes, edits, 7);
    is_so(is_step(&step, 0, 0, false, false), "DconfdbQueueStep");
    for (size_t i = 0; i < EDITS; i++)
        step = answered(queue.bytes, edits, 0);
    step = answered(queue.bytes, edits, 4);
    is_so(is_step(&step, 3, 0, true, false), "DconfdbQueueStep");
    for (size_t i = 0; i < 2 * EDITS; i++)
        step = answered(queue.bytes, edits, 1);
    is_so(is_step(&step, 4, 0, false, true), "DconfdbQueueStep");
    lies("DconfdbQueueStep", "kind", STEP_KIND, NUMBER);
    lies("DconfdbQueueStep", "number", STEP_NUMBER, WORD);
    lies("DconfdbQueueStep", "keeps_fault", STEP_KEEPS, FLAG);
    lies("DconfdbQueueStep", "tells", STEP_TELLS, FLAG);
    printf("TAKES(DconfdbQueueStep, %d);\n", QUEUE_STEP);
}

/* A queue whose edits were all taken, and which found a key locked; then so many keys were asked about. */
static void asks(uint8_t *queue, uint8_t *edits, size_t count)
{
    answers(queue, edits, 7);
    for (int i = 0; i < EDITS; i++)
        answers(queue, edits, 0);
    answers(queue, edits, 1);
    for (size_t i = 0; i < count; i++)
        answers(queue, edits, 0);
}

static void finds_queue(void)
{
    _Alignas(16) uint8_t edits[EDITS * EDIT], wanted[EDITS * EDIT];
    Written queue = room_of("DconfdbQueue"), marked = queue;
    for (size_t i = 0; i < EDITS; i++)
        makes_edit(edits + i * EDIT, i < 2 ? 0 : i, i != 1);
    memcpy(wanted, edits, sizeof edits);
    asks(queue.bytes, edits, 1);
    memcpy(marked.bytes, queue.bytes, ROOM);
    answers(marked.bytes, edits, 1); /* the reset is locked */
    wanted[EDIT + IS_LEFT_OUT] = 1;
    is_so(memcmp(edits, wanted, sizeof edits) == 0, "DconfdbQueued");
    answers(marked.bytes, edits, 1); /* and the third edit */
    wanted[2 * EDIT + IS_REFUSED] = 1;
    is_so(memcmp(edits, wanted, sizeof edits) == 0, "DconfdbQueued");
    asks(queue.bytes, edits, 0);
    answers(queue.bytes, edits, 1); /* the first one, of the change of two */
    wanted[IS_REFUSED] = 1;
    is_so(memcmp(edits, wanted, sizeof edits) == 0, "DconfdbQueued");
    lies("DconfdbQueued", "change", OF_CHANGE, WORD);
    lies("DconfdbQueued", "sets", EDIT_SETS, FLAG);
    lies("DconfdbQueued", "is_left_out", IS_LEFT_OUT, FLAG);
    lies("DconfdbQueued", "is_refused", IS_REFUSED, FLAG);
    printf("TAKES(DconfdbQueued, %d);\n", EDIT);
    asks(queue.bytes, edits, 5);
    asks(marked.bytes, edits, 3);
    answers(marked.bytes, edits, 1);
    finds_first(&queue, "queue.stage", 1);
    finds_word(&queue, "queue.at", 5);
    takes(&queue, "queue.has_marked", bit_of(&queue, &marked, queue.end, queue.end + 1, 0, 1), FLAG);
    /* What was taken, and that nobody may write there. */
    asks(queue.bytes, edits, 0);
    memcpy(marked.bytes, queue.bytes, ROOM);
    answers(queue.bytes, edits, 7);
    for (int i = 0; i < EDITS; i++)
        answers(queue.bytes, edits, 0);
    takes(&queue, "has_taken", bit_of(&queue, &marked, TAKEN_AND_CLOSED, TAKEN_AND_CLOSED + 1, 1, 0), FLAG);
    memcpy(marked.bytes, queue.bytes, ROOM);
    answers(queue.bytes, edits, 4);
    takes(&queue, "is_closed", bit_of(&queue, &marked, TAKEN_AND_CLOSED + 1, TAKEN_AND_CLOSED + 2, 1, 0), FLAG);
    ends(&queue);
}

void finds_waits(void)
{
    finds_wait();
    finds_taking();
    finds_new_edit();
    finds_known();
    finds_patience();
    finds_waiter();
    finds_notice();
    finds_watched_name();
    finds_rounds();
    finds_queue();
    finds_queue_step();
}
