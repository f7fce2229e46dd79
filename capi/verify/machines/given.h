/* Answers of the proved calls that keep nothing, or a few numbers, as the model of the system gives them: compared.c compares them with the archive's. */
#ifndef GIVEN_H
#define GIVEN_H

#include "dconfdb_calls.h"

/* What becomes of a file by what the system says of it, which compared.c compares. The first function is of those purposes of which the errno
 * alone counts. */
static inline uint32_t stands_by_errno(uint32_t purpose, uint32_t fault, uint32_t *told)
{
    enum { NO_FILE = 2, EXISTS = 17, FOLDER = 21, BAD = 22, UNKNOWN = 38, NOT_EMPTY = 39, UNSUPPORTED = 95 };
    *told = 0;
    if (fault == 0 || (purpose == DCONFDB_TO_MAKE_ROOM && fault == NO_FILE))
        return DCONFDB_IS_GOOD;
    if ((purpose == DCONFDB_TO_LOOK && fault == NO_FILE) || (purpose == DCONFDB_TO_MAKE && fault == EXISTS))
        return DCONFDB_IS_NOTHING;
    if ((purpose == DCONFDB_TO_MAKE_ROOM && fault == FOLDER) || (purpose == DCONFDB_TO_NAME && (fault == BAD || fault == UNKNOWN)))
        return DCONFDB_IS_OTHER;
    *told = purpose == DCONFDB_TO_EXCHANGE && fault == BAD ? UNSUPPORTED : purpose == DCONFDB_TO_REPLACE && fault == NOT_EMPTY ? EXISTS : fault;
    return DCONFDB_IS_FAULT;
}

static inline uint32_t stands_sized(const DconfdbStood *stood, uint32_t *told)
{
    *told = stood->size > stood->most ? 75 : 0;
    if (*told != 0 || stood->size == 0)
        return *told != 0 ? DCONFDB_IS_FAULT : DCONFDB_IS_NOTHING;
    if (stood->size <= 65536 || !(stood->may_map || stood->may_stop))
        return DCONFDB_IS_GOOD;
    return stood->may_map ? DCONFDB_IS_MAPPED : DCONFDB_IS_HEAD;
}

static inline uint32_t stands_as_file(uint32_t purpose, const DconfdbStood *stood, uint32_t *told)
{
    bool is_lock = purpose == DCONFDB_TO_LOCK, is_regular = (stood->mode & 0170000) == 0100000;
    uint32_t of_mode = !is_lock && (stood->mode & 0170000) == 0040000 ? 21 : 22;
    *told = 0;
    if (stood->fault != 0 && purpose == DCONFDB_TO_OPEN)
        return DCONFDB_IS_GOOD;
    if (is_lock && stood->fault == 2)
        return DCONFDB_IS_NOTHING;
    if (stood->fault != 0)
        *told = is_lock && (stood->fault == 40 || stood->fault == 21 || stood->fault == 6) ? 22 : stood->fault;
    else if (!is_regular)
        *told = of_mode;
    if (*told != 0)
        return DCONFDB_IS_FAULT;
    return purpose == DCONFDB_TO_READ ? stands_sized(stood, told) : DCONFDB_IS_GOOD;
}

/* How many names are tried, and links followed. A harness has fewer. */
#ifndef MOST_ASIDE
#define MOST_ASIDE 999
#endif
#ifndef MOST_NAMES
#define MOST_NAMES 100
#endif
#ifndef MOST_LINKS
#define MOST_LINKS 40
#endif

static inline uint32_t stands_by_names(uint32_t purpose, const DconfdbStood *stood, uint32_t *told)
{
    enum { EXISTS = 17 };
    uint64_t most = purpose == DCONFDB_TO_MAKE_NAMED ? MOST_NAMES : MOST_ASIDE;
    *told = 0;
    if (stood->fault == 0 || (purpose == DCONFDB_TO_SET_ASIDE && stood->fault == EXISTS && stood->is_named))
        return DCONFDB_IS_GOOD;
    if (stood->fault == EXISTS && stood->tried + 1 < most)
        return DCONFDB_IS_OTHER;
    *told = stood->fault;
    return DCONFDB_IS_FAULT;
}

static inline uint32_t stands_followed(const DconfdbStood *stood, uint32_t *told)
{
    bool is_others = stood->is_root && (stood->fault != 0 || stood->user != 0 || (stood->mode & 022) != 0);
    *told = is_others ? 13 : stood->tried < MOST_LINKS ? 0 : 40;
    return *told != 0 ? DCONFDB_IS_FAULT : DCONFDB_IS_GOOD;
}

/* Of folders on the way. */
static inline uint32_t stands_on_way(uint32_t purpose, const DconfdbStood *stood, uint32_t *told)
{
    enum { NOT_HIS = 1, NO_FILE = 2, NO_RIGHT = 13, NO_FOLDER_THERE = 20, NOT_SO = 22, READ_ONLY = 30, NO_CALL = 38, NOT_KNOWN = 95 };
    *told = 0;
    if (purpose == DCONFDB_TO_OPEN_FOLDER && stood->is_root)
        return stood->fault == 0 && stood->is_named ? DCONFDB_IS_GOOD : DCONFDB_IS_OTHER;
    if (purpose == DCONFDB_TO_ENTER && stood->fault == NO_FILE && stood->may_make && stood->tried == 0)
        return DCONFDB_IS_NOTHING;
    if (purpose == DCONFDB_TO_ENTER && stood->fault == NO_FOLDER_THERE)
        return DCONFDB_IS_OTHER;
    if (purpose == DCONFDB_TO_SYNC_NAME
        && (stood->fault == NOT_HIS || stood->fault == NO_RIGHT || stood->fault == NOT_SO || stood->fault == READ_ONLY || stood->fault == NO_CALL
            || stood->fault == NOT_KNOWN))
        return DCONFDB_IS_NOTHING;
    *told = stood->fault;
    if (stood->fault == 0 && purpose == DCONFDB_TO_READ_LINK && (stood->mode & 0170000) != 0120000)
        *told = NO_FOLDER_THERE;
    if (*told != 0)
        return DCONFDB_IS_FAULT;
    return purpose == DCONFDB_TO_MAKE_IN && stood->is_root && stood->user != 0 ? DCONFDB_IS_OTHER : DCONFDB_IS_GOOD;
}

static inline uint32_t standing_given(uint32_t purpose, const DconfdbStood *stood, uint32_t *told)
{
    *told = 0;
    if (purpose >= DCONFDB_TO_SET_ASIDE && purpose <= DCONFDB_TO_MAKE_NAMED)
        return stands_by_names(purpose, stood, told);
    if (purpose >= DCONFDB_TO_ENTER)
        return stands_on_way(purpose, stood, told);
    if (purpose == DCONFDB_TO_HOLD)
        return stood->fault != 0 || stood->is_moved || !stood->is_named ? DCONFDB_IS_NOTHING : stood->links > 1 ? DCONFDB_IS_OTHER : DCONFDB_IS_GOOD;
    if (purpose == DCONFDB_TO_FOLLOW)
        return stands_followed(stood, told);
    if (purpose >= DCONFDB_TO_OPEN && purpose <= DCONFDB_TO_LOCK)
        return stands_as_file(purpose, stood, told);
    return stands_by_errno(purpose, stood->fault, told);
}

/* Permission bits, which compared.c compares for all that may be asked. */
static inline uint32_t bits_given(uint32_t bits, bool has_group)
{
    uint32_t both = bits >> 3 & bits & 7;
    return has_group ? bits & 0777 : (bits & 0700) | both << 3 | both;
}

static inline uint32_t lock_bits_given(uint32_t folder, bool has_group)
{
    return 0600 | ((folder & (has_group ? 020 : 02)) != 0 ? 060 : 0) | ((folder & 02) != 0 ? 06 : 0);
}

static inline uint32_t bits_left(uint32_t what, const DconfdbMadeFile *file, bool has_group, uint32_t *number)
{
    uint32_t bits = what == DCONFDB_MADE_LOCK ? lock_bits_given(file->wanted.bits, has_group) : bits_given(file->wanted.bits, has_group);
    *number = file->made.bits == bits ? 0 : bits;
    return file->made.bits == bits ? DCONFDB_HANDING_DONE : DCONFDB_HANDING_BITS;
}

static inline uint32_t handing_failed(uint32_t fault, uint32_t *number)
{
    *number = fault;
    return DCONFDB_HANDING_FAILED;
}

static inline uint32_t group_left(uint32_t what, const DconfdbMadeFile *file, uint32_t *number)
{
    return file->made.group == file->wanted.group ? bits_left(what, file, true, number) : DCONFDB_HANDING_GROUP;
}

static inline uint32_t first_given(uint32_t what, const DconfdbMadeFile *file)
{
    bool has_group = file->above == file->wanted.group && (file->gives_group || file->made.group == file->wanted.group);
    return what == DCONFDB_MADE_LOCK ? 0600 : what == DCONFDB_MADE_FOLDER ? 0700 : bits_given(file->wanted.bits, has_group);
}

static inline uint32_t made_given(uint32_t what, uint32_t fault, const DconfdbMadeFile *file, uint32_t *number)
{
    bool has_user = file->made.user == file->wanted.user, has_group = file->made.group == file->wanted.group;
    if (fault != 0)
        return what == DCONFDB_MADE_LOCK ? DCONFDB_HANDING_DONE : handing_failed(fault, number);
    if (what == DCONFDB_MADE_FOLDER)
        return file->made.user == 0 && file->is_beside && file->is_empty ? DCONFDB_HANDING_BOTH : handing_failed(13, number);
    if (what == DCONFDB_MADE_LOCK && file->is_root && !has_user)
        return DCONFDB_HANDING_USER;
    if (what == DCONFDB_MADE_LOCK || !file->is_root)
        return group_left(what, file, number);
    return has_user && has_group ? bits_left(what, file, true, number) : DCONFDB_HANDING_BOTH;
}

static inline uint32_t handing_given(uint32_t what, uint32_t done, uint32_t fault, const DconfdbMadeFile *file, uint32_t *number)
{
    *number = 0;
    switch (done) {
    case DCONFDB_HANDING_BEGINS: *number = first_given(what, file); return DCONFDB_HANDING_MAKE;
    case DCONFDB_HANDING_MAKE: return made_given(what, fault, file, number);
    case DCONFDB_HANDING_USER: return fault != 0 ? DCONFDB_HANDING_DONE : group_left(what, file, number);
    case DCONFDB_HANDING_GROUP: return bits_left(what, file, fault == 0, number);
    default: break;
    }
    if (what == DCONFDB_MADE_LOCK || fault == 0)
        return what == DCONFDB_MADE_FILE && done == DCONFDB_HANDING_BOTH ? bits_left(what, file, true, number) : DCONFDB_HANDING_DONE;
    return handing_failed(fault, number);
}

/* ---- a try to take a lock */

/* How often its file is opened anew. A harness has fewer. */
#ifndef MOST_OPENINGS
#define MOST_OPENINGS 100
#endif
#ifndef MOST_FORKS
#define MOST_FORKS 10
#endif

static inline void taking_over(DconfdbTaking *taking, uint32_t task, uint32_t tried, uint32_t fault)
{
    taking->task = task;
    taking->tried = tried;
    taking->fault = fault;
}

static inline void taking_failed(DconfdbTaking *taking, uint32_t fault)
{
    if (fault == 2 && !taking->has_made)
        taking->task = DCONFDB_TAKING_MAKE_FOLDER;
    else
        taking_over(taking, DCONFDB_TAKING_NOT_HAD, DCONFDB_TRIED_LOCK_FILE, fault);
}

/* The folder, or the lock's file, can't be opened. */
static inline void taking_missing(DconfdbTaking *taking, bool may_make, uint32_t fault)
{
    if (may_make)
        taking_failed(taking, fault);
    else
        taking_over(taking, DCONFDB_TAKING_NOT_HAD, DCONFDB_TRIED_LOCK_FILE, fault);
}

static inline void taking_begun(DconfdbTaking *taking, uint32_t task, bool is_again)
{
    taking->task = task;
    taking->openings = taking->forks = 0;
    taking->has_made = false;
    taking->is_again = is_again;
}

static inline void taking_moved(DconfdbTaking *taking)
{
    if (taking->is_again)
        taking_over(taking, DCONFDB_TAKING_NOT_HAD, DCONFDB_TRIED_NAME, 0);
    else
        taking_begun(taking, DCONFDB_TAKING_OPEN_FOLDER, true);
}

static inline void taking_opens(DconfdbTaking *taking, uint32_t openings)
{
    taking->task = DCONFDB_TAKING_OPEN;
    taking->openings = openings;
}

static inline void taking_made(DconfdbTaking *taking, uint32_t fault)
{
    if (fault == 0)
        taking->task = DCONFDB_TAKING_LIST;
    else if (fault == 17 && taking->openings + 1 < MOST_OPENINGS)
        taking_opens(taking, taking->openings + 1);
    else if (fault == 17)
        taking_over(taking, DCONFDB_TAKING_NOT_HAD, DCONFDB_TRIED_LOCK_FILE, fault);
    else if (taking->task != DCONFDB_TAKING_MAKE)
        taking->task++;
    else
        taking_failed(taking, fault);
}

static inline void taking_forked(DconfdbTaking *taking)
{
    if (taking->forks + 1 < MOST_FORKS) {
        taking->forks++;
        taking->task = DCONFDB_TAKING_PAUSE;
    } else {
        taking_over(taking, DCONFDB_TAKING_NOT_HAD, DCONFDB_TRIED_LOCK, 11);
    }
}

static inline void taking_listed(DconfdbTaking *taking, uint32_t fault)
{
    if (fault == 0)
        taking->task = DCONFDB_TAKING_LOCK;
    else
        taking_forked(taking);
}

static inline void taking_in_folder(DconfdbTaking *taking, bool may_make, uint32_t fault)
{
    if (fault == 0)
        taking_opens(taking, 0);
    else if (fault == 11)
        taking_forked(taking);
    else
        taking_missing(taking, may_make, fault);
}

static inline void taking_opened(DconfdbTaking *taking, const DconfdbStood *stood)
{
    uint32_t told, is = standing_given(DCONFDB_TO_LOCK, stood, &told);
    if (is == DCONFDB_IS_FAULT)
        taking_missing(taking, stood->may_make, told);
    else if (is == DCONFDB_IS_GOOD)
        taking->task = DCONFDB_TAKING_LIST;
    else if (stood->may_make)
        taking->task = DCONFDB_TAKING_LOOK_ABOVE;
    else
        taking_over(taking, DCONFDB_TAKING_NOT_HAD, DCONFDB_TRIED_LOCK_FILE, 2);
}

static inline void taking_looked(DconfdbTaking *taking, const DconfdbStood *stood)
{
    uint32_t told, is = standing_given(DCONFDB_TO_HOLD, stood, &told);
    if (is == DCONFDB_IS_GOOD)
        taking_over(taking, DCONFDB_TAKING_HAD, DCONFDB_TRIED_LOCK, 0);
    else if (is == DCONFDB_IS_OTHER)
        taking->task = DCONFDB_TAKING_TAKE_NAME;
    else
        taking_moved(taking);
}

static inline bool is_for_others_given(const DconfdbStood *above)
{
    return (above->is_root && above->user != 0) || lock_bits_given(above->mode, true) != 0600;
}

static inline void taking_given(DconfdbTaking *taking, const DconfdbStood *stood)
{
    uint32_t fault = stood->fault;
    switch (taking->task) {
    case DCONFDB_TAKING_OPEN_FOLDER: taking_in_folder(taking, stood->may_make, fault); break;
    case DCONFDB_TAKING_MAKE_FOLDER:
        if (fault != 0) {
            taking_over(taking, DCONFDB_TAKING_NOT_HAD, DCONFDB_TRIED_LOCK_FILE, fault);
        } else {
            taking->task = DCONFDB_TAKING_OPEN_FOLDER;
            taking->has_made = true;
        }
        break;
    case DCONFDB_TAKING_OPEN: taking_opened(taking, stood); break;
    case DCONFDB_TAKING_LOOK_ABOVE:
        if (fault != 0)
            taking_failed(taking, fault);
        else
            taking->task = is_for_others_given(stood) ? DCONFDB_TAKING_MAKE_UNNAMED : DCONFDB_TAKING_MAKE;
        break;
    case DCONFDB_TAKING_MAKE_UNNAMED:
    case DCONFDB_TAKING_MAKE_RENAMED:
    case DCONFDB_TAKING_MAKE: taking_made(taking, fault); break;
    case DCONFDB_TAKING_LIST: taking_listed(taking, fault); break;
    case DCONFDB_TAKING_LOCK:
        if (fault == 0)
            taking->task = DCONFDB_TAKING_LOOK;
        else
            taking_over(taking, DCONFDB_TAKING_NOT_YET, DCONFDB_TRIED_LOCK, fault);
        break;
    case DCONFDB_TAKING_LOOK: taking_looked(taking, stood); break;
    case DCONFDB_TAKING_TAKE_NAME:
        if (fault != 0 && fault != 2)
            taking_over(taking, DCONFDB_TAKING_NOT_HAD, DCONFDB_TRIED_NAME, fault);
        else
            taking_moved(taking);
        break;
    case DCONFDB_TAKING_PAUSE: taking->task = DCONFDB_TAKING_OPEN_FOLDER; break;
    case DCONFDB_TAKING_NOT_YET: taking_begun(taking, DCONFDB_TAKING_LOCK, false); break;
    default: taking_begun(taking, DCONFDB_TAKING_OPEN_FOLDER, false); break;
    }
}

/* ---- the others */

static inline bool is_one_file_given(const DconfdbFileStamp *one, const DconfdbFileStamp *other)
{
    return one->is_there && other->is_there && one->device == other->device && one->inode == other->inode;
}

static inline void placed_given(const DconfdbFileStamp *named, DconfdbFileStamp *made)
{
    if (is_one_file_given(made, named))
        *made = *named;
}

/* What is asked of whether the user's file is on the disk. */
/* What comes after a call that reads or writes. */
static inline uint32_t moved_given(size_t wanted, size_t *at, uint32_t fault, size_t count)
{
    enum { INTERRUPTED = 4 };
    if (fault != 0)
        return fault == INTERRUPTED ? DCONFDB_MOVES_ON : DCONFDB_MOVE_FAILED;
    size_t left = *at < wanted ? wanted - *at : 0;
    *at += count < left ? count : left;
    if (*at >= wanted)
        return DCONFDB_MOVED_ALL;
    return count == 0 ? DCONFDB_MOVED_END : DCONFDB_MOVES_ON;
}

static inline uint32_t settling_given(uint32_t task, bool yes, const DconfdbSettling *known)
{
    switch (task) {
    case DCONFDB_SETTLING_BEGINS:
        return !known->has_file || known->is_known ? DCONFDB_SETTLING_KNOWN : DCONFDB_SETTLING_NOTES;
    case DCONFDB_SETTLING_NOTES:
        if (yes)
            return DCONFDB_SETTLING_KNOWN;
        if (known->asks_only)
            return DCONFDB_SETTLING_FAILED;
        return known->is_unsynced ? DCONFDB_SETTLING_DONE : known->errnum == 0 ? DCONFDB_SETTLING_SETTLE : DCONFDB_SETTLING_NAMES;
    case DCONFDB_SETTLING_SETTLE:
    case DCONFDB_SETTLING_NAMES:
        if (!yes)
            return DCONFDB_SETTLING_FAILED;
        return known->is_unsynced ? DCONFDB_SETTLING_DONE : known->is_in_turn ? DCONFDB_SETTLING_KNOWN : DCONFDB_SETTLING_LOOK;
    default:
        return yes ? DCONFDB_SETTLING_KNOWN : DCONFDB_SETTLING_DONE;
    }
}

/* What is brought to the disk next. */
static inline uint32_t bring_given(uint32_t what, uint32_t done, uint32_t fault, bool has_file)
{
    if (fault != 0)
        return DCONFDB_BRING_OVER;
    switch (done) {
    case DCONFDB_BRING_BEGINS: return what == DCONFDB_TO_BRING_MADE ? DCONFDB_BRING_NAME : has_file ? DCONFDB_BRING_FILE : DCONFDB_BRING_FOLDER;
    case DCONFDB_BRING_NAME: return what == DCONFDB_TO_BRING_MADE ? DCONFDB_BRING_MAKE : DCONFDB_BRING_OVER;
    case DCONFDB_BRING_MAKE:
    case DCONFDB_BRING_FILE: return DCONFDB_BRING_FOLDER;
    case DCONFDB_BRING_FOLDER: return what == DCONFDB_TO_BRING_BOTH ? DCONFDB_BRING_NAME : DCONFDB_BRING_OVER;
    default: return DCONFDB_BRING_OVER;
    }
}

/* What becomes of the paths that are seen otherwise, and which fault keeps a store's files from being listed: that no memory is left. */
static inline uint32_t handed_given(bool has_paths, bool has_looked)
{
    return !has_paths ? DCONFDB_HANDED_NOT : has_looked ? DCONFDB_HANDED_WHOLE : DCONFDB_HANDED_PARTLY;
}

static inline bool is_list_refused_given(uint32_t code)
{
    return code == DCONFDB_MEMORY;
}

/* What is done about the flag of dconf's readers. */
static inline uint32_t flag_given(uint32_t task, bool could_be, bool is_in_turn)
{
    if (task != DCONFDB_FLAG_BEGINS && task != DCONFDB_FLAG_LOCK && !could_be)
        return DCONFDB_FLAG_OVER;
    if (task == DCONFDB_FLAG_LOOK && is_in_turn)
        return DCONFDB_FLAG_OPEN;
    if (task < DCONFDB_FLAG_SET)
        return task + 1;
    return task == DCONFDB_FLAG_SET && is_in_turn ? DCONFDB_FLAG_REMOVE : DCONFDB_FLAG_OVER;
}

/* What a call leaves that gives a file another name, by what its errno is to it. */
static inline DconfdbRenamed renamed_given(uint32_t call, uint32_t fault, uint32_t answer)
{
    if (fault == 0)
        return (DconfdbRenamed){.is_aside = true};
    if (call == DCONFDB_CALL_PLACE)
        return (DconfdbRenamed){.fault = fault, .goes = answer != DCONFDB_ANSWER_UNSURE};
    bool is_nameless = answer == DCONFDB_ANSWER_NAMELESS;
    return (DconfdbRenamed){.fault = is_nameless || answer == DCONFDB_ANSWER_NOTHING ? 0 : fault, .is_nameless = is_nameless};
}

#endif
