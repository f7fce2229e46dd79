/* libdconfdb/part.c: a file's part, opened, of what is bad mended, and given back. What is read of it the proved calls say, in any way. */
#include "libdconfdb/part.c"
#include "world.h"

/* narrows libdconfdb/dconfdb.h: char text[512]; => char text[8]; */

static uint8_t read_bytes[4], mended_bytes[4];
static bool has_read, has_mended;                  /* who has the bytes gives them back */
static unsigned refused, opened, mends;
static uint32_t telling_given, telling_of_mended;
static uint32_t number_given;
static DconfdbError *told_last;
static bool is_told_of;
static Part *const no_part = NULL;

void file_release(FileBytes *bytes)
{
    if (bytes->at == read_bytes) {
        CHECK(has_read, "memory: what is released is had");
        has_read = false;
    } else if (bytes->at) {
        CHECK(bytes->at == mended_bytes && has_mended, "memory: what is released is had");
        has_mended = false;
    }
    *bytes = (FileBytes){NULL, 0, false};
}

static bool told(DconfdbError *error)
{
    refused++;
    told_last = error;
    if (error)
        error->code = DCONFDB_ERROR_FILE;
    return false;
}

bool refuse_memory(DconfdbError *error)
{
    return told(error);
}

bool refuse_call(DconfdbError *error, uint32_t number, const char *name, Place place)
{
    (void)place;
    CHECK(number == number_given && __CPROVER_r_ok(name, 1), "answer: what the call answered, and of which file");
    return told(error);
}

bool refuse_database(DconfdbError *error, uint32_t number, const char *name, const DconfdbUnsound *broken, Place place)
{
    CHECK(number == number_given && __CPROVER_r_ok(name, 1) && place.database == 1 && __CPROVER_r_ok(broken, sizeof *broken), "answer: what the call answered, and of which file");
    return told(error);
}

uint32_t repair(const FileBytes *file, FileBytes *mended, Saved *saved)
{
    CHECK(has_read || file->at == NULL, "memory: the bytes are there");
    mends++;
    if (any_bool())
        return DCONFDB_MEMORY;
    saved->keys = any_size();
    saved->locks = any_size();
    is_told_of = saved->is_told = any_bool();
    has_mended = any_bool();
    *mended = has_mended ? (FileBytes){mended_bytes, sizeof mended_bytes, false} : (FileBytes){NULL, 0, false};
    return DCONFDB_OK;
}

/* A proved call: any answer; what is sound has nothing to be told. */
uint32_t dconfdb_open(const DconfdbLayer *old, bool was_mapped, const uint8_t *file, size_t len, bool is_there, bool is_lenient, DconfdbLayer *layer,
                      DconfdbUnsound *unsound, uint32_t *telling)
{
    (void)was_mapped, (void)is_lenient, (void)unsound;
    CHECK(__CPROVER_r_ok(old, sizeof *old) && __CPROVER_w_ok(layer, sizeof *layer) && file, "memory: no pointer is NULL");
    CHECK(len == 0 || (opened == 0 ? file == read_bytes && has_read : file == mended_bytes && has_mended), "memory: the bytes are there");
    CHECK(opened == 0 || is_there == has_mended, "step: of what counts as nothing there is no file");
    *telling = any_u32();
    GIVEN(*telling <= DCONFDB_TELLING_KEPT);
    number_given = any_u32();
    if (opened++ == 0)
        telling_given = *telling;
    else
        telling_of_mended = *telling;
    return number_given;
}

static FileBytes some_bytes(void)
{
    has_read = any_bool();
    return has_read ? (FileBytes){read_bytes, sizeof read_bytes, any_bool()} : (FileBytes){NULL, 0, false};
}

static Part old;

/* harness part_open: unwind 4, quick */
int part_open_(void)
{
    FileState state = {.is_there = any_bool()};
    const Asked asked = {.name = "u", .index = 1, .is_lenient = any_bool()};
    DconfdbError error;
    error.code = DCONFDB_ERROR_NONE;
    Part *part = part_open(&asked, state, some_bytes(), any_bool() ? &old : no_part, &error);
    CHECK(opened <= 2 && mends <= 1, "step: it is opened once, and what is mended of it once");
    if (!part) {
        CHECK(!has_read && !has_mended, "memory: of what failed nothing is had");
        CHECK(refused > 0 && told_last == &error, "answer: the caller is told of what failed");
        return 0;
    }
    CHECK(part->references == 1 && part->name[0] == 'u' && part->name[1] == 0, "answer: a part of that name, had once");
    CHECK(error.code == DCONFDB_ERROR_NONE, "answer: of a part no fault is told");
    CHECK(telling_given != DCONFDB_TELLING_REFUSES, "answer: what refuses the store is no part");
    bool is_mended = telling_given == DCONFDB_TELLING_KEPT;
    CHECK(part->bytes.at == (is_mended ? (has_mended ? mended_bytes : NULL) : has_read ? read_bytes : NULL), "memory: its bytes are those that are opened");
    CHECK(!is_mended || (!has_read && telling_of_mended == DCONFDB_TELLING_NOTHING), "memory: what was read goes where what is mended counts");
    CHECK((part->fault != NULL) == (is_mended && is_told_of), "answer: what is wrong is kept where it is to be told");
    CHECK((part_fault(part) != NULL) == (part->fault != NULL), "answer: the fault is of the file that has the name");
    if (part->fault)
        REACHED("a bad file of which something is read");
    part_unref(part);
    CHECK(!has_read && !has_mended, "memory: the bytes are given back with the part");
    return 0;
}

/* harness part_faults: unwind 4, quick */
int part_faults(void)
{
    FileState state = {.is_there = true};
    DconfdbError fault, error;
    fault.code = DCONFDB_ERROR_FILE;
    fault.errnum = any_fault();
    Part *part = part_new("u", state, some_bytes(), &error);
    CHECK(part || (refused == 1 && !has_read), "answer: what failed is told, and the bytes are given back");
    if (!part)
        return 0;
    bool is_bad = any_bool() && part_blame(part, &fault, &error);
    CHECK((part->fault != NULL) == is_bad, "answer: a fault is kept, or no memory is left");
    CHECK(part_errnum(part) == (is_bad ? (uint32_t)fault.errnum : 0), "answer: why it can't be read");
    CHECK(part_ref(part) == part, "answer: it is the same, had once more");
    char *name = malloc(2), *was = name;
    bool is_gone = any_bool();
    part_was_set_aside(part, is_gone ? NULL : &name);
    CHECK(name == (is_bad && !is_gone ? NULL : was), "memory: the name is the fault's, or stays the caller's");
    CHECK((part->fault != NULL) == (is_bad && !is_gone), "answer: a bad file that is gone is none");
    CHECK(!part->fault || part->fault->aside == was, "answer: where the bad file is now");
    CHECK(!part_fault(part) || !was, "answer: what has another name is no fault of this one");
    if (is_bad && !is_gone)
        REACHED("a bad file that has another name");
    if (any_bool())
        part_forgive(part);
    part_unref(part);
    CHECK(part->references == 1, "memory: it stays as long as somebody has it");
    part_unref(part);
    CHECK(!has_read, "memory: the bytes are given back with the part");
    part_unref(no_part);
    free(name);
    return 0;
}
