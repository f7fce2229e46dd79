/* common/replacing.c, the steps of a turn: each makes its calls once, with the names, bits and flags that it says, and answers by what
 * the system answered. Of files.c it has what a state is. */
#include "common/files.c"
#include "common/handed.c"
#include "common/replacing.c"
#include "machines.h"
#include "machines/given.h"
#include "world.h"

static int folder;
static Replacing it;
static char name[4];

static void begin(void)
{
    folder = some_file();
    any_text(name, 3);
    it.is_unsynced = any_bool();
    int fault = replacing_begin(&it, folder, name);
    size_t len = strlen(name);
    CHECK(fault == 0 && it.file < 0 && !it.is_aside, "answer: a turn begins with nothing open");
    CHECK(memcmp(it.new_name, name, len) == 0 && strcmp(it.new_name + len, ".new") == 0, "step: the new file is NAME.new");
}

static void end(void)
{
    replacing_end(&it);
    CHECK(only_open(folder, -1), "descriptor: each is closed");
}

static bool only_new_is_open(void)
{
    return is_open(it.file) && only_open(folder, it.file);
}

/* harness create: unwind 8, with machines.c, define MOST_ASIDE=2, quick */
int create(void)
{
    begin();
    size_t bits = any_size();
    GIVEN(bits < 512);
    it.group = any_u32();
    it.above = any_u32();
    it.gives_group = any_bool();
    int fault = replacing_create(&it, bits);
    const Call *open = &last[OPENAT];
    CHECK(count_of[UNLINKAT] == 1 && last[UNLINKAT].name == it.new_name && last[UNLINKAT].file == folder, "step: what had the new name is removed");
    CHECK(count_of[RENAMEAT2] == 0 || last[UNLINKAT].fault == EISDIR, "step: a folder alone is moved");
    CHECK(count_of[OPENAT] <= 1, "step: one file is made");
    if (fault == 0) {
        CHECK(was_done(OPENAT) && open->file == folder && open->name == it.new_name, "step: NAME.new is made in the folder");
        CHECK((open->flags & (O_CREAT | O_EXCL | O_TRUNC | O_ACCMODE)) == (O_CREAT | O_EXCL | O_WRONLY), "step: it is made anew, in nobody's place");
        CHECK((open->mode & ~(unsigned)bits) == 0 && (open->mode & 0700) == (bits & 0700), "step: with its bits, or fewer for others than its owner");
        bool has_group = it.above == it.group && (it.gives_group || getegid() == it.group);
        CHECK(open->mode == bits_given((uint32_t)bits, has_group), "step: with all of them, where it has its group, whatever the file system");
        CHECK(it.file == open->count && only_new_is_open(), "descriptor: it is kept, and no other");
        CHECK(when_of[UNLINKAT] < when_of[OPENAT], "order: what had the name is gone before");
        REACHED("it is made");
    } else {
        CHECK(it.file < 0 && only_open(folder, -1), "descriptor: a fault leaves nothing open");
        CHECK(count_of[OPENAT] == 0 || fault == open->fault, "answer: the fault of the open");
        CHECK(count_of[OPENAT] > 0 || fault == last[UNLINKAT].fault || (count_of[RENAMEAT2] > 0 ? fault == last[RENAMEAT2].fault : fault == ENOMEM), "answer: the fault of what made no room");
    }
    end();
    return 0;
}

static size_t has_put;

static void is_written(Kind kind)
{
    has_put += kind == WRITE && last[WRITE].fault == 0 ? (size_t)last[WRITE].count : 0;
}

/* harness append: unwind 6, with machines.c, quick */
int append(void)
{
    uint8_t bytes[8];
    size_t len = any_size(), count = any_size();
    GIVEN(len <= sizeof bytes);
    begin();
    it.file = some_file();
    at_call = is_written;
    int fault = replacing_append(&it, bytes, len, &count);
    at_call = NULL;
    CHECK(last[WRITE].file == it.file && last[WRITE].len <= len, "step: the bytes are written to the new file");
    CHECK(fault == last[WRITE].fault && fault != EINTR, "answer: the fault of the write, which goes on if it is interrupted");
    CHECK(count == has_put && (fault != 0 || count == len || last[WRITE].count == 0), "answer: as many as were written, which are all, unless no more can be");
    CHECK(only_new_is_open(), "descriptor: it stays open");
    REACHED("a write");
    end();
    return 0;
}

/* harness sync: unwind 6, with machines.c, quick */
int sync_(void)
{
    FileState state = {.is_there = false};
    size_t bits = any_size();
    GIVEN(bits < 512);
    begin();
    it.file = some_file();
    it.user = any_u32();
    it.group = any_u32();
    int file = it.file, fault = replacing_sync(&it, bits, &state);
    CHECK(it.file < 0 && only_open(folder, -1) && count_of[CLOSE] == 1 && last[CLOSE].file == file, "descriptor: it is closed once, in any case");
    CHECK(count_of[FSYNC] <= 1 && count_of[FCHMOD] <= 1 && count_of[FCHOWN] <= 1, "step: each once");
    CHECK(count_of[FCHMOD] == 0 || (last[FCHMOD].mode & ~(unsigned)bits) == 0, "step: no bits but those");
    if (fault == 0) {
        CHECK(it.is_unsynced || (was_done(FSYNC) && last[FSYNC].file == file), "step: it is on the disk");
        CHECK(count_of[FCHMOD] == 0 || was_done(FCHMOD), "answer: its bits are given");
        CHECK(it.is_unsynced || when_of[FSYNC] > when_of[FCHMOD], "order: its bits, and then the disk");
        CHECK(it.is_unsynced || when_of[FSYNC] > when_of[FCHOWN], "order: its owner, and then the disk");
        CHECK(count_of[FCHOWN] == 0 || count_of[FCHMOD] == 0 || when_of[FCHMOD] > when_of[FCHOWN], "order: its owner, and then its bits");
        CHECK(when_of[CLOSE] == calls && was_done(CLOSE), "answer: it is closed last, without a fault");
        CHECK(state.is_there && was_done(FSTAT) && when_of[FSTAT] > when_of[FSYNC], "order: its state is of after");
        REACHED("it is synced");
    } else {
        CHECK((last[FSTAT].fault == fault) || (last[FCHOWN].fault == fault) || (last[FCHMOD].fault == fault) || (last[FSYNC].fault == fault)
                  || last[CLOSE].fault == fault, "answer: the fault of what failed");
        CHECK(!state.is_there, "answer: a fault has no state");
    }
    end();
    return 0;
}

/* harness set_aside: unwind 8, with machines.c, define MOST_ASIDE=2, quick */
int set_aside(void)
{
    size_t cannot = any_size();
    begin();
    int fault = replacing_set_aside(&it, &cannot);
    const Call *link = &last[LINKAT];
    bool is_asked = count_of[LINKAT] > 0;
    CHECK(is_asked || fault == ENOMEM, "step: a link, but where no memory is left");
    CHECK(!it.is_aside || (is_asked && link->other == it.aside && link->name == name && (link->fault == 0 || link->fault == EEXIST)), "answer: aside is what has the other name");
    if (is_asked && link->fault == 0) {
        CHECK(fault == 0 && cannot == 0 && it.is_aside, "answer: a link that was made is told");
        REACHED("it is set aside");
    }
    if (is_asked && link->fault != 0 && link->fault != EEXIST) {
        DconfdbRenamed renamed;
        uint32_t answer = dconfdb_fault_answer(DCONFDB_CALL_SET_ASIDE, (uint32_t)link->fault, &renamed);
        CHECK(!it.is_aside && (cannot != 0) == (answer == DCONFDB_ANSWER_NAMELESS), "answer: it can't be linked");
        CHECK(fault == (cannot != 0 || answer == DCONFDB_ANSWER_NOTHING ? 0 : link->fault), "answer: the fault of the link");
    }
    end();
    return 0;
}

/* harness exchange: unwind 6, with machines.c, quick */
int exchange(void)
{
    begin();
    it.aside = malloc(8);
    GIVEN(it.aside != NULL);
    memcpy(it.aside, "a~1", 4);
    FileState state = {.device = any_u64(), .inode = any_u64(), .is_there = true}, before = state;
    int fault = replacing_exchange(&it, &state);
    const Call *rename = &last[RENAMEAT2];
    CHECK(it.is_aside == (fault == 0) && fault == (rename->fault == EINVAL ? EOPNOTSUPP : rename->fault), "answer: the fault of the last");
    CHECK(count_of[RENAMEAT2] <= 2, "step: two renames at most");
    CHECK(count_of[RENAMEAT2] != 1 || (rename->flags == RENAME_NOREPLACE && rename->name == it.new_name && rename->other == it.aside), "step: the new file gets a name that nobody has");
    if (count_of[RENAMEAT2] == 2)
        CHECK(rename->flags == RENAME_EXCHANGE && rename->name == it.aside && rename->other == name, "step: they change places");
    CHECK(count_of[UNLINKAT] == 0 || (rename->fault != 0 && rename->fault != EIO && last[UNLINKAT].name == it.aside), "step: what is removed is the new file, and never what may have the name");
    DconfdbRenamed renamed;
    uint32_t answer = dconfdb_fault_answer(DCONFDB_CALL_PLACE, (uint32_t)fault, &renamed);
    CHECK(count_of[UNLINKAT] == 0 || answer != DCONFDB_ANSWER_UNSURE, "step: nothing is removed that may be the old file");
    CHECK(fault == 0 || count_of[RENAMEAT2] != 2 || (count_of[UNLINKAT] == 1) == renamed.goes, "step: what is surely the new file's is removed");
    CHECK(dconfdb_is_one_file(&before, &state), "answer: the state is of the new file");
    CHECK(count_of[FSTATAT] == 0 || (fault == 0 && when_of[FSTATAT] > when_of[RENAMEAT2] && last[FSTATAT].name == name), "order: its state is of after");
    if (fault == 0)
        REACHED("they changed places");
    end();
    return 0;
}

/* harness rename: unwind 6, with machines.c, quick */
int rename_(void)
{
    FileState state = {.device = any_u64(), .inode = any_u64(), .is_there = true}, before = state;
    begin();
    int fault = replacing_rename(&it, &state);
    const Call *call = &last[RENAMEAT];
    CHECK(count_of[RENAMEAT] == 1 && when_of[RENAMEAT] == 1 && call->file == folder && call->name == it.new_name && call->other == name, "step: NAME.new becomes NAME, by one call");
    CHECK(calls == 1 + count_of[FSTATAT] && count_of[FSTATAT] == (fault == 0), "step: and then it is looked at, and nothing else");
    CHECK(fault == call->fault, "answer: the fault of the rename");
    CHECK(dconfdb_is_one_file(&before, &state), "answer: the state is of the new file");
    REACHED("a rename");
    end();
    return 0;
}

/* harness sync_folder: unwind 6, with machines.c, quick */
int sync_folder(void)
{
    begin();
    int fault = replacing_sync_folder(&it);
    CHECK(it.is_unsynced ? calls == 0 && fault == 0 : calls == 1 && count_of[FSYNC] == 1 && last[FSYNC].file == folder, "step: the folder is on the disk, by one call");
    CHECK(fault == last[FSYNC].fault, "answer: the fault of the sync");
    REACHED("a sync");
    end();
    return 0;
}

/* harness remove: unwind 6, with machines.c, quick */
int remove_(void)
{
    begin();
    int fault = replacing_remove(&it);
    const Call *call = &last[UNLINKAT];
    CHECK(calls == 1 && count_of[UNLINKAT] == 1 && call->file == folder && call->name == it.new_name && call->flags == 0, "step: NAME.new is removed, by one call");
    CHECK(fault == (call->fault == ENOENT ? 0 : call->fault), "answer: the fault of the removal, but that a missing file is none");
    REACHED("a removal");
    end();
    return 0;
}

static unsigned asked_old;
static bool was_bad;
static uint32_t owner_answer, owner_bits;

/* Any owner and bits, where there are some. Where it leads, nothing is a link. */
uint32_t dconfdb_owner_and_bits(const DconfdbOldFile *old, const DconfdbFileOwner *above, bool is_root, bool is_bad, DconfdbNewFile *given)
{
    CHECK(old->is_there == was_done(FSTATAT) && is_bad == was_bad, "answer: what is there is what was found");
    CHECK(last[FSTATAT].flags == (asked_old == 0 ? AT_SYMLINK_NOFOLLOW : 0), "step: a link is followed only once that is said");
    CHECK(__CPROVER_r_ok(above, sizeof *above) && was_done(FSTAT) && is_root == (geteuid() == 0), "answer: whose the folder is, and who this is");
    owner_answer = any_u32();
    GIVEN(owner_answer == 0 || owner_answer == EACCES || owner_answer == EAGAIN || (owner_answer == ELOOP && asked_old == 0 && old->is_there && old->is_link && !is_bad));
    asked_old++;
    if (owner_answer == 0)
        *given = (DconfdbNewFile){any_u32(), any_u32(), owner_bits = any_u32()};
    return owner_answer;
}

/* harness look_at_old: unwind 6, with machines.c, quick */
int look_at_old_(void)
{
    size_t bits = any_size();
    FileState read;
    read.is_there = any_bool();
    was_bad = any_bool();
    begin();
    int fault = replacing_look(&it, was_bad, &read, &bits);
    CHECK(count_of[FSTATAT] <= 2 && (count_of[FSTATAT] == 0 || (last[FSTATAT].name == name && last[FSTATAT].file == folder)), "step: NAME is looked at, and no more than where it leads");
    CHECK(fault != 0 || (asked_old > 0 && owner_answer == 0 && bits == owner_bits), "answer: the bits that are given");
    CHECK(fault == 0 || fault == last[FSTATAT].fault || fault == last[FSTAT].fault || (asked_old > 0 && fault == (int)owner_answer), "answer: the fault of what failed");
    if (fault == 0 && count_of[FSTATAT] == 2)
        REACHED("bits, where a link leads");
    end();
    return 0;
}

/* harness settle: unwind 6, with machines.c, quick */
int settle(void)
{
    bool is_readable = any_bool();
    begin();
    GIVEN(!it.is_unsynced); /* else nobody asks for it, as harness/steps.c has it */
    int fault = replacing_settle(&it, is_readable);
    CHECK(only_open(folder, -1), "descriptor: each is closed");
    CHECK(count_of[OPENAT] <= 1 && (count_of[OPENAT] == 0 || (last[OPENAT].name == name && (last[OPENAT].flags & (O_ACCMODE | O_CREAT | O_NONBLOCK)) == (O_RDONLY | O_NONBLOCK))), "step: the file is opened to be read, and nobody waited for");
    if (fault == 0) {
        CHECK(count_of[FSYNC] == 1 + (was_done(OPENAT) ? 1U : 0U) && last[FSYNC].file == folder && was_done(FSYNC), "order: the file, and then its folder");
        CHECK(!is_readable || was_done(OPENAT) || last[OPENAT].fault == ENOENT, "answer: only a missing file needs no sync");
        REACHED("all is on the disk");
    }
    CHECK(fault == 0 || fault == last[OPENAT].fault || fault == last[FSYNC].fault, "answer: the fault of what failed");
    end();
    return 0;
}

static int named_by = -1; /* what came of bringing the folder's own name to the disk */

int folder_sync_name(int folder)
{
    CHECK(is_open(folder) && was_done(FSYNC), "order: the folder is on the disk, and then its name");
    return named_by = any_fault();
}

/* harness folder_settle: unwind 6, with machines.c */
int folder_settle_(void)
{
    const char *of = any_bool() ? "user" : NULL;
    int fault = folder_settle("/f", of);
    CHECK(only_open(-1, -1), "descriptor: each is closed");
    CHECK(count_of[OPEN] == 1, "step: the folder is opened once");
    if (fault == 0) {
        CHECK(last[OPEN].fault == 0 || last[OPEN].fault == ENOENT, "answer: only a missing folder needs no sync");
        CHECK(last[OPEN].fault != 0 || (was_done(FSYNC) && last[FSYNC].file == last[OPEN].count), "order: the file, and then its folder");
        CHECK(last[OPEN].fault != 0 || !of || count_of[OPENAT] == 1, "step: the file is opened");
        CHECK(last[OPEN].fault != 0 || named_by == 0, "order: the folder's own name, too");
        REACHED("all is on the disk");
    }
    CHECK(fault == 0 || fault == last[OPEN].fault || fault == last[OPENAT].fault || fault == last[FSYNC].fault || fault == named_by, "answer: the fault of what failed");
    return 0;
}
