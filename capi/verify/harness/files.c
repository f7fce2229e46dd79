/* common/files.c: a file is read, or looked at: each call is made once, and it is answered by what the system answered. */
#include "common/files.c"
#include "machines.h"
#include "world.h"

/* What files.c asks of tries.c, which is not gone through: a try, or two. */
int try_on(uint32_t what, uint32_t tried, int fault, Tries *tries, void *it)
{
    CHECK(what == DCONFDB_WAIT_FOR_LEASE && tried == DCONFDB_TRIED_FILE && fault > 0, "step: a lease is waited for, once a try failed");
    if (fault == EWOULDBLOCK)
        CHECK(tries(it, &fault) == DCONFDB_TRIED_FILE, "answer: the file was opened");
    return fault;
}

static bool is_wanted(const uint8_t *head, size_t len)
{
    CHECK(__CPROVER_r_ok(head, len) && len <= HEAD, "memory: the head's bytes are there");
    CHECK(((uintptr_t)head & 7) == 0, "memory: the head is aligned as a file's bytes are");
    return any_bool();
}

/* harness file_read: unwind 5, with machines.c, quick */
int file_read_(void)
{
    FileBytes bytes;
    FileState state;
    int folder = any_bool() ? NO_FOLDER : some_file();
    bool maps = any_bool();
    size_t most = any_size();
    GIVEN(most <= 4294967295U);
    int fault = file_read(folder, "user", maps, any_bool() ? is_wanted : NULL, most, &bytes, &state);
    CHECK(only_open(folder, -1), "descriptor: each is closed");
    CHECK(count_of[OPENAT] <= 2, "step: the file is opened once, or once more after a lease");
    if (count_of[OPENAT] > 0) {
        CHECK(last[OPENAT].file == folder && (last[OPENAT].flags & O_ACCMODE) == O_RDONLY, "step: it is opened in its folder, to be read");
        CHECK((last[OPENAT].flags & O_NONBLOCK) != 0 && (last[OPENAT].flags & O_NOCTTY) != 0, "step: no pipe's writer is waited for");
        CHECK(count_of[FSTATAT] == 1 && when_of[FSTATAT] < when_of[OPENAT], "order: what has the name is looked at before it is opened");
        CHECK(last[OPENAT].fault == 0 || fault == (last[OPENAT].fault == ENOENT ? 0 : last[OPENAT].fault), "answer: the fault of the open");
    }
    if (fault != 0)
        CHECK(bytes.at == NULL && bytes.len == 0 && !bytes.is_mapped && !is_mapped(), "answer: a fault has no bytes");
    if (fault == 0 && !state.is_there)
        CHECK(bytes.at == NULL && (count_of[OPENAT] > 0 ? last[OPENAT].fault : last[FSTATAT].fault) == ENOENT, "answer: only ENOENT is a missing file");
    if (fault == 0 && state.is_there) {
        CHECK(was_done(OPENAT) && was_done(FSTAT), "answer: the state is of what was opened");
        CHECK((uintmax_t)state.size <= most, "answer: no file is longer than was asked");
        CHECK(bytes.len <= (size_t)state.size, "answer: no more bytes than the file has");
        CHECK(bytes.len == 0 || __CPROVER_r_ok(bytes.at, bytes.is_mapped ? 1 : bytes.len), "memory: the bytes are there");
        CHECK(bytes.is_mapped == is_mapped(), "answer: mapped is what was mapped");
        CHECK(!bytes.is_mapped || bytes.len == (size_t)state.size, "answer: a mapping is whole");
        REACHED("a file is read");
    }
    CHECK(fault != EINTR || count_of[READ] == 0 || last[READ].fault != EINTR, "answer: an interrupted read goes on");
    file_release(&bytes);
    CHECK(!is_mapped() && bytes.at == NULL, "memory: it is released");
    return 0;
}

/* harness file_look: unwind 3, with machines.c, quick */
int file_look_(void)
{
    FileState state;
    int fault = file_look("/f/user", &state);
    CHECK(calls == 1 && count_of[STAT] == 1, "step: one call");
    CHECK(fault == (last[STAT].fault == ENOENT ? 0 : last[STAT].fault), "answer: the fault of the look, but that a missing file is none");
    CHECK(state.is_there == (last[STAT].fault == 0), "answer: there, if it was found");
    REACHED("a look");
    return 0;
}
