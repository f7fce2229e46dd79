/* common/repair.c: what is read of a file that is no sound database, into a room that may be too small. */
#include "common/repair.c"
#include "world.h"

enum { LONGEST = 4096 };

static FileBytes file;
static size_t needed, keys, locks;
static uint32_t standing, number;
static unsigned asked, grows_left = 1;

/* As files.c has it of what is malloc()'s. */
void file_release(FileBytes *bytes)
{
    CHECK(bytes != &file, "memory: the file's own bytes stay");
    free(bytes->at);
    *bytes = (FileBytes){NULL, 0, false};
}

/* A proved call: any answer. What is kept of a file is longer than that at most once, since the file may change meanwhile. */
uint32_t dconfdb_mend(const uint8_t *bytes, size_t len, uint8_t *room, size_t room_len, size_t *mended_len, uint32_t *as, bool *is_told, size_t *of_keys,
                      size_t *of_locks)
{
    CHECK(bytes == (file.at ? file.at : dconfdb_empty_file) && len == file.len, "step: the file's bytes, which are there");
    CHECK(__CPROVER_w_ok(room, room_len), "memory: room that is there");
    asked++;
    number = any_bool() ? DCONFDB_MEMORY : DCONFDB_OK;
    if (number != DCONFDB_OK)
        return number;
    size_t more = any_size();
    GIVEN(more <= 3 * LONGEST && (more <= room_len || grows_left > 0));
    grows_left -= more > room_len;
    standing = any_u32();
    GIVEN(standing <= DCONFDB_MENDED_NOTHING);
    needed = standing == DCONFDB_MENDED_NOTHING ? 0 : more;
    *mended_len = needed;
    *as = standing;
    *is_told = any_bool();
    keys = *of_keys = any_size();
    locks = *of_locks = any_size();
    return DCONFDB_OK;
}

/* harness repair: unwind 4, quick */
int repair_(void)
{
    static uint8_t some_bytes[8];
    FileBytes mended;
    Saved saved;
    file = any_bool() ? (FileBytes){some_bytes, any_size(), any_bool()} : (FileBytes){NULL, 0, false};
    GIVEN(file.len <= LONGEST);
    uint32_t is = repair(&file, &mended, &saved);
    CHECK(is == DCONFDB_OK || is == DCONFDB_MEMORY, "answer: it is read, or no memory is left");
    CHECK(asked <= 2, "step: it is asked once more where the room was too small");
    CHECK(is == DCONFDB_OK || mended.at == NULL, "memory: of what failed nothing is handed out");
    if (is != DCONFDB_OK)
        return 0;
    CHECK(number == DCONFDB_OK && saved.standing == standing && saved.keys == keys && saved.locks == locks, "answer: what the call said last");
    CHECK((mended.at == NULL) == (standing == DCONFDB_MENDED_NOTHING), "answer: bytes, unless it counts as nothing");
    CHECK(mended.len == needed && !mended.is_mapped, "answer: as many as are kept");
    CHECK(!mended.at || __CPROVER_r_ok(mended.at, mended.len), "memory: they are there");
    if (asked == 2 && mended.at)
        REACHED("a room that was too small");
    file_release(&mended);
    return 0;
}
