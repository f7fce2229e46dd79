/* libdconfdb/edits.c: the bytes of the user's file with edits, into rooms of any size, with any answer of the proved call. */
#define MOST_DATABASES 2
#define FEW_DATABASES 2
#define RELEASES
#include "libdconfdb/edits.c"
#include "parts.h"

/* narrows libdconfdb/dconfdb.h: char text[512]; => char text[8]; */
/* stubs libdconfdb/edits.c: guess */

static size_t guess(const DconfdbStore *at, const DconfdbChange *changes, size_t count)
{
    (void)at, (void)changes, (void)count;
    size_t len = any_size();
    GIVEN(len < 4096);
    return len;
}

void file_release(FileBytes *bytes)
{
    free(bytes->at);
    *bytes = (FileBytes){NULL, 0, false};
}

static size_t needed, at_fault;
static uint32_t answered;
static unsigned asked, grows_left = 1;
static bool says_same;

uint32_t dconfdb_change(const DconfdbLayer *layers, size_t n, bool writable, const DconfdbChange *changes, size_t changes_len, const uint8_t *old,
                        size_t old_len, uint8_t *room, size_t room_len, size_t *len, size_t *at, bool *is_same)
{
    (void)layers, (void)changes;
    CHECK(n == store.count && writable == old_room.is_writable && __CPROVER_w_ok(room, room_len), "memory: layers and room that are there");
    CHECK(old == old_parts[0].bytes.at && old_len == old_parts[0].bytes.len, "step: what the user's file holds");
    asked++;
    answered = any_u32();
    if (answered != DCONFDB_OK) {
        *at = at_fault = any_size();
        GIVEN(at_fault <= changes_len);
        return answered;
    }
    size_t more = any_size();
    GIVEN(more < 4096 && (more <= needed || grows_left > 0));
    grows_left -= more > needed;
    *len = needed = more;
    *is_same = says_same = any_bool();
    return DCONFDB_OK;
}

static Place told;

bool tell_met(DconfdbError *error, const DconfdbFaultMet *met, const char *const names[], Place place)
{
    (void)error;
    CHECK(met->of == DCONFDB_FAULT_OF_EDITS && met->number == answered && answered != DCONFDB_OK, "answer: the fault of the call");
    CHECK(names[DCONFDB_NAMES_IT] == store.user_file && met->has_user && names[DCONFDB_NAMES_FOLDER] == store.place.folder, "answer: the names of the store");
    CHECK(!met->has_edit || __CPROVER_r_ok(names[DCONFDB_NAMES_EDIT], 1), "answer: the path of an edit");
    told = place;
    refused++;
    return false;
}

/* harness edits_make: unwind 5, quick */
int edits_make(void)
{
    static uint8_t paths[2][2] = {"a", "b"};
    static const size_t numbers[2] = {3, 4};
    DconfdbChange changes[2];
    MadeFile made_file;
    size_t count = any_size();
    GIVEN(count <= 2);
    changes[0].path = (DconfdbBytes){paths[0], 1};
    changes[1].path = (DconfdbBytes){paths[1], 1};
    set_up_store();
    GIVEN(store.user_file);
    store.now = &old_room;
    old_room.is_writable = any_bool();
    old_parts[0].bytes = (FileBytes){some_bytes, any_bool() ? sizeof some_bytes : 0, false};
    bool is = edits_make_file(&store, changes, numbers, count, &made_file, NULL);
    FileBytes file = made_file.bytes;
    CHECK(is ? refused == 0 : refused == 1, "answer: what failed is told, once");
    CHECK(asked <= 3, "step: it is asked once more for each time that the room is too small");
    CHECK(!is || (file.at && file.len == needed && !file.is_mapped && __CPROVER_r_ok(file.at, file.len)), "answer: the bytes, as many as were made");
    CHECK(!is || made_file.is_same == says_same, "answer: whether they are those that were there");
    CHECK(is || !file.at, "answer: a fault has no bytes");
    CHECK(is || asked == 0 || answered == DCONFDB_OK || told.edit == (at_fault < count ? numbers[at_fault] : nowhere.edit), "answer: the edit that is at fault");
    if (is && asked > 1)
        REACHED("a room that was too small");
    if (!is && told.edit != nowhere.edit)
        REACHED("an edit's fault");
    free(file.at);
    return 0;
}
