/* libdconfdb/snapshot.c: a snapshot of up to three files, two of which take no memory of their own; and what a call lists, into rooms of any size. */
#define FEW_DATABASES 2
#include "libdconfdb/snapshot.c"
#include "world.h"

/* narrows libdconfdb/dconfdb.h: char text[512]; => char text[8]; */

enum { FILES = 3 };

static Part parts[FILES];
static unsigned refused;

void part_unref(Part *part)
{
    CHECK(part->references > 0, "memory: what is given back is had");
    part->references--;
}

bool refuse_memory(DconfdbError *error)
{
    (void)error;
    refused++;
    return false;
}

bool refuse_call(DconfdbError *error, uint32_t number, const char *name, Place place)
{
    (void)error, (void)place;
    CHECK(number != DCONFDB_OK && __CPROVER_r_ok(name, 1), "answer: a fault of the call, and whose it is");
    refused++;
    return false;
}

/* A snapshot that may be had twice, of a number of files that is known: so its rooms have one size. */
static void has_parts(size_t count)
{
    bool is_writable = any_bool();
    DconfdbSnapshot *it = snapshot_new(count, is_writable);
    if (!it)
        return;
    CHECK(it->count == count && it->is_writable == is_writable && it->references == 1, "answer: it is of so many files, and had once");
    for (size_t i = 0; i < count; i++) {
        CHECK(it->parts[i] == NULL, "answer: no part is there that was not put in");
        parts[i].references = 1;
        snapshot_put(it, i, &parts[i]);
    }
    if (any_bool()) {
        CHECK(dconfdb_snapshot_ref(it) == it, "answer: it is the same, had once more");
        dconfdb_snapshot_unref(it);
        for (size_t i = 0; i < count; i++)
            CHECK(it->parts[i] == &parts[i] && parts[i].references == 1, "memory: it stays as long as somebody has it");
    }
    dconfdb_snapshot_unref(it);
    for (size_t i = 0; i < count; i++)
        CHECK(parts[i].references == 0, "memory: each part is given back once");
    if (count == FILES)
        REACHED("three files");
}

/* harness snapshot: unwind 5 */
int snapshot(void)
{
    if (any_bool())
        has_parts(FILES);
    else
        has_parts(FEW_DATABASES);
    dconfdb_snapshot_unref(NULL);
    return 0;
}

static size_t needed;
static unsigned asked, grows_left = 1;

/* What is listed may become longer between two calls, once. */
static uint32_t lists_some(const DconfdbSnapshot *of, const void *what, uint8_t *room, size_t room_len, size_t *len)
{
    (void)of, (void)what;
    CHECK(__CPROVER_w_ok(room, room_len), "memory: room that is there");
    asked++;
    if (any_bool())
        return DCONFDB_MEMORY;
    size_t more = any_size();
    GIVEN(more < 4096 && (more <= needed || grows_left > 0));
    grows_left -= more > needed;
    *len = needed = more;
    return DCONFDB_OK;
}

/* harness snapshot_lists: unwind 5 */
int snapshot_lists(void)
{
    static DconfdbSnapshot of;
    size_t size = 7;
    size_t first = any_size();
    GIVEN(first < 4096);
    char *room = snapshot_listed_in(first, lists_some, &of, "/", "/", any_bool() ? &size : NULL, NULL);
    CHECK((room != NULL) == (refused == 0), "answer: what failed is told, once");
    CHECK(refused <= 1 && asked <= 3, "step: it is asked once more for each time that the room is too small");
    if (!room)
        return 0;
    CHECK(__CPROVER_r_ok(room, needed + 1) && room[needed] == 0, "answer: a zero byte is behind it");
    CHECK(size == 7 || size == needed, "answer: how long it is");
    if (asked > 1)
        REACHED("a room that was too small");
    free(room);
    return 0;
}
