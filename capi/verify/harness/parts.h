/* Parts, snapshots and the bytes of files, counted: who has them gives them back, once. No memory is taken for them, and part.c and snapshot.c are not
 * gone through. */
#include "world.h"

enum { FILES = 2, TURN = 7 };

static DconfdbStore store;
static DconfdbSnapshot old_room, newer_room;
static Part old_parts[FILES], new_parts[FILES];
static Part *old_list[FILES], *newer_list[FILES];
static Fault faults[FILES];
static unsigned made;                  /* how many of new_parts there are */
static bool has_newer, has_bytes_read; /* a newer snapshot, and what was read or made and is nobody's yet */
static uint8_t some_bytes[4];
static unsigned refused;               /* how many faults were told */

/* ---- bytes: they are read, and then a part's, or released */

#ifndef RELEASES
void file_release(FileBytes *bytes)
{
    CHECK(bytes->at == NULL || has_bytes_read, "memory: what is released was read, and is nobody's yet");
    has_bytes_read = has_bytes_read && bytes->at == NULL;
    *bytes = (FileBytes){NULL, 0, false};
}
#endif

static Part *some_part(const FileBytes *bytes)
{
    CHECK(made < FILES, "step: a file is opened once");
    if (bytes->at) {
        CHECK(has_bytes_read, "memory: the bytes are a part's once");
        has_bytes_read = false;
    }
    if (any_bool())
        return NULL;
    Part *part = &new_parts[made++];
    part->references = 1;
    part->fault = NULL;
    return part;
}

void part_unref(Part *part)
{
    CHECK(!part || part->references > 0, "memory: what is given back is had");
    if (part)
        part->references--;
}

DconfdbSnapshot *snapshot_new(size_t count, bool is_writable)
{
    CHECK(!has_newer && count <= FILES, "step: one newer snapshot");
    if (any_bool())
        return NULL;
    has_newer = true;
    newer_room = (DconfdbSnapshot){.references = 1, .is_writable = is_writable, .count = count, .parts = newer_list};
    newer_list[0] = newer_list[1] = NULL;
    return &newer_room;
}

void snapshot_put(DconfdbSnapshot *snapshot, size_t at, Part *part)
{
    CHECK(snapshot == &newer_room && at < snapshot->count && !newer_list[at] && part->references > 0, "memory: a part that is had, in a place that is free");
    newer_list[at] = part;
}

void dconfdb_snapshot_unref(DconfdbSnapshot *snapshot)
{
    if (!snapshot)
        return;
    CHECK(snapshot == &old_room || has_newer, "memory: a snapshot is given back once");
    CHECK(snapshot->references > 0, "memory: what is given back is had");
    if (--snapshot->references > 0)
        return;
    CHECK(snapshot != store.now, "memory: the store's own snapshot stays as long as it has it");
    if (snapshot == &old_room)
        return;
    has_newer = false;
    for (size_t i = 0; i < FILES; i++)
        part_unref(newer_list[i]);
}

DconfdbSnapshot *dconfdb_snapshot_ref(DconfdbSnapshot *snapshot)
{
    CHECK(snapshot->references > 0, "memory: what is had once more is had");
    snapshot->references++;
    return snapshot;
}

bool refuse_memory(DconfdbError *error)
{
    (void)error;
    refused++;
    return false;
}

/* A store of up to two files, with a snapshot or none. */
static void set_up_store(void)
{
    static char users[] = "/f/u", others[] = "/f/o";
    bool has_old = any_bool();
    store.count = any_size();
    GIVEN(store.count <= FILES);
    store.files[0] = users;
    store.files[1] = others;
    store.user_file = store.count > 0 && any_bool() ? users : NULL;
    store.own_name = users + 3;
    store.options.is_lenient = any_bool();
    old_room = (DconfdbSnapshot){.references = 1, .count = store.count, .parts = old_list};
    for (size_t i = 0; i < FILES; i++) {
        old_parts[i].references = 1;
        old_parts[i].fault = any_bool() ? &faults[i] : NULL;
        faults[i].aside = any_bool() ? store.files[0] : NULL;
        old_list[i] = &old_parts[i];
    }
    store.now = has_old ? &old_room : NULL;
}

