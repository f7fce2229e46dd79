/* What the user's file is with edits, and whether it is that already: by the proved calls. */
#define _DEFAULT_SOURCE
#define _POSIX_C_SOURCE 200809L
#define _FILE_OFFSET_BITS 64
#include "edits.h"
#include "errors.h"
#include "texts.h"

#include <stdlib.h>
#include <string.h>

DconfdbChange change_of_edit(const DconfdbEdit *edit)
{
    const char *type = edit->type ? edit->type : "";
    return (DconfdbChange){{bytes_of(edit->path), strlen(edit->path)},
                           value_of_edit(edit),
                           {bytes_of(type), strlen(type)},
                           edit->type != NULL};
}

/* Room that mostly is enough for the changed file. */
static size_t guess(const DconfdbStore *store, const DconfdbChange *changes, size_t count)
{
    size_t old = store->count > 0 ? store->now->parts[0]->bytes.len : 0, len = 256 + old + old / 8;
    for (size_t i = 0; i < count; i++)
        len += 128 + changes[i].path.len + changes[i].value.len + changes[i].type_text.len;
    return len;
}

/* What the user's file holds. */
static DconfdbBytes old_bytes(const DconfdbSnapshot *now)
{
    const FileBytes *old = now->count > 0 ? &now->parts[0]->bytes : NULL;
    return old ? (DconfdbBytes){bytes_of(old->at), old->len} : (DconfdbBytes)DCONFDB_NOTHING;
}

/* Says why there is no file: it is that change, of an edit, which is at fault, or none (NULL). It returns false. */
static bool refuse_edits(const DconfdbStore *store, uint32_t number, const DconfdbChange *change, size_t edit, DconfdbError *error)
{
    const char *const names[DCONFDB_NAMES] = {[DCONFDB_NAMES_IT] = store->user_file,
                                              [DCONFDB_NAMES_FOLDER] = store->place.folder,
                                              [DCONFDB_NAMES_EDIT] = change ? (const char *)change->path.at : NULL};
    const DconfdbFaultMet met = {
        .of = DCONFDB_FAULT_OF_EDITS, .number = number, .has_user = store->user_file != NULL, .has_edit = change != NULL};
    return tell_met(error, &met, names, (Place){.edit = edit});
}

bool edits_make_file(const DconfdbStore *store, const DconfdbChange *changes, const size_t *edits, size_t count, MadeFile *made,
                     DconfdbError *error)
{
    const DconfdbSnapshot *now = store->now;
    DconfdbBytes old = old_bytes(now);
    FileBytes *file = &made->bytes;
    size_t len = guess(store, changes, count), room_len, at = 0;
    uint32_t number = DCONFDB_OK;
    do {
        room_len = len;
        *file = (FileBytes){malloc(room_len), 0, false};
        if (!file->at)
            return refuse_memory(error);
        number = dconfdb_change(now->layers, now->count, now->is_writable, changes, count, old.at, old.len, file->at, room_len, &len, &at,
                                &made->is_same);
        file->len = len;
        if (number == DCONFDB_OK && len <= room_len)
            return true;
        file_release(file);
    } while (number == DCONFDB_OK);
    return refuse_edits(store, number, at < count ? &changes[at] : NULL, at < count ? edits[at] : 0, error);
}

bool edit_is_made(const DconfdbSnapshot *now, bool may_be, const DconfdbChange *change)
{
    bool is = false;
    (void)dconfdb_is_made(now->layers, now->count, now->is_writable, may_be, change, &is);
    return is;
}

bool dconfdb_snapshot_has_edit(const DconfdbSnapshot *snapshot, const DconfdbEdit *edit)
{
    DconfdbChange change = change_of_edit(edit);
    return edit_is_made(snapshot, true, &change);
}
