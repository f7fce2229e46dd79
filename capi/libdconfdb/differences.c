/* What differs between two snapshots. */
#define _DEFAULT_SOURCE
#define _POSIX_C_SOURCE 200809L
#define _FILE_OFFSET_BITS 64
#include "snapshot.h"
#include "locked.h"

bool have_same_others(const DconfdbSnapshot *one, const DconfdbSnapshot *other)
{
    bool have = one->count > 0 && one->count == other->count;
    for (size_t i = 1; have && i < one->count; i++)
        have = one->parts[i] == other->parts[i];
    return have;
}

static DconfdbLayer no_layer = DCONFDB_EMPTY_LAYER;

static uint32_t lists_differences(const DconfdbSnapshot *snapshot, const void *of, uint8_t *room, size_t room_len, size_t *len)
{
    const DconfdbSnapshot *other = of;
    if (snapshot == other) { /* of itself nothing differs, as is proved */
        *len = 0;
        return DCONFDB_OK;
    }
    return dconfdb_differs(snapshot->layers, snapshot->count, other->layers, other->count, SIZE_MAX, have_same_others(snapshot, other),
                           other->count > 0 ? &other->layers[0] : &no_layer, room, room_len, len);
}

char *dconfdb_snapshot_differences(const DconfdbSnapshot *snapshot, const DconfdbSnapshot *other, size_t *size,
                                   DconfdbError *error)
{
    static const DconfdbSnapshot nothing = {.references = 1, .layers = &no_layer};
    const DconfdbSnapshot *than = other ? other : &nothing;
    return snapshot_listed(lists_differences, snapshot, than, "differences", size, error);
}

/* What is remembered of what others changed. */
typedef struct {
    const DconfdbSnapshot *before;
    bool is_noted;
} Others;

static uint32_t lists_remembered(const DconfdbSnapshot *after, const void *of, uint8_t *room, size_t room_len, size_t *len)
{
    const Others *others = of;
    const DconfdbSnapshot *before = others->before;
    return dconfdb_remembered(before->layers, before->count, after->layers, after->count, before->is_writable, after->is_writable,
                              others->is_noted, room, room_len, len);
}

char *snapshot_remembered(const DconfdbSnapshot *before, const DconfdbSnapshot *after, bool is_noted)
{
    const Others others = {before, is_noted};
    return snapshot_listed(lists_remembered, after, &others, "differences", NULL, NULL);
}

/* ---- whether anything is otherwise */

/* What is known of the files. */
static void know_files(const DconfdbSnapshot *snapshot, DconfdbFileSeen *files)
{
    for (size_t i = 0; i < snapshot->count; i++) {
        const Part *part = snapshot->parts[i];
        const DconfdbError *fault = part_fault(part);
        files[i] = (DconfdbFileSeen){.part = (uintptr_t)part,
                                     .device = part->state.device,
                                     .inode = part->state.inode,
                                     .line = fault ? fault->line : 0,
                                     .code = fault ? (uint32_t)fault->code : 0,
                                     .errnum = fault ? (uint32_t)fault->errnum : 0,
                                     .is_mapped = part->bytes.is_mapped};
    }
}

bool snapshot_is_news(const DconfdbSnapshot *before, const DconfdbSnapshot *after)
{
    DconfdbFileSeen were[MOST_DATABASES], are[MOST_DATABASES];
    bool is = true;
    know_files(before, were);
    know_files(after, are);
    dconfdb_is_changed(before->layers, before->count, after->layers, after->count, before->is_writable, after->is_writable,
                       have_same_others(before, after), were, before->count, are, after->count, &is);
    return is;
}
