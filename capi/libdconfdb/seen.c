/* What a key shows while an edit of it may wait, by the proved calls. */
#define _POSIX_C_SOURCE 200809L
#include "seen.h"
#include "edits.h"
#include "errors.h"
#include "locked.h"
#include "memory.h"
#include "snapshot.h"
#include "texts.h"

#include <stdio.h>
#include <stdlib.h>
#include <string.h>

enum { ROOM_OF_TOLD = 4096, FEW_KEYS = 4 };

static DconfdbWaits waits_of(const DconfdbEdit *edit)
{
    DconfdbWaits waits = DCONFDB_NO_EDIT;
    waits.waits = edit != NULL;
    if (!edit || !edit->type)
        return waits;
    waits.sets = true;
    waits.type_text = text_bytes(edit->type);
    waits.value = value_of_edit(edit);
    return waits;
}

static DconfdbKeyAsked asked_of(const SeenKey *key)
{
    DconfdbBytes no_type = DCONFDB_NOTHING;
    return (DconfdbKeyAsked){text_bytes(key->path), key->type ? text_bytes(key->type) : no_type, waits_of(key->before), waits_of(key->after)};
}

typedef struct {
    const DconfdbSnapshot *before;
    const DconfdbKeyAsked *keys;
    size_t count;
} Beside;

static bool have_others_in_common(const DconfdbSnapshot *before, const DconfdbSnapshot *after)
{
    return before == after || have_same_others(before, after);
}

static uint32_t lists_told(const DconfdbSnapshot *after, const void *of, uint8_t *room, size_t room_len, size_t *len)
{
    const Beside *beside = of;
    const DconfdbSnapshot *before = beside->before;
    return dconfdb_told(before->layers, before->count, after->layers, after->count, before->is_writable, after->is_writable,
                        have_others_in_common(before, after), beside->keys, beside->count, room, room_len, len);
}

static uint32_t lists_relocked(const DconfdbSnapshot *after, const void *of, uint8_t *room, size_t room_len, size_t *len)
{
    const DconfdbSnapshot *before = of;
    return dconfdb_relocked(before->layers, before->count, after->layers, after->count, before->is_writable, after->is_writable,
                            have_others_in_common(before, after), room, room_len, len);
}

typedef struct {
    const DconfdbSnapshot *before;
    const DconfdbBytes *edits;
    size_t count;
} Edits;

static uint32_t lists_own(const DconfdbSnapshot *after, const void *of, uint8_t *room, size_t room_len, size_t *len)
{
    const Edits *edits = of;
    const DconfdbSnapshot *before = edits->before;
    return dconfdb_own_keys(before->layers, before->count, after->layers, after->count, edits->edits, edits->count, room, room_len, len);
}

const DconfdbSnapshot *seen_nothing(void)
{
    static DconfdbLayer no_layer = DCONFDB_EMPTY_LAYER;
    static const DconfdbSnapshot nothing = {.references = 1, .layers = &no_layer};
    return &nothing;
}

/* What is told mostly is little: then the proved calls have their memory on the stack, too. */
static bool is_told(Told *told, Lists *lists, const DconfdbSnapshot *after, const void *of, DconfdbError *error)
{
    LentRoom room;
    _Alignas(16) char bytes[ROOM_OF_TOLD];
    size_t len = 0;
    lend_room(&room, bytes, sizeof bytes);
    uint32_t number = lists(after, of, (uint8_t *)told->few, sizeof told->few - 1, &len);
    take_back_room(&room);
    told->paths = told->few;
    if (number != DCONFDB_OK)
        return refuse_call(error, number, "differences", nowhere);
    if (len >= sizeof told->few)
        told->paths = snapshot_listed_in(len, lists, after, of, "differences", NULL, error);
    else
        told->few[len] = 0;
    return told->paths != NULL;
}

bool seen_otherwise(Told *told, const DconfdbSnapshot *before, const DconfdbSnapshot *after, const SeenKey *keys, size_t count, DconfdbError *error)
{
    DconfdbKeyAsked few[FEW_KEYS], *asked = count <= FEW_KEYS ? few : malloc(count * sizeof *asked);
    if (!asked)
        return refuse_memory(error);
    for (size_t i = 0; i < count; i++)
        asked[i] = asked_of(&keys[i]);
    Beside beside = {or_nothing(before), asked, count};
    bool is = is_told(told, lists_told, or_nothing(after), &beside, error);
    if (asked != few)
        free(asked);
    return is;
}

bool seen_relocked(Told *told, const DconfdbSnapshot *before, const DconfdbSnapshot *after, DconfdbError *error)
{
    return is_told(told, lists_relocked, or_nothing(after), or_nothing(before), error);
}

bool seen_own(Told *told, const DconfdbSnapshot *before, const DconfdbSnapshot *after, const DconfdbBytes *edits, size_t count, DconfdbError *error)
{
    Edits of = {or_nothing(before), edits, count};
    return is_told(told, lists_own, or_nothing(after), &of, error);
}

void seen_free(Told *told)
{
    if (told->paths != told->few)
        free(told->paths);
}

uint32_t tell_next_list(DconfdbTelling *telling)
{
    telling->is_between = true;
    telling->list = dconfdb_tell_next(telling);
    telling->is_between = false;
    return telling->list;
}

void tell_list(const Teller *teller, const void *it, const DconfdbSnapshot *before, const DconfdbSnapshot *after, DconfdbTelling *telling)
{
    Told told;
    bool is_of_rights = telling->list == DCONFDB_TELL_RIGHTS;
    telling->is_found = is_of_rights ? seen_relocked(&told, before, after, NULL) : teller->finds(it, &told);
    const char *paths = telling->is_found ? told.paths : "";
    if (is_of_rights)
        teller->sends_rights(it, telling, paths);
    else
        teller->sends_values(it, telling, paths);
    if (telling->is_found)
        seen_free(&told);
}

bool paths_meet(const char *one, const char *other)
{
    return dconfdb_meets(bytes_of(one), strlen(one), bytes_of(other), strlen(other));
}

bool seen_is_writable(const DconfdbSnapshot *snapshot, bool is_open, const char *path)
{
    const DconfdbSnapshot *of = or_nothing(snapshot);
    return seen_may(dconfdb_may_write(of->layers, of->count, of->is_writable, is_open, bytes_of(path), strlen(path)));
}

_Noreturn void seen_ends(void)
{
    fputs("dconfdb: no memory is left\n", stderr);
    abort();
}
