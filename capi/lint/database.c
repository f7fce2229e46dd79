/* Databases, by the proved calls: their keys, their values, their locks. */
#include "lint.h"

#include "dconfdb_calls.h"
#include "repair.h"

#include <string.h>

/* Texts that a proved call lists, a zero byte after each, and one more: to be freed. */
typedef uint32_t Lists(const DconfdbLayer *layers, uint8_t *room, size_t room_len, size_t *len);

static uint32_t lists_keys(const DconfdbLayer *layers, uint8_t *room, size_t room_len, size_t *len)
{
    return dconfdb_list(layers + 1, 1, true, (const uint8_t *)"/", 1, DCONFDB_LIST_PATHS, room, room_len, len);
}

static uint32_t lists_locks(const DconfdbLayer *layers, uint8_t *room, size_t room_len, size_t *len)
{
    return dconfdb_list(layers, 2, false, (const uint8_t *)"/", 1, DCONFDB_LIST_LOCKS, room, room_len, len);
}

static char *listed(Lists *lists, const DconfdbLayer *layers)
{
    size_t len = 4096, room_len;
    char *room = NULL;
    do {
        room_len = len;
        room = g_realloc(room, room_len + 1);
        if (lists(layers, (uint8_t *)room, room_len, &len) != DCONFDB_OK) /* of an opened layer, and `/`, nothing else is refused */
            g_error("no memory is left");
    } while (len > room_len);
    room[len] = 0;
    return room;
}

/* The value of a key, or NULL if GLib has none of its type. */
static GVariant *value_of(const DconfdbLayer *layer, const char *path)
{
    DconfdbFound found = {DCONFDB_NOTHING, DCONFDB_NOTHING, 0};
    if (!dconfdb_read_alone(layer, true, (const uint8_t *)path, strlen(path), &found))
        return NULL;
    return value_of_bytes(&found.value, &found.type_text);
}

/* layers[1] is the database; the first is empty, since a first database's locks don't count. */
static void check_layer(const Lint *lint, Place at, const DconfdbLayer *layers)
{
    g_autofree char *keys = listed(lists_keys, layers), *locks = listed(lists_locks, layers);
    for (const char *path = keys; *path; path += strlen(path) + 1) {
        GVariant *value = value_of(&layers[1], path);
        check_row(lint, at, path, value);
        if (value)
            g_variant_unref(value);
    }
    for (const char *path = locks; *path; path += strlen(path) + 1)
        check_lock(lint, at, path);
}

static void find_fault(Place at, uint32_t number, const DconfdbUnsound *broken)
{
    DconfdbBytes text = DCONFDB_NOTHING;
    DconfdbSentence sentence;
    const DconfdbFaultMet met = {.of = DCONFDB_FAULT_OF_CALL,
                                 .number = number,
                                 .has_text = dconfdb_fault_text(number, &text),
                                 .has_rule = true,
                                 .has_item = broken->has_item};
    dconfdb_sentence(&met, &sentence);
    switch (sentence.says) {
    case DCONFDB_SAYS_RULE_AT:
        find(DCONFDB_FOUND_UNSOUND, at, "unsound: S%u item %u; what 'repair' keeps is looked at", (unsigned)broken->rule, (unsigned)broken->item);
        break;
    case DCONFDB_SAYS_RULE: find(DCONFDB_FOUND_UNSOUND, at, "unsound: S%u; what 'repair' keeps is looked at", (unsigned)broken->rule); break;
    case DCONFDB_SAYS_TEXT: find(DCONFDB_FOUND_UNSOUND, at, "%.*s", (int)text.len, (const char *)text.at); break;
    default: find(DCONFDB_FOUND_UNSOUND, at, "fault %u", (unsigned)number);
    }
}

void check_database(const Lint *lint, const char *file, FileBytes *bytes)
{
    const Lint alone = {lint->schemas, NULL, lint->site};
    DconfdbLayer layers[2] = {DCONFDB_EMPTY_LAYER, DCONFDB_EMPTY_LAYER};
    DconfdbUnsound broken = {0, 0, false}, nothing = {0, 0, false};
    FileBytes mended = {NULL, 0, false};
    Saved saved = {0, 0, DCONFDB_MENDED_WHOLE, false};
    Place at = {file, 0};
    uint32_t telling = DCONFDB_TELLING_NOTHING, opened;
    static const uint8_t none[1]; /* of an empty file */
    const uint8_t *from = bytes->at ? bytes->at : none;
    uint32_t number = dconfdb_open(&layers[0], false, from, bytes->len, true, true, &layers[1], &broken, &telling);
    opened = telling;
    if (telling == DCONFDB_TELLING_KEPT && repair(bytes, &mended, &saved) == DCONFDB_OK && mended.at)
        dconfdb_open(&layers[0], false, mended.at, mended.len, true, false, &layers[1], &nothing, &opened);
    if (telling == DCONFDB_TELLING_REFUSES || saved.is_told)
        find_fault(at, number, &broken);
    if (opened == DCONFDB_TELLING_NOTHING)
        check_layer(&alone, at, layers);
    file_release(&mended);
}
