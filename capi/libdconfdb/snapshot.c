/* What a snapshot has: each answer is that of a proved call over its layers. */
#define _DEFAULT_SOURCE
#define _POSIX_C_SOURCE 200809L
#define _FILE_OFFSET_BITS 64
#include "snapshot.h"
#include "errors.h"
#include "memory.h"
#include "paths.h"
#include "texts.h"

#include <stddef.h>
#include <stdio.h>
#include <stdlib.h>
#include <string.h>

enum { ROOM_OF_FATE = 128 };

static void snapshot_free(DconfdbSnapshot *snapshot)
{
    if (snapshot->count > FEW_DATABASES) {
        free(snapshot->parts);
        free(snapshot->layers);
    }
    free(snapshot);
}

/* False: no memory is left. */
static bool has_rooms(DconfdbSnapshot *snapshot, size_t count)
{
    snapshot->parts = snapshot->few_parts;
    snapshot->layers = snapshot->few_layers;
    if (count <= FEW_DATABASES)
        return true;
    snapshot->parts = malloc(count * sizeof *snapshot->parts);
    snapshot->layers = malloc(count * sizeof *snapshot->layers);
    return snapshot->parts && snapshot->layers;
}

DconfdbSnapshot *snapshot_new(size_t count, bool is_writable)
{
    DconfdbSnapshot *snapshot = malloc(sizeof *snapshot);
    if (!snapshot)
        return NULL;
    snapshot->references = 1;
    snapshot->is_writable = is_writable;
    snapshot->count = count;
    if (!has_rooms(snapshot, count)) {
        snapshot_free(snapshot);
        return NULL;
    }
    for (size_t i = 0; i < count; i++)
        snapshot->parts[i] = NULL;
    return snapshot;
}

void snapshot_put(DconfdbSnapshot *snapshot, size_t at, Part *part)
{
    snapshot->parts[at] = part;
    snapshot->layers[at] = part->layer;
}

DconfdbSnapshot *dconfdb_snapshot_ref(DconfdbSnapshot *snapshot)
{
    atomic_fetch_add(&snapshot->references, 1);
    return snapshot;
}

void dconfdb_snapshot_unref(DconfdbSnapshot *snapshot)
{
    if (!snapshot || atomic_fetch_sub(&snapshot->references, 1) != 1)
        return;
    for (size_t i = 0; i < snapshot->count; i++)
        part_unref(snapshot->parts[i]);
    snapshot_free(snapshot);
}

size_t dconfdb_snapshot_databases(const DconfdbSnapshot *snapshot)
{
    return snapshot->count;
}

const char *dconfdb_snapshot_file(const DconfdbSnapshot *snapshot, size_t database)
{
    return database < snapshot->count ? snapshot->parts[database]->name : NULL;
}

/* What becomes of a bad file, after what is wrong with it. The text has its memory here. */
static int say_fate(char *text, size_t size, const Fault *fault, size_t database)
{
    _Alignas(max_align_t) char bytes[SMALL_ROOM];
    uint8_t fate[ROOM_OF_FATE];
    LentRoom room;
    size_t len = 0;
    lend_room(&room, bytes, sizeof bytes);
    uint32_t number = dconfdb_fate_text(fault->saved.keys, fault->saved.locks, database == 0, fault->aside != NULL, fate, sizeof fate, &len);
    take_back_room(&room);
    if (number != DCONFDB_OK || len > sizeof fate)
        return 0;
    return snprintf(text, size, "%s%s%.*s", fault->aside ? "; it is now " : "", fault->aside ? fault->aside : "", (int)len, (const char *)fate);
}

bool dconfdb_snapshot_fault(const DconfdbSnapshot *snapshot, size_t database, DconfdbError *error)
{
    const Fault *fault = database < snapshot->count ? snapshot->parts[database]->fault : NULL;
    if (!fault || !error)
        return fault != NULL;
    hand_out(&fault->error, error);
    size_t len = strlen(error->text), room = sizeof error->text - len;
    int wanted = say_fate(error->text + len, room, fault, database);
    if (wanted >= 0 && (size_t)wanted >= room)
        memcpy(error->text + sizeof error->text - 4, "...", 4);
    return true;
}

/* Where no database is the user's no file is asked of: none was there, and none is. */
bool dconfdb_snapshot_is_newest(const DconfdbSnapshot *snapshot)
{
    static const Part no_file = {.state = {.is_there = false}};
    const Part *own = snapshot->is_writable ? snapshot->parts[0] : &no_file;
    FileState state = {.is_there = false};
    int fault = own == &no_file ? 0 : file_look(own->name, &state);
    return part_beside(own, DCONFDB_PART_TELL, &state, fault) == DCONFDB_BESIDE_SAME;
}

_Static_assert(offsetof(DconfdbValue, data) == offsetof(DconfdbFound, value.at)
                   && offsetof(DconfdbValue, size) == offsetof(DconfdbFound, value.len)
                   && offsetof(DconfdbValue, type) == offsetof(DconfdbFound, type_text.at)
                   && offsetof(DconfdbValue, type_size) == offsetof(DconfdbFound, type_text.len)
                   && offsetof(DconfdbValue, origin) == offsetof(DconfdbFound, origin)
                   && offsetof(DconfdbValue, passed) == sizeof(DconfdbFound),
               "a value begins with what the proved calls find, so that they fill it in place");

/* Where a call puts what it finds. It holds nothing before, so that it is valid. Two copies take fewer instructions than a store
 * for each field. */
static DconfdbFound *room_in(DconfdbValue *value)
{
    static const DconfdbBytes nothing = DCONFDB_NOTHING;
    memcpy(value, &nothing, sizeof nothing);
    memcpy((char *)value + offsetof(DconfdbValue, type), &nothing, sizeof nothing);
    value->origin = value->passed = 0;
    return (DconfdbFound *)value;
}

bool snapshot_read_at(const DconfdbSnapshot *snapshot, const char *path, size_t len, DconfdbValue *value)
{
    DconfdbFound *found = room_in(value);
    return dconfdb_read(snapshot->layers, snapshot->count, bytes_of(path), len, found);
}

bool dconfdb_snapshot_read(const DconfdbSnapshot *snapshot, const char *path, DconfdbValue *value)
{
    DconfdbFound *found = room_in(value);
    return dconfdb_read(snapshot->layers, snapshot->count, bytes_of(path), strlen(path), found);
}

bool dconfdb_snapshot_read_default(const DconfdbSnapshot *snapshot, const char *path, DconfdbValue *value)
{
    DconfdbFound *found = room_in(value);
    return dconfdb_read_default(snapshot->layers, snapshot->count, snapshot->is_writable, bytes_of(path), strlen(path), found);
}

bool dconfdb_snapshot_read_user(const DconfdbSnapshot *snapshot, const char *path, DconfdbValue *value)
{
    DconfdbFound *found = room_in(value);
    return dconfdb_read_alone(snapshot->layers, snapshot->is_writable, bytes_of(path), strlen(path), found);
}

bool dconfdb_snapshot_is_locked(const DconfdbSnapshot *snapshot, const char *path)
{
    return dconfdb_is_locked(snapshot->layers, snapshot->count, bytes_of(path), strlen(path));
}

bool dconfdb_snapshot_is_writable(const DconfdbSnapshot *snapshot, const char *path)
{
    return dconfdb_is_writable(snapshot->layers, snapshot->count, snapshot->is_writable, bytes_of(path), strlen(path));
}

/* ---- what is listed */

static uint32_t lists_as(const DconfdbSnapshot *snapshot, const void *directory, uint32_t what, uint8_t *room, size_t room_len, size_t *len)
{
    return dconfdb_list(snapshot->layers, snapshot->count, snapshot->is_writable, directory, strlen(directory), what, room, room_len, len);
}

static uint32_t lists_names(const DconfdbSnapshot *snapshot, const void *of, uint8_t *room, size_t room_len, size_t *len)
{
    return lists_as(snapshot, of, DCONFDB_LIST_NAMES, room, room_len, len);
}

static uint32_t lists_users_names(const DconfdbSnapshot *snapshot, const void *of, uint8_t *room, size_t room_len, size_t *len)
{
    return lists_as(snapshot, of, DCONFDB_LIST_OWN, room, room_len, len);
}

static uint32_t lists_locks(const DconfdbSnapshot *snapshot, const void *of, uint8_t *room, size_t room_len, size_t *len)
{
    return lists_as(snapshot, of, DCONFDB_LIST_LOCKS, room, room_len, len);
}

static uint32_t lists_paths(const DconfdbSnapshot *snapshot, const void *of, uint8_t *room, size_t room_len, size_t *len)
{
    return lists_as(snapshot, of, DCONFDB_LIST_PATHS, room, room_len, len);
}

/* Calls with a room of so many bytes, and else with one that is enough. */
char *snapshot_listed_in(size_t len, Lists *lists, const DconfdbSnapshot *snapshot, const void *of, const char *name, size_t *size,
                         DconfdbError *error)
{
    size_t room_len;
    uint32_t number = DCONFDB_MEMORY;
    do {
        room_len = len;
        char *room = malloc(room_len + 1);
        if (!room) {
            refuse_memory(error);
            return NULL;
        }
        number = lists(snapshot, of, (uint8_t *)room, room_len, &len);
        if (number == DCONFDB_OK && len <= room_len) {
            room[len] = 0;
            if (size)
                *size = len;
            return room;
        }
        free(room);
    } while (number == DCONFDB_OK);
    refuse_call(error, number, name, nowhere);
    return NULL;
}

/* The same with a room that mostly is enough. */
char *snapshot_listed(Lists *lists, const DconfdbSnapshot *snapshot, const void *of, const char *name, size_t *size,
                    DconfdbError *error)
{
    return snapshot_listed_in(1024, lists, snapshot, of, name, size, error);
}

char *dconfdb_snapshot_list(const DconfdbSnapshot *snapshot, const char *directory, size_t *size, DconfdbError *error)
{
    return snapshot_listed(lists_names, snapshot, directory, directory, size, error);
}

char *dconfdb_snapshot_list_user(const DconfdbSnapshot *snapshot, const char *directory, size_t *size, DconfdbError *error)
{
    return snapshot_listed(lists_users_names, snapshot, directory, directory, size, error);
}

/* Files mostly are longer than their keys' paths, and what is made of each key takes no more than four times that. What is not written
 * takes no memory. */
char *snapshot_paths(const DconfdbSnapshot *snapshot, const char *directory, DconfdbError *error)
{
    enum { MOST_AT_FIRST = 16 << 20, TIMES = 4 };
    LentRoom room;
    size_t len = 1024;
    for (size_t i = 0; i < snapshot->count && len < MOST_AT_FIRST; i++)
        len += snapshot->layers[i].values.file.len;
    len = len < MOST_AT_FIRST ? len : MOST_AT_FIRST;
    void *bytes = malloc(TIMES * len);
    if (bytes)
        lend_room(&room, bytes, TIMES * len);
    char *paths = snapshot_listed_in(len, lists_paths, snapshot, directory, directory, NULL, error);
    if (bytes)
        take_back_room(&room);
    free(bytes);
    return paths;
}

char *dconfdb_snapshot_locks(const DconfdbSnapshot *snapshot, const char *directory, size_t *size, DconfdbError *error)
{
    return snapshot_listed(lists_locks, snapshot, directory, directory, size, error);
}
