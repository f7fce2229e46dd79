/* A key that is set, and a lock. */
#include "lint.h"

#include <string.h>

uint32_t finding_alone(const DconfdbFinding *known, const char *name)
{
    const DconfdbBytes nothing = DCONFDB_NOTHING;
    return dconfdb_finding(known, (const uint8_t *)name, strlen(name), &nothing, 0);
}

static void find_missing(const Lint *lint, uint32_t kind, Place at, const char *what, const char *path)
{
    char *near = schemas_nearest(lint->schemas, path);
    find_near(kind, at, near, what, path);
    g_free(near);
}

/* Whether an earlier line sets the key, of this file or of one before it in the folder. */
static void check_first(const Lint *lint, Place at, const char *path)
{
    if (!lint->set)
        return;
    const Place *first = g_hash_table_lookup(lint->set, path);
    const DconfdbFinding known = {.what = DCONFDB_OF_KEY_AGAIN, .is_known = first != NULL};
    if (finding_alone(&known, path) == DCONFDB_FINDING_SET_TWICE)
        find(DCONFDB_FOUND_SET_TWICE, at, "%s is set already, at %s:%zu", path, first ? first->file : "", first ? first->line : 0);
    if (first)
        return;
    Place *kept = g_new(Place, 1);
    *kept = at;
    g_hash_table_insert(lint->set, g_strdup(path), kept);
}

/* Finds what is wrong with it. Gives whether nothing is. */
static bool find_it(const Lint *lint, Place at, const char *path, const DconfdbFinding *known, const GPtrArray *keys, GVariant *value)
{
    switch (schemas_finding(lint->schemas, path, known)) {
    case DCONFDB_FINDING_NO_KEY: find_missing(lint, DCONFDB_FOUND_NO_KEY, at, "no schema has the key", path); return false;
    case DCONFDB_FINDING_NO_LOCKED_KEY: find_missing(lint, DCONFDB_FOUND_NO_LOCKED_KEY, at, "no schema has the locked key", path); return false;
    case DCONFDB_FINDING_NO_LOCKED_DIRECTORY:
        find_missing(lint, DCONFDB_FOUND_NO_LOCKED_DIRECTORY, at, "no schema has a key below the locked directory", path);
        return false;
    case DCONFDB_FINDING_OTHER_TYPE: find_other_type(at, path, keys, value); return false;
    case DCONFDB_FINDING_NOT_TAKEN: find_not_taken(at, path, keys, value); return false;
    default: return true;
    }
}

void check_row(const Lint *lint, Place at, const char *path, GVariant *value)
{
    const GPtrArray *keys = NULL;
    DconfdbFinding known = schemas_key(lint->schemas, path, DCONFDB_OF_KEY, &keys);
    if (keys && value)
        judge_value(path, keys, value, &known);
    find_it(lint, at, path, &known, keys, value);
    check_first(lint, at, path);
    if (lint->site)
        site_sets(lint->site, path);
}

void check_lock(const Lint *lint, Place at, const char *path)
{
    const GPtrArray *keys = NULL;
    bool is_short;
    bool is_directory = dconfdb_path_kind((const uint8_t *)path, strlen(path), DCONFDB_PATH_WANTED, false, &is_short) == DCONFDB_PATH_DIRECTORY;
    DconfdbFinding known = is_directory ? schemas_directory(lint->schemas, path) : schemas_key(lint->schemas, path, DCONFDB_OF_LOCKED_KEY, &keys);
    bool is_fine = find_it(lint, at, path, &known, NULL, NULL);
    if (lint->site)
        site_locks(lint->site, at, path, is_fine);
}
