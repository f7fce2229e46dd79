/* The keys below a directory: their paths by one proved call, and then a read of each. */
#include "dconfdb.h"
#include "errors.h"
#include "paths.h"

#include <stdlib.h>
#include <string.h>

struct DconfdbIterator {
    DconfdbSnapshot *snapshot;
    char *paths; /* a zero byte after each, and one more */
    const char *next;
};

DconfdbIterator *dconfdb_snapshot_iterate(const DconfdbSnapshot *snapshot, const char *directory, DconfdbError *error)
{
    DconfdbIterator *iterator = malloc(sizeof *iterator);
    if (!iterator) {
        refuse_memory(error);
        return NULL;
    }
    char *paths = snapshot_paths(snapshot, directory, error);
    if (!paths) {
        free(iterator);
        return NULL;
    }
    *iterator = (DconfdbIterator){dconfdb_snapshot_ref((DconfdbSnapshot *)snapshot), paths, paths};
    return iterator;
}

/* What is seen at no key is passed over, such as a user's value of a locked key without a default. */
bool dconfdb_iterator_next(DconfdbIterator *iterator, const char **path, DconfdbValue *value)
{
    DconfdbValue found;
    while (*iterator->next) {
        const char *at = iterator->next;
        size_t len = strlen(at);
        iterator->next += len + 1;
        if (snapshot_read_at(iterator->snapshot, at, len, &found)) {
            *path = at;
            *value = found;
            return true;
        }
    }
    return false;
}

void dconfdb_iterator_free(DconfdbIterator *iterator)
{
    if (!iterator)
        return;
    dconfdb_snapshot_unref(iterator->snapshot);
    free(iterator->paths);
    free(iterator);
}
