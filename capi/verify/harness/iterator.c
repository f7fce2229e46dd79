/* libdconfdb/iterator.c: the keys below a directory, of any paths and values. */
#include "libdconfdb/iterator.c"
#include "world.h"

enum { BYTES = 4 };

static int references = 1;
static char lent[1]; /* stands for a snapshot */

DconfdbSnapshot *dconfdb_snapshot_ref(DconfdbSnapshot *snapshot)
{
    CHECK((char *)snapshot == lent && references > 0, "memory: what is had once more is had");
    references++;
    return snapshot;
}

void dconfdb_snapshot_unref(DconfdbSnapshot *snapshot)
{
    CHECK((char *)snapshot == lent && references > 1, "memory: what is given back is had");
    references--;
}

/* Texts with a zero byte after each, and one more. */
char *snapshot_paths(const DconfdbSnapshot *snapshot, const char *directory, DconfdbError *error)
{
    (void)error;
    CHECK((const char *)snapshot == lent && __CPROVER_r_ok(directory, 1), "memory: a snapshot and a directory");
    char *paths = malloc(BYTES + 2);
    if (!paths)
        return NULL;
    for (int i = 0; i < BYTES; i++)
        paths[i] = (char)any_byte();
    paths[BYTES] = paths[BYTES + 1] = 0;
    return paths;
}

bool snapshot_read_at(const DconfdbSnapshot *snapshot, const char *path, size_t len, DconfdbValue *value)
{
    CHECK((const char *)snapshot == lent && references > 1, "memory: the snapshot is had");
    CHECK(len > 0 && __CPROVER_r_ok(path, len + 1) && path[len] == 0, "memory: a path, with a zero byte behind");
    CHECK(__CPROVER_w_ok(value, sizeof *value), "memory: room for a value");
    return any_bool();
}

bool refuse_memory(DconfdbError *error)
{
    (void)error;
    return false;
}

/* harness iterator: unwind 7, quick */
int iterator(void)
{
    const char *path = NULL;
    DconfdbValue value;
    DconfdbIterator *it = dconfdb_snapshot_iterate((const DconfdbSnapshot *)lent, "/", NULL);
    if (!it) {
        CHECK(references == 1, "memory: a fault leaves nobody more");
        dconfdb_iterator_free(it);
        return 0;
    }
    bool is = dconfdb_iterator_next(it, &path, &value);
    CHECK(!is || (path && *path), "answer: a path of a byte at least");
    if (is && dconfdb_iterator_next(it, &path, &value))
        REACHED("a second key");
    dconfdb_iterator_free(it);
    CHECK(references == 1, "memory: the snapshot is given back");
    return 0;
}
