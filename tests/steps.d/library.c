/* Sets the string at a path by libdconfdb, and says what became of it: library FOLDER PATH TEXT. */
#include <dconfdb.h>
#include <stdio.h>
#include <string.h>

static const char *const outcomes[] = {"made", "kept", "either", "unsettled"};

/* Whether the newest snapshot has the text. */
static bool has(DconfdbStore *store, const char *path, const char *text)
{
    DconfdbValue value;
    DconfdbSnapshot *now = dconfdb_store_snapshot(store);
    bool is = dconfdb_snapshot_read(now, path, &value) && value.size == strlen(text) + 1 && memcmp(value.data, text, value.size) == 0;
    dconfdb_snapshot_unref(now);
    return is;
}

int main(int argc, char **argv)
{
    DconfdbError error = DCONFDB_ERROR_INIT;
    if (argc != 4)
        return 2;
    DconfdbStore *store = dconfdb_store_open_lenient(argv[1], &error);
    if (!store)
        return fprintf(stderr, "%s\n", error.text), 1;
    DconfdbEdit edit = {argv[2], "s", argv[3], strlen(argv[3]) + 1};
    bool done = dconfdb_store_change(store, NULL, &edit, 1, &error);
    printf("%d %s %d %s\n", done, outcomes[done ? DCONFDB_OUTCOME_MADE : error.outcome], error.errnum, has(store, argv[2], argv[3]) ? "new" : "old");
    if (!done)
        fprintf(stderr, "%s\n", error.text);
    dconfdb_store_close(store);
    return 0;
}
