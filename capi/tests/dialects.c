/* The header in each dialect of C and C++, with what it has for all of them: dialects FOLDER. It is valid C90 and C++98. */
#include "dconfdb.h"

#include <stdio.h>
#include <string.h>

/* The three numbers of the version are those of its text, and of the library. */
static int is_of_one_version(void)
{
    char text[64];
    sprintf(text, "%d.%d.%d", DCONFDB_VERSION_MAJOR, DCONFDB_VERSION_MINOR, DCONFDB_VERSION_PATCH);
    return strcmp(text, DCONFDB_VERSION) == 0 && strcmp(text, dconfdb_version()) == 0;
}

static int changes(DconfdbStore *store, const char *type, const char *text)
{
    DconfdbError error = DCONFDB_ERROR_INIT;
    DconfdbEdit edit = {"/by/dialect", NULL, NULL, 0};
    edit.type = type;
    edit.data = text;
    edit.size = text ? strlen(text) + 1 : 0;
    return dconfdb_store_change(store, NULL, &edit, 1, &error) && error.code == DCONFDB_ERROR_NONE;
}

static int has(DconfdbStore *store, const char *wanted)
{
    DconfdbSnapshot *now = dconfdb_store_snapshot(store);
    DconfdbValue value;
    const char *text = NULL;
    int is;
    if (dconfdb_snapshot_read(now, "/by/dialect", &value))
        text = dconfdb_value_get_string(&value, NULL);
    is = wanted ? text && strcmp(text, wanted) == 0 : !text;
    dconfdb_snapshot_unref(now);
    return is;
}

static int is_refused(DconfdbStore *store)
{
    DconfdbError error = DCONFDB_ERROR_INIT;
    DconfdbEdit edit = {"/shut/k", "s", "", 1};
    return !dconfdb_store_change(store, NULL, &edit, 1, &error) && error.size == sizeof error && error.code == DCONFDB_ERROR_LOCKED
        && error.outcome == DCONFDB_OUTCOME_KEPT && strcmp(dconfdb_error_name(error.code), "LOCKED") == 0;
}

int main(int argc, char **argv)
{
    DconfdbStore *store = dconfdb_store_open(argc > 1 ? argv[1] : NULL, NULL);
    int done = store && is_of_one_version() && changes(store, "s", "yes") && has(store, "yes") && changes(store, NULL, NULL) && has(store, NULL)
        && is_refused(store);
    dconfdb_store_close(store);
    return done ? 0 : 1;
}
