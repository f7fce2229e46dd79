/* What a store has at `/k` and `/s`, by the library: that of the environment, or of the folder that is given. Without one, why, in the words
 * of the command. */
#include "try.h"

#include <errno.h>

static int refused(const DconfdbError *error)
{
    const char *end = strstr(error->text, ": ");
    if (error->code == DCONFDB_ERROR_NO_FOLDER)
        puts("error: NoFolder");
    else if (error->code == DCONFDB_ERROR_FILE)
        printf("error: %s %.*s\n", error->errnum == ENOENT ? "NoFile" : "Device", (int)(end - error->text), error->text);
    else
        printf("error: %s\n", error->text);
    return 1;
}

int main(int count, char **words)
{
    static const char *const paths[] = {"/k", "/s"};
    DconfdbError error = DCONFDB_ERROR_INIT;
    DconfdbStore *store = dconfdb_store_open(count > 1 ? words[1] : NULL, &error);
    if (!store)
        return refused(&error);
    DconfdbSnapshot *now = dconfdb_store_snapshot(store);
    for (size_t i = 0; i < sizeof paths / sizeof *paths; i++) {
        DconfdbValue value;
        if (dconfdb_snapshot_read(now, paths[i], &value))
            printf("%s='%s'\n", paths[i] + 1, dconfdb_value_get_string(&value, NULL));
    }
    dconfdb_snapshot_unref(now);
    dconfdb_store_close(store);
    return 0;
}
