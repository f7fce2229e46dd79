/* Over the library, where nobody names a folder:
 *
 *   ask KEY         prints the key's value as it is printed, or an empty line; and on stderr what is wrong with the profile
 *   ask --set KEY   sets the key to each line that is read, a string, and says so by a line with how it ended */
#include <dconfdb.h>

#include <stdio.h>
#include <stdlib.h>
#include <string.h>

static int reads(DconfdbStore *store, const char *key)
{
    DconfdbError error = DCONFDB_ERROR_INIT;
    DconfdbSnapshot *now = dconfdb_store_snapshot(store);
    DconfdbValue value;
    if (dconfdb_store_profile_fault(store, &error))
        fprintf(stderr, "%s\n", error.text);
    char *text = dconfdb_snapshot_read(now, key, &value) ? dconfdb_value_print(&value, &error) : NULL;
    puts(text ? text : "");
    free(text);
    dconfdb_snapshot_unref(now);
    return 0;
}

static int sets(DconfdbStore *store, const char *key)
{
    char line[64];
    bool is_set = true;
    while (is_set && fgets(line, sizeof line, stdin)) {
        DconfdbError error = DCONFDB_ERROR_INIT;
        line[strcspn(line, "\n")] = 0;
        const DconfdbEdit edit = {key, "s", line, strlen(line) + 1};
        is_set = dconfdb_store_change(store, NULL, &edit, 1, &error);
        puts(is_set ? "set" : error.text);
        fflush(stdout);
    }
    return !is_set;
}

int main(int count, char **words)
{
    DconfdbError error = DCONFDB_ERROR_INIT;
    bool is_set = count == 3 && strcmp(words[1], "--set") == 0;
    DconfdbStore *store = is_set || count == 2 ? dconfdb_store_open_lenient(NULL, &error) : NULL;
    if (!store) {
        fprintf(stderr, "%s\n", error.text);
        return 1;
    }
    int status = is_set ? sets(store, words[2]) : reads(store, words[1]);
    dconfdb_store_close(store);
    return status;
}
