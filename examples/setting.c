/* Shows a number of the settings, and changes it: setting PATH. Whoever changes it, it is shown again; a line on stdin sets
 * it, and an empty line resets it. Compile it with `cc setting.c -o setting $(pkg-config --cflags --libs dconfdb)`. */
#include <dconfdb.h>
#include <inttypes.h>
#include <poll.h>
#include <stdio.h>
#include <stdlib.h>
#include <string.h>

static void show(DconfdbStore *store, const char *path)
{
    DconfdbSnapshot *now = dconfdb_store_snapshot(store);
    DconfdbValue value;
    int32_t number;
    if (dconfdb_snapshot_read(now, path, &value) && dconfdb_value_get_int32(&value, &number))
        printf("%s is %" PRId32 "%s\n", path, number, dconfdb_snapshot_is_writable(now, path) ? "" : ", and locked");
    else
        printf("%s has no number\n", path);
    dconfdb_snapshot_unref(now);
}

static void change(DconfdbStore *store, const char *path, const char *line, DconfdbError *error)
{
    int32_t number = (int32_t)strtol(line, NULL, 10);
    DconfdbEdit set = {path, "i", &number, sizeof number}, reset = {path, NULL, NULL, 0};
    if (!dconfdb_store_change(store, NULL, *line == '\n' ? &reset : &set, 1, error))
        printf("%s: %s\n", dconfdb_error_name(error->code), error->text);
}

/* Whether the path is among those that changed. If that can't be found out, the store is to be polled again in a second. */
static bool has_changed(DconfdbStore *store, const char *path)
{
    bool has = false;
    char *paths = dconfdb_store_dispatch(store, NULL, NULL);
    for (const char *at = paths; at && *at; at += strlen(at) + 1)
        has = has || strcmp(at, path) == 0;
    free(paths);
    return has;
}

int main(int argc, char **argv)
{
    DconfdbError error = DCONFDB_ERROR_INIT;
    DconfdbStore *store = dconfdb_store_open(NULL, &error);
    struct pollfd files[] = {{0, POLLIN, 0}, {store ? dconfdb_store_fd(store, &error) : -1, POLLIN, 0}};
    if (argc != 2 || files[1].fd < 0)
        return fprintf(stderr, "%s\n", argc != 2 ? "setting PATH" : error.text), 1;
    char line[64] = "";
    setvbuf(stdin, NULL, _IONBF, 0); /* so that poll() sees what is still to be read */
    setvbuf(stdout, NULL, _IOLBF, 0);
    show(store, argv[1]);
    while (poll(files, 2, -1) > 0 && (!files[0].revents || fgets(line, sizeof line, stdin))) {
        if (files[0].revents)
            change(store, argv[1], line, &error);
        if (files[1].revents && has_changed(store, argv[1]))
            show(store, argv[1]);
    }
    dconfdb_store_close(store);
    return 0;
}
