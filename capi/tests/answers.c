/* Answers as the program does, for values of the types s, i, u and b. `answers FOLDER ask` reads
 * lines `WORD PATH`, of the words below. `answers FOLDER edit` reads edits, a line each, and makes
 * all or none: `s PATH TEXT`, `i PATH NUMBER`, `reset PATH`. An empty FOLDER is the environment's. */
#include "try.h"

#include <stdint.h>

static DconfdbError error = DCONFDB_ERROR_INIT;

static void prints(const DconfdbValue *value)
{
    int32_t number = 0;
    if (value->size == sizeof number)
        memcpy(&number, value->data, sizeof number);
    if (value->type_size != 1)
        exit(3);
    switch (value->type[0]) {
    case 's':
        printf("'%s'\n", (const char *)value->data);
        break;
    case 'i':
        printf("%d\n", number);
        break;
    case 'u':
        printf("uint32 %u\n", (uint32_t)number);
        break;
    case 'b':
        printf("%s\n", value->size == 1 && *(const char *)value->data == 1 ? "true" : "false");
        break;
    default:
        exit(3);
    }
}

static void prints_texts(char *texts)
{
    TRY(texts);
    for (const char *at = texts; *at; at += strlen(at) + 1)
        printf("%s\n", at);
    free(texts);
}

/* The paths of the keys that differ in the store of another folder. */
static void differs(const DconfdbSnapshot *now, const char *folder)
{
    DconfdbStore *store = dconfdb_store_open(folder, &error);
    TRY(store);
    DconfdbSnapshot *other = dconfdb_store_snapshot(store);
    prints_texts(dconfdb_snapshot_differences(now, other, NULL, &error));
    dconfdb_snapshot_unref(other);
    dconfdb_store_close(store);
}

/* Lines `PATH=VALUE`. */
static void prints_all(const DconfdbSnapshot *now, const char *directory)
{
    const char *path;
    DconfdbValue value;
    DconfdbIterator *iterator = dconfdb_snapshot_iterate(now, directory, &error);
    TRY(iterator);
    while (dconfdb_iterator_next(iterator, &path, &value)) {
        printf("%s=", path);
        prints(&value);
    }
    dconfdb_iterator_free(iterator);
}

/* One answer for each word of `read`, `default`, `origin`, `list`, `users`, `all`, `locks`, `writable`,
 * `differ`, whose path is another store's folder. */
static void answers(const DconfdbSnapshot *now, const char *word, const char *path)
{
    DconfdbValue value;
    if (strcmp(word, "list") == 0)
        prints_texts(dconfdb_snapshot_list(now, path, NULL, &error));
    else if (strcmp(word, "users") == 0)
        prints_texts(dconfdb_snapshot_list_user(now, path, NULL, &error));
    else if (strcmp(word, "all") == 0)
        prints_all(now, path);
    else if (strcmp(word, "locks") == 0)
        prints_texts(dconfdb_snapshot_locks(now, path, NULL, &error));
    else if (strcmp(word, "writable") == 0)
        printf("%d\n", dconfdb_snapshot_is_writable(now, path));
    else if (strcmp(word, "differ") == 0)
        differs(now, path);
    else if (strcmp(word, "origin") == 0 && dconfdb_snapshot_read(now, path, &value))
        printf("%zu\n", value.origin);
    else if (strcmp(word, "read") == 0 && dconfdb_snapshot_read(now, path, &value))
        prints(&value);
    else if (strcmp(word, "default") == 0 && dconfdb_snapshot_read_default(now, path, &value))
        prints(&value);
}

/* Asks each line `WORD PATH`, and ends each answer with a line `.`. */
static void asks(const DconfdbSnapshot *now)
{
    char line[1024], word[16], path[512];
    while (fgets(line, sizeof line, stdin)) {
        TRY(sscanf(line, "%15s %511s", word, path) == 2);
        answers(now, word, path);
        puts(".");
    }
}

enum { MOST = 64 };

/* Makes the edits of the input, and prints the paths of the keys that are seen differently then. */
static int edits(DconfdbStore *store)
{
    static char words[MOST][3][512];
    static int32_t numbers[MOST];
    DconfdbEdit all[MOST];
    char line[1600];
    size_t count = 0;
    for (; count < MOST && fgets(line, sizeof line, stdin); count++) {
        char *word = words[count][0], *path = words[count][1], *text = words[count][2];
        text[0] = 0;
        TRY(sscanf(line, "%511s %511s %511s", word, path, text) >= 2);
        all[count] = (DconfdbEdit){path, NULL, NULL, 0};
        if (word[0] == 's')
            all[count] = sets_text(path, text);
        if (word[0] == 'i') {
            numbers[count] = (int32_t)strtol(text, NULL, 10);
            all[count] = (DconfdbEdit){path, "i", &numbers[count], sizeof numbers[count]};
        }
    }
    DconfdbSnapshot *before = dconfdb_store_snapshot(store);
    bool done = dconfdb_store_change(store, NULL, all, count, &error);
    DconfdbSnapshot *after = dconfdb_store_snapshot(store);
    if (done)
        prints_texts(dconfdb_snapshot_differences(after, before, NULL, &error));
    else
        printf("%d %s\n", error.code, all[error.edit].path);
    dconfdb_snapshot_unref(before);
    dconfdb_snapshot_unref(after);
    return done ? 0 : 1;
}

int main(int argc, char **argv)
{
    int status = 0;
    TRY(argc == 3);
    DconfdbStore *store = dconfdb_store_open(argv[1][0] ? argv[1] : NULL, &error);
    if (!store) {
        printf("%s\n", error.text);
        return 2;
    }
    if (strcmp(argv[2], "edit") == 0) {
        status = edits(store);
    } else {
        DconfdbSnapshot *now = dconfdb_store_snapshot(store);
        asks(now);
        dconfdb_snapshot_unref(now);
    }
    dconfdb_store_close(store);
    return status;
}
