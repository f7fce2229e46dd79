/* Makes each number of DCONFDB_ERROR_ but MEMORY, at each call that can answer it, on a store as
 * calls.c has it: refusals FOLDER. Each time it asks what is said, and that nothing changed: no
 * file, not the newest snapshot, and nothing that the call was to write to. `refusals FOLDER busy`
 * has the folder's lock, and makes BUSY alone, which takes ten seconds. MEMORY is memory.c's. */
#include "refusals.h"

#include <errno.h>
#include <fcntl.h>
#include <stdint.h>
#include <sys/stat.h>
#include <unistd.h>

static char *const home = NULL;

SYSTEMS_HOME(home)

DconfdbError error = DCONFDB_ERROR_INIT;

/* ---- what is said */

bool is_said(Fault fault)
{
    bool is = error.size == sizeof error && error.code == fault.code && error.errnum == fault.errnum && error.edit == fault.edit
        && error.database == fault.database && error.line == fault.line && strstr(error.text, fault.name)
        && strstr(error.text, fault.words);
    if (!is)
        fprintf(stderr, "code %s, errnum %d, edit %zu, database %zu, line %zu: %s\n", dconfdb_error_name(error.code), error.errnum, error.edit,
                error.database, error.line, error.text);
    return is;
}

/* So that each field that isn't written is seen. */
void forgets(void)
{
    memset(&error, 0x7f, sizeof error);
    error.size = sizeof error;
}

/* ---- what is to stay */

enum { FILES = 3, MOST = 8192 };
static const char *const files[FILES] = {"me.user", "site.db", "profile"};

typedef struct {
    bool is_there[FILES];
    ino_t inode[FILES];
    ssize_t size[FILES];
    char bytes[FILES][MOST];
    DconfdbSnapshot *newest;
} State;

/* What there is now. The snapshot is lent. */
static void looks(DconfdbStore *store, State *state)
{
    struct stat found;
    memset(state, 0, sizeof *state);
    for (size_t i = 0; i < FILES; i++) {
        int file = open(files[i], O_RDONLY | O_NONBLOCK);
        if (file < 0)
            continue;
        TRY(fstat(file, &found) == 0);
        state->is_there[i] = true;
        state->inode[i] = found.st_ino;
        state->size[i] = S_ISREG(found.st_mode) ? read(file, state->bytes[i], MOST) : 0;
        TRY(close(file) == 0);
    }
    if (store) {
        state->newest = dconfdb_store_snapshot(store);
        dconfdb_snapshot_unref(state->newest);
    }
    TRY(access("me.user.new", F_OK) != 0);
}

static State before, after;

void begins(DconfdbStore *store)
{
    looks(store, &before);
    forgets();
}

bool nothing_changed(DconfdbStore *store)
{
    looks(store, &after);
    return memcmp(&before, &after, sizeof before) == 0;
}

/* ---- each call */

bool refuses_open(const char *folder, Fault fault)
{
    begins(NULL);
    return !dconfdb_store_open(folder, &error) && is_said(fault) && nothing_changed(NULL) && !dconfdb_store_open(folder, NULL);
}

bool refuses_files(const char *folder, Fault fault)
{
    size_t size = 77;
    begins(NULL);
    return !dconfdb_store_files(folder, &size, &error) && is_said(fault) && size == 77 && nothing_changed(NULL);
}

static bool refuses_refresh(DconfdbStore *store, Fault fault)
{
    bool no = false, yes = true;
    begins(store);
    bool done = !dconfdb_store_refresh(store, &no, &error) && is_said(fault) && !no && nothing_changed(store);
    forgets();
    done = done && !dconfdb_store_refresh(store, &yes, &error) && is_said(fault) && yes && nothing_changed(store);
    return done && !dconfdb_store_refresh(store, NULL, NULL);
}

bool refuses_change(DconfdbStore *store, const DconfdbEdit *edits, size_t count, Fault fault)
{
    begins(store);
    bool done = !dconfdb_store_change(store, NULL, edits, count, &error) && is_said(fault) && nothing_changed(store);
    return done && !dconfdb_store_change(store, NULL, edits, count, NULL) && nothing_changed(store);
}

/* ---- edits: each after one that could be made, alone, and before one */

static void tries_edits(DconfdbStore *store)
{
    static const int32_t five = 5;
    static char deep[2 * 128 + 8], too_deep[130], long_path[65537];
    memset(too_deep, 'a', 128);
    too_deep[128] = 'i';
    /* A byte in 127 variants: 128 levels. */
    size_t size = 1;
    for (int i = 0; i < 127; i++, size += 2)
        deep[size + 1] = i == 0 ? 'y' : 'v';
    memset(long_path, 'a', sizeof long_path - 1);
    long_path[0] = '/';
    const struct {
        DconfdbEdit edit;
        DconfdbErrorCode code;
        const char *words;
    } refused[] = {
        {{"/a/", "i", &five, sizeof five}, DCONFDB_ERROR_BAD_PATH, "the path is not one of a key"},
        {{"/", "i", &five, sizeof five}, DCONFDB_ERROR_BAD_PATH, "the path is not one of a key"},
        {{"/none/", "no type", NULL, 0}, DCONFDB_ERROR_BAD_PATH, "the path is not one of a key"},
        {{"/shut/", "i", &five, sizeof five}, DCONFDB_ERROR_BAD_PATH, "the path is not one of a key"},
        {{"", "i", &five, sizeof five}, DCONFDB_ERROR_BAD_PATH, "the path is not one of a key"},
        {{"a", "i", &five, sizeof five}, DCONFDB_ERROR_BAD_PATH, "the path is not one of a key"},
        {{"/a//b", "i", &five, sizeof five}, DCONFDB_ERROR_BAD_PATH, "the path is not one of a key"},
        {{"/\xff", "i", &five, sizeof five}, DCONFDB_ERROR_BAD_PATH, "the path is not one of a key"},
        {{long_path, "i", &five, sizeof five}, DCONFDB_ERROR_BAD_PATH, "aaa..."},
        {{"", NULL, NULL, 0}, DCONFDB_ERROR_BAD_PATH, "the path is not one of a key"},
        {{"a/", NULL, NULL, 0}, DCONFDB_ERROR_BAD_PATH, "the path is not one of a key"},
        {{"//", NULL, NULL, 0}, DCONFDB_ERROR_BAD_PATH, "the path is not one of a key"},
        {{"/a/k", "", &five, sizeof five}, DCONFDB_ERROR_BAD_TYPE, "the type text spells no type"},
        {{"/a/k", "z", &five, sizeof five}, DCONFDB_ERROR_BAD_TYPE, "the type text spells no type"},
        {{"/a/k", "ii", &five, sizeof five}, DCONFDB_ERROR_BAD_TYPE, "the type text spells no type"},
        {{"/a/k", too_deep, NULL, 0}, DCONFDB_ERROR_BAD_TYPE, "the type text spells no type"},
        {{"/a/k", "i", &five, 3}, DCONFDB_ERROR_BAD_VALUE, "not in normal form"},
        {{"/a/k", "i", &five, 0}, DCONFDB_ERROR_BAD_VALUE, "not in normal form"},
        {{"/a/k", "i", NULL, 4}, DCONFDB_ERROR_BAD_VALUE, "not in normal form"},
        {{"/a/k", "b", "\2", 1}, DCONFDB_ERROR_BAD_VALUE, "not in normal form"},
        {{"/a/k", "s", "open", 4}, DCONFDB_ERROR_BAD_VALUE, "not in normal form"},
        {{"/a/k", "s", "", 0}, DCONFDB_ERROR_BAD_VALUE, "not in normal form"},
        {{"/a/k", "s", "\xff", 2}, DCONFDB_ERROR_BAD_VALUE, "not in normal form"},
        {{"/a/k", "o", "a", 2}, DCONFDB_ERROR_BAD_VALUE, "not in normal form"},
        {{"/a/k", "as", "a\0\3", 3}, DCONFDB_ERROR_BAD_VALUE, "not in normal form"},
        {{"/a/k", "(yi)", "\1\1\1\1\5\0\0", 8}, DCONFDB_ERROR_BAD_VALUE, "not in normal form"},
        {{"/a/k", "v", "\5\0\0\0i", 5}, DCONFDB_ERROR_BAD_VALUE, "not in normal form"},
        {{"/org/desk/size", "i", &five, 3}, DCONFDB_ERROR_BAD_VALUE, "not in normal form"},
        {{"a", "i", &five, 3}, DCONFDB_ERROR_BAD_PATH, "the path is not one of a key"},
        {{"/org/desk/size", "i", &five, sizeof five}, DCONFDB_ERROR_LOCKED, "the key is locked"},
        {{"/org/desk/size", NULL, NULL, 0}, DCONFDB_ERROR_LOCKED, "the key is locked"},
        {{"/shut/any", "i", &five, sizeof five}, DCONFDB_ERROR_LOCKED, "the key is locked"},
        {{"/a/k", "v", deep, size}, DCONFDB_ERROR_VALUE_TOO_LARGE, "the value is nested too deep or too long"},
    };
    for (size_t i = 0; i < sizeof refused / sizeof refused[0]; i++) {
        DconfdbEdit good = sets_text("/good", "1"), edits[] = {good, refused[i].edit, good};
        Fault fault = {refused[i].code, 0, 0, 0, 0, strlen(refused[i].edit.path) > 400 ? "/" : refused[i].edit.path, refused[i].words};
        TRY(refuses_change(store, edits + 1, 1, fault) && refuses_change(store, edits + 1, 2, fault));
        fault.edit = 1;
        TRY(refuses_change(store, edits, 2, fault) && refuses_change(store, edits, 3, fault));
    }
}

/* ---- files: the user's (0) and the site's (1), bad in each way */

void writes(const char *name, const char *bytes, size_t size)
{
    FILE *file = fopen(name, "w");
    TRY(file && fwrite(bytes, 1, size, file) == size && fclose(file) == 0);
}

static void sets_word(char *bytes, size_t at, uint32_t word)
{
    for (size_t i = 0; i < 4; i++)
        bytes[at + i] = (char)(word >> (8 * i));
}

/* Where the root table starts, and its first item. */
static size_t word_at(const char *bytes, size_t at)
{
    uint32_t word;
    memcpy(&word, bytes + at, sizeof word);
    return word;
}

static size_t first_item(const char *bytes)
{
    size_t start = word_at(bytes, 16);
    return start + 8 + 4 * (word_at(bytes, start) & 0x7ffffff) + 4 * word_at(bytes, start + 4);
}

static const struct {
    DconfdbErrorCode code;
    const char *words;
} bad[] = {
    {DCONFDB_ERROR_SHORT, "shorter than a database's header"},
    {DCONFDB_ERROR_BAD_SIGNATURE, "does not start as a database does"},
    {DCONFDB_ERROR_BAD_VERSION, "a version other than 0"},
    {DCONFDB_ERROR_BAD_ROOT, "no root table"},
    {DCONFDB_ERROR_BAD_TABLE, "root table does not fit"},
    {DCONFDB_ERROR_UNSOUND, "breaks the rule S"},
    {DCONFDB_ERROR_FILE_TOO_LARGE, "the file is too big"},
    {DCONFDB_ERROR_FILE, "Is a directory"},
};

/* Puts a file in place that is bad in that way. */
static void makes_bad(const char *name, DconfdbErrorCode code, char *bytes, size_t size)
{
    if (code == DCONFDB_ERROR_SHORT)
        size = 23;
    else if (code == DCONFDB_ERROR_BAD_SIGNATURE)
        bytes[0] = 'g';
    else if (code == DCONFDB_ERROR_BAD_VERSION)
        bytes[8] = 1;
    else if (code == DCONFDB_ERROR_BAD_ROOT)
        sets_word(bytes, 20, (uint32_t)size + 1);
    else if (code == DCONFDB_ERROR_BAD_TABLE)
        sets_word(bytes, word_at(bytes, 16) + 4, 1 << 24);
    else if (code == DCONFDB_ERROR_UNSOUND)
        bytes[first_item(bytes)] = (char)(bytes[first_item(bytes)] + 1);
    if (code == DCONFDB_ERROR_FILE) {
        TRY(mkdir(name, 0700) == 0);
        return;
    }
    writes(name, bytes, size);
    if (code == DCONFDB_ERROR_FILE_TOO_LARGE)
        TRY(truncate(name, 4294967296) == 0);
}

static void tries_bad_file(DconfdbStore *store, size_t database, size_t which)
{
    static char bytes[MOST];
    DconfdbEdit good = sets_text("/good", "1");
    const char *name = files[database];
    FILE *file = fopen(name, "r");
    size_t size = file ? fread(bytes, 1, MOST, file) : 0;
    TRY(size > 40 && size < MOST && fclose(file) == 0 && rename(name, "kept") == 0);
    makes_bad(name, bad[which].code, bytes, size);
    Fault fault = {bad[which].code, bad[which].code == DCONFDB_ERROR_FILE ? EISDIR : 0, 0, database, 0, name, bad[which].words};
    TRY(refuses_open(".", fault) && refuses_refresh(store, fault) && refuses_change(store, &good, 1, fault));
    TRY((bad[which].code == DCONFDB_ERROR_FILE ? rmdir(name) : unlink(name)) == 0 && rename("kept", name) == 0);
    TRY(dconfdb_store_refresh(store, NULL, &error));
}

static void tries_bad_files(DconfdbStore *store)
{
    for (size_t database = 0; database < 2; database++) {
        for (size_t which = 0; which < sizeof bad / sizeof bad[0]; which++)
            tries_bad_file(store, database, which);
    }
}

int main(int argc, char **argv)
{
    TRY((argc == 2 || argc == 3) && chdir(argv[1]) == 0);
    DconfdbStore *store = dconfdb_store_open(".", &error);
    DconfdbEdit edits[] = {sets_text("/a/k", "1"), sets_text("/a/j", "2"), sets_text("/b", "3")};
    TRY(store && dconfdb_store_change(store, NULL, edits, 3, &error));
    if (argc == 3) {
        tries_busy(store);
    } else {
        tries_edits(store);
        tries_bad_files(store);
        tries_profiles();
        tries_lists(store);
        tries_no_user();
        tries_replacing(store);
        tries_no_lock(store);
        tries_no_folder();
    }
    DconfdbSnapshot *now = dconfdb_store_snapshot(store);
    TRY(has(now, "/a/k", "1") && has(now, "/a/j", "2") && has(now, "/b", "3") && has(now, "/good", NULL));
    dconfdb_snapshot_unref(now);
    dconfdb_store_close(store);
    return 0;
}
