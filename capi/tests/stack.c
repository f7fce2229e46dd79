/* Makes each call on a stack of its own, of the size that the header promises is enough, and says how much of it each call has used: stack FOLDER, as
 * calls.c has it, with many.db, a database of many keys and locks, and cut.db, one that is damaged. Values are as deep as one may be stored, a path
 * is as long as one may be, and a profile has as many databases as one may have. */
#include "try.h"

#include <pthread.h>
#include <stdint.h>
#include <sys/mman.h>

enum { STACK = 256 * 1024, GUARD = 65536, PAINT = 0xa5, MOST_LEVELS = 200, LONGEST_PATH = 65535, MOST_DATABASES = 64, MOST_CALLS = 64 };

/* What another compiler's frames may take more. */
enum { SPARE = 16 * 1024 };

static const char *folder;
static DconfdbError error = DCONFDB_ERROR_INIT;

/* ---- a call on a stack that is painted before */

static uint8_t *low;
static pthread_attr_t attributes;

/* The most that each call has used. */
static struct {
    const char *name;
    size_t used;
} taken[MOST_CALLS];

static void begins_stack(void)
{
    low = mmap(NULL, GUARD + STACK, PROT_READ | PROT_WRITE, MAP_PRIVATE | MAP_ANONYMOUS, -1, 0);
    TRY(low != MAP_FAILED && mprotect(low, GUARD, PROT_NONE) == 0);
    TRY(pthread_attr_init(&attributes) == 0 && pthread_attr_setstack(&attributes, low + GUARD, STACK) == 0);
}

typedef void Call(void);

static void *runs(void *data)
{
    Call *call = *(Call **)data;
    call();
    return NULL;
}

static void takes(const char *name, Call *call)
{
    pthread_t thread;
    size_t unused = 0, at = 0;
    memset(low + GUARD, PAINT, STACK);
    TRY(pthread_create(&thread, &attributes, runs, &call) == 0 && pthread_join(thread, NULL) == 0);
    while (unused < STACK && low[GUARD + unused] == PAINT)
        unused++;
    while (at < MOST_CALLS && taken[at].name && strcmp(taken[at].name, name) != 0)
        at++;
    TRY(at < MOST_CALLS);
    taken[at].name = name;
    if (STACK - unused > taken[at].used)
        taken[at].used = STACK - unused;
}

/* What it says, and whether there is enough for all. */
static bool says_what_was_taken(void)
{
    size_t most = 0;
    for (size_t i = 0; i < MOST_CALLS && taken[i].name; i++) {
        printf("%s %s %zu", i == 0 ? "KiB of stack that a call used:" : ",", taken[i].name, (taken[i].used + 1023) / 1024);
        if (taken[i].used > taken[most].used)
            most = i;
    }
    printf("; the most is %s, of %d\n", taken[most].name, STACK / 1024);
    return taken[most].used <= STACK - SPARE;
}

/* ---- deep values */

/* A value that is so deep: variants in each other, or arrays, around a number. */
typedef struct {
    char type[MOST_LEVELS + 2];
    uint8_t data[4096];
    size_t size;
} Deep;

static void begins(Deep *deep, uint8_t number)
{
    memset(deep, 0, sizeof *deep);
    strcpy(deep->type, "s");
    deep->data[0] = (uint8_t)('0' + number);
    deep->size = 2;
}

static void puts_in_variant(Deep *deep)
{
    deep->data[deep->size++] = 0;
    deep->data[deep->size++] = (uint8_t)deep->type[0];
    strcpy(deep->type, "v");
}

/* An array of one element, with its end after it, in as many bytes as that takes. */
static void puts_in_array(Deep *deep)
{
    size_t end = deep->size;
    deep->data[deep->size++] = (uint8_t)end;
    if (end + 1 > 255)
        deep->data[deep->size++] = (uint8_t)(end >> 8);
    memmove(deep->type + 1, deep->type, strlen(deep->type) + 1);
    deep->type[0] = 'a';
}

/* What the calls are made with, and what they answer. */
static DconfdbStore *store;
static DconfdbSnapshot *now, *old;
static DconfdbEdit edit;
static DconfdbValue value, child;
static const char *text, *path;
static bool done;

static void changes(void)
{
    done = dconfdb_store_change(store, NULL, &edit, 1, &error);
}

static void changes_if_expected(void)
{
    done = dconfdb_store_change(store, now, &edit, 1, &error);
}

static bool sets(const char *at, void (*puts_in)(Deep *), int levels, uint8_t number)
{
    static Deep deep;
    begins(&deep, number);
    for (int i = 1; i < levels; i++)
        puts_in(&deep);
    edit = (DconfdbEdit){at, deep.type, deep.data, deep.size};
    takes("change", changes);
    return done;
}

/* The most levels that are stored: one more is refused. */
static int most_levels(const char *at, void (*puts_in)(Deep *))
{
    int levels = 1;
    while (levels < MOST_LEVELS && sets(at, puts_in, levels + 1, 1))
        levels++;
    TRY(levels > 100 && (error.code == DCONFDB_ERROR_VALUE_TOO_LARGE || error.code == DCONFDB_ERROR_BAD_TYPE) && error.edit == 0);
    return levels;
}

/* ---- each call */

#define CALL(name, ...)                                                                                                        \
    static void calls_##name(void)                                                                                             \
    {                                                                                                                          \
        __VA_ARGS__;                                                                                                           \
    }

CALL(parse, done = dconfdb_value_parse(text, &value, &error))
CALL(print, free(dconfdb_value_print(&value, &error)))
CALL(children, TRY(dconfdb_value_n_children(&value) > 0 && dconfdb_value_children(&value, &child, 1) > 0))
CALL(child, TRY(dconfdb_value_child(&value, 0, &child)))
CALL(lookup, done = dconfdb_value_lookup(&value, "a", &child))
CALL(number, int32_t number; done = dconfdb_value_get_int32(&value, &number))
CALL(string, done = dconfdb_value_get_string(&value, NULL) != NULL)
CALL(open, store = dconfdb_store_open(folder, &error))
CALL(open_lenient, store = dconfdb_store_open_lenient(folder, &error))
CALL(close, dconfdb_store_close(store))
CALL(files, free(dconfdb_store_files(folder, NULL, &error)))
CALL(refresh, done = dconfdb_store_refresh(store, &done, &error))
CALL(fd, TRY(dconfdb_store_fd(store, &error) >= 0))
CALL(dispatch, free(dconfdb_store_dispatch(store, NULL, &error)))
CALL(profile_fault, done = dconfdb_store_profile_fault(store, &error))
CALL(snapshot, now = dconfdb_store_snapshot(store))
CALL(unref, dconfdb_snapshot_unref(now))
CALL(fault, done = dconfdb_snapshot_fault(now, 1, &error))
CALL(read, done = dconfdb_snapshot_read(now, path, &value))
CALL(read_user, done = dconfdb_snapshot_read_user(now, path, &value))
CALL(read_default, done = dconfdb_snapshot_read_default(now, path, &value))
CALL(is_locked, done = dconfdb_snapshot_is_locked(now, path))
CALL(is_writable, done = dconfdb_snapshot_is_writable(now, path))
CALL(has_edit, done = dconfdb_snapshot_has_edit(now, &edit))
CALL(is_newest, done = dconfdb_snapshot_is_newest(now))
CALL(list, free(dconfdb_snapshot_list(now, "/", NULL, &error)))
CALL(list_user, free(dconfdb_snapshot_list_user(now, "/", NULL, &error)))
CALL(locks, free(dconfdb_snapshot_locks(now, "/", NULL, &error)))
CALL(differences, free(dconfdb_snapshot_differences(now, old, NULL, &error)))
CALL(iterate, const char *at; DconfdbIterator *iterator = dconfdb_snapshot_iterate(now, "/", &error); TRY(iterator);
     while (dconfdb_iterator_next(iterator, &at, &value)); dconfdb_iterator_free(iterator))

#define TAKES(name) takes(#name, calls_##name)

/* Texts of so many levels, in each bracket, and some in two by turns: those that have a value, and those whose fault is found last. */
static void tries_texts(void)
{
    static const struct {
        const char *opens, *inside, *closes;
    } texts[] = {{"<", "5", ">"},       {"[", "5", "]"},          {"(", "5", ",)"},     {"(1,", "5", ")"},        {"{1:", "5", "}"},
                 {"{1,", "5", "}"},     {"just ", "5", ""},       {"<[", "5", "]>"},    {"<(", "5", ",)>"},       {"<{1:", "5", "}>"},
                 {"{'a':<", "5", ">}"}, {"{1,<", "5", ">}"},      {"@v <", "5", ">"},   {"<", "[]", ">"},         {"<", "byte 500", ">"},
                 {"[", "byte 500", "]"}, {"{1,", "byte 500", "}"}, {"<", "5", ""},       {"{1:", "5", ""},         {"<", "5.0", ">"}};
    static char room[16 * MOST_LEVELS];
    for (size_t i = 0; i < sizeof texts / sizeof texts[0]; i++)
        for (int levels = 50; levels < MOST_LEVELS; levels++) {
            char *end = room;
            for (int level = 0; level < levels; level++)
                end = stpcpy(end, texts[i].opens);
            end = stpcpy(end, texts[i].inside);
            for (int level = 0; level < levels; level++)
                end = stpcpy(end, texts[i].closes);
            text = room;
            TAKES(parse);
            if (!done)
                continue;
            DconfdbValue whole = value;
            TAKES(print);
            TAKES(children);
            TAKES(child);
            TAKES(lookup);
            TAKES(number);
            TAKES(string);
            free((void *)whole.data);
        }
}

/* All that is asked of a snapshot, and of the store that it is the newest of. */
static void asks(const char *at)
{
    path = at;
    TAKES(snapshot);
    TAKES(read);
    TAKES(read_user);
    TAKES(read_default);
    TAKES(is_locked);
    TAKES(is_writable);
    TAKES(has_edit);
    TAKES(is_newest);
    TAKES(list);
    TAKES(list_user);
    TAKES(locks);
    TAKES(differences);
    TAKES(iterate);
    TAKES(fault);
    TAKES(unref);
    TAKES(refresh);
    TAKES(fd);
    TAKES(dispatch);
    TAKES(profile_fault);
    TAKES(files);
}

static void changes_it(const char *at)
{
    edit = sets_text(at, "1");
    takes("change", changes);
    TRY(done);
    TAKES(snapshot);
    edit = sets_text(at, "2");
    takes("change", changes_if_expected);
    TRY(done);
    TAKES(unref);
}

/* Values as deep as they may be, and the longest path. */
static void tries_values(void)
{
    static char longest[LONGEST_PATH + 1];
    for (size_t i = 0; i < LONGEST_PATH; i++)
        longest[i] = i % 2 == 0 ? '/' : 'a';
    longest[LONGEST_PATH - 1] = 'a';
    longest[LONGEST_PATH] = 0;
    TAKES(open);
    TRY(store);
    int variants = most_levels("/deep/variants", puts_in_variant), arrays = most_levels("/deep/arrays", puts_in_array);
    changes_it(longest);
    old = dconfdb_store_snapshot(store);
    TRY(sets("/deep/variants", puts_in_variant, variants, 2) && sets("/deep/arrays", puts_in_array, arrays, 2));
    asks("/deep/variants");
    asks("/deep/arrays");
    asks(longest);
    edit = (DconfdbEdit){"/", NULL, NULL, 0};
    takes("change", changes);
    TRY(done);
    dconfdb_snapshot_unref(old);
    TAKES(close);
    printf("variants in %d levels, arrays in %d, a path of %d bytes, %d databases; ", variants, arrays, (int)strlen(longest), MOST_DATABASES);
}

/* A profile with as many databases as there may be, each with this file. */
static void names(const char *file)
{
    static char name[4096];
    snprintf(name, sizeof name, "%s/profile", folder);
    FILE *profile = fopen(name, "w");
    TRY(profile && fputs("user-db:me\n", profile) >= 0);
    for (int i = 1; i < MOST_DATABASES; i++)
        TRY(fprintf(profile, "file-db:%s\n", file) > 0);
    TRY(fclose(profile) == 0);
}

static void tries_databases(void)
{
    names("many.db");
    TAKES(open);
    TRY(store);
    old = dconfdb_store_snapshot(store);
    changes_it("/a/key");
    asks("/many/d1/key-1");
    dconfdb_snapshot_unref(old);
    TAKES(close);
}

/* Each database is damaged, and the user's is no database. */
static void tries_bad_files(void)
{
    static char name[4096];
    names("cut.db");
    snprintf(name, sizeof name, "%s/me.user", folder);
    FILE *file = fopen(name, "w");
    TRY(file && fputs("no database at all, though it is long enough", file) >= 0 && fclose(file) == 0);
    TAKES(open);
    TRY(!store);
    TAKES(open_lenient);
    TRY(store);
    old = dconfdb_store_snapshot(store);
    TRY(dconfdb_snapshot_fault(old, 0, NULL) && dconfdb_snapshot_fault(old, 1, NULL) && dconfdb_snapshot_fault(old, MOST_DATABASES - 1, NULL));
    asks("/many/d1/key-1");
    changes_it("/a/key");
    asks("/many/d1/key-1");
    dconfdb_snapshot_unref(old);
    TAKES(close);
}

int main(int argc, char **argv)
{
    TRY(argc == 2);
    folder = argv[1];
    begins_stack();
    tries_texts();
    tries_values();
    tries_databases();
    tries_bad_files();
    return says_what_was_taken() ? 0 : 1;
}
