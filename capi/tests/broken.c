/* Breaks what dconfdb.h asks of a caller: broken RULE FOLDER. Without words it prints each rule, and
 * how it is seen that it is broken: `address` and `race` by clang's sanitizers, `leak` and `helgrind` by valgrind,
 * a signal's number by that signal, `hang` by no end, and `wrong` by a wrong answer, which this
 * program looks at itself. FOLDER is as calls.c has it. */
#include "try.h"

#include <dlfcn.h>
#include <fcntl.h>
#include <pthread.h>
#include <setjmp.h>
#include <signal.h>
#include <stdatomic.h>
#include <stdint.h>
#include <sys/stat.h>
#include <sys/time.h>
#include <sys/wait.h>
#include <unistd.h>

static DconfdbStore *store;
static DconfdbSnapshot *now;
static DconfdbValue value;
static DconfdbError error = DCONFDB_ERROR_INIT;
static atomic_bool has_begun;

/* A value of the user's, which lies in memory, and one of the site's, which is mapped. */
static void reads_users(void)
{
    DconfdbEdit edit = sets_text("/users", "mine");
    TRY(dconfdb_store_change(store, NULL, &edit, 1, &error));
    now = dconfdb_store_snapshot(store);
    TRY(dconfdb_snapshot_read(now, "/users", &value) && is_text(&value, "mine"));
}

static void reads_sites(void)
{
    now = dconfdb_store_snapshot(store);
    TRY(dconfdb_snapshot_read(now, "/org/desk/name", &value) && is_text(&value, "desk"));
}

static void gives_back(void)
{
    dconfdb_snapshot_unref(now);
    dconfdb_store_close(store);
    unlink("me.user");
}

/* ---- pointers */

static void closed_store(void)
{
    dconfdb_store_close(store);
    now = dconfdb_store_snapshot(store);
}

static void folder_of_a_closed_store(void)
{
    const char *folder = dconfdb_store_folder(store);
    dconfdb_store_close(store);
    printf("%s\n", folder);
}

static void snapshot_given_back(void)
{
    reads_users();
    gives_back();
    printf("%zu\n", dconfdb_snapshot_databases(now));
}

static void null_path(void)
{
    const char *volatile none = NULL;
    reads_sites();
    dconfdb_snapshot_read(now, none, &value);
}

static void text_without_end(void)
{
    char *path = malloc(4);
    TRY(path);
    memcpy(path, "/abc", 4);
    reads_sites();
    dconfdb_snapshot_read(now, path, &value);
}

/* ---- memory that is given, lent, or to be freed */

static char shared_path[] = "/org/desk/name";

/* Of two accesses in the very same moment the sanitizer may see neither. A sleep orders nothing: so of these some are far
 * enough apart, and no less a race. */
enum { TIMES = 100, APART = 1000 };

static void *changes_path(void *unused)
{
    for (int i = 0; i < TIMES; i++, usleep(APART))
        shared_path[5] = (char)('a' + i % 26);
    return unused;
}

static void given_and_changed(void)
{
    pthread_t other;
    now = dconfdb_store_snapshot(store);
    TRY(pthread_create(&other, NULL, changes_path, NULL) == 0);
    for (int i = 0; i < TIMES; i++, usleep(APART))
        dconfdb_snapshot_read(now, shared_path, &value);
    TRY(pthread_join(other, NULL) == 0);
}

static void writes_lent(void)
{
    *(char *)(uintptr_t)value.data = 'X';
}

static void lent_and_written(void)
{
    reads_users();
    writes_lent();
    TRY(has(now, "/users", "Xine"));
}

static void lent_in_place_and_written(void)
{
    reads_sites();
    writes_lent();
}

static void lent_and_given_back(void)
{
    reads_users();
    gives_back();
    printf("%.4s\n", (const char *)value.data);
}

static void lent_in_place_and_given_back(void)
{
    reads_sites();
    gives_back();
    printf("%.4s\n", (const char *)value.data);
}

static void given_back_twice(void)
{
    reads_users();
    dconfdb_store_close(store);
    dconfdb_snapshot_unref(now);
    dconfdb_snapshot_unref(now);
}

static void never_given_back(void)
{
    reads_users();
    dconfdb_store_close(store);
    now = NULL;
}

static void freed_twice(void)
{
    now = dconfdb_store_snapshot(store);
    char *volatile names = dconfdb_snapshot_list(now, "/", NULL, &error);
    free(names);
    free(names);
}

static void never_freed(void)
{
    now = dconfdb_store_snapshot(store);
    TRY(dconfdb_snapshot_list(now, "/", NULL, &error));
    gives_back();
}

/* The library that tests/library made is found by LD_LIBRARY_PATH. */
static void unloaded(void)
{
    void *library = dlopen("libdconfdb.so.0", RTLD_NOW);
    TRY(library);
    void *found = dlsym(library, "dconfdb_store_close");
    void (*closes)(DconfdbStore *);
    memcpy(&closes, &found, sizeof found);
    TRY(found && dlclose(library) == 0);
    closes(NULL);
}

/* ---- threads, children, handlers */

static void *refreshes(void *unused)
{
    for (;;) {
        dconfdb_store_refresh(store, NULL, NULL);
        atomic_store(&has_begun, true);
    }
    return unused;
}

static void starts_refreshing(void)
{
    pthread_t other;
    TRY(pthread_create(&other, NULL, refreshes, NULL) == 0);
    while (!atomic_load(&has_begun))
        ;
}

static void closed_while_used(void)
{
    starts_refreshing();
    dconfdb_store_close(store);
    sleep(1);
}

/* A child has the store as it was at the fork: locked by a thread that isn't there. */
static void used_by_a_child(void)
{
    bool has_waited = false;
    starts_refreshing();
    for (int i = 0; i < 1000 && !has_waited; i++) {
        int status = 0;
        pid_t child = fork();
        TRY(child >= 0);
        if (child == 0) {
            alarm(1);
            dconfdb_store_refresh(store, NULL, NULL);
            _exit(0);
        }
        TRY(waitpid(child, &status, 0) == child);
        has_waited = WIFSIGNALED(status) && WTERMSIG(status) == SIGALRM;
    }
    TRY(has_waited);
}

static volatile sig_atomic_t handled;

static void handles(int number)
{
    (void)number;
    dconfdb_store_refresh(store, NULL, NULL);
    handled++;
}

/* A hundred handlers take a tenth of a second, where none waits for what it interrupts. */
static void called_by_a_handler(void)
{
    struct itimerval often = {{0, 1000}, {0, 1000}};
    TRY(signal(SIGALRM, handles) != SIG_ERR && setitimer(ITIMER_REAL, &often, NULL) == 0);
    while (handled < 100)
        dconfdb_store_refresh(store, NULL, NULL);
}

static jmp_buf before_the_call;
static bool jumps;

/* The library's, amid a change. */
int fsync(int file)
{
    if (jumps)
        longjmp(before_the_call, 1);
    return fdatasync(file);
}

static bool changes(void)
{
    DconfdbEdit edit = sets_text("/left", "mine");
    return dconfdb_store_change(store, NULL, &edit, 1, &error);
}

static void left_by_a_jump(void)
{
    jumps = true;
    if (setjmp(before_the_call) == 0)
        TRY(changes());
    jumps = false;
    TRY(changes());
}

/* ---- files that are changed in place */

static void cut_off(void)
{
    reads_sites();
    TRY(truncate("site.db", 0) == 0);
    printf("%.4s\n", (const char *)value.data);
}

/* Three texts; of the others the first is out of order, so that each is empty. */
static void walked_with_anothers_place(void)
{
    DconfdbValue list = {"one\0two\0six\0\4\10\14", 15, "as", 2, 0, 0}, others = {"one\0two\0six\0\15\10\14", 15, "as", 2, 0, 0}, child;
    TRY(dconfdb_value_child(&list, 2, &child) && is_text(&child, "six"));
    TRY(dconfdb_value_child(&others, 2, &child) && child.size == 0);
    list.data = others.data;
    TRY(dconfdb_value_child(&list, 2, &child) && is_text(&child, "six"));
}

static DconfdbValue shared_list = {"one\0two\0\4\10", 10, "as", 2, 0, 0};

static void *walks_shared(void *unused)
{
    DconfdbValue child;
    for (int i = 0; i < TIMES; i++, usleep(APART))
        dconfdb_value_child(&shared_list, (size_t)(i % 2), &child);
    return unused;
}

static void walked_by_two(void)
{
    pthread_t other;
    TRY(pthread_create(&other, NULL, walks_shared, NULL) == 0);
    walks_shared(NULL);
    TRY(pthread_join(other, NULL) == 0);
}

static void written_over(void)
{
    static const char zeros[1 << 16];
    struct stat state;
    reads_sites();
    int file = open("site.db", O_WRONLY);
    TRY(file >= 0 && fstat(file, &state) == 0);
    for (off_t done = 0; done < state.st_size; done += (off_t)sizeof zeros)
        TRY(write(file, zeros, sizeof zeros) == (ssize_t)sizeof zeros);
    TRY(close(file) == 0);
    TRY(!is_text(&value, "desk"));
}

static const struct {
    const char *name, *how;
    void (*breaks)(void);
} rules[] = {
    {"closed_store", "address", closed_store},
    {"folder_of_a_closed_store", "address", folder_of_a_closed_store},
    {"snapshot_given_back", "address", snapshot_given_back},
    {"null_path", "11", null_path},
    {"text_without_end", "address", text_without_end},
    {"given_and_changed", "race", given_and_changed},
    {"lent_and_written", "wrong", lent_and_written},
    {"lent_in_place_and_written", "11", lent_in_place_and_written},
    {"lent_and_given_back", "address", lent_and_given_back},
    {"lent_in_place_and_given_back", "11", lent_in_place_and_given_back},
    {"given_back_twice", "address", given_back_twice},
    {"never_given_back", "leak", never_given_back},
    {"freed_twice", "address", freed_twice},
    {"never_freed", "leak", never_freed},
    {"unloaded", "11", unloaded},
    {"closed_while_used", "race", closed_while_used},
    {"used_by_a_child", "wrong", used_by_a_child},
    {"called_by_a_handler", "hang", called_by_a_handler},
    {"left_by_a_jump", "hang", left_by_a_jump},
    {"cut_off", "7", cut_off},
    {"written_over", "wrong", written_over},
    {"walked_with_anothers_place", "wrong", walked_with_anothers_place},
    {"walked_by_two", "helgrind", walked_by_two},
};

int main(int argc, char **argv)
{
    for (size_t i = 0; i < sizeof rules / sizeof rules[0]; i++) {
        if (argc == 1)
            printf("%s %s\n", rules[i].name, rules[i].how);
        if (argc == 3 && strcmp(argv[1], rules[i].name) == 0) {
            TRY(chdir(argv[2]) == 0 && (store = dconfdb_store_open(".", &error)) != NULL);
            rules[i].breaks();
            return 0;
        }
    }
    return argc == 1 ? 0 : 2;
}
