/* Sets keys one after another, and says which are acknowledged: change FOLDER PREFIX COUNT. With
 * COUNT 0 it sets the one key PREFIX. An empty FOLDER is the environment's. With the word `signals` more they interrupt it all the time, with `lenient` it opens
 * the store leniently. */
#include "try.h"

#include <signal.h>
#include <sys/time.h>
#include <unistd.h>

static DconfdbError error = DCONFDB_ERROR_INIT;

static bool change(DconfdbStore *store, const char *path)
{
    DconfdbEdit edit = sets_text(path, "changed");
    if (!dconfdb_store_change(store, NULL, &edit, 1, &error)) {
        fprintf(stderr, "%s\n", error.text);
        return false;
    }
    DconfdbSnapshot *now = dconfdb_store_snapshot(store);
    TRY(has(now, path, "changed"));
    dconfdb_snapshot_unref(now);
    printf("%s\n", path);
    fflush(stdout);
    return true;
}

static void on_signal(int number)
{
    (void)number;
}

static void is_interrupted(void)
{
    struct sigaction action = {.sa_handler = on_signal};
    struct itimerval often = {{0, 1000}, {0, 1000}};
    TRY(sigaction(SIGALRM, &action, NULL) == 0 && setitimer(ITIMER_REAL, &often, NULL) == 0);
}

int main(int argc, char **argv)
{
    TRY(argc == 4 || argc == 5);
    const char *how = argc == 5 ? argv[4] : "";
    if (strcmp(how, "signals") == 0)
        is_interrupted();
    long count = strtol(argv[3], NULL, 10);
    bool is_lenient = strcmp(how, "lenient") == 0;
    const char *folder = argv[1][0] ? argv[1] : NULL;
    DconfdbStore *store = is_lenient ? dconfdb_store_open_lenient(folder, &error) : dconfdb_store_open(folder, &error);
    if (!store) {
        fprintf(stderr, "%s\n", error.text);
        return 1;
    }
    bool done = count > 0 || change(store, argv[2]);
    for (long n = 0; done && n < count; n++) {
        char path[256];
        snprintf(path, sizeof path, "%s%ld", argv[2], n);
        done = change(store, path);
    }
    dconfdb_store_close(store);
    return done ? 0 : 1;
}
