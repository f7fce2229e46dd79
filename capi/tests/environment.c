/* Opens a store again and again, and names its files, while another thread changes the environment:
 * environment FOLDER COUNT. It is linked with the static library, and with --wrap of getenv: where a folder
 * is given that is never called, and where none is it is, so that the count is seen to work. */
#define _GNU_SOURCE
#include "try.h"

#include <errno.h>
#include <locale.h>
#include <pthread.h>
#include <stdatomic.h>
#include <sys/mman.h>
#include <unistd.h>

char *__real_getenv(const char *name);
char *__wrap_getenv(const char *name);

static atomic_long asked;
static atomic_bool has_ended;

char *__wrap_getenv(const char *name)
{
    atomic_fetch_add(&asked, 1);
    return __real_getenv(name);
}

/* Grows the environment, so that its table moves, and empties it. */
static void *sets(void *unused)
{
    while (!atomic_load(&has_ended)) {
        for (int i = 0; i < 1000; i++) {
            char name[32];
            snprintf(name, sizeof name, "DCONFDB_TEST_%d", i);
            TRY(setenv(name, name, 1) == 0);
        }
        TRY(clearenv() == 0);
    }
    return unused;
}

static void uses(const char *folder)
{
    DconfdbStore *store = dconfdb_store_open(folder, NULL);
    DconfdbEdit edit = sets_text("/k", "1");
    TRY(store && dconfdb_store_refresh(store, NULL, NULL) && dconfdb_store_change(store, NULL, &edit, 1, NULL));
    char *files = dconfdb_store_files(folder, NULL, NULL);
    TRY(files);
    free(files);
    dconfdb_store_close(store);
}

/* Whoever looks at the environment now dies of it, the C library too: it would look for the language of an error's text. */
static void tries_without(const char *folder)
{
    static DconfdbError error = DCONFDB_ERROR_INIT;
    char **kept = environ, **none = mmap(NULL, 4096, PROT_NONE, MAP_PRIVATE | MAP_ANONYMOUS, -1, 0);
    TRY(setlocale(LC_ALL, "C.UTF-8") && none != MAP_FAILED);
    environ = none;
    uses(folder);
    DconfdbStore *store = dconfdb_store_open("/etc/passwd/no/folder", &error);
    environ = kept;
    TRY(!store && error.errnum == ENOTDIR && strstr(error.text, ": Not a directory"));
}

int main(int argc, char **argv)
{
    pthread_t thread;
    TRY(argc == 3);
    tries_without(argv[1]);
    TRY(setenv("DCONFDB_STORE", argv[1], 1) == 0);
    uses(NULL);
    TRY(atomic_exchange(&asked, 0) > 0);
    TRY(pthread_create(&thread, NULL, sets, NULL) == 0);
    for (long i = strtol(argv[2], NULL, 10); i > 0; i--)
        uses(argv[1]);
    TRY(chdir(argv[1]) == 0);
    uses(".");
    atomic_store(&has_ended, true);
    TRY(pthread_join(thread, NULL) == 0 && atomic_load(&asked) == 0);
    return 0;
}
