/* Eight threads read snapshots and look at the files, while one changes two keys together: threads
 * FOLDER COUNT. Both keys always are alike, no thread sees a change go back, and each snapshot
 * stays as it is. */
#include "try.h"

#include <pthread.h>
#include <stdatomic.h>

enum { READERS = 8 };

static DconfdbStore *store;
static atomic_bool has_ended;
static long most;

/* The number that a snapshot has at a key, 0 where it has none. */
static long number_at(const DconfdbSnapshot *snapshot, const char *path)
{
    DconfdbValue value;
    return dconfdb_snapshot_read(snapshot, path, &value) ? strtol(value.data, NULL, 10) : 0;
}

/* How many keys a snapshot has. */
static size_t count_of(const DconfdbSnapshot *snapshot)
{
    size_t count = 0;
    const char *path;
    DconfdbValue value;
    DconfdbIterator *iterator = dconfdb_snapshot_iterate(snapshot, "/", NULL);
    TRY(iterator);
    while (dconfdb_iterator_next(iterator, &path, &value))
        count++;
    dconfdb_iterator_free(iterator);
    return count;
}

static void *reads(void *seen)
{
    long last = 0;
    while (!atomic_load(&has_ended)) {
        TRY(dconfdb_store_refresh(store, NULL, NULL));
        DconfdbSnapshot *now = dconfdb_store_snapshot(store);
        long one = number_at(now, "/one"), other = number_at(now, "/other");
        TRY(one == other && one >= last && dconfdb_snapshot_is_writable(now, "/one"));
        char *names = dconfdb_snapshot_list(now, "/", NULL, NULL);
        TRY(names);
        free(names);
        TRY(count_of(now) >= (one > 0 ? 5 : 3) && dconfdb_store_fd(store, NULL) >= 0);
        names = dconfdb_store_dispatch(store, NULL, NULL);
        TRY(names && strspn(names, "/onether") == strlen(names));
        free(names);
        TRY(number_at(now, "/one") == one);
        dconfdb_snapshot_unref(now);
        last = one;
        ++*(long *)seen;
    }
    return NULL;
}

int main(int argc, char **argv)
{
    pthread_t threads[READERS];
    long seen[READERS] = {0}, all = 0;
    TRY(argc == 3 && (store = dconfdb_store_open(argv[1], NULL)) != NULL);
    most = strtol(argv[2], NULL, 10);
    for (int i = 0; i < READERS; i++)
        TRY(pthread_create(&threads[i], NULL, reads, &seen[i]) == 0);
    for (long n = 1; n <= most; n++) {
        char text[32];
        snprintf(text, sizeof text, "%ld", n);
        DconfdbEdit both[] = {sets_text("/one", text), sets_text("/other", text)};
        TRY(dconfdb_store_change(store, NULL, both, 2, NULL));
    }
    atomic_store(&has_ended, true);
    for (int i = 0; i < READERS; i++) {
        TRY(pthread_join(threads[i], NULL) == 0);
        all += seen[i];
    }
    DconfdbSnapshot *now = dconfdb_store_snapshot(store);
    TRY(number_at(now, "/one") == most && all > 0);
    dconfdb_snapshot_unref(now);
    dconfdb_store_close(store);
    printf("%ld changes, %ld reads by %d threads\n", most, all, READERS);
    return 0;
}
