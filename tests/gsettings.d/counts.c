/* Counts by changes of two keys through libdconfdb: each number is set in both at once, and instead of each fifth they are reset. Tells each that is
 * acknowledged.
 *
 *   counts FOLDER PATH FROM
 */
#include <dconfdb.h>
#include <stdio.h>
#include <stdlib.h>

enum { RESET = 5 };

int main(int argc, char **argv)
{
    DconfdbError error = DCONFDB_ERROR_INIT;
    char keys[2][256];
    DconfdbStore *store = argc == 4 ? dconfdb_store_open(argv[1], &error) : NULL;
    if (!store)
        return 2;
    snprintf(keys[0], sizeof keys[0], "%sfirst", argv[2]);
    snprintf(keys[1], sizeof keys[1], "%ssecond", argv[2]);
    for (unsigned number = (unsigned)atoi(argv[3]);; number++) {
        DconfdbEdit edits[2];
        for (int i = 0; i < 2; i++)
            edits[i] = number % RESET ? (DconfdbEdit){keys[i], "u", &number, sizeof number} : (DconfdbEdit){keys[i], NULL, NULL, 0};
        if (!dconfdb_store_change(store, NULL, edits, 2, &error)) {
            fprintf(stderr, "%s\n", error.text);
            return 1;
        }
        printf("%u\n", number);
        fflush(stdout);
    }
}
