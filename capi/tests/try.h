/* What the tests of the library have in common. They use the public header alone. */
#ifndef TRY_H
#define TRY_H

#include "dconfdb.h"

#include <pwd.h>
#include <stdio.h>
#include <stdlib.h>
#include <string.h>
#include <time.h>
#include <unistd.h>

/* Ends the test where something is not as it should be. */
#define TRY(it)                                                                                                                \
    do {                                                                                                                       \
        if (!(it)) {                                                                                                           \
            fprintf(stderr, "%s:%d: %s\n", __FILE__, __LINE__, #it);                                                           \
            exit(1);                                                                                                           \
        }                                                                                                                      \
    } while (0)

/* The next descriptor that a file would have. */
static inline int next_descriptor(void)
{
    int next = dup(0);
    TRY(next >= 0 && close(next) == 0);
    return next;
}

/* Of a clock. */
static inline double seconds(clockid_t clock)
{
    struct timespec now;
    TRY(clock_gettime(clock, &now) == 0);
    return (double)now.tv_sec + (double)now.tv_nsec / 1e9;
}

/* An edit that sets a string. */
static inline DconfdbEdit sets_text(const char *path, const char *text)
{
    return (DconfdbEdit){path, "s", text, strlen(text) + 1};
}

/* Whether a string is the value. */
static inline bool is_text(const DconfdbValue *value, const char *text)
{
    return value->type_size == 1 && value->type[0] == 's' && value->size == strlen(text) + 1
        && memcmp(value->data, text, value->size) == 0;
}

/* Whether a snapshot has a string at a path; no string: nothing. */
static inline bool has(const DconfdbSnapshot *snapshot, const char *path, const char *text)
{
    DconfdbValue value;
    if (!dconfdb_snapshot_read(snapshot, path, &value))
        return !text && value.size == 0 && value.data && value.type;
    return text && is_text(&value, text);
}

/* A home that the system knows of, in the place of the C library's answer: NULL, none. A test that asks
 * for one has `SYSTEMS_HOME(its variable)`. */
#define SYSTEMS_HOME(home)                                                                                                     \
    int getpwuid_r(uid_t user, struct passwd *entry, char *room, size_t len, struct passwd **found)                            \
    {                                                                                                                          \
        *entry = (struct passwd){.pw_name = room, .pw_uid = user, .pw_dir = home};                                             \
        *found = home && len > 0 ? entry : NULL;                                                                               \
        return 0;                                                                                                              \
    }

#endif
