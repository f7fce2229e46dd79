/* What a Watch has: the names that are watched, and when the files are looked at. */
#ifndef WATCHED_H
#define WATCHED_H

#include "dconfdb_calls.h"
#include "watch.h"

#include <stdbool.h>
#include <stddef.h>
#include <stdint.h>

typedef struct {
    int number; /* inotify's, of a folder */
    DconfdbWatchedName name;
    char *path; /* a name in the folder; NULL: the folder itself */
    int file;   /* inotify's number of the file that has the name; -1: that isn't watched itself */
} Watched;

struct Watch {
    int inotify; /* -1: there is none */
    bool minds_etc, is_whole;
    size_t count, room;
    Watched *all;
    DconfdbNotice notice;
};

/* Watches nothing any longer. */
void forget_watched(Watch *watch);

/* Asks that of the file that has the name by now, in place of the one before. Gives 0, or errno. */
int follow_file(Watch *watch, Watched *one, uint32_t asked);

/* What stands at a path, as stat says it; both are 0 where nothing does, or where it can't be seen. */
typedef struct {
    uint32_t mode;
    uint64_t links;
    bool is_unseen;
} Stands;

Stands stands_at(const char *path);

#endif
