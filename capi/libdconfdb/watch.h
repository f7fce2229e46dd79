/* The names of a store's files, watched by inotify, and the folders and links on the way to them: of the GSettings backend,
 * of libdconf, of `dconfdb watch`, and of dconfdb_store_fd. */
#ifndef WATCH_H
#define WATCH_H

#include "place.h"

#include <stdbool.h>
#include <stdint.h>

/* What comes next, as the proved machine says. */
typedef enum { WATCH_FILES, WATCH_LOOK, WATCH_REST } WatchStep;

/* What is watched, and when the files are looked at, by one thread at a time. */
typedef struct Watch Watch;

/* Watches nothing yet, for one of DCONFDB_WATCHER_*. NULL: no memory is left. */
Watch *watch_new(uint32_t who);
void watch_free(Watch *watch);

/* The next step: the caller carries it out, and answers. WATCH_FILES is to be answered by what watch_files or watch_begin give,
 * WATCH_LOOK by whether the look at the files succeeded. While it rests watch_hear or watch_pass_time are called when something
 * happened, or at `until`, in microseconds of the monotonic clock; 0: inotify tells. An answer gives when the next step is due: 0 is
 * no moment, and a moment that is over is at once. */
WatchStep watch_step(const Watch *watch, int64_t *until);
int64_t watch_answer(Watch *watch, bool yes);

/* Takes what inotify tells, and what the time is; or the same, as somebody asks for a look: then the step is no rest. */
void watch_hear(Watch *watch);
WatchStep watch_ask(Watch *watch);

/* Takes what the time is; and when a step is due by time. Where not all is watched, only a listener minds. */
void watch_pass_time(Watch *watch, bool listens);
int64_t watch_due(const Watch *watch, bool listens);

/* Other files are the store's, which was opened anew. */
void watch_opened_anew(Watch *watch);

/* Watches these files, and nothing else; a zero byte is after each, and one more. The first ones are so many profiles. False: not
 * all can be watched; NULL, none. What happened before is to be looked for. */
bool watch_files(Watch *watch, const char *files, int profiles);

/* The same of the files that the store at that place has now. */
bool watch_begin(Watch *watch, const StorePlace *place);

/* And of so many others, a zero byte after each, that may have another store opened. */
bool watch_begin_with(Watch *watch, const StorePlace *place, const char *others, int count);

/* Watches the files of a store that stays open, whatever its profile names by then. */
bool watch_store(Watch *watch, const DconfdbStore *store);

/* Whether inotify tells of all that happens to the files. */
bool watch_is_whole(const Watch *watch);

/* What is readable when something happens, or -1: inotify can't be had. */
int watch_descriptor(const Watch *watch);

#endif
