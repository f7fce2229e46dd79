/* dconfdb watch: what changes in a store, by the library, and the proved text of values. */
#define _GNU_SOURCE
#include "dconfdb.h"
#include "dconfdb_calls.h"
#include "errors.h"
#include "lists.h"
#include "looked.h"
#include "notices.h"
#include "options.h"
#include "place.h"
#include "printed.h"
#include "profiles.h"
#include "seen.h"
#include "warned.h"
#include "watch.h"

#include <errno.h>
#include <limits.h>
#include <poll.h>
#include <stdio.h>
#include <stdlib.h>
#include <string.h>
#include <time.h>

enum { SECOND = 1000000, NANOSECONDS = 1000 };

/* Of share/help/commands, by capi/command. */
static const char help[] =
#include "help_watch.h"
;

/* What is watched. */
typedef struct {
    StorePlace place;
    char *names_read; /* those of the files that may be the profile come first */
    int profiles;     /* how many these are */
    const char *path;
    Watch *names;
    DconfdbStore *store;
    Profiles seen;           /* when it was opened */
    DconfdbSnapshot *before; /* what was told last */
    Warned warned;           /* the faults that were said, and are there still */
} Watching;

/* ---- words on stderr */

static void warn(const char *text)
{
    fprintf(stderr, "error: %s\n", text);
}

/* Each fault once, as long as it is there: that of a look that failed, and of files that are bad, of which what can be read counts. */
static void say(void *it, const char *text)
{
    (void)it;
    warn(text);
}

/* ---- what is told */

/* Tells what is otherwise. False: it can't be found out. */
static bool tell(const Watching *watch, const DconfdbSnapshot *now, DconfdbError *error)
{
    bool any = false, is_told = true;
    Told told;
    if (!seen_otherwise(&told, watch->before, now, NULL, 0, error))
        return false;
    for (const char *at = told.paths; is_told && *at; at = next_text(at)) {
        if (paths_meet(watch->path, at)) {
            is_told = put_key(now, at);
            any = any || is_told;
        }
    }
    seen_free(&told);
    if (any)
        puts("");
    return is_told || refuse_memory(error);
}

/* ---- looking */

/* The files that are the store's now, watched. What a profile names that is written meanwhile is seen by the look that comes then. */
static void begin(Watching *watch)
{
    watch_answer(watch->names, watch_begin(watch->names, &watch->place));
}

/* A look, and what is known of it. */
typedef struct {
    Profiles profiles;
    DconfdbGlance known;
    bool is_told;
    DconfdbError error;
} Looking;

/* Opens the store in the place of the one that is open. */
static bool open_anew(Watching *watch, Looking *it)
{
    DconfdbStore *store = place_open(&watch->place, DCONFDB_WATCHER_COMMAND, &it->error);
    if (!store)
        return false;
    it->known.has_same_files = have_same_files(store, watch->store);
    dconfdb_store_close(watch->store);
    watch->store = store;
    watch->seen = it->profiles;
    return true;
}

/* Tells what is new: after a look that failed nothing is. False: it failed. */
static bool tell_newest(Watching *watch, Looking *it)
{
    DconfdbSnapshot *now = dconfdb_store_snapshot(watch->store), *last = now;
    bool is_told = tell(watch, now, &it->error);
    if (dconfdb_handed(is_told, true) != DCONFDB_HANDED_NOT) {
        last = watch->before;
        watch->before = now;
    }
    dconfdb_snapshot_unref(last);
    return is_told;
}

static void read_files(Watching *watch, uint32_t task, Looking *it)
{
    it->known.is_done = task == DCONFDB_GLANCE_REFRESH ? dconfdb_store_refresh(watch->store, NULL, &it->error) : open_anew(watch, it);
}

static void carry_out(Watching *watch, uint32_t task, Looking *it)
{
    switch (task) {
    case DCONFDB_GLANCE_HAND:
        it->is_told = tell_newest(watch, it);
        break;
    case DCONFDB_GLANCE_HEED: /* nothing waits here */
        break;
    case DCONFDB_GLANCE_WATCH:
        watch_opened_anew(watch->names);
        break;
    default:
        read_files(watch, task, it);
    }
}

/* Looks at the files, and tells. False: it failed. */
static bool look(Watching *watch)
{
    Looking it = {.profiles = profiles_now(watch->names_read, watch->profiles), .known = {.is_open = true}, .error = DCONFDB_ERROR_INIT};
    uint32_t task = DCONFDB_GLANCE_BEGINS;
    profiles_compare(&watch->seen, &it.profiles, &it.known);
    it.known.keeps_profile = dconfdb_keeps_profile(DCONFDB_WATCHER_COMMAND);
    while ((task = dconfdb_glance_after(task, &it.known)) < DCONFDB_GLANCE_SEEN)
        carry_out(watch, task, &it);
    bool is_done = dconfdb_handed(it.is_told, task == DCONFDB_GLANCE_SEEN) == DCONFDB_HANDED_WHOLE;
    warned_renew(&watch->warned, watch->store, is_done ? NULL : &it.error, true, say, NULL);
    return is_done;
}

/* Waits for what happens, or for that moment. */
static void rest(Watching *watch, int64_t until)
{
    struct pollfd file = {.fd = watch_descriptor(watch->names), .events = POLLIN};
    struct timespec now = {0, 0};
    uint64_t wait = 0;
    clock_gettime(CLOCK_MONOTONIC, &now);
    bool ends = dconfdb_sleep_until(0, (uint64_t)until, (uint64_t)now.tv_sec * SECOND + (uint64_t)now.tv_nsec / NANOSECONDS, &wait);
    if (poll(&file, 1, !ends ? -1 : wait > INT_MAX ? INT_MAX : (int)wait) > 0)
        watch_hear(watch->names);
    else
        watch_pass_time(watch->names, true);
}

/* The next step. */
static void go_on(Watching *watch)
{
    int64_t until = 0;
    switch (watch_step(watch->names, &until)) {
    case WATCH_FILES:
        begin(watch);
        break;
    case WATCH_LOOK:
        watch_answer(watch->names, look(watch));
        break;
    case WATCH_REST:
        rest(watch, until);
        break;
    }
}

static int watch_until_interrupted(Watching *watch)
{
    while (fflush(stdout) == 0 && !ferror(stdout))
        go_on(watch);
    return 1;
}

static bool has_names(Watching *watch, DconfdbError *error)
{
    watch->names = watch_new(DCONFDB_WATCHER_COMMAND);
    return watch->names || refuse_memory(error);
}

/* What is watched, before anything is read of it: what changes meanwhile is told of. False: it can't be. */
static bool prepare(Watching *watch, DconfdbError *error)
{
    bool are_all = false;
    watch->names_read = place_files(&watch->place, &watch->profiles, &are_all, error);
    if (!watch->names_read || !has_names(watch, error))
        return false;
    begin(watch);
    watch->seen = profiles_now(watch->names_read, watch->profiles);
    return true;
}

static int start(Watching *watch)
{
    DconfdbError error = DCONFDB_ERROR_INIT;
    if (!prepare(watch, &error)) {
        warn(error.text);
        return 1;
    }
    watch->store = place_open(&watch->place, DCONFDB_WATCHER_COMMAND, &error);
    if (!watch->store) {
        warn(error.text);
        return 1;
    }
    watch->before = dconfdb_store_snapshot(watch->store);
    watch_opened_anew(watch->names);
    warned_renew(&watch->warned, watch->store, NULL, true, say, NULL);
    return watch_until_interrupted(watch);
}

static void end(Watching *watch)
{
    warned_end(&watch->warned);
    dconfdb_snapshot_unref(watch->before);
    dconfdb_store_close(watch->store);
    watch_free(watch->names);
    free(watch->names_read);
    place_release(&watch->place);
}

/* Watches the store of a folder; NULL: the user's. */
static int start_at(const char *folder, Watching *watch)
{
    DconfdbError error = DCONFDB_ERROR_INIT;
    if (!place_find(folder, &watch->place, &error)) {
        warn(error.code == DCONFDB_ERROR_NO_FOLDER ? "NoFolder" : error.text);
        return 1;
    }
    int status = start(watch);
    end(watch);
    return status;
}

/* ---- words */

/* Why a text is no path, or NULL. */
static const char *fault_of_path(const char *path)
{
    static const char *const faults[] = {[DCONFDB_REFUSED_NOT] = NULL,
                                         [DCONFDB_REFUSED_NOT_ABSOLUTE] = "NotAbsolute",
                                         [DCONFDB_REFUSED_HAS_NUL] = "HasNul",
                                         [DCONFDB_REFUSED_DOUBLE_SLASH] = "DoubleSlash",
                                         [DCONFDB_REFUSED_TOO_LONG] = "TooLong"};
    return faults[dconfdb_refused_as((const uint8_t *)path, strlen(path))];
}

/* What the words ask for. */
typedef struct {
    const char *folder, *path;
} Asked;

static void keep(void *it, uint32_t said, const char *text)
{
    Asked *asked = it;
    if (said == DCONFDB_SAID_FOLDER)
        asked->folder = text;
    else
        asked->path = text;
}

int main(int count, char **words)
{
    Asked asked = {NULL, NULL};
    int status = words_read(&(Words){false, help, "dconfdb watch [OPTIONS] <PATH>", "PATH", keep, &asked}, count, words);
    if (status != GOES_ON)
        return status;
    Watching watch = {.path = asked.path};
    const char *fault = fault_of_path(watch.path);
    if (!fault)
        return start_at(asked.folder, &watch);
    warn(fault);
    return 1;
}
