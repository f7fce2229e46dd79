/* What inotify tells of a store's files; when they are looked at, a proved machine decides. */
#define _GNU_SOURCE
#include "watched.h"
#include "held.h"

#include <stdlib.h>
#include <string.h>
#include <sys/inotify.h>
#include <sys/ioctl.h>
#include <time.h>
#include <unistd.h>

enum { SECOND = 1000000, NANOSECONDS = 1000 };

Watch *watch_new(uint32_t who)
{
    Watch *watch = calloc(1, sizeof *watch);
    if (!watch)
        return NULL;
    *watch = (Watch){.inotify = -1, .minds_etc = dconfdb_minds_much(who)};
    (void)dconfdb_notice_told(&watch->notice, DCONFDB_NOTICE_BEGINS, DCONFDB_NOTICE_NOTHING, false, 0);
    return watch;
}

void watch_free(Watch *watch)
{
    if (!watch)
        return;
    forget_watched(watch);
    if (watch->inotify >= 0)
        close(watch->inotify);
    free(watch->all);
    free(watch);
}

bool watch_is_whole(const Watch *watch)
{
    return watch->is_whole;
}

/* ---- what happened */

/* What is heard at one that is watched, after that. Another file is watched before anybody looks at it: who writes it is seen, or heard later. */
static uint32_t hear_one(Watch *watch, Watched *one, const struct inotify_event *event, uint32_t before)
{
    bool of_file = one->file == event->wd, has_name = event->len > 0;
    bool is_same = has_name && one->path && strcmp(strrchr(one->path, '/') + 1, event->name) == 0;
    Stands stands = is_same ? stands_at(one->path) : (Stands){.is_unseen = false};
    uint32_t asked = dconfdb_asked_anew(one->name.watch, event->mask, of_file, has_name, is_same, stands.is_unseen, stands.mode, stands.links);
    int fault = asked != 0 ? follow_file(watch, one, asked) : 0;
    return dconfdb_heard(before, one->name.watch, one->name.comes, event->mask, of_file, has_name, is_same, (uint32_t)fault, stands.is_unseen,
                         stands.mode, stands.links);
}

/* What is heard of an event, after that: of one that isn't of a folder or a file, by none that is watched. */
static uint32_t hear_event(Watch *watch, const struct inotify_event *event, uint32_t before)
{
    uint32_t heard = dconfdb_heard(before, DCONFDB_WATCH_NOTHING, DCONFDB_NOTICE_NOTHING, event->mask, false, true, false, 0, false, 0, 0);
    for (size_t i = 0; i < watch->count; i++)
        if (watch->all[i].number == event->wd || watch->all[i].file == event->wd)
            heard = hear_one(watch, &watch->all[i], event, heard);
    return heard;
}

/* What is heard of these events, which stand one behind another. */
static uint32_t hear_all(Watch *watch, const char *room, size_t len, uint32_t before)
{
    uint32_t heard = before;
    for (size_t at = 0; at < len;) {
        const struct inotify_event *event = (const void *)(room + at);
        heard = hear_event(watch, event, heard);
        at += sizeof *event + event->len;
    }
    return heard;
}

/* What happened since the last time. No thread is cancelled amid it. */
static uint32_t read_events(Watch *watch)
{
    _Alignas(struct inotify_event) char room[16384];
    uint32_t heard = DCONFDB_NOTICE_NOTHING;
    ssize_t len;
    int cancels = hold_cancellation();
    while ((len = read(watch->inotify, room, sizeof room)) > 0)
        heard = hear_all(watch, room, (size_t)len, heard);
    cancel_as_before(cancels);
    return heard;
}

static bool has_events(const Watch *watch)
{
    int len = 0;
    return ioctl(watch->inotify, FIONREAD, &len) == 0 && len > 0;
}

int watch_descriptor(const Watch *watch)
{
    return watch->inotify;
}

/* ---- when the files are looked at */

/* Microseconds of the monotonic clock. */
static uint64_t time_now(void)
{
    struct timespec now = {0, 0};
    clock_gettime(CLOCK_MONOTONIC, &now);
    return (uint64_t)now.tv_sec * SECOND + (uint64_t)now.tv_nsec / NANOSECONDS;
}

/* As far as timers go. */
static int64_t moment_of(uint64_t moment)
{
    return moment > INT64_MAX ? INT64_MAX : (int64_t)moment;
}

static WatchStep step_of(uint32_t step)
{
    static const WatchStep steps[] = {[DCONFDB_NOTICE_WATCH] = WATCH_FILES, [DCONFDB_NOTICE_LOOK] = WATCH_LOOK, [DCONFDB_NOTICE_REST] = WATCH_REST};
    return steps[step];
}

WatchStep watch_step(const Watch *watch, int64_t *until)
{
    uint64_t moment = 0, due = 0;
    uint32_t step = dconfdb_notice_next(&watch->notice, false, &moment, &due);
    *until = moment_of(moment);
    return step_of(step);
}

int64_t watch_answer(Watch *watch, bool yes)
{
    return moment_of(dconfdb_notice_answered(&watch->notice, yes, time_now()));
}

int64_t watch_due(const Watch *watch, bool listens)
{
    uint64_t until = 0, due = 0;
    (void)dconfdb_notice_next(&watch->notice, listens, &until, &due);
    return moment_of(due);
}

static uint32_t heard(Watch *watch)
{
    return has_events(watch) ? read_events(watch) : DCONFDB_NOTICE_NOTHING;
}

/* What happened, and what the time is. Gives the step. */
static uint32_t tell(Watch *watch, uint32_t what, uint32_t event, bool listens)
{
    return dconfdb_notice_told(&watch->notice, what, event, listens, time_now());
}

void watch_hear(Watch *watch)
{
    (void)tell(watch, DCONFDB_NOTICE_HEARD, heard(watch), false);
}

WatchStep watch_ask(Watch *watch)
{
    return step_of(tell(watch, DCONFDB_NOTICE_ASKED, heard(watch), false));
}

void watch_pass_time(Watch *watch, bool listens)
{
    (void)tell(watch, DCONFDB_NOTICE_TIME, DCONFDB_NOTICE_NOTHING, listens);
}

void watch_opened_anew(Watch *watch)
{
    (void)tell(watch, DCONFDB_NOTICE_ANEW, DCONFDB_NOTICE_NOTHING, false);
}
