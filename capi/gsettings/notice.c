/* Who is told of what: exactly the keys that are seen otherwise, or that may be written or no
 * longer. */
#include "gsettings.h"

#include "seen.h"

#include <stdio.h>
#include <stdlib.h>
#include <string.h>

/* As many as one notice may have, and one more. */
enum { NOTICE_ROOM = 256 };

enum { FEW_KEYS = 4 };

/* Whether somebody listens to what the path is or is below, or, of a directory, to what is below it. */
static bool is_listened(DconfdbBackend *self, const char *path)
{
    GHashTableIter at;
    gpointer name;
    bool is = false;
    g_mutex_lock(&self->lock);
    g_hash_table_iter_init(&at, self->subscribed);
    while (!is && g_hash_table_iter_next(&at, &name, NULL))
        is = paths_meet(name, path);
    g_mutex_unlock(&self->lock);
    return is;
}

static int by_path(const void *path, const void *edited)
{
    return strcmp(path, ((const Edited *)edited)->path);
}

/* What our edits of the key said before, and say now; NULL: there was none. */
static const Edited *edited_of(const Notice *notice, const char *path)
{
    const EditedKeys *keys = notice->edited;
    return keys ? bsearch(path, keys->all, keys->count, sizeof keys->all[0], by_path) : NULL;
}

/* Keys that are asked for by themselves, mostly few. They lend our edits of them. */
typedef struct {
    SeenKey *keys, few_keys[FEW_KEYS];
    guint count;
} Asked;

static void add_asked(Asked *asked, const char *path, const char *type, const Edited *edited)
{
    asked->keys[asked->count++] = (SeenKey){path, type, edited ? &edited->was : NULL, edited && edited->is_edited ? &edited->is : NULL};
}

/* What a program set was told when it set it; so only what is seen otherwise since. And keys of which a value of another type was passed
 * over: their default is seen. */
static void ask(Asked *asked, const Notice *notice)
{
    guint edited = notice->edited ? (guint)notice->edited->count : 0, odd = notice->odd ? g_strv_length(notice->odd) / 2 : 0;
    bool are_few = edited + odd <= FEW_KEYS;
    asked->keys = are_few ? asked->few_keys : g_new(SeenKey, edited + odd);
    asked->count = 0;
    for (guint i = 0; i < edited; i++) {
        const Edited *one = &notice->edited->all[i];
        add_asked(asked, one->path, NULL, one);
    }
    for (guint i = 0; i < odd; i++)
        add_asked(asked, notice->odd[2 * i], notice->odd[2 * i + 1], edited_of(notice, notice->odd[2 * i]));
}

/* What is told by whom. */
typedef struct {
    DconfdbBackend *backend;
    const Notice *notice;
} Telling;

/* The keys that are seen otherwise. False: no memory is left. */
static bool finds_changed(const void *it, Told *told)
{
    const Notice *notice = ((const Telling *)it)->notice;
    Asked asked;
    ask(&asked, notice);
    bool is = seen_otherwise(told, notice->before, notice->after, asked.keys, asked.count, NULL);
    if (asked.keys != asked.few_keys)
        g_free(asked.keys);
    return is;
}

/* ---- who is told */

/* Those that were taken. */
static void send_taken(DconfdbBackend *self, DconfdbTelling *telling, const char **items)
{
    items[telling->taken] = NULL;
    telling->taken = 0;
    g_settings_backend_keys_changed(&self->parent, "/", items, NULL);
}

/* The keys, without their first slash, as GSettings wants them below `/`. At the end somebody listens to what was taken; where nothing was, it is proved that
 * this doesn't count (what_is_not_asked_is_not_told). */
static void send_changed(const void *it, DconfdbTelling *telling, const char *paths)
{
    DconfdbBackend *self = ((const Telling *)it)->backend;
    const char *items[NOTICE_ROOM];
    telling->has_path = true;
    for (const char *at = paths; telling->has_path; at += strlen(at) + 1) {
        telling->has_path = *at != 0;
        telling->is_listened = !telling->has_path || is_listened(self, at);
        uint32_t next = dconfdb_tell_next(telling);
        if (next == DCONFDB_TELL_ALL)
            g_settings_backend_path_changed(&self->parent, "/", NULL);
        if (next == DCONFDB_TELL_THEN_TAKE || next == DCONFDB_TELL_WHAT_IS_TAKEN)
            send_taken(self, telling, items);
        if (next == DCONFDB_TELL_TAKE || next == DCONFDB_TELL_THEN_TAKE)
            items[telling->taken++] = at + 1;
    }
}

/* Which keys a directory has, only GSettings knows. */
static void send_writable_of(DconfdbBackend *self, const char *path)
{
    bool is_short;
    if (dconfdb_path_kind((const uint8_t *)path, strlen(path), DCONFDB_PATH_WANTED, false, &is_short) == DCONFDB_PATH_DIRECTORY)
        g_settings_backend_path_writable_changed(&self->parent, path);
    else
        g_settings_backend_writable_changed(&self->parent, path);
}

/* Keys, and directories as a whole, of which it changed whether they may be written: each is a notice of its own. */
static void send_writable(const void *it, DconfdbTelling *telling, const char *paths)
{
    DconfdbBackend *self = ((const Telling *)it)->backend;
    telling->has_path = true;
    for (const char *at = paths; telling->has_path; at += strlen(at) + 1) {
        telling->has_path = *at != 0;
        telling->is_listened = telling->has_path && is_listened(self, at);
        uint32_t next = dconfdb_tell_next(telling);
        if (next == DCONFDB_TELL_ALL)
            send_writable_of(self, "/");
        if (next == DCONFDB_TELL_TAKE)
            send_writable_of(self, at);
    }
}

/* ---- faults */

static bool has_ended(DconfdbBackend *self)
{
    g_mutex_lock(&self->lock);
    bool has = self->has_ended;
    g_mutex_unlock(&self->lock);
    return has;
}

static void say_as(uint32_t list, const char *text)
{
    if (list == DCONFDB_TELL_PRINT)
        fprintf(stderr, "dconfdb: %s\n", text);
    else
        g_warning("%s", text);
}

void say(DconfdbBackend *self, const char *text)
{
    DconfdbTelling telling = {.ends = has_ended(self), .has_faults = true};
    say_as(tell_next_list(&telling), text);
}

/* ---- all of it */

/* What is known of it before anything is found. */
static DconfdbTelling telling_of(const Notice *notice)
{
    return (DconfdbTelling){.is_first = notice->is_first,
                            .is_other = notice->before != notice->after,
                            .has_edits = notice->edited != NULL,
                            .has_rights = true,
                            .has_faults = notice->faults != NULL};
}

/* Whether anything is told, whatever is found. */
static bool is_news(DconfdbTelling telling)
{
    return tell_next_list(&telling) != DCONFDB_TELL_OVER;
}

static void carry_out(const Telling *it, DconfdbTelling *telling)
{
    static const Teller teller = {finds_changed, send_writable, send_changed};
    const Notice *notice = it->notice;
    switch (telling->list) {
    case DCONFDB_TELL_WARN:
    case DCONFDB_TELL_PRINT:
        for (guint i = 0; i < notice->faults->len; i++)
            say_as(telling->list, notice->faults->pdata[i]);
        break;
    default:
        tell_list(&teller, it, notice->before, notice->after, telling);
    }
}

static void notice_end(Notice *notice)
{
    g_clear_pointer(&notice->faults, g_ptr_array_unref);
    g_clear_pointer(&notice->edited, edited_free);
    g_strfreev(notice->odd);
    changes_free(&notice->gone);
    dconfdb_snapshot_unref(notice->before);
    dconfdb_snapshot_unref(notice->after);
}

/* Whether the program ends isn't asked where nothing is told if it doesn't: by the same law nothing is if it does. */
void notice_tell(DconfdbBackend *self, Notice *notice)
{
    const Telling it = {self, notice};
    DconfdbTelling telling = telling_of(notice);
    telling.ends = is_news(telling) && has_ended(self);
    while (tell_next_list(&telling) != DCONFDB_TELL_OVER)
        carry_out(&it, &telling);
    notice_end(notice);
}

void notice_tell_and_free(DconfdbBackend *self, Notice *notice)
{
    notice_tell(self, notice);
    g_free(notice);
}

void notice_tell_elsewhere(DconfdbBackend *self, Notice *notice)
{
    worker_tells(self, notice, is_news(telling_of(notice)));
}
