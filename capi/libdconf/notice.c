/* Signals: who is told of what, in the client's context. */
#define _POSIX_C_SOURCE 200809L
#include "../gsettings/catch_up.h"
#include "libdconf.h"

#include "edit_with.h"
#include "lists.h"
#include "seen.h"
#include "texts.h"

typedef struct {
    Engine *engine;
    gchar *path;     /* what all changed paths begin with */
    gchar **changes; /* the rest of each */
    gchar *tag;
    gboolean is_new;       /* a fast change of this client, which no file has yet */
    gboolean is_of_rights; /* it changed whether the path may be written, too */
} Notice;

/* Who is told may read by GSettings, whose module watches the files by itself. */
static void catch_up(void)
{
    GType type = g_type_from_name(CATCH_UP_TYPE);
    const CatchUp *its = type ? g_type_get_qdata(type, g_quark_from_static_string(CATCH_UP_DATA)) : NULL;
    if (its)
        its->all();
}

static gboolean emit(gpointer data)
{
    const Notice *notice = data;
    DconfdbTelling telling = {.is_other = true, .has_rights = notice->is_of_rights, .is_of_files = !notice->is_new};
    DConfClient *client = g_weak_ref_get(&notice->engine->client);
    while (client && tell_next_list(&telling) != DCONFDB_TELL_OVER) {
        switch (telling.list) {
        case DCONFDB_TELL_CATCH_UP:
            catch_up();
            break;
        case DCONFDB_TELL_RIGHTS:
            g_signal_emit_by_name(client, "writability-changed", notice->path);
            break;
        default: /* DCONFDB_TELL_VALUES */
            g_signal_emit_by_name(client, "changed", notice->path, notice->changes, notice->tag);
        }
    }
    g_clear_object(&client);
    return G_SOURCE_REMOVE;
}

static void free_notice(gpointer data)
{
    Notice *notice = data;
    engine_unref(notice->engine);
    g_free(notice->path);
    g_strfreev(notice->changes);
    g_free(notice->tag);
    g_free(notice);
}

static Notice *notice_new(Engine *self, const gchar *path, const gchar *const *changes, const gchar *tag)
{
    Notice *notice = g_new0(Notice, 1);
    notice->engine = engine_ref(self);
    notice->path = g_strdup(path);
    notice->changes = g_strdupv((gchar **)(gpointer)changes);
    notice->tag = g_strdup(tag);
    return notice;
}

static void send_now(Notice *notice)
{
    notice->is_new = TRUE;
    g_main_context_invoke_full(notice->engine->context, G_PRIORITY_DEFAULT, emit, notice, free_notice);
}

static void send_later(Notice *notice)
{
    GSource *source = g_idle_source_new();
    g_source_set_priority(source, G_PRIORITY_DEFAULT);
    g_source_set_callback(source, emit, notice, free_notice);
    g_source_attach(source, notice->engine->context);
    g_source_unref(source);
}

void notice_changed(Engine *self, DConfChangeset *changes, const gchar *tag, gboolean may_be_now)
{
    const gchar *prefix, *const *paths;
    if (dconf_changeset_describe(changes, &prefix, &paths, NULL) == 0)
        return;
    Notice *notice = notice_new(self, prefix, paths, tag);
    if (may_be_now)
        send_now(notice);
    else
        send_later(notice);
}

/* ---- what others changed */

/* What others changed, and what is told of that. */
typedef struct {
    Engine *engine;
    DconfdbSnapshot *before, *now;
    DConfChangeset *own;
} Others;

/* The keys that this client itself changes. False: no memory is left. */
static bool finds_own(const Others *others, Told *told)
{
    const gchar *prefix = "", *const *rests = NULL;
    guint count = others->own ? dconf_changeset_describe(others->own, &prefix, &rests, NULL) : 0;
    g_auto(GStrv) paths = g_new0(gchar *, count + 1);
    g_autofree DconfdbBytes *edits = g_new(DconfdbBytes, count + 1);
    for (guint i = 0; i < count; i++) {
        paths[i] = g_strconcat(prefix, rests[i], NULL);
        edits[i] = text_bytes(paths[i]);
    }
    return seen_own(told, others->before, others->now, edits, count, NULL);
}

/* What the changes say of each of these keys: that is seen already. Paths and values are lent. */
static GArray *own_edits(DConfChangeset *changes, const char *paths)
{
    GArray *edits = g_array_new(FALSE, FALSE, sizeof(DconfdbEdit));
    for (const char *at = paths; *at; at = next_text(at)) {
        g_autoptr(GVariant) value = NULL; /* the changes have it */
        if (!dconf_changeset_get(changes, at, &value))
            continue;
        DconfdbEdit edit = edit_with(at, value);
        g_array_append_val(edits, edit);
    }
    return edits;
}

/* The keys that are seen otherwise beside what this client changes. False: no memory is left. */
static bool finds_changed(const void *it, Told *told)
{
    const Others *others = it;
    Told own;
    if (!finds_own(others, &own))
        return false;
    GArray *edits = own_edits(others->own, own.paths);
    SeenKey *keys = g_new(SeenKey, edits->len);
    for (guint i = 0; i < edits->len; i++) {
        const DconfdbEdit *edit = &g_array_index(edits, DconfdbEdit, i);
        keys[i] = (SeenKey){edit->path, NULL, edit, edit};
    }
    bool is = seen_otherwise(told, others->before, others->now, keys, edits->len, NULL);
    g_free(keys);
    g_array_unref(edits);
    seen_free(&own);
    return is;
}

/* ---- who is told of it */

/* All that is at the path, or below it; `is_of_rights`: also that it may be otherwise whether it may be written. */
static void send_all_at(Engine *self, const char *path, gboolean is_of_rights)
{
    static const gchar *const itself[] = {"", NULL};
    Notice *notice = notice_new(self, path, itself, "");
    notice->is_of_rights = is_of_rights;
    send_later(notice);
}

/* All in one notice, if somebody listens to what they begin with. */
static void send_changed(const void *it, DconfdbTelling *telling, const char *paths)
{
    Engine *self = ((const Others *)it)->engine;
    const gchar *prefix = "";
    DConfChangeset *changed = dconf_changeset_new();
    for (const char *at = paths; *at; at = next_text(at))
        dconf_changeset_set(changed, at, NULL);
    telling->has_path = false;
    telling->taken = dconf_changeset_describe(changed, &prefix, NULL, NULL);
    telling->is_listened = telling->taken > 0 && engine_is_watched(self, prefix);
    uint32_t next = dconfdb_tell_next(telling);
    if (next == DCONFDB_TELL_WHAT_IS_TAKEN)
        notice_changed(self, changed, "", FALSE);
    else if (next == DCONFDB_TELL_ALL)
        send_all_at(self, "/", FALSE);
    dconf_changeset_unref(changed);
}

/* Keys, and directories as a whole, of which it changed whether they may be written: their values may be others, too. */
static void send_writable(const void *it, DconfdbTelling *telling, const char *paths)
{
    Engine *self = ((const Others *)it)->engine;
    telling->has_path = true;
    for (const char *at = paths; telling->has_path; at = next_text(at)) {
        telling->has_path = *at != 0;
        telling->is_listened = telling->has_path && engine_is_watched(self, at);
        uint32_t next = dconfdb_tell_next(telling);
        if (next == DCONFDB_TELL_TAKE)
            send_all_at(self, at, TRUE);
        else if (next == DCONFDB_TELL_ALL)
            send_all_at(self, "/", TRUE);
    }
}

/* Without a snapshot before, all that is there is told, and that it may be written: who listens has seen what was there first, or that nothing was.
 * Without memory all is. */
void notice_others(Engine *self)
{
    static const Teller teller = {finds_changed, send_writable, send_changed};
    g_mutex_lock(&self->lock);
    Others others = {self, self->told, self->source && self->store ? dconfdb_store_snapshot(self->store) : NULL,
                     self->writing ? dconf_changeset_ref(self->writing) : NULL};
    self->told = others.now ? dconfdb_snapshot_ref(others.now) : NULL;
    g_mutex_unlock(&self->lock);
    DconfdbTelling telling = {.is_other = others.before != others.now, .is_unseen = !others.now, .has_rights = true};
    while (tell_next_list(&telling) != DCONFDB_TELL_OVER)
        tell_list(&teller, &others, others.before, others.now, &telling);
    g_clear_pointer(&others.own, dconf_changeset_unref);
    dconfdb_snapshot_unref(others.before);
    dconfdb_snapshot_unref(others.now);
}
