/* Changes that are written together, as the library is asked for them. */
#include "kinds.h"
#include "service.h"

#include <string.h>

static DconfdbTime asked_at(const Change *change, const char *path)
{
    return (DconfdbTime){{(const uint8_t *)path, strlen(path)}, change->moment, 0};
}

/* The edits of all that is written together by which directories are reset. */
static GArray *resets_of(const GList *first)
{
    GArray *resets = g_array_new(FALSE, FALSE, sizeof(DconfdbTime));
    for (const GList *at = first; at; at = at->next) {
        const Change *change = at->data;
        for (size_t i = 0, left = change->resets; left > 0; i++) {
            const char *path = edit_of(change, i)->path;
            DconfdbTime asked = asked_at(change, path);
            if (is_directory(path)) {
                g_array_append_val(resets, asked);
                left--;
            }
        }
    }
    return resets;
}

/* The moment in which it counts as made: what stands in it in a directory that is reset, by it or by another, isn't lost to what others set
 * before its turn. Where none is, nothing is asked. */
static uint64_t moment_of(const Change *change, const GArray *resets)
{
    size_t own = change->edits->len;
    if (resets->len == 0)
        return change->moment;
    g_autofree DconfdbTime *asked = g_new(DconfdbTime, own + 1);
    for (size_t i = 0; i < own; i++)
        asked[i] = asked_at(change, edit_of(change, i)->path);
    return dconfdb_moment_beside(asked, own, (const DconfdbTime *)(gpointer)resets->data, resets->len, change->moment);
}

/* Whether each edit of a change is one of its own for the queue: what can't be made is left out by itself then. */
static bool stands_alone(void)
{
    const DconfdbServed known = {.is_same = true};
    return dconfdb_served_after(DCONFDB_SERVED_BESIDE, &known) == DCONFDB_SERVED_ALONE;
}

Batch batch_of(const GList *first, size_t count)
{
    Batch batch = batch_new(count);
    bool is_alone = stands_alone();
    g_autoptr(GArray) resets = resets_of(first);
    for (const GList *at = first; at; at = at->next) {
        const Change *change = at->data;
        uint64_t moment = moment_of(change, resets);
        for (size_t i = 0; i < change->edits->len; i++)
            batch_add(&batch, edit_of(change, i), moment, is_alone ? batch.count : change->first, false);
    }
    return batch;
}
