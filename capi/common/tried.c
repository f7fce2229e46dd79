/* What became of edits that were tried together: what is known of each, beside those behind it. */
#include "tried.h"
#include "seen.h"

#include <string.h>

static int by_path(gconstpointer one, gconstpointer other)
{
    return strcmp(one, other);
}

GTree *tried_last(const Batch *batch)
{
    GTree *last = g_tree_new(by_path);
    for (size_t at = 0; at < batch->count; at++)
        g_tree_replace(last, (gpointer)batch->edits[at]->path, GSIZE_TO_POINTER(at));
    return last;
}

/* Whether an edit behind that one is of its path, or, if it is a directory, of one below it. */
static bool is_said_again(GTree *last, const char *path, size_t number)
{
    bool is = false;
    GTreeNode *node = g_tree_lower_bound(last, path);
    while (!is && node && paths_meet(path, g_tree_node_key(node))) {
        is = GPOINTER_TO_SIZE(g_tree_node_value(node)) > number;
        node = g_tree_node_next(node);
    }
    return is;
}

/* Whether an edit behind that one is of its path, or of a directory above it, as the proved call names them. */
static bool is_said_above(GTree *last, const char *path, size_t number)
{
    const uint8_t *bytes = (const uint8_t *)path;
    size_t len = strlen(path), most = len;
    char *above = g_strdup(path);
    gpointer at;
    bool is = false;
    while (!is && (most = dconfdb_shared_within(bytes, len, most, bytes, len)) > 0) {
        above[most--] = 0;
        is = g_tree_lookup_extended(last, above, NULL, &at) && GPOINTER_TO_SIZE(at) > number;
    }
    g_free(above);
    return is;
}

DconfdbTried tried_edit(const Batch *batch, size_t number, bool is_written, GTree *last, const DconfdbSnapshot *then)
{
    const DconfdbEdit *edit = batch->edits[number];
    DconfdbTried tried = {
        .is_written = is_written,
        .is_refused = batch_is_refused(batch, number),
        .is_left_out = batch_is_left_out(batch, number),
        .is_now = batch->moments[number] == UINT64_MAX,
    };
    /* In the order in which the call asks. */
    uint32_t ask = dconfdb_tried_asks(DCONFDB_TRIED_BEGINS, &tried);
    if (ask == DCONFDB_TRIED_AGAIN) {
        tried.is_again = is_said_again(last, edit->path, number);
        ask = dconfdb_tried_asks(ask, &tried);
    }
    if (ask == DCONFDB_TRIED_ABOVE) {
        tried.is_again = is_said_above(last, edit->path, number);
        ask = dconfdb_tried_asks(ask, &tried);
    }
    if (ask == DCONFDB_TRIED_THERE)
        tried.is_there = dconfdb_snapshot_has_edit(then, edit);
    return tried;
}
