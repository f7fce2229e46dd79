/* common/tried.c: what is known of two edits that were tried together, of keys and of directories, beside those behind them. */
#include "common/tried.c"
#include "machines.h"
#include "world.h"

#include <stdlib.h>

enum { TRIED = 2 };

static const char *const paths[] = {"/a", "/a/", "/a/b"};
static DconfdbEdit edits[TRIED];
static const DconfdbEdit *lent[TRIED];
static uint64_t moments[TRIED];
static Batch batch = {.count = TRIED, .edits = lent, .moments = moments};
static char snapshot[1];
static bool is_refused, is_left, is_stored;

/* ---- a tree of paths, in their order */

struct GTreeNode { gpointer key, value; GTreeNode *next; };
struct GTree { GTreeNode nodes[TRIED]; GTreeNode *first; unsigned count; };

GTree *g_tree_new(GCompareFunc compare)
{
    static GTree tree;
    CHECK(compare == by_path, "step: by paths");
    tree.count = 0;
    tree.first = NULL;
    return &tree;
}

void g_tree_replace(GTree *tree, gpointer key, gpointer value)
{
    GTreeNode **at = &tree->first;
    while (*at && strcmp((*at)->key, key) < 0)
        at = &(*at)->next;
    if (*at && strcmp((*at)->key, key) == 0) {
        (*at)->key = key;
        (*at)->value = value;
        return;
    }
    CHECK(tree->count < TRIED, "memory: no more paths than edits");
    GTreeNode *node = &tree->nodes[tree->count++];
    *node = (GTreeNode){key, value, *at};
    *at = node;
}

GTreeNode *g_tree_lower_bound(GTree *tree, gconstpointer key)
{
    GTreeNode *at = tree->first;
    while (at && strcmp(at->key, key) < 0)
        at = at->next;
    return at;
}

GTreeNode *g_tree_node_next(GTreeNode *node) { return node->next; }
gpointer g_tree_node_key(GTreeNode *node) { return node->key; }
gpointer g_tree_node_value(GTreeNode *node) { return node->value; }

gboolean g_tree_lookup_extended(GTree *tree, gconstpointer key, gpointer *its, gpointer *value)
{
    (void)its;
    GTreeNode *at = g_tree_lower_bound(tree, key);
    if (!at || strcmp(at->key, key) != 0)
        return FALSE;
    *value = at->value;
    return TRUE;
}

/* ---- GLib's memory, the batch, the library */

char *g_strdup(const char *text)
{
    size_t size = strlen(text) + 1;
    char *copy = malloc(size);
    GIVEN(copy != NULL);
    return memcpy(copy, text, size);
}

void g_free(void *memory) { free(memory); }

bool batch_is_refused(const Batch *of, size_t number)
{
    CHECK(of == &batch && number < TRIED, "memory: an edit of the batch");
    return is_refused;
}

bool batch_is_left_out(const Batch *of, size_t number)
{
    CHECK(of == &batch && number < TRIED, "memory: an edit of the batch");
    return is_left;
}

bool dconfdb_snapshot_has_edit(const DconfdbSnapshot *of, const DconfdbEdit *edit)
{
    CHECK((const char *)of == snapshot && edit >= edits && edit < edits + TRIED, "memory: an edit and what was there");
    return is_stored;
}

/* Whether one is the other, or a directory above it. */
static bool is_above(const char *one, const char *other)
{
    size_t len = strlen(one);
    return strcmp(one, other) == 0 || (one[len - 1] == '/' && strncmp(one, other, len) == 0);
}

bool paths_meet(const char *one, const char *other)
{
    return is_above(one, other) || is_above(other, one);
}

/* Of one path twice: it, or the longest directory above it that has no more bytes than that. */
size_t dconfdb_shared_within(const uint8_t *path, size_t path_len, size_t most, const uint8_t *other, size_t other_len)
{
    CHECK(path == other && path_len == other_len && most <= path_len, "step: the directories above one path");
    if (most == path_len)
        return most;
    while (most > 0 && path[most - 1] != '/')
        most--;
    return most;
}

/* As the proved call: the first question that counts, behind that one. */
uint32_t dconfdb_tried_asks(uint32_t asked, const DconfdbTried *edit)
{
    CHECK(__CPROVER_r_ok(edit, sizeof *edit) && asked <= DCONFDB_TRIED_THERE, "step: behind a question that was asked");
    if (!edit->is_written || edit->is_refused || edit->is_left_out || edit->is_now || edit->is_again || asked == DCONFDB_TRIED_THERE)
        return DCONFDB_TRIED_OVER;
    return asked + 1;
}

/* harness tried: unwind 5 */
int tried(void)
{
    const size_t at = 0; /* the last one has none behind it */
    for (size_t i = 0; i < TRIED; i++) {
        size_t path = any_size();
        GIVEN(path < sizeof paths / sizeof *paths);
        edits[i] = (DconfdbEdit){.path = paths[path]};
        lent[i] = &edits[i];
        moments[i] = any_u64();
    }
    is_refused = any_bool(), is_left = any_bool(), is_stored = any_bool();
    bool is_written = any_bool(), is_again = false;
    for (size_t i = at + 1; i < TRIED; i++)
        is_again = is_again || paths_meet(edits[at].path, edits[i].path);
    const DconfdbTried found = tried_edit(&batch, at, is_written, tried_last(&batch), (const DconfdbSnapshot *)snapshot);
    bool is_asked = is_written && !is_refused && !is_left && !found.is_now;
    CHECK(found.is_again == (is_asked && is_again), "answer: whether an edit behind it is of its path, or one above or below");
    CHECK(found.is_there == (is_asked && !is_again && is_stored), "answer: what is there, where that counts");
    CHECK(found.is_refused == is_refused && found.is_left_out == is_left, "answer: what became of it");
    CHECK(found.is_written == is_written && found.is_now == (moments[at] == UINT64_MAX), "answer: whether it is written, and counts as set now");
    if (is_again)
        REACHED("one behind it");
    return 0;
}
