/* A change that is to be written, its edits, and how it is written. */
#define _POSIX_C_SOURCE 200809L
#include "edit_with.h"
#include "gsettings.h"

#include <string.h>

enum { WORD = sizeof(uint64_t) };

static uint64_t mixed(uint64_t hash, uint64_t word)
{
    hash = (hash ^ word) * 0x9e3779b97f4a7c15;
    return hash ^ hash >> 32;
}

static uint64_t word_at(const char *bytes)
{
    uint64_t word;
    memcpy(&word, bytes, WORD);
    return word;
}

/* Word by word; the last one overlaps the one before it. */
guint path_hash(const char *path, size_t len)
{
    uint64_t hash = len, word = 0;
    if (len < WORD) {
        memcpy(&word, path, len);
        return (guint)mixed(hash, word);
    }
    for (size_t at = 0; at + WORD < len; at += WORD)
        hash = mixed(hash, word_at(path + at));
    return (guint)mixed(hash, word_at(path + len - WORD));
}

Change *change_new(size_t most, size_t paths)
{
    Change *change = g_malloc(sizeof *change + most * (sizeof change->edits[0] + sizeof change->known[0]) + paths);
    change->moment = 0;
    change->asks = change->is_taken = change->is_refused = false;
    change->count = 0;
    change->most = most;
    change->known = (DconfdbNewEdit *)&change->edits[most];
    change->room = (char *)&change->known[most];
    return change;
}

void change_add(Change *change, const char *path, size_t len, GVariant *value)
{
    g_assert(change->count < change->most);
    Edit *edit = &change->edits[change->count++];
    edit->len = len;
    edit->path = memcpy(change->room, path, len + 1);
    change->room += len + 1;
    edit->hash = path_hash(path, len);
    edit->key = NO_KEY;
    edit->number = edit->before = 0;
    edit->change = change;
    /* Bytes of a program that aren't normal may be as deep as they like; normal ones say the
     * same. */
    edit->value = value ? g_variant_get_normal_form(value) : NULL;
    edit->asked = edit_with(edit->path, edit->value);
    edit->is_left_out = false;
    edit->may_be_of = 0;
}

static int by_name(const void *one, const void *other, void *data)
{
    (void)data;
    return strcmp(one, other);
}

static void unref_value(gpointer value)
{
    if (value)
        g_variant_unref(value);
}

GTree *change_tree(const Change *change)
{
    GTree *tree = g_tree_new_full(by_name, NULL, g_free, unref_value);
    for (size_t i = 0; i < change->count; i++) {
        const Edit *edit = &change->edits[i];
        if (edit_is_news(&change->known[i]))
            g_tree_insert(tree, g_strdup(edit->path), edit->value ? g_variant_ref(edit->value) : NULL);
    }
    return tree;
}

void change_free(Change *change)
{
    for (size_t i = 0; i < change->count; i++) {
        if (change->edits[i].value)
            g_variant_unref(change->edits[i].value);
    }
    g_free(change);
}

void changes_free(GQueue *changes)
{
    for (GList *at = changes->head, *next; at; at = next) {
        next = at->next; /* which goes with the change */
        change_free(at->data);
    }
    g_queue_init(changes);
}

/* ---- how they are written */

static size_t edits_in(const GQueue *changes)
{
    size_t count = 0;
    for (const GList *at = changes->head; at; at = at->next)
        count += ((const Change *)at->data)->count;
    return count;
}

static Batch batch_of(const GQueue *changes)
{
    Batch batch = batch_new(edits_in(changes));
    for (const GList *at = changes->head; at; at = at->next) {
        const Change *change = at->data;
        size_t first = batch.count;
        for (size_t i = 0; i < change->count; i++)
            batch_add(&batch, &change->edits[i].asked, change->moment, first, change->edits[i].is_left_out);
    }
    return batch;
}

/* Tells each edit that it is left out, and each change that it is refused. */
static void mark_unmade(const Batch *batch, const GQueue *changes)
{
    size_t first = 0;
    for (const GList *at = changes->head; at; at = at->next) {
        Change *change = at->data;
        for (size_t i = 0; i < change->count; i++)
            change->edits[i].is_left_out = batch_is_left_out(batch, first + i);
        change->is_refused = batch_is_refused(batch, first);
        first += change->count;
    }
}

bool changes_write(DconfdbStore *store, const Turn *turn, const GQueue *changes, DconfdbError *refusal, DconfdbError *fault)
{
    Batch batch = batch_of(changes);
    bool done = batch_write(&batch, store, turn, refusal, fault);
    mark_unmade(&batch, changes);
    batch_end(&batch);
    return done;
}
