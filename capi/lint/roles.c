/* As what `update` reads a file, or a folder. */
#define _GNU_SOURCE
#include "lint.h"

#include <stdlib.h>
#include <string.h>

/* The parts of a path that begins with `/`. */
static GArray *parts_of(const char *path)
{
    GArray *parts = g_array_new(FALSE, FALSE, sizeof(DconfdbBytes));
    for (const char *at = path; *at;) {
        const char *name = at + 1, *end = strchrnul(name, '/');
        DconfdbBytes part = {(const uint8_t *)name, (size_t)(end - name)};
        g_array_append_val(parts, part);
        at = end;
    }
    return parts;
}

/* How much of the path are so many of its parts. */
static size_t len_of(const GArray *parts, size_t count)
{
    size_t len = 0;
    for (size_t i = 0; i < count; i++)
        len += 1 + g_array_index(parts, DconfdbBytes, i).len;
    return len;
}

/* What is said of the file by its place: how much of its folder's path is that of the last NAME.d, and whether `update` reads it there. */
typedef struct {
    uint32_t as;
    size_t sources_len, stem_len;
    bool is_source;
} Standing;

static Standing standing_of(const Asked *asked, uintmax_t size, const FileBytes *bytes)
{
    Standing standing = {0, 0, 0, false};
    DconfdbEntry entry = asked->entry;
    const DconfdbBytes nothing = DCONFDB_NOTHING;
    g_autoptr(GArray) parts = parts_of(asked->entry.within == DCONFDB_WITHIN_NONE ? asked->folder : "");
    size_t sources = 0;
    entry.is_read = bytes != NULL;
    standing.as = dconfdb_read_as(&entry, parts->len > 0 ? (const DconfdbBytes *)(gpointer)parts->data : &nothing, parts->len,
                                  (const uint8_t *)asked->name, strlen(asked->name), size, bytes && bytes->len > 0 ? bytes->at : (const uint8_t *)"",
                                  bytes ? bytes->len : 0, &sources, &standing.stem_len, &standing.is_source);
    standing.sources_len = len_of(parts, sources);
    return standing;
}

uint32_t asked_read_as(const Asked *asked, uintmax_t size, const FileBytes *bytes)
{
    return standing_of(asked, size, bytes).as;
}

static Asked asked_file(const char *file)
{
    char *path = g_canonicalize_filename(file, NULL);
    char *end = strrchr(path, '/');
    Asked asked = {.file = file, .folder = path, .name = end + 1};
    *end = 0;
    Standing standing = standing_of(&asked, 0, NULL);
    asked.sources_len = standing.sources_len;
    asked.is_source = standing.is_source;
    return asked;
}

char *asked_stem(const Asked *asked)
{
    return g_strndup(asked->name, standing_of(asked, 0, NULL).stem_len);
}

bool asked_is_made(const Asked *asked, GHashTable *made)
{
    char *stem = asked_stem(asked);
    bool is = g_hash_table_contains(made, stem);
    g_free(stem);
    return is;
}

uint32_t folder_within(const char *path)
{
    const DconfdbBytes nothing = DCONFDB_NOTHING;
    g_autofree char *whole = g_canonicalize_filename(path, NULL);
    g_autoptr(GArray) parts = parts_of(whole[1] ? whole : "");
    return dconfdb_within(parts->len > 0 ? (const DconfdbBytes *)(gpointer)parts->data : &nothing, parts->len);
}

static char *sources_of(const Asked *asked)
{
    return g_strndup(asked->folder, asked->sources_len);
}

/* Beside which of them `update` reads one that is asked for, or itself. */
static void find_read(Asked *asked, size_t count)
{
    GHashTable *read = g_hash_table_new_full(g_str_hash, g_str_equal, g_free, NULL);
    for (size_t i = 0; i < count; i++)
        if (asked[i].is_source)
            g_hash_table_add(read, sources_of(&asked[i]));
    for (size_t i = 0; i < count; i++) {
        char *sources = sources_of(&asked[i]);
        asked[i].entry.is_one_read = g_hash_table_contains(read, sources);
        g_free(sources);
    }
    g_hash_table_unref(read);
}

static int in_order(const void *one, const void *other)
{
    const Asked *first = one, *second = other;
    int folders = strcmp(first->folder, second->folder);
    return folders ? folders : strcmp(first->name, second->name);
}

Asked *asked_files(char *const *files, size_t count)
{
    Asked *asked = g_new(Asked, count + 1); /* of none, too, there is something to be sorted */
    for (size_t i = 0; i < count; i++)
        asked[i] = asked_file(files[i]);
    find_read(asked, count);
    qsort(asked, count, sizeof *asked, in_order);
    return asked;
}

void asked_free(Asked *asked, size_t count)
{
    for (size_t i = 0; i < count; i++)
        g_free(asked[i].folder);
    g_free(asked);
}

bool is_of_folder(const Asked *one, const Asked *other)
{
    return strcmp(one->folder, other->folder) == 0;
}

bool is_same_file(const Asked *one, const Asked *other)
{
    return in_order(one, other) == 0;
}
