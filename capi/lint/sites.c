/* All that lies in a folder, as `update` takes it that is given the folder. What each name is there is said by the proved call. */
#define _GNU_SOURCE
#define _FILE_OFFSET_BITS 64
#include "lint.h"
#include "stood.h"

#include <dirent.h>
#include <errno.h>
#include <fcntl.h>
#include <stdlib.h>
#include <string.h>
#include <sys/stat.h>

/* A lock, until all keys are known that are set. */
typedef struct {
    Place at;
    char *path;
    bool is_fine;
} Lock;

struct Site {
    char *folder;       /* a whole path */
    GHashTable *made;   /* the names of the databases that `update` makes */
    GHashTable *set;    /* the keys that are set anywhere */
    GArray *locks;      /* each Lock */
    GPtrArray *files;   /* the names of files, to which places refer */
};

void site_sets(Site *site, const char *path)
{
    if (!g_hash_table_contains(site->set, path))
        g_hash_table_add(site->set, g_strdup(path));
}

void site_locks(Site *site, Place at, const char *path, bool is_fine)
{
    Lock lock = {at, g_strdup(path), is_fine};
    g_array_append_val(site->locks, lock);
}

bool site_makes(const Site *site, const DconfdbBytes *name)
{
    char *text = g_strndup((const char *)name->at, name->len);
    bool is = g_hash_table_contains(site->made, text);
    g_free(text);
    return is;
}

/* Once all keyfiles are read. */
static void check_locks_alone(const Site *site)
{
    for (guint i = 0; i < site->locks->len; i++) {
        const Lock *lock = &g_array_index(site->locks, Lock, i);
        const DconfdbFinding known = {
            .what = DCONFDB_OF_LOCK_ALONE, .is_known = g_hash_table_contains(site->set, lock->path), .is_taken = lock->is_fine};
        if (finding_alone(&known, lock->path) == DCONFDB_FINDING_NOT_SET)
            find(DCONFDB_FOUND_NOT_SET, lock->at, "%s is locked, and nothing here sets it", lock->path);
    }
}

/* ---- the names of a folder */

typedef struct {
    char *name;
    uint32_t kind;
    bool is_link;
} Name;

static uint32_t kind_of(int folder, const char *name)
{
    struct stat found;
    if (fstatat(folder, name, &found, 0) != 0)
        return file_fault(DCONFDB_TO_LOOK, errno) == 0 ? DCONFDB_KIND_NOWHERE : DCONFDB_KIND_UNSEEN;
    if (S_ISREG(found.st_mode))
        return DCONFDB_KIND_FILE;
    return S_ISDIR(found.st_mode) ? DCONFDB_KIND_FOLDER : DCONFDB_KIND_OTHER;
}

static Name name_of(int folder, const struct dirent *entry)
{
    struct stat found;
    bool may_be_link = entry->d_type == DT_LNK || entry->d_type == DT_UNKNOWN;
    bool is_link = may_be_link && fstatat(folder, entry->d_name, &found, AT_SYMLINK_NOFOLLOW) == 0 && S_ISLNK(found.st_mode);
    uint32_t kind = entry->d_type == DT_REG ? DCONFDB_KIND_FILE : kind_of(folder, entry->d_name);
    return (Name){g_strdup(entry->d_name), kind, is_link};
}

static bool is_itself(const char *name)
{
    return strcmp(name, ".") == 0 || strcmp(name, "..") == 0;
}

/* errno, or 0. */
static int add_names(DIR *folder, GArray *names)
{
    for (;;) {
        errno = 0;
        const struct dirent *entry = readdir(folder);
        if (!entry)
            return errno;
        if (is_itself(entry->d_name))
            continue;
        Name name = name_of(dirfd(folder), entry);
        g_array_append_val(names, name);
    }
}

static int in_order(const void *one, const void *other)
{
    return strcmp(((const Name *)one)->name, ((const Name *)other)->name);
}

static void drop_name(void *name)
{
    g_free(((Name *)name)->name);
}

/* Those of a folder, in byte order; or NULL, and it is said why. */
static GArray *names_of(const char *path)
{
    DIR *folder = opendir(path);
    GArray *names = g_array_new(FALSE, FALSE, sizeof(Name));
    g_array_set_clear_func(names, drop_name);
    int fault = folder ? add_names(folder, names) : errno;
    if (folder)
        closedir(folder);
    if (fault != 0) {
        find_no_file(path, fault);
        g_array_unref(names);
        return NULL;
    }
    g_array_sort(names, in_order);
    return names;
}

/* ---- what lies there */

/* A folder that is looked at. */
typedef struct {
    Lint lint;
    const char *path; /* as it was given, or found */
    uint32_t within;
    bool is_hidden;
} Walked;

static void walk(const Walked *it);

static const char *path_in(const Walked *it, const char *name)
{
    const char *between = g_str_has_suffix(it->path, "/") ? "" : "/";
    char *path = g_strconcat(it->path, between, name, NULL);
    g_ptr_array_add(it->lint.site->files, path);
    return path;
}

static Asked asked_in(const Walked *it, const Name *name, const char *path)
{
    return (Asked){.file = path,
                   .folder = it->lint.site->folder,
                   .name = name->name,
                   .entry = {.within = it->within, .kind = name->kind, .is_hidden = it->is_hidden, .is_link = name->is_link}};
}

static void walk_into(const Walked *it, const char *path, uint32_t within, bool is_hidden)
{
    Walked inside = {it->lint, path, within, is_hidden};
    bool begins = dconfdb_begins_sources(within);
    if (begins)
        inside.lint.set = g_hash_table_new_full(g_str_hash, g_str_equal, g_free, g_free);
    walk(&inside);
    if (begins)
        g_hash_table_unref(inside.lint.set);
}

static void find_unread(const Walked *it, const char *path, uint32_t as)
{
    const Place at = {path, 0};
    switch (as) {
    case DCONFDB_READ_UNREAD: find(DCONFDB_FOUND_UNREAD, at, "'update' does not read it: it is a folder inside %s", it->path); break;
    case DCONFDB_READ_ODD: find(DCONFDB_FOUND_UNREAD, at, "'update' does not read it: it is no regular file"); break;
    case DCONFDB_READ_STRAY: find(DCONFDB_FOUND_UNREAD, at, "nobody reads it: 'update' reads what is in folders NAME.d"); break;
    case DCONFDB_READ_NOT_UTF8: find(DCONFDB_FOUND_NAME, at, "'update' refuses the folder: the name is not UTF-8"); break;
    case DCONFDB_READ_BARRED: find(DCONFDB_FOUND_IN_THE_WAY, at, "it is in the way of a file that 'update' writes"); break;
    default: break;
    }
}

static bool has_profile(const char *folder)
{
    struct stat found;
    char *path = g_strconcat(folder, "/profile", NULL);
    bool has = stat(path, &found) == 0 && S_ISREG(found.st_mode);
    g_free(path);
    return has;
}

static void check_name(const Walked *it, const Name *name)
{
    const char *path = path_in(it, name->name);
    Asked asked = asked_in(it, name, path);
    asked.entry.is_made = asked_is_made(&asked, it->lint.site->made);
    asked.entry.is_store = name->kind == DCONFDB_KIND_FOLDER && has_profile(path);
    uint32_t as = asked_read_as(&asked, 0, NULL);
    switch (as) {
    case DCONFDB_READ_KEYFILE:
    case DCONFDB_READ_LOCKS:
    case DCONFDB_READ_PROFILE:
    case DCONFDB_READ_DATABASE:
    case DCONFDB_READ_BESIDE:
    case DCONFDB_READ_MADE: check_file(&it->lint, &asked); break;
    case DCONFDB_READ_SOURCE_FOLDER: walk_into(it, path, DCONFDB_WITHIN_SOURCES, false); break;
    case DCONFDB_READ_LOCK_FOLDER: walk_into(it, path, DCONFDB_WITHIN_LOCKS, false); break;
    case DCONFDB_READ_PROFILE_FOLDER: walk_into(it, path, DCONFDB_WITHIN_PROFILES, false); break;
    case DCONFDB_READ_HIDDEN_FOLDER: walk_into(it, path, DCONFDB_WITHIN_SOURCES, true); break;
    case DCONFDB_READ_HIDDEN_LOCKS: walk_into(it, path, DCONFDB_WITHIN_LOCKS, true); break;
    default: find_unread(it, path, as); break;
    }
}

/* The databases of the folders NAME.d among these. */
static void add_made(const Walked *it, const GArray *names)
{
    for (guint i = 0; i < names->len; i++) {
        const Name *name = &g_array_index(names, Name, i);
        Asked asked = asked_in(it, name, name->name);
        if (asked_read_as(&asked, 0, NULL) == DCONFDB_READ_SOURCE_FOLDER)
            g_hash_table_add(it->lint.site->made, asked_stem(&asked));
    }
}

static void walk(const Walked *it)
{
    GArray *names = names_of(it->path);
    if (!names)
        return;
    add_made(it, names);
    for (guint i = 0; i < names->len; i++)
        check_name(it, &g_array_index(names, Name, i));
    g_array_unref(names);
}

static void drop_lock(void *lock)
{
    g_free(((Lock *)lock)->path);
}

void check_site(const Schemas *schemas, const char *folder)
{
    Site site = {g_canonicalize_filename(folder, NULL), g_hash_table_new_full(g_str_hash, g_str_equal, g_free, NULL),
                 g_hash_table_new_full(g_str_hash, g_str_equal, g_free, NULL), g_array_new(FALSE, FALSE, sizeof(Lock)),
                 g_ptr_array_new_with_free_func(g_free)};
    g_array_set_clear_func(site.locks, drop_lock);
    const Walked whole = {{schemas, NULL, &site}, folder, 0, false};
    walk_into(&whole, folder, folder_within(folder), false);
    check_locks_alone(&site);
    g_free(site.folder);
    g_hash_table_unref(site.made);
    g_hash_table_unref(site.set);
    g_array_unref(site.locks);
    g_ptr_array_unref(site.files);
}
