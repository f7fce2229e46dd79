/* `dconfdb lint`: the folder of a site, keyfiles, lock files, profiles and databases, looked at beside the schemas that are installed. */
#ifndef LINT_H
#define LINT_H

#include "dconfdb_calls.h"
#include "files.h"

#include <gio/gio.h>

/* ---- findings.c: what is printed */

/* A place in a file; the line is 0 for a file as a whole, and for a database, which has no lines. */
typedef struct {
    const char *file;
    size_t line;
} Place;

/* From here on findings are printed as objects of JSON, one a line. */
void findings_as_json(void);

/* Prints a finding, DCONFDB_FOUND_NO_KEY and so on. */
void find(uint32_t kind, Place at, const char *format, ...) G_GNUC_PRINTF(3, 4);

/* The same of a path that is missing, and of the nearest one, if any is (NULL: none is). */
void find_near(uint32_t kind, Place at, const char *near, const char *what, const char *path);

size_t findings_count(void);

/* ---- nearest.c: names that are alike */

/* What is compared with a name that is missing: nothing yet. 100,000 findings take no minute: a run compares so much, and then finds none. */
DconfdbNearing nearest_begin(bool is_directory);

/* Goes on to the next place, if there is one. */
bool nearest_goes_on(DconfdbNearing *nearing);

/* The one of these names, of the place, that is said to be the nearest; or NULL. */
const char *nearest(DconfdbNearing *nearing, const GPtrArray *names, const char *name);

/* ---- schemas.c: which keys there are */

typedef struct Schemas Schemas;

/* The schemas of a folder (NULL: GIO's own). NULL: there are none, and `error` says why. */
Schemas *schemas_open(const char *folder, GError **error);

void schemas_close(Schemas *schemas);

/* A relocatable schema has this path, too: `ID:PATH`. What is wrong with these words, or NULL. */
const char *schemas_place(Schemas *schemas, const char *words);

/* A key, of a schema that has a path, or was given one. */
typedef struct {
    GSettingsSchema *schema;
    GSettingsSchemaKey *key;
    char *takes; /* what it takes, in words, once they were wanted */
} Known;

/* What there is of a key that is set, or locked, by its path, and the keys that it is, or NULL: schemas may share a path. Of its value nothing
 * is known yet. */
DconfdbFinding schemas_key(const Schemas *schemas, const char *path, uint32_t what, const GPtrArray **keys);

/* The same of a directory that is locked. */
DconfdbFinding schemas_directory(const Schemas *schemas, const char *path);

/* What is found wrong with that: beside the directories that have a key of its name, or, of a directory, all that have one. */
uint32_t schemas_finding(const Schemas *schemas, const char *path, const DconfdbFinding *known);

/* The key, or the directory, that is nearest to what is missing: to be freed; or NULL. */
char *schemas_nearest(const Schemas *schemas, const char *path);

/* ---- values.c: a value, and whether a key takes it */

/* The value of these bytes, in normal form, or NULL if GLib has none of the type that this text spells. */
GVariant *value_of_bytes(const DconfdbBytes *bytes, const DconfdbBytes *type_text);

/* What is known of the value of a key, beside the keys that it is. */
void judge_value(const char *path, const GPtrArray *keys, GVariant *value, DconfdbFinding *known);

/* Finds that it is of another type than the first key, or that this doesn't take it. */
void find_other_type(Place at, const char *path, const GPtrArray *keys, GVariant *value);
void find_not_taken(Place at, const char *path, const GPtrArray *keys, GVariant *value);

/* Frees what was kept. */
void values_end(void);

/* ---- rows.c: a key that is set, and a lock, wherever they stand */

typedef struct Site Site;

typedef struct {
    const Schemas *schemas;
    GHashTable *set; /* the keys that this folder's keyfiles set, and the first place of each; NULL in a database */
    Site *site;      /* in which it is all looked at; NULL: files are asked for */
} Lint;

/* What is found of that alone, which has that name or path. */
uint32_t finding_alone(const DconfdbFinding *known, const char *name);

/* A key is set. Of a value that is none, NULL, the key alone is looked at. */
void check_row(const Lint *lint, Place at, const char *path, GVariant *value);

void check_lock(const Lint *lint, Place at, const char *path);

/* ---- roles.c: as what `update` reads a file */

/* A file that is asked for. */
typedef struct {
    const char *file;   /* as it was given */
    char *folder;       /* a whole path */
    const char *name;   /* in it */
    size_t sources_len; /* of the path, how much is that of the folder NAME.d; 0: there is none */
    bool is_source;     /* `update` reads it there */
    DconfdbEntry entry; /* where it lies in a site */
} Asked;

/* As what it is looked at, DCONFDB_READ_KEYFILE and so on: of so many bytes, of which these are there (NULL: none is read yet). */
uint32_t asked_read_as(const Asked *asked, uintmax_t size, const FileBytes *bytes);

/* The name of its database: to be freed. */
char *asked_stem(const Asked *asked);

/* That is among these. */
bool asked_is_made(const Asked *asked, GHashTable *made);

/* Within what of a site its own folder is looked at: NAME.d, its `locks`, or all of it. */
uint32_t folder_within(const char *path);

/* Looks at what is in a file, and finds what is wrong with it. */
void check_file(const Lint *lint, const Asked *asked);

/* That a file, or a folder, can't be read: errno, or 0, it isn't there. */
void find_no_file(const char *file, int fault);

/* Those files, in the order in which they are taken: the folders one after another, and the names of each in byte order. */
Asked *asked_files(char *const *files, size_t count);

void asked_free(Asked *asked, size_t count);

bool is_of_folder(const Asked *one, const Asked *other);

bool is_same_file(const Asked *one, const Asked *other);

/* ---- texts.c, database.c, profiles.c: what stands in a file */

/* A path as one text: to be freed. */
char *path_of(const DconfdbPath *path);

void check_keyfile(const Lint *lint, const char *file, const char *text, size_t len);
void check_locks(const Lint *lint, const char *file, const char *text, size_t len);
void check_database(const Lint *lint, const char *file, FileBytes *bytes);
void check_profile(const Lint *lint, const Asked *asked, const char *text, size_t len);

/* ---- sites.c: all that lies in a folder */

/* Looks at a folder as `update` does that is given it. */
void check_site(const Schemas *schemas, const char *folder);

/* A key is set in the site; a lock stands there, and nothing is wrong with it, or something is. */
void site_sets(Site *site, const char *path);
void site_locks(Site *site, Place at, const char *path, bool is_fine);

/* `update` makes the database of that name. */
bool site_makes(const Site *site, const DconfdbBytes *name);

/* ---- found.c */

/* The folder that `update` takes if none is named, to be freed; or NULL, and it is said why. */
char *found_folder(void);

#endif
