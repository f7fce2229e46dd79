/* dconfdb lint: its words, the files in their order, and the folders. */
#define _GNU_SOURCE
#include "lint.h"
#include "options.h"

#include <errno.h>
#include <fcntl.h>
#include <stdio.h>
#include <stdlib.h>
#include <string.h>
#include <sys/stat.h>

/* Of share/help/commands, by capi/command. */
static const char help[] =
#include "help_lint.h"
;

/* ---- files */

void find_no_file(const char *file, int fault)
{
    Place at = {file, 0};
    const DconfdbFinding known = {.what = DCONFDB_OF_FILE, .errnum = (uint32_t)fault};
    switch (finding_alone(&known, file)) {
    case DCONFDB_FINDING_NO_FILE: find(DCONFDB_FOUND_NO_FILE, at, "NoFile: there is no such file"); break;
    case DCONFDB_FINDING_ODD_FILE: find(DCONFDB_FOUND_NO_FILE, at, "Device: it is no regular file"); break;
    case DCONFDB_FINDING_LARGE_FILE: find(DCONFDB_FOUND_NO_FILE, at, "TooBig: it has more than 4,294,967,295 bytes"); break;
    default: find(DCONFDB_FOUND_NO_FILE, at, "Device: %s", g_strerror(fault)); break;
    }
}

/* The same of a kind. */
static int read_as(const char *file, uint32_t kind, FileWanted *is_wanted, FileBytes *bytes, FileState *state)
{
    bool may_map = false;
    uint64_t most = dconfdb_largest(kind, &may_map);
    return file_read(AT_FDCWD, file, may_map, is_wanted, most, bytes, state);
}

/* What a file holds. A text past its largest size is not read, of which there are a few bytes then. */
static int read_file(const char *file, FileBytes *bytes, FileState *state)
{
    int fault = read_as(file, DCONFDB_SIZE_PROFILE, NULL, bytes, state);
    if (dconfdb_reads_on((uint32_t)fault))
        fault = read_as(file, DCONFDB_SIZE_DATABASE, dconfdb_is_database_head, bytes, state);
    return fault;
}

static void check_bytes(const Lint *lint, const Asked *asked, FileBytes *bytes, uintmax_t size)
{
    const char *text = bytes->len > 0 ? (const char *)bytes->at : "";
    Place at = {asked->file, 0};
    switch (asked_read_as(asked, size, bytes)) {
    case DCONFDB_READ_KEYFILE: check_keyfile(lint, asked->file, text, bytes->len); break;
    case DCONFDB_READ_LOCKS: check_locks(lint, asked->file, text, bytes->len); break;
    case DCONFDB_READ_PROFILE: check_profile(lint, asked, text, bytes->len); break;
    case DCONFDB_READ_DATABASE: check_database(lint, asked->file, bytes); break;
    case DCONFDB_READ_NO_SOURCE: find(DCONFDB_FOUND_NO_SOURCE, at, "it is a database, and no source of one"); break;
    case DCONFDB_READ_TOO_BIG: find(DCONFDB_FOUND_NO_FILE, at, "TooBig: it has more than 16,777,216 bytes"); break;
    case DCONFDB_READ_NEITHER: find(DCONFDB_FOUND_NO_SOURCE, at, "it is neither a keyfile, nor a file of locks, nor a profile, nor a database"); break;
    case DCONFDB_READ_STRAY: find(DCONFDB_FOUND_UNREAD, at, "nobody reads it: 'update' reads what is in folders NAME.d"); break;
    default: break;
    }
}

void check_file(const Lint *lint, const Asked *asked)
{
    FileBytes bytes;
    FileState state;
    int fault = read_file(asked->file, &bytes, &state);
    if (fault != 0 || !state.is_there)
        find_no_file(asked->file, fault);
    else
        check_bytes(lint, asked, &bytes, (uintmax_t)state.size);
    file_release(&bytes);
}

static void find_unread(const Asked *asked)
{
    const char *end = asked->folder + asked->sources_len, *name = (const char *)memrchr(asked->folder, '/', asked->sources_len) + 1;
    find(DCONFDB_FOUND_UNREAD, (Place){asked->file, 0}, "'update' does not read it: it is in a folder inside %.*s", (int)(end - name), name);
}

/* Of what `update` doesn't read, nothing is read here. */
static void check_asked(const Lint *lint, const Asked *asked)
{
    switch (asked_read_as(asked, 0, NULL)) {
    case DCONFDB_READ_NOTHING: break;
    case DCONFDB_READ_UNREAD: find_unread(asked); break;
    default: check_file(lint, asked); break;
    }
}

/* No key is set yet in the folder that comes. */
static void begin_folder(Lint *lint)
{
    g_clear_pointer(&lint->set, g_hash_table_unref);
    lint->set = g_hash_table_new_full(g_str_hash, g_str_equal, g_free, g_free);
}

/* One of them, beside the one before it, or NULL. */
static void check_beside(Lint *lint, const Asked *asked, const Asked *before)
{
    switch (dconfdb_file_after(before && is_same_file(asked, before), before && is_of_folder(asked, before))) {
    case DCONFDB_FILE_AGAIN: return;
    case DCONFDB_FILE_FIRST: begin_folder(lint); break;
    default: break;
    }
    check_asked(lint, asked);
}

static void check_files(const Schemas *schemas, char *const *files, size_t count)
{
    Lint lint = {schemas, NULL, NULL};
    Asked *asked = asked_files(files, count);
    for (size_t i = 0; i < count; i++)
        check_beside(&lint, &asked[i], i > 0 ? &asked[i - 1] : NULL);
    g_clear_pointer(&lint.set, g_hash_table_unref);
    asked_free(asked, count);
}

/* ---- words */

static const char usage[] = "dconfdb lint [OPTIONS] [FILE]...";

static int finish(void)
{
    bool is_written = fflush(stdout) == 0 && !ferror(stdout);
    return (int)dconfdb_lint_status(findings_count(), is_written);
}

/* What the words ask for. */
typedef struct {
    const char *folder;
    GPtrArray *placed, *files, *folders;
    bool is_machines; /* what `update` takes without a name */
} Wanted;

static void keep_name(const Wanted *wanted, const char *name)
{
    struct stat found;
    bool is_folder = stat(name, &found) == 0 && S_ISDIR(found.st_mode);
    g_ptr_array_add(is_folder ? wanted->folders : wanted->files, (gpointer)name);
}

static void keep(void *it, uint32_t said, const char *text)
{
    Wanted *wanted = it;
    switch (said) {
    case DCONFDB_SAID_FOLDER: wanted->folder = text; break;
    case DCONFDB_SAID_SCHEMA: g_ptr_array_add(wanted->placed, (gpointer)text); break;
    case DCONFDB_SAID_JSON: findings_as_json(); break;
    case DCONFDB_SAID_MACHINES: wanted->is_machines = true; break;
    default: keep_name(wanted, text); break;
    }
}

static int place_all(Schemas *schemas, const GPtrArray *placed)
{
    for (guint i = 0; i < placed->len; i++) {
        const char *words = g_ptr_array_index(placed, i), *why = schemas_place(schemas, words);
        if (why)
            return words_refuse(&(Words){.usage = usage}, words, why);
    }
    return GOES_ON;
}

static int check_all(const Schemas *schemas, const Wanted *wanted)
{
    g_autofree char *found = wanted->is_machines ? found_folder() : NULL;
    if (wanted->is_machines && !found)
        return 1;
    check_files(schemas, (char *const *)wanted->files->pdata, wanted->files->len);
    for (guint i = 0; i < wanted->folders->len; i++)
        check_site(schemas, g_ptr_array_index(wanted->folders, i));
    if (found)
        check_site(schemas, found);
    return finish();
}

static int lint_with(const Wanted *wanted)
{
    GError *error = NULL;
    Schemas *schemas = schemas_open(wanted->folder, &error);
    if (!schemas) {
        fprintf(stderr, "error: NoSchemas %s: %s\n", wanted->folder ? wanted->folder : "installed", error->message);
        g_error_free(error);
        return 1;
    }
    int status = place_all(schemas, wanted->placed);
    if (status == GOES_ON)
        status = check_all(schemas, wanted);
    values_end();
    schemas_close(schemas);
    return status;
}

int main(int count, char **words)
{
    Wanted wanted = {NULL, g_ptr_array_new(), g_ptr_array_new(), g_ptr_array_new(), false};
    int status = words_read(&(Words){true, help, usage, "FILE", keep, &wanted}, count, words);
    if (status == GOES_ON)
        status = lint_with(&wanted);
    g_ptr_array_unref(wanted.placed);
    g_ptr_array_unref(wanted.files);
    g_ptr_array_unref(wanted.folders);
    return status;
}
