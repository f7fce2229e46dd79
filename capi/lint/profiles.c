/* The profile of a folder: the lines that name no database, and the databases of the system that aren't beside it. */
#define _GNU_SOURCE
#include "lint.h"
#include "dconfdb_calls.h"

#include <string.h>

enum { SYSTEMS = 1 };

/* What is known of its file. */
static DconfdbFinding known_of(const Lint *lint, const Asked *asked, const DconfdbName *database, const char *file)
{
    FileState state;
    int fault = file_look(file, &state);
    return (DconfdbFinding){.what = DCONFDB_OF_DATABASE,
                            .is_known = fault == 0 && state.is_there,
                            .is_unseen = fault != 0,
                            .is_system = database->kind == SYSTEMS,
                            .is_made = lint->site && site_makes(lint->site, &database->name),
                            .is_among_profiles = asked->entry.within == DCONFDB_WITHIN_PROFILES};
}

/* As `update` says it, of the profile that lies in its folder: in any other one the line is of a file in each user's store. */
static void check_named(const Lint *lint, const Asked *asked, const char *text, const DconfdbName *database)
{
    Place at = {asked->file, dconfdb_line_behind((const uint8_t *)text, (size_t)(database->name.at - (const uint8_t *)text))};
    DconfdbPath path = DCONFDB_NO_PATH, flag = DCONFDB_NO_PATH;
    const DconfdbBytes nothing = DCONFDB_NOTHING, folder = {(const uint8_t *)asked->folder, strlen(asked->folder)};
    const DconfdbPlace place = {folder, nothing, nothing, nothing, nothing, nothing, true, false, false};
    dconfdb_database_path(&place, (const uint8_t *)asked->file, strlen(asked->file), database->kind, database->name.at, database->name.len, &path, &flag);
    char *file = path_of(&path);
    const DconfdbFinding known = known_of(lint, asked, database, file);
    if (finding_alone(&known, asked->name) == DCONFDB_FINDING_NO_DATABASE)
        find(DCONFDB_FOUND_NO_DATABASE, at, "it names system-db:%.*s, and there is no %s", (int)database->name.len, (const char *)database->name.at, file);
    g_free(file);
}

static void find_fault(const Asked *asked, uint32_t fault, size_t line)
{
    DconfdbBytes said = DCONFDB_NOTHING;
    if (fault != DCONFDB_OK && dconfdb_fault_text(fault, &said))
        find(DCONFDB_FOUND_PROFILE_LINE, (Place){asked->file, line}, "%.*s", (int)said.len, (const char *)said.at);
}

void check_profile(const Lint *lint, const Asked *asked, const char *text, size_t len)
{
    DconfdbName names[MOST_DATABASES];
    uint32_t fault = DCONFDB_OK;
    size_t count = 0, line = 0;
    for (size_t i = 0; i < MOST_DATABASES; i++)
        names[i] = (DconfdbName){0, DCONFDB_NOTHING};
    if (dconfdb_profile(DCONFDB_PROFILE_COUNTS, (const uint8_t *)text, len, true, false, names, MOST_DATABASES, &count, &fault, &line) == DCONFDB_TELLING_REFUSES)
        g_error("no memory is left");
    for (size_t i = 0; i < count; i++)
        check_named(lint, asked, text, &names[i]);
    find_fault(asked, fault, line);
}
