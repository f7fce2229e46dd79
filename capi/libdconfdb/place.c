/* Where a store is: what the environment says, and the system, handed to the proved calls. */
#define _GNU_SOURCE
#define _FILE_OFFSET_BITS 64
#include "place.h"
#include "environment.h"
#include "errors.h"
#include "files.h"
#include "home.h"
#include "texts.h"

#include <errno.h>
#include <stdio.h>
#include <stdlib.h>
#include <string.h>
#include <unistd.h>

/* Who asks where a store is. */
typedef struct {
    DconfdbEnvironment environment; /* as far as it was asked */
    uint32_t giver;
    DconfdbBytes folder;
    FileBytes machine; /* which the environment lends */
    int fault;         /* of that; or 0 */
} Asked;

/* The file that says which kind of store this machine has. */
static const char machine_file[] = "/etc/dconfdb/store";

static void read_machine_file(Asked *asked)
{
    FileState state;
    bool may_map = false;
    uint64_t most = dconfdb_largest(DCONFDB_SIZE_MACHINE, &may_map);
    asked->fault = file_read(NO_FOLDER, machine_file, may_map, NULL, most, &asked->machine, &state);
    asked->environment.machine = (DconfdbBytes){bytes_of(asked->machine.at), asked->machine.len};
    asked->environment.is_unreadable = asked->fault != 0;
}

static void begin_asking(Asked *asked, const char *folder, uint32_t giver)
{
    static const DconfdbEnvironment silent = {.store = DCONFDB_NOTHING, .config = DCONFDB_NOTHING, .home = DCONFDB_NOTHING, .profile = DCONFDB_NOTHING,
                                              .runtime = DCONFDB_NOTHING, .cache = DCONFDB_NOTHING, .machine = DCONFDB_NOTHING};
    *asked = (Asked){.environment = silent, .giver = giver, .folder = text_bytes(folder)};
}

/* Asks what is to be asked to know which kind of store there is. Gives what is known then. */
static uint32_t ask_for_kind(Asked *asked, uint32_t what)
{
    if (what == DCONFDB_KIND_ASK_ENVIRONMENT) {
        asked->environment = environment_now();
        return DCONFDB_KNOWN_ENVIRONMENT;
    }
    read_machine_file(asked);
    return DCONFDB_KNOWN_MACHINE;
}

/* ---- what the system is asked */

/* Gives the answer, or NULL if nothing is to be asked; and 0, or errno. */
static int ask(uint32_t what, char **answer)
{
    *answer = NULL;
    switch (what) {
    case DCONFDB_ASK_CURRENT:
        *answer = getcwd(NULL, 0);
        return *answer ? 0 : errno;
    case DCONFDB_ASK_HOME:
        return home_of_user(answer);
    default:
        return 0;
    }
}

/* ---- the paths */

/* What has to be asked to know the path of what is wanted, once that was answered, or not yet (NULL). */
static uint32_t look_for(const Asked *asked, uint32_t wanted, const char *answer, DconfdbPath *path)
{
    DconfdbBytes base = text_bytes(answer ? answer : "");
    return dconfdb_place(&asked->environment, asked->giver, asked->folder.at, asked->folder.len, wanted, answer != NULL, base.at, base.len, path);
}

/* Gives the path of what is wanted, or NULL if there is none, and what was asked for it; and 0, or errno. */
static int find_path(const Asked *asked, uint32_t wanted, uint32_t *what, char **text)
{
    DconfdbPath path = DCONFDB_NO_PATH;
    char *answer;
    uint32_t more = look_for(asked, wanted, NULL, &path);
    *what = more;
    *text = NULL;
    int fault = ask(more, &answer);
    if (answer)
        more = look_for(asked, wanted, answer, &path);
    if (fault == 0 && more == DCONFDB_ASK_NOTHING) {
        *text = path_text(&path);
        fault = *text ? 0 : ENOMEM;
    }
    free(answer);
    return fault;
}

/* False: nobody knows it. */
static bool find_kind(Asked *asked, bool *is_dconfs)
{
    uint32_t known = DCONFDB_KNOWN_NOTHING, kind = dconfdb_place_kind(&asked->environment, asked->giver, known);
    while (kind > DCONFDB_KIND_UNKNOWN) {
        known = ask_for_kind(asked, kind);
        kind = dconfdb_place_kind(&asked->environment, asked->giver, known);
    }
    *is_dconfs = kind == DCONFDB_KIND_DCONFS;
    return kind != DCONFDB_KIND_UNKNOWN;
}

static bool has_kind(Asked *asked, StorePlace *place, DconfdbError *error)
{
    static const char *const names[DCONFDB_NAMES] = {[DCONFDB_NAMES_IT] = machine_file};
    if (find_kind(asked, &place->is_dconfs))
        return true;
    const DconfdbFaultMet met = {.of = DCONFDB_FAULT_OF_KIND, .number = (uint32_t)asked->fault};
    return tell_met(error, &met, names, (Place){.line = 1});
}

bool place_kind(bool *is_dconfs, const char **file, int *fault)
{
    Asked asked;
    begin_asking(&asked, "", DCONFDB_GIVEN_BY_NOBODY);
    bool is_known = find_kind(&asked, is_dconfs);
    *file = machine_file;
    *fault = asked.fault;
    file_release(&asked.machine);
    return is_known;
}

static bool find_folder(const Asked *asked, StorePlace *place, DconfdbError *error)
{
    const char *const names[DCONFDB_NAMES] = {
        [DCONFDB_NAMES_IT] = (const char *)asked->folder.at, [DCONFDB_NAMES_HOME] = "the user's home", [DCONFDB_NAMES_STORE] = "the folder of $DCONFDB_STORE"};
    DconfdbFaultMet met = {.of = DCONFDB_FAULT_OF_FOLDER, .is_given = place->is_given};
    met.number = (uint32_t)find_path(asked, DCONFDB_WANT_FOLDER, &met.asked, &place->folder);
    return place->folder || tell_met(error, &met, names, nowhere);
}

static bool find_profile(const Asked *asked, StorePlace *place, DconfdbError *error)
{
    uint32_t what;
    int fault = find_path(asked, DCONFDB_WANT_PROFILE, &what, &place->profile);
    return fault == 0 || refuse_file(error, fault, "the profile of $DCONFDB_PROFILE", nowhere);
}

static char *variable_copy(int variable)
{
    const char *value = getenv(variables[variable]);
    return strdup(value ? value : "");
}

/* The digits of the user as whom files are opened. */
static char *user_text(void)
{
    char digits[24];
    snprintf(digits, sizeof digits, "%lu", (unsigned long)geteuid());
    return strdup(digits);
}

/* What dconf's kind asks beside that. */
static bool find_dconfs(const Asked *asked, StorePlace *place, DconfdbError *error)
{
    if (!place->is_dconfs)
        return true;
    uint32_t what;
    int fault = find_path(asked, DCONFDB_WANT_RUNTIME, &what, &place->runtime);
    if (fault != 0)
        return refuse_file(error, fault, "the user's runtime folder", nowhere);
    place->name = variable_copy(DCONFS_VARIABLE);
    place->data_dirs = variable_copy(DATA_VARIABLE);
    place->user = user_text();
    place->counts = asked->environment.counts;
    return (place->name && place->data_dirs && place->user) || refuse_memory(error);
}

static DconfdbBytes lent(const char *text)
{
    static const DconfdbBytes nothing = DCONFDB_NOTHING;
    return text ? text_bytes(text) : nothing;
}

/* Its texts are all there. */
static void lend(StorePlace *place)
{
    place->lent = (DconfdbPlace){.folder = lent(place->folder),
                                 .named = lent(place->profile),
                                 .profile = lent(place->name),
                                 .runtime = lent(place->runtime),
                                 .data_dirs = lent(place->data_dirs),
                                 .user = lent(place->user),
                                 .is_given = place->is_given,
                                 .is_dconfs = place->is_dconfs,
                                 .counts = place->counts};
}

static bool find(const char *folder, uint32_t giver, StorePlace *place, DconfdbError *error)
{
    Asked asked;
    begin_asking(&asked, folder ? folder : "", folder ? giver : (uint32_t)DCONFDB_GIVEN_BY_NOBODY);
    *place = (StorePlace){.is_given = folder != NULL};
    bool is_found = has_kind(&asked, place, error) && find_folder(&asked, place, error) && find_profile(&asked, place, error) &&
                    find_dconfs(&asked, place, error);
    file_release(&asked.machine);
    if (is_found)
        lend(place);
    else
        place_release(place);
    return is_found;
}

void place_release(StorePlace *place)
{
    free(place->folder);
    free(place->profile);
    free(place->name);
    free(place->runtime);
    free(place->data_dirs);
    free(place->user);
    *place = (StorePlace){.folder = NULL};
}

/* False: no memory is left. */
static bool copy_text(const char *text, char **copy)
{
    *copy = text ? strdup(text) : NULL;
    return *copy || !text;
}

bool place_copy(const StorePlace *place, StorePlace *copy)
{
    *copy = *place;
    copy->folder = copy->profile = copy->name = copy->runtime = copy->data_dirs = copy->user = NULL;
    bool is_copied = copy_text(place->folder, &copy->folder) && copy_text(place->profile, &copy->profile) && copy_text(place->name, &copy->name) &&
                     copy_text(place->runtime, &copy->runtime) && copy_text(place->data_dirs, &copy->data_dirs) && copy_text(place->user, &copy->user);
    if (is_copied)
        lend(copy);
    else
        place_release(copy);
    return is_copied;
}

bool place_find(const char *folder, StorePlace *place, DconfdbError *error)
{
    return find(folder, DCONFDB_GIVEN_BY_USER, place, error);
}

bool place_of_caller(const char *folder, StorePlace *place, DconfdbError *error)
{
    return find(folder, DCONFDB_GIVEN_BY_PROGRAM, place, error);
}
