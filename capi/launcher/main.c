/* dconfdb, as it is installed: `watch` and `lint` are programs of their own in the folder LIBEXEC, and every other
 * command is the proved program's, which is handed the arguments as they are, by dconfdb-home if the store's folder may be in
 * the home that the system has for the user. Run by the name `dconf` it has dconf's command line, of which `watch PATH` is the program of that, and
 * `blame` and what DCONF_BLAME asks for are dconfdb-blame's, where it is installed. */
#define _GNU_SOURCE
#define _POSIX_C_SOURCE 200809L
#include "environment.h"
#include "stood.h"

#include <errno.h>
#include <stdbool.h>
#include <stdio.h>
#include <stdlib.h>
#include <string.h>
#include <unistd.h>

static const char proved[] = LIBEXEC "/dconfdb", homeless[] = LIBEXEC "/dconfdb-home", blamer[] = LIBEXEC "/dconfdb-blame";

/* A program by which a command line is for another one than the proved one. */
typedef struct {
    const char *file;
    char name[16]; /* by which it calls itself */
} Program;

static Program others[] = {
    [DCONFDB_PROGRAM_WATCH] = {LIBEXEC "/dconfdb-watch", "dconfdb watch"},
    [DCONFDB_PROGRAM_LINT] = {LIBEXEC "/dconfdb-lint", "dconfdb lint"},
    [DCONFDB_PROGRAM_WATCH_HELP] = {LIBEXEC "/dconfdb-watch", "dconfdb watch"},
    [DCONFDB_PROGRAM_LINT_HELP] = {LIBEXEC "/dconfdb-lint", "dconfdb lint"},
    [DCONFDB_PROGRAM_DCONF_WATCH] = {LIBEXEC "/dconfdb-watch", "dconf watch"},
    [DCONFDB_PROGRAM_DCONF_BLAME] = {blamer, "dconf blame"},
};

static bool is_path(const char *text)
{
    bool is_short = false;
    uint32_t kind = dconfdb_path_kind((const uint8_t *)text, strlen(text), DCONFDB_PATH_WANTED, false, &is_short);
    return kind == DCONFDB_PATH_KEY || kind == DCONFDB_PATH_DIRECTORY;
}

static const char *word_at(int count, char **words, int at)
{
    return at < count ? words[at] : "";
}

/* Whether the store may be in the home that the system has for the user. */
static bool is_at_home(void)
{
    const DconfdbEnvironment environment = environment_now();
    const DconfdbBytes nothing = DCONFDB_NOTHING;
    DconfdbPath path = DCONFDB_NO_PATH;
    return dconfdb_place(&environment, DCONFDB_GIVEN_BY_NOBODY, nothing.at, nothing.len, DCONFDB_WANT_FOLDER, false, nothing.at, nothing.len, &path)
        == DCONFDB_ASK_HOME;
}

/* Which program the words are for, and with which environment, as the proved call has it. */
static uint32_t program_of(int count, char **words, bool *has_none, bool *is_homeless)
{
    const char *name = word_at(count, words, 0), *first = word_at(count, words, 1), *second = word_at(count, words, 2);
    const DconfdbCommandLine line = {.count = (uint64_t)count,
                                     .is_path = is_path(second),
                                     .has_blame = access(blamer, X_OK) == 0,
                                     .is_noted = getenv("DCONF_BLAME") != NULL,
                                     .counts = environment_counts(),
                                     .is_at_home = is_at_home()};
    return dconfdb_program_of((const uint8_t *)name, strlen(name), (const uint8_t *)first, strlen(first), (const uint8_t *)second, strlen(second), &line,
                              has_none, is_homeless);
}

/* Becomes the program by dconfdb-blame, or returns. */
static void run_noted(const char *file, int count, char **words)
{
    char **noted = calloc((size_t)count + 3, sizeof *noted);
    if (!noted)
        return;
    noted[0] = others[DCONFDB_PROGRAM_DCONF_BLAME].name;
    noted[1] = (char *)(uintptr_t)file;
    memcpy(noted + 2, words, (size_t)count * sizeof *words);
    execv(blamer, noted);
    free(noted);
}

static void forget_environment(void)
{
    for (size_t i = 0; i < VARIABLES; i++)
        unsetenv(variables[i]);
}

/* Returns if it can't be run. */
static int run(const char *file, char **words)
{
    execv(file, words);
    fprintf(stderr, "error: %s %s\n", file_fault(DCONFDB_TO_LOOK, errno) == 0 ? "NoFile" : "Device", file);
    return 1;
}

/* Another one, with these words, the first of which is its name. */
static int run_other(uint32_t program, char **words)
{
    words[0] = others[program].name;
    return run(others[program].file, words);
}

int main(int count, char **words)
{
    char help[] = "--help", *helped[] = {NULL, help, NULL};
    bool has_none = false, is_homeless = false;
    uint32_t program = program_of(count, words, &has_none, &is_homeless);
    const char *file = is_homeless ? homeless : proved;
    if (has_none)
        forget_environment();
    switch (program) {
    case DCONFDB_PROGRAM_PROVED:
        return run(file, words);
    case DCONFDB_PROGRAM_NOTED:
        run_noted(file, count, words); /* what can't be noted is run all the same */
        return run(file, words);
    case DCONFDB_PROGRAM_WATCH_HELP:
    case DCONFDB_PROGRAM_LINT_HELP:
        return run_other(program, helped);
    default:
        return run_other(program, words + 1);
    }
}
