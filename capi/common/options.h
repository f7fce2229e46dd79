/* The words of `dconfdb watch` and `dconfdb lint`, one after another. What each is, and which is refused, is said by the proved call. */
#ifndef OPTIONS_H
#define OPTIONS_H

#include "dconfdb_calls.h"

#include <stdio.h>
#include <string.h>

/* A status, or this. */
enum { GOES_ON = -1 };

/* A program, and what it keeps of a word: the text of its folder, schema or name. */
typedef struct {
    bool is_lint;
    const char *help, *usage, *name; /* as its usage has it */
    void (*keep)(void *it, uint32_t said, const char *text);
    void *it;
} Words;

static inline int words_refuse(const Words *words, const char *word, const char *why)
{
    fprintf(stderr, "error: %s%s%s\n\nUsage: %s\n\nFor more information, try '--help'.\n", word, *word ? ": " : "", why, words->usage);
    return 2;
}

static inline int words_help(const Words *words)
{
    return fputs(words->help, stdout) < 0 || fflush(stdout) != 0;
}

static inline int words_refuse_name(const Words *words, const char *amount)
{
    char why[64];
    snprintf(why, sizeof why, "%s %s is given", amount, words->name);
    return words_refuse(words, "", why);
}

static inline int words_take(const Words *words, const char *word, uint32_t said, size_t from)
{
    switch (said) {
    case DCONFDB_SAID_NOTHING: return GOES_ON;
    case DCONFDB_SAID_HELP: return words_help(words);
    case DCONFDB_SAID_UNKNOWN: return words_refuse(words, word, "there is no such option");
    case DCONFDB_SAID_TWICE: return words_refuse(words, word, "it is given twice");
    case DCONFDB_SAID_EXCLUDED: return words_refuse(words, "", "--user and --store exclude each other");
    case DCONFDB_SAID_TOO_MANY: return words_refuse_name(words, "more than one");
    case DCONFDB_SAID_LACKING: return words_refuse(words, "", "the last option has no argument");
    case DCONFDB_SAID_NO_NAME: return words_refuse_name(words, "no");
    default: words->keep(words->it, said, word + from); return GOES_ON;
    }
}

/* All of them, the first of which names the program. */
static inline int words_read(const Words *words, int count, char **texts)
{
    DconfdbWords read = {.is_lint = words->is_lint};
    int status = GOES_ON;
    bool is_end = false;
    for (int i = 1; status == GOES_ON && !is_end; i++) {
        size_t from = 0;
        is_end = i >= count;
        const char *word = is_end ? "" : texts[i];
        uint32_t said = dconfdb_option(&read, is_end, (const uint8_t *)word, strlen(word), &from);
        status = words_take(words, word, said, from);
    }
    return status;
}

#endif
