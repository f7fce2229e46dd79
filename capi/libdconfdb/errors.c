/* Errors: their fields, texts and names; and the library's version. */
#define _GNU_SOURCE
#include "errors.h"
#include "causes.h"
#include "errnos.h"

#include <stdarg.h>
#include <stdio.h>
#include <string.h>

_Static_assert((int)DCONFDB_ERROR_MEMORY == (int)DCONFDB_MEMORY && (int)DCONFDB_ERROR_UNSOUND == (int)DCONFDB_UNSOUND
                   && (int)DCONFDB_ERROR_TOO_MANY == (int)DCONFDB_TOO_MANY && (int)DCONFDB_ERROR_FILE_TOO_LARGE == (int)DCONFDB_TOO_BIG
                   && (int)DCONFDB_ERROR_DOUBLE_TEXT == (int)DCONFDB_DOUBLE_TEXT && (int)DCONFDB_ERROR_BAD_VALUE == (int)DCONFDB_BAD_VALUE,
               "the header's numbers are those of the proved calls");
_Static_assert((int)DCONFDB_OUTCOME_MADE == (int)DCONFDB_TURN_MADE && (int)DCONFDB_OUTCOME_KEPT == (int)DCONFDB_TURN_KEPT
                   && (int)DCONFDB_OUTCOME_EITHER == (int)DCONFDB_TURN_EITHER && (int)DCONFDB_OUTCOME_UNSETTLED == (int)DCONFDB_TURN_UNSETTLED,
               "the header's outcomes are those of the proved calls");

static bool __attribute__((format(printf, 5, 6))) refuse(DconfdbError *error, DconfdbErrorCode code, int fault, Place place, const char *format, ...)
{
    if (!error)
        return false;
    va_list words;
    va_start(words, format);
    int len = vsnprintf(error->text, sizeof error->text, format, words);
    va_end(words);
    if (len < 0)
        error->text[0] = 0;
    else if ((size_t)len >= sizeof error->text)
        memcpy(error->text + sizeof error->text - 4, "...", 4);
    error->code = code;
    error->outcome = DCONFDB_OUTCOME_KEPT;
    error->errnum = fault;
    error->edit = place.edit;
    error->database = place.database;
    error->line = place.line;
    return false;
}

bool refuse_memory(DconfdbError *error)
{
    return refuse(error, DCONFDB_ERROR_MEMORY, 0, nowhere, "no memory is left");
}

/* What the system says of a fault. */
typedef struct {
    char text[128];
} Words;

/* strerror_r() would ask the environment for a language, which another thread may be changing. */
static const char *untranslated(int fault)
{
#if defined(__GLIBC__) && __GLIBC_PREREQ(2, 32)
    return strerrordesc_np(fault);
#else
    (void)fault;
    return NULL;
#endif
}

static Words words_of(int fault)
{
    Words words;
    const char *text = untranslated(fault);
    if (text)
        snprintf(words.text, sizeof words.text, "%s", text);
    else
        snprintf(words.text, sizeof words.text, "error %d", fault);
    return words;
}

/* ---- what a proved sentence says */

/* What stands in it beside what it says by itself. */
typedef struct {
    const char *const *names; /* one of which is said */
    DconfdbBytes text;
    const DconfdbUnsound *broken;
    Place place;
    size_t start, end; /* in a text that is read */
} Named;

static const char *const phrases[] = {
    [DCONFDB_SAYS_NO_MEMORY] = "no memory is left",
    [DCONFDB_SAYS_TOO_BIG] = "the file is too big",
    [DCONFDB_SAYS_NO_FILE] = "it is no regular file, and can't be locked",
    [DCONFDB_SAYS_TEN_SECONDS] = "others have been changing it for ten seconds",
    [DCONFDB_SAYS_EITHER] = "it is perhaps replaced",
    [DCONFDB_SAYS_UNSETTLED] = "it is replaced, but perhaps not on the disk yet",
    [DCONFDB_SAYS_UNSYNCED] = "it is as it was to be, but perhaps not on the disk yet",
    [DCONFDB_SAYS_DOUBLE] = "it holds a double, which is not printed",
    [DCONFDB_SAYS_NO_FOLDER] = "the environment names no folder of a store, and the system no home",
    [DCONFDB_SAYS_NO_KIND] = "it says neither dconf nor dconfdb",
    [DCONFDB_SAYS_NOT_UTF8] = "the text is not UTF-8",
    [DCONFDB_SAYS_TOO_DEEP] = "the text's value is nested too deep or too long",
    [DCONFDB_SAYS_HAS_DOUBLE] = "the text holds a double, which is not read",
    [DCONFDB_SAYS_CHANGED] = "something else is seen there by now",
};

/* What is said of a fault that has a text, or a place. */
static bool say_of(DconfdbError *error, uint32_t number, const DconfdbSentence *it, const Named *of)
{
    static const char no_value[] = "the text is not one of a value";
    DconfdbErrorCode code = (DconfdbErrorCode)it->code;
    const char *name = of->names[it->names], *text = (const char *)of->text.at;
    int len = (int)of->text.len;
    switch (it->says) {
    case DCONFDB_SAYS_TEXT: return refuse(error, code, 0, of->place, "%s: %.*s", name, len, text);
    case DCONFDB_SAYS_TEXT_AT: return refuse(error, code, 0, of->place, "%s:%zu: %.*s", name, of->place.line, len, text);
    case DCONFDB_SAYS_RULE: return refuse(error, code, 0, of->place, "%s: the database breaks the rule S%u", name, (unsigned)of->broken->rule);
    case DCONFDB_SAYS_RULE_AT:
        return refuse(error, code, 0, of->place, "%s: the database breaks the rule S%u, at item %u", name, (unsigned)of->broken->rule,
                      (unsigned)of->broken->item);
    case DCONFDB_SAYS_NO_VALUE: return refuse(error, code, 0, of->place, "%s: %s", no_value, text_cause(number));
    case DCONFDB_SAYS_NO_VALUE_AT:
        return refuse(error, code, 0, of->place, "%s: %s at %zu..%zu", no_value, text_cause(number), of->start, of->end);
    default: return refuse(error, code, 0, of->place, "%s", phrases[it->says]);
    }
}

/* Each sentence has a form. */
static bool say_by_form(DconfdbError *error, const DconfdbFaultMet *met, const DconfdbSentence *it, const Named *of)
{
    DconfdbErrorCode code = (DconfdbErrorCode)it->code;
    Place place = it->is_placed ? of->place : nowhere;
    int fault = (int)it->errnum;
    const char *name = of->names[it->names];
    switch (it->says) {
    case DCONFDB_SAYS_SYSTEM: return refuse(error, code, fault, place, "%s: %s", name, words_of(fault).text);
    case DCONFDB_SAYS_EITHER:
    case DCONFDB_SAYS_UNSETTLED:
    case DCONFDB_SAYS_UNSYNCED: return refuse(error, code, fault, place, "%s: %s: %s", name, phrases[it->says], words_of(fault).text);
    case DCONFDB_SAYS_BUSY: return refuse(error, code, fault, place, "%s: others have been changing it for %u ms", name, (unsigned)met->wait);
    case DCONFDB_SAYS_NUMBER: return refuse(error, code, fault, place, "%s: fault %u", name, (unsigned)met->number);
    case DCONFDB_SAYS_NO_MEMORY:
    case DCONFDB_SAYS_TOO_BIG:
    case DCONFDB_SAYS_NO_FILE:
    case DCONFDB_SAYS_TEN_SECONDS:
    case DCONFDB_SAYS_DOUBLE:
    case DCONFDB_SAYS_CHANGED:
    case DCONFDB_SAYS_NO_KIND: return refuse(error, code, fault, place, "%s: %s", name, phrases[it->says]);
    default: return say_of(error, met->number, it, of);
    }
}

static bool say(DconfdbError *error, const DconfdbFaultMet *met, const DconfdbSentence *it, const Named *of)
{
    if (it->says == DCONFDB_SAYS_NOTHING || it->says == DCONFDB_SAYS_ALREADY)
        return it->says == DCONFDB_SAYS_NOTHING;
    say_by_form(error, met, it, of);
    if (error)
        error->outcome = (DconfdbOutcome)it->outcome;
    return false;
}

static bool tell(DconfdbError *error, const DconfdbFaultMet *met, const Named *of)
{
    DconfdbSentence sentence;
    dconfdb_sentence(met, &sentence);
    return say(error, met, &sentence, of);
}

/* By a number of a proved call, which may have a text. */
static bool tell_call(DconfdbError *error, DconfdbFaultMet *met, const char *const names[], const DconfdbUnsound *broken, Place place)
{
    Named of = {names, DCONFDB_NOTHING, broken, place, 0, 0};
    met->has_text = dconfdb_fault_text(met->number, &of.text);
    met->has_line = place.line != 0;
    met->has_rule = broken != NULL;
    met->has_item = broken && broken->has_item;
    return tell(error, met, &of);
}

bool tell_met(DconfdbError *error, const DconfdbFaultMet *met, const char *const names[], Place place)
{
    DconfdbFaultMet it = *met;
    return tell_call(error, &it, names, NULL, place);
}

bool refuse_file(DconfdbError *error, int fault, const char *name, Place place)
{
    const DconfdbFaultMet met = {.of = DCONFDB_FAULT_OF_FILE, .number = (uint32_t)fault};
    return tell(error, &met, &(Named){&name, DCONFDB_NOTHING, NULL, place, 0, 0});
}

bool tell_ending(DconfdbError *error, const DconfdbEnding *ending, int fault, const char *user_file, const char *folder)
{
    const char *const names[DCONFDB_NAMES] = {[DCONFDB_NAMES_IT] = user_file, [DCONFDB_NAMES_FOLDER] = folder};
    const DconfdbFaultMet met = {.of = DCONFDB_FAULT_OF_CHANGE,
                                 .number = (uint32_t)fault,
                                 .told = ending->told,
                                 .outcome = ending->outcome,
                                 .has_user = user_file != NULL};
    return tell(error, &met, &(Named){names, DCONFDB_NOTHING, NULL, nowhere, 0, 0});
}

bool refuse_text(DconfdbError *error, uint32_t number, size_t start, size_t end)
{
    static const char *const name = "the text";
    const DconfdbFaultMet met = {.of = DCONFDB_FAULT_OF_TEXT, .number = number};
    return tell(error, &met, &(Named){&name, DCONFDB_NOTHING, NULL, nowhere, start, end});
}

bool refuse_call(DconfdbError *error, uint32_t number, const char *name, Place place)
{
    return refuse_database(error, number, name, NULL, place);
}

bool refuse_database(DconfdbError *error, uint32_t number, const char *name, const DconfdbUnsound *broken, Place place)
{
    DconfdbFaultMet met = {.of = DCONFDB_FAULT_OF_CALL, .number = number};
    return tell_call(error, &met, &name, broken, place);
}

void hand_out(const DconfdbError *from, DconfdbError *to)
{
    size_t size = to->size;
    *to = *from;
    to->size = size;
}

/* ---- names */

#define NAMED(name)              \
    case DCONFDB_ERROR_##name:   \
        return #name

const char *dconfdb_error_name(DconfdbErrorCode code)
{
    switch (code) {
        NAMED(NONE);
        NAMED(MEMORY);
        NAMED(SHORT);
        NAMED(BAD_SIGNATURE);
        NAMED(BAD_VERSION);
        NAMED(BAD_ROOT);
        NAMED(BAD_TABLE);
        NAMED(UNSOUND);
        NAMED(NOT_TEXT);
        NAMED(BAD_LINE);
        NAMED(SERVICE_DB);
        NAMED(USER_NOT_FIRST);
        NAMED(TOO_MANY);
        NAMED(BAD_PATH);
        NAMED(BAD_TYPE);
        NAMED(NOT_WRITABLE);
        NAMED(LOCKED);
        NAMED(VALUE_TOO_LARGE);
        NAMED(FILE_TOO_LARGE);
        NAMED(DOUBLE_TEXT);
        NAMED(BAD_VALUE);
        NAMED(BAD_TEXT);
        NAMED(FILE);
        NAMED(BUSY);
        NAMED(NO_FOLDER);
        NAMED(CHANGED);
    }
    return "UNKNOWN";
}

const char *dconfdb_version(void)
{
    return DCONFDB_VERSION;
}
