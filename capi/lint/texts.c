/* Keyfiles and lock files: what their lines say, by the proved calls, and the value of each text as `compile` reads it. */
#define _GNU_SOURCE
#include "lint.h"

#include "causes.h"
#include "dconfdb_calls.h"

/* ---- the value of a text */

static void find_no_value(Place at, const char *path, uint32_t number, size_t start, size_t end)
{
    const DconfdbFaultMet met = {.of = DCONFDB_FAULT_OF_TEXT, .number = number};
    DconfdbSentence sentence;
    DconfdbBytes said = DCONFDB_NOTHING;
    dconfdb_sentence(&met, &sentence);
    switch (sentence.says) {
    case DCONFDB_SAYS_NO_VALUE: find(DCONFDB_FOUND_NO_VALUE, at, "%s: the text is no value: %s", path, text_cause(number)); break;
    case DCONFDB_SAYS_NO_VALUE_AT: find(DCONFDB_FOUND_NO_VALUE, at, "%s: the text is no value: %s at %zu..%zu", path, text_cause(number), start, end); break;
    default:
        dconfdb_fault_text(number, &said);
        find(DCONFDB_FOUND_NO_VALUE, at, "%s: the text is no value: %.*s", path, (int)said.len, (const char *)said.at);
    }
}

/* What two readings of a text came to. */
typedef struct {
    uint32_t parsed, stored; /* why it is no value, by ours; and why no database holds that; or OK */
    size_t start, end;       /* where it is none */
    GVariant *value;         /* NULL: it is none, or none of GLib's */
    GError *error;           /* why it is none by GLib, which is asked where ours refuses a double */
} Reading;

/* Why no database holds such a value of that type, which in one is a level deeper; or OK. */
static uint32_t fault_of_storing(const DconfdbBytes *value, const DconfdbBytes *type_text)
{
    static const uint8_t path[] = "/k";
    const DconfdbLayer empty = DCONFDB_EMPTY_LAYER;
    const DconfdbChange change = {{path, sizeof path - 1}, *value, *type_text, true};
    uint8_t room[1];
    size_t len = 0, at = 0;
    bool is_same = false;
    return dconfdb_change(&empty, 1, true, &change, 1, path, 0, room, 0, &len, &at, &is_same);
}

/* Of a value that was parsed. */
static void read_stored(Reading *it, const uint8_t *room, size_t size, size_t len)
{
    const DconfdbBytes value = {room, size}, type_text = {room + size, len - size};
    it->stored = fault_of_storing(&value, &type_text);
    if (it->stored == DCONFDB_OK)
        it->value = value_of_bytes(&value, &type_text);
}

static Reading read_text(const DconfdbBytes *text)
{
    Reading it = {.stored = DCONFDB_OK};
    size_t len = 64 + 2 * text->len, room_len, size = 0;
    uint8_t *room = NULL;
    do {
        room_len = len;
        room = g_realloc(room, room_len);
        it.parsed = dconfdb_parse_value(text->at, text->len, room, room_len, &len, &size, &it.start, &it.end);
    } while (it.parsed == DCONFDB_OK && len > room_len);
    if (it.parsed == DCONFDB_OK)
        read_stored(&it, room, size, len);
    else if (dconfdb_is_glibs(it.parsed))
        it.value = g_variant_parse(NULL, (const char *)text->at, (const char *)text->at + text->len, NULL, &it.error);
    g_free(room);
    return it;
}

static void say_no_value(Place at, const char *path, const Reading *it)
{
    switch (dconfdb_text_cause(it->parsed, it->error)) {
    case DCONFDB_CAUSE_OF_GLIB: find(DCONFDB_FOUND_NO_VALUE, at, "%s: the text is no value: %s", path, it->error->message); break;
    case DCONFDB_CAUSE_OF_READING: find_no_value(at, path, it->parsed, it->start, it->end); break;
    default: find_no_value(at, path, it->stored, 0, 0); break;
    }
}

/* NULL: it is no value, and then it is said why; or none of GLib's. */
static GVariant *value_of(const Lint *lint, Place at, const char *path, const DconfdbBytes *text)
{
    Reading it = read_text(text);
    const DconfdbFinding known = {.what = DCONFDB_OF_TEXT,
                                  .is_known = it.parsed == DCONFDB_OK,
                                  .has_value = it.value != NULL,
                                  .is_taken = it.stored == DCONFDB_OK,
                                  .is_system = lint->site != NULL,
                                  .has_double = dconfdb_is_glibs(it.parsed)};
    switch (finding_alone(&known, path)) {
    case DCONFDB_FINDING_NO_VALUE: say_no_value(at, path, &it); break;
    case DCONFDB_FINDING_DOUBLE: find(DCONFDB_FOUND_DOUBLE, at, "%s: DoubleText at %zu..%zu: 'update' refuses a double", path, it.start, it.end); break;
    default: break;
    }
    g_clear_error(&it.error);
    return it.value;
}

/* ---- lines */

char *path_of(const DconfdbPath *path)
{
    GString *text = g_string_new(NULL);
    const DconfdbBytes parts[] = {path->first, path->second, path->third, path->fourth};
    for (size_t i = 0; i < G_N_ELEMENTS(parts); i++)
        g_string_append_len(text, (const char *)parts[i].at, (gssize)parts[i].len);
    return g_string_free(text, FALSE);
}

static void check_set(const Lint *lint, Place at, const char *path, const DconfdbBytes *text)
{
    GVariant *value = value_of(lint, at, path, text);
    check_row(lint, at, path, value);
    if (value)
        g_variant_unref(value);
}

static void check_line(const Lint *lint, Place at, const DconfdbLine *line)
{
    char *path = path_of(&line->path);
    switch (line->kind) {
    case DCONFDB_LINE_SETS: check_set(lint, at, path, &line->text); break;
    case DCONFDB_LINE_LOCKS: check_lock(lint, at, path); break;
    case DCONFDB_LINE_WRONG: find(DCONFDB_FOUND_LINE, at, "%.*s", (int)line->text.len, (const char *)line->text.at); break;
    default: break;
    }
    g_free(path);
}

static void check_lines(const Lint *lint, const char *file, const char *text, size_t len, bool is_of_locks)
{
    DconfdbCursor cursor = {{(const uint8_t *)text, len}, DCONFDB_NOTHING, 0, 0};
    DconfdbLine line = {DCONFDB_LINE_SILENT, DCONFDB_NO_PATH, DCONFDB_NOTHING};
    while (dconfdb_line(is_of_locks, &cursor, &line))
        check_line(lint, (Place){file, cursor.line}, &line);
}

void check_keyfile(const Lint *lint, const char *file, const char *text, size_t len)
{
    check_lines(lint, file, text, len, false);
}

void check_locks(const Lint *lint, const char *file, const char *text, size_t len)
{
    check_lines(lint, file, text, len, true);
}
