/* Tries the values of texts: what they are, that they can be set and printed, and each refusal. parsed FOLDER, a store's. */
#include "try.h"

static DconfdbError error = DCONFDB_ERROR_INIT;

/* Whether a text is read as a value of this type and these bytes. */
static bool is_value(const char *text, const char *type, const char *bytes, size_t size)
{
    DconfdbValue value;
    if (!dconfdb_value_parse(text, &value, &error)) {
        fprintf(stderr, "%s: %s\n", text, error.text);
        return false;
    }
    bool is = value.type_size == strlen(type) && strcmp(value.type, type) == 0 && value.size == size && memcmp(value.data, bytes, size) == 0
        && value.origin == 0;
    free((void *)value.data);
    return is;
}
#define IS_VALUE(text, type, bytes) is_value(text, type, bytes, sizeof bytes - 1)

/* Whether a text is refused for this, in these words, and the value stays as it was. */
static bool is_refused(const char *text, DconfdbErrorCode code, const char *words)
{
    DconfdbValue value = {"x", 1, "y", 1, 77, 0};
    bool is = !dconfdb_value_parse(text, &value, NULL) && !dconfdb_value_parse(text, &value, &error) && error.code == code
        && strstr(error.text, words) && error.outcome == DCONFDB_OUTCOME_KEPT && error.edit == 0 && error.line == 0 && value.size == 1
        && value.origin == 77;
    if (!is)
        fprintf(stderr, "%s: %s: %s\n", text, dconfdb_error_name(error.code), error.text);
    return is;
}

static void tries_values(void)
{
    TRY(IS_VALUE("5", "i", "\5\0\0\0") && IS_VALUE("uint32 5", "u", "\5\0\0\0") && IS_VALUE("@q 5", "q", "\5\0"));
    TRY(IS_VALUE("true", "b", "\1") && IS_VALUE("'desk'", "s", "desk\0") && IS_VALUE("''", "s", "\0"));
    TRY(IS_VALUE("@as []", "as", "") && IS_VALUE("['a', 'b']", "as", "a\0b\0\2\4") && IS_VALUE("@mi nothing", "mi", ""));
    TRY(IS_VALUE("<5>", "v", "\5\0\0\0\0i") && IS_VALUE("(byte 1, 2)", "(yi)", "\1\0\0\0\2\0\0\0") && IS_VALUE("()", "()", "\0"));
    TRY(IS_VALUE("{'a': byte 1}", "a{sy}", "a\0\1\2\4") && IS_VALUE("[1, @x 2]", "ax", "\1\0\0\0\0\0\0\0\2\0\0\0\0\0\0\0"));
}

static void tries_refusals(void)
{
    static char deep[300], large[(1 << 24) + 2];
    TRY(is_refused("", DCONFDB_ERROR_BAD_TEXT, "Unexpected at 0..0") && is_refused("5 6", DCONFDB_ERROR_BAD_TEXT, "Unexpected at 2..3"));
    TRY(is_refused("[1, 'a", DCONFDB_ERROR_BAD_TEXT, "Unclosed at 4") && is_refused("'\\u12'", DCONFDB_ERROR_BAD_TEXT, "BadEscape at 1..5"));
    TRY(is_refused("$", DCONFDB_ERROR_BAD_TEXT, "BadToken at 0..1") && is_refused("[1, 'a']", DCONFDB_ERROR_BAD_TEXT, "NoCommonType"));
    TRY(is_refused("[]", DCONFDB_ERROR_BAD_TEXT, "Ambiguous"));
    TRY(is_refused("byte 256", DCONFDB_ERROR_BAD_TEXT, "OutOfRange") && is_refused("@o 'x'", DCONFDB_ERROR_BAD_TEXT, "BadObjectPath"));
    TRY(is_refused("@g 'a{vs}'", DCONFDB_ERROR_BAD_TEXT, "BadSignature"));
    TRY(is_refused("1.5", DCONFDB_ERROR_DOUBLE_TEXT, "double") && is_refused("@d 5", DCONFDB_ERROR_DOUBLE_TEXT, "double"));
    TRY(is_refused("'\xff'", DCONFDB_ERROR_NOT_TEXT, "UTF-8"));
    memset(deep, '<', 140);
    deep[140] = '5';
    memset(deep + 141, '>', 140);
    TRY(is_refused(deep, DCONFDB_ERROR_VALUE_TOO_LARGE, "too deep"));
    memset(large, ' ', sizeof large - 1);
    large[0] = '5';
    TRY(is_refused(large, DCONFDB_ERROR_VALUE_TOO_LARGE, "too long"));
}

/* A large value, which a first room is too small for, is what is printed of it. */
static void tries_large(void)
{
    static char text[100000];
    DconfdbValue value;
    size_t at = 0, count = 0;
    for (at = (size_t)sprintf(text, "[(@x 1,)"); at < sizeof text - 16; count++)
        at += (size_t)sprintf(text + at, ", (2,)");
    strcpy(text + at, "]");
    TRY(dconfdb_value_parse(text, &value, &error) && dconfdb_value_n_children(&value) == count + 1 && value.size == 8 * (count + 1));
    char *printed = dconfdb_value_print(&value, &error);
    TRY(printed && strncmp(printed, "[(int64 1,), (2,)", 17) == 0);
    free(printed);
    free((void *)value.data);
}

/* What a text says is set, and read. */
static void tries_setting(const char *folder)
{
    DconfdbStore *store = dconfdb_store_open(folder, &error);
    DconfdbValue value, found;
    int32_t number = 0;
    TRY(store && dconfdb_value_parse("{'width': <-7>}", &value, &error));
    DconfdbEdit edit = {"/parsed", value.type, value.data, value.size};
    TRY(dconfdb_store_change(store, NULL, &edit, 1, &error));
    free((void *)value.data);
    DconfdbSnapshot *now = dconfdb_store_snapshot(store);
    TRY(dconfdb_snapshot_read(now, "/parsed", &found) && dconfdb_value_lookup(&found, "width", &found));
    TRY(found.type_size == 1 && found.type[0] == 'v' && !dconfdb_value_get_int32(&found, &number));
    TRY(dconfdb_value_get_variant(&found, &found) && dconfdb_value_get_int32(&found, &number) && number == -7);
    dconfdb_snapshot_unref(now);
    dconfdb_store_close(store);
}

/* A text may have one level more than an edit takes. */
static void tries_deepest(DconfdbStore *store)
{
    char deep[2 * 127 + 2] = "";
    DconfdbValue value;
    memset(deep, '[', 127);
    deep[127] = '1';
    memset(deep + 128, ']', 127);
    TRY(dconfdb_value_parse(deep, &value, &error));
    DconfdbEdit edit = {"/deep", value.type, value.data, value.size};
    TRY(!dconfdb_store_change(store, NULL, &edit, 1, &error) && error.code == DCONFDB_ERROR_VALUE_TOO_LARGE);
    free((void *)value.data);
}

/* A value that was never read has no type; and where there can be no value, one need not be removed. */
static void tries_nothing(const char *folder)
{
    DconfdbStore *store = dconfdb_store_open(folder, &error);
    DconfdbValue none = {"", 0, "", 0, 0, 0};
    DconfdbEdit removes = {"no path", NULL, NULL, 0}, sets = {"no path", "s", "", 1};
    TRY(store && !dconfdb_value_print(&none, &error) && error.code == DCONFDB_ERROR_BAD_TYPE);
    DconfdbSnapshot *now = dconfdb_store_snapshot(store);
    TRY(dconfdb_snapshot_has_edit(now, &removes) && !dconfdb_snapshot_has_edit(now, &sets));
    TRY(!dconfdb_store_change(store, NULL, &removes, 1, &error) && error.code == DCONFDB_ERROR_BAD_PATH);
    dconfdb_snapshot_unref(now);
    tries_deepest(store);
    dconfdb_store_close(store);
}

int main(int argc, char **argv)
{
    TRY(argc == 2);
    tries_values();
    tries_refusals();
    tries_large();
    tries_setting(argv[1]);
    tries_nothing(argv[1]);
    return 0;
}
