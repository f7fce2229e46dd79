/* An edit of GLib's value, and whether two say the same. */
#ifndef EDIT_WITH_H
#define EDIT_WITH_H

#include "dconfdb.h"
#include "dconfdb_calls.h"

#include <gio/gio.h>
#include <string.h>

/* What the library is asked for: the value, which stays, is set at the path; or, of NULL, it is reset. */
static inline DconfdbEdit edit_with(const char *path, GVariant *value)
{
    if (!value)
        return (DconfdbEdit){path, NULL, NULL, 0};
    return (DconfdbEdit){path, g_variant_get_type_string(value), g_variant_get_data(value), g_variant_get_size(value)};
}

static inline const uint8_t *edit_bytes(const void *data)
{
    return data ? data : dconfdb_empty_file;
}

/* Whether two edits say the same of one path, as the proved call has it. Their values are in normal form. Of one text, as GLib has it for all values
 * of a type, no byte needs to be compared. */
static inline bool is_same_word(const DconfdbEdit *one, const DconfdbEdit *other)
{
    bool is_one = one->type == other->type;
    size_t len = is_one || !one->type ? 0 : strlen(one->type), other_len = is_one || !other->type ? 0 : strlen(other->type);
    return dconfdb_is_same_word(one->type != NULL, edit_bytes(one->type), len, edit_bytes(one->data), one->size, other->type != NULL,
                                edit_bytes(other->type), other_len, edit_bytes(other->data), other->size);
}

/* The same of two values in any form, or of NULL, a reset. */
static inline bool are_same_values(GVariant *one, GVariant *other)
{
    g_autoptr(GVariant) first = one ? g_variant_get_normal_form(one) : NULL;
    g_autoptr(GVariant) second = other ? g_variant_get_normal_form(other) : NULL;
    DconfdbEdit edit = edit_with("", first), other_edit = edit_with("", second);
    return is_same_word(&edit, &other_edit);
}

#endif
