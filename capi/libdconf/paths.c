/* Whether a text is a path, of a key or of a directory, and if not, why. */
#include "libdconf.h"

#include "dconfdb_calls.h"

#include <string.h>

G_DEFINE_QUARK(dconf_error, dconf_error)

/* What is wrong with the text; NULL: nothing. A relative path is what comes after a directory's slash. */
static const char *fault_of(const gchar *text, uint32_t wanted, gboolean is_relative)
{
    bool is_short;
    switch (dconfdb_path_kind((const uint8_t *)text, strlen(text), wanted, is_relative, &is_short)) {
    case DCONFDB_PATH_KEY:
    case DCONFDB_PATH_DIRECTORY:
        return NULL;
    case DCONFDB_PATH_NO_DIRECTORY:
        return "must end with a slash";
    case DCONFDB_PATH_NO_KEY:
        return "must not end with a slash";
    case DCONFDB_PATH_NOT_ABSOLUTE:
        return "must begin with a slash";
    case DCONFDB_PATH_ABSOLUTE:
        return "must not begin with a slash";
    default:
        return "must not contain two consecutive slashes";
    }
}

static gboolean is_one(const gchar *text, uint32_t wanted, gboolean is_relative, GError **error)
{
    static const char *const names[][2] = {{"path", "relative path"}, {"key", "relative key"}, {"dir", "relative dir"}};
    const char *name = names[wanted][is_relative], *fault = text ? fault_of(text, wanted, is_relative) : NULL;
    if (error && !text)
        g_set_error(error, DCONF_ERROR, DCONF_ERROR_PATH, "%s not specified", name);
    else if (error && fault)
        g_set_error(error, DCONF_ERROR, DCONF_ERROR_PATH, "dconf %s %s", name, fault);
    return text && !fault;
}

gboolean dconf_is_path(const gchar *string, GError **error)
{
    return is_one(string, DCONFDB_PATH_WANTED, FALSE, error);
}

gboolean dconf_is_key(const gchar *string, GError **error)
{
    return is_one(string, DCONFDB_KEY_WANTED, FALSE, error);
}

gboolean dconf_is_dir(const gchar *string, GError **error)
{
    return is_one(string, DCONFDB_DIRECTORY_WANTED, FALSE, error);
}

gboolean dconf_is_rel_path(const gchar *string, GError **error)
{
    return is_one(string, DCONFDB_PATH_WANTED, TRUE, error);
}

gboolean dconf_is_rel_key(const gchar *string, GError **error)
{
    return is_one(string, DCONFDB_KEY_WANTED, TRUE, error);
}

gboolean dconf_is_rel_dir(const gchar *string, GError **error)
{
    return is_one(string, DCONFDB_DIRECTORY_WANTED, TRUE, error);
}
