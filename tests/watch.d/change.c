/* change PATH [TEXT]: sets a key to the value of a text, or resets it. With THEIRS defined by dconf's library, else by
 * dconfdb's, in the store that the environment names. */
#include <glib.h>
#include <stdio.h>
#ifdef THEIRS
#include <dconf.h>
#else
#include <dconfdb.h>
#endif

int main(int count, char **words)
{
    GError *fault = NULL;
    GVariant *value = count > 2 ? g_variant_parse(NULL, words[2], NULL, NULL, &fault) : NULL;
    if (count < 2 || fault)
        return fprintf(stderr, "change: %s\n", fault ? fault->message : "PATH [TEXT]"), 2;
#ifdef THEIRS
    DConfClient *client = dconf_client_new();
    if (!dconf_client_write_sync(client, words[1], value, NULL, NULL, &fault))
        return fprintf(stderr, "change: %s\n", fault->message), 1;
    g_object_unref(client);
#else
    DconfdbError error = DCONFDB_ERROR_INIT;
    DconfdbStore *store = dconfdb_store_open(NULL, &error);
    DconfdbEdit edit = {.path = words[1]};
    if (value) {
        edit.type = g_variant_get_type_string(value);
        edit.data = g_variant_get_data(value);
        edit.size = g_variant_get_size(value);
    }
    if (!store || !dconfdb_store_change(store, NULL, &edit, 1, &error))
        return fprintf(stderr, "change: %s\n", error.text), 1;
    dconfdb_store_close(store);
#endif
    return 0;
}
