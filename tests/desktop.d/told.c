/* Preloaded, it writes a line into the file $TOLD for each GSettings of the program that is told of a change: SCHEMA KEY. */
#include <gio/gio.h>

#include <stdio.h>
#include <stdlib.h>

static gboolean told(GSignalInvocationHint *hint, guint count, const GValue *values, gpointer data)
{
    (void)count;
    (void)data;
    char *schema = NULL;
    FILE *file = fopen(getenv("TOLD"), "a");
    g_object_get(g_value_get_object(&values[0]), "schema-id", &schema, NULL);
    if (file) {
        fprintf(file, "%s %s\n", schema, g_quark_to_string(hint->detail));
        fclose(file);
    }
    g_free(schema);
    return TRUE;
}

static void __attribute__((constructor)) begin(void)
{
    if (!getenv("TOLD"))
        return;
    /* The class stays: the signal is its. */
    g_type_class_ref(G_TYPE_SETTINGS);
    g_signal_add_emission_hook(g_signal_lookup("changed", G_TYPE_SETTINGS), 0, told, NULL, NULL);
}
