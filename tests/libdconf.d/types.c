/* Prints what GObject knows of the client: its type, its signals, and the domain of its errors. */
#include <dconf.h>
#include <stdio.h>

static void print_signal(guint number)
{
    GSignalQuery query;
    g_signal_query(number, &query);
    printf("%s of %s, flags %d, gives %s:", query.signal_name, g_type_name(query.itype), (int)query.signal_flags, g_type_name(query.return_type));
    for (guint i = 0; i < query.n_params; i++) {
        gboolean is_static = (query.param_types[i] & G_SIGNAL_TYPE_STATIC_SCOPE) != 0;
        printf(" %s%s", g_type_name(query.param_types[i] & ~G_SIGNAL_TYPE_STATIC_SCOPE), is_static ? ", static" : "");
    }
    printf("\n");
}

int main(void)
{
    GTypeQuery type;
    guint count, properties;
    DConfClient *client = dconf_client_new();
    guint *numbers = g_signal_list_ids(DCONF_TYPE_CLIENT, &count);
    for (guint i = 0; i < count; i++)
        print_signal(numbers[i]);
    g_type_query(DCONF_TYPE_CLIENT, &type);
    g_free(g_object_class_list_properties(G_OBJECT_GET_CLASS(client), &properties));
    printf("%s of %s, class %u, abstract %d, properties %u\n", type.type_name, g_type_name(g_type_parent(DCONF_TYPE_CLIENT)), type.class_size,
           G_TYPE_IS_ABSTRACT(DCONF_TYPE_CLIENT), properties);
    printf("%s\n", g_quark_to_string(DCONF_ERROR));
    g_free(numbers);
    g_object_unref(client);
    return 0;
}
