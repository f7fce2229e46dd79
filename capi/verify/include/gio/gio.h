/* GVariant and GDBus, as far as the service asks for them. */
#ifndef GIO_H
#define GIO_H

#include <glib.h>

typedef enum { G_IO_IN = 1 } GIOCondition;
gpointer g_object_ref(gpointer object);
void g_object_unref(gpointer object);

/* ---- values */

typedef struct GBytes GBytes;
typedef struct GVariant GVariant;
typedef struct GVariantType GVariantType;
typedef struct { GVariant *of; guint at; } GVariantIter;
#define G_VARIANT_TYPE(type) ((const GVariantType *)(type))
#define G_VARIANT_TYPE_STRING G_VARIANT_TYPE("s")
void g_bytes_unref(GBytes *bytes);
GVariant *g_variant_new(const char *format, ...);
GVariant *g_variant_new_from_bytes(const GVariantType *type, GBytes *bytes, gboolean is_trusted);
GVariant *g_variant_new_string(const char *text);
GVariant *g_variant_new_take_string(char *text);
GVariant *g_variant_new_tuple(GVariant *const *words, gsize count);
GVariant *g_variant_new_array(const GVariantType *type, GVariant *const *values, gsize count);
GVariant *g_variant_ref(GVariant *value);
GVariant *g_variant_ref_sink(GVariant *value);
void g_variant_unref(GVariant *value);
gsize g_variant_get_size(GVariant *value);
gconstpointer g_variant_get_data(GVariant *value);
GBytes *g_variant_get_data_as_bytes(GVariant *value);
gboolean g_variant_is_normal_form(GVariant *value);
GVariant *g_variant_get_normal_form(GVariant *value);
GVariant *g_variant_byteswap(GVariant *value);
GVariant *g_variant_get_child_value(GVariant *value, gsize at);
void g_variant_get_child(GVariant *value, gsize at, const char *format, ...);
GVariant *g_variant_get_maybe(GVariant *value);
GVariant *g_variant_get_variant(GVariant *value);
const char *g_variant_get_type_string(GVariant *value);
gsize g_variant_iter_init(GVariantIter *iter, GVariant *value);
GVariant *g_variant_iter_next_value(GVariantIter *iter);
ENDS(GBytes, g_bytes_unref)
ENDS(GVariant, g_variant_unref)

/* ---- the bus */

typedef struct GDBusConnection GDBusConnection;
typedef struct GDBusMessage GDBusMessage;
typedef struct GDBusMethodInvocation GDBusMethodInvocation;
typedef struct { int references; } GDBusInterfaceInfo;
typedef struct { GDBusInterfaceInfo **interfaces; } GDBusNodeInfo;
typedef enum { G_DBUS_MESSAGE_BYTE_ORDER_BIG_ENDIAN = 'B', G_DBUS_MESSAGE_BYTE_ORDER_LITTLE_ENDIAN = 'l' } GDBusMessageByteOrder;
typedef enum { G_DBUS_MESSAGE_FLAGS_NONE, G_DBUS_MESSAGE_FLAGS_NO_REPLY_EXPECTED } GDBusMessageFlags;
typedef enum { G_DBUS_MESSAGE_TYPE_METHOD_CALL = 1, G_DBUS_MESSAGE_TYPE_SIGNAL = 4 } GDBusMessageType;
enum { G_DBUS_SEND_MESSAGE_FLAGS_NONE };
typedef void (*GDBusInterfaceMethodCallFunc)(GDBusConnection *bus, const char *sender, const char *object, const char *interface, const char *method,
                                             GVariant *words, GDBusMethodInvocation *call, gpointer data);
typedef struct { GDBusInterfaceMethodCallFunc method_call; } GDBusInterfaceVTable;
typedef GDBusMessage *(*GDBusMessageFilterFunction)(GDBusConnection *bus, GDBusMessage *message, gboolean comes, gpointer data);
typedef struct {
    char **(*enumerate)(GDBusConnection *bus, const char *sender, const char *object, gpointer data);
    GDBusInterfaceInfo **(*introspect)(GDBusConnection *bus, const char *sender, const char *object, const char *node, gpointer data);
    const GDBusInterfaceVTable *(*dispatch)(GDBusConnection *bus, const char *sender, const char *object, const char *interface, const char *node,
                                            gpointer *given, gpointer data);
} GDBusSubtreeVTable;
#define G_DBUS_SUBTREE_FLAGS_DISPATCH_TO_UNENUMERATED_NODES 1
GDBusMessage *g_dbus_method_invocation_get_message(GDBusMethodInvocation *call);
GDBusMessageType g_dbus_message_get_message_type(GDBusMessage *message);
const char *g_dbus_message_get_path(GDBusMessage *message);
const char *g_dbus_message_get_interface(GDBusMessage *message);
const char *g_dbus_message_get_member(GDBusMessage *message);
const char *g_dbus_message_get_signature(GDBusMessage *message);
GVariant *g_dbus_message_get_body(GDBusMessage *call);
GDBusMessageByteOrder g_dbus_message_get_byte_order(GDBusMessage *call);
GDBusMessageFlags g_dbus_message_get_flags(GDBusMessage *call);
GDBusMessage *g_dbus_message_new_method_reply(GDBusMessage *call);
GDBusMessage *g_dbus_message_new_method_error_literal(GDBusMessage *call, const char *name, const char *text);
void g_dbus_message_set_body(GDBusMessage *answer, GVariant *words);
gboolean g_dbus_connection_send_message(GDBusConnection *bus, GDBusMessage *answer, gint flags, volatile uint32_t *number, GError **error);
guint g_dbus_connection_add_filter(GDBusConnection *bus, GDBusMessageFilterFunction filter, gpointer data, GDestroyNotify frees);
const char *g_dbus_connection_get_unique_name(GDBusConnection *bus);
gboolean g_dbus_connection_emit_signal(GDBusConnection *bus, const char *to, const char *object, const char *interface, const char *name, GVariant *words,
                                       GError **error);
guint g_dbus_connection_register_subtree(GDBusConnection *bus, const char *path, const GDBusSubtreeVTable *table, gint flags, gpointer data,
                                         GDestroyNotify frees, GError **error);
guint g_dbus_connection_register_object(GDBusConnection *bus, const char *path, GDBusInterfaceInfo *interface, const GDBusInterfaceVTable *table,
                                        gpointer data, GDestroyNotify frees, GError **error);
GDBusNodeInfo *g_dbus_node_info_new_for_xml(const char *text, GError **error);
GDBusInterfaceInfo *g_dbus_interface_info_ref(GDBusInterfaceInfo *interface);

#endif
