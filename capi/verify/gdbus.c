/* GVariant and GDBus as the service meets them: each value is had by somebody and given back once, and each call is answered once. The bytes of a change
 * have up to two entries, each a path of up to two bytes, with a value or none. */
#include "glib_world.h"
#include "world.h"

#include <stdarg.h>
#include <stdlib.h>
#include <string.h>

/* ---- values. What is in one lends its bytes. */

enum { MOST_ENTRIES = 2 };

struct GBytes {
    int references;
    char paths[MOST_ENTRIES][3];
    char data[1];
};

struct GVariant {
    int references;
    bool is_floating;
    GBytes *bytes;
    int at; /* which entry it is, or is of; -1: it is no entry */
    char type[2];
};

unsigned values_had;

static GBytes *some_bytes(void)
{
    GBytes *bytes = g_malloc(sizeof *bytes);
    bytes->references = 1;
    for (int i = 0; i < MOST_ENTRIES; i++)
        any_text(bytes->paths[i], 2);
    return bytes;
}

void g_bytes_unref(GBytes *bytes)
{
    CHECK(bytes->references > 0, "memory: what is given back is had");
    if (--bytes->references == 0)
        free(bytes);
}

/* It takes the bytes. */
static GVariant *value_new(GBytes *bytes, int at, bool is_floating)
{
    GVariant *value = g_malloc(sizeof *value);
    *value = (GVariant){1, is_floating, bytes, at, {'s', 0}};
    values_had++;
    return value;
}

static GVariant *part_of(GVariant *whole, int at)
{
    CHECK(whole->references > 0, "memory: a value that is had");
    whole->bytes->references++;
    return value_new(whole->bytes, at, false);
}

GVariant *g_variant_new(const char *format, ...)
{
    (void)format;
    return value_new(some_bytes(), -1, true);
}

GVariant *g_variant_new_from_bytes(const GVariantType *type, GBytes *bytes, gboolean is_trusted)
{
    (void)type, (void)is_trusted;
    CHECK(bytes->references > 0, "memory: bytes that are had");
    bytes->references++;
    return value_new(bytes, -1, true);
}

GVariant *g_variant_ref(GVariant *value)
{
    CHECK(value->references > 0, "memory: what is had once more is had");
    value->references++;
    return value;
}

GVariant *g_variant_ref_sink(GVariant *value)
{
    if (!value->is_floating)
        return g_variant_ref(value);
    value->is_floating = false;
    return value;
}

void g_variant_unref(GVariant *value)
{
    CHECK(value->references > 0, "memory: what is given back is had");
    if (--value->references > 0)
        return;
    g_bytes_unref(value->bytes);
    values_had--;
    free(value);
}

gsize g_variant_get_size(GVariant *value)
{
    CHECK(value->references > 0, "memory: a value that is had");
    gsize size = any_size();
    GIVEN(size < (gsize)1 << 32);
    return size;
}

gconstpointer g_variant_get_data(GVariant *value)
{
    CHECK(value->references > 0, "memory: a value that is had");
    return value->bytes->data;
}

GBytes *g_variant_get_data_as_bytes(GVariant *value)
{
    CHECK(value->references > 0, "memory: a value that is had");
    value->bytes->references++;
    return value->bytes;
}

gboolean g_variant_is_normal_form(GVariant *value)
{
    CHECK(value->references > 0, "memory: a value that is had");
    return any_bool();
}

/* The same value, or a new one. */
GVariant *g_variant_get_normal_form(GVariant *value)
{
    return any_bool() ? g_variant_ref(value) : value_new(some_bytes(), -1, false);
}

GVariant *g_variant_byteswap(GVariant *value)
{
    CHECK(value->references > 0, "memory: a value that is had");
    return value_new(some_bytes(), -1, false);
}

GVariant *g_variant_get_child_value(GVariant *value, gsize at)
{
    CHECK(at <= 1, "memory: a child that is there");
    return part_of(value, value->at);
}

void g_variant_get_child(GVariant *value, gsize at, const char *format, ...)
{
    CHECK(at == 0 && strcmp(format, "&s") == 0 && value->at >= 0, "the world's entries are asked for their path");
    va_list more;
    va_start(more, format);
    const char **path = va_arg(more, const char **);
    va_end(more);
    *path = value->bytes->paths[value->at];
}

GVariant *g_variant_get_maybe(GVariant *value) { return any_bool() ? part_of(value, value->at) : NULL; }
GVariant *g_variant_get_variant(GVariant *value) { return part_of(value, value->at); }

const char *g_variant_get_type_string(GVariant *value)
{
    CHECK(value->references > 0, "memory: a value that is had");
    return value->type;
}

gsize g_variant_iter_init(GVariantIter *iter, GVariant *value)
{
    CHECK(value->references > 0, "memory: a value that is had");
    *iter = (GVariantIter){value, 0};
    return MOST_ENTRIES;
}

GVariant *g_variant_iter_next_value(GVariantIter *iter)
{
    if (iter->at == MOST_ENTRIES || any_bool())
        return NULL;
    return part_of(iter->of, (int)iter->at++);
}

/* ---- texts that are kept together */

struct GStringChunk { char texts[MOST_ENTRIES][2]; };

GStringChunk *g_string_chunk_new(gsize size)
{
    (void)size;
    return g_malloc(sizeof(GStringChunk));
}

char *g_string_chunk_insert_const(GStringChunk *chunk, const char *text)
{
    chunk->texts[0][0] = text[0];
    chunk->texts[0][1] = 0;
    return chunk->texts[0];
}

void g_string_chunk_free(GStringChunk *chunk) { free(chunk); }

/* ---- calls */

void call_begin(GDBusMessage *call)
{
    *call = (GDBusMessage){.kind = A_CALL, .references = 1, .is_silent = any_bool(), .words = value_new(some_bytes(), -1, false)};
}

void call_end(GDBusMessage *call)
{
    CHECK(call->references == 0 && call->answers == (call->is_silent ? 0 : 1), "answer: each call is answered, once");
    g_variant_unref(call->words);
}

void invocation_begin(GDBusMethodInvocation *invocation, GDBusMessage *call)
{
    *invocation = (GDBusMethodInvocation){.kind = AN_INVOCATION, .references = 1, .message = call};
}

GDBusMessage *g_dbus_method_invocation_get_message(GDBusMethodInvocation *invocation)
{
    CHECK(invocation->kind == AN_INVOCATION && invocation->references > 0, "memory: a call that is had");
    return invocation->message;
}

static bool is_had(const GDBusMessage *message, ObjectKind kind)
{
    return message->kind == kind && message->references > 0;
}

GVariant *g_dbus_message_get_body(GDBusMessage *call)
{
    CHECK(is_had(call, A_CALL), "memory: a call that is had");
    return call->words;
}

GDBusMessageByteOrder g_dbus_message_get_byte_order(GDBusMessage *call)
{
    CHECK(is_had(call, A_CALL), "memory: a call that is had");
    return any_bool() ? G_DBUS_MESSAGE_BYTE_ORDER_BIG_ENDIAN : G_DBUS_MESSAGE_BYTE_ORDER_LITTLE_ENDIAN;
}

GDBusMessageFlags g_dbus_message_get_flags(GDBusMessage *call)
{
    CHECK(is_had(call, A_CALL), "memory: a call that is had");
    return call->is_silent ? G_DBUS_MESSAGE_FLAGS_NO_REPLY_EXPECTED : G_DBUS_MESSAGE_FLAGS_NONE;
}

/* ---- answers */

static GDBusMessage *answer_to(GDBusMessage *call, bool is_refused)
{
    CHECK(is_had(call, A_CALL), "memory: a call that is had");
    GDBusMessage *answer = g_malloc(sizeof *answer);
    *answer = (GDBusMessage){.kind = AN_ANSWER, .references = 1, .is_refused = is_refused, .of = call};
    return answer;
}

GDBusMessage *g_dbus_message_new_method_reply(GDBusMessage *call) { return answer_to(call, false); }

GDBusMessage *g_dbus_message_new_method_error_literal(GDBusMessage *call, const char *name, const char *text)
{
    CHECK(__CPROVER_r_ok(name, 1) && __CPROVER_r_ok(text, 1), "memory: who is refused is told why");
    return answer_to(call, true);
}

void g_dbus_message_set_body(GDBusMessage *answer, GVariant *words)
{
    CHECK(is_had(answer, AN_ANSWER) && !answer->words, "memory: an answer that is had, and has no words");
    answer->words = g_variant_ref_sink(words);
}

gboolean g_dbus_connection_send_message(GDBusConnection *bus, GDBusMessage *answer, gint flags, volatile uint32_t *number, GError **error)
{
    (void)bus, (void)flags, (void)number, (void)error;
    CHECK(is_had(answer, AN_ANSWER) && is_had(answer->of, A_CALL), "memory: what is sent is had, and its call");
    CHECK(answer->of->answers == 0 && !answer->of->is_silent, "answer: a call is answered once, if it wants that");
    answer->of->answers++;
    answer->of->is_refused = answer->is_refused;
    return any_bool();
}

gpointer g_object_ref(gpointer object)
{
    CHECK(is_had(object, A_CALL), "memory: what is had once more is had");
    ((GDBusMessage *)object)->references++;
    return object;
}

static void call_unref(GDBusMessage *call)
{
    CHECK(call->references > 0, "memory: what is given back is had");
    CHECK(--call->references > 0 || call->answers > 0 || call->is_silent, "answer: no call goes that isn't answered");
}

static void answer_unref(GDBusMessage *answer)
{
    CHECK(answer->references == 1, "memory: what is given back is had");
    if (answer->words)
        g_variant_unref(answer->words);
    free(answer);
}

void g_object_unref(gpointer object)
{
    GDBusMethodInvocation *invocation = object;
    if (*(const ObjectKind *)object == AN_ANSWER) {
        answer_unref(object);
    } else if (*(const ObjectKind *)object == A_CALL) {
        call_unref(object);
    } else {
        CHECK(invocation->references == 1, "memory: what is given back is had");
        invocation->references = 0;
        call_unref(invocation->message);
    }
}

const char *g_dbus_connection_get_unique_name(GDBusConnection *bus)
{
    (void)bus;
    return ":1";
}
