/* Sets of changes as they are sent: the bytes of a GVariant, in whatever order, form and alignment the caller has them. */
#include "edit_with.h"
#include "kinds.h"
#include "service.h"

#include <string.h>

static const size_t FEW_TEXTS = 256;

Change *change_new(Writer *writer, GDBusMessage *call)
{
    Change *change = g_new0(Change, 1);
    change->link.data = change;
    change->writer = writer;
    change->call = call;
    change->asked = g_variant_get_child_value(g_dbus_message_get_body(call), 0);
    change->size = g_variant_get_size(change->asked);
    change->order = g_dbus_message_get_byte_order(call);
    change->edits = g_array_new(FALSE, FALSE, sizeof(DconfdbEdit));
    change->unfit = g_ptr_array_new();
    change->types = g_string_chunk_new(FEW_TEXTS);
    return change;
}

void change_free(Change *change)
{
    g_clear_object(&change->call);
    g_variant_unref(change->asked);
    g_array_unref(change->edits);
    g_ptr_array_unref(change->unfit);
    g_string_chunk_free(change->types);
    g_free(change->tag);
    g_free(change);
}

const char *change_tag(Change *change)
{
    const Writer *writer = change->writer;
    if (!change->tag)
        change->tag = g_strdup_printf("%s:%s:%" G_GUINT64_FORMAT, g_dbus_connection_get_unique_name(writer->service->bus), writer->name, change->number);
    return change->tag;
}

/* ---- what stands in the bytes */

static bool is_odd(const Change *change)
{
    DconfdbServed known = {.size = change->size, .is_normal = change->is_normal};
    return dconfdb_served_after(DCONFDB_SERVED_READ, &known) != DCONFDB_SERVED_GOES_ON;
}

/* In normal form, and in one block. It is trusted: else GLib looks at all entries before one that is taken out. */
static GVariant *made_anew(GVariant *sent, bool is_turned)
{
    g_autoptr(GVariant) normal = g_variant_get_normal_form(sent);
    g_autoptr(GVariant) ours = is_turned ? g_variant_byteswap(normal) : g_variant_ref(normal);
    g_autoptr(GBytes) block = g_variant_get_data_as_bytes(ours);
    return g_variant_ref_sink(g_variant_new_from_bytes(G_VARIANT_TYPE("a{smv}"), block, TRUE));
}

/* The bytes in normal form, in the order that the library takes, and in one block, which all that is in it lends. NULL: they are odd. What is so as it was
 * sent, by the proved call, is trusted once GLib has found it normal. */
static GVariant *normal_form(Change *change)
{
    g_autoptr(GBytes) bytes = g_variant_get_data_as_bytes(change->asked);
    g_autoptr(GVariant) sent = g_variant_ref_sink(g_variant_new_from_bytes(G_VARIANT_TYPE("a{smv}"), bytes, FALSE));
    change->is_normal = g_variant_is_normal_form(sent);
    if (is_odd(change))
        return NULL;
    const DconfdbServed known = {.is_normal = change->is_normal, .is_turned = change->order == G_DBUS_MESSAGE_BYTE_ORDER_BIG_ENDIAN};
    bool is_as_sent = dconfdb_served_after(DCONFDB_SERVED_FORM, &known) == DCONFDB_SERVED_GOES_ON;
    return is_as_sent ? g_steal_pointer(&sent) : made_anew(sent, known.is_turned);
}

/* What is set, or NULL, where the value is taken away. */
static GVariant *value_of(GVariant *entry)
{
    g_autoptr(GVariant) maybe = g_variant_get_child_value(entry, 1);
    g_autoptr(GVariant) boxed = g_variant_get_maybe(maybe);
    return boxed ? g_variant_get_variant(boxed) : NULL;
}

/* The value goes before the edit does: the text of its type is kept. */
static DconfdbEdit edit_from(const Change *change, const char *path, GVariant *value)
{
    DconfdbEdit edit = edit_with(path, value);
    if (edit.type)
        edit.type = g_string_chunk_insert_const(change->types, edit.type);
    return edit;
}

/* What becomes of a path at which a value is set, or not. */
static uint32_t served_of(const char *path, bool sets)
{
    DconfdbServed known = {.sets = sets};
    known.kind = dconfdb_path_kind((const uint8_t *)path, strlen(path), DCONFDB_PATH_WANTED, false, &known.is_short);
    return dconfdb_served_after(DCONFDB_SERVED_PATH, &known);
}

static void read_entry(Change *change, GVariant *entry)
{
    const char *path = NULL;
    g_variant_get_child(entry, 0, "&s", &path);
    g_autoptr(GVariant) value = value_of(entry);
    DconfdbEdit edit;
    switch (served_of(path, value)) {
    case DCONFDB_SERVED_GOES_ON:
        edit = edit_from(change, path, value);
        g_array_append_val(change->edits, edit);
        break;
    case DCONFDB_SERVED_LEFT_OUT:
        g_ptr_array_add(change->unfit, (gpointer)path);
        break;
    default:
        break;
    }
}

/* ---- their order */

static int by_path(const void *one, const void *other)
{
    return strcmp(((const DconfdbEdit *)one)->path, ((const DconfdbEdit *)other)->path);
}

/* What becomes of an edit beside one that counts after it, or of none (NULL). */
static uint32_t effect_of(const DconfdbEdit *later, const DconfdbEdit *edit)
{
    if (!later || !edit)
        return DCONFDB_ROW_STAYS;
    return dconfdb_row_effect((const uint8_t *)later->path, strlen(later->path), later->type != NULL, false, (const uint8_t *)edit->path, strlen(edit->path));
}

/* What becomes of an edit behind those before it: the last of them, and the last reset of a directory. */
static uint32_t ordered_of(const DconfdbEdit *edit, const DconfdbEdit *last, const DconfdbEdit *above)
{
    const DconfdbServed known = {
        .is_again = effect_of(edit, last) == DCONFDB_ROW_TAKES, .is_covered = effect_of(above, edit) == DCONFDB_ROW_GOES, .sets = edit->type != NULL};
    return dconfdb_served_after(DCONFDB_SERVED_ORDERED, &known);
}

/* In the order of their paths' bytes, and of one path as they were sent. */
static void sort(Change *change)
{
    GArray *edits = change->edits;
    DconfdbEdit *all = (DconfdbEdit *)(gpointer)edits->data;
    const DconfdbEdit *above = NULL;
    guint count = 0;
    g_array_sort(edits, by_path);
    for (guint at = 0; at < edits->len; at++) {
        uint32_t is = ordered_of(&all[at], count > 0 ? &all[count - 1] : NULL, above);
        if (is == DCONFDB_SERVED_PASSED)
            continue;
        bool is_next = is == DCONFDB_SERVED_GOES_ON, is_reset = is_directory(all[at].path);
        count += is_next;
        change->resets += is_next && is_reset;
        all[count - 1] = all[at];
        if (is_reset)
            above = &all[count - 1];
    }
    g_array_set_size(edits, count);
}

void change_read(Change *change)
{
    GVariantIter iter;
    GVariant *entry;
    if (change->is_read)
        return;
    change->is_read = true;
    GVariant *normal = normal_form(change);
    if (!normal)
        return;
    g_variant_unref(change->asked);
    change->asked = normal;
    g_variant_iter_init(&iter, normal);
    while ((entry = g_variant_iter_next_value(&iter))) {
        read_entry(change, entry);
        g_variant_unref(entry); /* its path is in `normal` */
    }
    sort(change);
}
