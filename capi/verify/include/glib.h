/* GLib as far as common/batch.c and the service ask for it: its memory never fails, but ends the program. */
#ifndef GLIB_H
#define GLIB_H

#include <stdbool.h>
#include <stddef.h>
#include <stdint.h>

typedef void *gpointer;
typedef const void *gconstpointer;
typedef int gboolean, gint;
typedef unsigned guint;
typedef int64_t gint64, gssize;
typedef uint64_t guint64, gsize;
typedef void (*GDestroyNotify)(gpointer);
typedef gboolean (*GSourceFunc)(gpointer);
typedef void (*GCallback)(void);

#define FALSE 0
#define TRUE 1
#define MIN(one, other) ((one) < (other) ? (one) : (other))
#define G_N_ELEMENTS(list) (sizeof(list) / sizeof((list)[0]))
#define G_GUINT64_FORMAT "lu"
#define G_PRIORITY_DEFAULT 0
#define G_PRIORITY_LOW 300
#define G_SOURCE_CONTINUE TRUE
#define G_SOURCE_REMOVE FALSE
#define G_CALLBACK(call) ((GCallback)(call))

/* ---- memory */

void *g_malloc(size_t size);
void *g_malloc0(size_t size);
void *g_malloc_n(size_t count, size_t size);
void g_free(void *memory);

#define g_new(Type, count) ((Type *)g_malloc_n((count), sizeof(Type)))
#define g_new0(Type, count) ((Type *)g_malloc0((count) * sizeof(Type)))

static inline gpointer steal(gpointer at)
{
    gpointer *from = at, had = *from;
    *from = NULL;
    return had;
}
#define g_steal_pointer(at) ((__typeof__(*(at)))steal(at))
#define g_clear_pointer(at, frees) do { __typeof__(*(at)) had = *(at); *(at) = NULL; if (had) (frees)(had); } while (0)
#define g_clear_object(at) g_clear_pointer(at, g_object_unref)
#define g_clear_handle_id(at, removes) do { guint had = *(at); *(at) = 0; if (had > 0) (removes)(had); } while (0)

/* What goes as its block ends: blocks.py writes that out. */
static inline void free_at(void *at)
{
    g_free(*(void **)at);
}
#define g_autofree
#define g_autoptr(Type) Type *
#define ENDS(Type, frees) static inline void end_##Type(Type **at) { if (*at) frees(*at); }

/* ---- lists */

typedef struct GList { gpointer data; struct GList *next, *prev; } GList;
typedef struct { GList *head, *tail; guint length; } GQueue;
#define G_QUEUE_INIT {NULL, NULL, 0}
void g_queue_push_tail_link(GQueue *queue, GList *link);
GList *g_queue_pop_head_link(GQueue *queue);

typedef struct { char *data; guint len; } GArray;
typedef struct { gpointer *pdata; guint len; } GPtrArray;
typedef int (*GCompareFunc)(gconstpointer one, gconstpointer other);
typedef int (*GCompareDataFunc)(gconstpointer one, gconstpointer other, gpointer data);
#define g_array_index(array, Type, at) (((Type *)(void *)(array)->data)[at])
#define g_array_append_val(array, value) g_array_append_vals(array, &(value), 1)
#define g_ptr_array_index(array, at) ((array)->pdata)[at]
GArray *g_array_new(gboolean zero, gboolean clear, guint size);
GArray *g_array_append_vals(GArray *array, gconstpointer values, guint count);
GArray *g_array_set_size(GArray *array, guint len);
void g_array_sort(GArray *array, GCompareFunc compare);
void g_array_unref(GArray *array);
GPtrArray *g_ptr_array_new(void);
GPtrArray *g_ptr_array_new_with_free_func(GDestroyNotify frees);
void g_ptr_array_add(GPtrArray *array, gpointer it);
void g_ptr_array_set_size(GPtrArray *array, gint len);
void g_ptr_array_unref(GPtrArray *array);
ENDS(GArray, g_array_unref)
ENDS(GPtrArray, g_ptr_array_unref)

typedef struct GHashTable GHashTable;
typedef guint (*GHashFunc)(gconstpointer key);
typedef gboolean (*GEqualFunc)(gconstpointer one, gconstpointer other);
guint g_str_hash(gconstpointer key);
gboolean g_str_equal(gconstpointer one, gconstpointer other);
GHashTable *g_hash_table_new(GHashFunc hash, GEqualFunc equal);
GHashTable *g_hash_table_new_full(GHashFunc hash, GEqualFunc equal, GDestroyNotify key, GDestroyNotify value);
gpointer g_hash_table_lookup(GHashTable *table, gconstpointer key);
gboolean g_hash_table_contains(GHashTable *table, gconstpointer key);
gboolean g_hash_table_insert(GHashTable *table, gpointer key, gpointer value);
gboolean g_hash_table_add(GHashTable *table, gpointer key);
guint g_hash_table_size(GHashTable *table);
void g_hash_table_unref(GHashTable *table);
ENDS(GHashTable, g_hash_table_unref)

#define GPOINTER_TO_SIZE(pointer) ((gsize)(uintptr_t)(pointer))
#define GSIZE_TO_POINTER(size) ((gpointer)(uintptr_t)(size))

typedef struct GTree GTree;
typedef struct GTreeNode GTreeNode;
typedef gboolean (*GTraverseFunc)(gpointer key, gpointer value, gpointer data);
GTree *g_tree_new(GCompareFunc compare);
GTree *g_tree_new_full(GCompareDataFunc compare, gpointer data, GDestroyNotify key, GDestroyNotify value);
void g_tree_replace(GTree *tree, gpointer key, gpointer value);
gpointer g_tree_lookup(GTree *tree, gconstpointer key);
GTreeNode *g_tree_lower_bound(GTree *tree, gconstpointer key);
GTreeNode *g_tree_node_next(GTreeNode *node);
gpointer g_tree_node_key(GTreeNode *node);
gpointer g_tree_node_value(GTreeNode *node);
gboolean g_tree_lookup_extended(GTree *tree, gconstpointer key, gpointer *its, gpointer *value);
void g_tree_foreach(GTree *tree, GTraverseFunc call, gpointer data);
void g_tree_unref(GTree *tree);

/* ---- threads */

typedef struct { void *it; } GMutex;
typedef struct { void *it; } GCond;
void g_mutex_init(GMutex *mutex);
void g_mutex_clear(GMutex *mutex);
void g_mutex_lock(GMutex *mutex);
gboolean g_mutex_trylock(GMutex *mutex);
void g_mutex_unlock(GMutex *mutex);
void g_cond_wait(GCond *comes, GMutex *mutex);
gboolean g_cond_wait_until(GCond *comes, GMutex *mutex, gint64 until);
void g_cond_signal(GCond *comes);
void g_cond_broadcast(GCond *comes);
#define g_atomic_int_get(at) (*(at))
#define g_atomic_int_set(at, value) ((void)(*(at) = (value)))

/* ---- time and sources */

typedef struct GMainLoop GMainLoop;
gint64 g_get_monotonic_time(void);
guint g_timeout_add(guint milliseconds, GSourceFunc call, gpointer data);
guint g_timeout_add_full(gint priority, guint milliseconds, GSourceFunc call, gpointer data, GDestroyNotify frees);
guint g_idle_add_full(gint priority, GSourceFunc call, gpointer data, GDestroyNotify frees);
gboolean g_source_remove(guint source);
void g_main_loop_quit(GMainLoop *loop);

/* ---- texts */

typedef struct { int code; char *message; } GError;
typedef struct GStringChunk GStringChunk;
char *g_strdup(const char *text);
char *g_strndup(const char *text, gsize len);
char *g_strdup_printf(const char *format, ...);
char *g_strconcat(const char *text, ...);
char *g_build_filename(const char *first, ...);
gsize g_strlcpy(char *to, const char *from, gsize size);
gboolean g_str_has_suffix(const char *text, const char *suffix);
char *g_utf8_make_valid(const char *text, gssize len);
gboolean g_utf8_validate(const char *text, gssize len, const char **end);
void g_printerr(const char *format, ...);
void g_error(const char *format, ...);
GStringChunk *g_string_chunk_new(gsize size);
char *g_string_chunk_insert_const(GStringChunk *chunk, const char *text);
void g_string_chunk_free(GStringChunk *chunk);
void g_error_free(GError *error);
ENDS(GError, g_error_free)

/* ---- files */

const char *g_get_user_cache_dir(void);
const char *g_get_user_runtime_dir(void);
gboolean g_path_is_absolute(const char *path);

typedef enum { G_FILE_TEST_IS_DIR = 1 << 2 } GFileTest;
gboolean g_file_test(const char *name, GFileTest test);
gboolean g_file_get_contents(const char *name, char **text, gsize *len, GError **error);
gboolean g_file_set_contents(const char *name, const char *text, gssize len, GError **error);
gint g_mkdir_with_parents(const char *name, gint mode);

#endif
