/* GLib's memory, lists, mutexes and texts as the C meets them. A list has up to four elements, and a text of GLib's one byte. */
#include "world.h"

#include <glib.h>
#include <pthread.h>
#include <stdlib.h>
#include <string.h>

enum { MOST_ELEMENTS = 4 };

/* ---- memory: where there is none the program ends */

static void *had(void *memory)
{
    GIVEN(memory != NULL);
    return memory;
}

void *g_malloc(size_t size) { return had(malloc(size)); }
void *g_malloc0(size_t size) { return had(calloc(1, size)); }

void *g_malloc_n(size_t count, size_t size)
{
    if (count == 0 || size == 0)
        return NULL;
    GIVEN(count <= MOST_ELEMENTS + 1);
    return had(malloc(count * size));
}

void g_free(void *memory) { free(memory); }

/* ---- queues, as GLib has them */

void g_queue_push_tail_link(GQueue *queue, GList *link)
{
    CHECK(!link->next && !link->prev, "memory: what comes into a queue is in none");
    link->prev = queue->tail;
    if (queue->tail)
        queue->tail->next = link;
    else
        queue->head = link;
    queue->tail = link;
    queue->length++;
}

GList *g_queue_pop_head_link(GQueue *queue)
{
    GList *link = queue->head;
    if (!link)
        return NULL;
    queue->head = link->next;
    if (link->next)
        link->next->prev = NULL;
    else
        queue->tail = NULL;
    link->next = NULL;
    queue->length--;
    return link;
}

/* ---- arrays. What is beyond their length is anything. */

typedef struct { GArray array; guint size; } SizedArray;

GArray *g_array_new(gboolean zero, gboolean clear, guint size)
{
    CHECK(!zero && !clear, "the world's arrays have no zero at their end");
    SizedArray *it = g_malloc(sizeof *it);
    *it = (SizedArray){{g_malloc(MOST_ELEMENTS * size), 0}, size};
    return &it->array;
}

GArray *g_array_append_vals(GArray *array, gconstpointer values, guint count)
{
    guint size = ((SizedArray *)array)->size;
    GIVEN(array->len < MOST_ELEMENTS);
    CHECK(count == 1, "the world's arrays take one element at a time");
    memcpy(array->data + (size_t)array->len * size, values, size);
    array->len++;
    return array;
}

GArray *g_array_set_size(GArray *array, guint len)
{
    CHECK(len <= array->len, "memory: an array gets no elements that are nothing");
    array->len = len;
    return array;
}

void g_array_unref(GArray *array)
{
    free(array->data);
    free(array);
}

typedef struct { GPtrArray array; GDestroyNotify frees; } FreedArray;

GPtrArray *g_ptr_array_new_with_free_func(GDestroyNotify frees)
{
    FreedArray *it = g_malloc(sizeof *it);
    *it = (FreedArray){{g_malloc(MOST_ELEMENTS * sizeof(gpointer)), 0}, frees};
    return &it->array;
}

GPtrArray *g_ptr_array_new(void) { return g_ptr_array_new_with_free_func(NULL); }

void g_ptr_array_add(GPtrArray *array, gpointer it)
{
    GIVEN(array->len < MOST_ELEMENTS);
    array->pdata[array->len++] = it;
}

void g_ptr_array_set_size(GPtrArray *array, gint len)
{
    CHECK(len >= 0 && (guint)len <= array->len && !((FreedArray *)array)->frees, "memory: an array gets no elements that are nothing");
    array->len = (guint)len;
}

void g_ptr_array_unref(GPtrArray *array)
{
    GDestroyNotify frees = ((FreedArray *)array)->frees;
    CHECK(!frees || frees == g_free, "the world's arrays free memory");
    for (guint i = 0; frees && i < array->len; i++)
        free(array->pdata[i]);
    free(array->pdata);
    free(array);
}

/* ---- mutexes, as of unnoted.c. Who waits for what comes lets others have it meanwhile: at_wait is called then. */

void (*at_wait)(void);

void g_mutex_lock(GMutex *mutex) { pthread_mutex_lock((pthread_mutex_t *)mutex); }
void g_mutex_unlock(GMutex *mutex) { pthread_mutex_unlock((pthread_mutex_t *)mutex); }
gboolean g_mutex_trylock(GMutex *mutex) { return pthread_mutex_trylock((pthread_mutex_t *)mutex) == 0; }
void g_mutex_init(GMutex *mutex) { CHECK(!is_held(mutex), "order: a mutex begins free"); }
void g_mutex_clear(GMutex *mutex) { CHECK(!is_held(mutex), "order: what goes is free"); }

void g_cond_wait(GCond *comes, GMutex *mutex)
{
    (void)comes;
    CHECK(is_held(mutex), "order: who waits has the mutex");
    g_mutex_unlock(mutex);
    CHECK(none_is_held(), "order: who waits has no other mutex");
    if (at_wait)
        at_wait();
    g_mutex_lock(mutex);
}

gboolean g_cond_wait_until(GCond *comes, GMutex *mutex, gint64 until)
{
    (void)until;
    g_cond_wait(comes, mutex);
    return any_bool();
}

void g_cond_signal(GCond *comes) { (void)comes; }
void g_cond_broadcast(GCond *comes) { (void)comes; }

gint64 g_get_monotonic_time(void)
{
    static gint64 before;
    gint64 now = (gint64)any_u64();
    GIVEN(now > before && now < (gint64)1 << 60);
    return before = now;
}

/* ---- texts */

static char *some_text(void)
{
    char *text = g_malloc(2);
    text[0] = (char)any_byte();
    text[1] = 0;
    return text;
}

char *g_strdup(const char *text)
{
    CHECK(__CPROVER_r_ok(text, 1), "memory: a text that is there");
    return some_text();
}

char *g_strdup_printf(const char *format, ...)
{
    (void)format;
    return some_text();
}

char *g_strconcat(const char *text, ...)
{
    (void)text;
    return some_text();
}

char *g_build_filename(const char *first, ...)
{
    CHECK(__CPROVER_r_ok(first, 1), "memory: a text that is there");
    return some_text();
}

char *g_strndup(const char *text, gsize len)
{
    CHECK(len == 0 || __CPROVER_r_ok(text, len), "memory: a text that is there, of that length");
    return some_text();
}

gsize g_strlcpy(char *to, const char *from, gsize size)
{
    CHECK(__CPROVER_w_ok(to, size) && __CPROVER_r_ok(from, 1), "memory: a text that is there, into room that is there");
    to[0] = 0;
    return 1;
}

gboolean g_str_has_suffix(const char *text, const char *suffix)
{
    size_t len = strlen(text);
    return len > 0 && text[len - 1] == suffix[0];
}

char *g_utf8_make_valid(const char *text, gssize len)
{
    (void)len;
    CHECK(__CPROVER_r_ok(text, 1), "memory: a text that is there");
    return some_text();
}

void g_printerr(const char *format, ...) { (void)format; }
