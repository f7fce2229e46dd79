/* The service's changes, up to three and of up to two databases, as the harnesses of service/writes.c have them. What reads, writes and tells answers in
 * any way. */
#include "service/replaced.c"
#include "service/coming.c"
#include "service/ends.c"
#include "service/together.c"
#include "service/writes.c"
#include "glib_world.h"
#include "machines/served.h"
#include "world.h"

enum { CHANGES = 3 };

static Service service;
static Writer one_writer = {.service = &service, .name = "a"}, other_writer = {.service = &service, .name = "b"};
static DconfdbEdit an_edit = {.path = "/a"};
static bool an_edit_resets; /* it is of a directory */
static bool has_come[CHANGES], is_gone[CHANGES];

/* Each is an object by itself, for CBMC's sake. */
static Change first, second, third;
static GDBusMessage first_call, second_call, third_call;
static GArray first_edits, second_edits, third_edits;
static GPtrArray first_unfit, second_unfit, third_unfit;
static Change *const changes[CHANGES] = {&first, &second, &third};
static GDBusMessage *const calls_of[CHANGES] = {&first_call, &second_call, &third_call};
static GArray *const edits_of[CHANGES] = {&first_edits, &second_edits, &third_edits};
static GPtrArray *const unfit_of[CHANGES] = {&first_unfit, &second_unfit, &third_unfit};
static bool is_late; /* it is the main thread that answers, at the end */

/* ---- changes */

/* The next change, of some database. */
static void comes(int at)
{
    static gpointer a_path = "/long";
    *changes[at] = (Change){.link = {.data = changes[at]}, .call = calls_of[at], .number = (guint64)at, .size = any_u32(), .edits = edits_of[at],
                            .unfit = unfit_of[at]};
    changes[at]->writer = any_bool() ? &other_writer : &one_writer;
    calls_of[at]->references = 1;
    *edits_of[at] = (GArray){(char *)&an_edit, 0};
    *unfit_of[at] = (GPtrArray){&a_path, 0};
    has_come[at] = true;
}

static void reads(Change *change)
{
    change->is_read = true;
    change->is_normal = any_bool();
    change->edits->len = any_bool() ? 1 : 0;
    change->resets = an_edit_resets ? change->edits->len : 0;
    change->unfit->len = any_bool() ? 1 : 0;
}

void change_read(Change *change)
{
    CHECK(!change->is_read || change->call, "memory: a change that is there");
    CHECK(is_held(&service.reading) && !is_held(&service.lock) && !is_held(&change->writer->turn), "order: one thread reads, and keeps nobody from anything else");
    if (!change->is_read)
        reads(change);
}

static void waits_in(GQueue *queue, int at)
{
    comes(at);
    service.added++;
    service.waiting_size += changes[at]->size;
    g_queue_push_tail_link(queue, &changes[at]->link);
}

/* Two changes: the first may be taken. */
static void set_up(void)
{
    service.place.folder = "/f";
    service.has_thread = true;
    if (any_bool()) {
        waits_in(&service.taken, 0);
        reads(changes[0]);
    } else {
        waits_in(&service.waiting, 0);
    }
    waits_in(&service.waiting, 1);
}

uint64_t order_clock(void) { return any_u64(); }

static bool is_in(const GQueue *queue, const Change *change)
{
    for (const GList *at = queue->head; at; at = at->next) {
        if (at == &change->link)
            return true;
    }
    return false;
}

/* Each change is answered and gone, or answered at the end, or waits, once; and it is counted. */
static void all_are_answered_or_wait(void)
{
    guint64 left = 0, left_size = 0;
    for (int i = 0; i < CHANGES; i++) {
        if (!has_come[i])
            continue;
        unsigned waits = is_in(&service.taken, changes[i]) + is_in(&service.waiting, changes[i]);
        CHECK(calls_of[i]->references + (int)calls_of[i]->answers == 1, "answer: each call is answered once");
        CHECK(is_gone[i] ? calls_of[i]->answers == 1 && waits == 0 : waits + calls_of[i]->answers == 1, "answer: each is answered, or waits");
        CHECK(!service.ends || calls_of[i]->answers == 1, "answer: at the end nobody is left who waits");
        left += is_gone[i] ? 0 : 1;
        left_size += is_gone[i] ? 0 : changes[i]->size;
    }
    CHECK(service.added - service.settled == left && service.waiting_size == left_size, "answer: what waits is counted");
    CHECK(none_is_held(), "order: all is given back");
}

/* ---- the file that was replaced */

const char *dconfdb_store_user_file(const DconfdbStore *store)
{
    (void)store;
    return any_bool() ? "/f/a" : NULL;
}

int fstatfs(int file, struct statfs *found)
{
    CHECK(is_open(file), "descriptor: fstatfs() of what is open");
    found->f_type = any_int();
    return any_bool() ? -1 : 0;
}

bool dconfdb_is_kept_open(uint64_t file_system)
{
    (void)file_system;
    return any_bool();
}

static void may_keep(void)
{
    if (any_bool())
        replaced_keep(&service, replaced_open(NULL));
}

static bool only_kept_is_open(void)
{
    return only_open(service.kept_until > 0 ? service.kept : -1, -1);
}

/* ---- proved calls */

uint32_t dconfdb_served_after(uint32_t done, const DconfdbServed *known) { return served_given(done, known); }

uint32_t dconfdb_round_after(uint32_t task, const DconfdbRound *known)
{
    CHECK(known->is_watched && is_held(&service.lock), "order: what is known of the changes stays so meanwhile");
    return round_given(task, known);
}

/* ---- answers */

static void is_answered(const GDBusMessage *call, bool is_acknowledged);

static void answers(GDBusMessage *call, bool is_acknowledged)
{
    is_answered(call, is_acknowledged);
    CHECK(call->references > 0 && call->answers == 0, "answer: a call is answered once");
    call->answers++;
    call->references--;
}

void call_refuse(const Service *of, GDBusMessage *call, uint32_t served, const char *why)
{
    CHECK(of == &service, "step: of the service");
    CHECK(served > DCONFDB_SERVED_ACKNOWLEDGED && served <= DCONFDB_SERVED_LATE, "answer: there are words for it");
    CHECK(is_late == (served == DCONFDB_SERVED_LATE) && (is_late || why), "answer: the end is told by who ends");
    answers(call, false);
}

GVariant *g_variant_new_string(const char *text)
{
    CHECK(text, "memory: a text that is there");
    return NULL;
}

GVariant *g_variant_new_tuple(GVariant *const *words, gsize count)
{
    CHECK(__CPROVER_r_ok(words, count * sizeof *words), "memory: words that are there");
    return NULL;
}

void call_answer(const Service *of, GDBusMessage *call, GVariant *words)
{
    (void)words;
    CHECK(of == &service, "step: of the service");
    answers(call, true);
}

const char *change_tag(Change *change)
{
    CHECK(change->writer, "memory: a change that is there");
    return ":1:a:1";
}

/* ---- what comes, by GDBus's own thread */

/* The third one. */
Change *change_new(Writer *writer, GDBusMessage *call)
{
    CHECK(writer == &one_writer && call == calls_of[2] && is_held(&service.lock), "order: what comes is made and added at once");
    comes(2);
    changes[2]->writer = writer;
    return changes[2];
}

gpointer g_hash_table_lookup(GHashTable *table, gconstpointer key)
{
    CHECK(table == service.writers && __CPROVER_r_ok(key, 1) && is_held(&service.lock), "order: no database comes into use meanwhile");
    CHECK(!service.ends, "memory: who writes is still there");
    return any_bool() ? &one_writer : NULL;
}

GVariant *g_dbus_message_get_body(GDBusMessage *call)
{
    CHECK(call == calls_of[2], "memory: a call that is had");
    return NULL;
}

GVariant *g_variant_get_child_value(GVariant *value, gsize at)
{
    CHECK(!value && at == 0, "memory: the words of a call");
    return NULL;
}

gsize g_variant_get_size(GVariant *value)
{
    (void)value;
    return any_u32();
}

void g_variant_unref(GVariant *value) { (void)value; }

/* ---- the main thread */

int pthread_join(pthread_t thread, void **result)
{
    (void)thread, (void)result;
    CHECK(service.ends && none_is_held(), "order: who waits for the thread has told it, and keeps it from nothing");
    CHECK(!service.is_writing && service.taken.length == 0 && service.waiting.length == 0, "step: it is waited for where it has nothing to do");
    return any_bool() ? 0 : 3;
}

/* Whether the thread isn't left. */
static bool ends(void)
{
    is_late = true;
    bool is = service_stop_writing(&service);
    is_late = false;
    return is;
}
