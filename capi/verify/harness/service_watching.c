/* service/watching.c: the main thread looks at the files while nobody writes, and rests until something happens. What is watched, and what a look finds,
 * is anything. */
#include "service/watching.c"
#include "glib_world.h"
#include "machines/served.h"
#include "world.h"

/* narrows libdconfdb/dconfdb.h: char text[512]; => char text[8]; */
/* stubs service/watching.c: look */

static Service service;
static Writer writer = {.service = &service};
static char old_store, new_store, a_watch; /* stand for stores, and a watch */
static char old_told, new_told;            /* and for snapshots */
static int had_old, had_new;               /* how often these are had */
static bool is_old_open = true, is_new_open, is_compared, has_new_files;
static unsigned answered, steps;
static int descriptor;
static bool has_fd, has_timeout, is_idle;
static bool is_by_ears; /* inotify is heard by epoll's */

uint32_t dconfdb_look_due(uint32_t looker, const DconfdbLookKnown *known)
{
    CHECK(looker == DCONFDB_LOOKER_SEES, "step: it wants to see the files");
    return look_due_given(known);
}

/* ---- the profiles */

Profiles service_profiles(const Service *of)
{
    CHECK(of == &service && is_held(&writer.turn), "order: nobody writes meanwhile");
    return (Profiles){.asked = 1};
}

void profiles_compare(const Profiles *read, const Profiles *now, DconfdbGlance *known)
{
    CHECK(read == &writer.seen && now->asked == 1 && !is_compared, "step: those that were read are beside those of now");
    is_compared = true;
    known->first = any_u32();
    known->second = any_u32();
}

bool have_same_files(const DconfdbStore *one, const DconfdbStore *other)
{
    CHECK((const char *)one == &new_store && is_new_open && (const char *)other == &old_store && is_old_open, "memory: stores that are open");
    has_new_files = any_bool();
    return !has_new_files;
}

bool dconfdb_keeps_profile(uint32_t who)
{
    CHECK(who == DCONFDB_WATCHER_SERVICE, "step: of the service");
    return any_bool();
}

/* ---- stores and snapshots */

DconfdbStore *store_named(const Service *of, const char *name, DconfdbError *error)
{
    (void)error;
    CHECK(of == &service && name == writer.name && is_held(&writer.turn), "order: nobody writes meanwhile");
    is_new_open = any_bool();
    return is_new_open ? (DconfdbStore *)&new_store : NULL;
}

void store_take_over(DconfdbStore *store, DconfdbStore *old)
{
    CHECK((char *)store == &new_store && is_new_open && (char *)old == &old_store && is_old_open, "memory: stores that are open");
}

void dconfdb_store_close(DconfdbStore *store)
{
    CHECK((char *)store == &old_store && is_old_open, "memory: what is closed is open");
    is_old_open = false;
}

bool dconfdb_store_refresh(DconfdbStore *store, bool *changed, DconfdbError *error)
{
    (void)error;
    CHECK(!changed && store == writer.store && is_held(&writer.turn), "order: nobody writes meanwhile");
    return any_bool();
}

static int *had_of(const DconfdbSnapshot *snapshot)
{
    return (const char *)(const void *)snapshot == &old_told ? &had_old : &had_new;
}

DconfdbSnapshot *dconfdb_snapshot_ref(DconfdbSnapshot *snapshot)
{
    CHECK(*had_of(snapshot) > 0, "memory: what is had once more is had");
    ++*had_of(snapshot);
    return snapshot;
}

void dconfdb_snapshot_unref(DconfdbSnapshot *snapshot)
{
    if (!snapshot)
        return;
    CHECK(*had_of(snapshot) > 0, "memory: what is given back is had");
    --*had_of(snapshot);
}

DconfdbSnapshot *dconfdb_store_snapshot(DconfdbStore *store)
{
    CHECK(store == writer.store && is_held(&writer.turn), "order: nobody writes meanwhile");
    bool is_new = any_bool();
    ++*(is_new ? &had_new : &had_old);
    return (DconfdbSnapshot *)(void *)(is_new ? &new_told : &old_told);
}

void tell_others(Writer *at, const Newest *newest, const GPtrArray *left_out, DconfdbSnapshot *now)
{
    CHECK(at == &writer && !newest && !left_out && is_held(&writer.turn), "order: who is told is told while nobody writes");
    CHECK(*had_of(now) > 0, "memory: the newest settings, which are had");
    dconfdb_snapshot_unref(writer.told);
    writer.told = dconfdb_snapshot_ref(now);
}

void heed_others(DconfdbStore *store, const DconfdbSnapshot *before, const DconfdbSnapshot *after)
{
    CHECK(store == writer.store && is_held(&writer.turn), "order: nobody writes meanwhile");
    CHECK(before && *had_of(before) > 0 && after == writer.told && *had_of(after) > 0, "memory: snapshots that are had");
    REACHED("what waits is to be overtaken");
}

void warned_renew(Warned *warned, const DconfdbStore *store, const DconfdbError *error, bool is_repeated, Warns *warns, void *it)
{
    (void)error, (void)is_repeated, (void)it;
    CHECK(warned == &writer.warned && store == writer.store && warns == warn, "step: what is wrong is said");
}

bool service_has_waiting(Service *at)
{
    CHECK(at == &service && !is_held(&service.lock), "order: the turn comes before the changes' mutex");
    return any_bool();
}

const StorePlace *place_of(const DconfdbStore *store)
{
    CHECK(store == writer.store, "memory: a store that is open");
    return NULL;
}

/* ---- proved calls: a task after those before it, as one of them says what comes */

uint32_t dconfdb_glance_after(uint32_t task, const DconfdbGlance *known)
{
    uint32_t next = any_u32();
    CHECK(!known->is_barred && !known->is_to_settle, "step: the turn is had, and nothing is settled by a look");
    CHECK(known->is_open && is_compared && known->has_same_files == (is_new_open && !has_new_files), "answer: what is known is so");
    GIVEN(next > task && next <= DCONFDB_GLANCE_FAILED && next != DCONFDB_GLANCE_SETTLE && next != DCONFDB_GLANCE_AGAIN);
    GIVEN(next != DCONFDB_GLANCE_WATCH || known->is_done);
    GIVEN(next != DCONFDB_GLANCE_HEED || (known->is_other && task == DCONFDB_GLANCE_HAND));
    GIVEN(next != DCONFDB_GLANCE_HAND || known->is_done);
    GIVEN(task >= DCONFDB_GLANCE_HAND ? next >= DCONFDB_GLANCE_HEED : task == DCONFDB_GLANCE_BEGINS || next >= DCONFDB_GLANCE_HAND);
    GIVEN(next != DCONFDB_GLANCE_SEEN || known->is_done);
    return next;
}

bool dconfdb_sleep_until(uint64_t again, uint64_t look, uint64_t now, uint64_t *wait)
{
    (void)again, (void)now;
    *wait = any_u64();
    return look != 0;
}

/* ---- the watch */

WatchStep watch_step(const Watch *watch, int64_t *until)
{
    CHECK((const char *)(const void *)watch == &a_watch, "memory: a watch");
    GIVEN(++steps <= 3);
    *until = any_bool() ? 0 : (int64_t)any_u32();
    return any_bool() ? WATCH_REST : any_bool() ? WATCH_LOOK : WATCH_FILES;
}

int64_t watch_answer(Watch *watch, bool yes)
{
    (void)watch, (void)yes;
    CHECK(none_is_held(), "order: who writes is kept from nothing");
    answered++;
    return 0;
}

void watch_opened_anew(Watch *watch)
{
    CHECK((const char *)(const void *)watch == &a_watch, "memory: a watch");
    REACHED("other files are to be watched");
}

bool watch_begin_with(Watch *watch, const StorePlace *place, const char *others, int count)
{
    (void)watch, (void)place;
    CHECK(others == service.files && count == service.profiles, "step: the profiles are watched, whichever store has the database");
    return any_bool();
}
int watch_descriptor(const Watch *watch) { (void)watch; return descriptor; }
void watch_hear(Watch *watch) { (void)watch; }
void watch_pass_time(Watch *watch, bool listens) { (void)watch, (void)listens; }

/* ---- epoll, which may have no room for another file */

enum { EARS = 9 };

int epoll_ctl(int ears, int what, int file, struct epoll_event *event)
{
    CHECK(what == EPOLL_CTL_DEL || (what == EPOLL_CTL_ADD && event && event->events == EPOLLIN), "memory: what is asked for is there");
    CHECK(file == descriptor && is_by_ears == (what == EPOLL_CTL_DEL), "descriptor: inotify's, which is there once");
    if (ears != EARS || any_bool())
        return -1;
    is_by_ears = what == EPOLL_CTL_ADD;
    return 0;
}

/* ---- sources, of which one at a time waits */

guint g_unix_fd_add(gint file, GIOCondition condition, gboolean (*call)(gint, GIOCondition, gpointer), gpointer data)
{
    CHECK(file >= 0 && condition == G_IO_IN && call == hear && data == &writer && !has_fd, "step: it is heard once");
    CHECK(file == (is_by_ears ? EARS : descriptor), "descriptor: the one that tells");
    has_fd = true;
    return 1;
}

guint g_timeout_add(guint milliseconds, GSourceFunc call, gpointer data)
{
    (void)milliseconds;
    CHECK(call == pass_time && data == &writer && !has_timeout, "step: one time is waited for");
    has_timeout = true;
    return 2;
}

guint g_idle_add_full(gint priority, GSourceFunc call, gpointer data, GDestroyNotify frees)
{
    (void)priority;
    CHECK((call == go_on_later || call == hear_itself) && data == &writer && !frees, "step: the main thread looks, or listens");
    is_idle = true;
    return 3;
}

gboolean g_source_remove(guint source)
{
    CHECK(source == 2 ? has_timeout : source == 1 && has_fd, "memory: what is removed is had");
    if (source == 2)
        has_timeout = false;
    else
        has_fd = false;
    return TRUE;
}

static void set_up(void)
{
    writer.store = (DconfdbStore *)&old_store;
    writer.told = (DconfdbSnapshot *)(void *)&old_told;
    writer.watch = (Watch *)(void *)&a_watch;
    had_old = 1;
    descriptor = any_bool() ? 5 : -1;
    writer.ears = any_bool() ? EARS : -1;
    writer.heard = -1;
}

/* harness service_look: unwind 6, with glib.c, quick */
int service_look(void)
{
    set_up();
    g_mutex_lock(&writer.turn);
    bool is = real_look(&writer);
    g_mutex_unlock(&writer.turn);
    CHECK((char *)writer.store == &new_store ? is_new_open && !is_old_open : is_old_open && !is_new_open, "memory: one store is open");
    CHECK((char *)writer.store != &new_store || writer.seen.asked == 1, "answer: by which profiles it was opened is known");
    CHECK(had_old + had_new == 1 && *had_of(writer.told) == 1, "memory: each snapshot is given back");
    if (is && is_new_open)
        REACHED("it is opened anew");
    return 0;
}

/* As service_look has it. */
static bool look(Writer *at)
{
    CHECK(at == &writer && is_held(&writer.turn), "order: nobody writes meanwhile");
    return any_bool();
}

/* harness service_look_now: unwind 6, with glib.c, quick */
int service_look_now(void)
{
    set_up();
    bool is = look_now(&writer);
    CHECK(none_is_held(), "order: all is given back");
    CHECK(is ? answered == 1 && !writer.is_to_look : answered == 0 && writer.is_to_look, "answer: what isn't looked at now is looked at once it was written");
    writer_has_written(&writer);
    CHECK(is_idle == (writer.is_to_look != 0), "answer: who couldn't look is called");
    if (!is)
        REACHED("something is written");
    return 0;
}

/* harness service_go_on: unwind 6, with glib.c, quick */
int service_go_on(void)
{
    set_up();
    if (any_bool()) {
        has_timeout = true;
        writer.waits = 2;
    }
    go_on(&writer);
    CHECK(none_is_held(), "order: all is given back");
    CHECK((writer.waits == 2) == has_timeout && (writer.hears == 1) == has_fd, "answer: what waits is known");
    if (has_timeout && has_fd)
        REACHED("it rests");
    if (writer.is_to_look)
        REACHED("something is written");
    bool was_by_ears = is_by_ears;
    writer_writes(&writer);
    if (was_by_ears && !is_by_ears)
        REACHED("who writes wakes nobody");
    writer_has_written(&writer);
    CHECK(is_by_ears == was_by_ears || (is_idle && writer.heard == -1), "answer: what happened is heard behind the write");
    if (was_by_ears && !is_by_ears)
        hear_itself(&writer);
    return 0;
}
