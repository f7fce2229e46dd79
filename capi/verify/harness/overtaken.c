/* libdconfdb/overtaken.c: up to two changes that waited, which of them are left out, and what others were seen to change. What is noted the proved calls
 * say, in any way. */
#define MOST_DATABASES 2
#define FEW_DATABASES 2
#include "libdconfdb/overtaken.c"
#include "world.h"

/* narrows libdconfdb/dconfdb.h: char text[512]; => char text[8]; */
/* narrows libdconfdb/overtaken.h: enum { FEW_EDITS = 4 }; => enum { FEW_EDITS = 1 }; */

enum { EDITS = 2 };

static DconfdbStore store;
static Order order;
static Part parts[2];
static Part *before_list[1] = {&parts[0]}, *now_list[1];
static DconfdbLayer layers[2];
static DconfdbSnapshot before = {.references = 1, .count = 1, .parts = before_list, .layers = &layers[0]};
static DconfdbSnapshot now = {.references = 1, .count = 1, .parts = now_list, .layers = &layers[1]};
static DconfdbEdit edits[EDITS] = {{.path = "/a"}, {.path = "/b"}};
static bool is_left[EDITS];
static char room[16];
static size_t taken; /* bytes of it */
static unsigned looked;

DconfdbChange change_of_edit(const DconfdbEdit *edit)
{
    return (DconfdbChange){.path = {(const uint8_t *)edit->path, 2}};
}

/* ---- what is noted */

size_t order_path_size(const char *name, size_t len)
{
    CHECK(name == store.own_name, "step: the store's own file");
    return 2 + len;
}

char *order_room(Order *of, size_t size)
{
    CHECK(of == &order && size <= sizeof room, "memory: room for each path, and no more");
    taken = size;
    return any_bool() ? room : NULL;
}

DconfdbBytes order_path(char **at, const char *name, const DconfdbBytes *path)
{
    char *start = *at;
    CHECK(name == store.own_name && start >= room && (size_t)(start - room) + 2 + path->len <= taken, "memory: a path has room");
    *at = start + 2 + path->len;
    return (DconfdbBytes){(const uint8_t *)start, 2 + path->len};
}

uint64_t order_time(const Order *of, uint64_t moment, uint64_t noted)
{
    CHECK(of == &order && noted == store.known.noted, "step: a moment, by what was noted");
    return moment + 1;
}

bool edit_is_made(const DconfdbSnapshot *of, bool may_be, const DconfdbChange *change)
{
    CHECK(of == &now && may_be == store.known.is_unsettled && __CPROVER_r_ok(change, sizeof *change), "step: whether the user has it");
    return any_bool();
}

uint64_t dconfdb_value_number(const DconfdbLayer *layer, const uint8_t *path, size_t len)
{
    CHECK(layer == &layers[0] || layer == &layers[1], "memory: a layer of a snapshot that is had");
    CHECK(len == 2 && (path == (const uint8_t *)edits[0].path || path == (const uint8_t *)edits[1].path), "step: of a change's path");
    looked++;
    return any_u64();
}

uint32_t dconfdb_leave_out(const DconfdbTime *notes, size_t n, const DconfdbSeen *seen, size_t seen_n, const DconfdbAsked *asked, size_t count, uint64_t at,
                           bool *left, size_t left_len, size_t *len)
{
    (void)notes, (void)n, (void)at;
    CHECK(seen && seen_n == 0, "memory: no pointer is NULL");
    CHECK(__CPROVER_r_ok(asked, count * sizeof *asked) && __CPROVER_w_ok(left, left_len) && left_len == count, "memory: each is there, and has room");
    for (size_t i = 0; i < count; i++)
        CHECK(asked[i].when == 8 + i && asked[i].change == i && asked[i].path.len == 4, "answer: what is asked of is what was set");
    if (any_bool())
        return DCONFDB_MEMORY;
    for (size_t i = 0; i < count; i++)
        left[i] = is_left[i] = any_bool();
    *len = count;
    return DCONFDB_OK;
}

/* ---- changes that waited */

static void are_asked(size_t count)
{
    static const Made made[EDITS] = {{.moment = 7, .change = 0}, {.moment = 8, .change = 1}};
    Asking asking;
    size_t kept = 0;
    now_list[0] = &parts[any_bool()];
    before.is_writable = any_bool();
    store.own_name = "u";
    store.now = &now;
    if (!asking_begin(&asking, edits, made, count))
        return;
    CHECK(asking.count == count && __CPROVER_w_ok(asking.is_left, count) && __CPROVER_w_ok(asking.times, count * sizeof *asking.times), "memory: each change has room");
    bool is = asking_leave_out(&asking, &store, &order, &before);
    CHECK(looked == 0 || (before.is_writable && now_list[0] != before_list[0]), "step: in one part, or in nobody's, nothing is looked for");
    for (size_t i = 0; is && i < count; i++) {
        if (is_left[i])
            continue;
        CHECK(kept < asking.count && asking.edits[kept] == i && asking.asked[kept].change == i, "answer: what stays is what isn't left out, in its order");
        CHECK(asking.changes[kept].path.at == (const uint8_t *)edits[i].path && asking.asked[kept].when == 8 + i, "answer: each with what is its own");
        kept++;
    }
    CHECK(!is || asking.count == kept, "answer: and nothing else");
    if (is && count == EDITS && kept == 1 && !is_left[1])
        REACHED("the first one is left out");
    asking_free(&asking);
}

/* harness asking: unwind 4, quick */
int asking_(void)
{
    if (any_bool())
        are_asked(EDITS);
    else
        are_asked(1);
    return 0;
}

/* ---- what others were seen to change */

static bool is_noted, has_others, is_seen_known, is_kept;

bool order_has_left(const Order *of, const char *name, const FileState *file)
{
    CHECK(of == &order && name == store.own_name && file == &parts[1].state, "step: who left the file as it is");
    return is_noted = any_bool();
}

char *snapshot_remembered(const DconfdbSnapshot *one, const DconfdbSnapshot *other, bool was_noted)
{
    CHECK(one == &before && other == &now && was_noted == is_noted && is_held(&store.refreshing), "order: two snapshots, while nobody else looks");
    char *paths = malloc(2);
    if (!paths)
        return NULL;
    has_others = any_bool();
    paths[0] = has_others ? '/' : 0;
    paths[1] = 0;
    return paths;
}

int file_look(const char *name, FileState *state)
{
    CHECK(name == store.place.folder && __CPROVER_w_ok(state, sizeof *state), "step: the store's folder");
    return any_fault();
}

uint64_t dconfdb_time_of_file(const DconfdbFileStamp *file, const DconfdbFileStamp *folder)
{
    CHECK(file == &parts[1].state && __CPROVER_r_ok(folder, sizeof *folder), "step: the time of the file that was left");
    return 5;
}

void store_after(DconfdbStore *at, uint32_t what, bool yes, uint64_t number)
{
    CHECK(at == &store && what == DCONFDB_STORE_SEEN && number == 0 && is_held(&store.refreshing), "order: what was seen is known while nobody else looks");
    CHECK(yes == (store.seen != NULL), "answer: whether it is kept");
    is_seen_known = true;
    is_kept = yes;
}

/* harness heed_others: unwind 4, quick */
int heed_others_(void)
{
    static char folder[] = "/f";
    now_list[0] = &parts[any_bool()];
    store.own_name = "u";
    store.place.folder = folder;
    heed_others(&store, &before, &now);
    CHECK(none_is_held(), "order: the mutex is given back");
    CHECK(!is_seen_known || now_list[0] == &parts[1], "step: of one part nothing is remembered");
    CHECK(!is_kept || (has_others && store.seen->when == 5 && store.seen->paths[0] == '/'), "answer: what others changed, with its time");
    CHECK(is_seen_known || !store.seen, "answer: nothing is remembered where nothing was changed");
    if (is_kept)
        REACHED("what others changed is remembered");
    store_forget_seen(&store);
    CHECK(!store.seen, "memory: nothing is left of it");
    return 0;
}
