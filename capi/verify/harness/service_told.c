/* service/told.c: who is told of what. Up to two edits are made, up to two paths are below a directory, and of each proved call and snapshot anything is
 * said. */
#include "service/told.c"
#include "glib_world.h"
#include "world.h"

/* narrows libdconfdb/dconfdb.h: char text[512]; => char text[8]; */
/* stubs service/told.c: own_of notify */

static Service service;
static Writer writer = {.service = &service, .name = "a", .object = "/a"};
static char a_store, old_told, new_told; /* stand for a store, and for snapshots */
static unsigned own_had, listed, notified, flagged;
static int had_old = 1, had_new;
static bool is_seen;
static Newest newest;

/* ---- snapshots */

static int *had_of(const DconfdbSnapshot *snapshot)
{
    return (const char *)(const void *)snapshot == &old_told ? &had_old : &had_new;
}

DconfdbSnapshot *dconfdb_snapshot_ref(DconfdbSnapshot *snapshot)
{
    CHECK(*had_of(snapshot) > 0, "memory: what is had once more is had");
    ++*had_of(snapshot);
    return snapshot;
}

/* It is the caller's. */
static DconfdbSnapshot *own_of(const DconfdbSnapshot *snapshot)
{
    CHECK(*had_of(snapshot) > 0, "memory: a snapshot that is had");
    own_had++;
    return g_malloc(1);
}

void dconfdb_snapshot_unref(DconfdbSnapshot *snapshot)
{
    if ((char *)(void *)snapshot == &old_told || (char *)(void *)snapshot == &new_told) {
        CHECK(*had_of(snapshot) > 0, "memory: what is given back is had");
        --*had_of(snapshot);
        return;
    }
    own_had--;
    free(snapshot);
}

static char *some_list(void)
{
    char *list = malloc(3);
    if (!list)
        return NULL;
    list[0] = any_bool() ? 'a' : 0;
    list[1] = list[2] = 0;
    listed++;
    return list;
}

/* It ends the program. */
void g_error(const char *format, ...)
{
    (void)format;
    GIVEN(false);
}

char *snapshot_paths(const DconfdbSnapshot *snapshot, const char *directory, DconfdbError *error)
{
    (void)error;
    CHECK(__CPROVER_r_ok(snapshot, 1) && __CPROVER_r_ok(directory, 1), "memory: a snapshot that is had");
    return some_list();
}

bool seen_otherwise(Told *told, const DconfdbSnapshot *before, const DconfdbSnapshot *after, const SeenKey *keys, size_t count, DconfdbError *error)
{
    (void)error;
    CHECK(__CPROVER_r_ok(before, 1) && __CPROVER_r_ok(after, 1) && __CPROVER_r_ok(keys, count * sizeof *keys), "memory: what is compared is there");
    for (size_t i = 0; i < count; i++)
        CHECK(__CPROVER_r_ok(keys[i].path, 1) && (!keys[i].after || __CPROVER_r_ok(keys[i].after, sizeof *keys[i].after)), "memory: keys that are there");
    told->paths = some_list();
    is_seen = told->paths != NULL;
    return is_seen;
}

void seen_free(Told *told)
{
    CHECK(is_seen, "memory: what is freed is had");
    is_seen = false;
    free(told->paths);
}

bool paths_meet(const char *one, const char *other)
{
    CHECK(__CPROVER_r_ok(one, 1) && __CPROVER_r_ok(other, 1), "memory: paths that are there");
    return any_bool();
}

/* ---- proved calls: any answer */

uint32_t dconfdb_served_after(uint32_t done, const DconfdbServed *known)
{
    (void)done, (void)known;
    return any_bool() ? DCONFDB_SERVED_GOES_ON : any_u32();
}

uint32_t dconfdb_row_effect(const uint8_t *path, size_t path_len, bool sets, bool is_database, const uint8_t *other, size_t other_len)
{
    (void)sets, (void)is_database;
    CHECK(__CPROVER_r_ok(path, path_len) && __CPROVER_r_ok(other, other_len), "memory: paths that are there");
    return any_bool() ? DCONFDB_ROW_GOES : any_u32();
}

/* What is taken is told if there is something. */
uint32_t dconfdb_tell_next(const DconfdbTelling *known)
{
    uint32_t next = any_u32();
    GIVEN(next != DCONFDB_TELL_WHAT_IS_TAKEN || known->taken > 0);
    return next;
}

uint32_t dconfdb_path_kind(const uint8_t *text, size_t len, uint32_t wanted, bool is_relative, bool *is_short)
{
    CHECK(__CPROVER_r_ok(text, len) && wanted == DCONFDB_PATH_WANTED && !is_relative, "memory: a path that is there");
    *is_short = any_bool();
    return len > 0 && text[len - 1] == '/' ? DCONFDB_PATH_DIRECTORY : any_bool() ? DCONFDB_PATH_KEY : any_u32();
}

/* As the proved call has it of lists of what stands in files, without rights and faults. */
uint32_t tell_next_list(DconfdbTelling *telling)
{
    bool is_silent = !telling->is_other && !telling->has_edits;
    CHECK(!telling->has_rights && !telling->has_faults && !telling->is_first && !telling->ends, "answer: what is told");
    telling->list = is_silent || telling->list >= DCONFDB_TELL_VALUES ? DCONFDB_TELL_OVER
        : telling->list < DCONFDB_TELL_CATCH_UP && telling->is_of_files ? DCONFDB_TELL_CATCH_UP
                                                                      : DCONFDB_TELL_VALUES;
    return telling->list;
}

/* ---- trees of up to three keys, in any order */

enum { MOST_KEYS = 3 };
struct GTreeNode { gpointer key, value; struct GTreeNode *next; };
struct GTree { GTreeNode nodes[MOST_KEYS]; unsigned count; };

GTree *g_tree_new_full(GCompareDataFunc compare, gpointer data, GDestroyNotify key, GDestroyNotify value)
{
    CHECK(compare == by_path && !data && !key && !value, "step: by paths, which others have");
    return g_malloc0(sizeof(GTree));
}

void g_tree_replace(GTree *tree, gpointer key, gpointer value)
{
    GIVEN(tree->count < MOST_KEYS);
    tree->nodes[tree->count] = (GTreeNode){key, value, NULL};
    if (tree->count > 0)
        tree->nodes[tree->count - 1].next = &tree->nodes[tree->count];
    tree->count++;
}

gpointer g_tree_lookup(GTree *tree, gconstpointer key)
{
    CHECK(__CPROVER_r_ok(key, 1), "memory: a path that is there");
    return tree->count > 0 && any_bool() ? tree->nodes[0].value : NULL;
}

GTreeNode *g_tree_lower_bound(GTree *tree, gconstpointer key)
{
    CHECK(__CPROVER_r_ok(key, 1), "memory: a path that is there");
    return tree->count > 0 && any_bool() ? &tree->nodes[0] : NULL;
}

GTreeNode *g_tree_node_next(GTreeNode *node) { return node->next; }
gpointer g_tree_node_key(GTreeNode *node) { return node->key; }

void g_tree_foreach(GTree *tree, GTraverseFunc call, gpointer data)
{
    for (unsigned i = 0; i < tree->count; i++) {
        gpointer key = tree->nodes[i].key, value = tree->nodes[i].value;
        CHECK(__CPROVER_r_ok(key, 1), "memory: a path that is there");
        if (call == ask_beside)
            ask_beside(key, value, data);
        else if (call == ask_after)
            ask_after(key, value, data);
        else
            add_newest(key, value, data);
    }
}

void g_tree_unref(GTree *tree) { free(tree); }

guint g_str_hash(gconstpointer key) { (void)key; return 0; }
gboolean g_str_equal(gconstpointer one, gconstpointer other) { (void)one, (void)other; return FALSE; }

GHashTable *g_hash_table_new(GHashFunc hash, GEqualFunc equal)
{
    CHECK(hash == g_str_hash && equal == g_str_equal, "step: by texts");
    return g_malloc(1);
}

gboolean g_hash_table_add(GHashTable *table, gpointer key)
{
    CHECK(__CPROVER_r_ok(table, 1) && __CPROVER_r_ok(key, 1), "memory: a path that is there");
    return any_bool();
}

void g_hash_table_unref(GHashTable *table) { free(table); }

/* ---- who is told */

void flag_readers(const Writer *of, bool has_turn)
{
    CHECK(of == &writer && notified == 0 && !has_turn, "order: dconf's readers see it before anybody is told");
    flagged++;
}

static void notify(const Writer *of, const GPtrArray *paths, const char *tag)
{
    CHECK(of == &writer && paths->len > 0 && __CPROVER_r_ok(tag, 1), "answer: a notice names something");
    for (guint i = 0; i < paths->len; i++)
        CHECK(__CPROVER_r_ok(paths->pdata[i], 1), "memory: paths that are there");
    notified++;
}

static void set_up(void)
{
    writer.store = (DconfdbStore *)(void *)&a_store;
    writer.told = (DconfdbSnapshot *)(void *)&old_told;
    newest_begin(&newest);
}

static void all_is_given_back(void)
{
    newest_end(&newest);
    CHECK(own_had == 0 && !is_seen && had_old + had_new == 1 && *had_of(writer.told) == 1, "memory: each snapshot is given back");
    CHECK(notified <= 1, "step: one notice");
}

static DconfdbEdit an_edit = {.path = "/a", .type = "s"}, a_reset = {.path = "/b/"};

/* harness service_tell_change: unwind 5, with glib.c */
int service_tell_change(void)
{
    gpointer edits[1] = {any_bool() ? &an_edit : &a_reset};
    GPtrArray made = {edits, 1};
    set_up();
    put(newest.edits, &an_edit);
    tell_change(&writer, &newest, &made, ":1:a:1");
    CHECK((char *)(void *)writer.told == &old_told && flagged == 0, "step: what was told of the file stays");
    if (notified == 1 && listed > 0)
        REACHED("it is told");
    all_is_given_back();
    return 0;
}

/* harness service_tell_others: unwind 6, with glib.c */
int service_tell_others(void)
{
    gpointer path = "/a";
    GPtrArray left_out = {&path, 1};
    set_up();
    if (any_bool())
        put(newest.edits, &an_edit);
    bool is_amid = any_bool();
    DconfdbSnapshot *now = (DconfdbSnapshot *)(void *)(any_bool() ? &new_told : &old_told);
    ++*had_of(now);
    tell_others(&writer, is_amid ? &newest : NULL, is_amid ? &left_out : NULL, now);
    CHECK(writer.told == now, "answer: what was told is the newest");
    CHECK(flagged == (!is_amid && (char *)(void *)now == &new_told), "step: dconf's readers look, once, where others made the file another");
    dconfdb_snapshot_unref(now);
    if (notified == 1 && flagged == 1 && !is_amid)
        REACHED("what others changed is told");
    all_is_given_back();
    return 0;
}

/* ---- a notice */

static unsigned rests, emitted;
static char one_path[3], other_path[3];
static size_t one_valid, other_valid;

/* Of a text it always is the same. */
gboolean g_utf8_validate(const char *text, gssize len, const char **end)
{
    size_t valid = text == one_path ? one_valid : other_valid;
    GIVEN(valid <= (size_t)len);
    CHECK(__CPROVER_r_ok(text, (size_t)len), "memory: a path that is there");
    *end = text + valid;
    return valid == (size_t)len;
}

/* As the proved call promises it: no more than what both have; of a path with itself so many bytes as may be. */
size_t dconfdb_shared_within(const uint8_t *path, size_t path_len, size_t most, const uint8_t *other, size_t other_len)
{
    size_t len = path == other ? most : any_size();
    CHECK(most <= path_len && __CPROVER_r_ok(path, path_len) && __CPROVER_r_ok(other, other_len), "memory: paths that are there");
    GIVEN(len <= most && len <= other_len);
    return len;
}

/* It takes the text. */
GVariant *g_variant_new_take_string(char *text)
{
    free(text);
    return NULL;
}

GVariant *g_variant_new_string(const char *text)
{
    CHECK(text, "memory: a text that is there");
    return NULL;
}

GVariant *g_variant_new_array(const GVariantType *type, GVariant *const *values, gsize count)
{
    (void)type;
    CHECK(__CPROVER_r_ok(values, count * sizeof *values), "memory: texts that are there");
    rests = (unsigned)count;
    return NULL;
}

GVariant *g_variant_new_tuple(GVariant *const *values, gsize count)
{
    CHECK(count == 3 && __CPROVER_r_ok(values, count * sizeof *values), "memory: words that are there");
    return NULL;
}

gboolean g_dbus_connection_emit_signal(GDBusConnection *bus, const char *to, const char *object, const char *interface, const char *name, GVariant *words,
                                       GError **error)
{
    (void)interface, (void)name, (void)words;
    CHECK(bus == service.bus && !to && object == writer.object && !error, "step: who listens is told");
    emitted++;
    return any_bool();
}

/* harness service_notify: unwind 6, with glib.c, quick */
int service_notify(void)
{
    gpointer both[2] = {one_path, other_path};
    GPtrArray paths = {both, any_bool() ? 2 : 1};
    any_text(one_path, 2);
    any_text(other_path, 2);
    one_valid = any_size();
    other_valid = any_size();
    real_notify(&writer, &paths, "");
    CHECK(emitted == 1 && (rests == 1 || rests == paths.len), "answer: each path is named, or the directory in which all are");
    if (rests == 2)
        REACHED("two paths");
    return 0;
}
