/* What is gone through takes time with what it gives, and not with the square of that: the children of a list, and a key that
 * lies deep: walks FOLDER. Of the second size there is four times as much, so that a square would take sixteen times as long. */
#include "try.h"

#include <time.h>

enum { LEAST = 8000, MOST = 4 * LEAST, ROUNDS = 5, GROWTH = 10 };

static DconfdbError error = DCONFDB_ERROR_INIT;

/* So many texts `x` of an `as`, and the end of each after them: over 65,535 bytes, so that an end takes four. */
static uint8_t *texts(size_t count, DconfdbValue *list)
{
    enum { WIDTH = 4 };
    uint8_t *bytes = malloc(count * (2 + WIDTH));
    TRY(bytes);
    for (size_t i = 0; i < count; i++) {
        memcpy(bytes + 2 * i, "x", 2);
        for (size_t j = 0; j < WIDTH; j++)
            bytes[2 * count + WIDTH * i + j] = (uint8_t)((2 * i + 2) >> 8 * j);
    }
    *list = (DconfdbValue){bytes, count * (2 + WIDTH), "as", 2, 7, 0};
    return bytes;
}

static void takes_children(size_t size)
{
    size_t count = 2 * size;
    DconfdbValue list, *children = malloc((count + 1) * sizeof *children);
    uint8_t *bytes = texts(count, &list);
    TRY(children);
    children[count] = (DconfdbValue){NULL, 1, NULL, 1, 1, 1};
    TRY(dconfdb_value_children(&list, children, count + 1) == count && !children[count].data && children[count].size == 1);
    for (size_t i = 0; i < count; i++)
        TRY(is_text(&children[i], "x") && children[i].data == bytes + 2 * i && children[i].origin == 7);
    free(children);
    free(bytes);
}

/* The same, one by one: forwards, and backwards. */
static void takes_each(size_t size)
{
    size_t count = 2 * size;
    DconfdbValue list, child;
    uint8_t *bytes = texts(count, &list);
    for (size_t i = 0; i < count; i++)
        TRY(dconfdb_value_child(&list, i, &child) && child.data == bytes + 2 * i);
    TRY(!dconfdb_value_child(&list, count, &child));
    for (size_t i = count; i > 0; i--)
        TRY(dconfdb_value_child(&list, i - 1, &child) && child.data == bytes + 2 * (i - 1));
    free(bytes);
}

/* Behind a text that is out of order, in the middle, each is empty. */
static void takes_none(size_t size)
{
    size_t count = 2 * size;
    DconfdbValue list, child;
    uint8_t *bytes = texts(count, &list);
    memset(bytes + 2 * count + 4 * (count / 2), 0, 4);
    for (size_t i = 0; i < count; i++)
        TRY(dconfdb_value_child(&list, i, &child) && child.size == (i < count / 2 ? 2 : 0));
    free(bytes);
}

static DconfdbStore *store;

/* The one key, as deep as that. */
static void iterates(size_t levels)
{
    char *path = calloc(2 * levels + 1, 1);
    const char *at;
    DconfdbValue value;
    TRY(path);
    for (size_t i = 0; i < 2 * levels; i++)
        path[i] = i % 2 == 0 ? '/' : 'a';
    DconfdbSnapshot *now = dconfdb_store_snapshot(store);
    DconfdbIterator *iterator = dconfdb_snapshot_iterate(now, "/", &error);
    TRY(iterator && dconfdb_iterator_next(iterator, &at, &value) && strcmp(at, path) == 0 && is_text(&value, "deep"));
    TRY(!dconfdb_iterator_next(iterator, &at, &value));
    dconfdb_iterator_free(iterator);
    dconfdb_snapshot_unref(now);
    free(path);
}

static void sets_deep(size_t levels)
{
    char *path = calloc(2 * levels + 1, 1);
    TRY(path);
    for (size_t i = 0; i < 2 * levels; i++)
        path[i] = i % 2 == 0 ? '/' : 'a';
    DconfdbEdit edits[] = {{"/", NULL, NULL, 0}, sets_text(path, "deep")};
    TRY(dconfdb_store_change(store, NULL, edits, 2, &error));
    free(path);
}

/* The least of some times. */
static double least(void (*walk)(size_t), size_t count)
{
    double best = 1e9;
    for (int i = 0; i < ROUNDS; i++) {
        double begun = seconds(CLOCK_THREAD_CPUTIME_ID);
        walk(count);
        double took = seconds(CLOCK_THREAD_CPUTIME_ID) - begun;
        best = took < best ? took : best;
    }
    return best;
}

static double growth(void (*walk)(size_t), void (*starts)(size_t))
{
    if (starts)
        starts(LEAST);
    double few = least(walk, LEAST);
    if (starts)
        starts(MOST);
    return least(walk, MOST) / few;
}

int main(int argc, char **argv)
{
    TRY(argc == 2);
    store = dconfdb_store_open(argv[1], &error);
    TRY(store);
    double children = growth(takes_children, NULL), each = growth(takes_each, NULL), none = growth(takes_none, NULL);
    double deep = growth(iterates, sets_deep);
    printf("%d texts at once, one by one, with one out of order, and a key %d deep; four times as many take %.1f, %.1f, %.1f and %.1f times as long\n",
           2 * MOST, MOST, children, each, none, deep);
    TRY(children < GROWTH && each < GROWTH && none < GROWTH && deep < GROWTH);
    dconfdb_store_close(store);
    return 0;
}
