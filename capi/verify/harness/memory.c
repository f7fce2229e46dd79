/* common/memory.c: the memory of the proved calls, of a room that is lent or by malloc(): up to two blocks, and so many times one is had, grown, or given
 * back. */
#include "world.h"

#include <stdlib.h>

/* What malloc() and the like have here: blocks of one size. */
static void *some_malloc(size_t size);
static void *some_realloc(void *at, size_t size);
static void some_free(void *at);
static void *some_copy(void *to, const void *from, size_t len);
#define memcpy some_copy
#define malloc some_malloc
#define realloc some_realloc
#define free some_free
#include "common/memory.c"

enum { ROOM = 64, MOST = 40, BLOCKS = 2, TIMES = 3, HEAPS = 3 };

static char heaps[HEAPS][MOST];
static size_t heap_sizes[HEAPS]; /* 0: it is had by nobody */

static size_t heap_of(const void *at)
{
    for (size_t i = 0; i < HEAPS; i++) {
        if (at == heaps[i])
            return i;
    }
    CHECK(false, "memory: what malloc() is given back is its own");
    return 0;
}

static void *some_malloc(size_t size)
{
    CHECK(size > 0, "answer: no block is empty");
    GIVEN(size <= MOST);
    if (any_bool())
        return NULL;
    for (size_t i = 0; i < HEAPS; i++) {
        if (heap_sizes[i] == 0) {
            heap_sizes[i] = size;
            return heaps[i];
        }
    }
    CHECK(false, "memory: what is given back is to be had again");
    return NULL;
}

static void *some_realloc(void *at, size_t size)
{
    size_t heap = heap_of(at);
    CHECK(heap_sizes[heap] > 0, "memory: what grows is had");
    if (any_bool())
        return NULL;
    heap_sizes[heap] = size;
    return at;
}

static void some_free(void *at)
{
    size_t heap = heap_of(at);
    CHECK(heap_sizes[heap] > 0, "memory: what is given back is had");
    heap_sizes[heap] = 0;
}

typedef struct {
    Block block;
    size_t size; /* 0: nothing is had */
} Had;

static _Alignas(ALIGNED) char bytes[ROOM];
static LentRoom room;
static Had had[BLOCKS];
static size_t lent_size;

/* Where it is in the room, or -1: it is malloc()'s. */
static ptrdiff_t place_of(const Block *block)
{
    return __CPROVER_same_object(block->at, bytes) ? (char *)block->at - bytes : -1;
}

/* No byte is looked at: what was copied last. */
static const void *copied_to, *copied_from;
static size_t copied;

static void *some_copy(void *to, const void *from, size_t len)
{
    copied_to = to;
    copied_from = from;
    copied = len;
    return to;
}

/* Each has its bytes, and nobody else has them. */
static void is_had(const Had *it, const Had *other)
{
    if (it->size == 0)
        return;
    ptrdiff_t at = place_of(&it->block), of_other = other->size > 0 ? place_of(&other->block) : -1;
    CHECK(at >= 0 || heap_sizes[heap_of(it->block.at)] >= it->size, "memory: a block has its bytes");
    CHECK(at < 0 || (at % ALIGNED == 0 && (size_t)at + it->size <= lent_size), "memory: a block of the room is aligned, and within what is lent");
    CHECK(at < 0 || (char *)it->block.at + it->size <= room.next, "memory: what is had next is behind a block");
    CHECK(at < 0 || of_other < 0 || (size_t)at + it->size <= (size_t)of_other || (size_t)of_other + other->size <= (size_t)at, "memory: a byte is one block's");
}

static void takes(Had *it, size_t size)
{
    it->block = rattle_alloc(size, 8);
    CHECK(it->block.at != NULL, "answer: no pointer is NULL");
    if (it->block.is_had)
        it->size = size > 0 ? size : 8;
}

/* A block that has no room stays as it is. */
static void grows(Had *it, size_t size)
{
    Block before = it->block, block = rattle_realloc(before.at, it->size, size, 8);
    size_t now = size > 0 ? size : 8;
    CHECK(block.at != NULL, "answer: no pointer is NULL");
    if (!block.is_had)
        return;
    if (place_of(&before) >= 0 && block.at != before.at) {
        CHECK(copied_to == block.at && copied_from == before.at, "memory: what is in a block comes with it");
        CHECK(copied <= now && copied <= it->size && (copied == it->size || copied >= size), "memory: as much as there was, and is room for");
        if (place_of(&block) < 0)
            REACHED("a block that has no room there is malloc()'s from then on");
    }
    it->block = block;
    it->size = now;
}

static void gives_back(Had *it)
{
    rattle_dealloc(it->block.at);
    it->size = 0;
}

static void goes_on(Had *it)
{
    size_t size = any_size();
    GIVEN(size <= MOST);
    if (it->size == 0)
        takes(it, size);
    else if (any_bool())
        grows(it, size);
    else
        gives_back(it);
}

/* harness memory: unwind 5, quick */
int memory(void)
{
    LentRoom outer;
    bool is_lent_one = any_bool();
    lend_room(&outer, bytes, 0);
    lent_size = any_size();
    GIVEN(lent_size <= ROOM);
    if (is_lent_one)
        lend_room(&room, bytes, lent_size);
    for (int i = 0; i < TIMES; i++) {
        goes_on(&had[any_bool()]);
        is_had(&had[0], &had[1]);
        is_had(&had[1], &had[0]);
    }
    for (int i = 0; i < BLOCKS; i++) {
        if (had[i].size > 0)
            gives_back(&had[i]);
    }
    CHECK(!is_lent_one || (room.count == 0 && room.next == room.start), "memory: a room is empty between two calls");
    if (is_lent_one)
        take_back_room(&room);
    CHECK(lent == &outer, "order: what was lent before is lent again");
    take_back_room(&outer);
    CHECK(!lent, "order: nothing is lent once all is taken back");
    for (int i = 0; i < HEAPS; i++)
        CHECK(heap_sizes[i] == 0, "memory: each block is given back");
    return 0;
}
