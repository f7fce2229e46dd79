/* The memory of the proved calls, by the names that their toolchain has for it: from the room that the thread has lent, or by malloc(). */
#include "memory.h"

#include <stdint.h>
#include <stdlib.h>
#include <string.h>

static _Thread_local LentRoom *lent __attribute__((tls_model("initial-exec")));

void lend_room(LentRoom *room, void *bytes, size_t size)
{
    *room = (LentRoom){lent, bytes, bytes, (char *)bytes + (size & ~(size_t)(ALIGNED - 1)), 0};
    lent = room;
}

void take_back_room(const LentRoom *room)
{
    lent = room->outer;
}

static Block block(void *at)
{
    static char nothing[ALIGNED];
    return (Block){at != NULL, at ? at : nothing};
}

static size_t aligned(size_t size)
{
    return (size + ALIGNED - 1) & ~(size_t)(ALIGNED - 1);
}

static int is_lent(const LentRoom *room, const void *at)
{
    return room && (uintptr_t)at - (uintptr_t)room->start < (uintptr_t)(room->end - room->start);
}

/* Whether it has so many bytes from there on: all that a room has is aligned, and so has room for the aligned size, too. */
static int has_room(const LentRoom *room, const char *at, size_t size)
{
    return size <= (size_t)(room->end - at);
}

static void *taken_from(LentRoom *room, size_t size)
{
    void *at = room->next;
    room->next += aligned(size);
    room->count++;
    return at;
}

/* Where none is left, all of it is to be had again. */
static void given_back(LentRoom *room)
{
    if (--room->count == 0)
        room->next = room->start;
}

Block rattle_alloc(size_t size, size_t align)
{
    size_t wanted = size > 0 ? size : align;
    LentRoom *room = lent;
    if (room && has_room(room, room->next, wanted))
        return (Block){1, taken_from(room, wanted)};
    return block(malloc(wanted));
}

/* The newest block grows in its place, if there is room. */
static void *grown(LentRoom *room, char *at, size_t old_size, size_t size)
{
    int is_newest = at + aligned(old_size) == room->next;
    if (!is_newest || !has_room(room, at, size))
        return NULL;
    room->next = at + aligned(size);
    return at;
}

Block rattle_realloc(void *at, size_t old_size, size_t size, size_t align)
{
    size_t wanted = size > 0 ? size : align;
    LentRoom *room = lent;
    if (!is_lent(room, at))
        return block(realloc(at, wanted));
    void *to = grown(room, at, old_size > 0 ? old_size : align, wanted);
    if (to)
        return (Block){1, to};
    Block other = rattle_alloc(size, align);
    if (other.is_had) {
        memcpy(other.at, at, old_size < size ? old_size : size);
        given_back(room);
    }
    return other;
}

void rattle_dealloc(void *at)
{
    LentRoom *room = lent;
    if (is_lent(room, at))
        given_back(room);
    else
        free(at);
}
