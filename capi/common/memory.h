/* Memory that a thread lends the proved calls for a while. What a call takes it gives back before it returns, so that a room is empty
 * between two calls: it is cheaper than malloc() and free(), which have the rest. */
#ifndef MEMORY_H
#define MEMORY_H

#include <stddef.h>
#include <stdint.h>

/* On a stack, for calls about a few keys. */
enum { SMALL_ROOM = 8192 };

typedef struct LentRoom {
    struct LentRoom *outer;
    char *start, *next, *end;
    size_t count; /* of the blocks that are taken */
} LentRoom;

/* Lends so many bytes, aligned for each type, until they are taken back. */
void lend_room(LentRoom *room, void *bytes, size_t size);
void take_back_room(const LentRoom *room);

/* ---- what the proved calls take memory by, under their toolchain's names */

/* For each type. */
enum { ALIGNED = 16 };

/* As the toolchain hands it out: no memory is left where `is_had` is 0. */
typedef struct {
    uint64_t is_had;
    void *at;
} Block;

Block rattle_alloc(size_t size, size_t align);
Block rattle_realloc(void *at, size_t old_size, size_t size, size_t align);
void rattle_dealloc(void *at);

#endif
