/* The memory of the proved calls, as memory.c has it: blocks are taken, grown and given back at random, with a room and without, and keep
 * what was written into them. Linked with that file alone. */
#include "memory.h"
#include "try.h"

#include <stdint.h>

enum { BLOCKS = 64, LARGEST = 512, ROUNDS = 20000 };

static struct {
    unsigned char *at, mark;
    size_t size;
} blocks[BLOCKS];

static size_t random_below(size_t end)
{
    static uint64_t state = 1;
    state = state * 6364136223846793005U + 1442695040888963407U;
    return (size_t)(state >> 33) % end;
}

static void is_whole(size_t i, size_t size)
{
    for (size_t k = 0; k < size; k++)
        TRY(blocks[i].at[k] == blocks[i].mark);
}

static void take(size_t i, size_t size)
{
    Block block = rattle_alloc(size, 8);
    TRY(block.is_had && (uintptr_t)block.at % ALIGNED == 0);
    blocks[i].at = block.at;
}

static void grow(size_t i, size_t size)
{
    is_whole(i, blocks[i].size);
    Block block = rattle_realloc(blocks[i].at, blocks[i].size, size, 8);
    TRY(block.is_had && (uintptr_t)block.at % ALIGNED == 0);
    blocks[i].at = block.at;
    is_whole(i, blocks[i].size < size ? blocks[i].size : size);
}

static void give_back(size_t i)
{
    is_whole(i, blocks[i].size);
    rattle_dealloc(blocks[i].at);
    blocks[i].at = NULL;
}

static void step(void)
{
    size_t i = random_below(BLOCKS), size = random_below(LARGEST);
    if (blocks[i].at && random_below(2) == 0) {
        give_back(i);
        return;
    }
    if (blocks[i].at)
        grow(i, size);
    else
        take(i, size);
    blocks[i].size = size;
    blocks[i].mark = (unsigned char)random_below(256);
    memset(blocks[i].at, blocks[i].mark, size);
}

static void go_through(int rounds)
{
    for (int n = 0; n < rounds; n++)
        step();
    for (size_t i = 0; i < BLOCKS; i++) {
        if (blocks[i].at)
            give_back(i);
    }
}

/* Nothing is taken of malloc() that has room, and the room is whole again when all is given back. */
static void is_had_again(const LentRoom *room, const char *bytes, size_t size)
{
    TRY(room->count == 0 && room->next == bytes);
    Block all = rattle_alloc(size, 8);
    TRY(all.is_had && all.at == bytes);
    rattle_dealloc(all.at);
}

int main(void)
{
    _Alignas(16) char bytes[SMALL_ROOM], inner[256];
    LentRoom room, second;
    go_through(ROUNDS / 10);
    lend_room(&room, bytes, sizeof bytes);
    go_through(ROUNDS);
    is_had_again(&room, bytes, sizeof bytes);
    lend_room(&second, inner, sizeof inner);
    go_through(ROUNDS / 10);
    is_had_again(&second, inner, sizeof inner);
    take_back_room(&second);
    is_had_again(&room, bytes, sizeof bytes);
    take_back_room(&room);
    go_through(ROUNDS / 10);
    puts("rooms");
}
