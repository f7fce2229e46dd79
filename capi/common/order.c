/* Who set what last: notes in the lock's file, which the proved calls read and write. */
#define _DEFAULT_SOURCE
#define _POSIX_C_SOURCE 200809L
#define _FILE_OFFSET_BITS 64
#include "order.h"
#include "clocks.h"
#include "moves.h"

#include <stdlib.h>
#include <string.h>
#include <unistd.h>

/* The room that is made first: for so many bytes, and times. */
enum { FEW_BYTES = 1024, FEW_TIMES = 4 };

/* Bytes of paths, and those that were had before. */
typedef struct OrderRoom {
    struct OrderRoom *next;
    char bytes[];
} OrderRoom;

/* ---- times */

uint64_t order_clock(void)
{
    return clock_nanoseconds(CLOCK_BOOTTIME);
}

/* In this order, since this thread may have to wait between the two: no set counts as later than it was. */
static void read_clocks(Order *order)
{
    order->now = clock_nanoseconds(CLOCK_REALTIME);
    order->moment = order_clock();
}

uint64_t order_time(const Order *order, uint64_t moment, uint64_t noted)
{
    return dconfdb_time_of_moment(order->now, order->moment, moment, noted);
}

/* ---- room */

/* What is to be had next of something that grows. */
static size_t next_of(size_t most, size_t few, size_t wanted)
{
    size_t next = most > 0 ? 2 * most : few;
    return wanted < next ? next : wanted;
}

static bool has_bytes_for(char **bytes, size_t *most, size_t wanted)
{
    if (*most > 0 && wanted <= *most)
        return true;
    size_t next = next_of(*most, FEW_BYTES, wanted);
    char *room = realloc(*bytes, next);
    if (!room)
        return false;
    *bytes = room;
    *most = next;
    return true;
}

/* In both. */
static bool has_room_for(Order *order, size_t count)
{
    if (order->most > 0 && count <= order->most)
        return true;
    size_t most = next_of(order->most, FEW_TIMES, count);
    DconfdbTime *times = realloc(order->times, most * sizeof *times);
    if (times)
        order->times = times;
    DconfdbTime *others = times ? realloc(order->others, most * sizeof *others) : NULL;
    if (!others)
        return false;
    order->others = others;
    order->most = most;
    return true;
}

static void forget_rooms(Order *order)
{
    while (order->rooms) {
        OrderRoom *room = order->rooms;
        order->rooms = room->next;
        free(room);
    }
}

/* The first of a turn may have the room of the turn before. */
char *order_room(Order *order, size_t size)
{
    if (order->own_len == 0 && has_bytes_for(&order->own, &order->own_room, size)) {
        order->own_len = size;
        return order->own;
    }
    OrderRoom *room = malloc(sizeof *room + size);
    if (!room)
        return NULL;
    room->next = order->rooms;
    order->rooms = room;
    return room->bytes;
}

/* ---- paths */

size_t order_path_size(const char *name, size_t len)
{
    return 1 + strlen(name) + len;
}

DconfdbBytes order_path(char **at, const char *name, const DconfdbBytes *path)
{
    char *start = *at;
    size_t len = strlen(name);
    start[0] = '/';
    memcpy(start + 1, name, len);
    memcpy(start + 1 + len, path->at, path->len);
    *at = start + 1 + len + path->len;
    return (DconfdbBytes){(const uint8_t *)start, 1 + len + path->len};
}

/* ---- what is noted */

/* Of a file, from there on, as much as there is room for. Gives what came of it. */
static uint32_t read_on(Order *order, int lock)
{
    int fault = 0;
    uint32_t is;
    do
        is = moved(order->room, &order->size, pread(lock, order->text + order->size, order->room - order->size, (off_t)order->size), &fault);
    while (is == DCONFDB_MOVES_ON);
    return is;
}

/* As much as can be read, and of what is too long more than there may be: whether it is whole, and counts, the proved call says. False: no memory is
 * left. */
static bool read_text(Order *order, int lock)
{
    uint32_t is;
    order->size = 0;
    do {
        if (!has_bytes_for(&order->text, &order->room, order->size + 1))
            return false;
        is = read_on(order, lock);
    } while (is == DCONFDB_MOVED_ALL && order->size <= DCONFDB_MOST_NOTED);
    order->stood = is == DCONFDB_MOVED_END ? order->size : SIZE_MAX;
    return true;
}

/* There are few mostly, so that is tried first. False: no memory is left. */
static bool take_notes(Order *order)
{
    size_t count = 0;
    do {
        if (!has_room_for(order, count))
            return false;
        for (size_t i = 0; i < order->most; i++)
            order->times[i] = (DconfdbTime){DCONFDB_NOTHING, 0, 0};
        if (dconfdb_notes_read((const uint8_t *)order->text, order->size, &order->left, order->times, order->most, &count) != DCONFDB_OK)
            return false;
    } while (count > order->most);
    order->count = count;
    return true;
}

bool order_read(Order *order, int lock)
{
    forget_rooms(order);
    order->count = order->own_len = 0;
    order->left = (DconfdbBytes)DCONFDB_NOTHING;
    if (!read_text(order, lock) || !take_notes(order))
        return false;
    read_clocks(order);
    return true;
}

static uint32_t left_state(const Order *order, const char *name, const FileState *file)
{
    return dconfdb_left_state(order->left.at, order->left.len, (const uint8_t *)name, strlen(name), file);
}

bool order_has_left(const Order *order, const char *name, const FileState *file)
{
    return left_state(order, name, file) != DCONFDB_LEFT_UNKNOWN;
}

bool order_is_synced(const Order *order, const char *name, const FileState *file)
{
    return left_state(order, name, file) == DCONFDB_LEFT_SYNCED;
}

/* Room for so many more in `others`. */
static bool begin_notes(Order *order, size_t count, size_t *most)
{
    *most = order->count + count;
    if (!has_room_for(order, *most))
        return false;
    for (size_t i = 0; i < *most; i++)
        order->others[i] = (DconfdbTime){DCONFDB_NOTHING, 0, 0};
    return true;
}

static void end_notes(Order *order, size_t count)
{
    DconfdbTime *noted = order->times;
    order->times = order->others;
    order->others = noted;
    order->count = count;
}

bool order_note_seen(Order *order, const DconfdbSeen *seen, size_t count)
{
    size_t most, len = 0;
    if (!begin_notes(order, count, &most)
        || dconfdb_note_seen(order->times, order->count, seen, count, order->now, order->others, most, &len) != DCONFDB_OK)
        return false;
    end_notes(order, len);
    return true;
}

bool order_note_made(Order *order, const DconfdbTime *made, size_t count, uint64_t *latest)
{
    size_t most, len = 0;
    if (!begin_notes(order, count, &most)
        || dconfdb_note_made(order->times, order->count, made, count, order->now, order->others, most, &len, latest) != DCONFDB_OK)
        return false;
    end_notes(order, len);
    return true;
}

/* ---- written anew */

/* Who is killed amid this, or can't write all of it, leaves the first moment of one writer, and the last of another; and before the first byte all of
 * the one before. So nothing is cut off but behind what is whole. */
static bool put_in_file(const Order *order, int lock, size_t len)
{
    int fault = 0;
    size_t at = 0;
    uint32_t is;
    do
        is = moved(len, &at, pwrite(lock, order->next + at, len - at, (off_t)at), &fault);
    while (is == DCONFDB_MOVES_ON);
    if (is != DCONFDB_MOVED_ALL)
        return false;
    return !dconfdb_is_cut(order->stood, len) || ftruncate(lock, (off_t)len) == 0; /* else its end isn't its last moment: nothing counts */
}

/* What is noted, in `next`: how many bytes, or 0 without memory. */
static size_t bytes_of_notes(Order *order, const char *name, const FileState *left, bool is_synced)
{
    size_t len = 0;
    do {
        if (!has_bytes_for(&order->next, &order->next_room, len))
            return 0;
        if (dconfdb_notes_written(order->times, order->count, order->moment, order->now, order->left.at, order->left.len, (const uint8_t *)name,
                                  strlen(name), left, is_synced, (uint8_t *)order->next, order->next_room, &len)
            != DCONFDB_OK)
            return 0;
    } while (len > order->next_room);
    return len;
}

bool order_write(Order *order, int lock, const char *name, const FileState *left, bool is_synced)
{
    size_t len = bytes_of_notes(order, name, left, is_synced);
    return len > 0 && put_in_file(order, lock, len);
}

void order_end(Order *order)
{
    forget_rooms(order);
    free(order->text);
    free(order->next);
    free(order->own);
    free(order->times);
    free(order->others);
}
