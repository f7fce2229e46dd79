/* Who set what last, so that a set which waited never overwrites a newer one: who takes a turn reads here what was set
 * meanwhile, and notes what it sets. It stands in the lock's own file, and is of use only as long as sets wait: it is
 * written in place, and not brought to the disk. What isn't whole counts for nothing, as does a time of the future.
 *
 * The lock is the folder's, and may have several databases: what is noted is `/NAME` and the path, of the file NAME.
 *
 * Who changes the file without a note, as the program does, leaves it as a file that nobody noted: then what differs in
 * it counts as set when it was written. */
#ifndef ORDER_H
#define ORDER_H

#include "dconfdb_calls.h"
#include "files.h"

/* All bits 0 at first. What it holds is of one turn, and its memory stays for the next. */
typedef struct {
    uint64_t now, moment;        /* the same, as a time and by order_clock() */
    DconfdbTime *times, *others; /* what is noted; room for as many */
    size_t count, most;
    DconfdbBytes left;           /* files that were left, as the proved calls write them */
    char *text, *next, *own;      /* the bytes of the lock's file, which lend paths; room for those that it gets; the turn's own paths */
    size_t size, room, next_room; /* how many are taken, of how many there may be */
    size_t own_len, own_room;
    size_t stood;            /* how many there are, or SIZE_MAX */
    struct OrderRoom *rooms; /* where the turn's own paths had no room */
} Order;

/* The moment of a set: nanoseconds of a clock that nobody puts forward or back, and that goes on while the machine sleeps. */
uint64_t order_clock(void);

/* Reads what is noted in the file of a lock that is held. False: no memory is left. */
bool order_read(Order *order, int lock);

/* A moment of order_clock() as a time that programs note, by the clock as it is set now; `noted` is what the program noted last. */
uint64_t order_time(const Order *order, uint64_t moment, uint64_t noted);

/* So many bytes until the order is read again; or NULL. */
char *order_room(Order *order, size_t size);

/* What is noted of a path of a file, put where `at` points, which goes on behind it: so many bytes. */
DconfdbBytes order_path(char **at, const char *name, const DconfdbBytes *path);
size_t order_path_size(const char *name, size_t len);

/* Whether who left the file of that name so noted what it changed. */
bool order_has_left(const Order *order, const char *name, const FileState *file);

/* Whether who left it so noted, too, that it is on the disk. */
bool order_is_synced(const Order *order, const char *name, const FileState *file);

/* Notes what was seen, and what was made, and when the latest of that was: as long as the order is used the paths stay. False: no memory is left. */
bool order_note_seen(Order *order, const DconfdbSeen *seen, size_t count);
bool order_note_made(Order *order, const DconfdbTime *made, size_t count, uint64_t *latest);

/* Writes it, with the file of that name as it is left now, and whether it is on the disk. False: it failed, and nothing is noted. */
bool order_write(Order *order, int lock, const char *name, const FileState *left, bool is_synced);

void order_end(Order *order);

#endif
