/* The system as the C of capi/ meets it: each call may be done, done in part, or fail by any errno; memory may be missing at any moment.
 * It is watched that descriptors, directories, mappings and the lock are used only while they are had, and are given back exactly once. */
#ifndef WORLD_H
#define WORLD_H

#include <stdbool.h>
#include <stddef.h>
#include <stdint.h>
#include <sys/types.h>

/* What must hold, whatever the system answers; and what is assumed of it: each use of GIVEN is a bound or a promise of the system. */
#define CHECK(is, what) __CPROVER_assert((is), what)
#define GIVEN(is) __CPROVER_assume(is)

/* This must fail, or what comes before it is never reached, and nothing that is checked there says anything. Each harness has one. */
#define REACHED(what) __CPROVER_assert(false, "reached: " what)

bool any_bool(void);
int any_int(void);
size_t any_size(void);
uint8_t any_byte(void);
uint32_t any_u32(void);
uint64_t any_u64(void);

/* 0, or any errno. */
int any_fault(void);

/* A text of so many bytes at most, with a zero byte behind; the room has one more. */
void any_text(char *room, size_t most);

enum { FIRST_FILE = 3, MOST_FILES = 24, MOST_ERRNO = 133 };

typedef enum {
    OPEN, OPENAT, CLOSE, READ, WRITE, PREAD, PWRITE, FSYNC, FSTAT, STAT, FSTATAT, LSEEK, MMAP, MUNMAP, RENAMEAT, RENAMEAT2, LINKAT, UNLINKAT, FCHMOD, FCHOWN,
    FCHOWNAT, MKDIRAT, READLINKAT, FTRUNCATE, FLOCK, UNFLOCK, KINDS
} Kind;

/* A call of a kind: what it was asked, and what it answered. */
typedef struct {
    int file, fault; /* 0: it was done */
    const char *name, *other;
    int flags;
    unsigned mode;
    size_t len;
    off_t at;      /* of pwrite(), and the first byte that it puts there */
    uint8_t byte;
    ssize_t count; /* of bytes; of an open the descriptor */
} Call;

extern Call last[KINDS];           /* of each kind the last one */
extern unsigned count_of[KINDS];   /* how many there were */
extern unsigned when_of[KINDS];    /* the number of the last one, from 1 */
extern unsigned calls;             /* how many of all kinds */

/* How often a call may still be interrupted, count short, or find what others did meanwhile: a name that is taken, or a lock. */
extern int interrupts_left, shorts_left, others_left;

/* Whether the last call of a kind was done. */
bool was_done(Kind kind);

/* A descriptor that the caller has open. */
int some_file(void);
bool is_open(int file);

/* No descriptor but these is open; -1 names none. */
bool only_open(int one, int other);
bool is_mapped(void);
bool is_flocked(int file); /* -1: nothing is */

/* ---- mutexes, by one thread; at_mutex is called before one is taken */

bool is_held(const void *mutex);
bool none_is_held(void);
extern void (*at_mutex)(const void *mutex);

/* Whether no cancellation acts on the thread. */
bool is_cancel_held(void);

/* Called at each call that is done or fails: what a harness asks of that moment. */
extern void (*at_call)(Kind kind);
#endif
