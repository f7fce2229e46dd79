/* A database's file at one moment, opened: what was read of it, and what was wrong with it. */
#ifndef PART_H
#define PART_H

#include "dconfdb.h"
#include "dconfdb_calls.h"
#include "files.h"
#include "repair.h"

#include <stdatomic.h>
#include <stdbool.h>

/* What was wrong with a file, and what is read of it. */
typedef struct {
    DconfdbError error;
    Saved saved;
    char *aside; /* where it is now that a new one has its name; NULL: it has it */
} Fault;

/* A database's file at one moment. Snapshots share those that did not change. */
typedef struct {
    atomic_size_t references;
    FileState state;
    _Atomic uint64_t opened; /* when it was last read so, by file_clock(); 0: it never was, since it was written here */
    FileBytes bytes;
    DconfdbLayer layer;
    Fault *fault;    /* NULL: there is none */
    bool is_settled; /* this store knows that it is on the disk; under its `refreshing` */
    bool is_known;   /* the proved call has said that a file of the same state is kept; under the same */
    char name[];
} Part;

/* A database that is looked at. */
typedef struct {
    const char *name;
    size_t index;
    uint32_t size; /* DCONFDB_SIZE_DATABASE, or _USERS */
    bool is_lenient;
    int turn; /* in a turn the folder in which it is read, which may be moved meanwhile; else NO_FOLDER */
} Asked;

/* A part without a file. The bytes are the part's, or are freed. NULL: no memory is left. */
Part *part_new(const char *name, FileState state, FileBytes bytes, DconfdbError *error);

/* Opens what a file holds that is there instead of the old part's (NULL: there is none). The bytes are the part's, or are freed. */
Part *part_open(const Asked *asked, FileState state, FileBytes bytes, const Part *old, DconfdbError *error);

void part_unref(Part *part);

static inline Part *part_ref(Part *part)
{
    atomic_fetch_add(&part->references, 1);
    return part;
}

/* Keeps a fault; or nothing is wrong any longer. */
bool part_blame(Part *part, const DconfdbError *fault, DconfdbError *error);
void part_forgive(Part *part);

/* What is wrong with a file has that name now, which is the part's from then on; NULL: it is gone. */
void part_was_set_aside(Part *part, char **name);

bool part_has_bytes(const Part *part, const FileBytes *bytes);

/* What is wrong with a file that has its name still; NULL: nothing is. */
const DconfdbError *part_fault(const Part *part);

/* The errno by which it can't be read, or 0. */
uint32_t part_errnum(const Part *part);

/* What is known of the part's file; of what was read now nothing. */
static inline DconfdbPartSeen part_seen(const Part *part)
{
    const DconfdbError *fault = part_fault(part);
    return (DconfdbPartSeen){.opened = atomic_load_explicit(&part->opened, memory_order_relaxed),
                             .code = fault ? (uint32_t)fault->code : 0,
                             .errnum = fault ? (uint32_t)fault->errnum : 0,
                             .is_held = part->bytes.is_mapped};
}

/* What the file of that state is, that can't be looked at by that fault, or 0. */
static inline uint32_t part_beside(const Part *part, uint32_t purpose, const FileState *state, int fault)
{
    DconfdbPartSeen seen = part_seen(part);
    seen.fault = (uint32_t)fault;
    return dconfdb_beside(purpose, &part->state, state, &seen);
}

/* Whether a file is the part's. */
static inline uint32_t part_sameness(const Part *part, const FileState *state)
{
    return dconfdb_same_file(&part->state, state, atomic_load_explicit(&part->opened, memory_order_relaxed), part->bytes.is_mapped);
}

/* What was read is what the part is of. */
static inline void part_was_read(Part *part, uint64_t opened)
{
    part->is_known = false;
    atomic_store_explicit(&part->opened, opened, memory_order_relaxed);
}

#endif
