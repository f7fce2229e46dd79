/* Which faults of a store were said: each is said once as long as it is there, by a proved call. */
#ifndef WARNED_H
#define WARNED_H

#include "dconfdb.h"

/* What was said, and is there still; all bits 0 at first. One thread at a time has it. */
typedef struct {
    struct SaidFault *first;
} Warned;

/* Somebody who is told of a fault. */
typedef void Warns(void *it, const char *text);

/* After a look: `warns` is told of what is there now, of the store's files and of the look that failed by `error`, and was not before; and what
 * isn't there is forgotten. `store` is NULL if there is none, and so is `error`. `is_repeated`: a look that fails is made again of itself. What
 * no memory is left for is told at once, and again after the next look. */
void warned_renew(Warned *warned, const DconfdbStore *store, const DconfdbError *error, bool is_repeated, Warns *warns, void *it);

/* The same after a write, which may have read the files, and made one: a look that failed by then isn't over. */
void warned_renew_files(Warned *warned, const DconfdbStore *store, Warns *warns, void *it);

void warned_end(Warned *warned);

#endif
