/* The steps of a change of a file NAME: each that the proved machine says is carried out by one function, until it says how that ended. */
#ifndef STEPS_H
#define STEPS_H

#include "dconfdb_calls.h"
#include "order.h"
#include "part.h"
#include "replacing.h"

/* A change, while it is made. */
typedef struct {
    DconfdbTurn turn;
    DconfdbStep step;      /* what is to be done, and then how it ended */
    size_t answer;         /* the number that the step asks for */
    Part *old, *new;       /* what NAME is, once it is read; what it is to be, once that is made */
    Order *order;          /* what others have set, once NAME is read */
    DconfdbError *error;   /* of what is told when it is met */
    const char *flag;      /* of dconf's readers of it; NULL: there are none */
    struct Edited *edited; /* of the three that are no calls of the system */
    Replacing replacing;
} Changing;

/* What these answer beside 0 and an errno: the machine's own numbers. */
enum { IS_NOTHING = -1, IS_TOLD = -2 };
_Static_assert((uint32_t)IS_NOTHING == DCONFDB_TURN_NOTHING && (uint32_t)IS_TOLD == DCONFDB_TURN_TOLD, "the numbers of a fault");

/* What NAME is, what it is to be, and what others are to know of it: by who knows the store (changing.c). */
int changing_read(Changing *it);
int changing_make(Changing *it);
int changing_note(Changing *it);

/* Goes on until the machine is done. */
void changing_run(Changing *it);

#endif
