/* The proved machines, as the archive has them: by the tables of machines/tables.h. */
#ifndef MACHINES_H
#define MACHINES_H

#include "machines/answers.h"
#include "world.h"

/* What is beyond the bounds isn't looked at. A machine's memory is the number of its state. */
static inline uint16_t within(uint16_t state)
{
    GIVEN(state != BEYOND);
    return state;
}

/* Called at each step of a change, and at its answer. */
extern void (*at_step)(const DconfdbStep *step);
extern void (*at_answer)(uint32_t fault, size_t n);

/* The same of what waits, and of a wait (waits.c). */
extern void (*at_next)(const DconfdbNext *step);
extern void (*at_next_answer)(uint32_t answer, size_t at);

/* One of the numbers that the system may answer to a step with. */
size_t some_number(uint32_t kind);

#endif
