/* What the thread that writes does, and who writes in its place at the program's end. */
#ifndef WORKER_H
#define WORKER_H

#include "gsettings.h"

/* Until it is woken, a file changes, or so many milliseconds have passed (-1: however many). */
void await(DconfdbBackend *self, int wait);

/* Does what is due, as the proved call says. False: the program ends, and nothing waits, or can be written. */
bool takes_turn(DconfdbBackend *self);

#endif
