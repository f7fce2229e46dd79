/* What explore.c and compared.c share. */
#ifndef EXPLORE_H
#define EXPLORE_H

#include "answers.h"

/* Says what is wrong with the machine, or the call, of that name, and ends. */
void fail(const char *name, const char *why);

/* Writes tables of calls that keep nothing. */
void print_answers(void);

/* Others, which keep nothing, or a few numbers, beside the functions of answers.h and given.h: each answers all that is tried in the
 * same way. */
void compare_answers(void);

#endif
