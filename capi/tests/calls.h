/* What calls.c and calls_stores.c have in common. */
#ifndef CALLS_H
#define CALLS_H

#include "try.h"

extern DconfdbError error;
extern char *home; /* the system's */

/* Whether the last fault is that one, and its text has both. */
bool is_fault(DconfdbErrorCode code, const char *what, const char *also);

/* The texts of a list are these, each with a zero byte and one more at the end. */
bool are(char *list, const size_t *size, const char *wanted, size_t wanted_size);
#define ARE(list, wanted) are(list, &size, wanted, sizeof wanted - 1)

bool changes(DconfdbStore *store, DconfdbEdit edit);

/* Whether a refresh says that others changed something. It is said once. */
bool is_renewed(DconfdbStore *store);

void makes_profile(const char *name, const char *text);

void tries_files(void);
void tries_other_stores(void);
void tries_odd_files(void);
void tries_moving(void);
void tries_named_profiles(void);
void tries_places(void);

#endif
