/* What `dconfdb watch` prints of a key. */
#ifndef PRINTED_H
#define PRINTED_H

#include "dconfdb.h"

#include <stdbool.h>

/* Its path, and the text of its value, or why there is none. False: no memory is left. */
bool put_key(const DconfdbSnapshot *now, const char *path);

#endif
