/* What `dconfdb watch` prints of a key: the proved text of its value. */
#include "printed.h"

#include <stdio.h>
#include <stdlib.h>

/* The text of a value, or why there is none. False: no memory. */
static bool put_value(const char *path, const DconfdbValue *value)
{
    DconfdbError error = DCONFDB_ERROR_INIT;
    char *text = dconfdb_value_print(value, &error);
    switch (error.code) {
    case DCONFDB_ERROR_NONE: printf("%s\n  %s\n", path, text); break;
    case DCONFDB_ERROR_MEMORY: break;
    case DCONFDB_ERROR_DOUBLE_TEXT: printf("%s\n  double\n", path); break;
    default: printf("%s\n  too deep\n", path); break;
    }
    free(text);
    return error.code != DCONFDB_ERROR_MEMORY;
}

bool put_key(const DconfdbSnapshot *now, const char *path)
{
    DconfdbValue value;
    if (dconfdb_snapshot_read(now, path, &value))
        return put_value(path, &value);
    printf("%s\n  unset\n", path);
    return true;
}
