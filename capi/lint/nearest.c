/* Names that are alike: by the proved call, which compares two, and says where is looked next. */
#include "lint.h"

#include <string.h>

static uint64_t used; /* of all that the run compares */

static bool asks(DconfdbNearing *nearing, bool is_end, const char *name, const char *other)
{
    uint32_t is = dconfdb_is_nearer(nearing, is_end, (const uint8_t *)name, strlen(name), (const uint8_t *)other, strlen(other));
    if (is == DCONFDB_NEARING_MEMORY)
        g_error("no memory is left");
    used = nearing->used;
    return is == DCONFDB_NEARING_YES;
}

DconfdbNearing nearest_begin(bool is_directory)
{
    return (DconfdbNearing){.used = used, .is_directory = is_directory};
}

bool nearest_goes_on(DconfdbNearing *nearing)
{
    return asks(nearing, true, "", "");
}

const char *nearest(DconfdbNearing *nearing, const GPtrArray *names, const char *name)
{
    const char *found = NULL;
    for (guint i = 0; names && i < names->len; i++)
        if (asks(nearing, false, name, g_ptr_array_index(names, i)))
            found = g_ptr_array_index(names, i);
    return found;
}
