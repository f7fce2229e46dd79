/* The layer that the first call is handed, which writes one: it has to be laid out before anything is found. Where it isn't as the calls have
 * it, nothing of what they write is. */
#include "layouts.h"

#include "dconfdb_calls.h"

const void *empty_layer(void)
{
    static const DconfdbLayer empty = DCONFDB_EMPTY_LAYER;
    return &empty;
}
