/* What whoever looks at a store again and again compares. */
#include "looked.h"
#include "store.h"

#include <string.h>

bool have_same_files(const DconfdbStore *one, const DconfdbStore *other)
{
    bool have = one->count == other->count;
    for (size_t i = 0; have && i < one->count; i++)
        have = strcmp(one->files[i], other->files[i]) == 0;
    return have;
}

DconfdbFileTime folder_written(const char *folder)
{
    FileState state = {.is_there = false};
    if (folder)
        file_look(folder, &state);
    return state.written;
}
