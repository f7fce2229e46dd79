/* What was just made becomes whose it is to be, and gets its bits, as the proved call has it. */
#ifndef HANDED_H
#define HANDED_H

#include "files.h"

#include <sys/stat.h>

/* Whose something is, and its bits. */
static inline DconfdbNewFile owner_of(const struct stat *found)
{
    return (DconfdbNewFile){found->st_uid, found->st_gid, found->st_mode & PERMISSION_BITS};
}

/* The bits with which it is made. */
mode_t handed_at_first(uint32_t what, const DconfdbMadeFile *made);

/* Hands over what is open. Of `made` is known for whom it is, and, of a folder, what was seen of it; or that isn't, by that errno. Gives 0, or errno. */
int handed_over(int file, uint32_t what, int fault, const DconfdbMadeFile *made);

#endif
