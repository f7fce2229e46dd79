/* What was just made becomes whose it is to be: a lock, a file in another's place, a folder. */
#define _GNU_SOURCE
#define _FILE_OFFSET_BITS 64
#include "handed.h"

#include <errno.h>
#include <fcntl.h>
#include <unistd.h>

/* What isn't named stays. */
static const uid_t same_user = (uid_t)-1;
static const gid_t same_group = (gid_t)-1;

mode_t handed_at_first(uint32_t what, const DconfdbMadeFile *made)
{
    uint32_t bits = 0;
    dconfdb_handing_after(what, DCONFDB_HANDING_BEGINS, 0, made, &bits);
    return (mode_t)bits;
}

/* A folder was opened to be gone through alone. */
static int give(int file, uint32_t what, uid_t user, gid_t group)
{
    int is = what == DCONFDB_MADE_FOLDER ? fchownat(file, "", user, group, AT_EMPTY_PATH) : fchown(file, user, group);
    return is != 0 ? errno : 0;
}

int handed_over(int file, uint32_t what, int fault, const DconfdbMadeFile *made)
{
    struct stat found;
    DconfdbMadeFile it = *made;
    uint32_t number = 0, done = DCONFDB_HANDING_MAKE;
    if (fault == 0 && fstat(file, &found) != 0)
        fault = errno;
    if (fault == 0)
        it.made = owner_of(&found);
    it.is_root = geteuid() == 0;
    for (;;) {
        done = dconfdb_handing_after(what, done, (uint32_t)fault, &it, &number);
        switch (done) {
        case DCONFDB_HANDING_USER:
            fault = give(file, what, it.wanted.user, same_group);
            break;
        case DCONFDB_HANDING_GROUP:
            fault = give(file, what, same_user, it.wanted.group);
            break;
        case DCONFDB_HANDING_BOTH:
            fault = give(file, what, it.wanted.user, it.wanted.group);
            break;
        case DCONFDB_HANDING_BITS:
            fault = fchmod(file, (mode_t)number) != 0 ? errno : 0;
            break;
        default:
            return (int)number;
        }
    }
}
