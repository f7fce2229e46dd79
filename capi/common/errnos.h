/* The proved calls know an errno by its number (crates/dconf_verdicts/specs/Errnos.antt), and what a file is by its mode: those of Linux on most
 * architectures. Where others are the system's, nothing is built. */
#ifndef ERRNOS_H
#define ERRNOS_H

#include <errno.h>
#include <sys/stat.h>

_Static_assert(EPERM == 1 && ENOENT == 2 && EINTR == 4 && EIO == 5 && ENXIO == 6 && EAGAIN == 11 && EWOULDBLOCK == 11 && ENOMEM == 12
                   && EACCES == 13 && EBUSY == 16 && EEXIST == 17 && ENODEV == 19 && ENOTDIR == 20 && EISDIR == 21 && EINVAL == 22
                   && ENFILE == 23 && EMFILE == 24 && EFBIG == 27 && ENOSPC == 28 && EROFS == 30 && EMLINK == 31,
               "the numbers of errno-base.h");
_Static_assert(ENAMETOOLONG == 36 && ENOLCK == 37 && ENOSYS == 38 && ENOTEMPTY == 39 && ELOOP == 40 && EBADMSG == 74 && EOVERFLOW == 75
                   && EOPNOTSUPP == 95 && ESTALE == 116 && EUCLEAN == 117 && EDQUOT == 122,
               "the numbers of errno.h");
_Static_assert(S_IFMT == 0170000 && S_IFREG == 0100000 && S_IFDIR == 0040000 && S_IWGRP == 020 && S_IWOTH == 02, "the numbers of a mode");

#endif
