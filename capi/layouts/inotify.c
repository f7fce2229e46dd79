/* The system's numbers, which the proved calls have in definitions of their own, are the compiler's. */
#define _DEFAULT_SOURCE
#include "layouts.h"

#include <errno.h>
#include <sys/inotify.h>
#include <sys/stat.h>

void dconfdb_watched_name(bool minds, const uint8_t *folder, size_t folder_len, const uint8_t *name, size_t name_len, bool is_last, bool is_unseen,
                          uint32_t mode, uint64_t links, uint64_t followed, bool is_profile, void *watched);
uint32_t dconfdb_asked_anew(uint32_t watch, uint32_t mask, bool of_file, bool has_name, bool is_same, bool is_unseen, uint32_t mode, uint64_t links);
bool dconfdb_is_file_missed(uint32_t fault);
uint32_t dconfdb_heard(uint32_t before, uint32_t watch, uint32_t comes, uint32_t mask, bool of_file, bool has_name, bool is_same, uint32_t fault,
                       bool is_unseen, uint32_t mode, uint64_t links);

enum { OF_FILE = 0, OF_FOLDER = 1, NOTHING = 2, ITSELF = 1, PASSAGE = 2, OWN = 3, AWAITED = 4 };

/* What is watched of a name at which that stands, and asked for, of the folder and of what stands there. */
static bool is_watched_so(uint32_t mode, uint64_t links, bool is_last, uint32_t watch, uint32_t asked, uint32_t of_file)
{
    _Alignas(16) uint32_t name[WATCHED_NAME / NUMBER];
    dconfdb_watched_name(true, (const uint8_t *)"/a", 2, (const uint8_t *)"b", 1, is_last, false, mode, links, 0, false, name);
    return name[0] == watch && name[1] == asked && name[2] == of_file;
}

static void tries_names(void)
{
    const uint32_t names = IN_CREATE | IN_MOVED_FROM | IN_MOVED_TO | IN_DELETE;
    const uint32_t files = IN_ATTRIB | IN_MOVED_FROM | IN_MOVED_TO | IN_DELETE, awaited = files | IN_CREATE | IN_CLOSE_WRITE;
    is_so(is_watched_so(S_IFDIR | 0755, 2, false, ITSELF, IN_MOVE_SELF | IN_DELETE_SELF, 0), "what inotify is asked for of a folder");
    is_so(is_watched_so(S_IFLNK | 0777, 1, false, PASSAGE, names, 0), "what inotify is asked for of a name");
    is_so(is_watched_so(0, 0, false, PASSAGE, names, 0), "what inotify is asked for of a name");
    is_so(is_watched_so(S_IFREG | 0644, 1, true, OWN, files, IN_CLOSE_WRITE), "what inotify is asked for of a file");
    is_so(is_watched_so(S_IFREG | 0644, 2, true, OWN, files, IN_CLOSE_WRITE), "what inotify is asked for of a file of two names");
    is_so(is_watched_so(S_IFDIR | 0755, 2, true, OWN, files, 0), "what inotify is asked for of a folder that has a file's name");
    is_so(is_watched_so(S_IFLNK | 0777, 1, true, AWAITED, awaited, 0), "what inotify is asked for of a link");
    is_so(is_watched_so(0, 0, true, AWAITED, awaited, 0), "what inotify is asked for where nothing is");
}

/* What is heard at a name, at which a file or a link stands by then, and of its folder. */
static bool is_heard(uint32_t watch, uint32_t mask, uint32_t of_file, uint32_t of_link, uint32_t of_folder)
{
    return dconfdb_heard(NOTHING, watch, OF_FILE, mask, false, true, true, 0, false, S_IFREG, 1) == of_file
        && dconfdb_heard(NOTHING, watch, OF_FILE, mask, false, true, true, 0, false, S_IFLNK, 1) == of_link
        && dconfdb_heard(NOTHING, watch, OF_FILE, mask, false, false, false, 0, false, 0, 0) == of_folder;
}

/* What is heard of a file's own watch. */
static uint32_t heard_itself(uint32_t watch, uint32_t mask)
{
    return dconfdb_heard(NOTHING, watch, OF_FILE, mask, true, false, false, 0, false, 0, 0);
}

/* What is asked for of the file that has the name after that. */
static uint32_t asked_of(uint32_t watch, uint32_t mask, uint32_t mode)
{
    return dconfdb_asked_anew(watch, mask, false, true, true, false, mode, 1);
}

static void tries_files(void)
{
    is_so(heard_itself(OWN, IN_CLOSE_WRITE) == OF_FILE && heard_itself(OWN, IN_IGNORED) == NOTHING && heard_itself(AWAITED, IN_CLOSE_WRITE) == NOTHING,
          "IN_CLOSE_WRITE");
    is_so(asked_of(OWN, IN_MOVED_TO, S_IFREG) == IN_CLOSE_WRITE && asked_of(OWN, IN_ATTRIB, S_IFREG) == IN_CLOSE_WRITE, "IN_MOVED_TO");
    is_so(asked_of(OWN, IN_DELETE, S_IFREG) == 0 && asked_of(OWN, IN_MOVED_TO, S_IFDIR) == 0 && asked_of(AWAITED, IN_MOVED_TO, S_IFREG) == 0, "IN_MOVED_TO");
    is_so(!dconfdb_is_file_missed(0) && !dconfdb_is_file_missed(ENOENT) && !dconfdb_is_file_missed(EACCES), "ENOENT");
    is_so(dconfdb_is_file_missed(ENOSPC) && dconfdb_is_file_missed(ENOMEM) && dconfdb_is_file_missed(ENOTDIR), "ENOSPC");
    is_so(dconfdb_heard(NOTHING, OWN, OF_FILE, IN_MOVED_TO, false, true, true, ENOSPC, false, S_IFREG, 1) == OF_FOLDER, "ENOSPC");
    is_so(dconfdb_heard(NOTHING, OWN, OF_FILE, IN_MOVED_TO, false, true, true, EACCES, false, S_IFREG, 1) == OF_FILE, "EACCES");
}

static void tries_events(void)
{
    is_so(is_heard(AWAITED, IN_CREATE, NOTHING, OF_FOLDER, NOTHING), "IN_CREATE");
    is_so(is_heard(OWN, IN_CREATE, NOTHING, NOTHING, NOTHING), "IN_CREATE");
    is_so(is_heard(OWN, IN_MOVED_TO, OF_FILE, OF_FOLDER, NOTHING), "IN_MOVED_TO");
    is_so(is_heard(OWN, IN_MOVED_FROM, OF_FOLDER, OF_FOLDER, NOTHING), "IN_MOVED_FROM");
    is_so(is_heard(OWN, IN_DELETE, OF_FOLDER, OF_FOLDER, NOTHING), "IN_DELETE");
    is_so(is_heard(OWN, IN_CLOSE_WRITE, NOTHING, NOTHING, NOTHING), "IN_CLOSE_WRITE");
    is_so(is_heard(AWAITED, IN_CLOSE_WRITE, OF_FILE, OF_FILE, NOTHING), "IN_CLOSE_WRITE");
    is_so(is_heard(OWN, IN_ATTRIB, OF_FILE, OF_FILE, OF_FOLDER), "IN_ATTRIB");
    is_so(is_heard(ITSELF, IN_MOVE_SELF, NOTHING, NOTHING, OF_FOLDER), "IN_MOVE_SELF");
    is_so(is_heard(ITSELF, IN_DELETE_SELF, NOTHING, NOTHING, OF_FOLDER), "IN_DELETE_SELF");
    is_so(is_heard(PASSAGE, IN_UNMOUNT, OF_FOLDER, OF_FOLDER, OF_FOLDER), "IN_UNMOUNT");
    is_so(is_heard(PASSAGE, IN_Q_OVERFLOW, OF_FOLDER, OF_FOLDER, OF_FOLDER), "IN_Q_OVERFLOW");
    is_so(is_heard(OWN, IN_MODIFY | IN_OPEN | IN_ACCESS | IN_CLOSE_NOWRITE | IN_IGNORED, NOTHING, NOTHING, NOTHING), "IN_MODIFY");
}

/* What stands at a name by each kind: only of a file that has no other name it is awaited that it is written. */
static void tries_kinds(void)
{
    static const uint32_t others[] = {S_IFDIR, S_IFIFO, S_IFSOCK, S_IFCHR, S_IFBLK};
    is_so(dconfdb_heard(NOTHING, AWAITED, OF_FILE, IN_CREATE, false, true, true, 0, false, S_IFREG | 0644, 2) == OF_FILE, "S_IFREG");
    for (size_t i = 0; i < sizeof others / sizeof *others; i++)
        is_so(dconfdb_heard(NOTHING, AWAITED, OF_FILE, IN_CREATE, false, true, true, 0, false, others[i] | 0755, 1) == OF_FILE, "S_IFMT");
}

void tries_inotify(void)
{
    tries_names();
    tries_events();
    tries_files();
    tries_kinds();
}
