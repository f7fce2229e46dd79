/* Folders, opened and made. Each function returns 0, or the errno of what failed. */
#ifndef FOLDERS_H
#define FOLDERS_H

/* Opens a folder. EACCES: this is root, and on the way is a link that another could have put there. */
int folder_open(const char *folder, int *opened);

/* Makes a folder and its parents, of an absolute path. It is not an error if it exists. What root makes in another's folder is that
 * one's. */
int folder_make(const char *folder);

/* Brings the name of an open folder to the disk, by the folder above it, as far as this program may. */
int folder_sync_name(int folder);

#endif
