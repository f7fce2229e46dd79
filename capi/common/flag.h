/* The flag of dconf's readers: each has the first byte of a file mapped, and opens the database again when that isn't 0. */
#ifndef FLAG_H
#define FLAG_H

#include <stdbool.h>
#include <stdint.h>

/* Sets it, after the database was replaced; NULL: there is none. A fault of it is none of the change. This is for who holds the lock of the
 * database's folder: what has the name in the end may be another file, which a reader has made since, and if two took the name away at once that one
 * would lose it without being set, and its reader would see no change any more. */
void flag_set(const char *path);

/* Carries out a task of dconfdb_flag_after, but for that of the lock, and gives whether it could be done; -1 is no file. */
bool flag_task(uint32_t task, const char *path, int *file);

void flag_close(int file);

#endif
