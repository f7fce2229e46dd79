/* A change of the user's file, while it is this program's turn: each step that the proved calls say, until they say how it ended. */
#ifndef CHANGING_H
#define CHANGING_H

#include "overtaken.h"

bool change_in_turn(DconfdbStore *store, const FolderLock *lock, Asking *asking, DconfdbError *error);

/* Where no file is to be made: whether one could be. Else why not is told, and which edit is at fault. `refreshing` is held. */
bool change_is_well(DconfdbStore *store, Asking *asking, DconfdbError *error);

#endif
