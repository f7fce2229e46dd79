/* A look at the files, and what becomes of it; `turn` is held. */
#ifndef LOOKS_H
#define LOOKS_H

#include "gsettings.h"

/* One that says nothing yet: of its text the first byte alone is cleared. */
void begin_error(DconfdbError *error);

void warn_of(Notice *notice, const char *text);

/* What is to be warned of: each fault once, as long as it is there. `error` is that of a look that failed, or
 * NULL. */
void warn_once(DconfdbBackend *self, Notice *notice, const DconfdbError *error);

/* The same after a write, which may have read the files, and made one: what was said of a look is said still. */
void warn_of_files(DconfdbBackend *self, Notice *notice);

/* Hands the newest snapshot to who reads, together with what no longer waits: `lock` is held, or taken. */
void hand_newest(DconfdbBackend *self, Notice *notice);
void renew(DconfdbBackend *self, Notice *notice);

/* Whether the newest snapshot is handed out already. */
bool is_shown(const DconfdbBackend *self);

/* Opens the store, or looks at its files. False: they can't be read now. */
bool look(DconfdbBackend *self, Notice *notice);

#endif
