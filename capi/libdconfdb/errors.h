/* How an error is filled in. Each call that refuses returns false, and takes NULL for an error that nobody wants. */
#ifndef ERRORS_H
#define ERRORS_H

#include "dconfdb.h"
#include "dconfdb_calls.h"

/* The edit, the database or the line that is at fault. */
typedef struct {
    size_t edit, database, line;
} Place;

static const Place nowhere = {0, 0, 0};

bool refuse_memory(DconfdbError *error);

/* What a call of files.h answered. */
bool refuse_file(DconfdbError *error, int fault, const char *name, Place place);

/* What is told of a fault by its sentence, which says one of these names, DCONFDB_NAMES_IT to _EDIT. True: there is none. */
bool tell_met(DconfdbError *error, const DconfdbFaultMet *met, const char *const names[], Place place);

/* What is told of a change that ended so, by its first fault. True: it is made. After its file was replaced, or may be, the code is never one
 * of those that leave the old file. `user_file` may be NULL. */
bool tell_ending(DconfdbError *error, const DconfdbEnding *ending, int fault, const char *user_file, const char *folder);

/* Why a text is no value, by dconfdb_parse_value, and where, if that is in one place. */
bool refuse_text(DconfdbError *error, uint32_t number, size_t start, size_t end);

/* What a proved call answered of a file, a line of it, or a key. */
bool refuse_call(DconfdbError *error, uint32_t number, const char *name, Place place);
bool refuse_database(DconfdbError *error, uint32_t number, const char *name, const DconfdbUnsound *broken, Place place);

/* Copies an error that is kept to one of a caller's. */
void hand_out(const DconfdbError *from, DconfdbError *to);

#endif
