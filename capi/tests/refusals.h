/* What refusals.c and refusals_stores.c have in common. */
#ifndef REFUSALS_H
#define REFUSALS_H

#include "try.h"

extern DconfdbError error;

/* What is to be said: the code, the errno, which edit, database and line, and words of the text. */
typedef struct {
    DconfdbErrorCode code;
    int errnum;
    size_t edit, database, line;
    const char *name, *words;
} Fault;

bool is_said(Fault fault);

void begins(DconfdbStore *store);

bool nothing_changed(DconfdbStore *store);

/* So that each field that isn't written is seen. */
void forgets(void);

bool refuses_open(const char *folder, Fault fault);

bool refuses_files(const char *folder, Fault fault);

bool refuses_change(DconfdbStore *store, const DconfdbEdit *edits, size_t count, Fault fault);

void writes(const char *name, const char *bytes, size_t size);

void tries_busy(DconfdbStore *store);
void tries_profiles(void);
void tries_lists(DconfdbStore *store);
void tries_no_user(void);
void tries_replacing(DconfdbStore *store);
void tries_no_lock(DconfdbStore *store);
void tries_no_folder(void);

#endif
