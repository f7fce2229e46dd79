/* What lenient.c and lenient_places.c have in common. */
#ifndef LENIENT_H
#define LENIENT_H

#include "try.h"

extern DconfdbError error;
extern size_t tried;

enum { MOST = 65536 };

typedef struct {
    size_t len;
    char bytes[MOST];
} Bytes;

bool changes(DconfdbStore *store, DconfdbEdit edit);

void writes(const char *name, const void *bytes, size_t len);

void reads(const char *name, Bytes *bytes);

bool holds(const char *name, const void *wanted, size_t len);

DconfdbStore *opens(void);

/* Whether a database has a fault whose text has these words; no words: none. */
bool has_fault(DconfdbStore *store, size_t database, const char *words, const char *also);

/* Whether a string is seen; no string: nothing. */
bool sees(DconfdbStore *store, const char *path, const char *text);

bool locks(DconfdbStore *store, const char *path);

void tries_bad_sites(void);
void tries_profiles(void);
void tries_places(void);

#endif
