/* What the module for GSettings has for libdconf.so.1 in the same program. Each watches the files by itself. So before
 * libdconf tells of a change, the module looks at them: else who is told, and reads by GSettings, may read an older
 * value. GIO loads the module so that nothing sees its symbols; this is data of its type. */
#ifndef CATCH_UP_H
#define CATCH_UP_H

#define CATCH_UP_TYPE "DconfdbBackend"
#define CATCH_UP_DATA "dconfdb-catch-up"

typedef struct {
    void (*all)(void); /* from any thread; it waits for no write, and sends no signal */
} CatchUp;

#endif
