/* The folder that `update` takes if none is named. */
#include "lint.h"

#include "place.h"

#include <stdio.h>

/* As `update` says it. */
static void say_unknown(const char *file, int fault)
{
    const DconfdbFaultMet met = {.of = DCONFDB_FAULT_OF_KIND, .number = (uint32_t)fault};
    DconfdbSentence sentence;
    dconfdb_sentence(&met, &sentence);
    switch (sentence.says) {
    case DCONFDB_SAYS_NO_KIND: fprintf(stderr, "error: %s:1: BadLine\n", file); break;
    default: fprintf(stderr, "error: Device %s\n", file); break;
    }
}

char *found_folder(void)
{
    DconfdbBytes folder = DCONFDB_NOTHING;
    const char *file;
    bool is_dconfs;
    int fault;
    if (!place_kind(&is_dconfs, &file, &fault)) {
        say_unknown(file, fault);
        return NULL;
    }
    dconfdb_machines_folder(is_dconfs, &folder);
    return g_strndup((const char *)folder.at, folder.len);
}
