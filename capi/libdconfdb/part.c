/* A database's file, opened. What it means is decided by the proved calls. */
#define _DEFAULT_SOURCE
#define _POSIX_C_SOURCE 200809L
#define _FILE_OFFSET_BITS 64
#include "part.h"
#include "errors.h"
#include "texts.h"

#include <stdlib.h>
#include <string.h>

static void fault_free(Fault *fault)
{
    if (fault)
        free(fault->aside);
    free(fault);
}

void part_unref(Part *part)
{
    if (part && atomic_fetch_sub(&part->references, 1) == 1) {
        file_release(&part->bytes);
        fault_free(part->fault);
        free(part);
    }
}

/* A part without a file. The bytes are the part's, or are freed. */
Part *part_new(const char *name, FileState state, FileBytes bytes, DconfdbError *error)
{
    Part *part = malloc(sizeof *part + strlen(name) + 1);
    if (!part) {
        file_release(&bytes);
        refuse_memory(error);
        return NULL;
    }
    *part = (Part){.references = 1, .state = state, .bytes = bytes, .layer = DCONFDB_EMPTY_LAYER};
    strcpy(part->name, name);
    return part;
}

/* Nothing is wrong any longer. */
void part_forgive(Part *part)
{
    fault_free(part->fault);
    part->fault = NULL;
}

void part_was_set_aside(Part *part, char **name)
{
    if (!part->fault)
        return;
    if (!name) {
        part_forgive(part);
        return;
    }
    part->fault->aside = *name;
    *name = NULL;
}

/* Keeps a fault. */
bool part_blame(Part *part, const DconfdbError *fault, DconfdbError *error)
{
    part->fault = malloc(sizeof *part->fault);
    if (!part->fault)
        return refuse_memory(error);
    *part->fault = (Fault){*fault, {0, 0, DCONFDB_MENDED_WHOLE, false}, NULL};
    return true;
}

static const DconfdbLayer no_layer = DCONFDB_EMPTY_LAYER;

/* Reads what can be read of a file that is no sound database, instead of its bytes. Of none the layer is an empty one. */
static bool part_mend(Part *part, const DconfdbError *fault, DconfdbError *error)
{
    FileBytes mended;
    DconfdbUnsound broken = {0, 0, false};
    Saved saved;
    uint32_t telling = DCONFDB_TELLING_NOTHING;
    if (repair(&part->bytes, &mended, &saved) != DCONFDB_OK)
        return refuse_memory(error);
    file_release(&part->bytes);
    part->bytes = mended;
    uint32_t number = dconfdb_open(&no_layer, false, bytes_of(mended.at), mended.len, mended.at != NULL, false, &part->layer, &broken, &telling);
    if (telling != DCONFDB_TELLING_NOTHING)
        return refuse_call(error, number, part->name, nowhere);
    if (!saved.is_told)
        return true;
    if (!part_blame(part, fault, error))
        return false;
    part->fault->saved = saved;
    return true;
}

/* What is wrong with a file is its part's, with what can be read of it, or the caller's. The part is handed back, or given up. */
static Part *part_of_bad(Part *part, const Asked *asked, uint32_t number, const DconfdbUnsound *broken, uint32_t telling, DconfdbError *error)
{
    DconfdbError fault;
    bool is_kept = telling == DCONFDB_TELLING_KEPT;
    refuse_database(is_kept ? &fault : error, number, asked->name, broken, (Place){.database = asked->index});
    if (is_kept && part_mend(part, &fault, error))
        return part;
    part_unref(part);
    return NULL;
}

/* Opens what a file holds that is there instead of the old part's. The bytes are the part's, or are freed. */
Part *part_open(const Asked *asked, FileState state, FileBytes bytes, const Part *old, DconfdbError *error)
{
    DconfdbUnsound broken = {0, 0, false};
    uint32_t telling = DCONFDB_TELLING_NOTHING;
    Part *part = part_new(asked->name, state, bytes, error);
    if (!part)
        return NULL;
    uint32_t number = dconfdb_open(old ? &old->layer : &no_layer, old && old->bytes.is_mapped, bytes_of(bytes.at), bytes.len, state.is_there,
                                   asked->is_lenient, &part->layer, &broken, &telling);
    return telling == DCONFDB_TELLING_NOTHING ? part : part_of_bad(part, asked, number, &broken, telling, error);
}

bool part_has_bytes(const Part *part, const FileBytes *bytes)
{
    return part->bytes.len == bytes->len && (bytes->len == 0 || memcmp(part->bytes.at, bytes->at, bytes->len) == 0);
}

/* What is wrong with a file that has its name still. */
const DconfdbError *part_fault(const Part *part)
{
    return part->fault && !part->fault->aside ? &part->fault->error : NULL;
}

uint32_t part_errnum(const Part *part)
{
    const DconfdbError *fault = part_fault(part);
    return fault ? (uint32_t)fault->errnum : 0;
}
