/* What an errno is to who reads a file, or changes one, as the proved calls say. */
#ifndef FAULTS_H
#define FAULTS_H

#include "dconfdb.h"
#include "dconfdb_calls.h"

/* What is wrong with the file: its kind, size, name or permissions, or its place on the disk. Whatever else is answered may be the
 * process's, the disk's or a server's fault, and then a sound file must not be replaced. */
static inline bool is_files_own(int fault)
{
    DconfdbRenamed none;
    return dconfdb_fault_answer(DCONFDB_CALL_OPEN, (uint32_t)fault, &none) == DCONFDB_ANSWER_OWN;
}

/* What a change that failed by this fault is answered to, as dconfdb_queue_answered has it: only what is refused doesn't wait. */
static inline uint32_t answer_of_fault(const DconfdbError *fault)
{
    return dconfdb_verdict((uint32_t)fault->code, (uint32_t)fault->errnum);
}

/* Whether it is mostly so for a moment: that all files of the process are in use, say, or what a server answers once. */
static inline bool is_momentary(const DconfdbError *fault)
{
    return answer_of_fault(fault) == DCONFDB_QUEUE_SOON;
}

#endif
