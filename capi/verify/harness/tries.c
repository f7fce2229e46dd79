/* common/tries.c: what others may keep from being done is tried as the proved steps of a wait have it, at any times that pass. A wait is of 0 or 2
 * milliseconds, or has no end; its first eight steps are gone through. */
#include "common/tries.c"
#include "machines.h"
#include "world.h"

#include <errno.h>

enum { MOST_STEPS = 8 };

static int asked_for;
static int try_fault;
static uint32_t try_call;
static DconfdbNext step;
static bool is_amid, has_begun;
static unsigned tried, steps_done;

static uint32_t a_try(void *it, int *fault)
{
    CHECK(it == &asked_for && (!has_begun || (is_amid && step.kind == DCONFDB_WAIT_TRY)), "step: it is tried first, and where that is the step");
    tried++;
    try_call = any_u32();
    GIVEN(try_call <= DCONFDB_TRIED_LOCK_FILE);
    *fault = try_fault = any_fault();
    return try_call;
}

static void begins(const DconfdbNext *next)
{
    CHECK(!is_amid, "order: each step is answered before the next one");
    step = *next;
    is_amid = next->kind < DCONFDB_WAIT_HAD;
    tried = has_begun ? 0 : tried; /* the first try is that of the first step */
    has_begun = true;
    GIVEN(++steps_done <= MOST_STEPS);
}

static void ends(uint32_t call, size_t fault)
{
    CHECK(is_amid && tried == (step.kind == DCONFDB_WAIT_TRY), "step: a try is one try, and a pause is none");
    CHECK(step.kind != DCONFDB_WAIT_TRY || (call == try_call && fault == (size_t)try_fault), "answer: what became of the try");
    is_amid = false;
}

/* harness try_for: unwind 10, with waits.c */
int try_for_(void)
{
    uint32_t milliseconds = any_u32(), what = any_bool() ? DCONFDB_WAIT_FOR_LOCK : DCONFDB_WAIT_WITHOUT_END;
    at_next = begins;
    at_next_answer = ends;
    steps_done = 0;
    bool is_others = false;
    int fault = try_for(what, milliseconds, a_try, &asked_for, &is_others);
    CHECK(!is_amid && step.kind >= DCONFDB_WAIT_HAD, "step: it goes on to the end");
    CHECK(fault != 0 || (step.kind == DCONFDB_WAIT_HAD && try_fault == 0 && try_call != DCONFDB_TRIED_NAME), "answer: had is what a try got");
    CHECK(step.kind != DCONFDB_WAIT_BUSY || (fault == EWOULDBLOCK) == (try_call != DCONFDB_TRIED_LOCK_FILE), "answer: busy, or what has a lease");
    CHECK(step.kind != DCONFDB_WAIT_BUSY || what == DCONFDB_WAIT_FOR_LOCK, "answer: busy is a wait that had an end");
    CHECK(is_others == (step.kind == DCONFDB_WAIT_BUSY), "answer: others have it where the step says so");
    CHECK(step.kind != DCONFDB_WAIT_STOPPED || fault == try_fault, "answer: the fault of the try");
    if (step.kind == DCONFDB_WAIT_STOPPED)
        REACHED("a try fails");
    if (step.kind == DCONFDB_WAIT_BUSY)
        REACHED("others have it all the time");
    return 0;
}
