/* service/writes.c: a try of the thread that writes. */
#include "service_try.h"

/* narrows libdconfdb/dconfdb.h: char text[512]; => char text[8]; */

/* harness service_try: unwind 3, loops made_of.0:2 made_of.1:2 is_held.0:4 pthread_mutex_unlock.0:4 take.0:4 is_answered.0:4 all_are_answered_or_wait.0:4 change_free.0:4 tell_change.0:2 tell_change.1:4 tell_others.0:5, sliced, with glib.c */
int service_try(void)
{
    tries_once();
    CHECK(is_tried && !service.is_writing && service.answered == 0, "step: a turn that is had is used, and over");
    CHECK(is_gone[0] || service.again > 0, "answer: what isn't answered is tried again");
    if (is_gone[0] && is_gone[1] && is_written && asked == 2)
        REACHED("two are acknowledged");
    if (is_gone[0] && !is_written)
        REACHED("what can't be written is answered");
    if (!is_gone[0])
        REACHED("what can't be written yet waits");
    if (is_gone[0] && !is_gone[1])
        REACHED("another database's waits");
    return 0;
}
