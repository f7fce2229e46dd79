/* service/writes.c: a try of the thread that writes, while the main thread ends the service, at any moment in which the changes' mutex is free. */
#include "service_try.h"

/* narrows libdconfdb/dconfdb.h: char text[512]; => char text[8]; */

static void main_ends(const void *mutex)
{
    static bool is_amid;
    if (is_amid || mutex != &service.lock || service.ends || !any_bool())
        return;
    is_amid = true;
    bool is = ends();
    CHECK(!is, "answer: a thread that may be amid a try is left");
    is_amid = false;
}

/* harness service_try_beside: unwind 3, loops made_of.0:2 made_of.1:2 is_held.0:4 pthread_mutex_unlock.0:4 take.0:4 is_answered.0:4 all_are_answered_or_wait.0:4 change_free.0:4 tell_change.0:2 tell_change.1:4 tell_others.0:5, sliced, with glib.c */
int service_try_beside(void)
{
    at_mutex = main_ends;
    tries_once();
    if (service.ends && is_gone[0] && is_tried)
        REACHED("the end comes amid a try");
    if (service.ends && !is_tried)
        REACHED("the end comes before it");
    if (service.ends && is_tried && !is_gone[0])
        REACHED("the end comes after it");
    return 0;
}
