/* The end of the service: who waits is answered, and the thread that writes is waited for, if it has nothing to do any more. */
#include "service.h"

/* Moves what is answered at the end. `lock` is held. */
static void move_late(GQueue *from, bool is_amid, GQueue *to)
{
    const DconfdbServed known = {.ends = true, .is_amid = is_amid};
    if (dconfdb_served_after(DCONFDB_SERVED_ENDING, &known) != DCONFDB_SERVED_GOES_ON)
        move_all(from, to);
}

/* Takes what the thread isn't amid, which it doesn't write from then on. Gives what is known of the changes that weren't settled. */
static DconfdbServed take_late(Service *service, GQueue *late)
{
    g_mutex_lock(&service->lock);
    service->ends = true;
    const DconfdbServed known = {.waiting = service->added - service->settled, .answered = service->answered};
    move_late(&service->taken, service->is_writing, late);
    move_late(&service->waiting, false, late);
    g_cond_broadcast(&service->comes);
    g_mutex_unlock(&service->lock);
    return known;
}

/* What waits stays in memory, since the thread may be reading it. */
bool service_stop_writing(Service *service)
{
    GQueue late = G_QUEUE_INIT;
    const DconfdbServed known = take_late(service, &late);
    for (const GList *at = late.head; at; at = at->next)
        call_refuse(service, g_steal_pointer(&((Change *)at->data)->call), DCONFDB_SERVED_LATE, NULL);
    service->left = dconfdb_served_after(DCONFDB_SERVED_LEFT, &known);
    if (service->has_thread && service->left == DCONFDB_SERVED_GOES_ON)
        service->has_thread = pthread_join(service->thread, NULL) != 0;
    return !service->has_thread;
}
