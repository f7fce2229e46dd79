/* What comes waits to be written, in the order in which it comes: by the main thread, or, of a database that is in use, by GDBus's own. */
#include "service.h"

/* `lock` is held. */
static void add(Service *service, Change *change)
{
    change->moment = order_clock();
    change->number = change->writer->count++;
    g_queue_push_tail_link(&service->waiting, &change->link);
    service->added++;
    service->waiting_size += change->size;
}

void service_add(Service *service, Change *change)
{
    g_mutex_lock(&service->lock);
    add(service, change);
    g_mutex_unlock(&service->lock);
    g_cond_signal(&service->comes);
}

/* `lock` is held. */
static DconfdbServed known_beside(const Service *service, size_t size)
{
    return (DconfdbServed){.size = size,
                           .waiting = service->added - service->settled,
                           .waiting_size = service->waiting_size,
                           .names = service->names};
}

DconfdbServed service_knows(Service *service, size_t size)
{
    g_mutex_lock(&service->lock);
    DconfdbServed known = known_beside(service, size);
    g_mutex_unlock(&service->lock);
    return known;
}

/* Whether a change of that database, or of one that isn't in use (NULL), may wait already. `lock` is held. */
static bool may_wait(const Service *service, const Writer *writer, GDBusMessage *call)
{
    g_autoptr(GVariant) bytes = g_variant_get_child_value(g_dbus_message_get_body(call), 0);
    DconfdbServed known = known_beside(service, g_variant_get_size(bytes));
    known.is_used = writer != NULL;
    known.is_behind = service->passing > 0;
    known.ends = service->ends;
    known.is_noted = service->blame != NULL;
    return dconfdb_served_after(DCONFDB_SERVED_PASSES, &known) == DCONFDB_SERVED_GOES_ON;
}

/* Whether it is read where it came, if nobody else reads: what comes behind it waits meanwhile. */
static bool is_read_here(const Change *change)
{
    const DconfdbServed known = {.size = change->size};
    return dconfdb_served_after(DCONFDB_SERVED_READS, &known) == DCONFDB_SERVED_GOES_ON;
}

/* Adds it, or NULL where the main thread is to take it. It has `reading` then, if that could be had. `lock` is held. */
static Change *admit(Service *service, Writer *writer, GDBusMessage *call, bool *reads)
{
    Change *change = may_wait(service, writer, call) ? change_new(writer, call) : NULL;
    *reads = change && is_read_here(change) && g_mutex_trylock(&service->reading);
    if (change)
        add(service, change);
    else
        service->passing++;
    return change;
}

/* A small change is read here, while the other thread wakes and takes its turn: nobody else reads it, nor does it go, as long as `reading` is held. */
bool service_takes(Service *service, const char *name, GDBusMessage *call)
{
    bool reads;
    g_mutex_lock(&service->lock);
    Writer *writer = service->ends ? NULL : g_hash_table_lookup(service->writers, name); /* at the end there soon is none */
    Change *change = admit(service, writer, call, &reads);
    g_mutex_unlock(&service->lock);
    if (change)
        g_cond_signal(&service->comes);
    if (reads) {
        change_read(change);
        g_mutex_unlock(&service->reading);
    }
    return change != NULL;
}

void service_has_passed(Service *service)
{
    g_mutex_lock(&service->lock);
    service->passing--;
    g_mutex_unlock(&service->lock);
}

bool service_has_waiting(Service *service)
{
    g_mutex_lock(&service->lock);
    bool has = service->settled < service->added;
    g_mutex_unlock(&service->lock);
    return has;
}
