/* The file that was replaced. Whoever is the last to have it waits until the system has freed it, a millisecond on some disks. Dconf's programs have it mapped
 * until they read again, and would wait then: so the thread that writes has it open for longer, and waits while nobody waits for it. */
#define _GNU_SOURCE
#define _FILE_OFFSET_BITS 64
#include "service.h"

#include <fcntl.h>
#include <sys/vfs.h>
#include <unistd.h>

static const uint64_t a_second = 1000000; /* in microseconds */

/* It is only had where the files are this machine's own, as the proved call has it. */
static bool is_kept(int file)
{
    struct statfs system;
    return fstatfs(file, &system) == 0 && dconfdb_is_kept_open((uint64_t)system.f_type);
}

int replaced_open(const DconfdbStore *store)
{
    const char *name = dconfdb_store_user_file(store);
    int file = name ? open(name, O_PATH | O_CLOEXEC) : -1;
    if (file < 0 || is_kept(file))
        return file;
    close(file);
    return -1;
}

static void let_go(Service *service)
{
    if (service->kept_until > 0)
        close(service->kept);
    service->kept_until = 0;
}

void replaced_keep(Service *service, int file)
{
    let_go(service);
    if (file < 0)
        return;
    service->kept = file;
    service->kept_until = (uint64_t)g_get_monotonic_time() + a_second;
}

void replaced_let_go(Service *service)
{
    if (service->kept_until == 0 || (uint64_t)g_get_monotonic_time() < service->kept_until)
        return;
    g_mutex_unlock(&service->lock);
    let_go(service);
    g_mutex_lock(&service->lock);
}
