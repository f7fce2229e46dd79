/* service/writes.c: how the thread waits until something comes, or the end. */
#include "service_writes.h"

/* narrows libdconfdb/dconfdb.h: char text[512]; => char text[8]; */

static unsigned waited;

static void is_answered(const GDBusMessage *call, bool is_acknowledged) { (void)call, (void)is_acknowledged; }

bool dconfdb_sleep_until(uint64_t again, uint64_t look, uint64_t now, uint64_t *wait)
{
    (void)look, (void)now;
    *wait = any_u32();
    return again != 0;
}

static void comes_then(void)
{
    waited++;
    GIVEN(waited <= 2);
    if (!has_come[2] && any_bool()) {
        comes(2);
        service_add(&service, changes[2]);
    } else if (!service.ends && any_bool()) {
        ends();
    }
}

/* harness service_await: unwind 5, with glib.c, quick */
int service_await(void)
{
    if (any_bool())
        set_up();
    service.has_thread = false;
    service.again = any_bool() ? 0 : (gint64)any_u32();
    at_wait = comes_then;
    may_keep();
    uint32_t task = await_task(&service);
    bool waits = service.taken.length + service.waiting.length > 0;
    CHECK(none_is_held(), "order: all is given back");
    CHECK(task == DCONFDB_ROUND_TAKE || task == DCONFDB_ROUND_LEAVE || task == DCONFDB_ROUND_ENDS, "step: something is due");
    CHECK((task == DCONFDB_ROUND_TAKE) == waits, "step: a turn is taken for what waits");
    CHECK(task != DCONFDB_ROUND_ENDS || service.ends, "step: the thread ends as the service does");
    CHECK(task == DCONFDB_ROUND_TAKE || service.again == 0, "answer: where nothing waits no moment is left to try again");
    CHECK(only_kept_is_open(), "descriptor: what it has let go of is closed");
    if (task == DCONFDB_ROUND_TAKE && waited == 2)
        REACHED("it has waited");
    if (task == DCONFDB_ROUND_ENDS)
        REACHED("it ends");
    return 0;
}
