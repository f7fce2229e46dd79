/* service/writes.c: what comes, and the end. */
#include "service_writes.h"

/* narrows libdconfdb/dconfdb.h: char text[512]; => char text[8]; */

static void is_answered(const GDBusMessage *call, bool is_acknowledged)
{
    (void)call;
    CHECK(!is_acknowledged && none_is_held(), "order: who answers keeps nobody from anything");
}

/* harness service_end: unwind 5, with glib.c, quick */
int service_end(void)
{
    if (any_bool()) {
        set_up();
    } else if (any_bool()) {
        waits_in(&service.taken, 0);
        reads(changes[0]);
    }
    service.has_thread = any_bool();
    service.is_writing = service.has_thread && service.taken.length > 0 && any_bool();
    service.answered = service.is_writing && any_bool() ? service.taken.length : 0;
    const guint64 unanswered = service.added - service.settled - service.answered;
    bool is_amid = service.is_writing, is = ends();
    for (int i = 0; i < CHANGES; i++) {
        CHECK(!has_come[i] || calls_of[i]->answers == (is_amid && i == 0 ? 0 : 1), "answer: at the end who waits is told, but for what the thread is amid");
        CHECK(!has_come[i] || !changes[i]->call == (calls_of[i]->answers == 1), "answer: what is answered is known to be");
    }
    CHECK(none_is_held() && service.ends, "order: all is given back");
    CHECK(is || service.has_thread, "answer: a thread is left only if there is one");
    CHECK((service.left == DCONFDB_SERVED_LATE) == (unanswered > 0), "answer: the last word is said only if somebody wasn't answered");
    CHECK(service.taken.length == (is_amid ? 1 : 0) && service.waiting.length == 0, "step: the thread finds nothing but what it is amid");
    if (is_amid)
        REACHED("amid a try");
    if (is_amid && service.left == DCONFDB_SERVED_ENDS)
        REACHED("amid one that has answered all");
    if (is && has_come[1])
        REACHED("all are answered");
    return 0;
}

/* harness service_counts: unwind 5, with glib.c, quick */
int service_counts(void)
{
    bool some = any_bool(), one_more = any_bool();
    if (some)
        set_up();
    if (one_more) {
        comes(2);
        service_add(&service, changes[2]);
        CHECK(service.waiting.tail == &changes[2]->link, "order: what comes waits behind what came before");
        REACHED("one more");
    }
    CHECK(service_has_waiting(&service) == (some || one_more), "answer: whether one isn't answered");
    all_are_answered_or_wait();
    return 0;
}

/* harness service_takes: unwind 5, with glib.c, quick */
int takes_or_passes(void)
{
    if (any_bool())
        set_up();
    service.has_thread = false;
    if (any_bool())
        ends();
    const guint64 passing = service.passing = any_u32(), count = one_writer.count = any_u32();
    bool takes = service_takes(&service, "a", calls_of[2]);
    CHECK(takes == has_come[2], "answer: what is taken waits");
    CHECK(!takes || (passing == 0 && !service.ends), "order: none is taken before one that is on its way to the main thread, and none at the end");
    CHECK(service.passing == passing + (takes ? 0 : 1), "answer: what isn't taken is on its way to the main thread");
    if (takes) {
        CHECK(service.waiting.tail == &changes[2]->link, "order: what comes waits behind what came before");
        CHECK(changes[2]->number == count && one_writer.count == count + 1, "answer: its number is the next one");
        REACHED("it is taken");
        if (changes[2]->is_read)
            REACHED("it is read at once");
        else
            REACHED("it is large, or another is read");
    } else {
        service_has_passed(&service);
        CHECK(service.passing == passing, "answer: the main thread has taken it");
        REACHED("the main thread takes it");
    }
    all_are_answered_or_wait();
    return 0;
}
