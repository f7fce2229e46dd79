/* common/order.c: the bytes of the lock's file, read into rooms that may be too small, and written anew; and rooms for paths. What is noted the proved
 * call says, in any way. How many notes there are is not gone through. */
#include "common/order.c"
#include "machines/given.h"
#include "world.h"

/* narrows common/dconfdb_calls.h: enum { DCONFDB_MOST_NOTED = 1 << 20 }; => enum { DCONFDB_MOST_NOTED = 16 }; */
/* narrows common/order.c: FEW_BYTES = 1024, => FEW_BYTES = 8, */

static Order order;
static const FileState left;
static size_t written;
static unsigned asked, writes, grows_left = 1;
static bool has_cut;

/* ---- proved calls: any answer, or what they say */

uint32_t dconfdb_moved(size_t wanted, size_t *at, uint32_t fault, size_t count)
{
    CHECK(*at <= wanted, "answer: so many were moved, and are wanted");
    return moved_given(wanted, at, fault, count);
}

bool dconfdb_is_cut(size_t stood, size_t put)
{
    return stood > put;
}

uint32_t dconfdb_notes_written(const DconfdbTime *notes, size_t n, uint64_t moment, uint64_t time, const uint8_t *of_left, size_t left_len,
                               const uint8_t *name, size_t name_len, const DconfdbFileStamp *file, bool is_synced, uint8_t *room, size_t room_len,
                               size_t *len)
{
    (void)moment, (void)time, (void)of_left, (void)left_len, (void)is_synced;
    CHECK(n == order.count && (n == 0 || notes == order.times), "step: what is noted is what is known");
    CHECK(name_len == 1 && name[0] == 'u' && file == &left, "step: the file as it is left");
    CHECK(__CPROVER_w_ok(room, room_len), "memory: room that is there");
    asked++;
    if (any_bool())
        return DCONFDB_MEMORY;
    size_t more = any_size();
    GIVEN(more > 0 && more <= 2 * FEW_BYTES && (more <= room_len || grows_left > 0));
    grows_left -= more > room_len;
    *len = written = more;
    return DCONFDB_OK;
}

/* ---- it is written */

static size_t rest; /* of the last write */

static void is_put(Kind kind)
{
    const Call *call = &last[kind];
    if (kind == PWRITE) {
        CHECK(writes > 0 ? call->len <= rest : call->len == written, "step: what is written is the rest");
        rest = call->len;
        writes++;
    }
    if (kind == FTRUNCATE) {
        size_t put = written - rest + (was_done(PWRITE) ? (size_t)last[PWRITE].count : 0);
        CHECK(call->len == put, "step: what stands behind it is cut off");
        CHECK(put == written, "step: what was noted before is cut only behind what is noted now");
        has_cut = call->fault == 0;
    }
}

/* harness order_write: unwind 5, quick */
int order_write_(void)
{
    int lock = some_file();
    order.stood = any_bool() ? any_size() : SIZE_MAX;
    at_call = is_put;
    bool is = order_write(&order, lock, "u", &left, any_bool());
    CHECK(is_open(lock) && only_open(lock, -1), "descriptor: the lock's file stays open");
    CHECK(count_of[FTRUNCATE] <= 1 && calls == count_of[PWRITE] + count_of[FTRUNCATE], "step: it is written and cut, and nothing else");
    CHECK(!is || (was_done(PWRITE) && (size_t)last[PWRITE].count == rest), "answer: it is noted where all is written");
    CHECK(!is || order.stood <= written || has_cut, "answer: nothing is noted behind which something else stands");
    if (is && asked == 2)
        REACHED("a room that was too small");
    order_end(&order);
    return 0;
}

static size_t got; /* so far */

static void is_got(Kind kind)
{
    const Call *call = &last[kind];
    CHECK(kind == PREAD && (size_t)call->at == got, "step: it is read on from where the last one ended");
    got += call->fault == 0 ? (size_t)call->count : 0;
}

/* harness order_text: unwind 6, quick */
int order_text(void)
{
    int lock = some_file();
    at_call = is_got;
    bool is = read_text(&order, lock);
    CHECK(is_open(lock) && only_open(lock, -1), "descriptor: the lock's file stays open");
    CHECK(calls == count_of[PREAD], "step: it is read, and nothing else");
    CHECK(!is || (order.size <= order.room && __CPROVER_r_ok(order.text, order.size)), "memory: the bytes that were read");
    CHECK(!is || order.size == got, "answer: all that was read");
    CHECK(!is || order.stood == (was_done(PREAD) && order.size < order.room ? order.size : SIZE_MAX), "answer: how many bytes there are, where that is known");
    if (is && count_of[PREAD] == 2 && order.room > FEW_BYTES)
        REACHED("a room that was too small");
    order_end(&order);
    return 0;
}

/* harness order_rooms: unwind 6, quick */
int order_rooms(void)
{
    char *room = order_room(&order, 3), *other = order_room(&order, 5);
    CHECK(!room || __CPROVER_w_ok(room, 3), "memory: room for paths");
    CHECK(!other || __CPROVER_w_ok(other, 5), "memory: room for paths");
    CHECK(!room || !other || !__CPROVER_same_object(room, other), "memory: what is lent once is not lent again");
    if (room && other)
        REACHED("two rooms");
    forget_rooms(&order);
    CHECK(!order.rooms, "memory: none is left of the turn before");
    order_end(&order);
    return 0;
}
