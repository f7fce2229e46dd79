/* libdconfdb/values.c: what is in a value, and the value of a text, with any answer of the proved calls, and no memory at any moment. */
#include "libdconfdb/values.c"
#include "world.h"

static const uint8_t data[8];

static void are_lent(const uint8_t *type, size_t type_len, const uint8_t *value, size_t len)
{
    CHECK(__CPROVER_r_ok(type, type_len) && __CPROVER_r_ok(value, len), "memory: a type and bytes that are there");
}

bool dconfdb_number_in(const uint8_t *type, size_t type_len, const uint8_t *value, size_t len, uint8_t letter, uint64_t *bits)
{
    (void)letter;
    are_lent(type, type_len, value, len);
    bool is = any_bool();
    if (is)
        *bits = any_u64();
    return is;
}

bool dconfdb_text_in(const uint8_t *type, size_t type_len, const uint8_t *value, size_t len, DconfdbBytes *found)
{
    static const uint8_t root[1] = {'/'}; /* a default is the library's own, and no zero byte is behind it */
    are_lent(type, type_len, value, len);
    bool is = any_bool();
    if (is && any_bool())
        *found = (DconfdbBytes){root, any_bool()};
    else if (is)
        *found = (DconfdbBytes){value, len > 0 ? len - 1 : 0};
    return is;
}

static bool some_part(DconfdbPart *found, const uint8_t *type, const uint8_t *value)
{
    bool is = any_bool();
    if (is)
        *found = (DconfdbPart){{value, 1}, {type, 1}};
    return is;
}

bool dconfdb_child_at(DconfdbChild *whole, bool of_variant, size_t index, DconfdbPart *found)
{
    (void)of_variant, (void)index;
    CHECK(__CPROVER_w_ok(&whole->passed, sizeof whole->passed), "memory: how far a walk came");
    whole->passed = any_size();
    are_lent(whole->type_text.at, whole->type_text.len, whole->value.at, whole->value.len);
    return some_part(found, whole->type_text.at, whole->value.at);
}

bool dconfdb_look_up(const uint8_t *type, size_t type_len, const uint8_t *value, size_t len, const uint8_t *key, size_t key_len, DconfdbPart *found)
{
    are_lent(type, type_len, value, len);
    CHECK(__CPROVER_r_ok(key, key_len), "memory: a key");
    return some_part(found, type, value);
}

size_t dconfdb_count_children(const uint8_t *type, size_t type_len, const uint8_t *value, size_t len)
{
    are_lent(type, type_len, value, len);
    return any_size();
}

size_t dconfdb_put_children(const uint8_t *type, size_t type_len, const uint8_t *value, size_t len, size_t origin, DconfdbChild *room, size_t room_len)
{
    (void)origin;
    are_lent(type, type_len, value, len);
    CHECK(__CPROVER_w_ok(room, room_len * sizeof *room), "memory: room for children");
    return any_size();
}

/* How long it is, whatever room there is. */
uint32_t dconfdb_parse_value(const uint8_t *text, size_t text_len, uint8_t *room, size_t room_len, size_t *len, size_t *size, size_t *start, size_t *end)
{
    static size_t needed;
    static bool is_known;
    (void)start, (void)end;
    CHECK(__CPROVER_r_ok(text, text_len) && __CPROVER_w_ok(room, room_len), "memory: a text, and room that is there");
    uint32_t number = any_u32();
    if (number != DCONFDB_OK)
        return number;
    if (!is_known)
        needed = any_size();
    is_known = true;
    GIVEN(needed > 0 && needed < 1UL << 40);
    *len = needed;
    if (needed <= room_len) {
        *size = any_size();
        GIVEN(*size < needed);
    }
    return DCONFDB_OK;
}

uint32_t dconfdb_print_value(const uint8_t *type, size_t type_len, const uint8_t *value, size_t len, uint8_t *room, size_t room_len, size_t *needed)
{
    are_lent(type, type_len, value, len);
    CHECK(__CPROVER_w_ok(room, room_len), "memory: room that is there");
    *needed = any_size();
    return any_u32();
}

/* It calls with a room. snapshot.c is not gone through. */
char *snapshot_listed(Lists *lists, const DconfdbSnapshot *snapshot, const void *of, const char *name, size_t *size, DconfdbError *error)
{
    uint8_t room[4];
    size_t len = 0;
    (void)name, (void)size, (void)error;
    lists(snapshot, of, room, sizeof room, &len);
    return NULL;
}

static unsigned refused;

bool refuse(DconfdbError *error, DconfdbErrorCode code, int fault, Place place, const char *format, ...)
{
    (void)fault, (void)place, (void)format;
    refused++;
    if (error)
        error->code = code;
    return false;
}

bool refuse_memory(DconfdbError *error)
{
    return refuse(error, DCONFDB_ERROR_MEMORY, 0, nowhere, "");
}

/* Of a call that failed, and of a place in the text. */
bool refuse_text(DconfdbError *error, uint32_t number, size_t start, size_t end)
{
    (void)start, (void)end;
    CHECK(number != DCONFDB_OK, "answer: a fault");
    return refuse(error, DCONFDB_ERROR_BAD_TEXT, 0, nowhere, "");
}

/* harness value_parse: unwind 7 */
int value_parse(void)
{
    char text[4];
    DconfdbValue value;
    any_text(text, 3);
    if (!dconfdb_value_parse(text, &value, NULL)) {
        CHECK(refused == 1, "answer: why there is no value is told, once");
        return 0;
    }
    CHECK(refused == 0, "answer: a value is no fault");
    CHECK(__CPROVER_r_ok(value.data, value.size) && __CPROVER_r_ok(value.type, value.type_size + 1), "memory: the bytes and the type are there");
    CHECK(value.type_size > 0 && value.type[value.type_size] == 0, "answer: the type ends in a zero byte");
    free((void *)value.data);
    REACHED("a value");
    return 0;
}

/* harness value_parts: unwind 7 */
int value_parts(void)
{
    DconfdbValue value = {data, any_size(), "v", 1, any_size(), any_size()}, child = {NULL, 0, NULL, 0, 0, 0}, children[2];
    size_t length = 0;
    int32_t number = 7;
    GIVEN(value.size <= sizeof data);
    bool is = dconfdb_value_get_int32(&value, &number), has = dconfdb_value_child(&value, 0, any_bool() ? &child : &value);
    CHECK(is || number == 7, "answer: what is no number leaves it");
    const char *text = dconfdb_value_get_string(&value, any_bool() ? &length : NULL);
    CHECK(!text || __CPROVER_r_ok(text, length + 1), "memory: a text has a byte behind it");
    dconfdb_value_n_children(&value);
    dconfdb_value_children(&value, children, 2);
    dconfdb_value_lookup(&value, "k", &child);
    dconfdb_value_get_variant(&value, &child);
    dconfdb_value_print(&value, NULL);
    if (has && text)
        REACHED("a part and a text");
    return 0;
}
