/* after: asks of files whether a layer is opened alike with another one's help and without, by the proved calls
 * alone. Each line of stdin names a file and the one that it replaces; a first line is of a file that replaces itself,
 * and then with each of its bytes changed, and cut at each length. It prints how many were asked, and how many of them
 * were sound. */
#include "dconfdb_calls.h"
#include "try.h"

enum { ROOM = 1 << 20, LONGEST_NAME = 4096 };

typedef struct {
    uint8_t *at; /* exactly so many bytes, so that a look past them is seen */
    size_t len;
} File;

static size_t asked, sound;

static const DconfdbLayer empty = DCONFDB_EMPTY_LAYER;
static const DconfdbUnsound unbroken = {0, 0, false};

static File read_whole(const char *name)
{
    static uint8_t room[ROOM];
    FILE *file = fopen(name, "rb");
    TRY(file);
    size_t len = fread(room, 1, ROOM, file);
    TRY(len < ROOM && fclose(file) == 0);
    File whole = {malloc(len + 1), len};
    TRY(whole.at);
    memcpy(whole.at, room, len);
    return whole;
}

static bool is_same_table(const DconfdbTable *one, const DconfdbTable *other)
{
    return one->file.at == other->file.at && one->file.len == other->file.len && one->start == other->start
        && one->end == other->end && one->bloom_words == other->bloom_words && one->bloom_shift == other->bloom_shift
        && one->buckets == other->buckets && one->first_item == other->first_item && one->items == other->items;
}

static bool is_same_layer(const DconfdbLayer *one, const DconfdbLayer *other)
{
    return is_same_table(&one->values, &other->values) && is_same_table(&one->locks, &other->locks)
        && one->has_locks == other->has_locks && one->locks_directories == other->locks_directories;
}

/* The keys that differ are those that a look at all layers tells. */
static void try_differences(const DconfdbLayer *old, const DconfdbLayer *new, const DconfdbLayer *site)
{
    static uint8_t one[ROOM], other[ROOM];
    DconfdbLayer before[] = {*old, *site}, after[] = {*new, *site};
    size_t len = 0, first = 0;
    TRY(dconfdb_differs(after, 2, before, 2, 1, false, old, one, ROOM, &len) == DCONFDB_OK && len <= ROOM);
    TRY(dconfdb_differs(after, 2, before, 2, 1, true, old, other, ROOM, &first) == DCONFDB_OK && first == len);
    TRY(memcmp(one, other, len) == 0);
    TRY(dconfdb_differs(after, 0, before, 1, 1, false, old, one, ROOM, &len) == DCONFDB_OK && len <= ROOM);
    TRY(dconfdb_differs(after, 0, before, 1, 1, true, old, other, ROOM, &first) == DCONFDB_OK && first == len);
    TRY(memcmp(one, other, len) == 0);
}

static void try_one(const DconfdbLayer *old, const uint8_t *file, size_t len, const DconfdbLayer *site)
{
    DconfdbLayer alone = empty, after = empty;
    DconfdbUnsound broken = unbroken, told = unbroken;
    uint32_t one = UINT32_MAX, other = UINT32_MAX;
    uint32_t number = dconfdb_open(&empty, false, file, len, true, false, &alone, &broken, &one);
    TRY(dconfdb_open(old, false, file, len, true, true, &after, &told, &other) == number);
    TRY(one == (number == DCONFDB_OK ? DCONFDB_TELLING_NOTHING : DCONFDB_TELLING_REFUSES));
    TRY(other == (number == DCONFDB_OK ? DCONFDB_TELLING_NOTHING : DCONFDB_TELLING_KEPT));
    TRY(broken.rule == told.rule && broken.item == told.item && broken.has_item == told.has_item);
    TRY(is_same_layer(&alone, &after));
    asked++;
    if (number == DCONFDB_OK) {
        sound++;
        try_differences(old, &after, site);
    }
}

static void try_changed(const DconfdbLayer *old, const File *file, const DconfdbLayer *site)
{
    static const uint8_t others[] = {1, 2, 4, 8, 0x10, 0x20, 0x40, 0x80, 0xff};
    for (size_t at = 0; at < file->len; at++) {
        File cut = {malloc(at + 1), at};
        TRY(cut.at);
        memcpy(cut.at, file->at, at);
        try_one(old, cut.at, cut.len, site);
        free(cut.at);
        File other = {malloc(file->len), file->len};
        TRY(other.at);
        memcpy(other.at, file->at, file->len);
        for (size_t i = 0; i < sizeof others; i++) {
            other.at[at] = file->at[at] ^ others[i];
            try_one(old, other.at, other.len, site);
        }
        free(other.at);
    }
}

int main(int argc, char **argv)
{
    char name[LONGEST_NAME], before[LONGEST_NAME];
    DconfdbLayer site = empty;
    DconfdbUnsound broken = unbroken;
    uint32_t telling = DCONFDB_TELLING_NOTHING;
    TRY(argc == 2);
    File sites = read_whole(argv[1]);
    TRY(dconfdb_open(&empty, false, sites.at, sites.len, true, false, &site, &broken, &telling) == DCONFDB_OK);
    while (scanf("%4095s %4095s", name, before) == 2) {
        File file = read_whole(name), old = read_whole(before);
        DconfdbLayer layer = empty;
        TRY(dconfdb_open(&empty, false, old.at, old.len, true, false, &layer, &broken, &telling) == DCONFDB_OK);
        try_one(&layer, file.at, file.len, &site);
        try_one(&empty, file.at, file.len, &site);
        if (strcmp(name, before) == 0)
            try_changed(&layer, &file, &site);
        free(file.at);
        free(old.at);
    }
    free(sites.at);
    printf("%zu %zu\n", asked, sound);
    return 0;
}
