/* The proved calls of libdconfdb, as crates/dconfdb_c exports them. What each promises is proved
 * for a caller that meets these conditions; nothing checks C:
 *
 * - All memory is the caller's. No call keeps a pointer after it returns, and none frees anything.
 * - What is lent to a call does not change while it runs. A file's bytes don't change while a layer
 *   that was opened from them is in use, or anything that was found in it.
 * - A file starts at a multiple of 8, so that its values are aligned as GVariant aligns them.
 * - No pointer is NULL, not even for 0 bytes or elements: pass DCONFDB_NOTHING.
 * - What a call writes to holds valid values before: DCONFDB_EMPTY_LAYER, and DCONFDB_NOTHING for
 *   bytes.
 * - A layer is DCONFDB_EMPTY_LAYER, what dconfdb_open put there, or a copy of these. Nobody else
 *   writes its fields.
 * - A turn is {0} at first, and then what dconfdb_turn_begin and dconfdb_turn_answered put there. Nobody
 *   else writes its fields. Each step is carried out as it says, and answered by what the system said.
 * - Any thread may call at any time, with memory that no other thread writes.
 *
 * Texts are UTF-8, without a zero byte at their end. */
#pragma once
#include <stdbool.h>
#include <stddef.h>
#include <stdint.h>

#ifdef __cplusplus
extern "C" {
#endif

/* Lent bytes. */
typedef struct {
    const uint8_t *at;
    size_t len;
} DconfdbBytes;

/* A table of a file; for dconfdb_c alone. */
typedef struct {
    DconfdbBytes file;
    size_t start, end;
    uint32_t bloom_words, bloom_shift, buckets;
    size_t first_item;
    uint32_t items;
} DconfdbTable;

/* A layer: a sound database, lent from its file, or an empty one. */
typedef struct {
    DconfdbTable values, locks;
    bool has_locks, locks_directories;
} DconfdbLayer;

/* The rule that a database breaks, 1 to 11, and the item that breaks it, if the rule is one of
 * items. */
typedef struct {
    uint32_t rule, item;
    bool has_item;
} DconfdbUnsound;

/* A value: its bytes and the text of its type, which are lent from the file of its layer or are the
 * library's own, and the index of that layer. */
typedef struct {
    DconfdbBytes value, type_text;
    size_t origin;
} DconfdbFound;

/* A value in a value: its bytes and the text of its type, lent from there or the library's own. */
typedef struct {
    DconfdbBytes value, type_text;
} DconfdbPart;

/* The same, with the origin that is handed in, and how many of its own first children are known to be in order: of one that was put, none. */
typedef struct {
    DconfdbBytes value, type_text;
    size_t origin, passed;
} DconfdbChild;

/* A database of a profile; the name is lent from the profile's text. */
typedef struct {
    uint32_t kind; /* 0 user-db, 1 system-db, 2 file-db */
    DconfdbBytes name;
} DconfdbName;

/* A change. With `sets` it sets a key; a path that ends in '/' is BAD_PATH then, and bytes that are not in normal
 * form at the type are BAD_VALUE. Without, it takes
 * the user's value away; a path that ends in '/' takes away all below it that is not locked. */
typedef struct {
    DconfdbBytes path, value, type_text;
    bool sets;
} DconfdbChange;

/* A change of a file NAME, in the folder that has it: what comes next, and what is known so far. */
typedef struct {
    uint32_t state, outcome, fault, bits;
    size_t len, at;
    bool has_bits, keeps, leaves_new;
} DconfdbTurn;

/* What is to be done next. */
typedef struct {
    uint32_t kind, fault;
    size_t number;
    bool has_number;
} DconfdbStep;

enum {
    DCONFDB_TURN_LOCK,        /* wait for the turn to change files of the folder */
    DCONFDB_TURN_READ,        /* read NAME; answer the permission bits of the new file, 512 more if the old one is to be
                               * set aside, or 1024 if the system is to choose them */
    DCONFDB_TURN_MAKE,        /* make the new bytes; answer how many there are, or the fault DCONFDB_TURN_NOTHING */
    DCONFDB_TURN_CREATE,      /* make NAME.new, empty, in the place of any other, with the permission bits `number` */
    DCONFDB_TURN_APPEND,      /* write the bytes from `number` on to it, or some of them; answer how many */
    DCONFDB_TURN_SYNC,        /* give it the permission bits `number`, if `has_number`, and have it on the disk */
    DCONFDB_TURN_SET_ASIDE,   /* give NAME another name too, NAME~1 or so, that is free, unless it has one; answer 0, or 1 if it can't have one */
    DCONFDB_TURN_EXCHANGE,    /* give NAME.new such a free name, and have it change places with NAME */
    DCONFDB_TURN_RENAME,      /* rename NAME.new to NAME */
    DCONFDB_TURN_SYNC_FOLDER, /* have the folder's names on the disk */
    DCONFDB_TURN_REMOVE,      /* remove NAME.new */
    DCONFDB_TURN_SETTLE,      /* have what NAME is on the disk, if it is there, and the folder's names */
    DCONFDB_TURN_NOTE,        /* write to the lock's own file what others are to know of the change */
    DCONFDB_TURN_UNLOCK,      /* give the turn back */
    DCONFDB_TURN_DONE         /* nothing: `number` is the outcome, and `fault` the first fault */
};

/* What became of NAME. The fault 0 is a write that wrote nothing, or more than there was. */
enum {
    DCONFDB_TURN_MADE,      /* it holds the new bytes, also after a crash */
    DCONFDB_TURN_KEPT,      /* it is as it was */
    DCONFDB_TURN_EITHER,    /* it is as it was, or holds the new bytes */
    DCONFDB_TURN_UNSETTLED, /* it holds the new bytes, but a crash may leave it as it was */
    DCONFDB_TURN_SAME,      /* it is as it was and was to stay, also after a crash */
    DCONFDB_TURN_UNSYNCED   /* it is as it was and was to stay, but a crash may leave what was there before */
};

/* The fault of a caller that makes no new bytes, since NAME is to stay as it is; and that of a step of which the caller has told what is
 * wrong. */
#define DCONFDB_TURN_NOTHING UINT32_MAX
#define DCONFDB_TURN_TOLD (UINT32_MAX - 1)

/* A path that was set, and when: a key's, or that of a directory of which all keys were reset,
 * nanoseconds since 1970, and a number of the caller's for what was set. */
typedef struct {
    DconfdbBytes path;
    uint64_t when, value;
} DconfdbTime;

/* Why a call failed. */
enum {
    DCONFDB_OK,
    DCONFDB_MEMORY,
    DCONFDB_SHORT,
    DCONFDB_BAD_SIGNATURE,
    DCONFDB_BAD_VERSION,
    DCONFDB_BAD_ROOT,
    DCONFDB_BAD_TABLE,
    DCONFDB_UNSOUND,
    DCONFDB_NOT_TEXT,
    DCONFDB_BAD_LINE,
    DCONFDB_SERVICE_DB,
    DCONFDB_USER_NOT_FIRST,
    DCONFDB_TOO_MANY,
    DCONFDB_BAD_PATH,
    DCONFDB_BAD_TYPE,
    DCONFDB_NOT_WRITABLE,
    DCONFDB_LOCKED,
    DCONFDB_TOO_LARGE,
    DCONFDB_TOO_BIG,
    DCONFDB_DOUBLE_TEXT = 19, /* of dconfdb_print_value alone; dconfdb_fault_text has no text of it */
    DCONFDB_BAD_VALUE = 20,

    /* of dconfdb_parse_value alone, in the words of the command; dconfdb_fault_text has no text of them */
    DCONFDB_BAD_TOKEN = 32,
    DCONFDB_UNCLOSED,
    DCONFDB_BAD_ESCAPE,
    DCONFDB_UNEXPECTED,
    DCONFDB_NO_COMMON_TYPE,
    DCONFDB_AMBIGUOUS,
    DCONFDB_OUT_OF_RANGE,
    DCONFDB_BAD_OBJECT_PATH,
    DCONFDB_BAD_SIGNATURE_TEXT
};

/* A database without items. */
static const uint8_t dconfdb_empty_file[32] = {'G', 'V', 'a', 'r', 'i', 'a', 'n', 't', 0, 0, 0, 0, 0, 0, 0, 0,
                                               24,  0,   0,   0,   32,  0,   0,   0,   0, 0, 0, 0, 0, 0, 0, 0};

#define DCONFDB_NOTHING {dconfdb_empty_file, 0}
#define DCONFDB_NO_PATH {DCONFDB_NOTHING, DCONFDB_NOTHING, DCONFDB_NOTHING, DCONFDB_NOTHING}
#define DCONFDB_EMPTY_TABLE {{dconfdb_empty_file, 32}, 24, 32, 0, 0, 0, 32, 0}
#define DCONFDB_EMPTY_LAYER {DCONFDB_EMPTY_TABLE, DCONFDB_EMPTY_TABLE, false, false}

/* The text of a fault's number. False, and the text unchanged, if no fault has the number. */
bool dconfdb_fault_text(uint32_t number, DconfdbBytes *text);

/* The text of the value that bytes have at the type that the text spells, annotated: what `dconfdb read`
 * prints. `len` as dconfdb_list has it. MEMORY, BAD_TYPE, TOO_LARGE of more than 128 levels, DOUBLE_TEXT of a
 * value that holds a double, and then nothing is written. */
uint32_t dconfdb_print_value(const uint8_t *type_text, size_t type_text_len, const uint8_t *value, size_t value_len, uint8_t *room,
                             size_t room_len, size_t *len);

/* The value that a text has by its least type: `size` bytes in normal form, and behind them the text of the type.
 * `len`, of both, as dconfdb_list has it. MEMORY, NOT_TEXT, TOO_LARGE of over 16 MiB or 128 levels, DOUBLE_TEXT, or BAD_TOKEN
 * to BAD_SIGNATURE_TEXT, and then only `start` and `end` are written: where it is in the text, of a token or of the syntax;
 * else 0. */
uint32_t dconfdb_parse_value(const uint8_t *text, size_t text_len, uint8_t *room, size_t room_len, size_t *len, size_t *size,
                             size_t *start, size_t *end);

/* What bytes are at the type that a text spells. Any bytes have a value at any type, and false is only
 * said as follows; then `bits` or `found` stays as it was.
 *
 * The number, if the type is the one of this letter: of `b` 0 or 1, else the bits; `i` asks for an `h`
 * too. The text of an `s`, `o` or `g`, without a zero byte. The child at an index, or, `of_variant`, of a `v` alone; the whole's `passed` is 0, or
 * what an earlier call left there for the same type and bytes. The value of the first entry with this key in an
 * `a{sT}` or an `a{oT}`. */
bool dconfdb_number_in(const uint8_t *type_text, size_t type_text_len, const uint8_t *value, size_t value_len, uint8_t letter,
                       uint64_t *bits);
bool dconfdb_text_in(const uint8_t *type_text, size_t type_text_len, const uint8_t *value, size_t value_len, DconfdbBytes *found);
bool dconfdb_child_at(DconfdbChild *whole, bool of_variant, size_t index, DconfdbPart *found);
bool dconfdb_look_up(const uint8_t *type_text, size_t type_text_len, const uint8_t *value, size_t value_len, const uint8_t *key,
                     size_t key_len, DconfdbPart *found);

/* How many children it has; 0 where the text spells no type. */
size_t dconfdb_count_children(const uint8_t *type_text, size_t type_text_len, const uint8_t *value, size_t value_len);

/* Puts the children into the room, in order, as many as it takes, each with that origin and none of its own passed, and gives how
 * many there are. What is behind them stays. */
size_t dconfdb_put_children(const uint8_t *type_text, size_t type_text_len, const uint8_t *value, size_t value_len, size_t origin,
                            DconfdbChild *room, size_t room_len);

/* As what a fault of a file is told. */
enum {
    DCONFDB_TELLING_NOTHING, /* there is none, or it isn't */
    DCONFDB_TELLING_REFUSES, /* as why the store can't be opened */
    DCONFDB_TELLING_KEPT     /* the store keeps it */
};

/* Opens a layer of a file's bytes, or an empty one if there is no file (is_there false: the
 * bytes are not looked at). Else SHORT to BAD_TABLE, or UNSOUND with what is broken, which is all
 * zeros of the others; the layer is as it was. `old` is the layer of the file that this one replaced, or any other: what is as in that isn't
 * asked anew. Where its file was mapped, and may have been written over (`was_mapped`), or it is an empty one, each rule is asked of each
 * item. `telling` is as what the fault is told: to a lenient store it is KEPT, and what dconfdb_mend makes of the file counts. */
uint32_t dconfdb_open(const DconfdbLayer *old, bool was_mapped, const uint8_t *file, size_t len, bool is_there, bool is_lenient, DconfdbLayer *layer,
                      DconfdbUnsound *unsound, uint32_t *telling);

/* The value that is seen at a key's path through layers, the first first. False, and `found` as it
 * was, where nothing is seen and where the text is no key's path. */
bool dconfdb_read(const DconfdbLayer *layers, size_t n, const uint8_t *path, size_t path_len, DconfdbFound *found);

/* The same without the user's values. `writable`: the first layer is the user's. */
bool dconfdb_read_default(const DconfdbLayer *layers, size_t n, bool writable, const uint8_t *path, size_t path_len,
                          DconfdbFound *found);

/* The value that one layer has, whatever is locked: of the first, the user's own. There is none if it isn't the user's (`is_users` false).
 * `origin` is 0. */
bool dconfdb_read_alone(const DconfdbLayer *layer, bool is_users, const uint8_t *path, size_t path_len, DconfdbFound *found);

/* Whether a layer from the second on locks the key. */
bool dconfdb_is_locked(const DconfdbLayer *layers, size_t n, const uint8_t *path, size_t path_len);

/* Whether the first layer is the user's (`writable`), and the key is not locked. */
bool dconfdb_is_writable(const DconfdbLayer *layers, size_t n, bool writable, const uint8_t *path, size_t path_len);

/* What is listed of a directory. */
enum {
    DCONFDB_LIST_NAMES, /* of what it has in any layer; a directory's ends in '/' */
    DCONFDB_LIST_OWN,   /* the same of the first layer alone, if it is the user's; else there are none */
    DCONFDB_LIST_PATHS, /* of the keys below it that any layer has. Each item of the layers is named once, and nothing is searched for */
    DCONFDB_LIST_LOCKS, /* the paths of the locks that start with it, of keys and of directories, of the layers after the first */
    DCONFDB_LIST_CLOSED /* what of it nobody may write: the same; or the directory itself, if no layer is the user's */
};

/* They come in the order of their bytes, a zero byte after each. `len` is how many bytes there are; where they are more than the room,
 * nothing is put into it. `writable`: the first layer is the user's. MEMORY or BAD_PATH, and then nothing is written. */
uint32_t dconfdb_list(const DconfdbLayer *layers, size_t n, bool writable, const uint8_t *directory, size_t directory_len, uint32_t what,
                      uint8_t *room, size_t room_len, size_t *len);

/* The paths of the keys that are seen otherwise through other layers: another value is seen, or one
 * where none was, or a key is locked in one alone. A value in other bytes is the same one. Asked are
 * the keys of the first `count` layers of each. Where `same_others`, the other layers are these, but that `first` is the first of them, and
 * asked are its keys and those of the first of these. They come in the same form. MEMORY. Locks of what no layer has: compare the lists of
 * locks. */
uint32_t dconfdb_differs(const DconfdbLayer *layers, size_t n, const DconfdbLayer *other, size_t other_n, size_t count, bool same_others,
                         const DconfdbLayer *first, uint8_t *room, size_t room_len, size_t *len);

/* What is known of a database's file, and of what was made of it. */
typedef struct {
    size_t part; /* which part was made of it: of one that was read anew another one */
    uint64_t device, inode;
    size_t line; /* the fault that it has; zeros where it has none */
    uint32_t code, errnum;
    bool is_mapped;
} DconfdbFileSeen;

/* Whether anything is otherwise than before: somebody could write and nobody can, or the other way round; a file has another fault, or
 * is mapped and was written over in its place; other locks count; or a key is seen otherwise. `same_others` is as for dconfdb_told. MEMORY,
 * and then it is. */
uint32_t dconfdb_is_changed(const DconfdbLayer *before, size_t before_n, const DconfdbLayer *after, size_t after_n, bool was_writable,
                            bool is_writable, bool same_others, const DconfdbFileSeen *files_before, size_t files_before_n,
                            const DconfdbFileSeen *files_after, size_t files_after_n, bool *is);

/* The paths of the keys that are remembered of what others changed between two looks: those of which the user's file has another value, or
 * has one on one side alone. Where the first layer isn't the user's on both sides, or who left the file noted what it changed, that is
 * none. They come in the same form. MEMORY, and then nothing is written. */
uint32_t dconfdb_remembered(const DconfdbLayer *before, size_t before_n, const DconfdbLayer *after, size_t after_n, bool was_writable,
                            bool is_writable, bool is_noted, uint8_t *room, size_t room_len, size_t *len);

/* What a file counts as that isn't sound. */
enum {
    DCONFDB_MENDED_WHOLE, /* the sound database that it stands for: dconf made it of no key, and leaves the kind and the contents
                           * of `/` unset then */
    DCONFDB_MENDED_SAVED, /* what can be saved of it: for each path of a key its lowest value whose pointer is valid, and the locks
                           * of the lowest table of locks that opens */
    DCONFDB_MENDED_NOTHING /* it is no database, or that would have over 4,294,967,295 bytes */
};

/* Its bytes, which dconfdb_open opens, and how many values and locks were saved; of NOTHING none. `is_told`: what is wrong with it is told. `len` as
 * dconfdb_list has it. MEMORY, and then nothing is written. */
uint32_t dconfdb_mend(const uint8_t *file, size_t len, uint8_t *room, size_t room_len, size_t *mended_len, uint32_t *standing, bool *is_told,
                      size_t *keys, size_t *locks);

/* Whether a file that begins so may be a database: its signature and its version are one's, as far as they are there. */
bool dconfdb_is_database_head(const uint8_t *head, size_t len);

/* What is said of a bad database, after what is wrong with it: how many values and locks of it count, or,
 * where a change put a new file into its place (`is_aside`), how the text goes on after the name that it has
 * now. The locks of the first database of a profile never count. `len` as dconfdb_list has it. MEMORY, and
 * then nothing is written. */
uint32_t dconfdb_fate_text(size_t keys, size_t locks, bool is_first, bool is_aside, uint8_t *room, size_t room_len, size_t *len);

/* A profile has at most so many. */
#ifndef MOST_DATABASES
#define MOST_DATABASES 64
#endif

/* The databases that a profile names, 64 at most, by the step to which the looks at profiles came (DCONFDB_PROFILE_COUNTS, of that text, or another one).
 * `names` is how many; where they are more than the room, nothing is put into it. `fault` is the number of the first bad line's, NOT_TEXT to TOO_MANY, and
 * `line` is its line, counted from 1; both are 0 where no line is bad. A lenient store passes over bad lines: those that would be refused after
 * the databases so far, and those that are not UTF-8. Else there are no names then. MEMORY, with the line 0, and then nothing else is written.
 * It gives as what the fault is told, DCONFDB_TELLING_NOTHING and so on; `has_kept`: the store has kept a fault of a profile. */
uint32_t dconfdb_profile(uint32_t step, const uint8_t *text, size_t len, bool is_lenient, bool has_kept, DconfdbName *room, size_t room_len,
                         size_t *names, uint32_t *fault, size_t *line);

/* ---- where a store is, which profile it has, and which file a line of that means */

/* A path: texts that stand one after the other, lent from what was handed in or the library's own. */
typedef struct {
    DconfdbBytes first, second, third, fourth;
} DconfdbPath;

/* What is around a program that looks for its store. No variable counts for one that has more rights than whoever started it. What is
 * empty counts as unset. */
typedef struct {
    bool counts;
    DconfdbBytes store, config, home, profile; /* $DCONFDB_STORE, $XDG_CONFIG_HOME, $HOME, $DCONFDB_PROFILE */
    DconfdbBytes runtime, cache;               /* $XDG_RUNTIME_DIR, $XDG_CACHE_HOME */
    DconfdbBytes machine;                      /* what /etc/dconfdb/store says; empty if there is no such file */
    bool is_unreadable;                        /* it couldn't be read */
} DconfdbEnvironment;

/* Who gives the folder of a store; a user does by a word of a command. */
enum {
    DCONFDB_GIVEN_BY_NOBODY,
    DCONFDB_GIVEN_BY_PROGRAM, /* that calls the library */
    DCONFDB_GIVEN_BY_USER
};

/* Which kind of store is found, or what is asked first. */
enum {
    DCONFDB_KIND_OWN,             /* a folder that has all */
    DCONFDB_KIND_DCONFS,          /* each part is where dconf has it */
    DCONFDB_KIND_UNKNOWN,         /* nobody knows: there is none */
    DCONFDB_KIND_ASK_ENVIRONMENT, /* all but what the machine's file says */
    DCONFDB_KIND_ASK_MACHINE      /* that file */
};

/* What is known of the environment. What isn't asked makes no difference. */
enum { DCONFDB_KNOWN_NOTHING, DCONFDB_KNOWN_ENVIRONMENT, DCONFDB_KNOWN_MACHINE };

uint32_t dconfdb_place_kind(const DconfdbEnvironment *environment, uint32_t giver, uint32_t known);

/* What is wanted of a store that is found. */
enum {
    DCONFDB_WANT_FOLDER,
    DCONFDB_WANT_PROFILE, /* that the environment names, of our own kind; a folder that a program gives has its own */
    DCONFDB_WANT_RUNTIME  /* the user's runtime folder, of dconf's kind */
};

/* What has to be asked to know a path: nothing; the current folder; the home that the system has for the user. Or there is none. */
enum { DCONFDB_ASK_NOTHING, DCONFDB_ASK_CURRENT, DCONFDB_ASK_HOME, DCONFDB_ASK_NO_MORE };

/* What has to be asked to know the path of what is wanted; NOTHING: it is written, by what was asked (`base`), if anything was. */
uint32_t dconfdb_place(const DconfdbEnvironment *environment, uint32_t giver, const uint8_t *folder, size_t folder_len, uint32_t wanted,
                       bool is_asked, const uint8_t *base, size_t base_len, DconfdbPath *path);

/* Where a store is, once it was found. What there is none of is empty. */
typedef struct {
    DconfdbBytes folder;
    DconfdbBytes named;     /* the whole path of the profile that a program names, or the environment of our own kind */
    DconfdbBytes profile;   /* $DCONF_PROFILE */
    DconfdbBytes runtime;   /* the user's runtime folder */
    DconfdbBytes data_dirs; /* $XDG_DATA_DIRS */
    DconfdbBytes user;      /* the user's number, in decimal digits */
    bool is_given, is_dconfs;
    bool counts; /* those variables do: the program hasn't more rights than whoever started it */
} DconfdbPlace;

/* Which profile counts: after each look comes a step, and before the first one. */
enum {
    DCONFDB_PROFILE_NAMED, /* look at the one that is named */
    DCONFDB_PROFILE_OWN,   /* .. that in the store's folder */
    DCONFDB_PROFILE_EVERYONES,
    DCONFDB_PROFILE_USERS,  /* the line `user-db:user` counts */
    DCONFDB_PROFILE_COUNTS, /* the one that was looked at does */
    DCONFDB_PROFILE_NO_DATABASE,
    DCONFDB_PROFILE_REFUSED,
    DCONFDB_PROFILE_BEGINS,    /* none was looked at */
    DCONFDB_PROFILE_MANDATORY, /* look at an administrator's, of dconf's kind */
    DCONFDB_PROFILE_PATH,      /* .. that of $DCONF_PROFILE, a path */
    DCONFDB_PROFILE_RUNTIME,   /* .. the session's */
    DCONFDB_PROFILE_SYSTEM,    /* .. the machine's of that name */
    DCONFDB_PROFILE_DATA       /* .. in a folder of $XDG_DATA_DIRS */
};

/* A look at one, and what is known of it. */
typedef struct {
    uint32_t which;
    uint32_t errnum;           /* by which it can't be read, or 0 */
    size_t dir;                /* of DATA, which folder: counted from 0 */
    bool is_there;
    bool is_lenient, has_kept; /* of whoever opens the store; which has kept a fault of a profile */
    bool lists;                /* it isn't looked at: all that may count are listed, as if none were there */
} DconfdbProfileLook;

/* What comes first, or after a look; and what is told of that: why the one that was looked at isn't the profile. */
typedef struct {
    DconfdbPath path; /* of a look that comes */
    DconfdbPath name; /* by which it is told */
    size_t dir;       /* of a look that comes, for the next one */
    uint32_t step;
    uint32_t telling, errnum;
    bool looks;    /* another one is looked at: which one `step` says, */
    bool has_path; /* and if there is no such place there is nothing to look at */
} DconfdbProfileNext;

void dconfdb_profile_step(const DconfdbPlace *place, const DconfdbProfileLook *look, DconfdbProfileNext *next);

/* The path of a database's file, by that of the profile that names it; and whether it is the user's, which can be changed, and comes first. `flag` is
 * the path of the flag of dconf's readers, which who replaces the file sets then; empty: there are none. Kind and name are those of a
 * DconfdbName. */
bool dconfdb_database_path(const DconfdbPlace *place, const uint8_t *profile, size_t profile_len, uint32_t kind, const uint8_t *name,
                           size_t name_len, DconfdbPath *path, DconfdbPath *flag);

/* The user's file after all changes, each made in turn, or none, and without locks. `len` as
 * dconfdb_list has it. `is_same`: it says no more than was there, since the user's database has what each of them asks for, or
 * since `old`, what its file holds, is the same bytes. MEMORY, BAD_PATH to TOO_BIG, BAD_VALUE, and then only `at` is written: the
 * index of the change at fault, or `changes_len` where none is. */
uint32_t dconfdb_change(const DconfdbLayer *layers, size_t n, bool writable, const DconfdbChange *changes, size_t changes_len,
                        const uint8_t *old, size_t old_len, uint8_t *room, size_t room_len, size_t *len, size_t *at, bool *is_same);

/* Whether the user's database has what a change asks for already: this value, whatever its bytes, or none, or none below the directory.
 * At a path that is no key's there is none. `writable`: the first layer is the user's. `may_be`: a write may have left it there; else it isn't asked,
 * and has not. MEMORY, and then it has not. */
uint32_t dconfdb_is_made(const DconfdbLayer *layers, size_t n, bool writable, bool may_be, const DconfdbChange *change, bool *is);

/* What stands at the name of the user's file. */
enum {
    DCONFDB_USERS_THERE,
    DCONFDB_USERS_MISSING,
    DCONFDB_USERS_UNREADABLE, /* it can't be said */
    DCONFDB_USERS_UNKNOWN,    /* nobody looked */
    DCONFDB_USERS_NOWHERE     /* no database is the user's */
};

/* What is done for changes, from their beginning to their end. */
enum {
    DCONFDB_COURSE_BEGINS,
    DCONFDB_COURSE_LOOK,    /* what stands at the name of the user's file? */
    DCONFDB_COURSE_CHANGE,  /* take the lock, and change the file in its turn: is it made? */
    DCONFDB_COURSE_TURN,    /* the same with the lock that is had */
    DCONFDB_COURSE_REFRESH, /* no file is to be made; look at the files: could they be read? */
    DCONFDB_COURSE_WELL,    /* is nothing wrong with the changes? */
    DCONFDB_COURSE_SETTLE,  /* bring to the disk that there is no file: is that done? */
    DCONFDB_COURSE_DONE,    /* over: what they ask for is there */
    DCONFDB_COURSE_FAILED   /* over: a fault is told */
};

/* What is known. */
typedef struct {
    bool has_edits;
    bool has_user;    /* a database is the user's */
    bool is_locked;   /* the lock is had */
    bool is_unsynced; /* nothing is brought to the disk by this store */
} DconfdbCourse;

/* The task that is due after that one, by its answer, of the first any will do; and by what stands at the name: that nobody looked, or, after
 * a look, what was seen. */
uint32_t dconfdb_course_after(uint32_t task, bool yes, uint32_t users, const DconfdbChange *changes, size_t n, const DconfdbCourse *known);

/* The first of these changes at whose path something else is seen through the layers than through the expected ones:
 * another value, or one where none was, or the key is locked through one of them alone. Of a path that ends in '/' each
 * key below it that a database has is asked. `changed` says whether there is one, and `at` is its index, or stays. A path
 * of no key and no directory is passed over. MEMORY, and then nothing is written. */
uint32_t dconfdb_changed_since(const DconfdbLayer *expected, size_t expected_n, const DconfdbLayer *layers, size_t n,
                               const DconfdbChange *changes, size_t changes_len, bool *changed, size_t *at);

/* A turn of which nothing is done yet, and what comes first. Whatever is answered, and wherever it is cut off: a crash at any moment
 * leaves the old bytes or the new ones under NAME, whole. It ends after at most 11 steps and one for each byte. */
void dconfdb_turn_begin(DconfdbTurn *turn, DconfdbStep *step);

/* Takes the answer to the step: a fault, or 0 and the number that the step asks for. A fault says little: the step
 * may have been done. And what comes next. */
void dconfdb_turn_answered(DconfdbTurn *turn, uint32_t fault, size_t n, DconfdbStep *step);

/* ---- machines: each says its first step, C carries that out and gives the answer, and is told the next one. C owns them, and nobody but
 * these calls writes their fields; begin with all bits 0. They can be copied. Which steps may come, whatever is
 * answered, is proved (crates/dconf_steps, crates/dconf_waits). */

/* A step: which one, and the file, the edit or the fault that it names, or 0. */
typedef struct {
    uint32_t kind;
    size_t number;
} DconfdbNext;

/* A look at the files of a store. */
typedef struct {
    uint32_t stage;
    size_t at, count;
    bool has_old, in_turn, is_lenient, is_newer;
} DconfdbRefresh;

/* Its steps. `number` is the file. */
enum {
    DCONFDB_LOOK_STAT,    /* is it the file of which the old part was made, as far as stat() says? */
    DCONFDB_LOOK_READ,    /* yes: what it holds is had, be it nothing */
    DCONFDB_LOOK_COMPARE, /* is what was read what the old part was made of? */
    DCONFDB_LOOK_KEEP,    /* take the old part */
    DCONFDB_LOOK_OPEN,    /* make a part of what was read */
    DCONFDB_LOOK_FAILED,  /* over: the old snapshot stays */
    DCONFDB_LOOK_SAME,    /* over: each part is the old one */
    DCONFDB_LOOK_NEWER    /* over: all parts are had, and are the newer snapshot */
};

/* A look at so many files. `has_old`: there is an old snapshot. `in_turn`: the first file is read whatever stat()
 * says, since it is this program's turn to change it. `is_lenient`: a file that can't be read by a fault of its own counts as nothing. */
void dconfdb_refresh_begin(DconfdbRefresh *refresh, size_t count, bool has_old, bool in_turn, bool is_lenient, DconfdbNext *step);

/* Takes the answer, or the errno by which the step failed, or 0. That is no; but to a lenient look a file that can't be read by a fault of its own
 * is had, and counts as nothing. */
void dconfdb_refresh_answered(DconfdbRefresh *refresh, bool yes, uint32_t fault, DconfdbNext *step);

/* ---- files, by what the system says of them */

/* A time, as it is noted. */
typedef struct {
    uint64_t seconds, nanoseconds;
} DconfdbFileTime;

/* What the system says of a name without reading its file. */
typedef struct {
    uint64_t device, inode, size;
    DconfdbFileTime written, touched; /* `touched`: when anything of it changed, which nobody can set */
    bool is_there;
} DconfdbFileStamp;

/* Whether a file is the one that was read. */
enum {
    DCONFDB_FILE_SAME,
    DCONFDB_FILE_OTHER, /* it is another one, or changed */
    DCONFDB_FILE_UNSURE /* it looks like the same, but had changed so shortly before it was read that a change since then has the same time */
};

/* `opened`: when the reading of `old` began, or earlier: nanoseconds since 1970, by the clock by which the system notes times.
 * `is_held`: the file has been open or mapped since then, so that no other one has its number; then it is the same whoever's it is. */
uint32_t dconfdb_same_file(const DconfdbFileStamp *old, const DconfdbFileStamp *now, uint64_t opened, bool is_held);

/* The same of several files at once, by what is known of those before, SAME at first, and of one more: SAME only if each is, and OTHER if any is. */
uint32_t dconfdb_same_among(uint32_t before, uint32_t is);

/* What is known of a file of which something was made, and of what was read of it now. */
typedef struct {
    uint64_t opened;                 /* as dconfdb_same_file has it, of what was read then */
    uint32_t fault;                  /* the errno by which it can't be looked at now; 0: it can */
    uint32_t code, errnum;           /* what was wrong with it then: zeros, if nothing was, or if another file has its name */
    uint32_t read_code, read_errnum; /* why it can't be read now: zeros, if it can */
    bool is_held;
    bool has_bytes; /* what was read now is what was read then */
} DconfdbPartSeen;

/* What for it is asked. */
enum {
    DCONFDB_PART_KEEP, /* to keep what was made of it, without reading it */
    DCONFDB_PART_TAKE, /* the same once it was read */
    DCONFDB_PART_TELL, /* to say whether it is the newest */
    DCONFDB_PART_TRY   /* to know whether it is the file of a change that was perhaps made */
};

/* What it is. */
enum {
    DCONFDB_BESIDE_SAME,
    DCONFDB_BESIDE_OTHER,      /* another one, or perhaps */
    DCONFDB_BESIDE_IF_READABLE /* the same, if this process may still read it: its owner, permissions or names changed, and it is held */
};

uint32_t dconfdb_beside(uint32_t purpose, const DconfdbFileStamp *old, const DconfdbFileStamp *now, const DconfdbPartSeen *seen);

/* Of a file that is IF_READABLE: whether it is the same, as this process may read it or not; and by what it is known from then on: what changed of it isn't
 * asked of again until more does. */
bool dconfdb_known_after(const DconfdbFileStamp *old, const DconfdbFileStamp *now, bool may_be_read, DconfdbFileStamp *known);

/* Whether both are one file, whatever changed of it. */
bool dconfdb_is_one_file(const DconfdbFileStamp *one, const DconfdbFileStamp *other);

/* The state of a file that was made, once it was given its name, by what has that name now: as that says, if it is the file; else as it was. */
void dconfdb_placed(const DconfdbFileStamp *named, DconfdbFileStamp *made);

/* Which file of a store is read. */
enum {
    DCONFDB_SIZE_MACHINE, /* it says in one word which kind of store the machine has */
    DCONFDB_SIZE_PROFILE,
    DCONFDB_SIZE_DATABASE, /* of a site */
    DCONFDB_SIZE_USERS     /* the user's, which is replaced here */
};

/* A file of more bytes isn't read. `may_map`: a large one is mapped. */
uint64_t dconfdb_largest(uint32_t kind, bool *may_map);

/* What comes after a call that reads or writes. */
enum {
    DCONFDB_MOVES_ON,  /* another one, with the rest */
    DCONFDB_MOVED_ALL, /* none: all that are wanted were moved */
    DCONFDB_MOVED_END, /* none: it moved nothing, as there are no more, or there is no room */
    DCONFDB_MOVE_FAILED
};

/* Of the bytes that are wanted `at` were moved before, and then were now. `fault`: the errno by which the call failed; 0: it moved `count`. What a signal
 * interrupted moved nothing, and is made again. */
uint32_t dconfdb_moved(size_t wanted, size_t *at, uint32_t fault, size_t count);

/* Whether a file is cut off behind so many bytes, which were written from its start on: `stood` were in it before, or SIZE_MAX if nobody knows. */
bool dconfdb_is_cut(size_t stood, size_t written);

/* The nanoseconds of a time since the beginning of its clock; 0 of one before that, and of one that 64 bits don't hold the most that they do. */
uint64_t dconfdb_nanoseconds(const DconfdbFileTime *time);

/* What stands under a name. `is_read`: it is the very file that was read. */
typedef struct {
    uint32_t user, group, bits;
    bool is_there, is_regular, is_link, is_read;
} DconfdbOldFile;

typedef struct {
    uint32_t user, group;
} DconfdbFileOwner;

/* Whose a new file is, and its permission bits. Only root can give it its user. */
typedef struct {
    uint32_t user, group, bits;
} DconfdbNewFile;

/* By what has the old file's name, of which a link is not followed at first. `above`: whose the folder is. `is_bad`: something was wrong with it, so
 * that it is set aside, be it a link; then the bits are 512 more, as a turn asks for them. Gives 0, and then `given` is written; or an errno: EACCES, root
 * would give it to whom it was not read from; EAGAIN, what was read is another file's by now; or ELOOP, it is a link, and is asked of once more by what
 * is there where that leads. */
uint32_t dconfdb_owner_and_bits(const DconfdbOldFile *old, const DconfdbFileOwner *above, bool is_root, bool is_bad, DconfdbNewFile *given);

/* What was just made, and is to become somebody's. */
enum {
    DCONFDB_MADE_LOCK, /* of a folder, whose owner's and group's it is to be: who may write there may take it. What fails is passed over */
    DCONFDB_MADE_FILE, /* in another one's place */
    DCONFDB_MADE_FOLDER /* which root makes in another's */
};

/* What is known of it. */
typedef struct {
    DconfdbNewFile wanted; /* whose it is to be, and its bits; of a lock and a folder, whose the folder above is, and the bits of that */
    DconfdbNewFile made;   /* whose it is, and its bits; before it is made, who makes it */
    uint32_t above;        /* the group of the folder above, */
    bool gives_group;      /* which that hands on to what is made in it */
    bool is_root;          /* root makes it */
    bool is_beside;        /* it is on the device of the folder above, */
    bool is_empty;         /* and nothing is in it */
} DconfdbMadeFile;

/* Its steps. */
enum {
    DCONFDB_HANDING_BEGINS,
    DCONFDB_HANDING_MAKE,  /* make it with the bits `number`, and look at it */
    DCONFDB_HANDING_USER,  /* give it its user, */
    DCONFDB_HANDING_GROUP, /* its group, */
    DCONFDB_HANDING_BOTH,  /* or both at once, */
    DCONFDB_HANDING_BITS,  /* and the bits `number` */
    DCONFDB_HANDING_DONE,  /* over: it is as it can be; `number` is 0 */
    DCONFDB_HANDING_FAILED /* over, by the errno `number` */
};

/* The step after that one, by its errno, or 0. Before a file has its group nobody may do more with it than he will. */
uint32_t dconfdb_handing_after(uint32_t what, uint32_t done, uint32_t fault, const DconfdbMadeFile *file, uint32_t *number);

/* An edit that is asked for, and what is known of its key. */
typedef struct {
    bool sets;     /* it sets a value; else it takes one away */
    bool may;      /* its key may be written; a reset of any other is left out */
    bool is_same;  /* it says what the newest edit says that waits of its key; or, where none waits, the user has that by what was seen last */
    bool waits;    /* one waits of its key */
    bool is_alone; /* the newest of them is alone in its change */
    bool is_taken; /* somebody writes that one already */
} DconfdbNewEdit;

/* What becomes of a change that is asked for. */
enum {
    DCONFDB_ENTRY_REFUSED, /* it sets a key that may not be written */
    DCONFDB_ENTRY_EMPTY,   /* nothing of it is left */
    DCONFDB_ENTRY_RENEWS,  /* the one that waits counts as set now */
    DCONFDB_ENTRY_ASKS,    /* it waits, though nothing is seen otherwise: others may have changed the key, and nobody noticed yet */
    DCONFDB_ENTRY_WAITS
};

/* `is_there`: all that it asks for is there already, so that nothing is to be written: the user has it, and no other edit of its keys waits. Of one
 * edit WAITS says that something else is seen by it, which is told, and EMPTY that it is left out. */
uint32_t dconfdb_entry(const DconfdbNewEdit *edits, size_t count, bool *is_there);

/* What becomes of what waits after a change that was not made, by the header's code of what it failed by, and its errno: an answer to
 * dconfdb_queue_answered. Nothing is refused but for a fault that stays. */
uint32_t dconfdb_verdict(uint32_t code, uint32_t fault);

/* What the system says of what has a name, or is open; of some purposes `fault` alone counts. */
typedef struct {
    uint32_t fault; /* the errno by which it could not be done, or looked at; 0: it was */
    uint32_t mode, user;
    uint64_t links, size;
    uint64_t most;  /* a file of more bytes isn't read */
    uint64_t tried; /* how many names were tried before this one, or how many links were followed on the way */
    bool may_map;
    bool may_stop; /* its head may say that the rest isn't wanted */
    bool is_named; /* the name still stands for what is open; or what has the name is the same file; or the path has no link */
    bool is_moved; /* the path of the folder that it is in leads elsewhere by now */
    bool is_root;  /* root asks */
    bool may_make; /* what is missing may be made */
} DconfdbStood;

/* So many links are followed on a way. */
enum { DCONFDB_MOST_LINKS = 40 };

/* What for it is asked. */
enum {
    DCONFDB_TO_LOOK,      /* something is to be there, or not */
    DCONFDB_TO_OPEN,      /* a file, by its name, is to be opened and read */
    DCONFDB_TO_READ,      /* an open file is to be read */
    DCONFDB_TO_LOCK,      /* the lock's file was opened */
    DCONFDB_TO_HOLD,      /* it is locked */
    DCONFDB_TO_FOLLOW,    /* a link is to be followed that is in this folder */
    DCONFDB_TO_MAKE_ROOM, /* what had the new file's name was removed */
    DCONFDB_TO_EXCHANGE,  /* a file got another name, if that is free, or changed places with what has the other one */
    DCONFDB_TO_MAKE,      /* a folder was made */
    DCONFDB_TO_NAME,      /* it got its name, if that was free */
    DCONFDB_TO_REPLACE,   /* the same, or it took the place of an empty folder */
    DCONFDB_TO_SET_ASIDE,  /* a file got one of the names NAME~1, NAME~2 and so on, too; or that is the same file (`is_named`) */
    DCONFDB_TO_MOVE_ASIDE, /* a folder got such a name */
    DCONFDB_TO_MAKE_NAMED, /* something was made by one of the names that are tried, and gets its own later */
    DCONFDB_TO_ENTER,      /* a folder on the way was opened */
    DCONFDB_TO_READ_LINK,  /* what is no folder is looked at, to be read as a link */
    DCONFDB_TO_MAKE_IN,    /* a folder is to be made in this one */
    DCONFDB_TO_OPEN_FOLDER, /* a folder was opened by its path */
    DCONFDB_TO_SYNC_NAME    /* a folder's name was brought to the disk, by the folder above it */
};

/* What becomes of it. */
enum {
    DCONFDB_IS_GOOD,    /* it is as it is to be: it is read, or the lock is had, or the link is followed */
    DCONFDB_IS_NOTHING, /* nothing is there that counts: no file, or no bytes, or no lock of that name any more; or nothing has to be made; or, of a
                         * folder on the way, that is to be made */
    DCONFDB_IS_MAPPED,  /* it is mapped, if the file system can do that; or else read */
    DCONFDB_IS_HEAD,    /* its head is read, and then the rest, if it is wanted */
    DCONFDB_IS_OTHER,   /* it is done in another way: what has the name loses it, or gets another one; the next name is tried; a folder is made for its
                         * owner, or its path gone through; what stands there may be a link */
    DCONFDB_IS_FAULT    /* it fails by the errno `fault`, which else is 0 */
};

uint32_t dconfdb_standing(uint32_t purpose, const DconfdbStood *stood, uint32_t *fault);

/* What is to be on the disk. */
enum {
    DCONFDB_TO_BRING_MADE, /* a folder that is made in another one */
    DCONFDB_TO_BRING_FILE, /* a file, by its name in a folder */
    DCONFDB_TO_BRING_BOTH  /* the same, and the folder's name */
};

/* What is done for that, one after the other. */
enum {
    DCONFDB_BRING_BEGINS,
    DCONFDB_BRING_NAME,   /* the name of the folder is synced, by the folder above it */
    DCONFDB_BRING_MAKE,   /* what is missing is made in the folder */
    DCONFDB_BRING_FILE,   /* the file is synced */
    DCONFDB_BRING_FOLDER, /* the folder is */
    DCONFDB_BRING_OVER    /* it is over, by the errno of what was done last, or 0 */
};

/* What is done next, once that was done with that errno. A file is synced by itself only if there is one that can be read (`has_file`). */
uint32_t dconfdb_bring_after(uint32_t what, uint32_t done, uint32_t fault, bool has_file);

/* Whether what is wrong with the profile, by its code in the library's header, keeps the files of a store from being listed. */
bool dconfdb_is_list_refused(uint32_t code);

/* What is asked of a change before it is written, in this order, and what came of it; and of its notes. */
enum {
    DCONFDB_MAKING_EXPECT,    /* is the same seen at its paths as was expected? */
    DCONFDB_MAKING_LEAVE_OUT, /* are edits left, once those are left out that others overtook? */
    DCONFDB_MAKING_BYTES,     /* are there bytes of the file with them? */
    DCONFDB_MAKING_COMPARE,   /* is all that they say there already? */
    DCONFDB_MAKING_OPEN,      /* do the bytes open? */
    DCONFDB_MAKING_READY,     /* over: they are to be written */
    DCONFDB_MAKING_NOTHING,   /* over: nothing is to be written */
    DCONFDB_MAKING_FAILED,    /* over: a fault is told */
    DCONFDB_MAKING_BEGINS,    /* nothing is asked yet; any answer will do */
    DCONFDB_MAKING_ENDED,     /* its turn ends: is what it asks for in the file? */
    DCONFDB_MAKING_NOTE,      /* is there a note of all that it asks for? */
    DCONFDB_MAKING_WRITE,     /* are the notes written? */
    DCONFDB_MAKING_NOTED,     /* over: they are */
    DCONFDB_MAKING_UNNOTED    /* over: they aren't, and what others changed is known still */
};

/* The answers. */
enum {
    DCONFDB_FOUND_YES,
    DCONFDB_FOUND_NO,
    DCONFDB_FOUND_FAULT
};

/* What is asked after that answer, or what came of it. `makes_file`: one is to be made; else it is only said what is wrong with the
 * change. `is_unsettled`: a change that failed may have left the file so, and it is written once more. `is_expected`: something is expected to be
 * seen at its paths, and other settings are the newest by now. */
uint32_t dconfdb_making_after(bool makes_file, bool is_unsettled, bool is_expected, uint32_t ask, uint32_t found);

/* What a program has of a change. */
typedef struct {
    uint32_t newest;   /* which settings are the newest */
    uint32_t told;     /* what is told */
    uint32_t outcome;  /* what has become of the file, as the header's DconfdbOutcome */
    bool is_unsettled; /* the file may not be on the disk */
    bool is_there;     /* what was asked for is in the file */
    bool keeps_fault;  /* what was wrong with the old file still is: it has another name now */
} DconfdbEnding;

enum {
    DCONFDB_NEWEST_OLD,   /* those from before the change */
    DCONFDB_NEWEST_NEWER, /* those with it */
    DCONFDB_NEWEST_TRIED  /* those from before, as far as is known: a later look may find those with it */
};

enum {
    DCONFDB_TOLD_NOTHING,   /* it is made */
    DCONFDB_TOLD_FIRST,     /* the first fault, as it was */
    DCONFDB_TOLD_BAD_WRITE, /* a write that wrote nothing, or more than there was */
    DCONFDB_TOLD_EITHER,    /* that the file is perhaps changed, by the first fault */
    DCONFDB_TOLD_UNSETTLED, /* .. changed, but perhaps not on the disk */
    DCONFDB_TOLD_UNSYNCED,  /* .. as it was to be, but perhaps not on the disk */
    DCONFDB_TOLD_ALREADY    /* the first fault was told when it was met */
};

/* By a turn's outcome and its first fault. `before`: a change before this one may not be on the disk. `is_aside`: the old file has another
 * name. */
void dconfdb_ending(uint32_t outcome, uint32_t fault, bool before, bool is_aside, DconfdbEnding *ending);

/* A fault of which a program is told, and what is known of it. */
typedef struct {
    uint32_t of;
    uint32_t number;        /* the errno; of a call or a text, the number of its fault; 0 of a look that failed by no errno */
    uint32_t told, outcome; /* of a change that ended, as DconfdbEnding has them */
    uint32_t wait;          /* of the lock: how many milliseconds it was waited for */
    uint32_t looked;        /* .. the errno by which its file can't be looked at, or 0 */
    uint32_t asked;         /* of a folder: what was asked to know it, as dconfdb_place said before anything was */
    bool is_there;          /* of the lock: its file is there */
    bool has_user;          /* .. a database is the user's */
    bool has_text;          /* of a call: the number has a text, */
    bool has_line;          /* a line is at fault, */
    bool has_rule;          /* it may break a rule of sound databases, */
    bool has_item;          /* and an item does */
    bool has_edit;          /* of edits: one is at fault */
    bool is_given;          /* of a folder: somebody gives it */
} DconfdbFaultMet;

enum {
    DCONFDB_FAULT_OF_FILE,
    DCONFDB_FAULT_OF_LOCK,
    DCONFDB_FAULT_OF_CALL,
    DCONFDB_FAULT_OF_CHANGE, /* that ended */
    DCONFDB_FAULT_OF_EDITS,  /* .. of dconfdb_change */
    DCONFDB_FAULT_OF_FOLDER, /* a store's, which is looked for */
    DCONFDB_FAULT_OF_KIND,   /* .. and its kind */
    DCONFDB_FAULT_OF_TEXT,   /* of dconfdb_parse_value */
    DCONFDB_FAULT_OF_EXPECTED /* of dconfdb_changed_since, which found an edit's path: `number` is what it gave */
};

/* Which sentence is said. */
enum {
    DCONFDB_SAYS_NOTHING, /* there is no fault */
    DCONFDB_SAYS_ALREADY, /* the fault was told when it was met */
    DCONFDB_SAYS_NO_MEMORY,
    DCONFDB_SAYS_TOO_BIG,
    DCONFDB_SAYS_SYSTEM, /* what the system says of the errno */
    DCONFDB_SAYS_NO_FILE, /* the lock is no regular file */
    DCONFDB_SAYS_TEN_SECONDS, /* others have been changing it for so long, */
    DCONFDB_SAYS_BUSY,        /* or for so many milliseconds */
    DCONFDB_SAYS_EITHER,      /* it is perhaps replaced, */
    DCONFDB_SAYS_UNSETTLED,   /* or replaced, but perhaps not on the disk, */
    DCONFDB_SAYS_UNSYNCED,    /* or as it was to be, but perhaps not on the disk; and what the system says */
    DCONFDB_SAYS_DOUBLE,
    DCONFDB_SAYS_NUMBER,  /* the fault's number */
    DCONFDB_SAYS_TEXT,    /* the number's text, */
    DCONFDB_SAYS_TEXT_AT, /* at that line */
    DCONFDB_SAYS_RULE,    /* which rule is broken, */
    DCONFDB_SAYS_RULE_AT, /* and by which item */
    DCONFDB_SAYS_NO_FOLDER, /* nothing names one */
    DCONFDB_SAYS_NO_KIND,   /* the machine's file names none */
    DCONFDB_SAYS_NOT_UTF8,  /* the text isn't UTF-8; */
    DCONFDB_SAYS_TOO_DEEP,  /* its value is nested too deep, or too long; */
    DCONFDB_SAYS_HAS_DOUBLE, /* it holds a double; */
    DCONFDB_SAYS_NO_VALUE,   /* it is no value, */
    DCONFDB_SAYS_NO_VALUE_AT, /* by what is in one place of it */
    DCONFDB_SAYS_CHANGED      /* something else is seen there than was expected */
};

/* Which name stands in front. */
enum {
    DCONFDB_NAMES_IT, /* that which is at fault, or the user's file */
    DCONFDB_NAMES_LOCK,
    DCONFDB_NAMES_FOLDER,
    DCONFDB_NAMES_EDIT, /* an edit's path */
    DCONFDB_NAMES_HOME, /* the user's home, */
    DCONFDB_NAMES_STORE, /* or the folder that the environment names: what names the one that was looked for */
    DCONFDB_NAMES
};

typedef struct {
    uint32_t says;
    uint32_t code;    /* the header's */
    uint32_t errnum;  /* 0: no call of the system failed */
    uint32_t outcome; /* the header's */
    uint32_t names;
    bool is_placed; /* the edit, the database or the line at fault is told */
} DconfdbSentence;

void dconfdb_sentence(const DconfdbFaultMet *met, DconfdbSentence *sentence);

/* Whether what the user's file is, is on the disk: what is asked of it, in this order, and what is known then. */
enum {
    DCONFDB_SETTLING_BEGINS,
    DCONFDB_SETTLING_NOTES,  /* did who left the file note that it is there? */
    DCONFDB_SETTLING_SETTLE, /* bring it there, and the names of its folder; is that done? */
    DCONFDB_SETTLING_NAMES,  /* bring the names of its folder there, since the file can't be read; is that done? */
    DCONFDB_SETTLING_LOOK,   /* is it the same file still? */
    DCONFDB_SETTLING_KNOWN,  /* over: it is there, and that is known from now on */
    DCONFDB_SETTLING_DONE,   /* over: all was done that is to be done */
    DCONFDB_SETTLING_FAILED  /* over: nobody knows that it is there */
};

/* What is known. */
typedef struct {
    uint32_t errnum;  /* the errno by which what has its name can't be read; 0: it can */
    bool has_file;    /* a database is the user's */
    bool is_known;    /* that its file is on the disk */
    bool is_unsynced; /* nothing is brought to the disk by this store */
    bool is_in_turn;  /* nobody else changes the file meanwhile */
    bool asks_only;   /* nothing is to be brought there now */
} DconfdbSettling;

/* The task that is due after that one, by its answer; of the first any will do. */
uint32_t dconfdb_settling_after(uint32_t task, bool yes, const DconfdbSettling *known);

/* What a store knows beside what it shows: all bits 0 at first. Nobody else writes its fields. */
typedef struct {
    uint64_t noted;    /* the time of what it noted last; 0: it noted nothing */
    bool has_news;     /* others changed something, and nobody was told yet */
    bool has_seen;     /* it remembers what others changed */
    bool has_tried;    /* it keeps what its file is by a change of its own that is perhaps made */
    bool is_unsettled; /* its last change is perhaps not on the disk */
    bool is_made;      /* what a look just found is what it kept: that change was made */
} DconfdbStoreKnown;

/* What happened to it. */
enum {
    DCONFDB_STORE_FOUND,  /* a look found other files: is that news? */
    DCONFDB_STORE_TOLD,   /* whoever asked for news was told */
    DCONFDB_STORE_SEEN,   /* others changed something: is that remembered, for which memory may be lacking? */
    DCONFDB_STORE_NOTED,  /* it noted what was set: is what was asked for in its file? `number` is the latest time of that, or 0 */
    DCONFDB_STORE_ENDED,  /* a change did: may it not be on the disk? `number` says which settings are the newest */
    DCONFDB_STORE_FOLLOWS, /* it was opened in the place of `old`: are they of the same user's file? */
    DCONFDB_STORE_COMPARED /* a look found another file: is it that of the change that is perhaps made? */
};

void dconfdb_store_after(DconfdbStoreKnown *known, uint32_t what, bool yes, uint64_t number, const DconfdbStoreKnown *old);

/* Calls to which a fault may be another thing than that the change failed. */
enum {
    DCONFDB_CALL_OPEN,      /* of a file that is to be read, without a wait */
    DCONFDB_CALL_LOCK,      /* without a wait */
    DCONFDB_CALL_SET_ASIDE, /* gives what has the name another one, too */
    DCONFDB_CALL_PLACE      /* the new file, which has another name, and what has the name change places */
};

/* What it is to them. */
enum {
    DCONFDB_ANSWER_OWN, /* as the classes, of who changes a file, or opens one to read it */
    DCONFDB_ANSWER_SOON,
    DCONFDB_ANSWER_LATER,
    DCONFDB_ANSWER_LEASED,   /* another program has a lease on the file, and was asked to give it back */
    DCONFDB_ANSWER_TAKEN,    /* others have the lock */
    DCONFDB_ANSWER_NAMELESS, /* what has the name can have no other one beside it: both files change places */
    DCONFDB_ANSWER_NOTHING,  /* nothing has the name: nothing is set aside */
    DCONFDB_ANSWER_UNSURE    /* the system may have done it all the same: nobody knows which file has the name */
};

/* What a call leaves that gives the old file another name, too, or by which the new one, which has that other name, and the old one change places. */
typedef struct {
    uint32_t fault; /* the errno by which the step failed; 0: it didn't */
    bool is_nameless; /* what has the name can have no other one beside it */
    bool is_aside;    /* the old file has the other name */
    bool goes;        /* the other name is the new file's still, and is to go */
} DconfdbRenamed;

/* Each errno of a call, or 0, has one answer. `renamed` is of SET_ASIDE and PLACE. */
uint32_t dconfdb_fault_answer(uint32_t call, uint32_t fault, DconfdbRenamed *renamed);

/* An edit that waits, and what became of it. Of each change the first edit says whether it is refused. */
typedef struct {
    size_t change; /* the number of its change's first edit */
    bool sets, is_left_out, is_refused;
} DconfdbQueued;

/* The changes that wait to be written. Nobody else writes its fields. */
typedef struct {
    struct {
        uint32_t stage;
        size_t at;
        bool has_marked;
    } queue;
    bool has_taken;
    bool is_closed; /* nobody who has this program's rights may write there */
} DconfdbQueue;

/* Its steps. `number` is the edit. */
enum {
    DCONFDB_QUEUE_TAKE,    /* take it for the change that is to be written next */
    DCONFDB_QUEUE_PASS,    /* don't */
    DCONFDB_QUEUE_WRITE,   /* write those that were taken since the last time, as one change; there are some */
    DCONFDB_QUEUE_ASK,     /* may its key be written? */
    DCONFDB_QUEUE_WRITTEN, /* over: all changes that are not refused are written */
    DCONFDB_QUEUE_WAITING  /* over: none is written, and those that are not refused go on waiting */
};

/* Its answers. */
enum {
    DCONFDB_QUEUE_YES,
    DCONFDB_QUEUE_LOCKED, /* of a write: a key was locked. Of a key: it may not be written */
    DCONFDB_QUEUE_FAULT,  /* an edit has a fault of its own: that one, `at`, of those that were taken */
    DCONFDB_QUEUE_LATER,  /* nothing was written, by no fault of an edit */
    DCONFDB_QUEUE_CLOSED, /* of a write: nobody who has this program's rights may write there, so no key may be written */
    DCONFDB_QUEUE_FULL,   /* of a write: the file would be too large; the newest edit that sets something has that fault */
    DCONFDB_QUEUE_SOON,   /* as LATER, but that passes in a moment, mostly */
    DCONFDB_QUEUE_BEGINS  /* nothing is done yet of these edits */
};

typedef struct {
    uint32_t kind;
    size_t number;
    bool keeps_fault; /* what the write just failed by is kept, in the place of what was */
    bool tells;       /* it is over, and what is kept is told: a change is refused, or nobody may write there */
} DconfdbQueueStep;

/* It marks edits that are left out, and changes that are refused. The fault that is kept in the end is that for which the first one is. */
void dconfdb_queue_answered(DconfdbQueue *queue, DconfdbQueued *edits, size_t count, uint32_t answer, size_t at, DconfdbQueueStep *step);

/* A try to take the lock of a folder: all bits 0 at first. */
typedef struct {
    uint32_t task;
    uint32_t tried, fault; /* once it is over, for dconfdb_wait_answered */
    uint32_t openings, forks;
    bool has_made, is_again;
} DconfdbTaking;

/* Its tasks. */
enum {
    DCONFDB_TAKING_OPEN_FOLDER = 1, /* close what is open, and open the folder; EAGAIN: another thread is having children of fork() heeded */
    DCONFDB_TAKING_MAKE_FOLDER,     /* make it: it is missing, and may be made */
    DCONFDB_TAKING_OPEN,            /* open what has the lock's name there, and look at it */
    DCONFDB_TAKING_LOOK_ABOVE,      /* bring the folder's own name to the disk, and look at it */
    DCONFDB_TAKING_MAKE_UNNAMED,    /* make a file without a name, hand it over, and give it the lock's name, if that is free */
    DCONFDB_TAKING_MAKE_RENAMED,    /* the same of one with another name */
    DCONFDB_TAKING_MAKE,            /* make one by the lock's name, if that is free, and hand it over */
    DCONFDB_TAKING_LIST,            /* list it for children of fork(); a fault: one was made since the folder was opened */
    DCONFDB_TAKING_LOCK,            /* lock it */
    DCONFDB_TAKING_LOOK,            /* look whether its name is its own still (`is_named`), how many it has, and whether the folder's path leads elsewhere
                                     * (`is_moved`) */
    DCONFDB_TAKING_TAKE_NAME,       /* take the lock's name from it */
    DCONFDB_TAKING_PAUSE,           /* wait for a fifth of a millisecond: another thread forks, or is having children heeded */
    DCONFDB_TAKING_HAD,             /* over: it is had */
    DCONFDB_TAKING_NOT_YET,         /* over: it can't be locked, and what is open stays for the next try */
    DCONFDB_TAKING_NOT_HAD          /* over: what is open is to be closed */
};

/* Takes what the system says of the task, and puts the next one there. A try that is over begins anew. Who may make nothing (`may_make` false in each
 * answer) takes the lock that is there, or none, and brings nothing to the disk. */
void dconfdb_taking_answered(DconfdbTaking *taking, const DconfdbStood *stood);

/* The wait for a lock that others may have, or for a file. */
typedef struct {
    uint32_t stage, fault;
    uint64_t longest, tries, began, paused;
    uint32_t tried;
    bool is_timed;
} DconfdbWait;

/* What is waited for. */
enum {
    DCONFDB_WAIT_FOR_LOCK,    /* so many milliseconds at most */
    DCONFDB_WAIT_WITHOUT_END, /* for a lock, too */
    DCONFDB_WAIT_FOR_LEASE    /* that others have on a file, and were asked to give back: for a second */
};

/* Its steps. */
enum {
    DCONFDB_WAIT_TRY,
    DCONFDB_WAIT_PAUSE,  /* for `number` nanoseconds */
    DCONFDB_WAIT_HAD,    /* over */
    DCONFDB_WAIT_BUSY,   /* over: others had it all the time, which is told by the errno `number` */
    DCONFDB_WAIT_STOPPED /* over: a try failed, by the errno `number` */
};

/* Which call was the last of a try. */
enum {
    DCONFDB_TRIED_FILE,     /* it opens the file */
    DCONFDB_TRIED_LOCK,     /* it locks it */
    DCONFDB_TRIED_NAME,     /* its name was seen to be another file's by now, or was taken from it */
    DCONFDB_TRIED_LOCK_FILE /* it opens the lock's file */
};

/* `now`: a moment of a clock of nanoseconds that nobody sets. */
void dconfdb_wait_begin(DconfdbWait *wait, uint32_t what, uint32_t longest, uint64_t now, DconfdbNext *step);

/* `fault`: the errno of the call, or 0. `at`: when the step began. A pause counts as 50 milliseconds at most. Of a pause any call will do. */
void dconfdb_wait_answered(DconfdbWait *wait, uint32_t tried, uint32_t fault, uint64_t at, DconfdbNext *step);

/* When whoever is told of changes looks at the files. All moments are of one clock, in microseconds; 0 is none. */
typedef struct {
    uint32_t stage, owed;
    uint64_t pause, until;
    bool is_whole;
} DconfdbNotice;

/* Its steps. */
enum {
    DCONFDB_NOTICE_WATCH, /* the files that are the store's now */
    DCONFDB_NOTICE_LOOK,  /* at the files */
    DCONFDB_NOTICE_REST   /* until something happens, or that moment */
};

/* What is heard. */
enum {
    DCONFDB_NOTICE_FILE,   /* one may have changed */
    DCONFDB_NOTICE_FOLDER, /* other files may be the store's */
    DCONFDB_NOTICE_NOTHING
};

/* Gives the step; `until` is the moment of a rest, or 0; and `due` when the step is due: a moment that is over is at once. */
uint32_t dconfdb_notice_next(const DconfdbNotice *notice, bool listens, uint64_t *until, uint64_t *due);

/* What happened. */
enum {
    DCONFDB_NOTICE_HEARD, /* that event was heard since the last time */
    DCONFDB_NOTICE_ASKED, /* the same, and somebody asks for a look: so the step is no rest */
    DCONFDB_NOTICE_TIME,  /* time passed: where not all is watched, only a listener minds */
    DCONFDB_NOTICE_ANEW,  /* the files are others, which were opened */
    DCONFDB_NOTICE_BEGINS /* nothing yet: the files are watched first, and then looked at */
};

/* At any time, also amid a step; and that time passed. Gives the step. */
uint32_t dconfdb_notice_told(DconfdbNotice *notice, uint32_t what, uint32_t event, bool listens, uint64_t now);

/* Whether all files are watched, or whether the look succeeded. Gives when the next step is due, for who minds the time. */
uint64_t dconfdb_notice_answered(DconfdbNotice *notice, bool yes, uint64_t now);

/* ---- what is watched of the names on the way to a file, and what is heard of them, as DCONFDB_NOTICE_FILE, _FOLDER or _NOTHING */

typedef struct {
    uint32_t watch;
    uint32_t asked;         /* of inotify, of the folder, */
    uint32_t asked_of_file; /* and of what stands at the name itself; 0: nothing */
    uint32_t way;
    uint32_t comes; /* what is heard if something comes there */
    bool is_needed; /* without it something would be missed */
    bool is_missed; /* something is, whatever is watched */
} DconfdbWatchedName;

/* What is watched. */
enum {
    DCONFDB_WATCH_NOTHING,
    DCONFDB_WATCH_ITSELF,  /* the folder: whether it is moved, or goes */
    DCONFDB_WATCH_PASSAGE, /* what comes to a name, and that it goes */
    DCONFDB_WATCH_OWN,     /* the file's own name, also how it is written, and who may read it */
    DCONFDB_WATCH_AWAITED  /* the same, and what is made there */
};

/* Where the path goes on. */
enum {
    DCONFDB_WAY_ENDS,
    DCONFDB_WAY_FOLLOWS, /* the link */
    DCONFDB_WAY_ENTERS,  /* the folder */
    DCONFDB_WAY_STAYS,
    DCONFDB_WAY_RISES /* to the folder above */
};

/* Who opens a store, and watches its files. */
enum {
    DCONFDB_WATCHER_LIBRARY, /* for its caller */
    DCONFDB_WATCHER_MODULE,
    DCONFDB_WATCHER_CLIENT,
    DCONFDB_WATCHER_COMMAND,
    DCONFDB_WATCHER_SERVICE
};

/* Whether it minds much that happens: then a folder is waited for in /etc, too. */
bool dconfdb_minds_much(uint32_t who);

/* Whether the profile of a store that is open counts as it was read: nobody looks at it again. */
bool dconfdb_keeps_profile(uint32_t who);

/* Whether the files are watched that a store has which is open (`is_open`); else those that the store at its place has now. */
bool dconfdb_watches_store(uint32_t who, bool is_open);

/* Whether the store is opened past its bad files: the library's caller asks for that, or for no more than the names of its files (`lists`), and to all others it
 * is. */
bool dconfdb_is_lenient(uint32_t who, bool is_asked, bool lists);

/* Of a name in a folder; the root's path is empty. `minds`: much that happens is minded. `is_last`: it is the file's own name. `mode` and
 * `links` are st_mode and st_nlink of what stands there, 0 where nothing does. `is_unseen`: that can't be seen, or not where a link leads. `followed`: so
 * many links were followed on the way. `is_profile`: if the file changes, other files may be the store's. */
void dconfdb_watched_name(bool minds, const uint8_t *folder, size_t folder_len, const uint8_t *name, size_t name_len, bool is_last, bool is_unseen,
                          uint32_t mode, uint64_t links, uint64_t followed, bool is_profile, DconfdbWatchedName *watched);

/* A folder may come between the look at its name and the watch there: so the names are gone through in rounds. All bits 0 at first. */
typedef struct {
    uint32_t count;
    bool missed, more;
} DconfdbWatchRounds;

/* What happened. */
enum {
    DCONFDB_WATCHING_BEGINS,
    DCONFDB_WATCHING_NAME /* one was gone through */
};

/* What comes after a round. */
enum {
    DCONFDB_WATCHING_AGAIN,
    DCONFDB_WATCHING_WHOLE, /* over: all is watched */
    DCONFDB_WATCHING_PARTLY /* over: not all is */
};

/* Of a name: it is watched so already, or could be watched, or can't be; and something is missed without it. */
uint32_t dconfdb_watch_round(DconfdbWatchRounds *rounds, uint32_t what, bool is_known, bool is_had, bool is_needed);

/* What inotify is asked for of the file itself that has the name by now, after its event; 0: nothing. `of_file`: it is of the file's own watch, and not of its
 * folder's. `has_name`: it isn't the folder's own. `is_same`: it is of the name that is watched, at which that stands by now, unless it can't be seen
 * (`is_unseen`). */
uint32_t dconfdb_asked_anew(uint32_t watch, uint32_t mask, bool of_file, bool has_name, bool is_same, bool is_unseen, uint32_t mode, uint64_t links);

/* Whether something is missed if the file itself can't be watched, by errno; 0 is none. */
bool dconfdb_is_file_missed(uint32_t fault);

/* What is heard of such an event; or what was heard before, if that means more. The file could be watched that has the name by now (`fault` 0), or needn't be,
 * or not. */
uint32_t dconfdb_heard(uint32_t before, uint32_t watch, uint32_t comes, uint32_t mask, bool of_file, bool has_name, bool is_same, uint32_t fault,
                       bool is_unseen, uint32_t mode, uint64_t links);

/* What is done about the flag of dconf's readers, once the database is replaced, in this order. Each has the first byte of a file mapped, and opens the
 * database again when that is set. */
enum {
    DCONFDB_FLAG_BEGINS,
    DCONFDB_FLAG_LOOK,     /* look: may there be a file? */
    DCONFDB_FLAG_LOCK,     /* take the lock of the database's folder, if that is there and nobody has it: is it had? */
    DCONFDB_FLAG_OPEN,     /* open the file; */
    DCONFDB_FLAG_LENGTHEN, /* put a second byte there, since a reader may have made it a moment ago, and mapped nothing yet; */
    DCONFDB_FLAG_SET,      /* set its first byte; */
    DCONFDB_FLAG_REMOVE,   /* and take its name away: who has it mapped sees it, and who comes later makes another */
    DCONFDB_FLAG_OVER
};

/* The task that is due after that one, as it could be done or not; of the first any will do. `is_in_turn`: this program has the lock of the database's
 * folder by now. Else the name stays: another file may have it by now. Who had it all the time may begin behind DCONFDB_FLAG_LOCK. */
uint32_t dconfdb_flag_after(uint32_t task, bool could_be, bool is_in_turn);

/* ---- when what waits is written. All moments are of one clock, in microseconds; 0 is none. */

/* What the thread knows that writes what waits, tells, and watches the files. */
typedef struct {
    uint64_t again;    /* when a write is tried again that failed, or was not its turn */
    uint64_t moment;   /* now */
    uint64_t failed;   /* which try was the last that failed by a fault that lasts; 0: none did */
    uint64_t last_try; /* how many there were when the program began to end; UINT64_MAX: it goes on */
    bool ends;         /* the program ends, or nobody holds what the thread works for; or the thread is there for what waits alone */
    bool is_let_go;    /* nobody does, and the program goes on */
    bool waits;        /* something waits to be written */
    bool is_in_line;   /* it is in line for its turn */
    bool has_asked;    /* it has asked for that in this round, */
    bool has_untold;
    bool has_turned; /* a main context of somebody who listens: from then on what others change can be told */
    bool is_asked;   /* somebody wants a write to be tried now */
    bool asks;       /* of something that waits nobody knows whether it changes anything */
    bool is_watched; /* what others change is told without a look at the files, or is seen in the turn to write */
    bool is_others;  /* and others have theirs: who is in line goes on waiting, and who isn't has waited in vain */
} DconfdbRound;

/* Its tasks, in the order in which they come in a round. */
enum {
    DCONFDB_ROUND_BEGINS,
    DCONFDB_ROUND_TELL,
    DCONFDB_ROUND_WATCH,
    DCONFDB_ROUND_LOOK, /* at the files, before a write: what is there already needs no turn */
    DCONFDB_ROUND_TAKE, /* its turn, or go on waiting for it: is it had? */
    DCONFDB_ROUND_WRITE,
    DCONFDB_ROUND_LEAVE,  /* the line, since nothing waits any longer; it isn't to try again */
    DCONFDB_ROUND_RESTS,  /* over: until something happens */
    DCONFDB_ROUND_ENDS,   /* over for good: nothing waits */
    DCONFDB_ROUND_GIVES_UP /* the same, but what waits is given up */
};

/* Whether it writes, or is to try again, or waits for its turn: as long as it does, the program's end waits for it. */
bool dconfdb_has_work(const DconfdbRound *known);

/* The task that is due after that one. */
uint32_t dconfdb_round_after(uint32_t task, const DconfdbRound *known);

/* What else is known of a sync; the last two from when the turn is had. */
typedef struct {
    bool has_writer;   /* another thread writes what waits */
    bool has_failed;   /* a try has failed by a fault that lasts, and is to be made again later */
    bool has_store;    /* there is one, or a place for one */
    bool has_looked;   /* the files were looked at since it was asked for */
    bool is_to_settle; /* nobody knows yet that what was there already is on the disk */
} DconfdbSync;

/* Whether the files were looked at since a sync was asked for. Looks are numbered as they begin: `begun` is the number of the last one that had begun by
 * then, and `last` that of the last one that succeeded. */
bool dconfdb_has_looked_since(uint64_t begun, uint64_t last);

/* What is known of the thread that writes what waits. */
typedef struct {
    uint64_t settled, added;    /* how many changes are settled, and how many there were */
    uint32_t begun_in, process; /* the process that began it, and this one: in a child of fork() they differ */
    DconfdbSync sync;
    bool has_ended;   /* the program ends, or nobody holds what the thread works for */
    bool has_thread;
    bool has_wake;    /* there is something by which one is woken */
    bool has_line;    /* a thread of its own waits in line for the turn */
    bool is_wanted;   /* a thread is to be there */
    bool is_news;     /* something is new for it */
    bool adds;        /* something begins to wait to be written, */
    bool waits;       /* and something else did before: for that the thread is awake, or is to try again */
    bool is_owed;     /* somebody has to do it */
    bool listens;     /* somebody listens who didn't before, or whose main context didn't turn before, */
    bool has_turned;  /* and one has turned */
    bool exits;       /* the program ends */
    bool is_thread;   /* this thread is the one that writes */
    bool is_let_go;   /* nobody held it any longer, some time before */
} DconfdbWriter;

/* What is done about what waits. */
enum {
    DCONFDB_WRITER_NEED, /* about something new */
    DCONFDB_WRITER_LINE, /* to come to the turn */
    DCONFDB_WRITER_END,  /* at the end of the program, or where nobody holds it any longer */
    DCONFDB_WRITER_SYNC  /* by whoever wants to know that all is on the disk */
};

enum { DCONFDB_WRITER_BEGINS };

/* About something new, in this order. */
enum {
    DCONFDB_NEED_WAKE = 1, /* make that by which a thread is woken */
    DCONFDB_NEED_THREAD,   /* begin it */
    DCONFDB_NEED_TOLD,     /* over: it does that, and is to be woken */
    DCONFDB_NEED_HERE,     /* over: this thread does it, as no other does */
    DCONFDB_NEED_OVER      /* over: nothing is to be done, or the thread is awake */
};

/* To come to the turn. */
enum {
    DCONFDB_LINE_TRY = 1, /* ask for it, without a wait: is that over, as others don't have it? */
    DCONFDB_LINE_BEGIN,   /* begin a thread that waits in line: is there one? */
    DCONFDB_LINE_AWAIT,   /* ask that one: is its wait over? */
    DCONFDB_LINE_WAIT,    /* as TRY, but wait for it, as this isn't the thread that writes */
    DCONFDB_LINE_HAD,     /* over: the turn is had, or why not is known */
    DCONFDB_LINE_WAITS,   /* over for now: the other thread wakes this one, and nothing else does but what is due to be said */
    DCONFDB_LINE_AGAIN    /* over for now: it is asked for again when the failing says so */
};

/* At the end, in this order. */
enum {
    DCONFDB_END_MARK = 1, /* say that it ends, and ask for one more try: could it be said? */
    DCONFDB_END_ROUNDS,   /* do what is due, as this thread is the one that writes */
    DCONFDB_END_JOIN,     /* wait until the thread is over */
    DCONFDB_END_WATCH,    /* wait until all is settled, or given up: the thread is another's to wait for */
    DCONFDB_END_AWAIT,    /* wait for the thread, as long as the program goes on: is it over? */
    DCONFDB_END_LEAVE,    /* leave all to it, as it goes on */
    DCONFDB_END_REAP,     /* take it away, as it is over */
    DCONFDB_END_COUNT,    /* count what is settled: could that be done? */
    DCONFDB_END_TELL,     /* say that what was set last isn't on the disk */
    DCONFDB_END_DOUBT,    /* say that nobody knows whether it is */
    DCONFDB_END_DONE,     /* over: nothing is left to be done */
    DCONFDB_END_LEFT      /* over: the thread has it all */
};

/* By whoever wants to know that all is on the disk, in this order; in a child of fork() it is over at once, as what waits is its parent's. */
enum {
    DCONFDB_SYNC_ASK = 1, /* the thread that writes for a try now; any answer will do */
    DCONFDB_SYNC_WRITE,   /* what waits, since no other thread does */
    DCONFDB_SYNC_AWAIT,   /* that all is settled that waits now: then `settled` and `added` are known */
    DCONFDB_SYNC_TAKE,    /* the turn to look at the files: is it had? */
    DCONFDB_SYNC_LOOK,    /* at them */
    DCONFDB_SYNC_SETTLE,  /* what was there already when it was set: is it on the disk? */
    DCONFDB_SYNC_YES,     /* over: all is there */
    DCONFDB_SYNC_NO       /* over: not yet */
};

/* The task that is due after that one, by its answer; of the first any will do. */
uint32_t dconfdb_writer_after(uint32_t what, uint32_t task, bool yes, const DconfdbWriter *known);

/* What whoever looks at the files of a store does, in this order; of the first three, one comes. */
enum {
    DCONFDB_GLANCE_BEGINS,
    DCONFDB_GLANCE_REFRESH,    /* looks at the databases of the store that is open */
    DCONFDB_GLANCE_OPEN,       /* opens it anew: its profile may name other files */
    DCONFDB_GLANCE_OPEN_AGAIN, /* the same, but its profiles look like those that were read */
    DCONFDB_GLANCE_HAND,       /* hands out what is the newest */
    DCONFDB_GLANCE_HEED,       /* heeds what others changed, while own changes wait */
    DCONFDB_GLANCE_WATCH,      /* has the files watched that are the store's now */
    DCONFDB_GLANCE_SETTLE,     /* settles what waits and is there already, by the files that were read */
    DCONFDB_GLANCE_AGAIN,      /* rests a moment, and asks for the turn to look again */
    DCONFDB_GLANCE_SEEN,       /* over: it succeeded */
    DCONFDB_GLANCE_FAILED      /* over: it failed */
};

/* What is known. */
typedef struct {
    uint32_t first, second; /* what dconfdb_same_file says of the first file that may be the profile; and of one of the others that isn't the same, if there is one */
    bool is_open;
    bool keeps_profile;  /* the profile of a store that is open counts as it was read: nobody looks at it again */
    bool is_done;        /* the files were read, or the store was opened */
    bool is_shown;       /* the newest is handed out already */
    bool is_other;       /* what was handed out is another than before */
    bool waits;          /* changes wait to be written */
    bool has_same_files; /* the store that was opened has the files of the one before */
    bool is_barred;      /* another thread has the turn to look */
    bool is_amid;        /* that one changes the files: what it has seen in its turn is the newest */
    bool is_late;        /* the time is over that who looks waits for the turn */
    bool is_to_settle;   /* who looks wants to know what of that which waits is there already */
    bool was_unseen;     /* one of those files couldn't be looked at when the profile was read, */
    bool is_unseen;      /* or can't be now */
    bool is_reading;     /* who looks reads a value: it waits for nobody */
    bool is_first;       /* nothing was handed out before */
} DconfdbGlance;

/* The task that is due after that one. */
uint32_t dconfdb_glance_after(uint32_t task, const DconfdbGlance *known);

/* How many milliseconds there are until the first of two moments. False, and `wait` as it was, where neither is one. */
bool dconfdb_sleep_until(uint64_t again, uint64_t look, uint64_t now, uint64_t *wait);

/* Who waits, and for what. */
enum {
    DCONFDB_PATIENCE_ASKED, /* who sets or syncs: for the turn, or until all is written */
    DCONFDB_PATIENCE_END,   /* the program's end, or that of who holds what writes: the same */
    DCONFDB_PATIENCE_REST,  /* the program's end: for a lock that is held for moments */
    DCONFDB_PATIENCE_TURNS, /* whoever waits: until it is asked again whether others had turns */
    DCONFDB_PATIENCE_LOOKS  /* the program's end: until it asks again whether what it waits for is over */
};

/* For so many microseconds, unless others have turns meanwhile. */
uint64_t dconfdb_patience_for(uint32_t who);

/* How long it is waited until all is written: all is 0 at first but `each`. */
typedef struct {
    uint64_t end, each, latest;
    DconfdbFileTime changed;
} DconfdbPatience;

/* What was written meanwhile. */
typedef struct {
    uint64_t settled; /* how many changes are */
    uint64_t added;   /* how many there were when the wait began */
    uint64_t failed;  /* which try was the last that failed by a fault that lasts; 0: none did */
    uint64_t tries;   /* how many there were when the wait began */
    uint64_t moved;   /* when the thread that writes did, or was to try again; UINT64_MAX: nobody minds */
} DconfdbProgress;

/* Whether it is waited on: not all is settled, no later try has failed by a fault that lasts, the time isn't over, and the thread moved
 * within two seconds. It begins now: so long. Or it goes on: as long again, up to a minute, if another program had a turn since the last call, by
 * when the folder was changed, in which a turn makes and renames a file. */
bool dconfdb_patience_goes_on(DconfdbPatience *patience, const DconfdbProgress *progress, const DconfdbFileTime *changed, uint64_t now);

/* A fault that was met, and is there still: all bits 0, but for `tries`, if there is none. */
typedef struct {
    uint64_t since, pause, again; /* since when it is there; the pause before what failed is tried again, and when that is */
    uint64_t due;           /* when it will be said, if it is there then; of what was said, 0 */
    uint64_t tries, failed; /* how many tries there were, which the caller counts; and which was the last that failed by it once it lasted, or 0 */
    bool is_there, is_said;
} DconfdbFailing;

/* What is said of it now. */
enum {
    DCONFDB_FAULT_UNSAID, /* nothing: there is none, or it isn't minded yet */
    DCONFDB_FAULT_SAY,    /* it is said, once, as it lasts */
    DCONFDB_FAULT_SAID,   /* it lasts, and was said */
    DCONFDB_FAULT_OVER
};

/* It was tried again: the fault is there or not. It lasts if it is there for a second and a half, or ten seconds if it mostly passes in a
 * moment (`is_momentary`); or if nobody tries again of themselves. */
uint32_t dconfdb_failing_met(DconfdbFailing *failing, bool is_there, bool is_momentary, bool tries_again, uint64_t now);

/* When who tries again is to wake: for the next try; or, if it is woken for that, when the fault is to be said, if it is there then. 0: at no time. */
uint64_t dconfdb_wakes(const DconfdbFailing *failing, bool is_woken);

/* What is seen of a fault of files, once they were looked at, or were read as they were written. */
typedef struct {
    bool is_met;       /* it was met now */
    bool is_of_look;   /* a look failed by it; else it is of a file that was read */
    bool has_looked;   /* it was a look */
    bool is_momentary; /* it mostly passes in a moment */
    bool is_repeated;  /* the look is made again of itself */
} DconfdbFaultSeen;

/* The same of these: what mostly passes in a moment is awaited if the look is repeated of itself; and all else is said at once, since what is shown may not
 * be what the files hold. That a look failed is over by the next look alone. */
uint32_t dconfdb_failing_look(DconfdbFailing *failing, const DconfdbFaultSeen *seen, uint64_t now);

/* Whether a fault is the one that was said by that text: then it is that which is there still. */
bool dconfdb_is_same_fault(const uint8_t *said, size_t said_len, const uint8_t *text, size_t text_len);

/* Who looks at files that nobody watches. */
enum {
    DCONFDB_LOOKER_READS,
    DCONFDB_LOOKER_FAILED, /* it read, and the look failed */
    DCONFDB_LOOKER_TELLS   /* it is about to tell of a change */
};

/* When the next look is due, if this one is made, which was due in that moment, unless somebody watches the files; of TELLS, how long it is
 * waited for it. 0: none is made, as of READS before that moment. `has_opened`: the store was opened first, or could not be, and may be by now. */
uint64_t dconfdb_next_look(uint32_t looker, uint64_t due, uint64_t now, bool has_opened, bool is_at_work, bool is_watched);

/* Whether what was begun in one process is at work in this one: it has not ended, and this is no child of that by fork(). */
bool dconfdb_is_at_work(bool has_ended, uint32_t begun_in, uint32_t process);

/* What is known of who writes in the user's database. */
typedef struct {
    uint32_t begun_in, process; /* of who sets something: in which process it was begun, and in which one it is asked; */
    bool has_ended;             /* and that it has ended */
    bool has_user;              /* there is a user's database */
    bool is_closed;             /* of who writes: the write found that nobody who has this program's rights may write there */
    bool writes;                /* what waits is written, or settled, by who asks; else something is set */
} DconfdbWriting;

/* Whether somebody may write there: who sets something, or who writes what was set. */
bool dconfdb_is_open(const DconfdbWriting *known);

/* What is known of what is told. */
typedef struct {
    size_t taken;     /* how many paths were taken for the next notice */
    uint32_t list;    /* the last list that was told, as dconfdb_tell_next named it; 0: none was */
    bool is_first;    /* nobody has seen anything before */
    bool ends;        /* the program ends */
    bool is_other;    /* what is the newest is another than before */
    bool has_edits;   /* edits waited then, or wait now */
    bool is_found;    /* the paths that are seen otherwise are known; else no memory is left */
    bool has_path;    /* here is another one; else those were all */
    bool is_listened; /* somebody listens to it; or, of all, to what they begin with */
    bool is_between;  /* no list is being told: it is asked which comes next */
    bool has_rights;  /* it may be otherwise what may be written */
    bool is_of_files; /* what is told stands in files, of which somebody else tells, too */
    bool has_faults;  /* there are faults to be told */
    bool is_unseen;   /* there is nothing that is the newest: no store is open, or nobody is told what is in it */
} DconfdbTelling;

/* What is done with a path, or which list comes next. */
enum {
    DCONFDB_TELL_NOTHING,
    DCONFDB_TELL_TAKE,        /* take it for the next notice */
    DCONFDB_TELL_THEN_TAKE,   /* tell what was taken, which are as many as one notice may have, and then take it */
    DCONFDB_TELL_WHAT_IS_TAKEN,
    DCONFDB_TELL_ALL,         /* as if everything were seen otherwise */
    DCONFDB_TELL_CATCH_UP,    /* before all lists: whoever else tells of the files looks at them */
    DCONFDB_TELL_RIGHTS,      /* the list of what may be written or no longer */
    DCONFDB_TELL_VALUES,      /* the list of what is seen otherwise */
    DCONFDB_TELL_WARN,        /* the faults, each as a warning */
    DCONFDB_TELL_PRINT,       /* the same, but printed, as whatever takes warnings may be gone */
    DCONFDB_TELL_OVER
};

uint32_t dconfdb_tell_next(const DconfdbTelling *known);

/* What becomes of the paths that are seen otherwise than what was told last. */
enum {
    DCONFDB_HANDED_NOT,    /* they couldn't be handed out: what was told still is, and the files are looked at again */
    DCONFDB_HANDED_PARTLY, /* they were, and what is the newest was told; but nobody looked at the files, which are looked at again */
    DCONFDB_HANDED_WHOLE   /* they were, and the files were looked at */
};

uint32_t dconfdb_handed(bool has_paths, bool has_looked);

/* GIO's priority of the module's backend, where the environment names none: in front of dconf's, if an administrator's file is there that makes it the
 * default, and else behind all others. */
uint32_t dconfdb_priority(bool is_default);

/* Whether the main context of somebody who listens is asked to say that it turns. `has_turned`: one does; `is_asked`: this one is asked already. */
bool dconfdb_asks_context(bool has_turned, bool is_asked);

/* What is known of a change that the D-Bus service is called for, of those that wait, and of the service. */
typedef struct {
    uint64_t size;                  /* how many bytes it was sent in; of what is told, how many the paths have */
    uint64_t waiting, waiting_size; /* how many changes wait, and how many bytes they have together */
    uint64_t names;                 /* how many databases are in use */
    uint64_t answered;              /* of those that wait, how many a try that isn't over has answered: it is known what came of them */
    uint64_t edits, resets;         /* how many edits those that are written together have, and how many of these reset a directory */
    uint32_t said;                  /* by dconfdb_failing_met, of the fault by which it can't be written */
    uint32_t kind;                  /* of a text, what it is as a path, by dconfdb_path_kind */
    bool is_used;                   /* its database is in use */
    bool is_normal;                 /* its bytes are in normal form */
    bool has_edits;                 /* something of it is to be made */
    bool is_written;                /* what can be made of it, and of those that are written with it, is on the disk */
    bool is_closed;                 /* nobody with the rights of this process may write there */
    bool ends;                      /* the service ends: nothing is tried again */
    bool is_amid;                   /* a try to write it is under way */
    bool is_same;                   /* it is of the database whose changes are taken to be written together */
    bool is_open;                   /* the store of its database alone is open */
    bool is_profile_open;           /* .. and that of the profile */
    bool has_same_file;             /* the user's file of both is the same */
    bool had_name;                  /* the service had its name */
    bool is_bus_closed;             /* the bus is gone */
    bool is_short;                  /* the path is no longer than one may be */
    bool is_again;                  /* it is the path of the one before it, too */
    bool is_covered;                /* a directory's reset takes away what is there */
    bool sets;                      /* a value is set there; else it is reset */
    bool is_users;                  /* the first database is the user's own */
    bool is_unmade;                 /* an edit isn't made, by dconfdb_is_unmade */
    bool is_service_db;             /* its database is one that a profile of dconf's names by `service-db` */
    bool is_behind;                 /* one that came before it is on its way to the main thread */
    bool has_profile;               /* the file that is to be the profile of its database alone says that already */
    bool is_first;                  /* it is the first database */
    bool is_turned;                 /* its bytes are in the other order than the library's */
    bool wants_none;                /* who calls wants no answer */
    bool is_noted;                  /* the environment asks that calls are noted */
} DconfdbServed;

/* What was done with it, or what happened. Of each its own fields count, and no others. */
enum {
    DCONFDB_SERVED_CAME,
    DCONFDB_SERVED_READ,
    DCONFDB_SERVED_TRIED,
    DCONFDB_SERVED_TOLD,   /* what is seen otherwise by it is about to be told: of that its size alone counts */
    DCONFDB_SERVED_ENDING, /* the service ends, and it isn't answered */
    DCONFDB_SERVED_WAITS,  /* it waits behind those that are taken to be written */
    DCONFDB_SERVED_OPENED, /* the stores are open that may have its database, or can't be opened */
    DCONFDB_SERVED_LEFT,   /* of the service: all are answered that can be at its end; so many waited when it came */
    DCONFDB_SERVED_NAMELESS, /* it hasn't its name */
    DCONFDB_SERVED_PATH,     /* a path in it is read */
    DCONFDB_SERVED_ORDERED,  /* .. and comes behind those before it, in the order of their bytes, and of one path as they were sent */
    DCONFDB_SERVED_SHOWS,    /* the service tells who listens of a database */
    DCONFDB_SERVED_MADE,     /* an edit was tried, and is told of */
    DCONFDB_SERVED_BESIDE,   /* an edit stands beside others of its change */
    DCONFDB_SERVED_PASSES,   /* it came in another thread than the main one */
    DCONFDB_SERVED_PROFILE,  /* the file was read that is to be the profile of its database alone */
    DCONFDB_SERVED_READS,    /* it waits, and is to be read: in the thread in which it came? */
    DCONFDB_SERVED_FORM,     /* its bytes are to be as the library takes them */
    DCONFDB_SERVED_USED,     /* its database is open, or can't be opened (`is_open`) */
    DCONFDB_SERVED_ANSWERED, /* it is answered */
    DCONFDB_SERVED_CALLED,   /* the service is called */
    DCONFDB_SERVED_TELLS     /* those that are written together are to be told: in the turn to write? */
};

/* What becomes of it then. */
enum {
    DCONFDB_SERVED_GOES_ON, /* it is read, or waits to be written; or each path is named; or it is made, or told of; or that file is written; or its bytes are
                             * taken as they were sent; or it is answered, or the call is noted; or the thread is waited for */
    DCONFDB_SERVED_ACKNOWLEDGED,
    DCONFDB_SERVED_FAILED,  /* the fault is answered by which it isn't written */
    DCONFDB_SERVED_CLOSED,  /* .. or why nobody with these rights may write there */
    DCONFDB_SERVED_ODD,     /* its bytes aren't in normal form, and too many to be brought into it */
    DCONFDB_SERVED_TOO_LARGE, /* of what is told: the directory is named in which all is */
    DCONFDB_SERVED_TOO_MUCH, /* too much waits */
    DCONFDB_SERVED_TOO_MANY_NAMES,
    DCONFDB_SERVED_LATE,     /* the service ends: that is its answer, and nothing of it is written; or the thread is left, whatever it is at */
    DCONFDB_SERVED_LATER,    /* it is for a later write; or the main thread is to take it, or the one that writes to read it; or it is told after the turn */
    DCONFDB_SERVED_PROFILES, /* the profile's store has its database */
    DCONFDB_SERVED_ALONE,    /* the store of its database alone has it; or an edit is made, or not, by itself */
    DCONFDB_SERVED_ENDS,     /* the service ends, and takes what it was sent before; or the thread is left, and nothing is said: all are answered */
    DCONFDB_SERVED_TAKEN,    /* another service has the name */
    DCONFDB_SERVED_PASSED,   /* it says nothing, or nothing is told of it; or that file stays as it is; or there is no answer, or no note */
    DCONFDB_SERVED_LEFT_OUT, /* it isn't made, which is told */
    DCONFDB_SERVED_REPLACES, /* it counts in the place of the one before it; or what is made anew of it counts */
    DCONFDB_SERVED_UNSUPPORTED /* no such database is served */
};

uint32_t dconfdb_served_after(uint32_t done, const DconfdbServed *known);

/* What the service does before it serves, in this order. */
enum {
    DCONFDB_BEGINS_SERVING,
    DCONFDB_BEGINS_FOLDER, /* makes the store's: a sandbox is given dconf's two only if they are there when it starts; */
    DCONFDB_BEGINS_FLAGS,  /* .. and that of the flags of dconf's readers, in the user's runtime folder */
    DCONFDB_BEGINS_USER,   /* opens the database `user`: what others change in it is told before anybody writes */
    DCONFDB_BEGINS_SERVES  /* over */
};

/* The task that is due after that one. `is_dconfs`: the store is of dconf's kind. The path of the user's runtime folder has so many bytes: 0, there is none. */
uint32_t dconfdb_served_begins(uint32_t task, bool is_dconfs, size_t runtime);

/* In which folder the service has the profiles of databases by themselves. */
enum {
    DCONFDB_FOLDER_OF_PLACE, /* in the runtime folder of its store's place, if that has an absolute path; */
    DCONFDB_FOLDER_RUNTIME,  /* .. in that of the user as GLib has it, if that has; */
    DCONFDB_FOLDER_CACHE     /* .. in the user's cache */
};

uint32_t dconfdb_served_folder(bool is_places, bool is_runtime);

/* Whether a file that was replaced is kept open for a while, by the number of its file system (statfs): only where nobody else serves it. */
bool dconfdb_is_kept_open(uint64_t file_system);

/* Where the name of the database begins in the path of a message's object, if it is a call of the method Change(ay) of such an object; else 0. Of what the
 * message doesn't have the text is empty. */
size_t dconfdb_changed_database(bool is_call, const uint8_t *object, size_t object_len, const uint8_t *interface, size_t interface_len,
                                const uint8_t *member, size_t member_len, const uint8_t *signature, size_t signature_len);

/* ---- changes that wait. Each key and each edit has a number; an edit's is 1 or more, and greater than those of older ones. */

/* The number of the newest edit of a key; 0 if none waits. `puts`: the edit `number` is it from then on; and if that goes, the one that was it
 * before is so again. */
size_t dconfdb_newest(size_t *newest, size_t keys, size_t key, bool puts, size_t number);

/* An edit that waits: its number, and that no other edit is of its change. */
typedef struct {
    size_t number;
    bool is_alone;
} DconfdbWaitingEdit;

/* What becomes of a change that waits. */
enum {
    DCONFDB_FATE_WAITS,
    DCONFDB_FATE_WRITTEN, /* or there already */
    DCONFDB_FATE_REFUSED,
    DCONFDB_FATE_OVERTAKEN /* a later one sets its key, and goes on waiting: nobody sees that it goes */
};

/* A change that waits, and what is known of it. */
typedef struct {
    uintptr_t change;                /* the caller's */
    uint64_t set;                    /* which of all sets it was: the number of one that was set later, or once more, is greater */
    DconfdbWaitingEdit edit, newest; /* its first edit, and the newest of the same key; 0 where there is none */
    uint32_t fate;                   /* it is written here */
    bool is_tried;                   /* it was tried to write it */
    bool is_refused;                 /* that was, for a fault of its own */
    bool asks;                       /* when it was set nobody knew whether it changes anything */
    bool is_there;                   /* all of it is there by the newest files, and nothing else waits for its keys */
} DconfdbWaiter;

/* How many changes no longer wait. */
typedef struct {
    uint64_t settled;   /* they are written, refused, or were there already; or one that overtook them is */
    uint64_t overtaken; /* what overtook them isn't settled yet */
} DconfdbTally;

/* What becomes of each. `is_written`: what was tried is written, but for what is refused. Those that wait are the first of the line from then on,
 * in the order in which they were set, wherever they stood, and it gives how many they are. Behind them the others are in any order. */
size_t dconfdb_waiting_line(DconfdbWaiter *line, size_t count, bool is_written, DconfdbTally *tally);

/* ---- which paths were set last */

/* An edit that is to be written: its path as it is noted, when it was asked for, and the number of its change. */
typedef struct {
    DconfdbBytes path;
    uint64_t when;
    size_t change;
    uint64_t was, is; /* numbers for what was there when the program looked before, and for what is there now */
    bool is_own;          /* the program's last write may have left what it says, and it is there */
    bool has_looked;      /* the program looked before it was asked for */
} DconfdbAsked;

/* A path at which a file was seen to differ. `when` is the file's time, and `value` what is there. */
typedef struct {
    DconfdbTime time;
    bool is_noted; /* who left the file noted what it changed */
} DconfdbSeen;

/* Which edits are left out: those of a path that was set later, as the notes say, or of a directory above; and all of a change with
 * one. They are handed out as dconfdb_list does. MEMORY, and then nothing is written. */
uint32_t dconfdb_leave_out(const DconfdbTime *notes, size_t n, const DconfdbSeen *seen, size_t seen_n, const DconfdbAsked *edits,
                           size_t count, uint64_t now, bool *room, size_t room_len, size_t *len);

/* The notes with one for each path that was seen to differ and that nobody noted, as many as there is room for: of each path the
 * latest. What has no room is no later than what has. One that is later than `now` goes. The paths are lent from what is handed in.
 * They are handed out as dconfdb_list does. MEMORY, and then nothing is written. */
uint32_t dconfdb_note_seen(const DconfdbTime *notes, size_t n, const DconfdbSeen *seen, size_t seen_n, uint64_t now, DconfdbTime *room,
                           size_t room_len, size_t *len);

/* The notes with those of edits that were made, in the same way. What was only guessed of their paths goes. `latest`: when the latest of them was made,
 * or 0 if there is none. */
uint32_t dconfdb_note_made(const DconfdbTime *notes, size_t n, const DconfdbTime *made, size_t made_n, uint64_t now, DconfdbTime *room,
                           size_t room_len, size_t *len, uint64_t *latest);

/* The moment in which a change of these edits counts as made that was asked for in this one, beside the others that are written with it, of which
 * only the resets of directories matter. It is the same; or the turn's, which is the last of all moments, if the change resets a directory, or sets
 * something in one that is reset with it. */
uint64_t dconfdb_moment_beside(const DconfdbTime *change, size_t n, const DconfdbTime *others, size_t others_n, uint64_t moment);

/* The time of a moment of a clock that nobody sets, which is `boot` by that clock when it is `now` by the clock of the day. It is no
 * earlier than `noted`, what the program noted last, unless that is later than `now`. */
uint64_t dconfdb_time_of_moment(uint64_t now, uint64_t boot, uint64_t moment, uint64_t noted);

/* The time that stands for when a file was changed that nobody noted: by that file, or, where it is gone, by its folder. */
uint64_t dconfdb_time_of_file(const DconfdbFileStamp *file, const DconfdbFileStamp *folder);

/* A file of notes has no more bytes. */
enum { DCONFDB_MOST_NOTED = 1 << 20 };

/* What a turn noted in a file of these bytes: what was set, handed out as dconfdb_list does; and the records of the files that were left, in `left`.
 * There is none where the bytes are no such file's, or not whole, or more than DCONFDB_MOST_NOTED. All is lent from the bytes. What
 * dconfdb_notes_written wrote is read again. MEMORY, and then nothing is written. */
uint32_t dconfdb_notes_read(const uint8_t *bytes, size_t bytes_len, DconfdbBytes *left, DconfdbTime *room, size_t room_len, size_t *len);

/* The bytes of a file of what a turn notes, in that moment and at that time: the files that were left, with that of the name in front as it is left
 * now, if it is there, as many as are kept; and the newest notes of what was set, as many as there is room for: the oldest go, and one says of all
 * paths below "/" that they were set by the latest of their times. They are handed out as dconfdb_list does. MEMORY, and then nothing is written. */
uint32_t dconfdb_notes_written(const DconfdbTime *notes, size_t n, uint64_t moment, uint64_t time, const uint8_t *left, size_t left_len,
                               const uint8_t *name, size_t name_len, const DconfdbFileStamp *file, bool is_synced, uint8_t *room, size_t room_len,
                               size_t *len);

/* ---- files as those who noted what they set left them: bytes of records, the newest first, that programs share */

/* What is known of a file as it is. */
enum {
    DCONFDB_LEFT_UNKNOWN, /* nobody who noted left it so */
    DCONFDB_LEFT_SO,      /* one did; whether it was on the disk is not known */
    DCONFDB_LEFT_SYNCED   /* one did, and it was on the disk */
};

/* The file of that name, whose first record counts. The bytes may be anybody's. */
uint32_t dconfdb_left_state(const uint8_t *left, size_t left_len, const uint8_t *name, size_t name_len, const DconfdbFileStamp *file);

/* A number for the value that a layer has at a path, locked or not: of its type and its bytes. 0: there is none, or it is no key's path. */
uint64_t dconfdb_value_number(const DconfdbLayer *layer, const uint8_t *path, size_t path_len);

/* ---- what is seen while edits wait, and which paths stand for which */

/* What the newest edit says that waits of a key: it sets a value, or takes the user's away. One that sets bytes of no type
 * takes it away, too. */
typedef struct {
    DconfdbBytes value, type_text;
    bool waits; /* false: there is none */
    bool sets;
} DconfdbWaits;

#define DCONFDB_NO_EDIT {DCONFDB_NOTHING, DCONFDB_NOTHING, false, false}

/* A key that is asked for by itself: what waited of it, and what waits, for who asks for that type; an empty text asks for any. */
typedef struct {
    DconfdbBytes path, type_text;
    DconfdbWaits before, after;
} DconfdbKeyAsked;

/* What is known of a key that is read, and of the newest edit of it that waits. */
typedef struct {
    bool waits, sets;
    bool writable;    /* there is a user's database */
    bool may_write;   /* and the key may be written */
    bool edit_fits;   /* the edit's value is of the type that is asked for, or there is none */
    bool stored_fits; /* the value that is stored is so */
} DconfdbKnown;

/* Where what is read of a key is found. */
enum {
    DCONFDB_FOUND_STORED,  /* as dconfdb_read has it */
    DCONFDB_FOUND_DEFAULT, /* as dconfdb_read_default has it */
    DCONFDB_FOUND_EDIT,    /* in the newest edit that waits */
    DCONFDB_FOUND_USERS,   /* in the first database, locked or not */
    DCONFDB_FOUND_NOWHERE
};

/* The setting is read, in which a lock hides what waits; or the user's own value (`of_user`), locked or not; or what there is without that
 * (`of_default`). Of both at once there is nothing. `is_odd`: who reads the setting passes over a value of another type, so that dconfdb_told is to
 * be asked for the key by that type. */
uint32_t dconfdb_found(bool of_user, bool of_default, const DconfdbKnown *known, bool *is_odd);

/* Whether an edit may be made. `is_open`: by dconfdb_is_open. `may_write`: its path may be written, or, of a
 * directory that is reset, whatever. */
bool dconfdb_may_be_made(const uint8_t *path, size_t path_len, bool sets, bool is_open, bool may_write);

/* The paths of the keys that are seen otherwise than before: of those that are asked for by themselves, and of all others by what the layers
 * show. A value in other bytes is the same one. `was_writable`, `is_writable`: the first layer was the user's, and is. `same_others`: but for
 * the first, the layers before are to count as the layers after. They come as dconfdb_list has them. MEMORY, and then nothing is written. */
uint32_t dconfdb_told(const DconfdbLayer *before, size_t before_n, const DconfdbLayer *after, size_t after_n, bool was_writable,
                      bool is_writable, bool same_others, const DconfdbKeyAsked *asked, size_t count, uint8_t *room, size_t room_len,
                      size_t *len);

/* The paths of which it is otherwise than before whether they may be written: keys, and directories as a whole. What is below another of them
 * isn't told by itself. The rest is as for dconfdb_told. */
uint32_t dconfdb_relocked(const DconfdbLayer *before, size_t before_n, const DconfdbLayer *after, size_t after_n, bool was_writable,
                          bool is_writable, bool same_others, uint8_t *room, size_t room_len, size_t *len);

/* The keys that edits are of, which are given by their paths: each key that one names, and each key below a directory that one names which the
 * layers have before or after. They come as dconfdb_list has them. MEMORY, and then nothing is written. */
uint32_t dconfdb_own_keys(const DconfdbLayer *before, size_t before_n, const DconfdbLayer *after, size_t after_n, const DconfdbBytes *edits,
                          size_t count, uint8_t *room, size_t room_len, size_t *len);

/* Whether a path may be written, a key's or all that is below a directory: somebody may write (`is_open`), `writable`, the first layer is the
 * user's, and no lock covers it. A path that doesn't start with `/` is locked by nobody. A key that may be written takes no memory. */
enum { DCONFDB_MAY_NOT, DCONFDB_MAY, DCONFDB_MAY_NO_MEMORY };

uint32_t dconfdb_may_write(const DconfdbLayer *layers, size_t count, bool writable, bool is_open, const uint8_t *path, size_t path_len);

/* Whether one of two paths is the other, or a directory above it. */
bool dconfdb_meets(const uint8_t *one, size_t one_len, const uint8_t *other, size_t other_len);

/* What a text is as a path. */
enum {
    DCONFDB_PATH_KEY,
    DCONFDB_PATH_DIRECTORY,
    DCONFDB_PATH_NOT_ABSOLUTE,
    DCONFDB_PATH_HAS_NUL,
    DCONFDB_PATH_DOUBLE_SLASH,
    DCONFDB_PATH_ABSOLUTE,    /* of what follows the slash of a directory */
    DCONFDB_PATH_NO_KEY,      /* a directory's, where a key's is wanted */
    DCONFDB_PATH_NO_DIRECTORY /* a key's, where a directory's is wanted */
};

/* Why a text is neither a key's path nor a directory's: of several faults the first. */
enum {
    DCONFDB_REFUSED_NOT, /* it is one */
    DCONFDB_REFUSED_NOT_ABSOLUTE,
    DCONFDB_REFUSED_HAS_NUL,
    DCONFDB_REFUSED_DOUBLE_SLASH,
    DCONFDB_REFUSED_TOO_LONG
};

uint32_t dconfdb_refused_as(const uint8_t *text, size_t len);

/* Which path is wanted. */
enum {
    DCONFDB_PATH_WANTED, /* any, as of what is reset */
    DCONFDB_KEY_WANTED,  /* as of what is set */
    DCONFDB_DIRECTORY_WANTED
};

/* However long it is; `is_short` says whether it is no longer than a path may be. `is_relative`: it follows the slash of a directory. */
uint32_t dconfdb_path_kind(const uint8_t *text, size_t len, uint32_t wanted, bool is_relative, bool *is_short);

/* ---- what dconf's client does with changes */

/* What becomes of a row of a set of changes where a path is set or reset. */
enum {
    DCONFDB_ROW_STAYS,
    DCONFDB_ROW_GOES, /* the change stands for it */
    DCONFDB_ROW_TAKES /* the change's value, or its reset; it is made, where there is none of that path */
};

/* Of the row `other`. `sets`: the path is set. `is_database`: the set has values alone, and a key that is reset has no row. */
uint32_t dconfdb_row_effect(const uint8_t *path, size_t path_len, bool sets, bool is_database, const uint8_t *other, size_t other_len);

/* How many bytes the longest path has that covers both, of at most so many; 0 where there is none. Of two that is the directory in which both
 * are. Of one path twice it is the path; and, with fewer bytes than it has, the next directory above it: so a set of changes is asked for the row
 * that says a key's word, with one byte less each time, until it has the row. */
size_t dconfdb_shared_within(const uint8_t *path, size_t path_len, size_t most, const uint8_t *other, size_t other_len);

/* What is known of the path of a change to a database. */
typedef struct {
    bool has;       /* the database has a value there, */
    bool is_same;   /* which is the change's */
    bool is_reset;  /* a change that is kept resets a directory above it */
    bool has_below; /* the database has a value below it */
} DconfdbBase;

/* Whether such a change makes a difference, beside those that are kept before it. */
bool dconfdb_makes_difference(const uint8_t *path, size_t path_len, bool sets, const DconfdbBase *base);

/* The sets of changes that are asked for the newest word of a key. */
enum {
    DCONFDB_ASKED_STORE, /* none: the store has what is written */
    DCONFDB_ASKED_WRITING,
    DCONFDB_ASKED_WAITING,
    DCONFDB_ASKED_THROUGH /* and from here on what is read through, the first first */
};

/* Which one is asked once so many were asked, and said nothing. `sets`: the greatest number. */
size_t dconfdb_asked_after(size_t sets, size_t asked);

/* What a set says of a path for which a change asks. */
typedef struct {
    bool says;      /* it says something, */
    bool is_same;   /* which is what the change says */
    bool has_below; /* it sets a key below the path */
} DconfdbSaid;

/* Whether two edits of a path say the same: both reset it, or both set the same bytes, in normal form, at the same type. Of a reset nothing else is
 * looked at. */
bool dconfdb_is_same_word(bool sets, const uint8_t *type_text, size_t type_text_len, const uint8_t *value, size_t value_len, bool other_sets,
                          const uint8_t *other_type_text, size_t other_type_text_len, const uint8_t *other_value, size_t other_value_len);

/* Whether the user has what a change says, or will have once the sets are written, which come as dconfdb_asked_after asks them. `is_stored`: the
 * store has it. */
bool dconfdb_is_said(const DconfdbSaid *said, size_t count, bool is_stored);

/* Who asks for the files. */
enum {
    DCONFDB_LOOKER_SEES,    /* who wants to see what they are */
    DCONFDB_LOOKER_CHANGES, /* who changes a setting */
    DCONFDB_LOOKER_GETS,    /* who reads one */
    DCONFDB_LOOKER_OPENS    /* who wants no more than the store */
};

/* What is known of them. */
typedef struct {
    uint64_t until;  /* when whoever watches them looks again of itself; 0: once something is told */
    bool is_open;    /* a store is open; or the first one could not be opened, and whoever looks tries again */
    bool is_watched; /* somebody watches them, and looks when something happens */
    bool is_whole;   /* all that happens to them is told, */
    bool is_told;    /* something may have been that nobody has looked at yet */
    bool is_own;     /* it is told to this process */
    bool is_busy;    /* the program itself replaces one of them */
} DconfdbLookKnown;

/* What becomes of a look. */
enum {
    DCONFDB_LOOK_NEVER, /* none is needed */
    DCONFDB_LOOK_OPENS, /* the store is opened */
    DCONFDB_LOOK_NOW,
    DCONFDB_LOOK_LATER /* once the file is replaced; till then what was seen before is what there is */
};

uint32_t dconfdb_look_due(uint32_t looker, const DconfdbLookKnown *known);

/* What is done with a change whose caller waits for it, in this order. */
enum {
    DCONFDB_CHANGING_BEGINS,
    DCONFDB_CHANGING_BEFORE,  /* write what was asked for before: is it written? */
    DCONFDB_CHANGING_SETTLE,  /* all is there: is it on the disk? */
    DCONFDB_CHANGING_PUT,     /* put what is left of it: is that made? */
    DCONFDB_CHANGING_OTHERS,  /* tell what others changed, but for what the change says itself */
    DCONFDB_CHANGING_TELL,    /* tell what is new by it */
    DCONFDB_CHANGING_GIVE_UP, /* it isn't made: take it away, and tell what others changed */
    DCONFDB_CHANGING_MADE,    /* over */
    DCONFDB_CHANGING_REFUSED, /* over: a key may not be written */
    DCONFDB_CHANGING_FAILED   /* over, for another fault */
};

/* What is known; but for the first four from when all is written that was asked for before. */
typedef struct {
    bool is_empty;      /* it asks for nothing */
    bool is_refused;    /* it sets a key that may not be written */
    bool has_store;     /* a store is open, */
    bool has_user;      /* which has a user's database, */
    bool is_there;      /* which has all that the change asks for */
    bool is_left;       /* something is left of it to be put */
    bool is_news;       /* the user has something else by it */
    bool is_watched;    /* somebody is told of such */
    bool is_barred;     /* the verdict on the fault of the task that failed last is DCONFDB_QUEUE_LOCKED */
} DconfdbChanging;

/* The task that is due after that one, by its answer. */
uint32_t dconfdb_changing_after(uint32_t task, bool yes, const DconfdbChanging *known);

/* What is done with a change whose caller doesn't wait for it, in this order. */
enum {
    DCONFDB_FAST_BEGINS,
    DCONFDB_FAST_ADD,    /* let it wait, beside what waits already */
    DCONFDB_FAST_WRITE,  /* have somebody write what waits */
    DCONFDB_FAST_TELL,   /* tell what is new by it */
    DCONFDB_FAST_MADE,   /* over: it waits, or nothing of it was to be made */
    DCONFDB_FAST_REFUSED /* over: a key may not be written, and nothing of it waits */
};

/* What dconfdb_entry says of it. */
typedef struct {
    bool is_refused; /* DCONFDB_ENTRY_REFUSED */
    bool is_empty;   /* DCONFDB_ENTRY_EMPTY */
    bool is_news;    /* DCONFDB_ENTRY_WAITS */
} DconfdbFast;

/* The task that is due after that one. From when it is known until it waits nobody else lets something wait. */
uint32_t dconfdb_fast_after(uint32_t task, const DconfdbFast *known);

/* An edit that was tried to write, and what is known of it then. */
typedef struct {
    bool is_written;  /* all changes are made but for those that are refused */
    bool is_refused;  /* its change is */
    bool is_left_out; /* it is left out of its change */
    bool is_now;      /* it counts as set when it is made: nobody has set its path since */
    bool is_there;    /* the user has what it says */
    bool is_again;    /* a later edit of its path, of one below it or of a directory above it was tried with it: whoever is told of that is told of this */
} DconfdbTried;

/* What is asked of it, in this order; what isn't asked stays false, and doesn't count. */
enum {
    DCONFDB_TRIED_OVER, /* nothing more, and at first nothing was */
    DCONFDB_TRIED_BEGINS = DCONFDB_TRIED_OVER,
    DCONFDB_TRIED_AGAIN, /* `is_again`: was a later edit of its path, or of one below it, tried with it? */
    DCONFDB_TRIED_ABOVE, /* .. or one of a directory above it? */
    DCONFDB_TRIED_THERE  /* `is_there` */
};

/* What is asked next, behind that. Each takes time, and is asked only where it counts. */
uint32_t dconfdb_tried_asks(uint32_t asked, const DconfdbTried *edit);

/* Whether it is not made: whoever was told of it is told again. */
bool dconfdb_is_unmade(const DconfdbTried *edit);

/* Whether what could not be written waits again, each path by itself: it is not unmade, and nothing newer is asked for there. */
bool dconfdb_waits_again(bool is_unmade, bool is_newer);

/* ---- keyfiles and lock files, line by line */

/* Where the reading of a text has come: {TEXT, DCONFDB_NOTHING, 0, 0} at first. Nobody else writes its fields. */
typedef struct {
    DconfdbBytes rest, group;
    size_t line; /* the number of the line that was read last, from 1 on */
    uint32_t place;
} DconfdbCursor;

/* What a line says. The texts are lent from it, or the library's own. */
typedef struct {
    uint32_t kind;
    DconfdbPath path;
    DconfdbBytes text;
} DconfdbLine;

enum {
    DCONFDB_LINE_SILENT, /* nothing: it is empty, a comment, or a group's, or has a key whose group nobody knows */
    DCONFDB_LINE_SETS,   /* the key `path` is set to the value of `text`, of which nothing is known */
    DCONFDB_LINE_LOCKS,  /* `path` is locked: a key's, or a directory's */
    DCONFDB_LINE_WRONG   /* `text` says why: the cause for which `compile` refuses the line, and what that means; or that a line of a lock
                          * file locks nothing, though it is no comment */
};

/* What the next line of a keyfile, or of a lock file, says, whatever is wrong with those before it. Behind a line that should name a
 * group and names none, keys are left out up to the next one. False: there is none, and nothing is written. */
bool dconfdb_line(bool is_of_locks, DconfdbCursor *cursor, DconfdbLine *line);

/* ---- as what the files of a site are looked at */

/* As what a file is looked at, or why not. */
enum {
    DCONFDB_READ_KEYFILE,
    DCONFDB_READ_LOCKS,
    DCONFDB_READ_PROFILE,
    DCONFDB_READ_DATABASE,
    DCONFDB_READ_NOTHING,   /* it is hidden from `update` */
    DCONFDB_READ_UNREAD,    /* `update` doesn't read it */
    DCONFDB_READ_NO_SOURCE, /* it is a database among sources */
    DCONFDB_READ_TOO_BIG,
    DCONFDB_READ_NEITHER,
    DCONFDB_READ_BESIDE, /* and from here on in a site: as a profile or a database, if its text is one; it is read, and asked again */
    DCONFDB_READ_MADE,   /* .. and as a database it is one that `update` makes */
    DCONFDB_READ_SOURCE_FOLDER, /* what is in the folder NAME.d is asked for, */
    DCONFDB_READ_LOCK_FOLDER,   /* .. in its `locks`, */
    DCONFDB_READ_PROFILE_FOLDER,
    DCONFDB_READ_HIDDEN_FOLDER, /* .. in a hidden NAME.d, which `update` lists, and then leaves out; */
    DCONFDB_READ_HIDDEN_LOCKS,  /* .. in its `locks` */
    DCONFDB_READ_ODD,           /* nobody reads it: it is no file, */
    DCONFDB_READ_STRAY,         /* .. or lies beside the folders of sources; */
    DCONFDB_READ_NOT_UTF8,      /* `update` doesn't list its folder */
    DCONFDB_READ_BARRED         /* it is in the way of a file that `update` writes */
};

/* In which folder of a site something lies, and what it is: what a link leads to. */
enum {
    DCONFDB_WITHIN_NONE, /* it is a file that is asked for, wherever */
    DCONFDB_WITHIN_SITE,
    DCONFDB_WITHIN_SOURCES,
    DCONFDB_WITHIN_LOCKS,
    DCONFDB_WITHIN_PROFILES
};

enum {
    DCONFDB_KIND_FILE,
    DCONFDB_KIND_FOLDER,
    DCONFDB_KIND_OTHER,
    DCONFDB_KIND_NOWHERE, /* a link to what isn't there */
    DCONFDB_KIND_UNSEEN /* it can't be looked at */
};

typedef struct {
    uint32_t within, kind;
    bool is_hidden;   /* it lies in a NAME.d that is */
    bool is_link;
    bool is_made;     /* `update` makes the database that has the stem of its name */
    bool is_one_read; /* of the files that are asked for `update` reads one of the same NAME.d */
    bool is_read;     /* its text is there */
    bool is_store;    /* it is a folder with a profile */
} DconfdbEntry;

/* Of a file of so many bytes, of which these are there: all that a text has, or the first of another file. Before anything is read of it,
 * its place alone says whether it is to be. In no site it has that name in the last of these folders, the first of which is in the root;
 * `sources` is how many of them there are up to the last NAME.d, with that, or 0; and `is_source`, whether `update` reads the file there. In a
 * site the folders count for these two alone, and `stem` is how much of the name is that of its database, or of the one that is made of a NAME.d. */
uint32_t dconfdb_read_as(const DconfdbEntry *entry, const DconfdbBytes *folders, size_t count, const uint8_t *name, size_t name_len, uint64_t size,
                         const uint8_t *text, size_t len, size_t *sources, size_t *stem, bool *is_source);

/* Within what of a site what is in the last of these folders is looked at, the first of which is in the root: _SOURCES or _LOCKS, if `update` reads the
 * folder as that, and else _SITE. */
uint32_t dconfdb_within(const DconfdbBytes *folders, size_t count);

/* What a file that is asked for is beside the one before it, in the order of their paths. */
enum {
    DCONFDB_FILE_AGAIN, /* the same file: it is looked at once */
    DCONFDB_FILE_NEXT,  /* one more of its folder, and so of its database */
    DCONFDB_FILE_FIRST  /* the first one of its folder: what others set counts for nothing there */
};

uint32_t dconfdb_file_after(bool is_same, bool is_of_folder);

/* Whether, in that folder of a site (DCONFDB_WITHIN_*), the keys of another database are set than before. */
bool dconfdb_begins_sources(uint32_t within);

/* Whether a file that can't be read as a text, by that errno, is read as a database. */
bool dconfdb_reads_on(uint32_t fault);

/* What is found, by the word that JSON has for it. */
enum {
    DCONFDB_FOUND_NO_KEY,
    DCONFDB_FOUND_NO_LOCKED_KEY,
    DCONFDB_FOUND_NO_LOCKED_DIRECTORY,
    DCONFDB_FOUND_OTHER_TYPE,
    DCONFDB_FOUND_NOT_TAKEN,
    DCONFDB_FOUND_NO_VALUE,
    DCONFDB_FOUND_DOUBLE,
    DCONFDB_FOUND_SET_TWICE,
    DCONFDB_FOUND_NOT_SET,
    DCONFDB_FOUND_LINE,
    DCONFDB_FOUND_UNREAD,
    DCONFDB_FOUND_NO_SOURCE,
    DCONFDB_FOUND_NO_FILE,
    DCONFDB_FOUND_NAME,
    DCONFDB_FOUND_IN_THE_WAY,
    DCONFDB_FOUND_PROFILE_LINE,
    DCONFDB_FOUND_NO_DATABASE,
    DCONFDB_FOUND_UNSOUND
};

/* What is printed of a finding, with its line feed: FILE:LINE: TEXT, in which a control character is `\` and three octal digits; or an object of JSON, in which
 * each byte that is no part of a character is U+FFFD, and a file's name that has one is there as hexadecimal digits, too. What is missing may have a
 * `nearest`, which stands behind the text. `len` as dconfdb_list has it. MEMORY, and then nothing is written. */
uint32_t dconfdb_finding_line(bool is_json, uint32_t kind, const uint8_t *file, size_t file_len, uint64_t line, const uint8_t *text, size_t text_len,
                              bool has_nearest, const uint8_t *nearest, size_t nearest_len, uint8_t *room, size_t room_len, size_t *len);

/* The number of the line that begins behind these bytes of a text, or goes on there, counted from 1. */
size_t dconfdb_line_behind(const uint8_t *before, size_t len);

/* Whether GLib is asked for the value of a text that dconfdb_parse_value refuses by this number. */
bool dconfdb_is_glibs(uint32_t fault);

/* Why a text is no value that a database has. */
enum {
    DCONFDB_CAUSE_OF_GLIB,    /* what GLib says of it */
    DCONFDB_CAUSE_OF_READING, /* the number of dconfdb_parse_value */
    DCONFDB_CAUSE_OF_STORING  /* that of dconfdb_change: no database holds such a value */
};

/* By the number of dconfdb_parse_value, and whether GLib was asked, and refused the text. */
uint32_t dconfdb_text_cause(uint32_t fault, bool is_refused);

/* The folder of the sources and databases that `update` takes if none is named, by the kind of store that the machine has. */
void dconfdb_machines_folder(bool is_dconfs, DconfdbBytes *folder);

/* A key that is set, or a lock, and what the installed schemas have of it. */
typedef struct {
    uint32_t what;
    uint32_t errnum;       /* of a file, by which it can't be read, or 0: it isn't there */
    bool is_known;         /* one has the key, or a key below the directory; or it is set already, or set at all; or the database has its file; or the text is a value of ours */
    bool has_schemas;      /* one is at the key's directory */
    bool may_be_elsewhere; /* one without a path has a key of that name; of a directory, there is one */
    bool has_value;        /* it is set to a value; or GLib has one of the text */
    bool is_taken;         /* .. which one of the keys takes; or nothing else is wrong with the lock; or a database holds such a value */
    bool is_of_type;       /* .. and that is of the first one's type */
    bool is_system;        /* a database is the system's; or it is a text of a source of `update` */
    bool is_made;          /* `update` makes the database's file */
    bool is_unseen;        /* that can't be looked at */
    bool is_among_profiles; /* the profile is one of those in a folder `profiles` */
    bool has_double;       /* the text has a double, which is none of ours */
} DconfdbFinding;

enum {
    DCONFDB_OF_KEY,
    DCONFDB_OF_LOCKED_KEY,
    DCONFDB_OF_LOCKED_DIRECTORY,
    DCONFDB_OF_DATABASE, /* that a profile names: `is_known`, it has its file, or nobody can say */
    DCONFDB_OF_KEY_AGAIN,  /* `is_known`: an earlier line of the same database sets it */
    DCONFDB_OF_LOCK_ALONE, /* `is_known`: a keyfile of the site sets the key of the lock */
    DCONFDB_OF_TEXT,       /* of a value */
    DCONFDB_OF_FILE        /* or of a folder: it isn't read, by `errnum` */
};

/* What is found wrong with it. */
enum {
    DCONFDB_FINDING_NOTHING,
    DCONFDB_FINDING_NO_KEY,
    DCONFDB_FINDING_NO_LOCKED_KEY,
    DCONFDB_FINDING_NO_LOCKED_DIRECTORY,
    DCONFDB_FINDING_OTHER_TYPE,
    DCONFDB_FINDING_NOT_TAKEN,
    DCONFDB_FINDING_NO_DATABASE,
    DCONFDB_FINDING_SET_TWICE,
    DCONFDB_FINDING_NOT_SET,
    DCONFDB_FINDING_DOUBLE,
    DCONFDB_FINDING_NO_VALUE,
    DCONFDB_FINDING_NO_FILE,    /* it isn't there, */
    DCONFDB_FINDING_ODD_FILE,   /* it is no regular file, */
    DCONFDB_FINDING_LARGE_FILE, /* it is larger than any file that is read, */
    DCONFDB_FINDING_UNREAD_FILE /* or has what the system says of the errno */
};

/* What a schema without a path may have is passed over, but where the directory is a slip away from one of these, where schemas have such a key: a
 * letter is more, less or otherwise, or two have changed places. Of a database it is the name of the profile's file, and of a lock its path. */
uint32_t dconfdb_finding(const DconfdbFinding *known, const uint8_t *directory, size_t directory_len, const DconfdbBytes *others, size_t count);

/* Where the name is looked for that is the nearest to one that is missing, one place after the other. */
enum {
    DCONFDB_NEAR_BEGINS,
    DCONFDB_NEAR_DIRECTORIES, /* a directory: among all of them */
    DCONFDB_NEAR_KEYS,        /* a key: among those of its directory; */
    DCONFDB_NEAR_HOLDERS,     /* that among those that have a key of its name; */
    DCONFDB_NEAR_PATHS,       /* the same among all that have keys, */
    DCONFDB_NEAR_KEYS_THERE,  /* and the key among those of the one that was found */
    DCONFDB_NEAR_OVER
};

/* What was compared with a name that is missing. For each such name all begins with 0 but `used`, which goes on in a run, and `is_directory`. */
typedef struct {
    uint64_t used;  /* how many pairs of letters; a run compares 100,000,000, and finds nothing after that */
    uint64_t found; /* one more than the letters that are otherwise in the nearest one; 0: none is near */
    uint32_t place;
    bool is_half;      /* half of the letters may be otherwise; else one, and one more for each five, but 64 at most */
    bool is_directory; /* a directory is missing */
} DconfdbNearing;

enum {
    DCONFDB_NEARING_NO,
    DCONFDB_NEARING_YES,
    DCONFDB_NEARING_MEMORY /* nothing was compared: no memory is left */
};

/* Whether another name is near, and nearer than those before: so many letters are put in, left out, replaced, or swapped with the next one, and
 * no two of these touch the same. `is_end`: all names of the place were compared, and the next one comes, if there is one (YES), with nothing found
 * there yet. */
uint32_t dconfdb_is_nearer(DconfdbNearing *nearing, bool is_end, const uint8_t *name, size_t name_len, const uint8_t *other, size_t other_len);

/* ---- which program a command line is for, and the words of `watch` and of `lint` */

/* What is known of a command line beside its first words. */
typedef struct {
    uint64_t count; /* how many words there are, with the program's name */
    bool is_path;   /* the last of three is a path */
    bool has_blame; /* the program `blame` may be run */
    bool is_noted;  /* the environment asks that changes are noted */
    bool counts;    /* the environment does: the program hasn't more rights than whoever started it */
    bool is_at_home; /* dconfdb_place asks for the user's home to know where the folder is */
} DconfdbCommandLine;

/* Which program it is for. */
enum {
    DCONFDB_PROGRAM_PROVED, /* the proved one, with all words as they are */
    DCONFDB_PROGRAM_WATCH,  /* with the words behind that one */
    DCONFDB_PROGRAM_LINT,
    DCONFDB_PROGRAM_WATCH_HELP, /* the same with `--help` alone */
    DCONFDB_PROGRAM_LINT_HELP,
    DCONFDB_PROGRAM_DCONF_WATCH, /* run as `dconf`: the same `watch`, and `blame` */
    DCONFDB_PROGRAM_DCONF_BLAME,
    DCONFDB_PROGRAM_NOTED /* the proved one, by `blame`, which has it noted that this process changes settings */
};

/* By the program's name and the two words after it, each empty where there is none. `has_none`: it is run without the variables that say where a store is, as
 * to the proved program each counts that it has. `is_homeless`: the proved program is run by the one that asks the system for the user's home. */
uint32_t dconfdb_program_of(const uint8_t *name, size_t name_len, const uint8_t *first, size_t first_len, const uint8_t *second, size_t second_len,
                            const DconfdbCommandLine *line, bool *has_none, bool *is_homeless);

/* What the words before say; {0} at first, but for the program. Nobody else writes it. */
typedef struct {
    uint32_t wants;  /* the next word is the argument of an option */
    bool is_lint;    /* they are the words of `lint`, and not of `watch` */
    bool is_over;    /* `--` came */
    bool has_folder; /* `--store` or `--schemas` came */
    bool is_user;    /* `--user` came */
    bool has_name;   /* a PATH or a FILE came */
} DconfdbWords;

/* What is said of a word. */
enum {
    DCONFDB_SAID_NOTHING, /* it is taken, or, at the end, all is there */
    DCONFDB_SAID_FOLDER,  /* it has that of `--store` or `--schemas` */
    DCONFDB_SAID_SCHEMA,  /* .. that of `--schema` */
    DCONFDB_SAID_NAME,    /* it is the PATH, or one more FILE */
    DCONFDB_SAID_HELP,
    DCONFDB_SAID_UNKNOWN, /* and from here on why it is refused */
    DCONFDB_SAID_TWICE,
    DCONFDB_SAID_EXCLUDED,
    DCONFDB_SAID_TOO_MANY,
    DCONFDB_SAID_LACKING,
    DCONFDB_SAID_NO_NAME,
    DCONFDB_SAID_JSON, /* the findings are wanted as JSON */
    DCONFDB_SAID_MACHINES /* at the end: no FILE came, and the folder is looked at that `update` takes then */
};

/* The next word, or the end of all. What it has begins at `from`. */
uint32_t dconfdb_option(DconfdbWords *read, bool is_end, const uint8_t *word, size_t len, size_t *from);

/* With which status `lint` ends, by how much was found, and whether all of that was written. */
uint32_t dconfdb_lint_status(size_t found, bool is_written);

/* What is said of an argument of `--schema`. */
enum {
    DCONFDB_PLACING_TAKEN,
    DCONFDB_PLACING_NO_PATH, /* there is no `:` between a schema and a path */
    DCONFDB_PLACING_NO_DIRECTORY,
    DCONFDB_PLACING_NO_SCHEMA,
    DCONFDB_PLACING_FIXED /* the schema has a path of its own */
};

/* By whether it has a `:`, the path behind that is a directory's, there is the schema before it, and that has a path. */
uint32_t dconfdb_placing(bool has_path, bool is_directory, bool has_schema, bool is_fixed);

#ifdef __cplusplus
}
#endif
