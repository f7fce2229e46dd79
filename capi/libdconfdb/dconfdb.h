/* libdconfdb: reads and changes settings stores with dconf's file formats.
 *
 *     #include <dconfdb.h>
 *     #include <stdio.h>
 *
 *     int main(void)
 *     {
 *         DconfdbError error = DCONFDB_ERROR_INIT;
 *         DconfdbStore *store = dconfdb_store_open(NULL, &error);
 *         if (!store)
 *             return fprintf(stderr, "%s\n", error.text), 1;
 *         DconfdbEdit edit = {"/org/desk/name", "s", "mine", sizeof "mine"};
 *         if (!dconfdb_store_change(store, NULL, &edit, 1, &error))
 *             fprintf(stderr, "%s\n", error.text);
 *         DconfdbSnapshot *now = dconfdb_store_snapshot(store);
 *         DconfdbValue name;
 *         const char *text;
 *         if (dconfdb_snapshot_read(now, "/org/desk/name", &name) && (text = dconfdb_value_get_string(&name, NULL)))
 *             puts(text);
 *         dconfdb_snapshot_unref(now);
 *         dconfdb_store_close(store);
 *         return 0;
 *     }
 *
 * Compile it with `cc x.c $(pkg-config --cflags --libs dconfdb)`.
 *
 * WHERE A STORE IS. A store is a folder: the one given, else $DCONFDB_STORE, else, on a machine whose file
 * /etc/dconfdb/store says `dconf`, that of dconf (see below), else
 * $XDG_CONFIG_HOME/dconfdb, else $HOME/.config/dconfdb, else .config/dconfdb in the home that the
 * system knows of the user (passwd(5)). An empty variable counts as unset, and so does one of the
 * last two that doesn't start with `/`. The profile is the file `profile` in the folder, else
 * /etc/dconfdb/profile, else the text `user-db:user`. Where no folder is given, $DCONFDB_PROFILE
 * names another one, if it is set and not empty: a path, if it has a `/`, else a file in
 * /etc/dconfdb/profiles. If that can't be read, no other profile takes its place. To a program
 * with another user's rights (setuid, setgid) all these variables are unset, and no home is asked for: its
 * store is a folder that is given, or there is none (NO_FOLDER). A profile names
 * one database per line, the one that is asked first at the top: `user-db:NAME` is the file NAME.user
 * in the folder, `system-db:NAME` is NAME.db in the folder, and `file-db:PATH` is the file PATH,
 * relative to the folder. But if no folder is given, a `system-db:NAME` of /etc/dconfdb/profile is
 * /etc/dconfdb/NAME.db, beside that profile. A NAME has no `/`. A `#` starts a comment, even inside a
 * PATH; blanks at either end of a line are dropped. A database whose file doesn't exist (ENOENT) is empty. The program
 * dconfdb, run in the folder, sees the same store if the folder has a file `profile` and the
 * environment names none.
 *
 * WHERE DCONF'S IS. Where no folder is given and $DCONFDB_STORE is unset, the file /etc/dconfdb/store says which kind of
 * store the machine has: one word, `dconf` or `dconfdb`; the latter where there is no such file. Any
 * other text, and a file that can't be read, is refused (BAD_LINE, FILE). dconf's is in dconf's places, by dconf(7):
 * the folder is $XDG_CONFIG_HOME/dconf, else $HOME/.config/dconf, else .config/dconf in the home that
 * the system knows; `user-db:NAME` is its file NAME, `system-db:NAME` is /etc/dconf/db/NAME, and a relative `file-db:PATH`
 * is in the folder. The profile is /run/dconf/user/UID; else that of $DCONF_PROFILE, a path if it begins with `/`, else a
 * name; else the file dconf/profile in $XDG_RUNTIME_DIR; else the one of the name `user`. A name is a file in
 * /etc/dconf/profile, else in dconf/profile in one of $XDG_DATA_DIRS, the first first. Where there is none it is the text
 * `user-db:user`, but if $DCONF_PROFILE names it, no other takes its place. $DCONFDB_PROFILE isn't asked.
 *
 * SNAPSHOTS. A snapshot is what the files held when they were looked at. It never changes. Each
 * file that is replaced by a rename is the old one or the new one, complete; of one that is overwritten
 * in place it may be something in between. The files are looked at one after another. Everything
 * that a snapshot lends (values, texts) is valid until its last reference is dropped, even after the
 * store is closed, and after the files are replaced or removed.
 *
 * THREADS. Any thread may call anything at any time, on the same store, too. Nothing here starts a
 * thread. An iterator is for one thread at a time, and so is a value whose children are asked for by their
 * index. A store must not be closed while another thread uses it. After fork() a child may read and drop
 * snapshots; it must open a store of its own before it does anything else. fork() waits for no file. No call is a cancellation point: a thread that is
 * cancelled in a call ends after it, even if the call waits. No call may be made in a signal handler,
 * or be left by longjmp(): the thread's next call would write to a stack that is gone.
 *
 * STACK. A call uses up to 256 KiB of its thread's stack, most of it for deeply nested values. A
 * thread with less may die in a call.
 *
 * ERRORS. Calls that may fail take a DconfdbError, or NULL if you don't need it. Make it with
 * DCONFDB_ERROR_INIT. A call that succeeds leaves it as it was. A call that fails leaves everything
 * else it would write to (`changed`, `size`) as it was. Texts are English in every locale. Nothing here
 * ends the process, or prints: a change beyond RLIMIT_FSIZE fails with EFBIG, and sends no SIGXFSZ.
 *
 * BAD FILES. dconfdb_store_open refuses a store if a database, or a line of its profile, is bad.
 * dconfdb_store_open_lenient opens it, and a bad file doesn't affect the others. A database that is
 * not sound counts as what the command `repair` would keep of it, values and locks; a file that is no
 * database, or that can't be read, counts as empty. A database without keys that dconf made is not
 * sound either, but complete: it is read, and not reported. A bad line of the profile is skipped, and
 * so is a profile that can't be read; if $DCONFDB_PROFILE names that one, or none that exists, the
 * store has no database. dconfdb_snapshot_fault and dconfdb_store_profile_fault say what
 * is wrong. Errors that aren't the file's (no memory or no descriptor is left; the disk or the server
 * doesn't answer) make both calls fail.
 *
 * The first change replaces a bad user's file by a new one, with what could be read of the old one,
 * which is kept as NAME.user~1, or ~2 if there is one. A crash at any moment leaves the bad file or
 * the new one.
 *
 * MAPPED FILES. Databases other than the user's that have more than 64 KiB are mapped. So they have to be
 * replaced by a rename, as `dconfdb compile` and `dconf update` do: truncating one in place kills the
 * programs that read it, with SIGBUS, and overwriting one changes what they were lent. The user's file and
 * smaller ones are read into memory: however they are changed, what was lent stays as it is. But a look
 * amid an overwriting in place reads what is there by then, old bytes and new ones.
 *
 * A CALLER'S DUTIES. Nothing checks them. Pointers point to live objects, and are NULL only if
 * this header allows it. A struct that has a `size` is made by its initialiser. A value's `passed` is 0, or
 * what the library put there for the same bytes and type: else a child may have bytes where it is empty.
 * Texts end in a zero byte. No other thread changes memory that is passed to a call while the call runs. Lent memory is not written, and not used after the snapshot's last
 * reference is dropped; the library stays loaded as long as it is used. Each reference is dropped
 * once. What the caller has to free is freed once, with free().
 *
 * WHAT IS PROVED. The library asks proved calls what a database's bytes mean, what can be read of a bad
 * one, what a key's effective value is, what is locked, listed or different, what is in a value, what its
 * text is, and which value a text has; whether an edit may be made, whether something else is seen than was
 * expected, whether a value is stored already, and which file the edits make. By proved calls, too, go
 * where a store is, which profile counts and what its lines name; which file is read next by a refresh,
 * whether a file is the one that was read, and whether anything is news; a change from its beginning to its
 * end: whether a file is made, which step is next, what an errno is to it, who set a key last, and what is
 * said of the file, and known of it, in the end; how long a lock is waited for; and what is watched and
 * heard of a store's files. The effective value is that of the databases in their order, each of them
 * sound, or what `repair` keeps of it. What the proved calls say is carried out by C, which is tested and
 * not proved: how files are read, mapped, locked and replaced; references, threads and stack; the text of
 * an error; what a call does when memory is lacking. */
#ifndef DCONFDB_H
#define DCONFDB_H

#include <stdbool.h>
#include <stddef.h>
#include <stdint.h>

/* The version of this header. dconfdb_version() is that of the library which the program runs with. */
#define DCONFDB_VERSION "0.2.0"
#define DCONFDB_VERSION_MAJOR 0
#define DCONFDB_VERSION_MINOR 2
#define DCONFDB_VERSION_PATCH 0

/* What a compiler is told of the calls: they are seen outside the library and throw nothing; what some return must
 * be used; and the pointers at these places are never NULL. */
#if defined(__GNUC__)
#define DCONFDB_API __attribute__((visibility("default")))
#define DCONFDB_NONNULL(places) __attribute__((nonnull places))
#else
#define DCONFDB_API
#define DCONFDB_NONNULL(places)
#endif
#if (defined(__cplusplus) && __cplusplus >= 201703L) || (defined(__STDC_VERSION__) && __STDC_VERSION__ > 202000L)
#define DCONFDB_NODISCARD [[nodiscard]]
#elif defined(__GNUC__)
#define DCONFDB_NODISCARD __attribute__((warn_unused_result))
#else
#define DCONFDB_NODISCARD
#endif
#if defined(__cplusplus) && __cplusplus >= 201103L
#define DCONFDB_NOEXCEPT noexcept
#elif defined(__cplusplus)
#define DCONFDB_NOEXCEPT throw()
#else
#define DCONFDB_NOEXCEPT
#endif

#ifdef __cplusplus
extern "C" {
#endif

/* ---- dconfdb_error: errors, and the version */

/* Why something failed. Numbers never change their meaning; later versions may add some. */
typedef enum DconfdbErrorCode {
    DCONFDB_ERROR_NONE = 0,             /* no error */
    DCONFDB_ERROR_MEMORY = 1,           /* an allocation failed */
    DCONFDB_ERROR_SHORT = 2,            /* a database: fewer bytes than a header */
    DCONFDB_ERROR_BAD_SIGNATURE = 3,    /* .. it does not start as a database does */
    DCONFDB_ERROR_BAD_VERSION = 4,      /* .. its version is not 0 */
    DCONFDB_ERROR_BAD_ROOT = 5,         /* .. it has no root table */
    DCONFDB_ERROR_BAD_TABLE = 6,        /* .. its root table does not fit */
    DCONFDB_ERROR_UNSOUND = 7,          /* .. it breaks a rule of sound databases */
    DCONFDB_ERROR_NOT_TEXT = 8,         /* the profile, or a text that is parsed: it is not UTF-8 */
    DCONFDB_ERROR_BAD_LINE = 9,         /* .. a line names no database */
    DCONFDB_ERROR_SERVICE_DB = 10,      /* .. a line names a service-db */
    DCONFDB_ERROR_USER_NOT_FIRST = 11,  /* .. a line names a user-db that is not the first */
    DCONFDB_ERROR_TOO_MANY = 12,        /* .. a line names the 65th database */
    DCONFDB_ERROR_BAD_PATH = 13,        /* a path is not one of a key, or of a directory */
    DCONFDB_ERROR_BAD_TYPE = 14,        /* a type text spells no type of 128 levels at most */
    DCONFDB_ERROR_NOT_WRITABLE = 15,    /* the profile's first database is no user-db */
    DCONFDB_ERROR_LOCKED = 16,          /* the key is locked */
    DCONFDB_ERROR_VALUE_TOO_LARGE = 17, /* a value is nested too deep, or too long */
    DCONFDB_ERROR_FILE_TOO_LARGE = 18,  /* a file has more bytes than it may have, or would have */
    DCONFDB_ERROR_DOUBLE_TEXT = 19,     /* a value to be printed, or a text that is parsed, holds a double */
    DCONFDB_ERROR_BAD_VALUE = 20,       /* a value's bytes are not in normal form at its type */
    DCONFDB_ERROR_BAD_TEXT = 21,        /* a text that is parsed is not one of a value */
    DCONFDB_ERROR_FILE = 64,            /* a system call failed: `errnum` is its errno */
    DCONFDB_ERROR_BUSY = 65,            /* others held the lock for as long as a change waits */
    DCONFDB_ERROR_NO_FOLDER = 66,       /* no folder is given, and none is found */
    DCONFDB_ERROR_CHANGED = 67          /* something else is seen at an edit's path than was expected */
} DconfdbErrorCode;

/* What became of the user's file by a change. */
typedef enum DconfdbOutcome {
    DCONFDB_OUTCOME_MADE = 0,     /* it holds the new values, also after a crash; no error has this */
    DCONFDB_OUTCOME_KEPT = 1,     /* it is as it was */
    DCONFDB_OUTCOME_EITHER = 2,   /* it is as it was, or holds the new values: refresh the store to see which */
    DCONFDB_OUTCOME_UNSETTLED = 3 /* it holds the new values, but a crash may bring the old ones back, until the next
                                   * change is made */
} DconfdbOutcome;

/* What failed. It belongs to the caller, who makes it by DCONFDB_ERROR_INIT; it need not be freed. */
typedef struct DconfdbError {
    size_t size;            /* this struct's: a later version, in which more fields follow, writes no more than that */
    DconfdbErrorCode code;  /* why it failed */
    DconfdbOutcome outcome; /* of a change that failed; else DCONFDB_OUTCOME_KEPT */
    int errnum;             /* errno if the code is DCONFDB_ERROR_FILE, else 0 */
    size_t edit;            /* the index of the bad edit, for BAD_PATH to VALUE_TOO_LARGE, BAD_VALUE, CHANGED; else 0 */
    size_t database;        /* the index of the database whose file is bad, else 0 */
    size_t line;            /* the profile's first bad line, from 1, for NOT_TEXT to TOO_MANY; else 0, also of a text that is parsed */
    char text[512];         /* what failed, and for which file or key; if too long, it ends in "..." */
} DconfdbError;

#define DCONFDB_ERROR_INIT {sizeof(DconfdbError), DCONFDB_ERROR_NONE, DCONFDB_OUTCOME_KEPT, 0, 0, 0, 0, ""}

/* The name of a number, without DCONFDB_ERROR_: "LOCKED". Of one that this version doesn't have it is "UNKNOWN". */
DCONFDB_API const char *dconfdb_error_name(DconfdbErrorCode code) DCONFDB_NOEXCEPT;

/* The version of the library, as DCONFDB_VERSION is that of the header. */
DCONFDB_API const char *dconfdb_version(void) DCONFDB_NOEXCEPT;

/* ---- dconfdb_store_open: open a store */

/* A folder and its databases. */
typedef struct DconfdbStore DconfdbStore;

/* How a store is opened, and how its changes are made. DCONFDB_OPTIONS_INIT has what dconfdb_store_open takes. */
typedef struct DconfdbOptions {
    size_t size;      /* this struct's: a later version, in which more fields follow, reads no more than that */
    bool is_lenient;  /* it is opened by dconfdb_store_open_lenient */
    bool is_unsynced; /* a change doesn't wait for the disk, but once for the name of its folder: if the machine crashes
                       * soon after, the user's file may have its old bytes or, on some file systems, be empty or torn */
    int longest_wait; /* how many milliseconds a change waits for its turn; if negative, it waits without end */
} DconfdbOptions;

#define DCONFDB_USUAL_WAIT 10000
#define DCONFDB_OPTIONS_INIT {sizeof(DconfdbOptions), false, false, DCONFDB_USUAL_WAIT}

/* Opens the store of a folder, or of the environment if NULL is given. Only then is getenv()
 * called, and no other thread may change the environment meanwhile. The folder need not exist. The
 * profile is read now, and not again. NULL: it failed. */
DCONFDB_NODISCARD DCONFDB_API DconfdbStore *dconfdb_store_open(const char *folder, DconfdbError *error) DCONFDB_NOEXCEPT;

/* Opens it as dconfdb_store_open does, and also if it has bad files, or bad lines in its profile: see BAD FILES. */
DCONFDB_NODISCARD DCONFDB_API DconfdbStore *dconfdb_store_open_lenient(const char *folder, DconfdbError *error)
    DCONFDB_NOEXCEPT;

/* Opens it with other choices, which the store keeps. */
DCONFDB_NODISCARD DCONFDB_API DconfdbStore *dconfdb_store_open_with(const char *folder, const DconfdbOptions *options,
    DconfdbError *error)
    DCONFDB_NOEXCEPT DCONFDB_NONNULL((2));

/* Closes a store, or NULL. Its snapshots stay. */
DCONFDB_API void dconfdb_store_close(DconfdbStore *store) DCONFDB_NOEXCEPT;

/* Whether the profile has a bad line, or couldn't be read. If so, `error`, if it isn't NULL, says which
 * line is the first bad one, or why. */
DCONFDB_API bool dconfdb_store_profile_fault(const DconfdbStore *store, DconfdbError *error)
    DCONFDB_NOEXCEPT DCONFDB_NONNULL((1));

/* The files that opening the store of that folder, or of the environment, may look at: the one that
 * $DCONFDB_PROFILE names, or the folder's profile and that of all users, which is read only if the folder has
 * none; of dconf's kind of store each that may be the profile, in the order in which they are looked for; and
 * the databases that the good lines of the profile that counts name. If
 * opening a store fails, these are the files to check. The form is that of dconfdb_snapshot_list, and
 * getenv() is called as by dconfdb_store_open. NULL: it failed. */
DCONFDB_NODISCARD DCONFDB_API char *dconfdb_store_files(const char *folder, size_t *size, DconfdbError *error)
    DCONFDB_NOEXCEPT;

/* The folder's absolute path, and the file of a user's database in it; NULL if there is none.
 * Valid until the store is closed. */
DCONFDB_API const char *dconfdb_store_folder(const DconfdbStore *store) DCONFDB_NOEXCEPT DCONFDB_NONNULL((1));
DCONFDB_API const char *dconfdb_store_user_file(const DconfdbStore *store) DCONFDB_NOEXCEPT DCONFDB_NONNULL((1));

/* ---- dconfdb_snapshot: what a store holds at one moment */

/* What the databases held at one moment. */
typedef struct DconfdbSnapshot DconfdbSnapshot;

/* A reference to the newest snapshot, for the caller to drop. It never fails, looks at no file, and
 * waits for none. */
DCONFDB_NODISCARD DCONFDB_API DconfdbSnapshot *dconfdb_store_snapshot(DconfdbStore *store)
    DCONFDB_NOEXCEPT DCONFDB_NONNULL((1));

/* Looks at the files again, with one stat() each, and reads those that were replaced. `changed`, if it
 * isn't NULL, says whether the newest snapshot has anything that others changed since `changed` was
 * last asked for, or since the store was opened: what this call finds, and what a change in between
 * has read. That is another value at a path, a key that may be set and might not, or the other way
 * round, or a file that can't be read, or can again. A file that others replaced by one that says the
 * same is none of it, and the store's own edits don't count. But a mapped file of more than 64 KiB that got
 * another time where it lies, by `touch` as by who wrote over it, counts as changed: nobody has its old
 * bytes. False: it failed, and the newest snapshot stays the newest. */
DCONFDB_API bool dconfdb_store_refresh(DconfdbStore *store, bool *changed, DconfdbError *error)
    DCONFDB_NOEXCEPT DCONFDB_NONNULL((1));

/* Adds a reference, and drops one; dropping the last one frees everything. `ref` returns its
 * argument; `unref` accepts NULL. */
DCONFDB_API DconfdbSnapshot *dconfdb_snapshot_ref(DconfdbSnapshot *snapshot)
    DCONFDB_NOEXCEPT DCONFDB_NONNULL((1));
DCONFDB_API void dconfdb_snapshot_unref(DconfdbSnapshot *snapshot) DCONFDB_NOEXCEPT;

/* How many databases there are, and the file of one. NULL: there is no such database. */
DCONFDB_API size_t dconfdb_snapshot_databases(const DconfdbSnapshot *snapshot) DCONFDB_NOEXCEPT DCONFDB_NONNULL((1));
DCONFDB_API const char *dconfdb_snapshot_file(const DconfdbSnapshot *snapshot, size_t database)
    DCONFDB_NOEXCEPT DCONFDB_NONNULL((1));

/* Whether a database's file is bad. If so, `error`, if it isn't NULL, says why, and its text how much of
 * the file is read. If a change replaced a bad file, this is true of the new snapshot, too, until the
 * file changes again, and the text says where the bad file is kept. Only snapshots of a lenient store
 * have bad files. */
DCONFDB_API bool dconfdb_snapshot_fault(const DconfdbSnapshot *snapshot, size_t database, DconfdbError *error)
    DCONFDB_NOEXCEPT DCONFDB_NONNULL((1));

/* Whether the user's file is still the snapshot's, as far as one stat() can tell: by its device, inode, size,
 * time of writing and time of change. False if stat() fails. True if there is no user's database. */
DCONFDB_API bool dconfdb_snapshot_is_newest(const DconfdbSnapshot *snapshot) DCONFDB_NOEXCEPT DCONFDB_NONNULL((1));

/* ---- dconfdb_snapshot_read: values, and what is locked */

/* A value, lent from a snapshot. One that the program makes itself has 0 as its `passed`, and has 0 there again
 * when its bytes or its type become others. */
typedef struct DconfdbValue {
    const void *data; /* the bytes of a little-endian GVariant; never NULL */
    size_t size;      /* how many bytes they are */
    const char *type; /* GVariant's type text, without a zero byte after it */
    size_t type_size; /* how many bytes the type text has */
    size_t origin;    /* the index of the database that has it */
    size_t passed;    /* how far dconfdb_value_child came: so many of its first children are known to be in order */
} DconfdbValue;

/* The effective value of a key: that of the first database that has one, unless a later one locks
 * the key. `default` ignores the user's value; `user` is the user's own, even if the key is
 * locked. False: there is none, or the text is not a key's path; then `value` has 0 bytes. They
 * take no memory. */
DCONFDB_API bool dconfdb_snapshot_read(const DconfdbSnapshot *snapshot, const char *path, DconfdbValue *value)
    DCONFDB_NOEXCEPT DCONFDB_NONNULL((1, 2, 3));
DCONFDB_API bool dconfdb_snapshot_read_default(const DconfdbSnapshot *snapshot, const char *path, DconfdbValue *value)
    DCONFDB_NOEXCEPT DCONFDB_NONNULL((1, 2, 3));
DCONFDB_API bool dconfdb_snapshot_read_user(const DconfdbSnapshot *snapshot, const char *path, DconfdbValue *value)
    DCONFDB_NOEXCEPT DCONFDB_NONNULL((1, 2, 3));

/* Whether a database after the first locks the key; and whether there is a user's database and the
 * key isn't locked. Both are false if the text is not a key's path. They take no memory. */
DCONFDB_API bool dconfdb_snapshot_is_locked(const DconfdbSnapshot *snapshot, const char *path)
    DCONFDB_NOEXCEPT DCONFDB_NONNULL((1, 2));
DCONFDB_API bool dconfdb_snapshot_is_writable(const DconfdbSnapshot *snapshot, const char *path)
    DCONFDB_NOEXCEPT DCONFDB_NONNULL((1, 2));

/* ---- dconfdb_value: what is in a value */

/* What is in a value, at the type that it has. Any bytes have a value at any type, so of these calls only
 * dconfdb_value_print and dconfdb_value_parse fail: else false and NULL mean another type, or that there
 * is no such child, and then `out` and `child` stay as they were. Bytes that aren't in normal form have
 * the value that GVariant reads in them: the wrong number of bytes is 0, false or 0.0, and a text that is
 * none is empty (`/` of an `o`). Only those two allocate; what is handed out is lent as the value is, and
 * may be put in the value's place. */

/* A number of exactly this type; `int32` takes an `h` too. A double is C's own, bit for bit. */
DCONFDB_API bool dconfdb_value_get_boolean(const DconfdbValue *value, bool *out)
    DCONFDB_NOEXCEPT DCONFDB_NONNULL((1, 2));
DCONFDB_API bool dconfdb_value_get_byte(const DconfdbValue *value, uint8_t *out)
    DCONFDB_NOEXCEPT DCONFDB_NONNULL((1, 2));
DCONFDB_API bool dconfdb_value_get_int16(const DconfdbValue *value, int16_t *out)
    DCONFDB_NOEXCEPT DCONFDB_NONNULL((1, 2));
DCONFDB_API bool dconfdb_value_get_uint16(const DconfdbValue *value, uint16_t *out)
    DCONFDB_NOEXCEPT DCONFDB_NONNULL((1, 2));
DCONFDB_API bool dconfdb_value_get_int32(const DconfdbValue *value, int32_t *out)
    DCONFDB_NOEXCEPT DCONFDB_NONNULL((1, 2));
DCONFDB_API bool dconfdb_value_get_uint32(const DconfdbValue *value, uint32_t *out)
    DCONFDB_NOEXCEPT DCONFDB_NONNULL((1, 2));
DCONFDB_API bool dconfdb_value_get_int64(const DconfdbValue *value, int64_t *out)
    DCONFDB_NOEXCEPT DCONFDB_NONNULL((1, 2));
DCONFDB_API bool dconfdb_value_get_uint64(const DconfdbValue *value, uint64_t *out)
    DCONFDB_NOEXCEPT DCONFDB_NONNULL((1, 2));
DCONFDB_API bool dconfdb_value_get_double(const DconfdbValue *value, double *out)
    DCONFDB_NOEXCEPT DCONFDB_NONNULL((1, 2));

/* The text of an `s`, `o` or `g`, in UTF-8, with a zero byte after it. `length`, if it isn't NULL, is the
 * number of bytes without that one. */
DCONFDB_API const char *dconfdb_value_get_string(const DconfdbValue *value, size_t *length)
    DCONFDB_NOEXCEPT DCONFDB_NONNULL((1));

/* What a `v` holds. */
DCONFDB_API bool dconfdb_value_get_variant(const DconfdbValue *value, DconfdbValue *child)
    DCONFDB_NOEXCEPT DCONFDB_NONNULL((1, 2));

/* The elements of an array, the members of a tuple, the key and the value of an entry, what a variant
 * holds, and the value of a maybe that has one: how many there are, and the one at an index. Elements of a
 * fixed size, such as numbers, are found at once. Of other elements one that is out of place makes all behind
 * it empty, so those before a child are gone through, each of them once: the value keeps how far that came, in
 * `passed`. A loop over all indices takes time with their number; the members of a tuple are found along the
 * type's text. Two threads have a copy of the value each. */
DCONFDB_API size_t dconfdb_value_n_children(const DconfdbValue *value) DCONFDB_NOEXCEPT DCONFDB_NONNULL((1));
DCONFDB_API bool dconfdb_value_child(DconfdbValue *value, size_t index, DconfdbValue *child)
    DCONFDB_NOEXCEPT DCONFDB_NONNULL((1, 3));

/* All children at once, in order: puts as many of them into `children` as there is room for, and gives how many
 * there are. What is behind them stays as it was. Each is the one that dconfdb_value_child gives at its index.
 *
 *     size_t count = dconfdb_value_n_children(&list);
 *     DconfdbValue *children = calloc(count + 1, sizeof *children);
 *     if (children)
 *         dconfdb_value_children(&list, children, count);
 */
DCONFDB_API size_t dconfdb_value_children(const DconfdbValue *value, DconfdbValue *children, size_t room)
    DCONFDB_NOEXCEPT DCONFDB_NONNULL((1, 2));

/* The value of the first entry with this key in a dictionary whose keys are strings or object paths, such
 * as `a{sv}`. Of that it is a `v`, and dconfdb_value_get_variant gives what the `v` holds. */
DCONFDB_API bool dconfdb_value_lookup(const DconfdbValue *value, const char *key, DconfdbValue *child)
    DCONFDB_NOEXCEPT DCONFDB_NONNULL((1, 2, 3));

/* The value as a text that can be read back, as `dconfdb read` prints it; the caller frees it with
 * free(). NULL: its type is none, as that of a value that was never read (BAD_TYPE), it holds a double
 * (DOUBLE_TEXT), it is nested more than 128 levels deep (VALUE_TOO_LARGE), or no memory is left. */
DCONFDB_NODISCARD DCONFDB_API char *dconfdb_value_print(const DconfdbValue *value, DconfdbError *error)
    DCONFDB_NOEXCEPT DCONFDB_NONNULL((1));

/* The value that a text has in GVariant's text format, such as `['one', 'two']` or `uint32 5`, as `dconfdb
 * write` reads it: at the least type that the text allows, in normal form. Its data and type are in one
 * block of the caller's, which free() of `data` frees; the type ends in a zero byte. So they may be put
 * into an edit, which takes 127 levels. False, and then `value` stays as it was: it is no such text
 * (BAD_TEXT, and the error's text says what and where), it is not UTF-8 (NOT_TEXT), it holds a double (DOUBLE_TEXT), it has more than
 * 16 MiB or 128 levels (VALUE_TOO_LARGE), or no memory is left. */
DCONFDB_NODISCARD DCONFDB_API bool dconfdb_value_parse(const char *text, DconfdbValue *value, DconfdbError *error)
    DCONFDB_NOEXCEPT DCONFDB_NONNULL((1, 2));

/* ---- dconfdb_snapshot_list: names, keys and differences */

/* The names directly below a directory (a path that ends in `/`) in any database, in byte order, each
 * once; a directory's ends in `/`. And the locks that start with the directory's path, of all databases
 * but the first, in the same order. Each text ends in a zero byte, and one more follows the last.
 * `size`, if it isn't NULL, is the number of bytes without that last one. The caller frees them
 * with free(). NULL: it failed. */
DCONFDB_NODISCARD DCONFDB_API char *dconfdb_snapshot_list(const DconfdbSnapshot *snapshot, const char *directory,
    size_t *size, DconfdbError *error)
    DCONFDB_NOEXCEPT DCONFDB_NONNULL((1, 2));
DCONFDB_NODISCARD DCONFDB_API char *dconfdb_snapshot_locks(const DconfdbSnapshot *snapshot, const char *directory,
    size_t *size, DconfdbError *error)
    DCONFDB_NOEXCEPT DCONFDB_NONNULL((1, 2));

/* The names directly below a directory in the user's own database, in the same form; none if there is no
 * such database. Locks don't matter. */
DCONFDB_NODISCARD DCONFDB_API char *dconfdb_snapshot_list_user(const DconfdbSnapshot *snapshot, const char *directory,
    size_t *size, DconfdbError *error)
    DCONFDB_NOEXCEPT DCONFDB_NONNULL((1, 2));

/* The keys below a directory of a snapshot, and where one is in them. */
typedef struct DconfdbIterator DconfdbIterator;

/* Goes through all keys below a directory, in the order of their paths' bytes: each that has an effective
 * value, with that. The paths are found when it begins, however deep they lie; so that call alone
 * may fail, by NULL. `next` reads the next one, and takes no memory; false: there is none, and `path` and
 * `value` stay as they were. The iterator has a reference to the snapshot, and lends the path: it is freed
 * by `free`, which takes NULL, too. */
DCONFDB_NODISCARD DCONFDB_API DconfdbIterator *dconfdb_snapshot_iterate(const DconfdbSnapshot *snapshot, const char *directory,
    DconfdbError *error)
    DCONFDB_NOEXCEPT DCONFDB_NONNULL((1, 2));
DCONFDB_API bool dconfdb_iterator_next(DconfdbIterator *iterator, const char **path, DconfdbValue *value)
    DCONFDB_NOEXCEPT DCONFDB_NONNULL((1, 2, 3));
DCONFDB_API void dconfdb_iterator_free(DconfdbIterator *iterator) DCONFDB_NOEXCEPT;

/* The paths of the keys that differ between two snapshots, in the same form: the effective value
 * differs, only one snapshot has one, or the key is locked in only one. Hidden values don't count,
 * such as a default below the user's value, or the user's value of a locked key. Equal values in
 * other bytes don't differ. Only keys that a database of either snapshot has are listed: for others,
 * compare the locks. NULL as `other` means a snapshot without databases. */
DCONFDB_NODISCARD DCONFDB_API char *dconfdb_snapshot_differences(const DconfdbSnapshot *snapshot,
    const DconfdbSnapshot *other, size_t *size, DconfdbError *error)
    DCONFDB_NOEXCEPT DCONFDB_NONNULL((1));

/* ---- dconfdb_store_change: change the user's values */

/* An edit of the user's values.
 *
 * With a type, it sets the key at the path. A path that ends in `/` is not a key's: the edit is
 * refused with DCONFDB_ERROR_BAD_PATH, and nothing changes. `data` may be NULL if `size` is 0,
 * and need not be aligned. Bytes that aren't in normal form at the type, such as three bytes of an
 * `i` or a string without its zero byte, are refused with DCONFDB_ERROR_BAD_VALUE.
 *
 * Without a type (NULL), it removes the user's value at the path. A path that ends in `/` is then a
 * directory: all of the user's values below it are removed, except those of locked keys. */
typedef struct DconfdbEdit {
    const char *path; /* of a key or, to remove values, of a directory, too */
    const char *type; /* GVariant's type text; NULL removes the value */
    const void *data; /* the bytes of a little-endian GVariant */
    size_t size;      /* how many bytes they are */
} DconfdbEdit;

/* Makes all edits, in order, or none. The user's file is read again and replaced atomically, and
 * is on the disk when this returns, unless the store was opened `is_unsynced`. The newest snapshot then
 * has the edits, and what others changed meanwhile, in other databases too. A refused change may update
 * it as well. With no edits this returns true and looks at nothing.
 *
 * With `expected`, a snapshot that the edits were thought out by, the change is refused as CHANGED if
 * something else is seen by then at the path of an edit, `edit` of the error: another value, one where
 * none was or none where one was, or a key that is locked and wasn't, or the other way round. Of a path
 * that ends in `/`, any key below it counts that a database has. Values are compared, not bytes. The
 * files are looked at under the lock, so nobody gets in between. Then take a new snapshot, and think
 * again: so a counter that several programs increment loses no increment. NULL: whatever is there is
 * changed.
 *
 * If no edit changes anything, because the user has that value already, or none where one is removed,
 * the user's file stays as it is, also a bad one, unless this store's last write ended with EITHER or
 * UNSETTLED. Values are compared, not bytes. What stands there may be another program's, which did not
 * wait for the disk: the file and its folder are synced then, unless it is known that who wrote it did so.
 *
 * The new file has the permission bits of the old one, and its group if the caller is in that; else
 * its own group has no more rights than all others have. A first file is its owner's alone (0600),
 * whatever the umask. If root makes the change, the file keeps its owner and group; a first file, and
 * each folder that is made, gets those of the folder that it is in. Root doesn't follow a link in a
 * folder that others own or may write, on the way to the store's folder (EACCES).
 *
 * The new file has no locks: a change drops those that the old one had. So a site's database must
 * not be anybody's user-db.
 *
 * A missing folder is made, and its name brought to the disk, even if the change is then refused; but not if there is nothing to change:
 * no edit sets a key and the user has no file, or the profile has no user's database. Programs that change the file take
 * turns with flock() on the file `.lock` in its folder, which is created if it is missing; only those
 * who may write in the folder may open it. If it has another name, too, it is replaced in a turn, and
 * the other name's file stays as it was. This call waits at most ten seconds for that lock, or as long
 * as the store's options say; then it waits, without a limit, for threads that refresh the same store. The
 * file says which keys of which database were set last, and when: so a GSettings program, whose sets may
 * wait, never overwrites an edit with an older set.
 *
 * False: it failed, and `outcome` says what became of the file. It has its old bytes, unless the code
 * is DCONFDB_ERROR_FILE and the outcome another: EITHER if the rename failed, since it may have been done
 * all the same; UNSETTLED if the folder could not be synced after it, or what is there already could not
 * be synced. Only then the newest snapshot has the edits. The text says so, too. After either of them,
 * make the same edits again: if that returns true they are on the disk. Then pass a new snapshot as
 * `expected`, or NULL: what was expected before is not what is seen if the edits were made, so it would
 * be CHANGED. */
DCONFDB_NODISCARD DCONFDB_API bool dconfdb_store_change(DconfdbStore *store, const DconfdbSnapshot *expected,
    const DconfdbEdit *edits, size_t count, DconfdbError *error)
    DCONFDB_NOEXCEPT DCONFDB_NONNULL((1));

/* Whether the user already has what an edit asks for: this value of the key or, without a type, none.
 * Locks don't matter. It doesn't say that the edit may be made: at a path that is no key's there is no value,
 * so one that removes it is true. This is about the snapshot; dconfdb_snapshot_is_newest says if the file is
 * newer. */
DCONFDB_API bool dconfdb_snapshot_has_edit(const DconfdbSnapshot *snapshot, const DconfdbEdit *edit)
    DCONFDB_NOEXCEPT DCONFDB_NONNULL((1, 2));

/* ---- dconfdb_store_fd: to be told what changes */

/* To be told of changes, without a thread. `fd` is a file to poll for reading, in a main loop, say: it is
 * readable when a file of the store may have changed, and once at first. Then `dispatch` looks at the files
 * as dconfdb_store_refresh does, and gives the paths of the keys that differ between the newest snapshot and
 * that of the last dispatch, at first that of the first call of either: as dconfdb_snapshot_differences
 * gives them, and empty if none does. This program's own changes are among them. Each change is told once:
 * of two threads that call it, to one. It waits for no change: without anything to tell it returns at once. While
 * another thread changes the store it doesn't look at the files, so as not to wait for the disk.
 *
 * Nothing is lost: if `dispatch` fails (NULL) or doesn't look, the file is readable again after 20
 * milliseconds, after the next time after twice that, and so on, up to a second; and each second if not all
 * files can be watched.
 * If `dispatch` fails since no time can be set for that (DCONFDB_ERROR_FILE), a file that was readable stays
 * so. Watched are, by inotify, the databases' names and permission bits, and the folders and links on the way
 * to them. A folder that is missing is waited for, but not in /etc; and what another machine changes on a
 * file server is not seen so. The store owns the file: it is not to be read, and is closed with the store.
 * -1: it can't be had. */
DCONFDB_API int dconfdb_store_fd(DconfdbStore *store, DconfdbError *error) DCONFDB_NOEXCEPT DCONFDB_NONNULL((1));
DCONFDB_NODISCARD DCONFDB_API char *dconfdb_store_dispatch(DconfdbStore *store, size_t *size, DconfdbError *error)
    DCONFDB_NOEXCEPT DCONFDB_NONNULL((1));

#ifdef __cplusplus
}
#endif

#endif
