/* What trace.h tells: of each thread the locks that it has; and for each that it waits for while it has others, a line `HAS TAKES` in TRACE_FILE, once in
 * each process. A lock is known by the last of its name: `&self->turn` is turn. */
#define _GNU_SOURCE
#include <errno.h>
#include <fcntl.h>
#include <pthread.h>
#include <stdbool.h>
#include <stdio.h>
#include <string.h>
#include <sys/file.h>
#include <unistd.h>

void trace_takes(const void *lock, const char *name);
void trace_has(const void *lock, const char *name);
void trace_gives(const void *lock);
int trace_flock(int file, int how);

enum { MOST = 16, MOST_PAIRS = 256 };

typedef struct {
    const void *lock;
    const char *name;
} Held;

static __thread Held held[MOST];
static __thread int count;

static const char *told[MOST_PAIRS][2];
static int pairs;
static pthread_mutex_t telling = PTHREAD_MUTEX_INITIALIZER;

/* The last word of an expression. */
static const char *word(const char *name)
{
    const char *at = name;
    for (const char *i = name; *i; i++) {
        if (*i == '>' || *i == '&' || *i == '.' || *i == ')')
            at = i + 1;
    }
    return at;
}

/* False: there is no descriptor for it now. */
static bool is_written(const char *has, const char *takes)
{
    char line[128];
    int len = snprintf(line, sizeof line, "%s %s\n", has, takes);
    int fault = errno, file = open(TRACE_FILE, O_WRONLY | O_CREAT | O_APPEND | O_CLOEXEC, 0666);
    bool is = file >= 0 && write(file, line, (size_t)len) == len;
    if (file >= 0)
        close(file);
    errno = fault;
    return is;
}

/* A handler of a signal may call exit() amid it, and take locks: what can't be told now is told the next time. */
static void tell(const char *has, const char *takes)
{
    if (pthread_mutex_trylock(&telling) != 0)
        return;
    int at = 0;
    while (at < pairs && (strcmp(told[at][0], has) != 0 || strcmp(told[at][1], takes) != 0))
        at++;
    if (at == pairs && pairs < MOST_PAIRS && is_written(has, takes)) {
        told[pairs][0] = has;
        told[pairs++][1] = takes;
    }
    pthread_mutex_unlock(&telling);
}

/* A function that takes any lock names none: it has the name by which it was taken elsewhere. */
enum { MOST_NAMED = 4096 };
static Held named[MOST_NAMED];
static int named_count;

static const char *name_of(const void *lock, const char *given)
{
    const char *name = word(given);
    if (pthread_mutex_trylock(&telling) != 0)
        return strcmp(name, "mutex") == 0 ? "?" : name;
    int at = 0;
    while (at < named_count && named[at].lock != lock)
        at++;
    if (strcmp(name, "mutex") == 0)
        name = at < named_count ? named[at].name : "?";
    else if (at < MOST_NAMED)
        named[at] = (Held){lock, name};
    named_count += at == named_count && at < MOST_NAMED && strcmp(name, "?") != 0;
    pthread_mutex_unlock(&telling);
    return name;
}

static void add(const void *lock, const char *name)
{
    if (count == MOST)
        _exit(98);
    held[count++] = (Held){lock, name};
}

void trace_takes(const void *lock, const char *name)
{
    const char *known = name_of(lock, name);
    for (int i = 0; i < count; i++)
        tell(held[i].name, known);
    if (count == 0)
        tell("-", known);
    add(lock, known);
}

void trace_has(const void *lock, const char *name)
{
    add(lock, name_of(lock, name));
}

/* What a child of fork() begins anew isn't given back: it is forgotten with what has its place. */
void trace_gives(const void *lock)
{
    for (int i = count - 1; i >= 0; i--) {
        if (held[i].lock == lock) {
            memmove(held + i, held + i + 1, (size_t)(count - i - 1) * sizeof *held);
            count--;
            return;
        }
    }
}

/* The folder's lock is had by another thread than took it, too: so only who waits for it is told. */
int trace_flock(int file, int how)
{
    if (how != LOCK_UN && (how & LOCK_NB) == 0) {
        for (int i = 0; i < count; i++)
            tell(held[i].name, "folder");
        if (count == 0)
            tell("-", "folder");
    }
    return flock(file, how);
}
