/* Runs a program, and lists its system calls on the files of a folder, each by what it does, to which name, and what it answered:
 * `sync user.user.new = 0`. Some of them fail, or are the program's last.
 *
 *   at FOLDER LIST [HOW COUNT CALL]..  -- PROGRAM WORD..
 *
 * CALL is a pattern of what is in the list, such as `sync user.user.new`. HOW is `refused=ERRNO`, it is not made and fails; `denied=ERRNO`, it is made, and
 * says that it failed; `before` or `after`, the program is killed then. It is the COUNT-th such call since the lock's file was opened
 * first; `refused-on=ERRNO`, that one and all later ones. The status is the program's; 128 and the signal's number if one ended it; 125 if
 * there was no such call. */
#define _GNU_SOURCE
#include <errno.h>
#include <fcntl.h>
#include <fnmatch.h>
#include <limits.h>
#include <signal.h>
#include <stdbool.h>
#include <stdio.h>
#include <stdlib.h>
#include <string.h>
#include <sys/file.h>
#include <sys/ptrace.h>
#include <sys/syscall.h>
#include <sys/uio.h>
#include <sys/user.h>
#include <sys/wait.h>
#include <unistd.h>

#ifndef __x86_64__
#error "the registers are those of x86-64"
#endif

enum { PAGE = 4096, MOST_FAULTS = 4, MOST_THREADS = 64, NOT_MET = 125, BY_A_SIGNAL = 128, SYSCALL_STOP = SIGTRAP | 0x80, NAMES = 2 * PATH_MAX + 64 };

typedef struct {
    const char *how, *call;
    int count;
    bool is_met;
} Fault;

/* A call of a thread, while it is made: no text, none that counts. */
typedef struct {
    pid_t thread;
    char text[NAMES];
    const Fault *fault;
} Call;

static const char *folder;
static FILE *list;
static Fault faults[MOST_FAULTS];
static int fault_count;
static Call calls[MOST_THREADS];
static bool has_begun;
static pid_t program;

static void stop(const char *what)
{
    perror(what);
    exit(NOT_MET);
}

/* ---- names */

static void take_text(pid_t thread, unsigned long long at, char *text)
{
    size_t len = 0;
    /* A page at a time: the next one may not be there. */
    while (len < PATH_MAX - 1 && !memchr(text, 0, len)) {
        size_t rest = PAGE - (at + len) % PAGE, more = rest < PATH_MAX - 1 - len ? rest : PATH_MAX - 1 - len;
        struct iovec to = {text + len, more}, from = {(void *)(at + len), more};
        if (process_vm_readv(thread, &to, 1, &from, 1, 0) != (ssize_t)more)
            break;
        len += more;
    }
    text[len] = 0;
}

static void take_link(pid_t thread, const char *what, int number, char *path)
{
    char link[64];
    snprintf(link, sizeof link, number < 0 ? "/proc/%d/%s" : "/proc/%d/%s/%d", thread, what, number);
    ssize_t len = readlink(link, path, PATH_MAX - 1);
    path[len < 0 ? 0 : len] = 0;
}

/* A path below the folder, from it; or NULL. */
static const char *below(const char *path)
{
    size_t len = strlen(folder);
    if (strncmp(path, folder, len) != 0 || (path[len] != '/' && path[len] != 0))
        return NULL;
    for (path += len; strncmp(path, "/./", 3) == 0; path += 2)
        ;
    return path[0] == 0 || strcmp(path, "/.") == 0 || strcmp(path, "/") == 0 ? "." : path + 1;
}

static const char *name_of_file(pid_t thread, unsigned long long file, char *room)
{
    take_link(thread, "fd", (int)file, room);
    return below(room);
}

static const char *name_at(pid_t thread, unsigned long long at, unsigned long long text, char *room)
{
    char path[PATH_MAX], base[PATH_MAX];
    take_text(thread, text, path);
    if (path[0] == '/') {
        strcpy(room, path);
        return below(room);
    }
    if ((int)at == AT_FDCWD)
        take_link(thread, "cwd", -1, base);
    else
        take_link(thread, "fd", (int)at, base);
    snprintf(room, NAMES, "%s/%s", base, path);
    return below(room);
}

/* ---- calls */

/* What a call does, and to which name; or no text. */
static void one_name(char *text, const char *what, const char *name)
{
    if (name)
        snprintf(text, NAMES, "%s %s", what, name);
}

static void of_file(pid_t thread, char *text, const char *what, unsigned long long file)
{
    char room[NAMES];
    one_name(text, what, name_of_file(thread, file, room));
}

static void of_name(pid_t thread, char *text, const char *what, unsigned long long at, unsigned long long name)
{
    char room[NAMES];
    one_name(text, what, name_at(thread, at, name, room));
}

static void of_names(pid_t thread, char *text, const char *what, const unsigned long long from[2], const unsigned long long to[2])
{
    char room[NAMES], other[NAMES];
    const char *one = name_at(thread, from[0], from[1], room), *two = name_at(thread, to[0], to[1], other);
    if (one && two)
        snprintf(text, NAMES, "%.250s %.250s %.250s", what, one, two);
}

static void describe(pid_t thread, const struct __ptrace_syscall_info *call, char *text)
{
    const unsigned long long *args = (const unsigned long long *)call->entry.args, here = (unsigned long long)AT_FDCWD;
    text[0] = 0;
    switch (call->entry.nr) {
    case SYS_open: of_name(thread, text, (args[1] & O_CREAT) != 0 ? "create" : "open", here, args[0]); break;
    case SYS_openat: of_name(thread, text, (args[2] & O_CREAT) != 0 ? "create" : "open", args[0], args[1]); break;
    case SYS_flock: of_file(thread, text, (args[1] & LOCK_UN) != 0 ? "unlock" : "lock", args[0]); break;
    case SYS_read: case SYS_pread64: of_file(thread, text, "read", args[0]); break;
    case SYS_write: case SYS_pwrite64: of_file(thread, text, "write", args[0]); break;
    case SYS_ftruncate: of_file(thread, text, "cut", args[0]); break;
    case SYS_fchmod: of_file(thread, text, "chmod", args[0]); break;
    case SYS_fchown: of_file(thread, text, "chown", args[0]); break;
    case SYS_fsync: case SYS_fdatasync: of_file(thread, text, "sync", args[0]); break;
    case SYS_close: of_file(thread, text, "close", args[0]); break;
    case SYS_unlink: of_name(thread, text, "remove", here, args[0]); break;
    case SYS_unlinkat: of_name(thread, text, "remove", args[0], args[1]); break;
    case SYS_link: of_names(thread, text, "link", (unsigned long long[]){here, args[0]}, (unsigned long long[]){here, args[1]}); break;
    case SYS_linkat: of_names(thread, text, "link", args, args + 2); break;
    case SYS_rename: of_names(thread, text, "rename", (unsigned long long[]){here, args[0]}, (unsigned long long[]){here, args[1]}); break;
    case SYS_renameat: of_names(thread, text, "rename", args, args + 2); break;
    case SYS_renameat2: of_names(thread, text, args[4] == 2 ? "exchange" : "rename", args, args + 2); break;
    default: break;
    }
}

/* ---- faults */

/* The errno of a fault; 0: it is none of that kind. */
static int number_of(const Fault *fault, const char *how)
{
    size_t len = strlen(how);
    return strncmp(fault->how, how, len) == 0 ? atoi(fault->how + len) : 0;
}

static bool is_refused(const Fault *fault)
{
    return number_of(fault, "refused=") != 0 || number_of(fault, "refused-on=") != 0;
}

static long long answer_of(const Fault *fault)
{
    return -(number_of(fault, "refused=") + number_of(fault, "refused-on=") + number_of(fault, "denied="));
}

/* Whether it is this call's turn to fail. */
static bool is_due(Fault *fault, const char *text)
{
    if (fnmatch(fault->call, text, 0) != 0 || (fault->is_met && number_of(fault, "refused-on=") == 0))
        return false;
    fault->is_met = fault->is_met || --fault->count == 0;
    return fault->is_met;
}

static void put(pid_t thread, const long long *number, const long long *result)
{
    struct user_regs_struct registers;
    if (ptrace(PTRACE_GETREGS, thread, 0, &registers) != 0)
        return;
    if (number)
        registers.orig_rax = (unsigned long long)*number;
    if (result)
        registers.rax = (unsigned long long)*result;
    ptrace(PTRACE_SETREGS, thread, 0, &registers);
}

static Call *call_of(pid_t thread)
{
    for (Call *at = calls; at < calls + MOST_THREADS; at++) {
        if (at->thread == thread || at->thread == 0) {
            at->thread = thread;
            return at;
        }
    }
    stop("too many threads");
    return NULL;
}

static void begins(Call *call)
{
    static const long long none = -1;
    has_begun = has_begun || strstr(call->text, " .lock") != NULL;
    call->fault = NULL;
    for (Fault *at = faults; has_begun && at < faults + fault_count; at++)
        call->fault = is_due(at, call->text) ? at : call->fault;
    if (call->fault && is_refused(call->fault))
        put(call->thread, &none, NULL);
    if (call->fault && strcmp(call->fault->how, "before") == 0)
        kill(program, SIGKILL);
}

static void ends(Call *call, long long answer)
{
    if (call->fault && answer_of(call->fault) != 0) {
        answer = answer_of(call->fault);
        put(call->thread, NULL, &answer);
    }
    if (call->fault && strcmp(call->fault->how, "after") == 0)
        kill(program, SIGKILL);
    fprintf(list, "%s = %lld\n", call->text, answer);
    fflush(list);
    call->text[0] = 0;
}

static void on_call(pid_t thread)
{
    struct __ptrace_syscall_info info;
    Call *call = call_of(thread);
    if (ptrace(PTRACE_GET_SYSCALL_INFO, thread, sizeof info, &info) <= 0)
        return;
    if (info.op == PTRACE_SYSCALL_INFO_EXIT && call->text[0])
        ends(call, info.exit.rval);
    if (info.op != PTRACE_SYSCALL_INFO_ENTRY)
        return;
    describe(thread, &info, call->text);
    if (call->text[0])
        begins(call);
}

/* ---- the program */

static int watch(void)
{
    int status, result = NOT_MET;
    for (pid_t thread; (thread = waitpid(-1, &status, __WALL)) > 0;) {
        if (!WIFSTOPPED(status)) {
            if (thread == program)
                result = WIFEXITED(status) ? WEXITSTATUS(status) : BY_A_SIGNAL + WTERMSIG(status);
            continue;
        }
        int signal = WSTOPSIG(status);
        if (signal == SYSCALL_STOP)
            on_call(thread);
        /* A thread begins with a stop. */
        bool is_its = signal != SYSCALL_STOP && status >> 16 == 0 && signal != SIGSTOP;
        ptrace(PTRACE_SYSCALL, thread, 0, is_its ? signal : 0);
    }
    for (const Fault *at = faults; at < faults + fault_count; at++)
        result = at->is_met ? result : NOT_MET;
    return result;
}

int main(int argc, char **argv)
{
    static const long options = PTRACE_O_TRACESYSGOOD | PTRACE_O_TRACECLONE | PTRACE_O_TRACEFORK | PTRACE_O_TRACEVFORK | PTRACE_O_TRACEEXEC | PTRACE_O_EXITKILL;
    int at = 3, status;
    if (argc < 5)
        return NOT_MET;
    folder = argv[1];
    list = fopen(argv[2], "we");
    if (!list)
        stop(argv[2]);
    for (; at + 3 < argc && strcmp(argv[at], "--") != 0 && fault_count < MOST_FAULTS; at += 3)
        faults[fault_count++] = (Fault){argv[at], argv[at + 2], atoi(argv[at + 1]), false};
    program = fork();
    if (program == 0) {
        ptrace(PTRACE_TRACEME, 0, 0, 0);
        raise(SIGSTOP);
        execv(argv[at + 1], argv + at + 1);
        stop(argv[at + 1]);
    }
    if (program < 0 || waitpid(program, &status, 0) != program || ptrace(PTRACE_SETOPTIONS, program, 0, options) != 0)
        stop("ptrace");
    ptrace(PTRACE_SYSCALL, program, 0, 0);
    return watch();
}
