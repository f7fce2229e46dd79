/* A program over GSettings at a moment of its life.
 *
 *   moments exits NUMBER      sets and reads, and a signal's handler calls exit() after some microseconds, by NUMBER
 *   moments reads NUMBER      the same, and it only reads
 *   moments waits-for-signal  blocks SIGUSR1 after its first GSettings, and waits for it: prints 1 where it comes there
 *   moments set TEXT          sets the name and ends: prints whether it could
 *   moments again TEXT        the same, and again after a line of stdin: prints of each whether it could
 *   moments dies TEXT         sets the name twice, and is killed 20 milliseconds after the second
 *   moments watches SECONDS   gets and sets without a main loop for so long: prints how many inotify instances it has
 *   moments listens SECONDS   prints the name at each `changed`
 *   moments starves SECONDS   the same, and takes all file descriptors at SIGUSR1, and closes them at SIGUSR2
 */
#define _GNU_SOURCE
#include <fcntl.h>
#include <gio/gio.h>
#include <glib-unix.h>
#include <signal.h>
#include <stdio.h>
#include <stdlib.h>
#include <string.h>
#include <sys/resource.h>
#include <sys/time.h>
#include <unistd.h>

enum { MILLISECOND = 1000, MOST_FILES = 64 };

static void ends(int number)
{
    (void)number;
    exit(5);
}

/* Amid anything that the thread does. */
static int exits(GSettings *desk, int number, gboolean sets)
{
    struct itimerval when = {.it_value = {0, 2 * MILLISECOND + number * 37 % (20 * MILLISECOND)}};
    signal(SIGALRM, ends);
    if (setitimer(ITIMER_REAL, &when, NULL) != 0)
        return 1;
    for (guint i = 0;; i++) {
        if (sets)
            g_settings_set_uint(desk, "size", i);
        g_free(g_settings_get_string(desk, "name"));
    }
}

static int waits_for_signal(GSettings *desk)
{
    sigset_t set;
    struct timespec most = {2, 0};
    g_settings_set_string(desk, "name", "mine");
    sigemptyset(&set);
    sigaddset(&set, SIGUSR1);
    if (sigprocmask(SIG_BLOCK, &set, NULL) != 0)
        return 1;
    g_usleep(50 * MILLISECOND);
    if (kill(getpid(), SIGUSR1) != 0)
        return 1;
    printf("%d\n", sigtimedwait(&set, NULL, &most) == SIGUSR1);
    return 0;
}

static int dies(GSettings *desk, const char *text)
{
    g_settings_set_string(desk, "name", "first");
    g_settings_sync();
    g_settings_set_string(desk, "name", text);
    g_usleep(20 * MILLISECOND);
    return kill(getpid(), SIGKILL);
}

static int again(GSettings *desk, const char *text)
{
    char line[8];
    printf("%d\n", g_settings_set_string(desk, "name", text));
    fflush(stdout);
    if (fgets(line, sizeof line, stdin))
        printf("%d\n", g_settings_set_string(desk, "name", text));
    return 0;
}

static int instances(void)
{
    int found = 0;
    for (int file = 0; file < MOST_FILES; file++) {
        char name[32], to[64] = "";
        snprintf(name, sizeof name, "/proc/self/fd/%d", file);
        if (readlink(name, to, sizeof to - 1) > 0)
            found += strstr(to, "inotify") != NULL;
    }
    return found;
}

static int watches(GSettings *desk, int seconds)
{
    for (int i = 0; i < 10 * seconds; i++) {
        g_settings_set_uint(desk, "size", (guint)i);
        g_free(g_settings_get_string(desk, "name"));
        g_usleep(100 * MILLISECOND);
    }
    g_settings_sync();
    printf("%d\n", instances());
    return 0;
}

static void on_change(GSettings *desk, const char *key, gpointer data)
{
    char *name = g_settings_get_string(desk, "name");
    (void)data;
    printf("%s %s\n", key, name);
    fflush(stdout);
    g_free(name);
}

static gboolean quit(gpointer loop)
{
    g_main_loop_quit(loop);
    return G_SOURCE_REMOVE;
}

static int listens(GSettings *desk, guint seconds)
{
    GMainLoop *loop = g_main_loop_new(NULL, FALSE);
    g_signal_connect(desk, "changed::name", G_CALLBACK(on_change), NULL);
    g_free(g_settings_get_string(desk, "name"));
    puts("listens");
    fflush(stdout);
    g_timeout_add_seconds(seconds, quit, loop);
    g_main_loop_run(loop);
    return 0;
}

static int taken[MOST_FILES], count;

static gboolean takes_all(gpointer data)
{
    (void)data;
    while (count < MOST_FILES && (taken[count] = open("/dev/null", O_RDONLY | O_CLOEXEC)) >= 0)
        count++;
    puts("starves");
    fflush(stdout);
    return G_SOURCE_CONTINUE;
}

static gboolean gives_back(gpointer data)
{
    (void)data;
    while (count > 0)
        close(taken[--count]);
    return G_SOURCE_CONTINUE;
}

static int starves(GSettings *desk, guint seconds)
{
    struct rlimit few = {MOST_FILES, MOST_FILES};
    if (setrlimit(RLIMIT_NOFILE, &few) != 0)
        return 1;
    g_unix_signal_add(SIGUSR1, takes_all, NULL);
    g_unix_signal_add(SIGUSR2, gives_back, NULL);
    return listens(desk, seconds);
}

int main(int argc, char **argv)
{
    if (argc < 2)
        return 2;
    const char *what = argv[1], *more = argc > 2 ? argv[2] : "0";
    GSettings *desk = g_settings_new("org.example.desk");
    if (strcmp(what, "exits") == 0 || strcmp(what, "reads") == 0)
        return exits(desk, atoi(more), what[0] == 'e');
    if (strcmp(what, "waits-for-signal") == 0)
        return waits_for_signal(desk);
    if (strcmp(what, "again") == 0)
        return again(desk, more);
    if (strcmp(what, "dies") == 0)
        return dies(desk, more);
    if (strcmp(what, "watches") == 0)
        return watches(desk, atoi(more));
    if (strcmp(what, "listens") == 0)
        return listens(desk, (guint)atoi(more));
    if (strcmp(what, "starves") == 0)
        return starves(desk, (guint)atoi(more));
    printf("%d\n", g_settings_set_string(desk, "name", more));
    return 0;
}
