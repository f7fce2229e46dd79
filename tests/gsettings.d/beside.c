/* Programs over GSettings that the part `beside` runs with our backend and with dconf's.
 *
 *   beside sees              prints the name, the size, whether it is writable, and whether the desk is on
 *   beside tries             prints that, sets the desk on, syncs, and prints whether it could and whether it is
 *   beside sets TEXT         sets the name and syncs: prints whether it could, and what the name is then
 *   beside waits TEXT        sets the name often, at last to that, and syncs: prints what it is then, and after a line again
 *   beside leaves TEXT       sets the name twice, and returns from main()
 *   beside masks BITS        has that umask, sets and syncs
 *   beside last FILE STEP..  makes the steps; prints how many `changed` came of the last, and whether FILE is another one after it. A step
 *                            is TEXT, which is set, `-` for a reset, =TEXT for an apply of the name and of the desk on, or `sync`
 *   beside orders            two handlers put their keys in order: prints how often they were called, the name and the tags
 *   beside dies KEPT TEXT MILLISECONDS HOW   sets the name, after another that is kept where KEPT is 1, and ends so long after it
 *   beside starts TEXT       sets the name, and starts `beside sees` at once
 *   beside older MILLISECONDS                sets the tags, then the name, says so, and lives so long
 *   beside newer             waits for a line, and sets the name; syncs
 *   beside child             prints whether a child of fork() may set and whether it can
 *   beside keeps COUNT       sets the name so often and keeps each of the values: prints the KiB of memory that this took
 *   beside polls TEXT        reads until the name is that, without a main loop: prints when, by the monotonic clock's milliseconds
 *   beside lands FILE        sets the name 21 times: prints the median of the milliseconds until FILE is another one
 *   beside gets SECONDS      gets the name for so long
 *   beside closes            listens, and closes all its files: prints the milliseconds of a processor that two idle seconds took
 */
#define _GNU_SOURCE
#include <gio/gio.h>
#include <signal.h>
#include <stdio.h>
#include <stdlib.h>
#include <string.h>
#include <sys/stat.h>
#include <sys/wait.h>
#include <time.h>
#include <unistd.h>

enum { MILLISECOND = 1000, MOST_CALLS = 50, MOST_FILES = 64 };

static GSettings *desk;
static int calls;

static void is_called(GSettings *settings, const char *key, gpointer data)
{
    (void)settings, (void)key, (void)data;
    calls++;
}

static void see(const char *behind)
{
    char *name = g_settings_get_string(desk, "name");
    printf("%s %u %d %d%s", name, g_settings_get_uint(desk, "size"), g_settings_is_writable(desk, "size"), g_settings_get_boolean(desk, "on"), behind);
    g_free(name);
}

static void keep(const char *text)
{
    g_settings_set_string(desk, "name", text);
    g_settings_sync();
}

static void sees(char **more)
{
    (void)more;
    see("\n");
}

static void tries(char **more)
{
    (void)more;
    see(" ");
    gboolean done = g_settings_set_boolean(desk, "on", TRUE);
    g_settings_sync();
    printf("%d %d\n", done, g_settings_get_boolean(desk, "on"));
}

static void sets(char **more)
{
    gboolean done = g_settings_set_string(desk, "name", more[0]);
    g_settings_sync();
    char *name = g_settings_get_string(desk, "name");
    printf("%d %s\n", done, name);
    g_free(name);
}

static void tell_name(void)
{
    char *name = g_settings_get_string(desk, "name");
    puts(name);
    fflush(stdout);
    g_free(name);
}

static void waits(char **more)
{
    for (int i = 0; i < MOST_CALLS; i++) {
        g_settings_set_string(desk, "name", i % 2 ? "one" : "two");
        g_usleep(2 * MILLISECOND);
    }
    keep(more[0]);
    tell_name();
    if (getchar() == EOF)
        exit(1);
    tell_name();
}

static void leaves(char **more)
{
    g_settings_set_boolean(desk, "on", TRUE);
    g_settings_set_string(desk, "name", more[0]);
}

static void masks(char **more)
{
    umask((mode_t)strtol(more[0], NULL, 8));
    keep("masked");
}

/* ---- what changes nothing */

static void make(const char *step)
{
    if (strcmp(step, "sync") == 0) {
        g_settings_sync();
    } else if (strcmp(step, "-") == 0) {
        g_settings_reset(desk, "name");
    } else if (*step == '=') {
        GSettings *later = g_settings_new("org.example.desk");
        g_settings_delay(later);
        g_settings_set_string(later, "name", step + 1);
        g_settings_set_boolean(later, "on", TRUE);
        g_settings_apply(later);
        g_object_unref(later);
    } else {
        g_settings_set_string(desk, "name", step);
    }
}

static void last(char **more)
{
    struct stat before = {.st_ino = 0}, after = {.st_ino = 0};
    const char *file = *more++;
    for (; more[0] && more[1]; more++)
        make(more[0]);
    /* Files that are written a moment after each other shall have other times. */
    g_usleep(20 * MILLISECOND);
    if (stat(file, &before) != 0)
        before.st_ino = 0;
    g_signal_connect(desk, "changed", G_CALLBACK(is_called), NULL);
    make(more[0]);
    g_settings_sync();
    if (stat(file, &after) != 0)
        after.st_ino = 0;
    printf("%d %d\n", calls, before.st_ino != after.st_ino || before.st_mtim.tv_nsec != after.st_mtim.tv_nsec);
}

static void in_order(GSettings *settings, const char *key, gpointer tags)
{
    const char *const sorted[] = {"a", "b", NULL};
    if (++calls > MOST_CALLS)
        exit(3);
    if (tags) {
        g_settings_set_strv(settings, key, sorted);
        return;
    }
    char *text = g_settings_get_string(settings, key), *lower = g_ascii_strdown(text, -1);
    g_settings_set_string(settings, key, lower);
    g_free(text);
    g_free(lower);
}

static void orders(char **more)
{
    const char *const tags[] = {"b", "a", NULL};
    (void)more;
    g_signal_connect(desk, "changed::name", G_CALLBACK(in_order), NULL);
    g_signal_connect(desk, "changed::tags", G_CALLBACK(in_order), desk);
    g_settings_set_string(desk, "name", "LOUD");
    g_settings_set_strv(desk, "tags", tags);
    g_settings_sync();
    printf("%d ", calls);
    see("\n");
}

/* ---- when a set is on the disk */

static void dies(char **more)
{
    if (atoi(more[0]))
        keep("kept");
    g_settings_set_string(desk, "name", more[1]);
    g_usleep((gulong)atoi(more[2]) * MILLISECOND);
    if (strcmp(more[3], "exits") == 0)
        _exit(0);
    raise(strcmp(more[3], "faults") == 0 ? SIGSEGV : SIGKILL);
}

static void starts(char **more)
{
    char *words[] = {(char *)"/proc/self/exe", (char *)"sees", NULL}, *said = NULL;
    words[0] = g_file_read_link("/proc/self/exe", NULL);
    g_settings_set_string(desk, "name", more[0]);
    g_spawn_sync(NULL, words, NULL, G_SPAWN_DEFAULT, NULL, NULL, &said, NULL, NULL, NULL);
    printf("%s", said ? said : "");
    g_free(said);
    g_free(words[0]);
}

static void older(char **more)
{
    const char *const tags[] = {"first", NULL};
    g_settings_set_strv(desk, "tags", tags);
    g_usleep(30 * MILLISECOND);
    g_settings_set_string(desk, "name", "older");
    puts("set");
    fflush(stdout);
    g_usleep((gulong)atoi(more[0]) * MILLISECOND);
}

static void newer(char **more)
{
    (void)more;
    g_free(g_settings_get_string(desk, "name"));
    puts("waits");
    fflush(stdout);
    if (getchar() == EOF)
        exit(1);
    g_usleep(20 * MILLISECOND);
    keep("newer");
}

static void child(char **more)
{
    int status;
    (void)more;
    keep("kept");
    fflush(stdout);
    pid_t it = fork();
    if (it == 0) {
        alarm(5);
        int may = g_settings_is_writable(desk, "name"), can = g_settings_set_string(desk, "name", "a child's");
        _exit(8 + 2 * may + can);
    }
    if (it < 0 || waitpid(it, &status, 0) != it)
        exit(1);
    if (WIFEXITED(status))
        printf("%d %d\n", WEXITSTATUS(status) / 2 % 2 == 1, WEXITSTATUS(status) % 2);
    else
        puts("hangs");
}

static long kibibytes(void)
{
    char *all = NULL;
    long sum = 0;
    if (!g_file_get_contents("/proc/self/smaps_rollup", &all, NULL, NULL))
        exit(1);
    char *pss = strstr(all, "\nPss:");
    if (pss)
        sum = strtol(pss + 5, NULL, 10);
    g_free(all);
    return sum;
}

static void keeps(char **more)
{
    int count = atoi(more[0]);
    GVariant **values = g_new0(GVariant *, (gsize)count);
    keep("first");
    long before = kibibytes();
    for (int i = 0; i < count; i++) {
        char text[32];
        snprintf(text, sizeof text, "name %d", i);
        keep(text);
        values[i] = g_settings_get_value(desk, "name");
    }
    printf("%ld\n", kibibytes() - before);
    for (int i = 0; i < count; i++)
        g_variant_unref(values[i]);
    g_free(values);
}

static void polls(char **more)
{
    gint64 began = g_get_monotonic_time();
    g_free(g_settings_get_string(desk, "name"));
    puts("polls");
    fflush(stdout);
    for (gboolean is = FALSE; !is && g_get_monotonic_time() < began + 5 * G_USEC_PER_SEC; g_usleep(MILLISECOND)) {
        char *name = g_settings_get_string(desk, "name");
        is = strcmp(name, more[0]) == 0;
        g_free(name);
    }
    printf("%ld\n", (long)(g_get_monotonic_time() / MILLISECOND));
}

static ino_t inode_of(const char *file)
{
    struct stat found;
    return stat(file, &found) == 0 ? found.st_ino : 0;
}

static int by_size(const void *one, const void *other)
{
    return *(const int *)one < *(const int *)other ? -1 : *(const int *)one > *(const int *)other;
}

static void lands(char **more)
{
    int took[21];
    keep("first");
    for (int i = 0; i < (int)G_N_ELEMENTS(took); i++) {
        char text[32];
        snprintf(text, sizeof text, "number %d", i);
        ino_t before = inode_of(more[0]);
        gint64 began = g_get_monotonic_time();
        g_settings_set_string(desk, "name", text);
        while (inode_of(more[0]) == before && g_get_monotonic_time() < began + G_USEC_PER_SEC)
            g_usleep(50);
        took[i] = (int)(g_get_monotonic_time() - began);
        g_usleep(20 * MILLISECOND);
    }
    qsort(took, G_N_ELEMENTS(took), sizeof took[0], by_size);
    printf("%.2f\n", took[G_N_ELEMENTS(took) / 2] / (double)MILLISECOND);
}

static void gets(char **more)
{
    for (gint64 end = g_get_monotonic_time() + atoi(more[0]) * G_USEC_PER_SEC; g_get_monotonic_time() < end;)
        g_free(g_settings_get_string(desk, "name"));
    puts("gets");
}

static void closes(char **more)
{
    (void)more;
    g_signal_connect(desk, "changed", G_CALLBACK(is_called), NULL);
    for (int i = 0; i < 100; i++) {
        while (g_main_context_iteration(NULL, FALSE))
            ;
        g_usleep(5 * MILLISECOND);
    }
    for (int file = STDERR_FILENO + 1; file < MOST_FILES; file++)
        close(file);
    clock_t began = clock();
    g_usleep(2 * G_USEC_PER_SEC);
    printf("%ld\n", (long)((clock() - began) * 1000 / CLOCKS_PER_SEC));
}

static const struct {
    const char *word;
    void (*does)(char **more);
    int words;
} ALL[] = {
    {"sees", sees, 0}, {"tries", tries, 0}, {"sets", sets, 1}, {"waits", waits, 1}, {"leaves", leaves, 1}, {"masks", masks, 1}, {"last", last, 2},
    {"orders", orders, 0},
    {"dies", dies, 4}, {"starts", starts, 1}, {"older", older, 1}, {"newer", newer, 0}, {"child", child, 0}, {"keeps", keeps, 1}, {"polls", polls, 1},
    {"lands", lands, 1}, {"gets", gets, 1}, {"closes", closes, 0},
};

int main(int argc, char **argv)
{
    for (size_t i = 0; argc > 1 && i < G_N_ELEMENTS(ALL); i++) {
        if (strcmp(argv[1], ALL[i].word) != 0 || argc - 2 < ALL[i].words)
            continue;
        desk = g_settings_new("org.example.desk");
        ALL[i].does(argv + 2);
        return 0;
    }
    return 2;
}
