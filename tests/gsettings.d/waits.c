/* Sets what waits, or on a slow disk, for the parts `order` and `beside`:
 *
 *   waits again       no descriptor is left, and the name is set to `older`; once a line comes, again; once another comes there are
 *   waits apply       descriptors. Or the name and the tags are applied to `older`, and nothing is set again
 *   waits turned      $FLAG is made, so that each stat of the user's file takes $STAT milliseconds, after a main loop has turned; then
 *   waits unturned    the milliseconds of the longest of the calls get, is_writable, set, set of what is there, of 20 sets, and of a sync
 *                     of them. Or before a main loop has turned
 *   waits deep        sets a value of 100 levels, in a program whose threads have 64 KiB of stack, and says `kept`
 *   waits ends        a handler of warnings calls exit(); says when it was called, in ms of a clock
 */
#define _GNU_SOURCE
#include "told.h"

#include <fcntl.h>
#include <pthread.h>
#include <stdio.h>
#include <stdlib.h>
#include <string.h>
#include <sys/resource.h>
#include <unistd.h>

enum { FILES = 64, LEVELS = 100, SMALL = 64 << 10, SETS = 20 };

static GSettings *desk;
static int files[FILES], count;

static void turn(int milliseconds)
{
    for (gint64 end = g_get_monotonic_time() + milliseconds * 1000; g_get_monotonic_time() < end; g_usleep(1000))
        g_main_context_iteration(NULL, FALSE);
}

static void says(const char *text)
{
    puts(text);
    fflush(stdout);
}

static void awaits_a_line(void)
{
    char line[16];
    if (!fgets(line, sizeof line, stdin))
        exit(1);
}

static void takes_all_files(void)
{
    struct rlimit few = {FILES, FILES};
    setrlimit(RLIMIT_NOFILE, &few);
    while (count < FILES && (files[count] = open("/dev/null", O_RDONLY)) >= 0)
        count++;
}

static void gives_all_files(void)
{
    while (count > 0)
        close(files[--count]);
}

static void waits(gboolean applies)
{
    static const char *const tags[] = {"older", NULL};
    g_settings_set_string(desk, "name", "first");
    g_settings_sync();
    turn(200);
    takes_all_files();
    if (applies) {
        g_settings_delay(desk);
        g_settings_set_strv(desk, "tags", tags);
    }
    g_settings_set_string(desk, "name", "older");
    if (applies)
        g_settings_apply(desk);
    turn(200);
    says("set");
    awaits_a_line();
    g_signal_connect(desk, "changed", G_CALLBACK(is_told), NULL);
    if (!applies)
        g_settings_set_string(desk, "name", "older");
    turn(100);
    gives_all_files();
    g_settings_sync();
    turn(300);
}

/* ---- a slow disk */

static double since(gint64 began)
{
    return (double)(g_get_monotonic_time() - began) / 1000;
}

static void takes(const char *what, gint64 began)
{
    printf("%s %.1f\n", what, since(began));
}

static void on_slow_stats(gboolean turned)
{
    g_free(g_settings_get_string(desk, "name"));
    g_settings_set_string(desk, "name", "first");
    g_settings_sync();
    if (turned)
        turn(500);
    close(open(getenv("FLAG"), O_CREAT | O_WRONLY, 0600));
    g_usleep(30000);
    gint64 began = g_get_monotonic_time();
    g_free(g_settings_get_string(desk, "name"));
    takes("get", began);
    began = g_get_monotonic_time();
    g_settings_is_writable(desk, "name");
    takes("is_writable", began);
    began = g_get_monotonic_time();
    g_settings_set_string(desk, "name", "second");
    takes("set", began);
    began = g_get_monotonic_time();
    g_settings_set_boolean(desk, "on", g_settings_get_boolean(desk, "on"));
    takes("same", began);
    began = g_get_monotonic_time();
    for (int i = 0; i < SETS; i++)
        g_settings_set_boolean(desk, "on", i % 2 == 0);
    takes("sets", began);
    began = g_get_monotonic_time();
    g_settings_sync();
    takes("sync", began);
    unlink(getenv("FLAG"));
}

/* ---- threads */

static void is_deep(void)
{
    pthread_attr_t small;
    pthread_attr_init(&small);
    pthread_attr_setstacksize(&small, SMALL);
    pthread_setattr_default_np(&small);
    desk = g_settings_new("org.example.types");
    GVariant *value = g_variant_new_int32(7);
    for (int i = 0; i < LEVELS; i++)
        value = g_variant_new_variant(value);
    g_settings_set_value(desk, "variant", g_variant_ref_sink(value));
    g_settings_sync();
    GVariant *found = g_settings_get_value(desk, "variant");
    says(g_variant_equal(found, value) ? "kept" : "lost");
}

static GLogWriterOutput ends(GLogLevelFlags level, const GLogField *fields, gsize n, gpointer data)
{
    (void)fields, (void)n, (void)data;
    if ((level & G_LOG_LEVEL_WARNING) == 0)
        return G_LOG_WRITER_HANDLED;
    printf("%ld\n", (long)(g_get_monotonic_time() / 1000));
    fflush(stdout);
    exit(0);
}

static void ends_in_a_handler(void)
{
    g_log_set_writer_func(ends, NULL, NULL);
    g_settings_set_string(desk, "name", "first");
    turn(20000);
}

int main(int argc, char **argv)
{
    const char *word = argc == 2 ? argv[1] : "";
    if (strcmp(word, "deep") == 0) {
        is_deep();
        return 0;
    }
    desk = g_settings_new("org.example.desk");
    if (strcmp(word, "again") == 0 || strcmp(word, "apply") == 0)
        waits(strcmp(word, "apply") == 0);
    else if (strcmp(word, "turned") == 0 || strcmp(word, "unturned") == 0)
        on_slow_stats(strcmp(word, "turned") == 0);
    else if (strcmp(word, "ends") == 0)
        ends_in_a_handler();
    else
        return 2;
    g_object_unref(desk);
    return 0;
}
