/* A program that knows nothing of whose libdconf it has: takes a command from each line of stdin, and prints what it answers and which signals come. */
#include <dconf.h>
#include <fcntl.h>
#include <stdio.h>
#include <stdlib.h>
#include <string.h>
#include <sys/resource.h>
#include <unistd.h>

static DConfClient *client;
static gchar *last_tag;
static int handled;

static const char *kind_of(const char *tag)
{
    return !tag ? "NULL" : last_tag && *tag && strcmp(tag, last_tag) == 0 ? "mine" : *tag ? "another" : "empty";
}

static void on_changed(DConfClient *it, const gchar *prefix, const gchar *const *changes, const gchar *tag, gpointer data)
{
    gchar *joined = g_strjoinv(" ", (gchar **)changes);
    (void)it, (void)data;
    handled++;
    printf("  changed %s [%s] %s\n", prefix, joined, kind_of(tag));
    g_free(joined);
}

static void on_writability_changed(DConfClient *it, const gchar *path, gpointer data)
{
    (void)it, (void)data;
    printf("  writability-changed %s\n", path);
}

static gboolean is_over(gpointer data)
{
    *(gboolean *)data = TRUE;
    return G_SOURCE_REMOVE;
}

/* Turns the main loop for so many milliseconds, or until a signal came where `awaits` says so. */
static void settle(guint milliseconds, gboolean awaits)
{
    gboolean ended = FALSE;
    int before = handled;
    guint source = g_timeout_add(milliseconds, is_over, &ended);
    while (!ended && !(awaits && handled > before))
        g_main_context_iteration(NULL, TRUE);
    if (!ended)
        g_source_remove(source);
}

static void print_value(GVariant *value)
{
    gchar *text = value ? g_variant_print(value, TRUE) : g_strdup("NULL");
    printf("  %s\n", text);
    g_free(text);
    g_clear_pointer(&value, g_variant_unref);
}

static void print_list(gchar **list, gint length)
{
    gchar *joined;
    joined = g_strjoinv(" ", list);
    printf("  %d %s\n", length, joined);
    g_free(joined);
    g_strfreev(list);
}

static int by_text(const void *one, const void *other)
{
    return strcmp(*(char *const *)one, *(char *const *)other);
}

static void print_names(gchar **list, gint length)
{
    qsort(list, (size_t)length, sizeof *list, by_text);
    print_list(list, length);
}

static void print_done(gboolean is_done, GError *error)
{
    printf("  %d", is_done);
    if (error)
        printf(" %s %d %s", g_quark_to_string(error->domain), error->code, error->domain == DCONF_ERROR ? error->message : "");
    printf("\n");
    g_clear_error(&error);
}

static GVariant *parsed(const char *text)
{
    return strcmp(text, "-") == 0 ? NULL : g_variant_new_parsed(text);
}

/* PATH=VALUE.. */
static DConfChangeset *set_of(gchar **words)
{
    DConfChangeset *set = dconf_changeset_new();
    for (gchar **at = words; *at; at++) {
        gchar **pair = g_strsplit(*at, "=", 2);
        dconf_changeset_set(set, pair[0], parsed(pair[1]));
        g_strfreev(pair);
    }
    return set;
}

static void change(gchar **words)
{
    GError *error = NULL;
    gboolean is_sync = strcmp(words[0], "sync") == 0;
    DConfChangeset *set = set_of(words + 1);
    if (is_sync)
        g_clear_pointer(&last_tag, g_free);
    gboolean is_done = is_sync ? dconf_client_change_sync(client, set, &last_tag, NULL, &error) : dconf_client_change_fast(client, set, &error);
    print_done(is_done, error);
    dconf_changeset_unref(set);
}

static void write_one(gchar **words)
{
    GError *error = NULL;
    gboolean is_sync = strcmp(words[0], "sync") == 0;
    if (is_sync)
        g_clear_pointer(&last_tag, g_free);
    gboolean is_done = is_sync ? dconf_client_write_sync(client, words[1], parsed(words[2]), &last_tag, NULL, &error)
                               : dconf_client_write_fast(client, words[1], parsed(words[2]), &error);
    print_done(is_done, error);
}

/* FLAGS PATH [PATH=VALUE ..], the latter read through. */
static void read_one(gchar **words)
{
    GQueue through = G_QUEUE_INIT;
    int flags = atoi(words[0]);
    if (words[2])
        g_queue_push_head(&through, set_of(words + 2));
    print_value(flags == 0 && !words[2] ? dconf_client_read(client, words[1])
                                        : dconf_client_read_full(client, words[1], (DConfReadFlags)flags, &through));
    g_queue_clear_full(&through, (GDestroyNotify)dconf_changeset_unref);
}

static void watch(gchar **words)
{
    gboolean is_sync = strcmp(words[0], "sync") == 0;
    (is_sync ? dconf_client_watch_sync : dconf_client_watch_fast)(client, words[1]);
}

static void unwatch(gchar **words)
{
    gboolean is_sync = strcmp(words[0], "sync") == 0;
    (is_sync ? dconf_client_unwatch_sync : dconf_client_unwatch_fast)(client, words[1]);
}

static void list(gchar **words)
{
    gint length = -1;
    gchar **names = dconf_client_list(client, words[0], &length);
    print_names(names, length);
}

static void locks(gchar **words)
{
    gint length = -1;
    gchar **names = dconf_client_list_locks(client, words[0], &length);
    print_names(names, length);
}

static void writable(gchar **words)
{
    printf("  %d\n", dconf_client_is_writable(client, words[0]));
}

static void settle_for(gchar **words)
{
    settle((guint)atoi(words[0]), FALSE);
}

static void await(gchar **words)
{
    settle((guint)atoi(words[0]), TRUE);
    settle(5, FALSE);
}

static void sync_all(gchar **words)
{
    (void)words;
    dconf_client_sync(client);
}

static void anew(gchar **words)
{
    (void)words;
    g_object_unref(client);
    client = dconf_client_new();
    g_signal_connect(client, "changed", G_CALLBACK(on_changed), NULL);
    g_signal_connect(client, "writability-changed", G_CALLBACK(on_writability_changed), NULL);
}

enum { MOST_FILES = 64 };

static int taken[MOST_FILES], count;

/* Takes all file descriptors that there are; and gives them back. */
static void starve(gchar **words)
{
    struct rlimit few = {MOST_FILES, MOST_FILES};
    (void)words;
    if (setrlimit(RLIMIT_NOFILE, &few) != 0)
        printf("  no limit\n");
    while (count < MOST_FILES && (taken[count] = open("/dev/null", O_RDONLY | O_CLOEXEC)) >= 0)
        count++;
}

static void feed(gchar **words)
{
    (void)words;
    while (count > 0)
        close(taken[--count]);
}

static void go(gchar **words)
{
    if (chdir(words[0]) != 0)
        printf("  not there\n");
}

static const struct {
    const char *name;
    void (*call)(gchar **words);
} COMMANDS[] = {{"change", change}, {"write", write_one}, {"read", read_one}, {"watch", watch}, {"unwatch", unwatch}, {"list", list}, {"locks", locks},
                {"writable", writable}, {"settle", settle_for}, {"await", await}, {"sync", sync_all}, {"anew", anew}, {"starve", starve},
                {"feed", feed}, {"go", go}};

int main(void)
{
    char line[4096];
    client = dconf_client_new();
    g_signal_connect(client, "changed", G_CALLBACK(on_changed), NULL);
    g_signal_connect(client, "writability-changed", G_CALLBACK(on_writability_changed), NULL);
    setvbuf(stdout, NULL, _IOFBF, 65536);
    while (fgets(line, sizeof line, stdin)) {
        gchar **words = g_strsplit(g_strchomp(line), " ", -1);
        printf("%s\n", line);
        for (size_t i = 0; i < G_N_ELEMENTS(COMMANDS); i++) {
            if (strcmp(words[0], COMMANDS[i].name) == 0)
                COMMANDS[i].call(words + 1);
        }
        g_strfreev(words);
        fflush(stdout);
    }
    g_object_unref(client);
    g_free(last_tag);
    return 0;
}
