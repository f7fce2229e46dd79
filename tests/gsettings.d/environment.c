/* Changes the environment as soon as there is a GSettings, so that nobody may ask for a variable meanwhile.
 *
 *   environment PROFILE    the store's profile is written anew. It prints how often a variable was asked for before that, and how often
 *                          after it by the thread of the backend
 */
#define _GNU_SOURCE
#include <gio/gio.h>
#include <pthread.h>
#include <stdatomic.h>
#include <stdio.h>
#include <stdlib.h>
#include <string.h>

enum { VARIABLES = 1000, A_WHILE = 300 };

extern char **environ;

static atomic_int asked, asked_by_backend;

/* The one that GLib and the module find, too. */
char *getenv(const char *name)
{
    char thread[16] = "";
    size_t len = strlen(name);
    pthread_getname_np(pthread_self(), thread, sizeof thread);
    atomic_fetch_add(strcmp(thread, "dconfdb") == 0 ? &asked_by_backend : &asked, 1);
    for (char **at = environ; at && *at; at++) {
        if (strncmp(*at, name, len) == 0 && (*at)[len] == '=')
            return *at + len + 1;
    }
    return NULL;
}

static gboolean end(gpointer loop)
{
    g_main_loop_quit(loop);
    return G_SOURCE_REMOVE;
}

static void waits(void)
{
    GMainLoop *loop = g_main_loop_new(NULL, FALSE);
    g_timeout_add(A_WHILE, end, loop);
    g_main_loop_run(loop);
    g_main_loop_unref(loop);
}

int main(int argc, char **argv)
{
    if (argc != 2)
        return 2;
    GSettings *desk = g_settings_new("org.example.desk");
    int before = asked;
    for (int i = 0; i < VARIABLES; i++) {
        char name[32];
        snprintf(name, sizeof name, "DCONFDB_TEST_%d", i);
        setenv(name, name, 1);
    }
    g_settings_set_string(desk, "name", "mine");
    waits();
    if (!g_file_set_contents(argv[1], "user-db:user\n", -1, NULL))
        return 1;
    waits();
    g_settings_set_string(desk, "name", "mine too");
    g_settings_sync();
    printf("%d %d\n", before > 0, asked_by_backend);
    g_object_unref(desk);
    return 0;
}
