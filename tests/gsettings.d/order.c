/* Sets what waits for its turn, for the part `order`:
 *
 *   order NAME [MILLISECONDS]   sets the size, and so many milliseconds later the name (at once, and no size, where none are given); says
 *                               so, and then which keys change, until stdin ends
 */
#include "told.h"

#include <poll.h>
#include <stdbool.h>
#include <stdio.h>
#include <stdlib.h>
#include <unistd.h>

enum { PAUSE = 1000 };

static bool has_ended(void)
{
    struct pollfd in = {STDIN_FILENO, POLLIN, 0};
    return poll(&in, 1, 0) > 0;
}

int main(int argc, char **argv)
{
    if (argc < 2)
        return 2;
    GSettings *desk = g_settings_new("org.example.desk");
    g_free(g_settings_get_string(desk, "name"));
    for (int i = 0; i < 100; i++) {
        g_main_context_iteration(NULL, FALSE);
        g_usleep(PAUSE);
    }
    if (argc == 3) {
        g_settings_set_uint(desk, "size", (guint)getpid());
        g_usleep(PAUSE * (gulong)atoi(argv[2]));
    }
    if (!g_settings_set_string(desk, "name", argv[1]))
        return 1;
    g_signal_connect(desk, "changed", G_CALLBACK(is_told), NULL);
    puts("set");
    fflush(stdout);
    while (!has_ended()) {
        while (g_main_context_iteration(NULL, FALSE))
            ;
        g_usleep(PAUSE);
    }
    g_object_unref(desk);
    return 0;
}
