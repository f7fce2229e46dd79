/* GLib's sources of descriptors and signals. */
#ifndef GLIB_UNIX_H
#define GLIB_UNIX_H

#include <gio/gio.h>

guint g_unix_fd_add(gint file, GIOCondition condition, gboolean (*call)(gint file, GIOCondition condition, gpointer data), gpointer data);

#endif
