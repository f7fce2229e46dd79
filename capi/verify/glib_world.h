/* What a harness sees of glib.c and gdbus.c. */
#ifndef GLIB_WORLD_H
#define GLIB_WORLD_H

#include <gio/gio.h>
#include <stdbool.h>

/* Called while somebody waits for what comes, and has no mutex. */
extern void (*at_wait)(void);

/* What of the bus is had and given back. */
typedef enum { A_CALL, AN_ANSWER, AN_INVOCATION } ObjectKind;

/* A call: it is answered once, unless nobody wants that, and goes then. Or an answer, of a call. */
struct GDBusMessage {
    ObjectKind kind;
    int references;
    unsigned answers;
    bool is_refused; /* by an error */
    bool is_silent;  /* nobody wants an answer */
    GVariant *words;
    GDBusMessage *of;
};

/* What GDBus hands over in the main thread, with a call. */
struct GDBusMethodInvocation {
    ObjectKind kind;
    int references;
    GDBusMessage *message;
};

/* With words of one child, which is a text of bytes. */
void call_begin(GDBusMessage *call);

/* Once it is answered. */
void call_end(GDBusMessage *call);

/* Such a call as the main thread is handed it, with the only reference. */
void invocation_begin(GDBusMethodInvocation *invocation, GDBusMessage *call);

/* How many values are had. */
extern unsigned values_had;
#endif
