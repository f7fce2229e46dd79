/* What dconfdb_store_fd and dconfdb_store_dispatch have of a store. */
#ifndef NOTICES_H
#define NOTICES_H

#include "watch.h"

#include <pthread.h>

typedef struct {
    pthread_mutex_t lock;  /* it is taken before what guards the store. It guards: */
    Watch *watch;          /* NULL: nobody has asked for the descriptor */
    int polled;            /* epoll's, of inotify and a clock */
    int inotify, clock;    /* in it; inotify's is the watch's, or -1 */
    DconfdbSnapshot *told; /* what was told last; NULL: nothing was */
} Notices;

void notices_begin(Notices *it);
void notices_end(Notices *it);

/* A store's, and the files that it has, a zero byte after each and one more; NULL: no memory is left. */
Notices *notices_of(DconfdbStore *store);
char *files_of(const DconfdbStore *store);

#endif
