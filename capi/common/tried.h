/* What became of edits that were tried together. */
#ifndef TRIED_H
#define TRIED_H

#include "batch.h"

#include <glib.h>

/* The last edit of each path of a batch, by its path. */
GTree *tried_last(const Batch *batch);

/* What is known of an edit beside those behind it, by what was there then. */
DconfdbTried tried_edit(const Batch *batch, size_t number, bool is_written, GTree *last, const DconfdbSnapshot *then);

#endif
