/* Lists of texts: one after the other, a zero byte after each, and one more at the end. */
#ifndef LISTS_H
#define LISTS_H

#include <string.h>

/* What is behind a text. */
static inline const char *next_text(const char *text)
{
    return text + strlen(text) + 1;
}

#endif
