/* Texts, and bytes that may be NULL where there are none. */
#ifndef TEXTS_H
#define TEXTS_H

#include "dconfdb_calls.h"

#include <stdlib.h>
#include <string.h>

static inline const uint8_t *bytes_of(const void *data)
{
    return data ? data : dconfdb_empty_file;
}

static inline DconfdbBytes text_bytes(const char *text)
{
    return (DconfdbBytes){(const uint8_t *)text, strlen(text)};
}

static inline char *put_bytes(char *to, const DconfdbBytes *bytes)
{
    memcpy(to, bytes->at, bytes->len);
    return to + bytes->len;
}

static inline size_t path_len(const DconfdbPath *path)
{
    return path->first.len + path->second.len + path->third.len + path->fourth.len;
}

/* The path as one text, or NULL. */
static inline char *path_text(const DconfdbPath *path)
{
    char *text = malloc(path_len(path) + 1);
    if (text)
        *put_bytes(put_bytes(put_bytes(put_bytes(text, &path->first), &path->second), &path->third), &path->fourth) = 0;
    return text;
}

/* Texts behind each other, or NULL. */
static inline char *joined(const char *one, const char *between, const char *other)
{
    char *text = malloc(strlen(one) + strlen(between) + strlen(other) + 1);
    if (text)
        stpcpy(stpcpy(stpcpy(text, one), between), other);
    return text;
}

#endif
