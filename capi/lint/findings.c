/* What `dconfdb lint` prints, by the proved call: a line for each finding, or an object of JSON. */
#include "lint.h"

#include <stdarg.h>
#include <stdio.h>
#include <string.h>

static size_t count;
static bool is_json;

void findings_as_json(void)
{
    is_json = true;
}

static DconfdbBytes bytes_of(const char *text)
{
    static const DconfdbBytes nothing = DCONFDB_NOTHING;
    return text ? (DconfdbBytes){(const uint8_t *)text, strlen(text)} : nothing;
}

static void put_finding(uint32_t kind, Place at, const char *near, const char *text)
{
    const DconfdbBytes file = bytes_of(at.file), said = bytes_of(text), nearest = bytes_of(near);
    size_t len = 512, room_len; /* mostly enough */
    uint8_t *room = NULL;
    do {
        room_len = len;
        room = g_realloc(room, room_len);
        if (dconfdb_finding_line(is_json, kind, file.at, file.len, at.line, said.at, said.len, near, nearest.at, nearest.len, room, room_len, &len) != DCONFDB_OK)
            g_error("no memory is left");
    } while (len > room_len);
    fwrite(room, 1, len, stdout);
    g_free(room);
    count++;
}

void find(uint32_t kind, Place at, const char *format, ...)
{
    va_list words;
    va_start(words, format);
    char *text = g_strdup_vprintf(format, words);
    va_end(words);
    put_finding(kind, at, NULL, text);
    g_free(text);
}

void find_near(uint32_t kind, Place at, const char *near, const char *what, const char *path)
{
    char *text = g_strconcat(what, " ", path, NULL);
    put_finding(kind, at, near, text);
    g_free(text);
}

size_t findings_count(void)
{
    return count;
}
