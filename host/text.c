#include "text.h"

#include <stdio.h>
#include <stdlib.h>
#include <string.h>

static void reserve(struct text *text, size_t more)
{
    size_t need = text->length + more + 1;
    if (need <= text->room)
        return;
    text->room = need > 2 * text->room ? need : 2 * text->room;
    text->at = more_room(text->at, text->room, 1);
}

void text_add_list(struct text *text, const char *format, va_list arguments)
{
    va_list again;
    int length;
    va_copy(again, arguments);
    length = vsnprintf(NULL, 0, format, again);
    va_end(again);
    if (length <= 0)
        return;
    reserve(text, (size_t)length);
    vsnprintf(text->at + text->length, (size_t)length + 1, format, arguments);
    text->length += (size_t)length;
}

void text_add(struct text *text, const char *format, ...)
{
    va_list arguments;
    va_start(arguments, format);
    text_add_list(text, format, arguments);
    va_end(arguments);
}

void text_add_bytes(struct text *text, const char *bytes, size_t length)
{
    reserve(text, length);
    memcpy(text->at + text->length, bytes, length);
    text->length += length;
    text->at[text->length] = '\0';
}

/* Bytes of the UTF-8 character at the start of a text, 0 if there is none. */
static size_t character(const unsigned char *at)
{
    size_t more = at[0] < 0x80 ? 0 : at[0] >= 0xC2 && at[0] < 0xE0 ? 1 : at[0] >= 0xE0 && at[0] < 0xF0 ? 2
                : at[0] >= 0xF0 && at[0] < 0xF5 ? 3 : 4;
    if (more == 4)
        return 0;
    for (size_t k = 1; k <= more; k++)
        if ((at[k] & 0xC0) != 0x80)
            return 0;
    if ((at[0] == 0xE0 && at[1] < 0xA0) || (at[0] == 0xED && at[1] >= 0xA0) || (at[0] == 0xF0 && at[1] < 0x90) ||
        (at[0] == 0xF4 && at[1] >= 0x90) || (at[0] == 0xEF && at[1] == 0xBF && at[2] >= 0xBE))
        return 0;
    return more + 1;
}

/* Whether the character of so many bytes is one to be seen: no control character, nor one that parts lines or turns
   the direction of what follows it (U+2028 to 202E, U+2066 to 2069). */
static bool is_seen(const unsigned char *at, size_t bytes)
{
    if (bytes == 1)
        return at[0] >= 32 && at[0] != 127;
    if (bytes == 2)
        return (at[0] != 0xC2 || at[1] >= 0xA0) && (at[0] != 0xD8 || at[1] != 0x9C);
    if (at[0] == 0xE2 && at[1] == 0x80)
        return (at[2] < 0x8E || at[2] > 0x8F) && (at[2] < 0xA8 || at[2] > 0xAE);
    if (at[0] == 0xE2 && at[1] == 0x81)
        return at[2] < 0xA6 || at[2] > 0xA9;
    return bytes > 0;
}

/* Adds the character at the start of a text, or '?' in its place; gives the bytes that it takes there. */
static size_t add_character(struct text *text, const char *from)
{
    const unsigned char *at = (const unsigned char *)from;
    size_t bytes = character(at);
    if (bytes > 0 && is_seen(at, bytes))
        text_add_bytes(text, from, bytes);
    else
        text_add_bytes(text, "?", 1);
    return bytes > 0 ? bytes : 1;
}

void text_add_seen(struct text *text, const char *from)
{
    while (*from)
        from += add_character(text, from);
}

void text_add_escaped(struct text *text, const char *from)
{
    while (*from) {
        switch (*from) {
        case '&': text_add(text, "&amp;"); break;
        case '<': text_add(text, "&lt;"); break;
        case '>': text_add(text, "&gt;"); break;
        case '"': text_add(text, "&quot;"); break;
        default: from += add_character(text, from); continue;
        }
        from++;
    }
}
