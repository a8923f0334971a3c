/* text.h: a text that grows, for what is written out in one piece. */
#ifndef TEXT_H
#define TEXT_H

#include "say.h"

#include <stdarg.h>

struct text {
    char *at;
    size_t length, room;
};

void text_add(struct text *text, const char *format, ...) LIKE_PRINTF(2, 3);
void text_add_list(struct text *text, const char *format, va_list arguments) LIKE_PRINTF(2, 0);

/* Bytes as they are; a zero byte always follows what was added. */
void text_add_bytes(struct text *text, const char *bytes, size_t length);

/* Text from elsewhere, as it may stand on a terminal: '?' for each control character, for each one that parts lines or
   turns the direction of text, and for each byte that is no UTF-8. */
void text_add_seen(struct text *text, const char *from);

/* The same as it may stand in XML, with its marks escaped. */
void text_add_escaped(struct text *text, const char *from);

#endif
