/* Calls of pathpetal.h and the answers to them, as records in two files.

   A call: kind and scene (1 byte each), four numbers (8 bytes each), then five strings, each its length (4 bytes) and
   its bytes: the file and four rows. make takes all; step the file and the first row; run the file and the first
   number; filter and check the file. Gauges stand in the first row: placing one takes the file, them and the first
   number, feeding the file and them, and reading them alone, with the numbers read, 8 bytes each, in the second row.
   An answer: the answer (8 bytes), the length (4 bytes) and the bytes after the call of the one string that it may
   change, and 1 if the others and what lies around each string are as they were, else 0 (1 byte). Little-endian. */
#ifndef RECORD_H
#define RECORD_H

#include <stdbool.h>
#include <stdint.h>
#include <stdio.h>
#include <stdlib.h>

enum { DO_MAKE, DO_STEP, DO_FILTER, DO_CHECK, DO_RUN, DO_PLACE, DO_FEED, DO_READ, DO_KINDS };
enum { NUMBERS = 4, STRINGS = 5, LONGEST = 20000 };
enum { FILE_STRING, FIRST_ROW, SECOND_ROW, THIRD_ROW, FOURTH_ROW };
enum { GAUGES_STRING = FIRST_ROW, READINGS_STRING = SECOND_ROW };

/* The string that a call may change. */
static inline int changed_by(unsigned kind)
{
    return kind == DO_PLACE || kind == DO_FEED ? GAUGES_STRING : kind == DO_READ ? READINGS_STRING : FILE_STRING;
}

struct string {
    size_t len;
    uint8_t at[LONGEST];
};

struct record {
    unsigned kind, scene;
    uint64_t number[NUMBERS];
    struct string string[STRINGS];
};

struct reply {
    uint64_t answer;
    struct string left;
    bool kept;
};

static FILE *opened(const char *name, const char *how)
{
    FILE *f = fopen(name, how);
    if (!f) {
        perror(name);
        exit(2);
    }
    return f;
}

static inline void put_number(FILE *to, uint64_t n, int bytes)
{
    for (int i = 0; i < bytes; i++)
        putc((int)(n >> 8 * i & 255), to);
}

static inline uint64_t get_number(FILE *from, int bytes)
{
    uint64_t n = 0;
    for (int i = 0; i < bytes; i++) {
        int c = getc(from);
        if (c == EOF) {
            fputs("a record is cut short\n", stderr);
            exit(2);
        }
        n |= (uint64_t)c << 8 * i;
    }
    return n;
}

static inline void put_string(FILE *to, const struct string *s)
{
    put_number(to, s->len, 4);
    fwrite(s->at, 1, s->len, to);
}

static inline void get_string(FILE *from, struct string *s)
{
    s->len = (size_t)get_number(from, 4);
    if (s->len > LONGEST || fread(s->at, 1, s->len, from) != s->len) {
        fputs("a string is cut short\n", stderr);
        exit(2);
    }
}

static inline bool more(FILE *from)
{
    int c = getc(from);
    return c != EOF && ungetc(c, from) != EOF;
}

static inline void put_record(FILE *to, const struct record *r)
{
    put_number(to, r->kind, 1);
    put_number(to, r->scene, 1);
    for (int i = 0; i < NUMBERS; i++)
        put_number(to, r->number[i], 8);
    for (int i = 0; i < STRINGS; i++)
        put_string(to, &r->string[i]);
}

static inline void get_record(FILE *from, struct record *r)
{
    r->kind = (unsigned)get_number(from, 1);
    r->scene = (unsigned)get_number(from, 1);
    for (int i = 0; i < NUMBERS; i++)
        r->number[i] = get_number(from, 8);
    for (int i = 0; i < STRINGS; i++)
        get_string(from, &r->string[i]);
}

static inline void put_reply(FILE *to, const struct reply *r)
{
    put_number(to, r->answer, 8);
    put_string(to, &r->left);
    put_number(to, r->kept, 1);
}

static inline void get_reply(FILE *from, struct reply *r)
{
    r->answer = get_number(from, 8);
    get_string(from, &r->left);
    r->kept = get_number(from, 1) != 0;
}

#endif
