/* answer CALLS ANSWERS: does each call of the file CALLS and writes what it left to the file ANSWERS.
   By the library that is linked, or, with SECOND defined, by the second program. */
#include "record.h"

#include <string.h>

#ifdef SECOND
#include "by_second.h"
#define DOES(call) by_second_##call
#else
#include "../../include/pathpetal.h"
#define DOES(call) pathpetal_##call
#endif

enum { AROUND = 64, MARK = 0xA5 };

/* The strings as they are lent, each with marked bytes on both sides: those of numbers at a multiple of 8. */
static _Alignas(8) uint8_t place[STRINGS][AROUND + LONGEST + AROUND];

static void lay_out(const struct record *r)
{
    for (int i = 0; i < STRINGS; i++) {
        size_t len = r->string[i].len;
        memset(place[i], MARK, AROUND);
        memcpy(place[i] + AROUND, r->string[i].at, len);
        memset(place[i] + AROUND + len, MARK, AROUND);
    }
}

static bool marked(const uint8_t *at)
{
    for (int i = 0; i < AROUND; i++)
        if (at[i] != MARK)
            return false;
    return true;
}

static bool kept(const struct record *r)
{
    bool all = true;
    for (int i = 0; i < STRINGS; i++) {
        const struct string *s = &r->string[i];
        all = all && marked(place[i]) && marked(place[i] + AROUND + s->len);
        all = all && (i == changed_by(r->kind) || !memcmp(place[i] + AROUND, s->at, s->len));
    }
    return all;
}

#define LENT(i) place[i] + AROUND, r->string[i].len

static uint64_t does(const struct record *r)
{
    const uint64_t *n = r->number;
    switch (r->kind) {
    case DO_MAKE:
        return DOES(make)(n[0], n[1], n[2], n[3], LENT(FIRST_ROW), LENT(SECOND_ROW), LENT(THIRD_ROW), LENT(FOURTH_ROW),
                          LENT(FILE_STRING));
    case DO_STEP: return DOES(step)(LENT(FILE_STRING), LENT(FIRST_ROW));
    case DO_FILTER: return DOES(filter)(LENT(FILE_STRING));
    case DO_CHECK: return DOES(check)(LENT(FILE_STRING));
    case DO_RUN: return DOES(run)(LENT(FILE_STRING), n[0]);
    case DO_PLACE: return DOES(place_gauge)(LENT(FILE_STRING), LENT(GAUGES_STRING), n[0]);
    case DO_FEED: return DOES(feed_gauges)(LENT(FILE_STRING), LENT(GAUGES_STRING));
    default:
        return DOES(read_gauges)(LENT(GAUGES_STRING), (int64_t *)(void *)(place[READINGS_STRING] + AROUND),
                                 r->string[READINGS_STRING].len / 8);
    }
}

int main(int argc, char **argv)
{
    static struct record call;
    static struct reply reply;
    if (argc != 3) {
        fputs("usage: answer CALLS ANSWERS\n", stderr);
        return 2;
    }
#ifndef SECOND
    if (pathpetal_rule() != 3) {
        fputs("the library follows another rule than 3\n", stderr);
        return 1;
    }
#endif
    FILE *calls = opened(argv[1], "rb"), *answers = opened(argv[2], "wb");
    while (more(calls)) {
        get_record(calls, &call);
        lay_out(&call);
        reply.answer = does(&call);
        reply.kept = kept(&call);
        reply.left.len = call.string[changed_by(call.kind)].len;
        memcpy(reply.left.at, place[changed_by(call.kind)] + AROUND, reply.left.len);
        put_reply(answers, &reply);
    }
    if (fclose(answers)) {
        perror(argv[2]);
        return 2;
    }
    return 0;
}
