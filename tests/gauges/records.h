/* Records of heights at a cell, of many kinds, drawn from the seed. */
#ifndef RECORDS_H
#define RECORDS_H

#include "../interface/scenes.h"

#define LEAST INT64_C(-19999000)
#define MOST INT64_C(20000000)

enum record_kind { CONSTANT, ZEROS, TOUCHING_BELOW, TOUCHING_ABOVE, RISING, FALLING, ONE_CROSSING, ALTERNATE, PLATEAUS,
                   WALK, EXTREMES, SMALL, SWELL, ANY, DRAWN_KINDS, REAL = DRAWN_KINDS, LONGEST, RECORD_KINDS };
static const char *const record_names[RECORD_KINDS] = {
    "one height throughout",
    "zero throughout",
    "touching zero from below",
    "touching zero from above",
    "rising only",
    "falling only",
    "one crossing",
    "above and below zero in turn",
    "staying at zero for a while",
    "a random walk",
    "the lowest and highest heights alone",
    "-1, 0 and 1 alone",
    "swell: waves of many lengths and sizes",
    "any heights",
    "the steps of a real run",
    "1,000,000 heights",
};

static int64_t held(int64_t n) { return n < LEAST ? LEAST : n > MOST ? MOST : n; }

static int64_t below(int64_t size) { return -between(1, size < 1 ? 1 : size); }
static int64_t above(int64_t size) { return between(0, size); }

/* The swell: a triangle between its trough and its crest, drawn anew with each wave. */
static void swell(int64_t *to, size_t len)
{
    size_t at = 0, period = 1;
    int64_t crest = 0, trough = 0;
    for (size_t i = 0; i < len; i++, at++) {
        if (at >= period) {
            at = 0, period = (size_t)between(2, 14);
            crest = above(magnitude(MOST)), trough = below(magnitude(-LEAST));
        }
        int64_t part = (int64_t)(2 * at < period ? 2 * at : 2 * (period - at)); /* 0 to period and back */
        to[i] = held(trough + (crest - trough) * part / (int64_t)period);
    }
}

static void draw_record(enum record_kind kind, int64_t *to, size_t len)
{
    int64_t size = magnitude(-LEAST), sign = PICK(1, -1), value = sign * size, step = magnitude(size / 4 + 1);
    size_t first = len > 1 ? 1 + draw() % (len - 1) : 0, then = len ? first + draw() % (len - first) : 0;
    size_t wait = 0; /* how long a height stays */
    if (kind == SWELL) {
        swell(to, len);
        return;
    }
    if (kind == RISING || kind == FALLING || kind == WALK)
        value = kind == RISING ? -size : kind == FALLING ? size : 0;
    for (size_t i = 0; i < len; i++) {
        int64_t change = between(0, step), any = between(-size, size);
        bool zero = one_in(3), half = one_in(2);
        switch (kind) {
        case CONSTANT: to[i] = value; break;
        case ZEROS: to[i] = 0; break;
        case TOUCHING_BELOW: to[i] = zero ? 0 : below(size); break;
        case TOUCHING_ABOVE: to[i] = zero ? 0 : above(size); break;
        case RISING: to[i] = value, value = held(value + 1 + change); break;
        case FALLING: to[i] = value, value = held(value - 1 - change); break;
        case ONE_CROSSING: to[i] = i < first || i > then ? below(size) : above(size); break;
        case ALTERNATE: to[i] = (i % 2 == 0) == (sign < 0) ? below(size) : above(size); break;
        case PLATEAUS:
            if (wait == 0)
                wait = (size_t)between(1, 5), value = half ? 0 : any;
            wait--;
            to[i] = value;
            break;
        case WALK: to[i] = value, value = held(value + (half ? change : -change)); break;
        case EXTREMES: to[i] = zero ? PICK(0, -1, 1) : half ? LEAST : MOST; break;
        case SMALL: to[i] = between(-1, 1); break;
        default: to[i] = between(LEAST, MOST); break;
        }
    }
}

#endif
