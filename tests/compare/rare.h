/* Scenes for what drawn ones hardly meet: a flux that leaves its range late in a step, numbers that are exactly halves
   before they are rounded or lie just beside them, and floats that are out of their range by less than a half. */
#ifndef RARE_H
#define RARE_H

#include "ladder.h"
#include "ties.h"

/* Deep water over long steps, with a flux just in range and levels that move nothing: -5/7, -5/7 and 1 of its own Q
   and F, newest first, are 0 in the prediction's sum, and in a correction's they are -9 beside 9 of the trial's. What
   still moves is u's rounding. These are levels for the third row of weights; the first has none, and those for the
   second are out of range. */
static bool at_the_brink(struct call *c)
{
    static struct call trial;
    bool any = one_in(4);
    int64_t low = 0, high = 20000000, shape[64], depth, heights = magnitude(any ? 1000000 : 100);
    int64_t noise = any ? magnitude(2000) : between(100, 400);
    lengths(c, (size_t)between(8, 64));
    c->X = (uint64_t)between(300, 700), c->T = (uint64_t)between(90, 100), c->wanted = 5, c->accepted = 0;
    depth = deepest((int64_t)c->X, (int64_t)c->T) * between(any ? 60 : 80, 100) / 100;
    for (size_t j = 0; j < c->N; j++) {
        c->row[ROW_h][j] = depth;
        c->row[ROW_e][j] = between(-heights, heights);
        c->row[ROW_s][j] = 0;
        shape[j] = between(-1000, 1000);
    }
    any_damping(c);
    for (trial = *c; high - low > 1;) {
        int64_t speed = (low + high) / 2;
        for (size_t j = 0; j < c->N; j++)
            trial.row[ROW_u][j] = speed * shape[j] / 1000;
        if (second_does(MAKE, &trial).number)
            high = speed;
        else
            low = speed;
    }
    for (size_t j = 0; j < c->N; j++)
        c->row[ROW_u][j] = low * shape[j] / 1000;
    if (second_does(MAKE, c).number)
        return false;
    c->accepted = (uint64_t)between(RUNGS - 1, 4);
    for (int i = ROW_Q; i <= ROW_F; i++)
        for (size_t j = 0; j < c->len[i] / 3 * 2; j++)
            c->row[i][j] = c->row[i][j] / 7 * -5;
    for (size_t j = 0; j < c->N; j++)
        c->row[ROW_e][j] += between(-noise, noise);
    return true;
}

/* Seeds of those whose step is refused 9 at the corrections 4 to 10, three for each, the first of them without damping,
   found by trying one after the other with the second program alone: of drawn ones it is one in some 400. */
static const uint64_t late_brinks[] = {
    714,   1481,  4668, 496,   1683, 5251, 409,   884,  3622,  5044,  8908,
    15220, 26383, 830,  21234, 1714, 6390, 43215, 9689, 12021, 13457,
};
enum { LATE_BRINKS = sizeof late_brinks / sizeof *late_brinks };
static bool late_brink(struct call *c, size_t i)
{
    state = late_brinks[i] * 0xD1342543DE82EF95u;
    return at_the_brink(c);
}

/* Deep water over narrow cells whose V is so rough that a flux is just out of its range in a filter pass or in the
   prediction of a step, or seldom just in it. */
static void just_too_rough(struct call *c, enum kind kind)
{
    static struct call trial;
    int64_t depth = between(5000, 20000), X = between(10, depth / 20), low = 0, high = 2000000000, shape[14];
    lengths(c, (size_t)between(8, 14));
    memset(c->row, 0, sizeof c->row);
    c->X = (uint64_t)X, c->T = (uint64_t)between(1, longest(depth, X)), c->wanted = 5, c->accepted = open_start(5);
    for (size_t j = 0; j < c->N; j++)
        c->row[ROW_h][j] = depth, shape[j] = between(-1000, 1000);
    any_damping(c);
    while (high - low > 1) {
        int64_t rough = (low + high) / 2;
        trial = *c;
        for (size_t j = 0; j < c->N; j++)
            trial.row[ROW_V][j] = rough * shape[j] / 1000;
        struct answer a = second_does(kind, &trial);
        if (a.number == 9 && a.stage == 0)
            high = rough;
        else
            low = rough;
    }
    for (size_t j = 0, less = one_in(4); j < c->N; j++)
        c->row[ROW_V][j] = (less ? low : high) * shape[j] / 1000;
}

/* Three levels of entry j, by the row of weights that the next step has: they move q in the prediction, and in a
   correction s is weighed beside the trial's, and as that is. */
static void put_levels(struct call *c, int row, size_t j, int64_t q, int64_t s)
{
    size_t n = c->len[row] / 3;
    for (size_t level = 0; level < 3; level++)
        c->row[row][level * n + j] = q + late_levels[rung_of(c)][level] * s;
}

/* By the first row of weights a correction is of the newest level and the trial's t alone, 12 of each over 24. Moves
   the newest level of entry j, so many whole units, to where that is a half, if it moves as much as before in the
   prediction. */
static void move_newest(struct call *c, int row, size_t j, int64_t unit, int64_t t)
{
    int64_t *q = &c->row[row][j], off = (unit - t - *q) % (2 * unit);
    off += off < -unit ? 2 * unit : off > unit ? -2 * unit : 0;
    if (2 * llabs(off) < unit)
        *q += off;
}

/* Anything that is allowed, in the levels whose weight is 0. */
static void any_unweighed(struct call *c)
{
    int64_t Q = magnitude(1000000000000000), F = magnitude(100000000000);
    for (size_t j = (size_t)(rung_of(c) + 1) * (c->N - 1); j < c->len[ROW_Q]; j++)
        c->row[ROW_Q][j] = between(-Q, Q);
    for (size_t j = (size_t)(rung_of(c) + 1) * c->N; j < c->len[ROW_F]; j++)
        c->row[ROW_F][j] = between(-F, F);
}

/* A step of nearly still water in which every W and quotient of V is exactly a half in the prediction, and about half
   of them are in the first correction; by the first row of weights about half are in the prediction, and of the others
   most are in the first correction. Levels that are all one unit move 1. */
static bool moved_halves(struct call *c)
{
    static const int64_t whole[RUNGS] = {0, 12, 8}; /* so many units, weighed as the trial's, move a whole number */
    int64_t depth = 1 + magnitude(19999), still = magnitude(19000000), noise = magnitude(30);
    int64_t T = PICK(10, 20, 25, 50, 100), unit[ROWS], trial[ROWS][10];
    bool late[ROWS][10]; /* a half in the first correction */
    lengths(c, (size_t)between(8, 10));
    c->X = (uint64_t)(10 + magnitude(4990)), c->T = (uint64_t)T, c->wanted = 5, c->accepted = open_start(5);
    if (too_long(depth, (int64_t)c->X, T))
        depth = deepest((int64_t)c->X, T);
    unit[ROW_Q] = 1000000 * (int64_t)c->X / T, unit[ROW_F] = 1000 / T;
    for (size_t j = 0; j < c->N; j++) {
        c->row[ROW_h][j] = depth;
        c->row[ROW_e][j] = still + between(-noise, noise);
        c->row[ROW_u][j] = c->row[ROW_s][j] = 0;
        c->row[ROW_V][j] = between(-noise, noise);
    }
    any_damping(c);
    for (int i = ROW_Q; i <= ROW_F; i++)
        for (size_t j = 0; j < c->len[i] / 3; j++) {
            late[i][j] = one_in(2);
            if (late[i][j] && rung_of(c) == 0)
                put_levels(c, i, j, unit[i] * between(-3, 3), 0);
            else
                put_levels(c, i, j, unit[i] * between(-3, 2) + unit[i] / 2, 0);
        }
    struct second_channel channel = channel_of(c);
    if (!predicted_levels(&channel, poured_of(c), trial[ROW_Q], trial[ROW_F]))
        return false;
    for (int i = ROW_Q; i <= ROW_F; i++)
        for (size_t j = 0; j < c->len[i] / 3; j++) {
            int64_t q = c->row[i][j], more = whole[rung_of(c)] * unit[i] * between(-1, 1);
            if (late[i][j] && rung_of(c) == 0)
                move_newest(c, i, j, unit[i], trial[i][j]);
            else if (late[i][j])
                put_levels(c, i, j, q, q + more - trial[i][j]);
        }
    any_unweighed(c);
    return true;
}

/* A step that leaves V as it is and whose every u is a small half in exact arithmetic: the depth is 1,000 widths, and
   each second difference of u, mirrored at the walls, is odd. So some floats are the one next to 1/2, to which no half
   can be added exactly. But for the first row of weights its corrections leave all as it is. */
static bool small_halves(struct call *c)
{
    static const int64_t turn[8] = {1, 1, -1, -1, 1, 1, -1, -1};
    int64_t twice[10], Q[7], F[8], sign = PICK(1, -1); /* 2u, with a mirrored cell at each end */
    lengths(c, 8);
    memset(c->row, 0, sizeof c->row);
    c->X = (uint64_t)between(10, 20), c->wanted = 9, c->accepted = open_start(9);
    c->T = (uint64_t)between(1, longest(1000 * (int64_t)c->X, (int64_t)c->X));
    for (int j = 0; j < 8; j++)
        twice[j + 1] = 4 * PICK(0, 0, 0, 1, -1) + sign * turn[j];
    twice[0] = -twice[1];
    twice[9] = -twice[8];
    for (int j = 0; j < 8; j++) {
        c->row[ROW_h][j] = 1000 * (int64_t)c->X;
        c->row[ROW_V][j] = (twice[j + 1] - 780039 * ((twice[j] - 2 * twice[j + 1] + twice[j + 2]) / 2)) / 2;
    }
    any_damping(c);
    struct second_channel channel = channel_of(c);
    if (!predicted_levels(&channel, poured_of(c), Q, F))
        return false;
    for (size_t j = 0; j < 7; j++)
        put_levels(c, ROW_Q, j, 0, -Q[j]);
    for (size_t j = 0; j < 8; j++)
        put_levels(c, ROW_F, j, 0, -F[j]);
    return true;
}

/* A step whose prediction leaves V as it is and has a u out of its range by less than a half, or seldom in it by as
   little. V is as large as it may be in one cell, and then in the cell beside it just too large, or as it may be. */
static void just_too_fast(struct call *c)
{
    static struct call trial;
    int64_t sign = PICK(1, -1), depth = between(500, 2000);
    lengths(c, 8);
    memset(c->row, 0, sizeof c->row);
    c->X = 5000, c->T = 1, c->wanted = 9, c->accepted = open_start(9);
    size_t j = (size_t)between(0, 6);
    for (size_t i = 0; i < c->N; i++)
        c->row[ROW_h][i] = depth, c->row[ROW_V][i] = between(-1000, 1000);
    any_damping(c);
    for (size_t at = j; at <= j + 1; at++) {
        int64_t *V = &c->row[ROW_V][at], low = at == j ? 0 : *V, high = at == j ? sign * 40000000 : *V + sign * 1000;
        while (llabs(high - low) > 1) {
            *V = (low + high) / 2;
            trial = *c;
            struct answer a = second_does(STEP, &trial);
            if (a.number == 7 && a.stage == 0)
                high = *V;
            else
                low = *V;
        }
        *V = at == j || one_in(4) ? low : high;
    }
}

/* A later step whose prediction moves so much through every face that the numerator is beyond 2^53: a half, or so little
   beside one that a float of the quotient is the half. The wall cell that it leaves falls dry by 1 um, or not, by how
   that is rounded. 23, -16 and 5 times the levels are 44q + R. */
static void just_dry(struct call *c)
{
    int64_t sign = PICK(1, -1), X = between(1000, 5000), T = PICK(1, 2, 4, 5), unit = 12000000 * X / T;
    int64_t q = between(800000000000000, 900000000000000), W = 44 * q / unit; /* and a half */
    int64_t R = W * unit + unit / 2 + between(-2, 2) - 44 * q;
    const int64_t levels[3] = {q + 7 * R, -q + 10 * R, q};
    lengths(c, 8);
    memset(c->row, 0, sizeof c->row);
    c->X = (uint64_t)X, c->T = (uint64_t)T, c->wanted = 5, c->accepted = (uint64_t)between(RUNGS - 1, 4);
    for (size_t j = 0; j < c->N; j++)
        c->row[ROW_h][j] = 20000;
    for (size_t j = 0; j < c->len[ROW_Q]; j++)
        c->row[ROW_Q][j] = sign * levels[j / (c->N - 1)];
    c->row[ROW_e][sign > 0 ? 0 : 7] = 1000 - 20000000 + W;
    any_damping(c);
}

/* Making, with a V out of its range by less than a half, or seldom in it by as little. */
static void just_too_large(struct call *c)
{
    int64_t sign = PICK(1, -1), X = between(10, 20), h = between(12 * X, 20 * X), *u = c->row[ROW_u];
    int64_t w = 10000000 * X * X, beside = 3900195 * h * h, b = w + 2 * beside, most = 2000000000 * w, off;
    bool inside = one_in(4);
    size_t j = (size_t)between(1, 6);
    lengths(c, 8);
    c->X = (uint64_t)X, c->T = 1, c->wanted = 1, c->accepted = 0;
    for (size_t i = 0; i < c->N; i++)
        c->row[ROW_h][i] = h, c->row[ROW_e][i] = u[i] = 0;
    do {
        u[j - 1] = between(-500000, 500000);
        u[j + 1] = between(-500000, 500000);
        u[j] = (most + beside * (u[j - 1] + u[j + 1])) / b + !inside;
        off = llabs(b * u[j] - beside * (u[j - 1] + u[j + 1]) - most); /* over w */
    } while (2 * off > w);
    for (size_t i = 0; i < c->N; i++)
        u[i] *= sign;
    any_damping(c);
}

/* Making, with a dispersive part of 10^15 + 1/4, or seldom with one that is in its range: known depths and velocities,
   at either end of the channel. */
static void just_too_dispersive(struct call *c)
{
    static const int64_t h[8] = {19997, 19991, 19993, 19990, 19990, 19990, 19990, 19990}, u[3] = {18919663, 9997957, 800140};
    bool last = one_in(2);
    int64_t sign = PICK(1, -1), less = one_in(4);
    lengths(c, 8);
    memset(c->row, 0, sizeof c->row);
    c->X = 3265, c->T = 1, c->wanted = 1, c->accepted = 0;
    for (size_t i = 0; i < 8; i++) {
        size_t j = last ? 7 - i : i;
        c->row[ROW_h][j] = h[i];
        c->row[ROW_e][j] = i < 2 ? 1000 - 1000 * h[i] : i == 2 ? 20000000 : 0;
        c->row[ROW_u][j] = i < 3 ? sign * (u[i] - (i == 0 ? less : 0)) : 0;
    }
    any_damping(c);
}

/* A filter pass in which about half of all G and V are exactly halves. */
static void filtered_halves(struct call *c)
{
    int64_t heights = magnitude(20000), speeds = magnitude(100000);
    scene(c);
    any_levels(c);
    c->accepted = 0;
    for (size_t j = 0; j < c->N; j++) {
        c->row[ROW_h][j] = 3 * heights / 10 + 10;
        c->row[ROW_e][j] = 128 * between(-heights, heights);
        c->row[ROW_V][j] = 128 * between(-speeds, speeds);
    }
    shorten(c);
}

/* Making, with plain parts that are exactly halves (u in sixes), or accelerations (u in six hundreds). */
static void flow_halves(struct call *c)
{
    int64_t m = PICK(6, 600);
    lengths(c, (size_t)between(8, 14));
    c->X = (uint64_t)PICK(10, 20, 30), c->T = 1, c->wanted = 1, c->accepted = 0;
    for (size_t j = 0; j < c->N; j++) {
        c->row[ROW_h][j] = 100;
        c->row[ROW_e][j] = between(-30, 30);
        c->row[ROW_u][j] = m * between(-300, 300);
    }
    any_damping(c);
}

/* Making, at 100 widths of depth: every inner V is a half in exact arithmetic, and w differs from scene to scene. */
static void made_halves(struct call *c)
{
    int64_t *u = c->row[ROW_u], X = between(10, 200), most = 12000 / X;
    lengths(c, 8);
    c->X = (uint64_t)X, c->T = 1, c->wanted = 1, c->accepted = 0;
    do {
        u[0] = 100 * between(-most, most);
        u[1] = 3 * u[0] + 100 * (2 * between(-most, most) + 1);
        for (int j = 2; j < 8; j++)
            u[j] = 2 * u[j - 1] - u[j - 2] - 100 * (2 * between(-most, most) + 1);
    } while (llabs(3 * u[7] - u[6]) > 200 * most);
    for (int j = 0; j < 8; j++)
        c->row[ROW_h][j] = 100 * X, c->row[ROW_e][j] = 0;
    any_damping(c);
}

static int64_t common_divisor(int64_t a, int64_t b)
{
    return b ? common_divisor(b, a % b) : a;
}

/* Making, with products of damping and u over 1,000 that are exactly halves, but for a few whose u is one off. A damping
   number that 8 does not divide has them for every odd number of 500 over its divisor in common with 1,000. */
static void damped_halves(struct call *c)
{
    int64_t speeds = magnitude(19000000), h = between(100, 1000);
    lengths(c, (size_t)between(8, 14));
    c->X = (uint64_t)between(1000, 5000), c->T = (uint64_t)between(1, 20), c->wanted = 5, c->accepted = 0;
    for (size_t j = 0; j < c->N; j++) {
        int64_t damping = 8 * between(0, 1249) + between(1, 7), unit = 500 / common_divisor(1000, damping);
        int64_t most = speeds / (2 * unit), off = one_in(8) ? PICK(1, -1) : 0;
        c->row[ROW_h][j] = h;
        c->row[ROW_e][j] = between(-1000, 1000);
        c->row[ROW_u][j] = unit * (2 * between(-most, most) + 1) + off;
        c->row[ROW_s][j] = 0;
        c->row[ROW_damping][j] = damping;
    }
}

/* Making, over a bottom whose r is rounded as a rule; about half of the dispersive parts are halves in exact
   arithmetic. A part is u's differences times an odd number of halves of 1/unit; u is in units. Not every h and X have
   one. */
static bool dispersive_halves(struct call *c)
{
    int64_t X = between(10, 200), h = between(10, 2000), g = common_divisor(6000 * X * X, h * h * h);
    int64_t unit = 6000 * X * X / g;
    if (unit > 100000 || h * h * h / g % 2 == 0)
        return false;
    lengths(c, (size_t)between(8, 14));
    c->X = (uint64_t)X, c->T = 1, c->wanted = 1, c->accepted = 0;
    for (size_t j = 0; j < c->N; j++) {
        c->row[ROW_h][j] = h;
        c->row[ROW_e][j] = 0;
        c->row[ROW_u][j] = unit * between(-100, 100);
    }
    any_damping(c);
    return true;
}

#endif
