/* Channels to call with: drawn at random from one seed, physical, rough and damaged, and some that are built so that
   the order of the f64 operations decides a rounding. Each is a call's input over rows, and the second program can do
   the call. */
#ifndef SCENES_H
#define SCENES_H

#include "../../second/second.h"

#include <stdbool.h>
#include <stdint.h>
#include <stdlib.h>
#include <string.h>

enum { CELLS = 256, ROOM = 3 * CELLS + 16, ROWS = 8 };
enum { ROW_h, ROW_e, ROW_u, ROW_V, ROW_Q, ROW_F, ROW_s, ROW_damping }; /* the refusals 31 to 38 */
enum kind { MAKE, STEP, FILTER, RUN, KINDS };

/* A call's whole input, or all that it leaves. What lies past a row's length is a canary. */
struct call {
    uint64_t N, X, T, accepted, wanted;
    size_t len[ROWS];
    int64_t row[ROWS][ROOM];
};

struct answer {
    uint64_t number, stage, place, count;
};

static struct answer of_second(struct second_answer a)
{
    return (struct answer){a.number, a.stage, a.place, a.count};
}

static struct second_channel channel_of(struct call *c)
{
    struct second_row r[ROWS];
    for (int i = 0; i < ROWS; i++)
        r[i] = (struct second_row){c->row[i], c->len[i]};
    return (struct second_channel){c->N, c->X, c->T, c->accepted, c->wanted, r[ROW_h], r[ROW_e],
                                   r[ROW_u], r[ROW_V], r[ROW_Q], r[ROW_F], r[ROW_damping]};
}

static struct second_read_row poured_of(const struct call *c)
{
    return (struct second_read_row){c->row[ROW_s], c->len[ROW_s]};
}

static struct answer second_does(enum kind kind, struct call *c)
{
    struct second_channel channel = channel_of(c);
    struct second_answer a = {0};
    switch (kind) {
    case MAKE: a = second_make(&channel); break;
    case STEP: a = second_step(&channel, poured_of(c)); break;
    case FILTER: a = second_filter(&channel); break;
    default: a = second_run(&channel); break;
    }
    c->accepted = channel.accepted;
    return of_second(a);
}

/* Where C leaves the order of two draws open, each is a statement of its own. */
static uint64_t state = 0x9E3779B97F4A7C15u;
static uint64_t draw(void)
{
    uint64_t z = (state += 0x9E3779B97F4A7C15u);
    z = (z ^ z >> 30) * 0xBF58476D1CE4E5B9u;
    z = (z ^ z >> 27) * 0x94D049BB133111EBu;
    return z ^ z >> 31;
}

static bool one_in(uint64_t n) { return draw() % n == 0; }
static int64_t between(int64_t low, int64_t high) { return low + (int64_t)(draw() % (uint64_t)(high - low + 1)); }
static int64_t pick(const int64_t *from, size_t n) { return from[draw() % n]; }
#define PICK(...) pick((const int64_t[]){__VA_ARGS__}, sizeof (const int64_t[]){__VA_ARGS__} / sizeof(int64_t))

/* One of n places, counted from 0: the first, the last or another. */
static size_t any_place(size_t n)
{
    uint64_t which = draw() % 3;
    return which == 0 ? 0 : which == 1 ? n - 1 : (size_t)between(1, (int64_t)n - 2);
}

/* A bound, one less or one more, above or below zero. */
static int64_t about(int64_t bound)
{
    int64_t sign = PICK(1, -1);
    return sign * (bound + PICK(0, 0, 1, -1));
}

/* A size up to top, each order of magnitude as likely as another. */
static int64_t magnitude(int64_t top)
{
    int bits = 0;
    while (bits < 62 && top >> bits)
        bits++;
    int64_t most = (int64_t)1 << draw() % (uint64_t)(bits + 1);
    int64_t size = between(most / 2, most);
    return size < top ? size : top;
}

/* Damping numbers that are allowed. Every second channel has none; the others have them in one cell alone, alike in all
   cells, at either end of their range, less and less from a wall on, in odd numbers of 500, whose products with an odd u
   are halves, or any. They are drawn apart: what else is drawn does not hang on them. */
static void any_damping(struct call *c)
{
    uint64_t others = state;
    state ^= 0x6A09E667F3BCC909u;
    uint64_t shape = draw() % 14;
    int64_t N = (int64_t)c->N, most = one_in(3) ? 10000 : 1 + magnitude(9999), far = between(2, N);
    size_t one = any_place((size_t)N);
    bool last = one_in(2);
    for (int64_t j = 0; j < N; j++) {
        int64_t *damping = &c->row[ROW_damping][j], from = last ? N - 1 - j : j;
        switch (shape) {
        case 0: *damping = (size_t)j == one ? most : 0; break;
        case 1: *damping = most; break;
        case 2: *damping = PICK(0, 1, 9999, 10000); break;
        case 3: *damping = from < far ? most * (far - from) / far : 0; break;
        case 4: case 5: *damping = 1000 * between(0, 9) + 500; break;
        case 6: *damping = between(0, most); break;
        default: *damping = 0; break;
        }
    }
    state = others;
}

/* Steps accepted so far, and not all that are wanted: none, one, two, three and all but one are as likely, and counts
   whose lowest bytes are 0 or 1. */
static uint64_t open_start(uint64_t wanted)
{
    int64_t many = PICK(256, 257, 65536, 65537);
    uint64_t from = (uint64_t)PICK(0, 1, 2, 3, (int64_t)wanted - 1, many);
    return from < wanted ? from : wanted - 1;
}

static void lengths(struct call *c, size_t N)
{
    c->N = N;
    for (int i = 0; i < ROWS; i++)
        c->len[i] = i == ROW_Q ? 3 * (N - 1) : i == ROW_F ? 3 * N : N;
}

static int64_t wetted(int64_t h, int64_t e)
{
    if (e > 20000000)
        e = 20000000;
    return 1000 * h + e < 1000 ? 1000 - 1000 * h + between(0, 20) : e;
}

/* Whether a time step is too long for a depth. */
static bool too_long(int64_t h, int64_t X, int64_t T) { return 9810 * h * T * T > 6000000 * X * X; }

/* The longest time step, the deepest cell and the narrowest cells that are allowed beside two other numbers; a step of
   1 ms always is. */
static int64_t longest(int64_t h, int64_t X)
{
    int64_t T = 100;
    while (too_long(h, X, T))
        T--;
    return T;
}

static int64_t deepest(int64_t X, int64_t T)
{
    int64_t h = 6000000 * X * X / (9810 * T * T);
    return h < 20000 ? h : 20000;
}

static int64_t narrowest(int64_t h, int64_t T)
{
    int64_t X = 10;
    while (too_long(h, X, T))
        X++;
    return X;
}

/* Shortens a time step that is too long for the depths drawn, but for one scene in 20. */
static void shorten(struct call *c)
{
    int64_t most = 1, T;
    for (size_t j = 0; j < c->N; j++)
        most = c->row[ROW_h][j] > most ? c->row[ROW_h][j] : most;
    T = longest(most, (int64_t)c->X);
    if ((int64_t)c->T > T && !one_in(20))
        c->T = (uint64_t)T;
}

/* Counts, an uneven bottom, heights, velocities, a poured row and damping; V and the levels are what they were. */
static void scene(struct call *c)
{
    size_t N = one_in(40) ? (size_t)between(8, 256) : (size_t)between(8, 14);
    int64_t depth = 1 + magnitude(19999), heights = magnitude(20000000), speeds = magnitude(20000000);
    int64_t uneven = depth / PICK(4, 8, 8, 16, 100, 100000), pours = one_in(3) ? magnitude(1000000) : 0;
    bool edge = one_in(6), smooth = one_in(3);
    int64_t period = between(3, 30);
    lengths(c, N);
    c->X = (uint64_t)(10 + magnitude(4990));
    c->T = (uint64_t)(1 + magnitude(99));
    c->wanted = (uint64_t)(1 + magnitude(one_in(20) ? 999999 : 30));
    c->accepted = one_in(6) ? (uint64_t)between(0, (int64_t)c->wanted) : open_start(c->wanted);
    for (size_t j = 0; j < N; j++) {
        int64_t h = depth + between(-uneven, uneven), turn = (int64_t)j % period * 2 - period;
        h = h < 1 ? 1 : h > 20000 ? 20000 : h;
        int64_t side = edge && !smooth ? PICK(1, -1) : 0;
        int64_t e = smooth ? heights / period * turn : edge ? side * (20000000 - between(0, heights)) : between(-heights, heights);
        c->row[ROW_h][j] = h;
        c->row[ROW_e][j] = wetted(h, e);
        c->row[ROW_u][j] = smooth ? -(speeds / period * turn) : between(-speeds, speeds);
        c->row[ROW_s][j] = pours ? between(-pours, pours) : 0;
    }
    any_damping(c);
    shorten(c);
}

/* V and levels of any size, that need not belong to the heights. */
static void any_levels(struct call *c)
{
    int64_t V = magnitude(2000000000), Q = magnitude(1000000000000000), F = magnitude(100000000000);
    bool alike = one_in(2);
    for (size_t j = 0; j < c->len[ROW_V]; j++)
        c->row[ROW_V][j] = between(-V, V);
    for (size_t j = 0; j < c->len[ROW_Q]; j++)
        c->row[ROW_Q][j] = alike && j >= c->N - 1 ? c->row[ROW_Q][j % (c->N - 1)] : between(-Q, Q);
    for (size_t j = 0; j < c->len[ROW_F]; j++)
        c->row[ROW_F][j] = alike && j >= c->N ? c->row[ROW_F][j % c->N] : between(-F, F);
}

/* A channel at the bound of its time step, or one ms or one mm beyond it: by its depth, its time step or its width
   beside the two others. All cells are so deep, or one of them alone. The water is high, low or between; some are
   complete. */
static void at_the_bound(struct call *c)
{
    int64_t X, T, h, beyond = one_in(2), noise = magnitude(2000);
    do {
        X = 10 + magnitude(990), T = between(1, 100), h = 1 + magnitude(19999);
        switch (draw() % 3) {
        case 0: h = deepest(X, T) + beyond; break;
        case 1: T = longest(h, X) + beyond; break;
        default: X = narrowest(h, T) - beyond; break;
        }
        if (one_in(16))
            X = 327, T = 100, h = 6540 + beyond; /* the one equality, or beyond it */
    } while (h > 20000 || T > 100 || X < 10 || too_long(h, X, T) != beyond);
    int64_t less = one_in(2) ? 0 : 1 + X * X / (2 * h); /* so much that the rows are just dominant, or just not */
    int64_t low = 1000 - 1000 * h, still = one_in(2) ? between(low, 20000000) : PICK(0, low, 20000000);
    less = less < h ? less : h - 1;
    lengths(c, one_in(10) ? (size_t)between(8, 256) : (size_t)between(8, 14));
    for (int i = 0; i < ROWS; i++)
        memset(c->row[i], 0, c->len[i] * sizeof(int64_t));
    c->X = (uint64_t)X, c->T = (uint64_t)T, c->wanted = (uint64_t)between(1, 5);
    c->accepted = one_in(4) ? c->wanted : open_start(c->wanted);
    any_damping(c);
    if (one_in(3))
        any_levels(c);
    for (size_t j = 0; j < c->N; j++)
        c->row[ROW_h][j] = h - less;
    c->row[ROW_h][any_place((size_t)c->N)] = h;
    for (size_t j = 0; j < c->N; j++)
        c->row[ROW_e][j] = wetted(c->row[ROW_h][j], still + between(-noise, noise));
}

/* One value or length of the input at its bound or beyond it. */
static void spoil(struct call *c)
{
    static const int64_t bounds[ROWS] = {20000, 20000000, 20000000, 2000000000, 1000000000000000, 100000000000, 1000000,
                                        10000};
    int i = (int)(draw() % ROWS);
    uint64_t counts[] = {0, 1, 7, 8, 9, 10, 11, 99, 100, 101, 255, 256, 257, 4999, 5000, 5001, 999999, 1000000, 1000001,
                         UINT32_MAX, (uint64_t)1 << 32, INT64_MAX, UINT64_MAX};
    uint64_t count = counts[draw() % (sizeof counts / sizeof *counts)];
    switch (draw() % 9) {
    case 0: c->N = count; break;
    case 1: c->X = count; break;
    case 2: c->T = count; break;
    case 3: c->wanted = count; break;
    case 4: c->accepted = one_in(2) ? count : c->wanted + (uint64_t)PICK(0, 1, -1); break;
    case 5: c->len[i] = one_in(2) ? c->len[i] + (uint64_t)PICK(1, -1) : (size_t)between(0, ROOM - 1); break;
    default:
        if (c->len[i]) {
            int64_t value = one_in(6) ? PICK(INT64_MIN, INT64_MAX, INT32_MIN, INT32_MAX, 0, 1, -1) : about(bounds[i]);
            c->row[i][draw() % c->len[i]] = value;
        }
        break;
    }
}

/* Every inner V of make is a half in exact arithmetic: its rounding is decided by the order of the f64 operations. */
static void reduced_halves(struct call *c)
{
    int64_t *u = c->row[ROW_u];
    lengths(c, 8);
    c->X = 10, c->T = 1, c->wanted = 1, c->accepted = 0;
    do {
        u[0] = 100 * between(1, 1500);
        u[1] = 3 * u[0] + 100 * (2 * between(-1000, 1000) + 1);
        for (int j = 2; j < 8; j++)
            u[j] = 2 * u[j - 1] - u[j - 2] - 100 * (2 * between(-2400, 2400) + 1);
    } while (llabs(3 * u[7] - u[6]) > 490000);
    for (int j = 0; j < 8; j++)
        c->row[ROW_h][j] = 1000, c->row[ROW_e][j] = 0;
    any_damping(c);
}

/* Dispersive parts of make that are halves in exact arithmetic. */
static void flux_halves(struct call *c)
{
    lengths(c, 8);
    c->X = 1000, c->T = 1, c->wanted = 1, c->accepted = 0;
    for (int j = 0; j < 8; j++)
        c->row[ROW_h][j] = 3000, c->row[ROW_e][j] = 0, c->row[ROW_u][j] = between(-10000000, 10000000);
    any_damping(c);
}

/* A step that leaves V as it is and whose every u is a half in exact arithmetic: the depth is 20 widths, each second
   difference of u an odd number of 2,500. */
static void velocity_halves(struct call *c)
{
    int64_t twice[8], D[8]; /* 2u, and the second differences */
    bool odd;
    lengths(c, 8);
    memset(c->row, 0, sizeof c->row);
    c->X = 1000, c->T = 1, c->wanted = 9, c->accepted = open_start(9);
    do {
        for (int j = 0; j < 7; j++)
            D[j] = 2500 * (2 * between(-2, 1) + 1);
        twice[0] = 625 * (2 * between(-40, 39) + 1);
        twice[1] = 3 * twice[0] - 2 * D[0];
        for (int j = 2; j < 8; j++)
            twice[j] = 2 * twice[j - 1] - twice[j - 2] - 2 * D[j - 1];
        D[7] = (3 * twice[7] - twice[6]) / 2;
        odd = (3 * twice[7] - twice[6]) % 10000 == 5000 || (3 * twice[7] - twice[6]) % 10000 == -5000;
        for (int j = 0; j < 8; j++)
            odd = odd && llabs(twice[j]) < 80000;
    } while (!odd);
    for (int j = 0; j < 8; j++) {
        c->row[ROW_h][j] = 20000;
        c->row[ROW_e][j] = 1000000;
        c->row[ROW_V][j] = (5000 * twice[j] + 1560078 * D[j]) / 10000; /* u + 156.0078 D */
    }
    any_damping(c);
}

/* A channel of deep water that, once it is made and so many of its steps are accepted, has a flux just out of range in
   its next step, at whichever stage. */
static bool just_too_much(struct call *c)
{
    static struct call trial;
    int64_t low = 0, high = 20000000, shape[10];
    lengths(c, (size_t)between(8, 10));
    c->X = (uint64_t)between(200, 3000), c->T = (uint64_t)PICK(1, 5, 20, 50, 100);
    c->wanted = 5, c->accepted = open_start(5);
    for (size_t j = 0; j < c->N; j++) {
        c->row[ROW_h][j] = 20000 - between(0, 40);
        c->row[ROW_e][j] = between(-5000000, 5000000);
        c->row[ROW_s][j] = 0;
        shape[j] = between(-1000, 1000);
    }
    any_damping(c);
    shorten(c);
    while (high - low > 1) {
        int64_t speed = (low + high) / 2;
        trial = *c;
        for (size_t j = 0; j < c->N; j++)
            trial.row[ROW_u][j] = speed * shape[j] / 1000;
        bool made = !second_does(MAKE, &trial).number;
        trial.accepted = c->accepted;
        if (!made || second_does(STEP, &trial).number)
            high = speed;
        else
            low = speed;
    }
    for (size_t j = 0; j < c->N; j++)
        c->row[ROW_u][j] = high * shape[j] / 1000;
    return high < 20000000;
}

/* Fast water, shallow water with much poured into a few cells, or high water over a bottom about as deep as is
   allowed, over long steps: corrections wander, and some leave a range late. */
static void violent(struct call *c)
{
    bool shallow = one_in(2), high = !shallow && one_in(4);
    int64_t depth = shallow ? 2 + magnitude(200) : PICK(60, 300, 2000, 20000), still = 0, uneven = 8;
    int64_t speeds = shallow ? magnitude(10000) : PICK(1000000, 20000000), heights = shallow ? magnitude(10000) : 100000;
    lengths(c, (size_t)between(8, 12));
    c->X = (uint64_t)(shallow ? PICK(50, 100, 200, 500) : PICK(100, 200, 500, 1000, 2000, 5000));
    c->T = (uint64_t)PICK(20, 50, 100, 100), c->wanted = (uint64_t)PICK(100, 280, 65550), c->accepted = 0;
    if (high) {
        c->X = (uint64_t)between(10, 100), c->T = (uint64_t)between(20, 100);
        depth = deepest((int64_t)c->X, (int64_t)c->T) * between(60, 100) / 100, uneven = 50;
        still = one_in(2) ? 19000000 : magnitude(19000000);
        heights = magnitude(300000), speeds = magnitude(2000);
    } else if (too_long(depth, (int64_t)c->X, (int64_t)c->T) && !one_in(20)) {
        depth = deepest((int64_t)c->X, (int64_t)c->T);
    }
    for (size_t j = 0; j < c->N; j++) {
        c->row[ROW_h][j] = depth - between(0, depth / uneven);
        c->row[ROW_e][j] = wetted(c->row[ROW_h][j], still + between(-heights, heights));
        c->row[ROW_u][j] = between(-speeds, speeds);
        c->row[ROW_s][j] = shallow && one_in(6) ? between(0, 1000000) : 0;
    }
    any_damping(c);
}

#endif
