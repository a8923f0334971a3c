/* Calls with faults at drawn places, and where the faults of a call's input lie: values outside their ranges, cells with
   too little water or too deep for the time step, rows that are not dominant. */
#ifndef FAULTS_H
#define FAULTS_H

#include "ladder.h"

static const struct {
    int64_t low, high;
} ranges[ROWS] = {
    {1, 20000},
    {-20000000, 20000000},
    {-20000000, 20000000},
    {-2000000000, 2000000000},
    {-1000000000000000, 1000000000000000},
    {-100000000000, 100000000000},
    {-1000000, 1000000},
    {0, 10000},
};

/* The rows in the order in which they are searched for values outside: the poured amounts come last. */
static const int searched_as[ROWS] = {ROW_h, ROW_e, ROW_u, ROW_V, ROW_Q, ROW_F, ROW_damping, ROW_s};

static bool in_range(int row, int64_t n) { return n >= ranges[row].low && n <= ranges[row].high; }
static size_t levels_of(int row) { return row == ROW_Q || row == ROW_F ? 3 : 1; }

/* Whether a call reads the row. */
static bool reads(enum kind kind, int row)
{
    return row == ROW_s ? kind == STEP : row <= ROW_u || row == ROW_damping || kind != MAKE;
}

/* A value outside a row's range: by one, by more, at an end of 64 bits, or a value in it and so many times 2^32. */
static int64_t outside(int row)
{
    int64_t low = ranges[row].low, high = ranges[row].high, side = PICK(1, -1), further = 1 + magnitude(1000000000);
    int64_t inside = between(low, high);
    switch (draw() % 5) {
    case 0: case 1: return side > 0 ? high + 1 : low - 1;
    case 2: return side > 0 ? high + further : low - further;
    case 3: return side > 0 ? INT64_MAX : INT64_MIN;
    default: return inside + side * (((high - low) >> 32) + further) * ((int64_t)1 << 32);
    }
}

static void put_outside(struct call *c, int row)
{
    size_t levels = levels_of(row), n = c->len[row] / levels, level = draw() % levels, place = any_place(n);
    c->row[row][level * n + place] = outside(row);
}

/* A cell with less than 1,000 um of water. */
static void put_dry(struct call *c)
{
    size_t j = any_place((size_t)c->N);
    int64_t h = c->row[ROW_h][j], e = 1000 - 1000 * (in_range(ROW_h, h) ? h : 0) - magnitude(1000000);
    c->row[ROW_e][j] = e < -20000000 ? -20000000 : e;
}

/* A cell a fifth as deep as the others, beside which its row is not dominant. */
static void put_dip(struct call *c, int64_t depth)
{
    size_t j = any_place((size_t)c->N);
    c->row[ROW_h][j] = depth / 5;
}

/* A time step that is too long: for one cell that is deeper than the others, or for all of the depth. */
static void put_long(struct call *c, int64_t depth)
{
    int64_t over = deepest((int64_t)c->X, (int64_t)c->T) + 1;
    size_t j = any_place((size_t)c->N);
    if (one_in(2) && over <= 20000) {
        c->row[ROW_h][j] = one_in(2) ? over : between(over, 20000);
        return;
    }
    c->T = (uint64_t)between(50, 100);
    uint64_t X = (uint64_t)narrowest(depth, (int64_t)c->T) - 1;
    c->X = X < c->X ? X : c->X;
}

/* What is put at fault: a row, or one of these. */
enum { FAULT_DRY = ROWS, FAULT_LONG, FAULT_DIP, FAULTS };

static int any_fault(enum kind kind)
{
    int fault;
    do
        fault = (int)(draw() % FAULTS);
    while (fault < ROWS && !reads(kind, fault));
    return fault;
}

static void put_fault(struct call *c, int fault, int64_t depth)
{
    if (fault == FAULT_DRY)
        put_dry(c);
    else if (fault == FAULT_LONG)
        put_long(c, depth);
    else if (fault == FAULT_DIP)
        put_dip(c, depth);
    else
        put_outside(c, fault);
}

/* Deep water over narrow cells; its depth. */
static int64_t deep_water(struct call *c)
{
    int64_t X = between(10, 4000), depth = between(5 * X, 20000), heights = magnitude(200 * depth - 1000);
    lengths(c, one_in(6) ? (size_t)PICK(255, 256) : (size_t)between(8, 14));
    c->X = (uint64_t)X, c->T = (uint64_t)between(1, longest(depth, X)), c->wanted = (uint64_t)between(1, 5);
    c->accepted = one_in(3) ? c->wanted : open_start(c->wanted);
    for (size_t j = 0; j < c->N; j++) {
        c->row[ROW_h][j] = depth;
        c->row[ROW_e][j] = between(-heights, heights);
        c->row[ROW_u][j] = between(-20000000, 20000000);
        c->row[ROW_s][j] = between(-1000000, 1000000);
    }
    any_levels(c);
    any_damping(c);
    return depth;
}

/* The same with one to four faults, as often as not of the same kind. */
static void faulty(struct call *c, enum kind kind)
{
    int64_t depth = deep_water(c), count = PICK(1, 1, 2, 3, 4);
    int fault = any_fault(kind);
    for (int64_t i = 0; i < count; i++) {
        put_fault(c, fault, depth);
        if (one_in(2))
            fault = any_fault(kind);
    }
}

/* The same with a damping number outside its range, in one cell or in several, alone or beside another fault, of a step
   as often as not a poured amount; or with a damping row that is one cell too short or too long. */
static void faulty_damping(struct call *c, enum kind kind)
{
    int64_t depth = deep_water(c);
    bool length = one_in(8), poured = kind == STEP && one_in(2);
    if (!length)
        do
            put_outside(c, ROW_damping);
        while (one_in(3));
    if (one_in(2))
        put_fault(c, poured ? ROW_s : any_fault(kind), depth);
    if (one_in(20))
        c->T = (uint64_t)PICK(0, 101);
    if (length || one_in(20))
        c->len[ROW_damping] += (size_t)PICK(1, -1);
}

/* A channel at the bound of its time step or beyond it, some with faults that come before or after that. */
static void faulty_bound(struct call *c, enum kind kind)
{
    at_the_bound(c);
    if (one_in(4))
        put_dry(c);
    if (one_in(4))
        put_dip(c, c->row[ROW_h][0] + 4); /* at least 1 mm */
    if (one_in(4)) {
        int fault;
        do
            fault = any_fault(kind);
        while (fault >= ROWS);
        put_outside(c, fault);
    }
}

/* Water of which some cells are as low as allowed, and fall dry: in a step by what is poured, by the prediction's
   movement or by the first correction's, in a run by movement, in a filter pass by their neighbours. By the first row
   of weights no levels move only in a correction. */
static void drying(struct call *c, enum kind kind)
{
    int64_t high = magnitude(20000000), X = between(10, 5000), T = PICK(1, 10, 50, 100);
    int64_t depth = between(1, deepest(X, T)), unit = 1000000 * X / T; /* levels that are all one unit move 1 */
    bool poured = kind == STEP && one_in(2), late = one_in(2);
    int rung;
    lengths(c, one_in(10) ? (size_t)between(8, 256) : (size_t)between(8, 14));
    for (int i = 0; i < ROWS; i++)
        memset(c->row[i], 0, c->len[i] * sizeof(int64_t));
    c->X = (uint64_t)X, c->T = (uint64_t)T, c->wanted = 5, c->accepted = open_start(5);
    rung = rung_of(c);
    any_damping(c);
    for (size_t j = 0; j < c->N; j++) {
        c->row[ROW_h][j] = depth;
        c->row[ROW_e][j] = 1000 - 1000 * depth + (one_in(2) ? high : 0);
    }
    if (kind == FILTER)
        return;
    for (int64_t i = between(1, 3); i > 0; i--) {
        size_t j = any_place((size_t)c->N), faces = (size_t)c->N - 1, face = j < faces ? j : j - 1;
        int64_t moved = (j < faces ? 1 : -1) * between(2, 9) * unit;
        c->row[ROW_e][j] = 1000 - 1000 * depth;
        if (poured)
            c->row[ROW_s][j] = -between(1, 1000000);
        else
            for (size_t level = 0; level < 3; level++)
                c->row[ROW_Q][level * faces + face] =
                    late && rung > 0 ? late_levels[rung][level] * moved * 24 / trial_weight[rung] : moved;
    }
}

/* A row as it is searched for faults; the levels are three, and the water depths, the depths that the time step is too
   long for, and the dominant rows three more. */
struct searched {
    unsigned number;
    int level;
    size_t len;
    bool at[CELLS];
};
enum { SEARCHED = 15 };

static bool dry_at(const struct call *c, size_t j)
{
    int64_t h = c->row[ROW_h][j], e = c->row[ROW_e][j];
    return in_range(ROW_h, h) && in_range(ROW_e, e) && 1000 * h + e < 1000;
}

static bool long_at(const struct call *c, size_t j)
{
    int64_t h = c->row[ROW_h][j];
    return in_range(ROW_h, h) && too_long(h, (int64_t)c->X, (int64_t)c->T);
}

/* Whether row j, of depths in range, is not dominant. A wall drops the coefficient beside it and adds to the row's own. */
static bool weak_at(const struct call *c, size_t j)
{
    const int64_t *row = c->row[ROW_h], h = row[j], X = (int64_t)c->X, walls = (j == 0) + (j + 1 == c->N);
    int64_t others = 0;
    if (!in_range(ROW_h, h))
        return false;
    for (size_t i = j > 0 ? j - 1 : 0; i <= j + 1 && i < c->N; i++) {
        if (!in_range(ROW_h, row[i]))
            return false;
        if (i != j)
            others += llabs(h * (1409805 * h - 5310000 * row[i]));
    }
    return 10000000 * X * X + (7800390 + walls * 3900195) * h * h <= others;
}

/* Where the input of a call has faults, in the order in which they are told. Its lengths and counts are allowed. */
static void find_faults(enum kind kind, const struct call *c, struct searched *s)
{
    memset(s, 0, SEARCHED * sizeof *s);
    for (int i = 0; i < ROWS; i++) {
        int row = searched_as[i];
        for (size_t level = 0; level < levels_of(row); level++, s++) {
            s->number = 31 + (unsigned)row;
            s->level = (int)level;
            s->len = reads(kind, row) ? c->len[row] / levels_of(row) : 0;
            for (size_t j = 0; j < s->len; j++)
                s->at[j] = !in_range(row, c->row[row][level * s->len + j]);
        }
    }
    s[0].number = 4, s[1].number = 26, s[2].number = 5;
    s[0].len = s[1].len = s[2].len = (size_t)c->N;
    for (size_t j = 0; j < c->N; j++) {
        s[0].at[j] = dry_at(c, j);
        s[1].at[j] = long_at(c, j);
        s[2].at[j] = weak_at(c, j);
    }
}

static bool has_place(uint64_t number) { return number == 4 || number == 5 || number > 30; }

/* The lowest place with a fault, counted from 1, or 0. Of 26 it is the first cell that is too deep, and not told. */
static uint64_t lowest_of(const struct searched *s)
{
    for (size_t j = 0; j < s->len; j++)
        if (s->at[j])
            return j + 1;
    return 0;
}

static long faults_in(const struct searched *s)
{
    long faults = 0;
    for (size_t j = 0; j < s->len; j++)
        faults += s->at[j];
    return faults;
}

#endif
