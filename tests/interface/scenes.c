/* Channels for the test of the C interface. */
#include "scenes.h"

static uint64_t state, damping_state;

void seed(uint64_t from)
{
    state = from;
    damping_state = ~from;
}

uint64_t draw(void)
{
    uint64_t z = (state += 0x9E3779B97F4A7C15u);
    z = (z ^ z >> 30) * 0xBF58476D1CE4E5B9u;
    z = (z ^ z >> 27) * 0x94D049BB133111EBu;
    return z ^ z >> 31;
}

bool one_in(uint64_t n) { return draw() % n == 0; }

int64_t between(int64_t low, int64_t high) { return low + (int64_t)(draw() % (uint64_t)(high - low + 1)); }

int64_t pick(const int64_t *from, size_t n) { return from[draw() % n]; }

int64_t magnitude(int64_t top)
{
    int64_t most = 1;
    for (uint64_t doublings = draw() % 32; doublings > 0 && most < top; doublings--)
        most *= 2;
    int64_t size = between(most / 2, most);
    return size < top ? size : top;
}

static int64_t clamp(int64_t n, int64_t low, int64_t high) { return n < low ? low : n > high ? high : n; }

/* A height, raised where the cell would hold less than 1 mm of water. */
static int32_t wet(int64_t depth, int64_t height)
{
    int64_t least = 1000 - 1000 * depth;
    return (int32_t)clamp(height < least ? least + between(0, 20) : height, -20000000, 20000000);
}

/* A damping of any size, at an end of its range, or one that makes a half of an odd velocity. */
static int64_t damping(void)
{
    int64_t any = magnitude(10000), halves = 500 * (2 * between(0, 9) + 1);
    return PICK(any, any, halves, halves, 1, 10000);
}

/* Dampings, drawn apart from all else. */
static void damp(struct scene *s)
{
    uint64_t others = state;
    state = damping_state;
    bool none = one_in(2);
    int64_t form = between(0, 3), most = damping(), end = between(2, (int64_t)s->cells);
    int64_t at = PICK(0, (int64_t)s->cells - 1, between(0, (int64_t)s->cells - 1));
    for (int64_t j = 0; j < (int64_t)s->cells; j++) {
        int64_t each = damping(), into = at == 0 ? end - j : j + 1 - (int64_t)s->cells + end;
        const int64_t forms[] = {j == at ? most : 0, most, clamp(most * into / end, 0, most), each};
        s->dampings[j] = none ? 0 : (int32_t)forms[form];
    }
    damping_state = state;
    state = others;
}

static void counts(struct scene *s, size_t cells, int64_t width, int64_t step, int64_t wanted)
{
    s->cells = cells;
    s->width = (uint64_t)width;
    s->step = (uint64_t)step;
    s->wanted = (uint64_t)wanted;
    damp(s);
}

static void cell(struct scene *s, size_t j, int64_t depth, int64_t height, int64_t velocity, int64_t poured)
{
    int64_t d = clamp(depth, 1, 20000);
    s->depths[j] = (int32_t)d;
    s->heights[j] = wet(d, height);
    s->velocities[j] = (int32_t)clamp(velocity, -20000000, 20000000);
    s->poured[j] = (int32_t)clamp(poured, -1000000, 1000000);
}

/* A triangle between -1000 and 1000 along the cells. */
static int64_t triangle(size_t j, int64_t period)
{
    int64_t at = (int64_t)j % period * 4000 / period;
    return at < 1000 ? at : at < 3000 ? 2000 - at : at - 4000;
}

/* The longest time step, in ms, of a channel: 9,810·h·T² is at most 6,000,000·X² at its deepest h. */
static uint64_t longest_step(const struct scene *s)
{
    uint64_t deepest = 1, longest = 100;
    for (size_t j = 0; j < s->cells; j++)
        deepest = (uint64_t)s->depths[j] > deepest ? (uint64_t)s->depths[j] : deepest;
    while (9810 * deepest * longest * longest > 6000000 * s->width * s->width)
        longest--;
    return longest;
}

/* A time step that is too long is cut to the longest, but for one in so many. */
static void cut_step(struct scene *s, uint64_t left)
{
    uint64_t longest = longest_step(s);
    if (s->step > longest && !one_in(left))
        s->step = longest;
}

/* In all scenes each draw is a statement of its own: C leaves the order within one open. */

void calm(struct scene *s, size_t cells)
{
    int64_t depth = between(150, 3000), high = depth * between(1, 60), period = between(6, 40);
    int64_t pours = one_in(2) ? magnitude(20000) : 0;
    int64_t width = depth * between(6, 20) / 10, step = between(2, 25), wanted = between(1, 40);
    counts(s, cells, clamp(width, 100, 5000), step, wanted);
    for (size_t j = 0; j < cells; j++) {
        int64_t d = depth - between(0, depth / 30), poured = between(-pours, pours);
        cell(s, j, d, high * triangle(j, period) / 1000, high / 8 * triangle(j + 2, period) / 1000, poured);
    }
}

void wild(struct scene *s, size_t cells)
{
    int64_t depth = magnitude(20000), high = magnitude(20000000), fast = magnitude(20000000);
    int64_t uneven = depth / PICK(4, 8, 16, 100, 100000), pours = one_in(2) ? magnitude(1000000) : 0;
    int64_t near = one_in(5) ? 20000000 - high : 0;
    int64_t width = 10 + magnitude(4990), step = 1 + magnitude(99);
    int64_t wanted = one_in(20) ? magnitude(1000000) : magnitude(30);
    counts(s, cells, width, step, wanted);
    for (size_t j = 0; j < cells; j++) {
        int64_t d = depth + between(-uneven, uneven), side = PICK(1, -1), e = between(-high, high) + side * near;
        int64_t u = between(-fast, fast), poured = between(-pours, pours);
        cell(s, j, d, e, u, poured);
    }
    cut_step(s, 8);
}

void violent(struct scene *s, size_t cells)
{
    bool shallow = one_in(2);
    int64_t depth = shallow ? 2 + magnitude(200) : PICK(60, 300, 2000, 20000);
    int64_t high = shallow ? magnitude(10000) : 100000, fast = shallow ? magnitude(10000) : PICK(1000000, 20000000);
    int64_t width = shallow ? PICK(50, 100, 200, 500) : PICK(100, 200, 500, 1000, 2000, 5000);
    int64_t step = PICK(20, 50, 100, 100);
    counts(s, cells, width, step, 100);
    for (size_t j = 0; j < cells; j++) {
        int64_t d = depth - between(0, depth / 8), e = between(-high, high), u = between(-fast, fast);
        int64_t poured = shallow && one_in(6) ? between(0, 1000000) : 0;
        cell(s, j, d, e, u, poured);
    }
    cut_step(s, 8);
}

void hasty(struct scene *s, size_t cells)
{
    bool brimming = one_in(2), narrow = one_in(2);
    int64_t width = brimming ? between(60, 900) : narrow ? between(10, 40) : between(40, 1000), step = between(50, 100);
    int64_t deepest = clamp(6000000 * width * width / (9810 * step * step), 1, 20000);
    int64_t depth = brimming ? 1 + magnitude(deepest - 1) : deepest - between(0, deepest * 4 / 10);
    int64_t high = magnitude(1000 * depth), level = brimming ? 20000000 - high - magnitude(1000000) : 0;
    int64_t fast = one_in(2) ? magnitude(10000) : 0;
    counts(s, cells, width, step, 100);
    for (size_t j = 0; j < cells; j++) {
        int64_t e = level + between(-high, high), u = between(-fast, fast);
        cell(s, j, depth, e, u, 0);
    }
}

void deep(struct scene *s, size_t cells)
{
    int64_t width = between(200, 3000), step = PICK(1, 5, 20, 50, 100);
    counts(s, cells, width, step, 5);
    for (size_t j = 0; j < cells; j++) {
        int64_t d = 20000 - between(0, 40), e = between(-5000000, 5000000), u = between(-20000000, 20000000);
        cell(s, j, d, e, u, 0);
    }
    cut_step(s, 8);
}

/* Over an even bottom V is u less 0.3900195 times the depth over the width, squared, times the second difference of
   u, mirrored at the walls. Here that is 3,900.195 times an odd number of hundreds. */
void reduced_halves(struct scene *s, size_t cells)
{
    int64_t sign = PICK(25, -25);
    counts(s, cells, 10, 1, 1);
    for (size_t j = 0; j < cells; j++) {
        cell(s, j, 1000, 0, sign * (8 * between(-600, 600) + 1), 0);
        sign = -sign;
    }
}

void flux_halves(struct scene *s, size_t cells)
{
    counts(s, cells, 1000, 1, 1);
    for (size_t j = 0; j < cells; j++)
        cell(s, j, 3000, 0, between(-10000000, 10000000), 0);
}
