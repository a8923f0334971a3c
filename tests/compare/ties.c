/* The second program, with each number that it rounds looked at first (ties.h). Whether a float's real number is a
   half is worked out in whole numbers. */
#include "ties.h"

#include <assert.h>
#include <math.h>

struct work;
static int64_t quotient_at(enum place place, int64_t n, int64_t d);
static double float_at(enum place place, double v, const struct work *k, size_t j, const int64_t *u);
#define QUOTIENT_AT quotient_at
#define FLOAT_AT float_at
#include "../../second/second.c"

__extension__ typedef __int128 wide;

long ties[TIES], apart;
int turned = TIES, at_once;
const int tie_count = TIES;

/* Counts a tie; whether it is turned. */
static bool met(enum place place, int near, bool negative, bool odd)
{
    int tie = tie_of(place, near, negative, odd);
    ties[tie]++;
    return tie == turned;
}

/* A half goes to the even one of its neighbours: from zero if the one towards zero is odd. Turned, its numerator is
   one off, to the other side of it. */
static int64_t turned_at(enum place place, int64_t n, int64_t d)
{
    bool odd = n / d % 2 != 0;
    if (size_of(n % d) != d / 2 || !met(place, IS_HALF, (n < 0) != (place == MINUS_F), odd))
        return n;
    return odd == (n < 0) ? n + 1 : n - 1;
}

/* n / d, for an even d, nearest, a half going to the even number. */
static wide nearest(wide n, wide d)
{
    wide q = n / d, rest = n % d, size = rest < 0 ? -rest : rest;
    return size > d / 2 || (size == d / 2 && q % 2 != 0) ? q + (n < 0 ? -1 : 1) : q;
}

/* What the damping takes, n / d, comes directly after -F of the same cell. If both are to be rounded at once, it is
   whatever then makes the sum right. */
static int64_t quotient_at(enum place place, int64_t n, int64_t d)
{
    static int64_t minus_F, by; /* over by */
    n = turned_at(place, n, d);
    if (place == MINUS_F)
        minus_F = n, by = d;
    if (place != DAMPED)
        return n;
    int64_t once = (int64_t)nearest((wide)minus_F * d + (wide)n * by, (wide)by * d);
    int64_t taken = once - (int64_t)nearest(minus_F, by);
    bool other = taken != nearest(n, d);
    apart += other;
    return other && at_once ? taken * d : n;
}

/* n / d, for an even d, if it is a half; else 0. */
static double half_of(wide n, wide d)
{
    wide rest = n % d;
    return rest == d / 2 ? (double)(n / d) + 0.5 : rest == -d / 2 ? (double)(n / d) - 0.5 : 0;
}

/* M of cell j is this over -6,000,000 X². */
static wide hhK(const struct work *k, size_t j, const int64_t *u)
{
    const int64_t *row = k->bed, bed = row[j], h = bed / 1000;
    int64_t left = j > 0 ? row[j - 1] : bed, right = j + 1 < k->N ? row[j + 1] : bed;
    int64_t A = u[-1] - 2 * u[0] + u[1], B = left * u[-1] - 2 * bed * u[0] + right * u[1];
    return h * h * ((wide)154117 * (bed * A) + (wide)186000 * B);
}

/* The real number of each float, if that is a half; else 0. */
static double real_dispersive(const struct work *k, size_t j, const int64_t *u)
{
    int64_t X = k->x / 1000;
    return j + 1 < k->N ? half_of(-(hhK(k, j, u + j) + hhK(k, j + 1, u + j + 1)), (wide)12000000 * X * X) : 0;
}

/* The sum of row j's products with a row of velocities. */
static wide row_product(const struct work *k, size_t j, const int64_t *u)
{
    wide sum = (wide)(int64_t)k->b[j] * u[j];
    if (j > 0)
        sum += (wide)(int64_t)k->a[j] * u[j - 1];
    if (j + 1 < k->N)
        sum += (wide)(int64_t)k->c[j] * u[j + 1];
    return sum;
}

static double real_V(const struct work *k, size_t j, const int64_t *u)
{
    return half_of(row_product(k, j, u), (int64_t)k->w);
}

/* Whether twice the solution is whole in every row, and what it is: then the floats' doubles, rounded, solve the rows
   exactly. */
static bool solved_in_halves(const struct work *k, int64_t *twice)
{
    double u = 0;
    for (size_t j = k->N; j-- > 0;) {
        u = k->side[j] - k->ratio[j] * u;
        if (!within(u, u_MOST))
            return false;
        twice[j] = (int64_t)rounded(2 * u);
    }
    for (size_t j = 0; j < k->N; j++)
        if (row_product(k, j, twice) != 2 * (wide)(int64_t)k->w * k->V[j])
            return false;
    return true;
}

/* Asked for every row from the last, as the backward sweep goes. A half beside other fractions is not seen. */
static double real_u(const struct work *k, size_t j)
{
    static int64_t twice[CELLS];
    static bool in_halves;
    if (j + 1 == k->N)
        in_halves = solved_in_halves(k, twice);
    return in_halves && twice[j] % 2 ? (double)twice[j] / 2 : 0;
}

/* The float next to a half, on the side of zero or on the other. */
static double beside(double half, bool nearer_zero)
{
    uint64_t bits;
    memcpy(&bits, &half, sizeof bits);
    bits = nearer_zero ? bits - 1 : bits + 1;
    memcpy(&half, &bits, sizeof half);
    return half;
}

/* A half itself goes from zero if its neighbour towards zero is odd, a float that is larger than its half always, and
   one that is smaller never. Turned, each is the float next to the half that goes to the other neighbour. */
static double float_at(enum place place, double v, const struct work *k, size_t j, const int64_t *u)
{
    double real = place == DISPERSIVE ? real_dispersive(k, j, u) : place == SOLVED_u ? real_u(k, j) : real_V(k, j, u);
    double half = fabs(v - (double)(int64_t)v) == 0.5 ? v : real;
    assert(real == 0 || fabs(v - real) <= 0.5);
    int near = v == half ? IS_HALF : fabs(v) < fabs(half) ? SMALLER : LARGER;
    bool odd = (int64_t)half % 2 != 0;
    if (half == 0 || !met(place, near, half < 0, odd))
        return v;
    return beside(half, near == LARGER || (near == IS_HALF && odd));
}

bool predicted_levels(const struct second_channel *channel, struct second_read_row s, int64_t *Q, int64_t *F)
{
    struct work k;
    struct sums unused;
    if (input_refusal(&k, channel, &s).number)
        return false;
    memset(k.float_u, 0, sizeof k.float_u);
    if (predict(&k, channel, s.at) || backward(&k, &unused) || levels(&k))
        return false;
    memcpy(Q, k.Q, (k.N - 1) * sizeof *Q);
    memcpy(F, k.F, k.N * sizeof *F);
    return true;
}

long dry_cells(const struct second_channel *channel, const int64_t *s, uint64_t stage)
{
    struct work k;
    struct sums unused;
    long dry = 0;
    input_refusal(&k, channel, NULL);
    memset(k.float_u, 0, sizeof k.float_u);
    if (s)
        predict(&k, channel, s);
    else
        filter_sweep(&k, channel);
    for (uint64_t i = 0; i < stage; i++) {
        backward(&k, &unused);
        levels(&k);
        correct(&k, channel, &unused);
    }
    for (size_t j = 0; j < k.N; j++)
        dry += k.H[j] < H_LEAST;
    return dry;
}
