#include "second.h"

#include <inttypes.h>
#include <math.h>
#include <stdbool.h>
#include <stdio.h>
#include <string.h>

enum {
    CELLS = SECOND_CELLS,
    GHOST = 4, /* mirrored cells kept beyond each wall */
    ROW = GHOST + CELLS + GHOST,
    CORRECTIONS = 10
};

#define H_LEAST INT64_C(1000)
#define H_MOST (1000 * h_MOST + e_MOST)
#define h_MOST INT64_C(20000)
#define e_MOST INT64_C(20000000)
#define u_MOST INT64_C(20000000)
#define V_MOST INT64_C(2000000000)
#define Q_MOST INT64_C(1000000000000000)
#define F_MOST INT64_C(100000000000)
#define s_MOST INT64_C(1000000)
#define DAMPING_MOST INT64_C(10000)
#define e_LEAST (H_LEAST - 1000 * h_MOST) /* of any channel */
#define WAVE_MOST (e_MOST - e_LEAST)
#define RECORD_MOST INT64_C(1000000)

/* A time step is too long where 9,810·h·T² is more than 6,000,000·X². */
#define PER_DEPTH 9810
#define PER_WIDTH 6000000

/* A damping is in thousandths per second. */
#define PER_SECOND 1000

/* Each number that is rounded, with the name of the place that rounds it. A
   source that takes this one in may look at the numbers by macros of its own. */
#ifndef QUOTIENT_AT
#define QUOTIENT_AT(place, n, d) (n)
#define FLOAT_AT(place, v, k, j, u) (v)
#endif

/* Time weights, newest level first; the corrector's first is the trial's. */
struct weights {
    int64_t predictor[3], corrector[4];
};

/* The weights of the first step, of the second, and of every later one. */
enum { RUNGS = 3 };
static const struct weights ladder[RUNGS] = {
    {{12, 0, 0}, {12, 12, 0, 0}},
    {{18, -6, 0}, {10, 16, -2, 0}},
    {{23, -16, 5}, {9, 19, -5, 1}},
};
enum { PREDICTED = 12, CORRECTED = 24 };

/* Filter weights: of the cells j-3 to j+4 about a face, and of a cell and
   each pair of its neighbours. Both over 256. */
static const int64_t face_filter[8] = {-1, 7, -21, 35, -35, 21, -7, 1};
static const int64_t cell_filter[5] = {186, 56, -28, 8, -1};

/* An even divisor and its inverse. */
struct divisor {
    int64_t d;
    double inverse;
};

/* The rows of one call. Cells count from 0; cell j of a row with ghosts
   stands at GHOST + j. Face j lies between cells j and j+1, so that face
   N-1 is the far wall, where flux and movement are 0. */
struct work {
    size_t N;
    int64_t x, T;
    double w;
    const int64_t *damping; /* the channel's */

    /* of the bed: coefficients, r·r, 1000h; pivots and ratios once solved */
    double a[CELLS], b[CELLS], c[CELLS], rr[CELLS], depth[CELLS];
    double p[CELLS], ratio[CELLS];
    int64_t bed[CELLS];

    /* where every correction starts: e with the poured amount, and T times
       the stored levels' part of the corrector's sums */
    int64_t start_e[CELLS], start_Q[CELLS], start_F[CELLS];

    /* the trial */
    int64_t e[ROW], u[ROW], V[CELLS], H[CELLS], P[ROW];
    double float_u[ROW], hu[ROW], M[ROW], side[CELLS];
    int64_t Q[CELLS], F[CELLS];
};

/* Sums of the sizes of the changes and of the new values of e or u: whole
   and below 2^53, so that floats hold them exactly. */
struct sums {
    double change, size;
};

static int64_t size_of(int64_t n)
{
    return n < 0 ? -n : n;
}

static inline void add_to(struct sums *sums, double new, double old)
{
    sums->change += fabs(new - old);
    sums->size += fabs(new);
}

/* n / d for an even d > 0, nearest, a half going to the even number. Of a half
   q is the neighbour further from zero, and the sum has no rest. */
static inline int64_t rounded_quotient(int64_t n, int64_t d)
{
    uint64_t sum = (uint64_t)(size_of(n) + d / 2), q = sum / (uint64_t)d;
    q -= q & (q * (uint64_t)d == sum);
    return n < 0 ? -(int64_t)q : (int64_t)q;
}

static struct divisor divisor(int64_t d)
{
    return (struct divisor){d, 1 / (double)d};
}

static inline bool within(double v, int64_t most)
{
    return fabs(v) <= (double)most;
}

static inline bool whole_within(int64_t n, int64_t most)
{
    return n >= -most && n <= most;
}

/* The whole number nearest to v, a half going to the even one, for
   |v| < 2^51: between 2^52 and 2^53 the floats are the whole numbers, and the
   sum, a float operation, goes to one of them by just that rule. */
static inline double rounded(double v)
{
    return (v + 0x1.8p52) - 0x1.8p52;
}

/* rounded_quotient, for |n| < 2^62 and a quotient below 2^40. The float
   estimate is then within 2^-10 of the true quotient, and the whole number
   nearest to it is the answer if it leaves a rest smaller than d/2. */
static inline int64_t quick_quotient(int64_t n, struct divisor by)
{
    int64_t q = (int64_t)rounded((double)n * by.inverse);
    int64_t rest = n - q * by.d;
    return whole_within(rest, by.d / 2 - 1) ? q : rounded_quotient(n, by.d);
}

static struct second_answer refusal(unsigned number, unsigned stage, unsigned place)
{
    return (struct second_answer){number, stage, place, 0};
}

/* An acceptance, with its count. */
static struct second_answer acceptance(uint64_t count)
{
    return (struct second_answer){0, 0, 0, count};
}

/* Whether every n of a row has low <= n <= high. With t = n - low modulo
   2^64, t or high - low - t has its top bit set exactly when n is outside. */
static bool row_within(const int64_t *row, size_t len, int64_t low, int64_t high)
{
    uint64_t span = (uint64_t)high - (uint64_t)low, outside = 0;
    for (size_t j = 0; j < len; j++) {
        uint64_t t = (uint64_t)row[j] - (uint64_t)low;
        outside |= t | (span - t);
    }
    return outside >> 63 == 0;
}

/* The lowest place of a row, counted from 1, whose n is below low or above
   high; 0 if there is none. */
static unsigned lowest(const int64_t *row, size_t len, int64_t low, int64_t high)
{
    size_t j = 0;
    if (row_within(row, len, low, high))
        return 0;
    while (row[j] >= low && row[j] <= high)
        j++;
    return (unsigned)j + 1;
}

/* A row of the input, its range, and the refusal of a value outside. */
struct values {
    unsigned number;
    const int64_t *at;
    size_t len;
    int64_t low, high;
};

/* The refusal of the first row with a value outside, at its lowest place. */
static struct second_answer values_refusal(const struct values *rows, size_t count)
{
    for (size_t i = 0; i < count; i++) {
        unsigned place = lowest(rows[i].at, rows[i].len, rows[i].low, rows[i].high);
        if (place)
            return refusal(rows[i].number, 0, place);
    }
    return acceptance(0);
}

static bool lengths_allowed(const struct second_channel *channel)
{
    uint64_t N = channel->N;
    return N >= 8 && N <= CELLS && channel->h.len == N && channel->e.len == N &&
           channel->u.len == N && channel->V.len == N && channel->Q.len == 3 * (N - 1) &&
           channel->F.len == 3 * N && channel->damping.len == N;
}

static bool counts_allowed(uint64_t X, uint64_t T, uint64_t accepted, uint64_t wanted)
{
    return X >= 10 && X <= 5000 && T >= 1 && T <= 100 && wanted >= 1 && wanted <= 1000000 &&
           accepted <= wanted;
}

/* Fills the rows 1000h and H; the lowest cell with too little water, or 0. */
static unsigned lowest_dry(struct work *k, const int64_t *h, const int64_t *e, size_t N)
{
    for (size_t j = 0; j < N; j++) {
        k->bed[j] = 1000 * h[j];
        k->H[j] = k->bed[j] + e[j];
    }
    return lowest(k->H, N, H_LEAST, H_MOST);
}

/* Whether the time step is too long for a depth: a whole h is more than
   6,000,000·X² / (9,810·T²) exactly when it is more than its whole part. */
static bool too_long(const struct second_channel *channel)
{
    uint64_t X = channel->X, T = channel->T, deepest = PER_WIDTH * X * X / (PER_DEPTH * T * T);
    return !row_within(channel->h.at, channel->h.len, 1, (int64_t)deepest);
}

/* The lowest row that is not dominant, or 0. */
static unsigned lowest_weak(const struct work *k)
{
    int64_t over[CELLS];
    for (size_t j = 0; j < k->N; j++)
        over[j] = (int64_t)(k->b[j] - (fabs(k->a[j]) + fabs(k->c[j])));
    return lowest(over, k->N, 1, INT64_MAX);
}

/* Fills the bed's rows. All coefficients are whole and below 2^53, so that
   floats hold them and their sums exactly. */
static void put_bed(struct work *k, const int64_t *h, size_t N, uint64_t X)
{
    double row[CELLS + 2];
    const double w = 1e7 * (double)(X * X), float_X = (double)X;
    k->N = N;
    k->x = 1000 * (int64_t)X;
    k->w = w;
    row[0] = (double)h[0];
    for (size_t j = 0; j < N; j++)
        row[j + 1] = (double)h[j];
    row[N + 1] = (double)h[N - 1];
    for (size_t j = 0; j < N; j++) {
        double left = row[j], f = row[j + 1], right = row[j + 2];
        double r = f / float_X;
        k->rr[j] = r * r;
        k->depth[j] = 1000 * f;
        k->a[j] = f * (1409805 * f - 5310000 * left);
        k->c[j] = f * (1409805 * f - 5310000 * right);
        k->b[j] = w + 7800390 * (f * f);
    }
    k->b[0] += 3900195 * (row[1] * row[1]);
    k->a[0] = 0;
    k->b[N - 1] += 3900195 * (row[N] * row[N]);
    k->c[N - 1] = 0;
}

/* Water depth, time step and dominance of a channel whose values are allowed. */
static struct second_answer water_refusal(struct work *k, const struct second_channel *channel)
{
    size_t N = (size_t)channel->N;
    unsigned place = lowest_dry(k, channel->h.at, channel->e.at, N);
    if (place)
        return refusal(4, 0, place);
    if (too_long(channel))
        return refusal(26, 0, 0);
    put_bed(k, channel->h.at, N, channel->X);
    place = lowest_weak(k);
    return place ? refusal(5, 0, place) : acceptance(0);
}

/* The whole of a channel's input, with the values poured if there are any,
   in the order 1, 2, 31 to 36, 38, 37, 4, 26, 5. */
static struct second_answer input_refusal(struct work *k, const struct second_channel *channel,
                                          const struct second_read_row *s)
{
    size_t N = (size_t)channel->N, faces = N - 1;
    const int64_t *Q = channel->Q.at, *F = channel->F.at;
    if (!lengths_allowed(channel) || (s && s->len != N))
        return refusal(1, 0, 0);
    if (!counts_allowed(channel->X, channel->T, channel->accepted, channel->wanted))
        return refusal(2, 0, 0);
    const struct values rows[] = {
        {31, channel->h.at, N, 1, h_MOST},
        {32, channel->e.at, N, -e_MOST, e_MOST},
        {33, channel->u.at, N, -u_MOST, u_MOST},
        {34, channel->V.at, N, -V_MOST, V_MOST},
        {35, Q, faces, -Q_MOST, Q_MOST},
        {35, Q + faces, faces, -Q_MOST, Q_MOST},
        {35, Q + 2 * faces, faces, -Q_MOST, Q_MOST},
        {36, F, N, -F_MOST, F_MOST},
        {36, F + N, N, -F_MOST, F_MOST},
        {36, F + 2 * N, N, -F_MOST, F_MOST},
        {38, channel->damping.at, N, 0, DAMPING_MOST},
        {37, s ? s->at : NULL, s ? N : 0, -s_MOST, s_MOST},
    };
    struct second_answer answer = values_refusal(rows, sizeof rows / sizeof *rows);
    k->T = (int64_t)channel->T;
    k->damping = channel->damping.at;
    return answer.number ? answer : water_refusal(k, channel);
}

/* Fills the ghosts of a row entered at its cell 0; sign is 1 or -1. */
static void mirror(int64_t *row, size_t N, int64_t sign)
{
    for (size_t g = 0; g < GHOST; g++) {
        *(row - 1 - g) = sign * row[g];
        row[N + g] = sign * row[N - 1 - g];
    }
}

/* The same with the sign changed, one ghost deep. */
static void mirror_float(double *row, size_t N)
{
    row[-1] = -row[0];
    row[N] = -row[N - 1];
}

/* M of every cell. The differences of u and 1000h·u and the product 1000h·A
   are whole and below 2^53, so exact as floats. */
static void dispersion(struct work *k)
{
    const double *u = k->float_u + GHOST - 1, *hu = k->hu + GHOST - 1;
    for (size_t j = 0; j < k->N; j++) {
        double A = u[j] - 2 * u[j + 1] + u[j + 2];
        double B = hu[j] - 2 * hu[j + 1] + hu[j + 2];
        double K = 154117 * (k->depth[j] * A) + 186000 * B;
        k->M[GHOST + j] = -((k->rr[j] * K) / 6000000);
    }
}

/* Rows that follow from e and u. The mirrored M and P make the flux through
   the far wall 0 by themselves. */
static void follow(struct work *k)
{
    mirror(k->e + GHOST, k->N, 1);
    mirror(k->u + GHOST, k->N, -1);
    mirror(k->P + GHOST, k->N, -1);
    mirror_float(k->float_u + GHOST, k->N);
    mirror_float(k->hu + GHOST, k->N);
    dispersion(k);
    mirror_float(k->M + GHOST, k->N);
}

static inline int64_t plain_part(const int64_t *P)
{
    return rounded_quotient(QUOTIENT_AT(PLAIN, 7 * (P[0] + P[1]) - P[-1] - P[2], 12), 12);
}

/* Q at face j; whether the dispersive part and the sum are in range. */
static inline bool flux(const struct work *k, size_t j, int64_t *Q)
{
    const double *M = k->M + GHOST + j;
    double dispersive = (M[0] + M[1]) / 2;
    if (!within(dispersive, Q_MOST))
        return false;
    *Q = plain_part(k->P + GHOST + j) +
         (int64_t)rounded(FLOAT_AT(DISPERSIVE, dispersive, k, j, k->u + GHOST));
    return whole_within(*Q, Q_MOST);
}

static inline int64_t D(const int64_t *f)
{
    return f[-2] - 8 * f[-1] + 8 * f[1] - f[2];
}

/* F, and what the damping takes from it, each rounded by itself. */
static inline int64_t acceleration(const struct work *k, size_t j, struct divisor by_12x)
{
    const int64_t *e = k->e + GHOST + j, *u = k->u + GHOST + j, damped = k->damping[j] * u[0];
    int64_t minus_F =
        quick_quotient(QUOTIENT_AT(MINUS_F, 9810000 * D(e) + u[0] * D(u), by_12x.d), by_12x);
    return -minus_F - rounded_quotient(QUOTIENT_AT(DAMPED, damped, PER_SECOND), PER_SECOND);
}

/* Q and F of the trial, from its e and u. */
static unsigned levels(struct work *k)
{
    const struct divisor by_12x = divisor(12 * k->x);
    follow(k);
    for (size_t j = 0; j < k->N; j++) {
        if (!flux(k, j, &k->Q[j]))
            return 9;
        k->F[j] = acceleration(k, j, by_12x);
    }
    return 0;
}

/* What a forward sweep hands from row to row. */
struct reduced {
    double ratio, side;
};

/* Pivot and ratio of row j. The first row's a and the last row's c are 0. */
static inline bool reduce(struct work *k, size_t j, struct reduced *before)
{
    double p = k->b[j] - k->a[j] * before->ratio;
    k->p[j] = p;
    k->ratio[j] = before->ratio = k->c[j] / p;
    return p > 0;
}

static inline void reduce_side(struct work *k, size_t j, struct reduced *before)
{
    double d = k->w * (double)k->V[j];
    k->side[j] = before->side = (d - k->a[j] * before->side) / k->p[j];
}

/* Puts u and the products with u into their rows. */
static inline void put_u(struct work *k, size_t j, double u)
{
    int64_t whole = (int64_t)u;
    k->u[GHOST + j] = whole;
    k->float_u[GHOST + j] = u;
    k->hu[GHOST + j] = k->depth[j] * u;
    k->P[GHOST + j] = k->H[j] * whole;
}

static unsigned backward(struct work *k, struct sums *sums)
{
    double u = 0;
    struct sums over = {0, 0};
    for (size_t j = k->N; j-- > 0;) {
        u = k->side[j] - k->ratio[j] * u;
        if (!within(u, u_MOST))
            return 7;
        double whole = rounded(FLOAT_AT(SOLVED_u, u, k, j, NULL));
        add_to(&over, whole, k->float_u[GHOST + j]);
        put_u(k, j, whole);
    }
    *sums = over;
    return 0;
}

/* What the cells of a stage were found to be. */
struct found {
    bool far_e, dry, far_V, pivotless;
};

/* Puts e and V of a trial into their rows. */
static inline void put_e_V(struct work *k, size_t j, int64_t e, int64_t V, struct found *found)
{
    int64_t H = k->bed[j] + e;
    k->e[GHOST + j] = e;
    k->V[j] = V;
    k->H[j] = H;
    found->far_e |= !whole_within(e, e_MOST);
    found->dry |= H < H_LEAST;
    found->far_V |= !whole_within(V, V_MOST);
}

static unsigned found_refusal(const struct found *found)
{
    return found->far_e ? 8 : found->dry ? 4 : found->far_V ? 7 : found->pivotless ? 6 : 0;
}

static inline int64_t weighted(const int64_t *weights, const int64_t *level, size_t len)
{
    return weights[0] * level[0] + weights[1] * level[len] + weights[2] * level[2 * len];
}

/* T times the weights of a channel's next step, which the steps accepted so far choose. */
static struct weights next_weights(const struct second_channel *channel, int64_t T)
{
    struct weights by = ladder[channel->accepted < RUNGS - 1 ? channel->accepted : RUNGS - 1];
    for (size_t i = 0; i < 3; i++)
        by.predictor[i] *= T;
    for (size_t i = 0; i < 4; i++)
        by.corrector[i] *= T;
    return by;
}

/* Stage 0: forward sweep of the prediction. Keeps what later stages start
   from. */
static unsigned predict(struct work *k, const struct second_channel *channel, const int64_t *s)
{
    const struct divisor by_W = divisor(1000 * k->x * PREDICTED), by_V = divisor(1000 * PREDICTED);
    const struct weights by = next_weights(channel, k->T);
    const int64_t *Q = channel->Q.at, *F = channel->F.at;
    const size_t N = k->N;
    struct found found = {0};
    struct reduced before = {0, 0};
    int64_t W_left = 0;
    k->start_Q[N - 1] = 0;
    for (size_t j = 0; j < N; j++) {
        int64_t W = 0;
        if (j + 1 < N) {
            int64_t n_W = weighted(by.predictor, Q + j, N - 1);
            W = quick_quotient(QUOTIENT_AT(PREDICTED_W, n_W, by_W.d), by_W);
            k->start_Q[j] = weighted(by.corrector + 1, Q + j, N - 1);
        }
        int64_t n_V = weighted(by.predictor, F + j, N);
        int64_t dV = quick_quotient(QUOTIENT_AT(PREDICTED_V, n_V, by_V.d), by_V);
        k->start_F[j] = weighted(by.corrector + 1, F + j, N);
        k->start_e[j] = channel->e.at[j] + s[j];
        put_e_V(k, j, k->start_e[j] + W_left - W, channel->V.at[j] + dV, &found);
        found.pivotless |= !reduce(k, j, &before);
        reduce_side(k, j, &before);
        W_left = W;
    }
    return found_refusal(&found);
}

/* Stages 1 to 10: forward sweep of a correction. */
static unsigned correct(struct work *k, const struct second_channel *channel, struct sums *sums)
{
    const struct divisor by_W = divisor(1000 * k->x * CORRECTED), by_V = divisor(1000 * CORRECTED);
    const int64_t trial = next_weights(channel, k->T).corrector[0];
    struct found found = {0};
    struct reduced before = {0, 0};
    struct sums over = {0, 0};
    int64_t W_left = 0;
    for (size_t j = 0; j < k->N; j++) {
        int64_t n_W = trial * k->Q[j] + k->start_Q[j];
        int64_t W = quick_quotient(QUOTIENT_AT(CORRECTED_W, n_W, by_W.d), by_W);
        int64_t n_V = trial * k->F[j] + k->start_F[j];
        int64_t dV = quick_quotient(QUOTIENT_AT(CORRECTED_V, n_V, by_V.d), by_V);
        int64_t e = k->start_e[j] + W_left - W;
        add_to(&over, (double)e, (double)k->e[GHOST + j]);
        put_e_V(k, j, e, channel->V.at[j] + dV, &found);
        reduce_side(k, j, &before);
        W_left = W;
    }
    *sums = over;
    return found_refusal(&found);
}

static bool small(struct sums sums, size_t N)
{
    return 1000 * sums.change <= sums.size + (double)(1000 * N);
}

static void put_trial(const struct work *k, struct second_channel *channel)
{
    size_t bytes = k->N * sizeof(int64_t);
    memcpy(channel->e.at, k->e + GHOST, bytes);
    memcpy(channel->u.at, k->u + GHOST, bytes);
    memcpy(channel->V.at, k->V, bytes);
    memcpy(channel->Q.at, k->Q, bytes - sizeof(int64_t));
    memcpy(channel->F.at, k->F, bytes);
}

/* The newest and middle of a row's three levels become middle and oldest. */
static void move_down(int64_t *row, size_t len)
{
    memmove(row + len, row, 2 * len * sizeof *row);
}

static struct second_answer accept(const struct work *k, struct second_channel *channel,
                                   unsigned corrections)
{
    move_down(channel->Q.at, k->N - 1);
    move_down(channel->F.at, k->N);
    put_trial(k, channel);
    channel->accepted++;
    return acceptance(corrections);
}

/* The refusal of a stage; of 4 the trial's H tells the lowest cell. */
static struct second_answer stage_refusal(const struct work *k, unsigned number, unsigned stage)
{
    return refusal(number, stage, number == 4 ? lowest(k->H, k->N, H_LEAST, H_MOST) : 0);
}

/* The stages of a step whose input is allowed. */
static struct second_answer stages(struct work *k, struct second_channel *channel,
                                   const int64_t *s)
{
    struct sums e = {0, 0}, u = {0, 0};
    memset(k->float_u, 0, sizeof k->float_u);
    for (unsigned stage = 0;; stage++) {
        unsigned number = stage == 0 ? predict(k, channel, s) : correct(k, channel, &e);
        if (!number)
            number = backward(k, &u);
        if (!number)
            number = levels(k);
        if (number)
            return stage_refusal(k, number, stage);
        if (stage > 0 && small(e, k->N) && small(u, k->N))
            return accept(k, channel, stage);
        if (stage == CORRECTIONS)
            return refusal(10, stage, 0);
    }
}

static bool complete(const struct second_channel *channel)
{
    return channel->accepted == channel->wanted;
}

/* The input of a step or a filter pass, with 11 for a complete channel. */
static struct second_answer open_refusal(struct work *k, const struct second_channel *channel,
                                         const struct second_read_row *s)
{
    struct second_answer answer = input_refusal(k, channel, s);
    return !answer.number && complete(channel) ? refusal(11, 0, 0) : answer;
}

struct second_answer second_step(struct second_channel *channel, struct second_read_row s)
{
    struct work k;
    struct second_answer answer = open_refusal(&k, channel, &s);
    return answer.number ? answer : stages(&k, channel, s.at);
}

struct second_answer second_run(struct second_channel *channel)
{
    static const int64_t nothing[CELLS];
    struct work k;
    struct second_answer answer = input_refusal(&k, channel, NULL);
    uint64_t count = 0;
    if (answer.number)
        return answer;
    while (!complete(channel)) {
        answer = stages(&k, channel, nothing);
        if (answer.number)
            break;
        count++;
    }
    answer.count = count;
    return answer;
}

/* V of row j in make, the dropped coefficients' terms left out. */
static double reduced_velocity(const struct work *k, const int64_t *u, size_t j)
{
    double sum = k->b[j] * (double)u[j];
    if (j > 0)
        sum = k->a[j] * (double)u[j - 1] + sum;
    if (j + 1 < k->N)
        sum = sum + k->c[j] * (double)u[j + 1];
    return sum / k->w;
}

static bool make_V(struct work *k, const int64_t *u)
{
    for (size_t j = 0; j < k->N; j++) {
        double V = reduced_velocity(k, u, j);
        if (!within(V, V_MOST))
            return false;
        k->V[j] = (int64_t)rounded(FLOAT_AT(MADE_V, V, k, j, u));
    }
    return true;
}

static struct second_answer make_input_refusal(struct work *k, const struct second_channel *channel)
{
    size_t N = (size_t)channel->N;
    if (!lengths_allowed(channel))
        return refusal(1, 0, 0);
    if (!counts_allowed(channel->X, channel->T, 0, channel->wanted))
        return refusal(2, 0, 0);
    const struct values rows[] = {
        {31, channel->h.at, N, 1, h_MOST},
        {32, channel->e.at, N, -e_MOST, e_MOST},
        {33, channel->u.at, N, -u_MOST, u_MOST},
        {38, channel->damping.at, N, 0, DAMPING_MOST},
    };
    struct second_answer answer = values_refusal(rows, sizeof rows / sizeof *rows);
    k->damping = channel->damping.at;
    return answer.number ? answer : water_refusal(k, channel);
}

/* The newest level fills all three. */
static void fill_levels(const struct work *k, struct second_channel *channel)
{
    for (size_t level = 0; level < 3; level++) {
        memcpy(channel->Q.at + level * (k->N - 1), k->Q, (k->N - 1) * sizeof *k->Q);
        memcpy(channel->F.at + level * k->N, k->F, k->N * sizeof *k->F);
    }
}

struct second_answer second_make(struct second_channel *channel)
{
    struct work k;
    struct second_answer answer = make_input_refusal(&k, channel);
    unsigned number;
    if (answer.number)
        return answer;
    if (!make_V(&k, channel->u.at))
        return refusal(7, 0, 0);
    memcpy(k.e + GHOST, channel->e.at, k.N * sizeof *k.e);
    for (size_t j = 0; j < k.N; j++)
        put_u(&k, j, (double)channel->u.at[j]);
    number = levels(&k);
    if (number)
        return refusal(number, 0, 0);
    put_trial(&k, channel);
    fill_levels(&k, channel);
    channel->accepted = 0;
    return acceptance(0);
}

/* G at a face, from the row entered at the cell left of it. */
static int64_t G(const int64_t *e)
{
    int64_t sum = 0;
    for (ptrdiff_t i = 0; i < 8; i++)
        sum += face_filter[i] * e[i - 3];
    return rounded_quotient(QUOTIENT_AT(FILTERED_G, sum, 256), 256);
}

static int64_t filtered_V(const int64_t *V)
{
    int64_t sum = cell_filter[0] * V[0];
    for (ptrdiff_t i = 1; i < 5; i++)
        sum += cell_filter[i] * (V[-i] + V[i]);
    return rounded_quotient(QUOTIENT_AT(FILTERED_V, sum, 256), 256);
}

/* The forward sweep for the channel's e and V, filtered. */
static unsigned filter_sweep(struct work *k, const struct second_channel *channel)
{
    int64_t e[ROW], V[ROW], G_left = 0;
    const size_t N = k->N;
    struct found found = {0};
    struct reduced before = {0, 0};
    memcpy(e + GHOST, channel->e.at, N * sizeof *e);
    memcpy(V + GHOST, channel->V.at, N * sizeof *V);
    mirror(e + GHOST, N, 1);
    mirror(V + GHOST, N, -1);
    for (size_t j = 0; j < N; j++) {
        int64_t G_right = j + 1 < N ? G(e + GHOST + j) : 0;
        put_e_V(k, j, e[GHOST + j] - G_right + G_left, filtered_V(V + GHOST + j), &found);
        found.pivotless |= !reduce(k, j, &before);
        reduce_side(k, j, &before);
        G_left = G_right;
    }
    return found_refusal(&found);
}

struct second_answer second_filter(struct second_channel *channel)
{
    struct work k;
    struct sums unused;
    struct second_answer answer = open_refusal(&k, channel, NULL);
    unsigned number;
    if (answer.number)
        return answer;
    memset(k.float_u, 0, sizeof k.float_u);
    number = filter_sweep(&k, channel);
    if (!number)
        number = backward(&k, &unused);
    if (!number)
        number = levels(&k);
    if (number)
        return stage_refusal(&k, number, 0);
    put_trial(&k, channel);
    return acceptance(0);
}

static uint64_t file_length(uint64_t N)
{
    return 28 + 68 * N;
}

/* The numbers of a channel file, in rows long enough for any. */
struct file {
    int64_t h[CELLS], e[CELLS], u[CELLS], V[CELLS], Q[3 * (CELLS - 1)], F[3 * CELLS];
    int64_t damping[CELLS];
};

/* The channel whose rows are those of a file of N cells. */
static struct second_channel file_channel(struct file *file, size_t N)
{
    return (struct second_channel){
        .N = N,
        .h = {file->h, N},
        .e = {file->e, N},
        .u = {file->u, N},
        .V = {file->V, N},
        .Q = {file->Q, 3 * (N - 1)},
        .F = {file->F, 3 * N},
        .damping = {file->damping, N},
    };
}

static uint32_t count_at(const uint8_t *b)
{
    return (uint32_t)b[0] | (uint32_t)b[1] << 8 | (uint32_t)b[2] << 16 | (uint32_t)b[3] << 24;
}

/* Two's complement of 4 and of 8 bytes. */
static int64_t short_at(const uint8_t *b)
{
    int64_t n = count_at(b);
    return n < INT64_C(0x80000000) ? n : n - INT64_C(0x100000000);
}

static int64_t long_at(const uint8_t *b)
{
    return (int64_t)count_at(b) + short_at(b + 4) * INT64_C(0x100000000);
}

static const uint8_t *take_shorts(const uint8_t *b, struct second_row row)
{
    for (size_t j = 0; j < row.len; j++)
        row.at[j] = short_at(b + 4 * j);
    return b + 4 * row.len;
}

static const uint8_t *take_longs(const uint8_t *b, struct second_row row)
{
    for (size_t j = 0; j < row.len; j++)
        row.at[j] = long_at(b + 8 * j);
    return b + 8 * row.len;
}

static bool offsets_allowed(const uint8_t *bytes, uint32_t N)
{
    return count_at(bytes + 24) == 52 && count_at(bytes + 28) == 52 + 4 * N &&
           count_at(bytes + 32) == 52 + 8 * N && count_at(bytes + 36) == 52 + 12 * N &&
           count_at(bytes + 40) == 52 + 16 * N && count_at(bytes + 44) == 28 + 40 * N &&
           count_at(bytes + 48) == 28 + 64 * N;
}

/* Reads a file whose length and offsets are allowed. */
static struct second_channel take_file(const uint8_t *bytes, size_t N, struct file *file)
{
    struct second_channel channel = file_channel(file, N);
    const uint8_t *b = bytes + 52;
    channel.X = count_at(bytes + 8);
    channel.T = count_at(bytes + 12);
    channel.accepted = count_at(bytes + 16);
    channel.wanted = count_at(bytes + 20);
    b = take_shorts(b, channel.h);
    b = take_shorts(b, channel.e);
    b = take_shorts(b, channel.u);
    b = take_shorts(b, channel.V);
    b = take_longs(b, channel.Q);
    b = take_longs(b, channel.F);
    take_shorts(b, channel.damping);
    return channel;
}

/* The reader's checks in their order, filling file and taken; the rows lent,
   if there are any, must fit the file's N. */
static struct second_answer file_refusal(const uint8_t *bytes, size_t len,
                                         const struct second_channel *lent, struct file *file,
                                         struct second_channel *taken)
{
    struct work k;
    uint32_t N;
    if (len < 48) /* whatever the edition */
        return refusal(12, 0, 0);
    if (count_at(bytes) != 2)
        return refusal(13, 0, 0);
    N = count_at(bytes + 4);
    if (N < 8 || N > CELLS)
        return refusal(1, 0, 0);
    if (lent) {
        struct second_channel fit = *lent;
        fit.N = N;
        if (!lengths_allowed(&fit))
            return refusal(1, 0, 0);
    }
    if (len != file_length(N))
        return refusal(12, 0, 0);
    if (!offsets_allowed(bytes, N))
        return refusal(14, 0, 0);
    *taken = take_file(bytes, N, file);
    return input_refusal(&k, taken, NULL);
}

static void copy_row(struct second_row to, struct second_row from)
{
    memcpy(to.at, from.at, from.len * sizeof *from.at);
}

struct second_answer second_read(const uint8_t *bytes, size_t len, struct second_channel *channel)
{
    struct file file;
    struct second_channel taken;
    struct second_answer answer = file_refusal(bytes, len, channel, &file, &taken);
    if (answer.number)
        return answer;
    channel->N = taken.N;
    channel->X = taken.X;
    channel->T = taken.T;
    channel->accepted = taken.accepted;
    channel->wanted = taken.wanted;
    copy_row(channel->h, taken.h);
    copy_row(channel->e, taken.e);
    copy_row(channel->u, taken.u);
    copy_row(channel->V, taken.V);
    copy_row(channel->Q, taken.Q);
    copy_row(channel->F, taken.F);
    copy_row(channel->damping, taken.damping);
    return acceptance(0);
}

/* The lowest bytes of n, least first. */
static uint8_t *put(uint8_t *b, uint64_t n, unsigned bytes)
{
    for (unsigned i = 0; i < bytes; i++)
        b[i] = (uint8_t)(n >> 8 * i);
    return b + bytes;
}

static uint8_t *put_row(uint8_t *b, struct second_row row, unsigned bytes)
{
    for (size_t j = 0; j < row.len; j++)
        b = put(b, (uint64_t)row.at[j], bytes);
    return b;
}

static uint8_t *put_counts(uint8_t *b, const struct second_channel *channel)
{
    uint64_t N = channel->N;
    const uint64_t counts[13] = {2, N, channel->X, channel->T, channel->accepted,
                                 channel->wanted, 52, 52 + 4 * N, 52 + 8 * N, 52 + 12 * N,
                                 52 + 16 * N, 28 + 40 * N, 28 + 64 * N};
    for (size_t i = 0; i < 13; i++)
        b = put(b, counts[i], 4);
    return b;
}

struct second_answer second_write(const struct second_channel *channel, uint8_t *bytes, size_t len)
{
    struct work k;
    struct second_answer answer = input_refusal(&k, channel, NULL);
    if (!answer.number && len != file_length(channel->N))
        answer = refusal(15, 0, 0);
    if (answer.number)
        return answer;
    bytes = put_counts(bytes, channel);
    bytes = put_row(bytes, channel->h, 4);
    bytes = put_row(bytes, channel->e, 4);
    bytes = put_row(bytes, channel->u, 4);
    bytes = put_row(bytes, channel->V, 4);
    bytes = put_row(bytes, channel->Q, 8);
    bytes = put_row(bytes, channel->F, 8);
    put_row(bytes, channel->damping, 4);
    return acceptance(0);
}

struct second_answer second_print(const uint8_t *bytes, size_t len, char text[SECOND_LINE])
{
    struct file file;
    struct second_channel taken;
    int64_t sum = 0;
    struct second_answer answer = file_refusal(bytes, len, NULL, &file, &taken);
    if (answer.number) {
        snprintf(text, SECOND_LINE, "refused %u\n", answer.number);
        return answer;
    }
    for (size_t j = 0; j < taken.N; j++)
        sum += taken.e.at[j];
    snprintf(text, SECOND_LINE, "%" PRIu64 " %" PRIu64 " %" PRIu64 " %s %" PRId64 "\n", taken.N,
             taken.accepted, taken.wanted, complete(&taken) ? "done" : "open", sum);
    return answer;
}

/* The first crossing of a record at or after a place in it; its length if
   there is none. */
static size_t crossing_from(struct second_read_row record, size_t i)
{
    for (i = i > 1 ? i : 1; i < record.len; i++)
        if (record.at[i] >= 0 && record.at[i - 1] < 0)
            return i;
    return record.len;
}

/* The highest of the heights from one place up to another, less the lowest. */
static int64_t span(const int64_t *from, const int64_t *to)
{
    int64_t high = *from, low = *from;
    for (; from < to; from++) {
        high = *from > high ? *from : high;
        low = *from < low ? *from : low;
    }
    return high - low;
}

struct second_waves second_waves(struct second_read_row record)
{
    struct second_waves found = {0};
    size_t start = crossing_from(record, 0), end;
    for (; start < record.len; start = end) {
        found.crossings++;
        end = crossing_from(record, start + 1);
        if (end < record.len) {
            int64_t height = span(record.at + start, record.at + end);
            found.waves++;
            found.sum += height;
            found.largest = height > found.largest ? height : found.largest;
        }
    }
    return found;
}

/* A gauge's numbers, in the order of their bytes. */
enum { CELL, FED, LAST, CROSSINGS, HIGHEST, LOWEST, LARGEST, SUM, GAUGE };

/* The gauges of a state. */
struct gauges {
    int64_t at[SECOND_GAUGES][GAUGE];
};

static bool no_gauge(const int64_t *g)
{
    return row_within(g, GAUGE, 0, 0);
}

static int64_t complete_waves(const int64_t *g)
{
    return g[CROSSINGS] > 0 ? g[CROSSINGS] - 1 : 0;
}

/* Each number by itself, so that none overflows; then those that depend on
   others. Every crossing took a height below zero before it. */
static bool gauge_allowed(const int64_t *g)
{
    static const int64_t low[GAUGE] = {1, 0, e_LEAST, 0, e_LEAST, e_LEAST, 0, 0};
    static const int64_t high[GAUGE] = {CELLS,  RECORD_MOST, e_MOST,    RECORD_MOST,
                                        e_MOST, e_MOST,      WAVE_MOST, WAVE_MOST * RECORD_MOST};
    for (size_t i = 0; i < GAUGE; i++)
        if (g[i] < low[i] || g[i] > high[i])
            return false;
    return g[LOWEST] <= g[HIGHEST] && 2 * g[CROSSINGS] + (g[LAST] < 0) <= g[FED] &&
           g[LARGEST] <= g[SUM] && g[SUM] <= WAVE_MOST * complete_waves(g);
}

/* Reads a state: 12, 14, or 0 if it is one. */
static unsigned take_gauges(const uint8_t *state, size_t len, struct gauges *gauges)
{
    if (len != SECOND_STATE)
        return 12;
    for (size_t i = 0; i < SECOND_GAUGES; i++, state += 8 * GAUGE) {
        int64_t *g = gauges->at[i];
        take_longs(state, (struct second_row){g, GAUGE});
        if (!no_gauge(g) && !gauge_allowed(g))
            return 14;
    }
    return 0;
}

/* The channel's own refusal, then the state's. */
static struct second_answer gauges_refusal(const struct second_channel *channel,
                                           const uint8_t *state, size_t len,
                                           struct gauges *gauges)
{
    struct work k;
    struct second_answer answer = input_refusal(&k, channel, NULL);
    return answer.number ? answer : refusal(take_gauges(state, len, gauges), 0, 0);
}

struct second_answer second_place_gauge(const struct second_channel *channel, uint8_t *state,
                                        size_t len, uint64_t cell)
{
    struct gauges gauges;
    size_t i = 0;
    struct second_answer answer = gauges_refusal(channel, state, len, &gauges);
    if (answer.number)
        return answer;
    while (i < SECOND_GAUGES && !no_gauge(gauges.at[i]))
        i++;
    if (i == SECOND_GAUGES)
        return refusal(20, 0, 0);
    if (cell < 1 || cell > channel->N)
        return refusal(21, 0, 0);
    put(state + 8 * (GAUGE * i + CELL), cell, 8);
    return acceptance(i + 1);
}

/* A gauge fed one more height: each number after it, by those before it. */
static void feed(int64_t *g, int64_t e)
{
    bool crossing = g[LAST] < 0 && e >= 0, open = g[CROSSINGS] > 0;
    int64_t height = crossing && open ? g[HIGHEST] - g[LOWEST] : 0; /* of the wave that ends */
    const int64_t after[GAUGE] = {
        [CELL] = g[CELL],
        [FED] = g[FED] + 1,
        [LAST] = e,
        [CROSSINGS] = g[CROSSINGS] + crossing,
        [HIGHEST] = crossing || (open && e > g[HIGHEST]) ? e : g[HIGHEST],
        [LOWEST] = crossing || (open && e < g[LOWEST]) ? e : g[LOWEST],
        [LARGEST] = height > g[LARGEST] ? height : g[LARGEST],
        [SUM] = g[SUM] + height,
    };
    memcpy(g, after, sizeof after);
}

struct second_answer second_feed_gauges(const struct second_channel *channel, uint8_t *state,
                                        size_t len)
{
    struct gauges gauges;
    struct second_answer answer = gauges_refusal(channel, state, len, &gauges);
    if (answer.number)
        return answer;
    for (size_t i = 0; i < SECOND_GAUGES; i++)
        if (gauges.at[i][CELL] > (int64_t)channel->N)
            return refusal(21, 0, 0);
    for (size_t i = 0; i < SECOND_GAUGES; i++)
        if (gauges.at[i][FED] == RECORD_MOST)
            return refusal(30, 0, 0);
    for (size_t i = 0; i < SECOND_GAUGES; i++)
        if (!no_gauge(gauges.at[i]))
            feed(gauges.at[i], channel->e.at[gauges.at[i][CELL] - 1]);
    put_row(state, (struct second_row){gauges.at[0], SECOND_GAUGES * GAUGE}, 8);
    return acceptance(0);
}

struct second_answer second_read_gauges(const uint8_t *state, size_t len,
                                        struct second_row readings)
{
    struct gauges gauges;
    unsigned number = take_gauges(state, len, &gauges);
    if (!number && readings.len != SECOND_READINGS)
        number = 15;
    if (number)
        return refusal(number, 0, 0);
    for (size_t i = 0; i < SECOND_GAUGES; i++) {
        const int64_t *g = gauges.at[i];
        const int64_t told[6] = {g[CELL],           g[FED],     g[CROSSINGS],
                                 complete_waves(g), g[LARGEST], g[SUM]};
        memcpy(readings.at + 6 * i, told, sizeof told);
    }
    return acceptance(0);
}
