/* Tests of the second program, against the marked cases of the rule and its
   bounds. The inner functions are reached by taking in the source itself. */
#include "second.c"

static unsigned passed, failed;

static void check(bool good, const char *what)
{
    if (good) {
        passed++;
    } else {
        failed++;
        printf("failed: %s\n", what);
    }
}

static void check_number(int64_t got, int64_t due, const char *what)
{
    check(got == due, what);
    if (got != due)
        printf("  got %" PRId64 ", due %" PRId64 "\n", got, due);
}

static void check_answer(struct second_answer got, unsigned number, unsigned stage, unsigned place,
                         uint64_t count, const char *what)
{
    bool good = got.number == number && got.stage == stage && got.place == place &&
                got.count == count;
    check(good, what);
    if (!good)
        printf("  got %u %u %u %" PRIu64 ", due %u %u %u %" PRIu64 "\n", got.number, got.stage,
               got.place, got.count, number, stage, place, count);
}

/* An acceptance that counts so many corrections or steps. */
static void check_accepted(struct second_answer got, uint64_t count, const char *what)
{
    check_answer(got, 0, 0, 0, count, what);
}

static void check_row(const int64_t *got, const int64_t *due, size_t len, const char *what)
{
    check(memcmp(got, due, len * sizeof *got) == 0, what);
}

/* A channel with rows of its own, each between guards that nobody may touch. */
enum { GUARD = 4 };
struct rig {
    struct second_channel c;
    struct second_read_row s;
    int64_t rows[8][3 * CELLS + 2 * GUARD];
};

/* In the order in which their values are asked. */
enum { h_ROW, e_ROW, u_ROW, V_ROW, Q_ROW, F_ROW, damping_ROW, s_ROW };

/* Still water 1 m deep. */
static void still(struct rig *rig, size_t N)
{
    memset(rig, 0x5a, sizeof *rig);
    for (int i = 0; i < 8; i++)
        memset(rig->rows[i] + GUARD, 0, 3 * CELLS * sizeof(int64_t));
    for (size_t j = 0; j < N; j++)
        rig->rows[h_ROW][GUARD + j] = 1000;
    rig->c.N = N;
    rig->c.X = 1000;
    rig->c.T = 20;
    rig->c.accepted = 0;
    rig->c.wanted = 10;
    rig->c.h = (struct second_row){rig->rows[h_ROW] + GUARD, N};
    rig->c.e = (struct second_row){rig->rows[e_ROW] + GUARD, N};
    rig->c.u = (struct second_row){rig->rows[u_ROW] + GUARD, N};
    rig->c.V = (struct second_row){rig->rows[V_ROW] + GUARD, N};
    rig->c.Q = (struct second_row){rig->rows[Q_ROW] + GUARD, 3 * (N - 1)};
    rig->c.F = (struct second_row){rig->rows[F_ROW] + GUARD, 3 * N};
    rig->c.damping = (struct second_row){rig->rows[damping_ROW] + GUARD, N};
    rig->s = (struct second_read_row){rig->rows[s_ROW] + GUARD, N};
}

static struct second_row row_of(const struct rig *rig, int i)
{
    const struct second_row rows[8] = {
        rig->c.h, rig->c.e, rig->c.u,       rig->c.V,
        rig->c.Q, rig->c.F, rig->c.damping, {(int64_t *)rig->s.at, rig->s.len}};
    return rows[i];
}

static void depths(struct rig *rig, int64_t h)
{
    for (size_t j = 0; j < rig->c.N; j++)
        rig->c.h.at[j] = h;
}

/* One damping in every cell. */
static void damp(struct rig *rig, int64_t damping)
{
    for (size_t j = 0; j < rig->c.N; j++)
        rig->c.damping.at[j] = damping;
}

enum call { MAKE, STEP, FILTER, RUN, WRITE };

static struct second_answer call(struct rig *rig, enum call which)
{
    static uint8_t none[1];
    switch (which) {
    case MAKE:
        return second_make(&rig->c);
    case STEP:
        return second_step(&rig->c, rig->s);
    case FILTER:
        return second_filter(&rig->c);
    case RUN:
        return second_run(&rig->c);
    default:
        return second_write(&rig->c, none, 0);
    }
}

/* A call that must be refused so and leave everything as it was. */
static void refused(struct rig *rig, enum call which, unsigned number, unsigned stage,
                    unsigned place, const char *what)
{
    static struct rig before;
    memcpy(&before, rig, sizeof before);
    check_answer(call(rig, which), number, stage, place, 0, what);
    check(memcmp(&before, rig, sizeof before) == 0, "a refused call changes nothing");
}

/* The answer of the input checks: 15 when all let the channel through. */
static unsigned input_number(struct rig *rig)
{
    return call(rig, WRITE).number;
}

static void case_1_rounding(void)
{
    static const double halves[] = {0.5, 1.5, 2.5, 3.5, -0.5, -1.5, -2.5, -3.5};
    static const int64_t even[] = {0, 2, 2, 4, 0, -2, -2, -4};
    check(rounded(0.5) == 0 && rounded(-0.5) == 0 && rounded(1.2) == 1 && rounded(1.5) == 2,
          "case 1");
    for (size_t i = 0; i < sizeof halves / sizeof *halves; i++) {
        check(rounded(halves[i]) == (double)even[i], "a half goes to the even number");
        check(rounded(halves[i] * (1 - 0x1p-53)) == halves[i] - copysign(0.5, halves[i]),
              "just below a half");
        check(rounded(halves[i] * (1 + 0x1p-52)) == halves[i] + copysign(0.5, halves[i]),
              "just above a half");
    }
    check(rounded(0.49999999999999994) == 0 && rounded(-0.49999999999999994) == 0,
          "adding a half in floats would give 1");
    check(rounded(-0.75) == -1 && rounded(1.25) == 1, "quarters");
    check(rounded(999999999999999.5) == 1e15 && rounded(999999999999998.5) == 999999999999998 &&
              rounded(-999999999999999.5) == -1e15 &&
              rounded(-999999999999998.5) == -999999999999998,
          "halves near 10^15");
    check(rounded(1e15) == 1e15 && rounded(-1e15) == -1e15 && rounded(-0.0) == 0,
          "whole numbers stay");
    check(rounded_quotient(5, 10) == 0 && rounded_quotient(-5, 10) == 0 &&
              rounded_quotient(12, 10) == 1 && rounded_quotient(15, 10) == 2,
          "case 1 of quotients");
    check(rounded_quotient(4, 10) == 0 && rounded_quotient(6, 10) == 1 &&
              rounded_quotient(-4, 10) == 0 && rounded_quotient(-6, 10) == -1 &&
              rounded_quotient(14, 10) == 1 && rounded_quotient(-16, 10) == -2,
          "quotients beside a half");
}

/* Whether q is n / d, nearest, a half going to the even number: by what is left of n. */
static bool is_rounded(int64_t q, int64_t n, int64_t d)
{
    int64_t rest = size_of(n - q * d);
    return rest < d - rest || (rest == d - rest && q % 2 == 0);
}

/* Small numerators over every divisor that has no width of cells in it, and over one that has. */
static void quotients(void)
{
    static const int64_t divisors[] = {2, 10, 12, 256, 12000, 24000, 120000};
    for (size_t i = 0; i < sizeof divisors / sizeof *divisors; i++) {
        int64_t d = divisors[i], wrong = 0, halves[2][2] = {{0}};
        for (int64_t n = -4 * d; n <= 4 * d; n++) {
            wrong += !is_rounded(rounded_quotient(n, d), n, d);
            wrong += rounded_quotient(-n, d) != -rounded_quotient(n, d);
            if (size_of(n % d) == d / 2)
                halves[n < 0][n / d % 2 != 0]++;
        }
        check_number(wrong, 0, "plain quotients");
        check(halves[0][0] == 2 && halves[0][1] == 2 && halves[1][0] == 2 && halves[1][1] == 2,
              "halves of both signs, between an even number and an odd one");
    }
}

/* The quick quotient against the plain one, about halves above all, and both against what is left
   of the numerator. */
static void quick_quotients(void)
{
    static const int64_t divisors[] = {120000,        60000000,      12000,        24000,
                                       120000000,     240000000,     60000000000,  120000000000,
                                       204000000,     119976000000};
    uint64_t seed = 1;
    unsigned wrong = 0, halves[2][2] = {{0}};
    for (size_t i = 0; i < sizeof divisors / sizeof *divisors; i++) {
        int64_t d = divisors[i], most = INT64_C(4400000000000000000);
        if (most / d > INT64_C(90000000000))
            most = d * INT64_C(90000000000);
        for (int t = 0; t < 20000; t++) {
            seed = seed * UINT64_C(6364136223846793005) + UINT64_C(1442695040888963407);
            int64_t near = (int64_t)(seed >> 1) % most / d * d + d / 2 + (int64_t)(seed >> 60) - 8;
            int64_t n = t % 4 < 2 ? near : (int64_t)(seed >> 1) % most;
            n = t % 2 ? -n : n;
            wrong += quick_quotient(n, divisor(d)) != rounded_quotient(n, d);
            wrong += !is_rounded(rounded_quotient(n, d), n, d);
            if (size_of(n % d) == d / 2)
                halves[n < 0][n / d % 2 != 0]++;
        }
    }
    check_number(wrong, 0, "quick quotients");
    check(halves[0][0] > 1000 && halves[0][1] > 1000 && halves[1][0] > 1000 && halves[1][1] > 1000,
          "halves among them");
}

static void case_2_D(void)
{
    int64_t e[8];
    for (int64_t j = 0; j < 8; j++)
        e[j] = j * j * j * j;
    check_number(D(e + 3), 1296, "case 2");
}

static void case_3_acceleration(void)
{
    struct rig rig;
    bool good = true;
    still(&rig, 12);
    for (int64_t j = 0; j < 12; j++)
        rig.c.e.at[j] = 12 * (j + 1);
    check_accepted(call(&rig, MAKE), 0, "case 3 is made");
    for (size_t j = 2; j < 10; j++)
        good &= rig.c.F.at[j] == -118;
    check(good, "case 3");
    check_number(rig.c.F.at[0], -69, "case 3, at the wall");
}

/* Work rows for the channel's h and X with the given e and u. */
static void trial(struct work *k, const struct rig *rig)
{
    check_accepted(make_input_refusal(k, &rig->c), 0, "a trial's input");
    k->T = (int64_t)rig->c.T;
    for (size_t j = 0; j < k->N; j++) {
        k->e[GHOST + j] = rig->c.e.at[j];
        k->H[j] = k->bed[j] + rig->c.e.at[j];
        put_u(k, j, (double)rig->c.u.at[j]);
    }
    follow(k);
}

static void case_4_plain_part(void)
{
    static struct work k;
    struct rig rig;
    still(&rig, 8);
    for (size_t j = 0; j < 8; j++)
        rig.c.u.at[j] = 12;
    trial(&k, &rig);
    check_number(plain_part(k.P + GHOST), 14000000, "case 4, cells 1 and 2");
    check_number(plain_part(k.P + GHOST + 1), 12000000, "case 4, cells 2 and 3");
    check_number(plain_part(k.P + GHOST + 7), 0, "the far wall's plain part");
    check_number(plain_part(k.P + GHOST - 1), 0, "the near wall's plain part");
    check(k.M[GHOST + 7] + k.M[GHOST + 8] == 0, "the far wall's dispersive part");
}

/* e of a trial that W = 1 through every inner face has moved. */
static void moved_by_1(const struct work *k, const char *what)
{
    static const int64_t due[8] = {-1, 0, 0, 0, 0, 0, 0, 1};
    check_row(k->e + GHOST, due, 8, what);
}

/* A slope of 12 um a cell with u 1 and with u 3: 0.5 goes to 0 and 1.5 to 2. */
static void damped_slopes(void)
{
    for (int64_t u = -3; u <= 3; u += 2) {
        const int64_t due = -118 - (u == 3 ? 2 : u == -3 ? -2 : 0);
        struct rig rig;
        bool good = true;
        still(&rig, 8);
        for (int64_t j = 0; j < 8; j++) {
            rig.c.e.at[j] = 12 * (j + 1);
            rig.c.u.at[j] = u;
        }
        damp(&rig, 500);
        check_accepted(call(&rig, MAKE), 0, "a damped slope is made");
        for (size_t j = 2; j < 6; j++)
            for (size_t level = 0; level < 3; level++)
                good &= rig.c.F.at[8 * level + j] == due;
        check(good, "a damped slope");
    }
}

/* F of cell 4 is 6.54 and damping takes 0.45 from it; rounded at once it would be 6. */
static void rounded_apart(void)
{
    for (int64_t sign = -1; sign <= 1; sign += 2) {
        struct rig rig;
        still(&rig, 8);
        rig.c.e.at[2] = sign;
        rig.c.u.at[3] = sign * 3;
        damp(&rig, 150);
        check_accepted(call(&rig, MAKE), 0, "6.54 and 0.45 are made");
        check_number(rig.c.F.at[3], sign * 7, "6.54 less 0.45, rounded apart");
    }
}

/* Shallow still water of 8 wide cells, made with these velocities and one damping. */
static bool made_with(struct rig *rig, const int64_t *u, int64_t damping)
{
    still(rig, 8);
    depths(rig, 1);
    rig->c.X = 5000;
    memcpy(rig->c.u.at, u, 8 * sizeof *u);
    damp(rig, damping);
    return call(rig, MAKE).number == 0;
}

/* What dampings take from F, by what is left of the product with u: halves, what lies beside them,
   and products beyond 32 bits. */
static void damped_quotients(void)
{
    static const int64_t dampings[] = {0,    1,    2,    20,   100,  499,  500,  501,  999,
                                       1000, 1001, 1500, 2500, 4999, 5000, 9500, 9999, 10000};
    static const int64_t most[] = {10, 1000, 100000, u_MOST};
    int64_t wrong = 0, wide = 0, halves[2][2] = {{0}};
    uint64_t seed = 3;
    for (size_t i = 0; i < sizeof dampings / sizeof *dampings; i++)
        for (size_t round = 0; round < 400; round++) {
            int64_t u[8], top = most[round % 4];
            struct rig plain, damped;
            for (size_t j = 0; j < 8; j++) {
                seed = seed * UINT64_C(6364136223846793005) + UINT64_C(1442695040888963407);
                u[j] = (int64_t)(seed >> 20) % (2 * top + 1) - top;
            }
            u[0] = round % 8 < 4 ? top : -top;
            wrong += !made_with(&plain, u, 0) || !made_with(&damped, u, dampings[i]);
            for (size_t j = 0; j < 8; j++) {
                int64_t n = dampings[i] * u[j];
                wrong += !is_rounded(plain.c.F.at[j] - damped.c.F.at[j], n, 1000);
                wide += size_of(n) > UINT32_MAX;
                if (size_of(n % 1000) == 500)
                    halves[n < 0][n / 1000 % 2 != 0]++;
            }
        }
    check_number(wrong, 0, "what dampings take");
    check(halves[0][0] > 1000 && halves[0][1] > 1000 && halves[1][0] > 1000 && halves[1][1] > 1000,
          "halves of both signs, between an even number and an odd one");
    check(wide > 1000, "products beyond 32 bits");
}

/* The largest F that there is: 89,430,000,000 without damping, and 200,000,000 by it. */
static void largest_F(void)
{
    static const int64_t shape[5] = {-1, 1, 0, -1, 1};
    static const int64_t damping[1] = {10000};
    static struct work k;
    k.x = 10000;
    k.damping = damping;
    for (int64_t sign = -1; sign <= 1; sign += 2) {
        for (size_t i = 0; i < 5; i++) {
            k.e[GHOST - 2 + i] = sign * e_MOST * shape[i];
            k.u[GHOST - 2 + i] = -u_MOST * shape[i];
        }
        k.u[GHOST] = -sign * u_MOST;
        check_number(acceleration(&k, 0, divisor(12 * k.x)), sign * INT64_C(89630000000),
                     "the largest F");
    }
}

/* Counts of accepted steps with the row of the ladder that each has. */
static const struct {
    uint64_t accepted;
    size_t rung;
} rungs[] = {{0, 0},   {1, 1},   {2, 2},     {3, 2},     {4, 2},     {5, 2},
             {255, 2}, {256, 2}, {65536, 2}, {65537, 2}, {999998, 2}, {999999, 2}};
enum { RUNG_COUNTS = sizeof rungs / sizeof *rungs };

/* Still water of which so many steps are accepted. */
static void still_after(struct rig *rig, size_t N, uint64_t accepted)
{
    still(rig, N);
    rig->c.accepted = accepted;
    rig->c.wanted = 1000000;
}

static void case_5_movement(void)
{
    static struct work k;
    struct rig rig;
    struct sums sums;
    for (size_t i = 0; i < RUNG_COUNTS; i++) {
        still_after(&rig, 8, rungs[i].accepted);
        rig.c.T = 100;
        for (size_t j = 0; j < 21; j++)
            rig.c.Q.at[j] = 12000000;
        trial(&k, &rig);
        check_number(predict(&k, &rig.c, rig.s.at), 0, "case 5 predicts");
        moved_by_1(&k, "case 5, predicted");
        for (size_t j = 0; j < 7; j++)
            k.Q[j] = 12000000;
        k.Q[7] = 0;
        memset(k.F, 0, sizeof k.F);
        check_number(correct(&k, &rig.c, &sums), 0, "case 5 corrects");
        moved_by_1(&k, "case 5, corrected");
    }
}

/* The weights one by one: each level alone moves its share, a hundred for 1/12 in the prediction
   and fifty for 1/24 in a correction. */
static void weights(void)
{
    static const int64_t predicted[RUNGS][3] = {
        {1200, 0, 0}, {1800, -600, 0}, {2300, -1600, 500}};
    static const int64_t corrected[RUNGS][4] = {
        {600, 600, 0, 0}, {500, 800, -100, 0}, {450, 950, -250, 50}};
    static struct work k;
    struct rig rig;
    struct sums sums;
    for (size_t i = 0; i < RUNG_COUNTS; i++)
        for (size_t level = 0; level < 4; level++) {
            size_t rung = rungs[i].rung;
            still_after(&rig, 8, rungs[i].accepted);
            rig.c.T = 100;
            if (level > 0)
                rig.c.Q.at[(level - 1) * 7 + 3] = INT64_C(12000000000);
            if (level > 0)
                rig.c.F.at[(level - 1) * 8 + 3] = 12000;
            trial(&k, &rig);
            check_number(predict(&k, &rig.c, rig.s.at), 0, "weights predict");
            if (level > 0) {
                check_number(k.e[GHOST + 4], predicted[rung][level - 1], "predictor's weight on Q");
                check_number(k.V[3], predicted[rung][level - 1], "predictor's weight on F");
            }
            memset(k.Q, 0, sizeof k.Q);
            memset(k.F, 0, sizeof k.F);
            k.Q[3] = level == 0 ? INT64_C(12000000000) : 0;
            k.F[3] = level == 0 ? 12000 : 0;
            check_number(correct(&k, &rig.c, &sums), 0, "weights correct");
            check_number(k.e[GHOST + 4], corrected[rung][level], "corrector's weight on Q");
            check_number(k.V[3], corrected[rung][level], "corrector's weight on F");
        }
}

/* A flux of 12,000,000 in the newest level alone: 1.2, 1.8 and 2.3 before rounding. */
static void newest_alone(void)
{
    static const int64_t due[RUNGS] = {1, 2, 2};
    static struct work k;
    struct rig rig;
    for (size_t i = 0; i < RUNG_COUNTS; i++) {
        still_after(&rig, 8, rungs[i].accepted);
        rig.c.T = 100;
        rig.c.Q.at[3] = 12000000;
        trial(&k, &rig);
        check_number(predict(&k, &rig.c, rig.s.at), 0, "the newest level predicts");
        check_number(k.e[GHOST + 3], -due[rungs[i].rung], "the newest level, left of its face");
        check_number(k.e[GHOST + 4], due[rungs[i].rung], "the newest level, right of it");
    }
}

static void case_6_dispersive_part(void)
{
    static struct work k;
    struct rig rig;
    bool good = true;
    still(&rig, 10);
    for (int64_t j = 0; j < 10; j++)
        rig.c.u.at[j] = (j + 1) * (j + 1);
    trial(&k, &rig);
    for (size_t j = 1; j < 8; j++)
        good &= rounded((k.M[GHOST + j] + k.M[GHOST + j + 1]) / 2) == -113372;
    check(good, "case 6");
}

static void case_7_coefficients(void)
{
    static struct work k;
    struct rig rig;
    still(&rig, 8);
    trial(&k, &rig);
    check(k.a[1] == -3900195000000 && k.c[1] == -3900195000000, "case 7, a and c");
    check(k.b[1] == 17800390000000, "case 7, b");
    check(k.b[0] == 21700585000000 && k.b[7] == 21700585000000, "case 7, wall b");
    check(k.a[0] == 0 && k.c[7] == 0, "the wall side is dropped");
}

static void case_8_dominance(void)
{
    struct rig rig;
    still(&rig, 9);
    depths(&rig, 1941);
    rig.c.h.at[4] = 1000;
    check_accepted(call(&rig, MAKE), 0, "case 8, accepted");
    still(&rig, 9);
    depths(&rig, 1942);
    rig.c.h.at[4] = 1000;
    refused(&rig, MAKE, 5, 0, 5, "case 8, refused");
}

static void wall_dominance(void)
{
    struct rig rig;
    for (int last = 0; last < 2; last++) {
        still(&rig, 8);
        depths(&rig, 4352);
        rig.c.h.at[last ? 7 : 0] = 1000;
        check_number(input_number(&rig), 15, "wall row 4352");
        depths(&rig, 4353);
        rig.c.h.at[last ? 7 : 0] = 1000;
        refused(&rig, STEP, 5, 0, last ? 8 : 1, "wall row 4353");
    }
}

static void strict_dominance(void)
{
    struct rig rig;
    still(&rig, 9);
    rig.c.X = 177;
    depths(&rig, 1029);
    rig.c.h.at[4] = 1000;
    check_number(input_number(&rig), 15, "neighbours 1029 and 1029");
    for (size_t j = 5; j < 9; j++)
        rig.c.h.at[j] = 1030;
    refused(&rig, STEP, 5, 0, 5, "neighbours 1029 and 1030, equality");
}

static void case_9_settling(void)
{
    struct sums none = {8, 0}, more = {9, 0}, large = {9, 1000}, just = {9, 999};
    check(small(none, 8), "case 9, 8 settles");
    check(!small(more, 8), "case 9, 9 does not");
    check(small(large, 8) && !small(just, 8), "new sizes count");
}

static void case_10_filter(void)
{
    static const int64_t due[9] = {-1, 8, -28, 56, 186, 56, -28, 8, -1};
    struct rig rig;
    still(&rig, 16);
    rig.c.e.at[7] = 256;
    check_accepted(call(&rig, FILTER), 0, "case 10, e filters");
    check_row(rig.c.e.at + 3, due, 9, "case 10, e");
    check(rig.c.e.at[2] == 0 && rig.c.e.at[12] == 0, "case 10, e beyond");
    still(&rig, 16);
    rig.c.V.at[7] = 256;
    check_accepted(call(&rig, FILTER), 0, "case 10, V filters");
    check_row(rig.c.V.at + 3, due, 9, "case 10, V");
    check(rig.c.V.at[2] == 0 && rig.c.V.at[12] == 0, "case 10, V beyond");
}

/* Half of case 10: every number that is not whole before it is rounded is a half. */
static void filtered_halves(void)
{
    static const int64_t due_e[9] = {0, 4, -14, 28, 92, 28, -14, 4, 0};
    static const int64_t due_V[9] = {0, 4, -14, 28, 93, 28, -14, 4, 0};
    for (int64_t sign = -1; sign <= 1; sign += 2) {
        struct rig rig;
        bool good = true;
        still(&rig, 16);
        rig.c.e.at[7] = rig.c.V.at[7] = sign * 128;
        check_accepted(call(&rig, FILTER), 0, "128 in cell 8 filters");
        for (size_t j = 0; j < 9; j++)
            good &= rig.c.e.at[3 + j] == sign * due_e[j] && rig.c.V.at[3 + j] == sign * due_V[j];
        check(good, "128 in cell 8, filtered");
        check(rig.c.e.at[2] == 0 && rig.c.e.at[12] == 0, "128 in cell 8, e beyond");
        check(rig.c.V.at[2] == 0 && rig.c.V.at[12] == 0, "128 in cell 8, V beyond");
    }
}

static void case_11_filter(void)
{
    bool good = true;
    int64_t sum = 0;
    struct rig rig;
    still(&rig, 16);
    for (size_t j = 0; j < 16; j++)
        rig.c.e.at[j] = j % 2 ? -100 : 100;
    check_accepted(call(&rig, FILTER), 0, "case 11 filters");
    for (size_t j = 4; j < 12; j++)
        good &= rig.c.e.at[j] == 0;
    check(good, "case 11");
    for (size_t j = 0; j < 16; j++)
        sum += rig.c.e.at[j];
    check_number(sum, 0, "a filter keeps the water");
}

/* The wall changes the sign of V and not of e. */
static void filter_mirrors(void)
{
    bool good = true;
    struct rig rig;
    still(&rig, 8);
    for (size_t j = 0; j < 8; j++)
        rig.c.e.at[j] = 2560, rig.c.V.at[j] = 256;
    rig.c.accepted = 9;
    check_accepted(call(&rig, FILTER), 0, "a level channel filters");
    for (size_t j = 0; j < 8; j++)
        good &= rig.c.e.at[j] == 2560;
    check(good, "level water stays");
    check_number(rig.c.V.at[0], 256 - 2 * (56 - 28 + 8 - 1), "V at the wall");
    check_number(rig.c.V.at[1], 256 - 2 * (-28 + 8 - 1), "V beside the wall");
    check_number(rig.c.V.at[7], 256 - 2 * (56 - 28 + 8 - 1), "V at the far wall");
    check(rig.c.accepted == 9, "a filter is no step");
}

/* u 20,000,000.2 and a made V 2,000,000,000.2 and a dispersive part
   1,000,000,000,000,000.25 are outside, though they would round inside. */
static void ranges_before_rounding(void)
{
    static const int64_t h[8] = {19997, 19991, 19993, 19990, 19990, 19990, 19990, 19990};
    struct rig rig;
    still(&rig, 8);
    rig.c.X = 5000;
    rig.c.V.at[3] = 20614588;
    rig.c.V.at[4] = 30;
    refused(&rig, STEP, 7, 0, 0, "u above its range by less than a half");
    rig.c.V.at[4] = 10;
    check_number(call(&rig, STEP).number, 0, "u below its range by less than a half");
    still(&rig, 8);
    rig.c.X = 10;
    rig.c.T = 1;
    depths(&rig, 386);
    rig.c.u.at[2] = -2;
    rig.c.u.at[3] = 1719354;
    refused(&rig, MAKE, 7, 0, 0, "made V above its range by less than a half");
    rig.c.u.at[2] = -1;
    check_number(call(&rig, MAKE).number, 0, "made V within its range");
    still(&rig, 8);
    rig.c.X = 3265;
    memcpy(rig.c.h.at, h, sizeof h);
    rig.c.u.at[0] = 18919663;
    rig.c.u.at[1] = 9997957;
    rig.c.u.at[2] = 800140;
    rig.c.e.at[0] = 1000 - 1000 * h[0];
    rig.c.e.at[1] = 1000 - 1000 * h[1];
    rig.c.e.at[2] = 20000000;
    refused(&rig, MAKE, 9, 0, 0, "dispersive part outside by less than a half");
    rig.c.u.at[0]--;
    check_number(call(&rig, MAKE).number, 0, "dispersive part inside");
}

static void cells_and_lengths(void)
{
    static const uint64_t wrong[] = {0, 1, 7, 9, 257, 1000, UINT64_C(1) << 32, UINT64_MAX};
    struct rig rig;
    for (size_t i = 0; i < sizeof wrong / sizeof *wrong; i++)
        for (enum call which = MAKE; which <= WRITE; which++) {
            still(&rig, 8);
            rig.c.N = wrong[i];
            refused(&rig, which, 1, 0, 0, "N");
        }
    for (enum call which = MAKE; which <= WRITE; which++) {
        still(&rig, 7);
        refused(&rig, which, 1, 0, 0, "7 cells with rows to match");
        still(&rig, 257);
        refused(&rig, which, 1, 0, 0, "257 cells with rows to match");
    }
    still(&rig, 256);
    check_number(input_number(&rig), 15, "N 256");
    for (int row = h_ROW; row <= damping_ROW; row++)
        for (int more = -1; more <= 1; more += 2)
            for (enum call which = MAKE; which <= WRITE; which++) {
                struct second_row *rows[7];
                still(&rig, 8);
                rows[h_ROW] = &rig.c.h, rows[e_ROW] = &rig.c.e, rows[u_ROW] = &rig.c.u;
                rows[V_ROW] = &rig.c.V, rows[Q_ROW] = &rig.c.Q, rows[F_ROW] = &rig.c.F;
                rows[damping_ROW] = &rig.c.damping;
                rows[row]->len = (size_t)((ptrdiff_t)rows[row]->len + more);
                refused(&rig, which, 1, 0, 0, "a lent row's length");
            }
    still(&rig, 8);
    rig.s.len = 7;
    refused(&rig, STEP, 1, 0, 0, "a short poured row");
    rig.s.len = 0;
    refused(&rig, STEP, 1, 0, 0, "an empty poured row");
    rig.s.len = 9;
    refused(&rig, STEP, 1, 0, 0, "a long poured row");
}

static void counts(void)
{
    static const struct {
        uint64_t X, T, accepted, wanted;
        unsigned due;
    } at[] = {
        {10, 20, 0, 10, 15},     {9, 20, 0, 10, 2},       {5000, 20, 0, 10, 15},
        {5001, 20, 0, 10, 2},    {0, 20, 0, 10, 2},       {UINT64_MAX, 20, 0, 10, 2},
        {1000, 1, 0, 10, 15},    {1000, 0, 0, 10, 2},     {1000, 100, 0, 10, 15},
        {1000, 101, 0, 10, 2},   {1000, UINT64_MAX, 0, 10, 2},
        {1000, 20, 0, 1, 15},    {1000, 20, 0, 0, 2},     {1000, 20, 0, 1000000, 15},
        {1000, 20, 0, 1000001, 2}, {1000, 20, 10, 10, 15}, {1000, 20, 11, 10, 2},
        {1000, 20, UINT64_MAX, 10, 2}, {1000, 20, 0, UINT64_MAX, 2},
    };
    struct rig rig;
    for (size_t i = 0; i < sizeof at / sizeof *at; i++) {
        still(&rig, 8);
        depths(&rig, 100);
        rig.c.X = at[i].X;
        rig.c.T = at[i].T;
        rig.c.accepted = at[i].accepted;
        rig.c.wanted = at[i].wanted;
        check_number(input_number(&rig), at[i].due, "a count");
        if (at[i].due == 2) {
            refused(&rig, STEP, 2, 0, 0, "a step's count");
            refused(&rig, FILTER, 2, 0, 0, "a filter's count");
            refused(&rig, RUN, 2, 0, 0, "a run's count");
        }
    }
    still(&rig, 8);
    rig.c.accepted = UINT64_MAX;
    check_accepted(call(&rig, MAKE), 0, "make does not read accepted");
    check(rig.c.accepted == 0, "make sets accepted");
    rig.c.wanted = 0;
    refused(&rig, MAKE, 2, 0, 0, "make's wanted");
}

static const int64_t low[8] = {1, -e_MOST, -u_MOST, -V_MOST, -Q_MOST, -F_MOST, 0, -s_MOST};
static const int64_t high[8] = {h_MOST, e_MOST, u_MOST, V_MOST, Q_MOST, F_MOST, 10000, s_MOST};
static const unsigned refusals[8] = {31, 32, 33, 34, 35, 36, 38, 37};

static size_t levels_of(int row)
{
    return row == Q_ROW || row == F_ROW ? 3 : 1;
}

/* Faces or cells of a row's levels; a row of one level has its cells. */
static size_t places_of(const struct rig *rig, int row)
{
    return row_of(rig, row).len / levels_of(row);
}

/* Where a value stands; levels count from 0, newest first, places from 1. */
static int64_t *value_of(struct rig *rig, int row, size_t level, size_t place)
{
    return row_of(rig, row).at + level * places_of(rig, row) + place - 1;
}

/* Every call that reads the row is refused for it, at the place. */
static void outside(struct rig *rig, int row, size_t place, const char *what)
{
    unsigned number = refusals[row];
    refused(rig, STEP, number, 0, (unsigned)place, what);
    if (row < s_ROW) {
        refused(rig, FILTER, number, 0, (unsigned)place, what);
        refused(rig, RUN, number, 0, (unsigned)place, what);
        refused(rig, WRITE, number, 0, (unsigned)place, what);
    }
    if (row <= u_ROW || row == damping_ROW)
        refused(rig, MAKE, number, 0, (unsigned)place, what);
}

/* A value at its bounds and beyond them, in one place, after so many accepted steps: the levels
   whose weight is 0 there have their ranges too. */
static void value(int row, size_t level, size_t place, uint64_t accepted)
{
    const int64_t beyond[4] = {low[row] - 1, high[row] + 1, INT64_MIN, INT64_MAX};
    struct rig rig;
    for (int i = 0; i < 4; i++) {
        still(&rig, 8);
        rig.c.accepted = accepted;
        *value_of(&rig, row, level, place) = beyond[i];
        outside(&rig, row, place, "a value outside");
    }
    still(&rig, 8);
    rig.c.accepted = accepted;
    depths(&rig, 20000);
    rig.c.X = 5000;
    *value_of(&rig, row, level, place) = high[row];
    check_number(input_number(&rig), 15, "the highest value");
    *value_of(&rig, row, level, place) = row == e_ROW ? 1000 - 20000000 : low[row];
    check_number(input_number(&rig), 15, "the lowest value");
}

static void values(void)
{
    struct rig rig;
    still(&rig, 8);
    for (int row = h_ROW; row <= s_ROW; row++)
        for (size_t level = 0; level < levels_of(row); level++)
            for (size_t place = 1; place <= places_of(&rig, row); place++)
                for (uint64_t accepted = 0; accepted <= 3; accepted++)
                    value(row, level, place, accepted);
    rig.c.V.at[0] = rig.c.Q.at[0] = rig.c.F.at[0] = INT64_MIN;
    check_accepted(call(&rig, MAKE), 0, "make does not read what it fills");
}

/* Two values outside. In one level the lower place is told; of two rows, and
   of two levels, the one before the other, wherever its fault lies. */
static void two_values(void)
{
    static const size_t cells[3] = {8, 9, 256};
    struct rig rig;
    for (size_t i = 0; i < 3; i++)
        for (int row = h_ROW; row <= s_ROW; row++) {
            still(&rig, cells[i]);
            const size_t last = places_of(&rig, row), middle = last / 2;
            *value_of(&rig, row, 0, last) = high[row] + 1;
            outside(&rig, row, last, "the last place");
            *value_of(&rig, row, 0, middle) = low[row] - 1;
            outside(&rig, row, middle, "a middle place and the last");
            *value_of(&rig, row, 0, 1) = INT64_MAX;
            outside(&rig, row, 1, "the first place and others");
            for (int later = row + 1; later <= s_ROW; later++) {
                still(&rig, cells[i]);
                *value_of(&rig, row, levels_of(row) - 1, last) = low[row] - 1;
                *value_of(&rig, later, 0, 1) = INT64_MIN;
                outside(&rig, row, last, "the earlier row");
            }
            for (size_t level = 0; level < levels_of(row); level++)
                for (size_t older = level + 1; older < levels_of(row); older++) {
                    still(&rig, cells[i]);
                    *value_of(&rig, row, level, last) = INT64_MIN;
                    *value_of(&rig, row, older, 1) = INT64_MAX;
                    outside(&rig, row, last, "the newer level");
                    *value_of(&rig, row, level, middle) = high[row] + 1;
                    outside(&rig, row, middle, "the newer level's lower place");
                }
        }
    still(&rig, 8);
    *value_of(&rig, Q_ROW, 0, 7) = Q_MOST + 1;
    *value_of(&rig, Q_ROW, 1, 2) = Q_MOST + 1;
    outside(&rig, Q_ROW, 7, "face 7 of the newest level and face 2 of the middle one");
    still(&rig, 8);
    rig.c.h.at[5] = 0;
    rig.c.e.at[1] = e_MOST + 1;
    outside(&rig, h_ROW, 6, "a depth in cell 6 and a height in cell 2");
    still(&rig, 8);
    rig.c.damping.at[4] = -1;
    ((int64_t *)rig.s.at)[0] = s_MOST + 1;
    outside(&rig, damping_ROW, 5, "a damping in cell 5 and a poured amount in cell 1");
}

static void water(void)
{
    struct rig rig;
    still(&rig, 8);
    rig.c.e.at[7] = -999000;
    check_number(input_number(&rig), 15, "1,000 um of water");
    rig.c.e.at[7] = -999001;
    for (enum call which = MAKE; which <= WRITE; which++)
        refused(&rig, which, 4, 0, 8, "999 um of water");
    rig.c.e.at[3] = -1000000;
    for (enum call which = MAKE; which <= WRITE; which++)
        refused(&rig, which, 4, 0, 4, "cells 4 and 8 too low");
    rig.c.e.at[0] = -e_MOST;
    for (enum call which = MAKE; which <= WRITE; which++)
        refused(&rig, which, 4, 0, 1, "cell 1 too low and others");
}

/* Rows that are not dominant: cells 4 and 7, then cell 1 too. */
static void lowest_dominance(void)
{
    struct rig rig;
    still(&rig, 9);
    depths(&rig, 4353);
    rig.c.h.at[3] = rig.c.h.at[6] = 1000;
    for (enum call which = MAKE; which <= WRITE; which++)
        refused(&rig, which, 5, 0, 4, "cells 4 and 7 not dominant");
    rig.c.h.at[0] = 1000;
    for (enum call which = MAKE; which <= WRITE; which++)
        refused(&rig, which, 5, 0, 1, "cells 1, 4 and 7 not dominant");
    depths(&rig, 4353);
    rig.c.h.at[8] = 1000;
    for (enum call which = MAKE; which <= WRITE; which++)
        refused(&rig, which, 5, 0, 9, "cell 9 not dominant");
}

/* Still water of 8 cells, one depth and this time step. */
static void stepping(struct rig *rig, uint64_t X, uint64_t T, int64_t h)
{
    still(rig, 8);
    rig->c.X = X;
    rig->c.T = T;
    depths(rig, h);
}

/* The bound to the last mm and ms: the one equality that can be reached, the tank, the least and
   the largest numbers, and products that wrap in 32 bits, on both sides. */
static void time_steps(void)
{
    static const struct {
        uint64_t X, T;
        int64_t h;
        unsigned due;
    } at[] = {
        {327, 100, 6540, 15},  {327, 100, 6541, 26},   {326, 100, 6540, 26}, {327, 99, 6541, 15},
        {328, 100, 6541, 15},  {20, 20, 500, 15},      {20, 22, 500, 15},    {20, 23, 500, 26},
        {19, 22, 500, 26},     {20, 20, 611, 15},      {20, 20, 612, 26},    {10, 1, 20000, 15},
        {10, 2, 20000, 26},    {10, 100, 6, 15},       {10, 100, 7, 26},     {572, 100, 20000, 15},
        {571, 100, 20000, 26}, {5000, 100, 20000, 15}, {250, 20, 500, 15},   {200, 80, 1500, 15},
        {100, 20, 20000, 26},  {100, 50, 3000, 26},
    };
    struct rig rig;
    for (size_t i = 0; i < sizeof at / sizeof *at; i++) {
        stepping(&rig, at[i].X, at[i].T, at[i].h);
        check_number(input_number(&rig), at[i].due, "a time step");
        for (enum call which = MAKE; which <= RUN; which++)
            if (at[i].due == 26)
                refused(&rig, which, 26, 0, 0, "a time step that is too long");
            else
                check_number(call(&rig, which).number, 0, "a time step that is allowed");
    }
}

/* Every width and time step beside the depth at which the products part. */
static void every_time_step(void)
{
    int64_t wrong = 0, refused = 0, allowed = 0;
    struct rig rig;
    for (int64_t X = 10; X <= 5000; X += X < 600 ? 1 : 100)
        for (int64_t T = 1; T <= 100; T++) {
            int64_t h = 6000000 * X * X / (9810 * T * T) - 1;
            for (int i = 0; i < 4; i++, h++) {
                unsigned due = 9810 * h * T * T > 6000000 * X * X ? 26 : 15;
                if (h < 1 || h > 20000)
                    continue;
                stepping(&rig, (uint64_t)X, (uint64_t)T, h);
                wrong += input_number(&rig) != due;
                refused += due == 26;
                allowed += due == 15;
            }
        }
    check_number(wrong, 0, "time steps beside the bound");
    check(refused > 50000 && allowed > 50000, "on both of its sides");
}

/* The deepest cell counts wherever it stands, by its depth alone and not by the water over it. */
static void deepest_cell(void)
{
    static const size_t cells[] = {0, 3, 7};
    struct rig rig;
    for (size_t i = 0; i < 3; i++)
        for (int64_t e = -1; e <= 1; e++) {
            stepping(&rig, 327, 100, 6530);
            rig.c.h.at[cells[i]] = 6540;
            for (size_t j = 0; j < 8; j++)
                rig.c.e.at[j] = e < 0 ? 1000 - 1000 * rig.c.h.at[j] : e * e_MOST;
            check_number(input_number(&rig), 15, "the deepest cell just allowed");
            rig.c.h.at[cells[i]] = 6541;
            for (enum call which = MAKE; which <= WRITE; which++)
                refused(&rig, which, 26, 0, 0, "the deepest cell alone");
        }
}

/* 26 beside the refusals before it and after it. */
static void time_step_order(void)
{
    struct rig rig;
    stepping(&rig, 20, 23, 500);
    rig.c.accepted = rig.c.wanted;
    for (enum call which = MAKE; which <= WRITE; which++)
        refused(&rig, which, 26, 0, 0, "a complete channel");
    rig.c.h.at[4] = 100;
    for (enum call which = MAKE; which <= WRITE; which++)
        refused(&rig, which, 26, 0, 0, "before a row that is not dominant");
    rig.c.T = 20;
    for (enum call which = MAKE; which <= WRITE; which++)
        refused(&rig, which, 5, 0, 5, "which is told once the time step is allowed");
    rig.c.T = 23;
    rig.c.e.at[6] = -499001;
    for (enum call which = MAKE; which <= WRITE; which++)
        refused(&rig, which, 4, 0, 7, "after a cell with too little water");
    ((int64_t *)rig.s.at)[7] = s_MOST + 1;
    refused(&rig, STEP, 37, 0, 8, "and after what is poured");
    rig.c.damping.at[6] = 10001;
    for (enum call which = MAKE; which <= WRITE; which++)
        refused(&rig, which, 38, 0, 7, "and after a damping");
    rig.c.F.at[23] = -F_MOST - 1;
    for (enum call which = STEP; which <= WRITE; which++)
        refused(&rig, which, 36, 0, 8, "and after a level");
}

/* Faults of the input in the order of their refusals. */
static const struct {
    unsigned number, place;
} input_faults[] = {{1, 0},  {2, 0},  {31, 10}, {32, 9}, {33, 8}, {34, 7}, {35, 6},
                    {36, 5}, {38, 4}, {37, 3},  {4, 2},  {26, 0}, {5, 1}};

static void lay(struct rig *rig, unsigned number)
{
    switch (number) {
    case 1: rig->c.u.len = 9; break;
    case 2: rig->c.T = 0; break;
    case 4: rig->c.e.at[1] = -4999500; break;
    case 5: rig->c.h.at[0] = 1000; break;
    case 26: rig->c.X = 10; break;
    case 31: rig->c.h.at[9] = 0; break;
    case 32: rig->c.e.at[8] = e_MOST + 1; break;
    case 33: rig->c.u.at[7] = u_MOST + 1; break;
    case 34: rig->c.V.at[6] = V_MOST + 1; break;
    case 35: rig->c.Q.at[18 + 5] = Q_MOST + 1; break;
    case 36: rig->c.F.at[10 + 4] = F_MOST + 1; break;
    case 37: ((int64_t *)rig->s.at)[2] = s_MOST + 1; break;
    case 38: rig->c.damping.at[3] = 10001; break;
    }
}

/* Whether a call reads what the refusal is about. */
static bool reads(enum call which, unsigned number)
{
    return number == 37 ? which == STEP : number < 34 || number == 38 || which != MAKE;
}

/* Every refusal of the input is made to meet the ones after it. */
static void input_order(void)
{
    const size_t count = sizeof input_faults / sizeof *input_faults;
    for (enum call which = MAKE; which <= WRITE; which++) {
        struct rig rig;
        still(&rig, 10);
        rig.c.accepted = rig.c.wanted;
        depths(&rig, 5000);
        for (size_t i = count; i-- > 0;) {
            lay(&rig, input_faults[i].number);
            if (reads(which, input_faults[i].number))
                refused(&rig, which, input_faults[i].number, 0, input_faults[i].place,
                        "the order of input checks");
        }
    }
}

static void poured_order(void)
{
    struct rig rig;
    still(&rig, 8);
    rig.c.e.at[0] = -999500;
    ((int64_t *)rig.s.at)[7] = s_MOST + 1;
    refused(&rig, STEP, 37, 0, 8, "poured beats water depth");
    rig.c.damping.at[7] = -1;
    refused(&rig, STEP, 38, 0, 8, "damping beats poured");
    rig.c.X = 9;
    refused(&rig, STEP, 2, 0, 0, "counts beat poured");
    rig.s.len = 9;
    refused(&rig, STEP, 1, 0, 0, "poured length beats counts");
}

static void complete_order(void)
{
    struct rig rig;
    still(&rig, 8);
    rig.c.accepted = 10;
    rig.c.F.at[0] = F_MOST;
    rig.c.T = 100;
    refused(&rig, STEP, 11, 0, 0, "complete beats the stages");
    refused(&rig, FILTER, 11, 0, 0, "a filter of a complete channel");
    check_accepted(call(&rig, RUN), 0, "a run of a complete channel");
    check(rig.c.accepted == 10 && rig.c.F.at[0] == F_MOST, "it changes nothing");
    refused(&rig, WRITE, 15, 0, 0, "a complete channel can be written");
    rig.c.accepted = 9;
    refused(&rig, STEP, 7, 0, 0, "one step is left");
}

/* Stage 0 with several faults at once: 8, 4, 7 in this order over all cells. */
static void stage_order(void)
{
    struct rig rig;
    still(&rig, 8);
    rig.c.T = 100;
    rig.c.Q.at[6] = Q_MOST;
    rig.c.F.at[0] = F_MOST;
    rig.c.e.at[0] = -999000;
    ((int64_t *)rig.s.at)[0] = -1;
    refused(&rig, STEP, 8, 0, 0, "8 beats 4 and 7");
    rig.c.Q.at[6] = 0;
    refused(&rig, STEP, 4, 0, 1, "4 beats 7");
    ((int64_t *)rig.s.at)[0] = 0;
    refused(&rig, STEP, 7, 0, 0, "V out of range");
    still(&rig, 8);
    rig.c.V.at[7] = 21000000;
    rig.c.X = 5000;
    depths(&rig, 1);
    refused(&rig, STEP, 7, 0, 0, "u out of range");
}

/* u of 2, 2, -2, -2 in turn: the mirrored rows go on in the same turn. */
static void turns(struct rig *rig, int64_t V)
{
    still(rig, 8);
    rig->c.X = 10;
    rig->c.T = 1;
    depths(rig, 20000);
    for (size_t j = 0; j < 8; j++)
        rig->c.V.at[j] = j % 4 < 2 ? V : -V;
}

static void flux_refusals(void)
{
    struct rig rig;
    turns(&rig, 374418840); /* u is 120 */
    refused(&rig, STEP, 9, 0, 0, "dispersive part out of range");
    turns(&rig, 343217270); /* u is 110 */
    refused(&rig, STEP, 8, 1, 0, "dispersive part in range");
    turns(&rig, 399380096); /* filtered 374418840 */
    refused(&rig, FILTER, 9, 0, 0, "a filter's flux out of range");
    turns(&rig, 0);
    for (size_t j = 0; j < 8; j++)
        rig.c.u.at[j] = j % 4 < 2 ? 120 : -120;
    refused(&rig, MAKE, 9, 0, 0, "a made flux out of range");
    rig.c.u.at[7] = -20000000;
    refused(&rig, MAKE, 7, 0, 0, "in make 7 beats 9");
}

/* Both parts are in range at the first face, the second time not their sum. */
static void sum_of_flux(void)
{
    struct rig rig;
    for (int64_t u = 15000000; u <= 16000000; u += 1000000) {
        still(&rig, 8);
        rig.c.X = 5000;
        depths(&rig, 20000);
        for (size_t j = 0; j < 8; j++) {
            rig.c.e.at[j] = 20000000;
            rig.c.u.at[j] = u;
        }
        if (u == 15000000)
            check_accepted(call(&rig, MAKE), 0, "a sum in range");
        else
            refused(&rig, MAKE, 9, 0, 0, "a sum out of range");
    }
}

static void filter_refusals(void)
{
    static const int64_t sign[9] = {-1, 1, -1, 1, 1, 1, -1, 1, -1};
    struct rig rig;
    still(&rig, 16);
    rig.c.X = 5000;
    depths(&rig, 20000);
    for (size_t j = 0; j < 9; j++)
        rig.c.e.at[3 + j] = 19990000 * sign[j];
    refused(&rig, FILTER, 8, 0, 0, "filtered height out of range");
    still(&rig, 16);
    for (size_t j = 0; j < 9; j++) {
        rig.c.e.at[3 + j] = -900000 * sign[j];
        rig.c.V.at[3 + j] = V_MOST * sign[j];
    }
    refused(&rig, FILTER, 4, 0, 8, "filtered water too low, before V");
    memset(rig.c.e.at, 0, 16 * sizeof(int64_t));
    refused(&rig, FILTER, 7, 0, 0, "filtered V out of range");
    memset(rig.c.V.at, 0, 16 * sizeof(int64_t));
    rig.c.V.at[7] = V_MOST;
    refused(&rig, FILTER, 7, 0, 0, "u of the filtered V out of range");
    still(&rig, 32);
    for (size_t j = 0; j < 9; j++)
        rig.c.e.at[3 + j] = rig.c.e.at[19 + j] = -900000 * sign[j];
    refused(&rig, FILTER, 4, 0, 8, "filtered water too low in cells 8 and 24");
}

/* Made channels of 8 cells whose first step is refused above stage 0, or settles late, by a row of
   the ladder, and how that step ends by each row: with the count set to 0, 1 and 2. */
static void later_stages(void)
{
    static const struct {
        uint64_t X, T;
        int64_t h, e[8], u[8];
        struct second_answer due[RUNGS];
    } at[] = {
        {10, 50, 10, {4494, 414}, {-7218, 5508, -7455, 3669, -9009, 6381, 8769, -9524},
         {{10, 10, 0, 0}, {10, 10, 0, 0}, {10, 10, 0, 0}}},
        {1000, 20, 5000, {0, 292290, -415091, 0, 0, 0, 0, -308990},
         {2882414, -2668180, -1242015, -12196983, -9260103, 7221815, -11060090, 2139932},
         {{4, 1, 5, 0}, {4, 1, 5, 0}, {4, 1, 5, 0}}},
        {20, 100, 24, {-22729, -8944, 2629, 22273, 0, 0, -10306, 10428}, {0},
         {{4, 2, 3, 0}, {4, 2, 3, 0}, {4, 2, 3, 0}}},
        {10, 50, 5, {0, 0, 0, 0, 0, 0, 19867}, {13, -15, 2, 4, -10, 0, 11, 14},
         {{4, 2, 7, 0}, {4, 3, 7, 0}, {4, 3, 7, 0}}},
        {10, 100, 6, {1466, 1910, 1016, -938, 353, 620, -1113, 1336}, {0},
         {{4, 3, 4, 0}, {4, 5, 2, 0}, {4, 9, 2, 0}}},
        {20, 50, 2, {0, 28200}, {0}, {{4, 6, 2, 0}, {4, 8, 2, 0}, {4, 10, 2, 0}}},
        {10, 100, 6, {-248, 207, -206, 46, 61, 22, -202, -172}, {0},
         {{4, 10, 2, 0}, {10, 10, 0, 0}, {10, 10, 0, 0}}},
        {10, 100, 5, {155, 172, -1713, 12, 123, 1346, 952, 592},
         {62, 22, -90, -95, 15, 26, 87, -6}, {{4, 6, 5, 0}, {4, 10, 5, 0}, {10, 10, 0, 0}}},
        {20, 1, 10, {3969, 2306, 0, 0, 0, 4398, 0, -4457},
         {-14100142, -2556690, -3845716, -8777915, -1990699, -5699096, -4790484, 7074583},
         {{7, 1, 0, 0}, {7, 1, 0, 0}, {7, 1, 0, 0}}},
        {20, 1, 2, {0, 0, 0, -26, 0, -128, 0, 394},
         {18057431, -9006633, -11442814, -11338770, -1598944, -6858255, -4886606, -4148215},
         {{4, 1, 3, 0}, {7, 1, 0, 0}, {7, 2, 0, 0}}},
        {1000, 50, 50, {0, 0, 0, -18, 0, 0, 0, -229},
         {10376563, 9078151, -10657749, 16769997, -10842855, 18551028, -12202074, 11668317},
         {{7, 1, 0, 0}, {7, 2, 0, 0}, {7, 4, 0, 0}}},
        {500, 20, 10, {0, 0, 20, -3, 0, 0, 0, 10},
         {2586742, 1922630, 13969422, -7735603, -19743122, 2528746, -4844212, -6208039},
         {{7, 4, 0, 0}, {0, 0, 0, 8}, {0, 0, 0, 7}}},
        {1000, 50, 50, {2019, 8887, 5467, 1384, 2541, 0, -772},
         {-5712632, 11238844, 1256389, 12286878, -10042764, 1546654, 7362928, 10340822},
         {{7, 2, 0, 0}, {7, 4, 0, 0}, {0, 0, 0, 8}}},
        {100, 50, 10, {0, 0, 0, 0, 0, 0, 629994},
         {7786, -6858, 5282, -4285, -612, 2942, 3932, 530},
         {{7, 6, 0, 0}, {7, 9, 0, 0}, {10, 10, 0, 0}}},
        {66, 92, 200,
         {18994485, 19012783, 18909448, 19098751, 18922329, 18996228, 18951290, 18998396}, {0},
         {{8, 1, 0, 0}, {8, 3, 0, 0}, {8, 3, 0, 0}}},
        {69, 80, 200,
         {18963918, 19000238, 18993655, 18982482, 18971687, 18943007, 18980364, 19042805}, {0},
         {{8, 1, 0, 0}, {8, 2, 0, 0}, {8, 3, 0, 0}}},
        {86, 83, 600,
         {19252759, 19199877, 19106419, 19113914, 18879429, 19084253, 18915020, 18728483}, {0},
         {{8, 2, 0, 0}, {8, 5, 0, 0}, {8, 9, 0, 0}}},
        {80, 76, 600,
         {19121756, 18979226, 18936159, 18977265, 19053400, 19129558, 19111130, 19046150}, {0},
         {{8, 5, 0, 0}, {8, 10, 0, 0}, {10, 10, 0, 0}}},
        {58, 69, 200,
         {19000000, 19000000, 19000000, 18999999, 19000000, 18999999, 18999999, 19000001},
         {1, 0, 1, 0, 1, 1, -1, -1}, {{8, 10, 0, 0}, {10, 10, 0, 0}, {10, 10, 0, 0}}},
        {2136, 2, 17400, {13312, 838, 1817, 24533, -1440, -17047, -6289, -9891},
         {-2904947, 15861674, -15515061, -4159357, -11553769, -5628336, -10200327, 775753},
         {{9, 1, 0, 0}, {9, 1, 0, 0}, {9, 2, 0, 0}}},
        {1177, 3, 12700,
         {1580950, 1429200, -733311, 1683188, -1495755, -236731, -1349259, -1754309},
         {5658941, -2437697, -1120905, 10316684, -9533139, 5539232, 3754489, -2905648},
         {{9, 1, 0, 0}, {9, 2, 0, 0}, {0, 0, 0, 2}}},
    };
    struct rig rig;
    for (size_t i = 0; i < sizeof at / sizeof *at; i++)
        for (size_t rung = 0; rung < RUNGS; rung++) {
            const struct second_answer *due = &at[i].due[rung];
            still(&rig, 8);
            rig.c.X = at[i].X;
            rig.c.T = at[i].T;
            depths(&rig, at[i].h);
            memcpy(rig.c.e.at, at[i].e, sizeof at[i].e);
            memcpy(rig.c.u.at, at[i].u, sizeof at[i].u);
            check_accepted(call(&rig, MAKE), 0, "a later stage's channel is made");
            rig.c.accepted = rung;
            if (due->number)
                refused(&rig, STEP, due->number, due->stage, due->place, "a later stage");
            else
                check_accepted(call(&rig, STEP), due->count, "a step that settles by that row");
        }
}

/* A sloping channel through make, three poured steps and a filter. */
static void whole_calls(void)
{
    static const int64_t h[9] = {900, 880, 870, 850, 820, 800, 790, 770, 760};
    static const int64_t e[9] = {0, 1200, 5400, 21300, 38700, 20100, 4600, 900, -300};
    static const int64_t u[9] = {100, -250, 12000, 45000, -31000, 800, 0, 77, -5};
    static const int64_t s[9] = {10, -20, 30, 0, 0, 500, -500, 1, -1};
    static const int64_t V[9] = {2842, -60257, -79337, 527991, -492621, 135212, -3459, 665, -342};
    static const int64_t Q[8] = {-4634331709,  -7173869293, 55355816546, 9383448384,
                                 -37921842703, 10066676148, -183906133,  46579971};
    static const int64_t F[9] = {-17658, -71609, -400839, -804149, 25246,
                                 825270, 374742, 61476,   19293};
    static const int64_t stepped_e[9] = {788, 1708, -3256, 27666, 44870, 14528, 4806, 1031, -181};
    static const int64_t stepped_u[9] = {-739, -2809, 6672, 39216, -30231, 7113, 5424, 3317, 1060};
    static const int64_t stepped_V[9] = {1818,   -58020, -96255, 491541, -485530,
                                         167481, 7021,   3230,   350};
    static const int64_t stepped_Q[24] = {
        -5740096009,  -11172864332, 47319395077, 5204561489,  -32806469832, 17120374213,
        3566099202,   1654205762,   -5476430080, -9883378273, 50254639159,  6641074308,
        -34727060329, 14763689603,  2373663960,  1115120043,  -5107783021,  -8548622773,
        52938384015,  8037591202,   -36435112420, 12408542491, 1122788083,  579153040};
    static const int64_t stepped_F[27] = {-40307,  193702,  -535726,  -1213066, 367477,  960216,
                                          205876,  82391,   19371,    -32053,   106816,  -493089,
                                          -1082166, 254289, 920273,   263253,   74501,   19170,
                                          -24530,  18187,   -448025,  -945586,  139993,  875174,
                                          319660,  67542,   19140};
    static const int64_t filtered_e[9] = {1767, -999, -481, 27596, 41745, 18170, 2875, 1499, -212};
    static const int64_t filtered_u[9] = {-805,  -5632, 15702, 23676, -12596,
                                          -5429, 10978, 1793,  1237};
    static const int64_t filtered_V_due[9] = {14599,  -130767, 82726,  218168, -200568,
                                              -39873, 111249,  -31487, 8035};
    static const int64_t filtered_Q[8] = {-11520187239, -556935618, 37689496388, 6221530763,
                                          -24465746498, 6923654112, 10095259170, -729554786};
    static const int64_t filtered_F[9] = {74036,  143473, -618606, -1040161, 256600,
                                          931883, 298753, 20696,   40265};
    struct rig rig;
    still(&rig, 9);
    rig.c.X = 250;
    rig.c.T = 12;
    memcpy(rig.c.h.at, h, sizeof h);
    memcpy(rig.c.e.at, e, sizeof e);
    memcpy(rig.c.u.at, u, sizeof u);
    memcpy((int64_t *)rig.s.at, s, sizeof s);
    check_accepted(call(&rig, MAKE), 0, "whole make");
    check_row(rig.c.V.at, V, 9, "made V");
    check_row(rig.c.u.at, u, 9, "u stays as given");
    for (size_t level = 0; level < 3; level++) {
        check_row(rig.c.Q.at + 8 * level, Q, 8, "made Q");
        check_row(rig.c.F.at + 9 * level, F, 9, "made F");
    }
    check_accepted(call(&rig, STEP), 2, "first step");
    check_row(rig.c.Q.at + 8, Q, 8, "Q moved down");
    check_row(rig.c.F.at + 18, F, 9, "F moved down");
    check_accepted(call(&rig, STEP), 1, "second step");
    check_accepted(call(&rig, STEP), 1, "third step");
    check(rig.c.accepted == 3, "accepted grows");
    check_row(rig.c.h.at, h, 9, "h stays");
    check_row(rig.c.e.at, stepped_e, 9, "stepped e");
    check_row(rig.c.u.at, stepped_u, 9, "stepped u");
    check_row(rig.c.V.at, stepped_V, 9, "stepped V");
    check_row(rig.c.Q.at, stepped_Q, 24, "stepped Q");
    check_row(rig.c.F.at, stepped_F, 27, "stepped F");
    check_accepted(call(&rig, FILTER), 0, "whole filter");
    check_row(rig.c.e.at, filtered_e, 9, "filtered e");
    check_row(rig.c.u.at, filtered_u, 9, "filtered u");
    check_row(rig.c.V.at, filtered_V_due, 9, "filtered V");
    check_row(rig.c.Q.at, filtered_Q, 8, "filtered Q");
    check_row(rig.c.Q.at + 8, stepped_Q + 8, 16, "older Q stay");
    check_row(rig.c.F.at, filtered_F, 9, "filtered F");
    check_row(rig.c.F.at + 9, stepped_F + 9, 18, "older F stay");
}

/* Water that slopes from wall to wall, at rest. */
static void slope(struct rig *rig)
{
    still(rig, 16);
    rig->c.X = 500;
    rig->c.T = 50;
    for (size_t j = 0; j < 16; j++)
        rig->c.e.at[j] = 16000 - 1000 * (int64_t)j;
    check_accepted(call(rig, MAKE), 0, "a slope is made");
}

/* Writes the channel to a file and reads it back into rows that held something else. */
static void through_a_file(struct rig *rig)
{
    uint8_t bytes[28 + 68 * 16];
    check_accepted(second_write(&rig->c, bytes, sizeof bytes), 0, "a slope is written");
    still(rig, 16);
    for (int row = h_ROW; row <= damping_ROW; row++)
        memset(row_of(rig, row).at, 0x33, row_of(rig, row).len * sizeof(int64_t));
    check_accepted(second_read(bytes, sizeof bytes, &rig->c), 0, "a slope is read");
}

static void same_rows(const struct rig *rig, const struct rig *other, const char *what)
{
    for (int row = h_ROW; row <= damping_ROW; row++)
        check_row(row_of(rig, row).at, row_of(other, row).at, row_of(rig, row).len, what);
    check(rig->c.accepted == other->c.accepted, what);
}

/* The first steps of the slope: in one piece, with a file between, and as a run. */
static void first_steps(void)
{
    static const int64_t due[4][16] = {
        {15971, 14987, 13996, 12998, 11999, 11000, 10000, 9000,
         8000,  7000,  6000,  5001,  4002,  3004,  2013,  1029},
        {15884, 14948, 13984, 12992, 11997, 10998, 10000, 9000,
         8000,  7001,  6001,  5004,  4009,  3015,  2053,  1114},
        {15742, 14883, 13963, 12981, 11992, 10996, 10000, 8999,
         8001,  7002,  6004,  5009,  4020,  3036,  2118,  1254},
        {15549, 14790, 13932, 12965, 11985, 10992, 9999, 8999,
         8002,  7004,  6008,  5016,  4037,  3067,  2210, 1445},
    };
    struct rig rig, filed, ran;
    slope(&rig);
    slope(&filed);
    for (size_t i = 0; i < 4; i++) {
        check_accepted(call(&rig, STEP), 1, "a first step");
        check_row(rig.c.e.at, due[i], 16, "the slope after it");
        through_a_file(&filed);
        check_accepted(call(&filed, STEP), 1, "a first step from a file");
        same_rows(&filed, &rig, "the slope from a file");
        slope(&ran);
        ran.c.wanted = i + 1;
        check_accepted(call(&ran, RUN), i + 1, "a run of the first steps");
        same_rows(&ran, &rig, "the slope after a run");
    }
}

/* A filter pass before a step changes the heights, and not the row of the ladder. */
static void filtered_first_steps(void)
{
    static const int64_t before_first[16] = {15951, 15023, 13976, 13002, 11999, 11000, 10000, 9000,
                                             8000,  7000,  6000,  5002,  3997,  3024,  1978,  1048};
    static const int64_t before_second[16] = {15867, 14979, 13966, 12997, 11995, 10999,
                                              10000, 9000,  8000,  7001,  6001,  5005,
                                              4003,  3035,  2020,  1132};
    static const int64_t before_third[16] = {15709, 14938, 13940, 12979, 11996, 10995, 10000, 9000,
                                             8000,  7002,  6005,  5004,  4023,  3059,  2062,  1288};
    struct rig rig;
    slope(&rig);
    check_accepted(call(&rig, FILTER), 0, "a filter pass before the first step");
    check_accepted(call(&rig, STEP), 1, "the first step after it");
    check_row(rig.c.e.at, before_first, 16, "and its heights");
    slope(&rig);
    check_accepted(call(&rig, STEP), 1, "the first step");
    check_accepted(call(&rig, FILTER), 0, "a filter pass before the second step");
    check_accepted(call(&rig, STEP), 1, "the second step after it");
    check_row(rig.c.e.at, before_second, 16, "and its heights");
    slope(&rig);
    check_accepted(call(&rig, STEP), 1, "the first step");
    check_accepted(call(&rig, FILTER), 0, "a filter pass");
    check_accepted(call(&rig, FILTER), 0, "and another before the second step");
    check_accepted(call(&rig, STEP), 1, "the second step after both");
    check_accepted(call(&rig, FILTER), 0, "a filter pass before the third step");
    check_accepted(call(&rig, STEP), 1, "the third step after it");
    check_row(rig.c.e.at, before_third, 16, "and its heights");
}

/* A slope whose levels are all different, after so many accepted steps. */
static void uneven_levels(struct rig *rig, uint64_t accepted)
{
    slope(rig);
    rig->c.accepted = accepted;
    rig->c.wanted = 1000000;
    for (size_t j = 0; j < rig->c.Q.len; j++)
        rig->c.Q.at[j] += 100000000 * ((int64_t)(j * j * 7 % 31) - 15);
    for (size_t j = 0; j < rig->c.F.len; j++)
        rig->c.F.at[j] += 1000 * ((int64_t)(j * j * 5 % 29) - 14);
}

/* Whether a step that leaves other levels leaves another trial: e, u and V. */
static bool other_trial(const struct rig *rig, const struct rig *other)
{
    bool same = true;
    for (int row = e_ROW; row <= V_ROW; row++)
        same = same && !memcmp(row_of(rig, row).at, row_of(other, row).at,
                               row_of(rig, row).len * sizeof(int64_t));
    return !same;
}

/* The same rows after other counts: from the third step on nothing depends on the count, and each
   row of the ladder leaves something else. A level whose weight is 0 may hold anything allowed. */
static void counts_and_rows(void)
{
    struct rig by[RUNGS], rig;
    for (size_t i = 0; i < RUNG_COUNTS; i++) {
        size_t rung = rungs[i].rung;
        uneven_levels(&rig, rungs[i].accepted);
        check_number(call(&rig, STEP).number, 0, "a step of uneven levels");
        check(rig.c.accepted == rungs[i].accepted + 1, "it is counted");
        if (rungs[i].accepted == rung)
            uneven_levels(&by[rung], rung), call(&by[rung], STEP);
        rig.c.accepted = by[rung].c.accepted;
        same_rows(&rig, &by[rung], "a step by the same row of the ladder");
        for (size_t level = 0; level < 3; level++) {
            uneven_levels(&rig, rungs[i].accepted);
            rig.c.Q.at[15 * level + 7] = Q_MOST / 1000;
            rig.c.F.at[16 * level + 7] = F_MOST / 1000;
            check_number(call(&rig, STEP).number, 0, "a step with a level that stands out");
            check(other_trial(&rig, &by[rung]) == (level <= rung), "it counts if it has a weight");
        }
    }
    check(other_trial(&by[0], &by[1]) && other_trial(&by[0], &by[2]) && other_trial(&by[1], &by[2]),
          "each row of the ladder leaves another trial");
}

/* The slope of 16 cells, each with a damping of its own, the last one with the largest. */
static void damped_slope(struct rig *rig)
{
    slope(rig);
    for (size_t j = 0; j < 16; j++)
        rig->c.damping.at[j] = j == 15 ? 10000 : (int64_t)(j * j * 1237 + 500 * j) % 9999;
    check_accepted(call(rig, MAKE), 0, "a damped slope is made");
}

/* Whether the newest F of a channel is what its heights and velocities give without damping, less
   what its damping takes by these velocities. */
static bool damped_as_left(const struct rig *rig)
{
    struct rig plain;
    bool good = true;
    still(&plain, (size_t)rig->c.N);
    plain.c.X = rig->c.X;
    for (int row = h_ROW; row <= u_ROW; row++)
        memcpy(row_of(&plain, row).at, row_of(rig, row).at, row_of(rig, row).len * sizeof(int64_t));
    check_accepted(call(&plain, MAKE), 0, "what is left is made without damping");
    for (size_t j = 0; j < rig->c.N; j++)
        good &= is_rounded(plain.c.F.at[j] - rig->c.F.at[j],
                           rig->c.damping.at[j] * rig->c.u.at[j], 1000);
    return good;
}

/* What make, each of the first steps and a filter pass leave is damped; what they do not work out
   is as it was, and so is the damping. */
static void damped_calls(void)
{
    struct rig rig, plain;
    int64_t damping[16], older[32];
    slope(&plain);
    damped_slope(&rig);
    memcpy(damping, rig.c.damping.at, sizeof damping);
    for (int row = h_ROW; row <= Q_ROW; row++)
        check_row(row_of(&rig, row).at, row_of(&plain, row).at, row_of(&rig, row).len,
                  "make damps F alone");
    check(damped_as_left(&rig), "what make leaves is damped");
    for (size_t level = 1; level < 3; level++)
        check_row(rig.c.F.at + 16 * level, rig.c.F.at, 16, "in every level");
    for (size_t i = 0; i < 4; i++) {
        memcpy(older, rig.c.F.at, sizeof older);
        check_number(call(&rig, STEP).number, 0, "a damped step");
        check(damped_as_left(&rig), "what a step leaves is damped");
        check_row(rig.c.F.at + 16, older, 32, "the levels that it moves down stay");
    }
    still(&plain, 16);
    plain.c.X = rig.c.X;
    plain.c.T = rig.c.T;
    for (int row = h_ROW; row <= F_ROW; row++)
        memcpy(row_of(&plain, row).at, row_of(&rig, row).at, row_of(&rig, row).len * sizeof(int64_t));
    check_accepted(call(&rig, FILTER), 0, "a damped filter pass");
    check_accepted(call(&plain, FILTER), 0, "the same without damping");
    check(damped_as_left(&rig), "what a filter pass leaves is damped");
    for (int row = h_ROW; row <= Q_ROW; row++)
        check_row(row_of(&rig, row).at, row_of(&plain, row).at, row_of(&rig, row).len,
                  "a filter pass damps F alone");
    check_row(rig.c.F.at + 16, plain.c.F.at + 16, 32, "and its newest level alone");
    check_row(rig.c.damping.at, damping, 16, "no call changes the damping");
}

/* The trial of every stage of a step is damped by the u that is solved for it. */
static void damped_stages(void)
{
    static struct work k;
    struct rig rig;
    struct sums sums;
    damped_slope(&rig);
    rig.c.u.at[3] = u_MOST; /* not read */
    check_accepted(open_refusal(&k, &rig.c, &rig.s), 0, "the input of a damped step");
    memset(k.float_u, 0, sizeof k.float_u);
    for (unsigned stage = 0; stage <= 3; stage++) {
        static const int64_t none[CELLS];
        int64_t F[16], taken = 0;
        check_number(stage == 0 ? predict(&k, &rig.c, rig.s.at) : correct(&k, &rig.c, &sums), 0,
                     "a damped stage");
        check_number(backward(&k, &sums), 0, "its velocities");
        check_number(levels(&k), 0, "its levels");
        memcpy(F, k.F, sizeof F);
        k.damping = none;
        check_number(levels(&k), 0, "the same without damping");
        k.damping = rig.c.damping.at;
        for (size_t j = 0; j < 16; j++) {
            int64_t n = k.damping[j] * k.u[GHOST + j];
            check(is_rounded(k.F[j] - F[j], n, 1000), "F of a stage is damped");
            taken += k.F[j] != F[j];
            k.F[j] = F[j];
        }
        check(taken >= 12, "nearly everywhere");
    }
}

/* Damped steps one by one, with a file between, and as a run. */
static void damped_steps(void)
{
    struct rig rig, filed, ran, plain;
    damped_slope(&rig);
    damped_slope(&filed);
    slope(&plain);
    for (size_t i = 0; i < 4; i++) {
        check_number(call(&rig, STEP).number, 0, "a damped step");
        through_a_file(&filed);
        check_number(call(&filed, STEP).number, 0, "a damped step from a file");
        same_rows(&filed, &rig, "a damped slope from a file");
        damped_slope(&ran);
        ran.c.wanted = i + 1;
        check_accepted(call(&ran, RUN), i + 1, "a damped run");
        same_rows(&ran, &rig, "a damped slope after a run");
        check_number(call(&plain, STEP).number, 0, "a step without damping");
        check(other_trial(&rig, &plain), "which leaves something else");
    }
}

/* The stored u is checked and otherwise not read by a step, damped or not. */
static void stored_u(int64_t damping)
{
    struct rig one, other;
    still(&one, 8);
    one.c.e.at[3] = 5000;
    damp(&one, damping);
    still(&other, 8);
    other.c.e.at[3] = 5000;
    damp(&other, damping);
    for (size_t j = 0; j < 8; j++)
        other.c.u.at[j] = 20000000;
    check_accepted(call(&one, STEP), call(&other, STEP).count, "the stored u is not read");
    check_row(one.c.u.at, other.c.u.at, 8, "nor does it stay");
    check_row(one.c.e.at, other.c.e.at, 8, "nor moves water");
    check_row(one.c.F.at, other.c.F.at, 24, "nor damps");
}

static void pouring(void)
{
    bool good = true;
    struct rig rig;
    still(&rig, 8);
    for (size_t j = 0; j < 8; j++)
        ((int64_t *)rig.s.at)[j] = 1000;
    check_accepted(call(&rig, STEP), 1, "level pouring");
    for (size_t j = 0; j < 8; j++)
        good &= rig.c.e.at[j] == 1000;
    check(good, "poured once");
}

static void runs(void)
{
    static const int64_t e[8] = {-100000, 0, 0, 0, 400000, 100000, 0, 0};
    static const int64_t ran_e[8] = {211413, 36002, 9428, -165256, 16486, 7650, 189594, 94683};
    struct rig rig;
    still(&rig, 8);
    rig.c.accepted = 3;
    check_accepted(call(&rig, RUN), 7, "a run to its end");
    check(rig.c.accepted == 10, "it is complete");
    check_accepted(call(&rig, RUN), 0, "a run of what is complete");
    still(&rig, 8);
    rig.c.X = 20;
    rig.c.T = 5;
    rig.c.wanted = 40;
    depths(&rig, 5000);
    memcpy(rig.c.e.at, e, sizeof e);
    check_accepted(call(&rig, MAKE), 0, "a run's make");
    check_answer(call(&rig, RUN), 10, 10, 0, 19, "a run that is refused a step");
    check(rig.c.accepted == 19, "it keeps what was accepted");
    check_row(rig.c.e.at, ran_e, 8, "and the water of that");
    refused(&rig, STEP, 10, 10, 0, "the step it was refused");
}

/* Cells 3 and 6 fall dry in the prediction: a step's answer and a run's. */
static void dry_prediction(void)
{
    struct rig rig;
    still(&rig, 8);
    rig.c.T = 1;
    depths(&rig, 2);
    rig.c.e.at[2] = rig.c.e.at[5] = -1000;
    for (size_t level = 0; level < 3; level++)
        rig.c.Q.at[7 * level + 2] = rig.c.Q.at[7 * level + 5] = 1000000000;
    refused(&rig, STEP, 4, 0, 3, "cells 3 and 6 fall dry");
    refused(&rig, RUN, 4, 0, 3, "a run's first step");
    check_accepted(call(&rig, FILTER), 0, "the filter lets it be");
}

/* A run whose third step is refused 4 at its first correction, in cell 7. */
static void dry_run(void)
{
    static const int64_t h[8] = {63, 55, 53, 66, 60, 55, 54, 67};
    static const int64_t e[8] = {-32667, -48999, -30063, -7379, 49344, 37973, 22244, -36630};
    static const int64_t u[8] = {-136930, -493786, -632086, -851662, 941976, 21602, -905142,
                                 933422};
    struct rig rig;
    still(&rig, 8);
    rig.c.X = 200;
    rig.c.T = 100;
    memcpy(rig.c.h.at, h, sizeof h);
    memcpy(rig.c.e.at, e, sizeof e);
    memcpy(rig.c.u.at, u, sizeof u);
    check_accepted(call(&rig, MAKE), 0, "a dry run's make");
    check_answer(call(&rig, RUN), 4, 1, 7, 2, "a run that falls dry");
    check(rig.c.accepted == 2, "it keeps two steps");
    refused(&rig, STEP, 4, 1, 7, "the step that falls dry");
}

/* A channel file of 8 cells, written from a channel with telling values. */
static size_t telling_file(struct rig *rig, uint8_t *bytes)
{
    still(rig, 8);
    rig->c.X = 0x0403;
    rig->c.T = 0x21;
    rig->c.accepted = 0x030201;
    rig->c.wanted = 0x030202;
    for (size_t j = 0; j < 8; j++) {
        rig->c.h.at[j] = 1000 + (int64_t)j;
        rig->c.e.at[j] = (int64_t)j - 4;
        rig->c.u.at[j] = -(int64_t)j;
        rig->c.V.at[j] = j % 2 ? V_MOST : -V_MOST;
    }
    for (size_t j = 0; j < 21; j++)
        rig->c.Q.at[j] = j % 2 ? -Q_MOST + (int64_t)j : Q_MOST - (int64_t)j;
    for (size_t j = 0; j < 24; j++)
        rig->c.F.at[j] = j % 2 ? -F_MOST + (int64_t)j : F_MOST - (int64_t)j;
    for (size_t j = 0; j < 8; j++)
        rig->c.damping.at[j] = 10000 - 1111 * (int64_t)j;
    check_accepted(second_write(&rig->c, bytes, 572), 0, "a file is written");
    return 572;
}

static void file_bytes(void)
{
    static const uint8_t head[52] = {2,   0, 0, 0, 8,   0, 0, 0, 3,   4, 0, 0, 0x21, 0, 0, 0,
                                     1,   2, 3, 0, 2,   2, 3, 0, 52,  0, 0, 0, 84,   0, 0, 0,
                                     116, 0, 0, 0, 148, 0, 0, 0, 180, 0, 0, 0, 92,   1, 0, 0,
                                     28,  2, 0, 0};
    static const uint8_t minus_4[4] = {0xfc, 0xff, 0xff, 0xff};
    static const uint8_t newest_Q[8] = {0, 0x80, 0xc6, 0xa4, 0x7e, 0x8d, 3, 0};
    static const uint8_t second_F[8] = {1, 0x18, 0x89, 0xb7, 0xe8, 0xff, 0xff, 0xff};
    static const uint8_t dampings[8] = {0x10, 0x27, 0, 0, 0xb9, 0x22, 0, 0};
    struct rig rig, back;
    uint8_t bytes[572 + 8];
    memset(bytes, 0xa5, sizeof bytes);
    telling_file(&rig, bytes);
    check(memcmp(bytes, head, 52) == 0, "counts and offsets");
    check(memcmp(bytes + 84, minus_4, 4) == 0, "height of cell 1");
    check(memcmp(bytes + 180, newest_Q, 8) == 0, "newest flux");
    check(memcmp(bytes + 348 + 8, second_F, 8) == 0, "acceleration of cell 2");
    check(memcmp(bytes + 540, dampings, 8) == 0, "damping of cells 1 and 2");
    check(bytes[572] == 0xa5, "nothing beyond the file");
    still(&back, 8);
    memset(back.c.h.at, 0x77, 8 * sizeof(int64_t));
    memset(back.c.damping.at, 0x77, 8 * sizeof(int64_t));
    check_accepted(second_read(bytes, 572, &back.c), 0, "a file is read");
    check(back.c.N == 8 && back.c.X == 0x0403 && back.c.T == 0x21 && back.c.accepted == 0x030201 &&
              back.c.wanted == 0x030202,
          "counts come back");
    for (int row = h_ROW; row <= damping_ROW; row++)
        check_row(row_of(&back, row).at, row_of(&rig, row).at, row_of(&rig, row).len,
                  "a row comes back");
    for (size_t len = 0; len < 580; len++)
        if (len != 572 && (len < 4 || len > 530)) {
            uint8_t before[sizeof bytes];
            memcpy(before, bytes, sizeof bytes);
            check_answer(second_write(&rig.c, bytes, len), 15, 0, 0, 0,
                         "a buffer of another length");
            check(memcmp(before, bytes, sizeof bytes) == 0, "which stays as it was");
        }
}

/* Reads bytes that must be refused so, with and without lent rows. */
static void file_refused(const uint8_t *bytes, size_t len, unsigned number, unsigned place,
                         const char *what)
{
    static struct rig rig, before;
    char text[SECOND_LINE], due[SECOND_LINE];
    still(&rig, 8);
    memcpy(&before, &rig, sizeof rig);
    check_answer(second_read(bytes, len, &rig.c), number, 0, place, 0, what);
    check(memcmp(&before, &rig, sizeof rig) == 0, "a refused file changes nothing");
    check_answer(second_print(bytes, len, text), number, 0, place, 0, "printing is refused too");
    snprintf(due, sizeof due, "refused %u\n", number);
    check(strcmp(text, due) == 0, "the line of a refused file");
}

/* Faults are laid one upon another, the last in the order first. */
static void file_order(void)
{
    struct rig rig;
    uint8_t bytes[600] = {0};
    size_t len = telling_file(&rig, bytes);
    for (size_t j = 0; j < 8; j++)
        put(bytes + 52 + 4 * j, j == 4 ? 1000 : 2100, 4);
    file_refused(bytes, len, 5, 5, "a file not dominant");
    put(bytes + 8, 20, 4);
    file_refused(bytes, len, 26, 0, "a file whose time step is too long");
    put(bytes + 84, (uint64_t)(999 - 2100000), 4);
    file_refused(bytes, len, 4, 1, "a file with too little water");
    put(bytes + 540 + 5 * 4, 10001, 4);
    file_refused(bytes, len, 38, 6, "a file with a damping outside");
    put(bytes + 348 + 23 * 8, (uint64_t)(F_MOST + 1), 8);
    file_refused(bytes, len, 36, 8, "a file with an acceleration outside");
    put(bytes + 180 + 13 * 8, (uint64_t)(-Q_MOST - 1), 8);
    file_refused(bytes, len, 35, 7, "a file with a flux outside");
    put(bytes + 148 + 2 * 4, (uint64_t)(V_MOST + 1), 4);
    file_refused(bytes, len, 34, 3, "a file with V outside");
    put(bytes + 116 + 3 * 4, (uint64_t)(-u_MOST - 1), 4);
    file_refused(bytes, len, 33, 4, "a file with u outside");
    put(bytes + 84 + 5 * 4, (uint64_t)(e_MOST + 1), 4);
    file_refused(bytes, len, 32, 6, "a file with a height outside");
    put(bytes + 52 + 6 * 4, 0, 4);
    file_refused(bytes, len, 31, 7, "a file with a depth outside");
    put(bytes + 20, 0x030200, 4);
    file_refused(bytes, len, 2, 0, "a file accepted beyond wanted");
    put(bytes + 48, 541, 4);
    file_refused(bytes, len, 14, 0, "a file of other offsets");
    file_refused(bytes, len - 1, 12, 0, "a short file");
    file_refused(bytes, len + 1, 12, 0, "a long file");
    for (size_t some = 48; some <= 52; some++)
        file_refused(bytes, some, 12, 0, "a file of counts alone");
    put(bytes + 4, 257, 4);
    file_refused(bytes, len, 1, 0, "a file of 257 cells");
    put(bytes + 4, 7, 4);
    file_refused(bytes, len, 1, 0, "a file of 7 cells");
    put(bytes + 4, UINT32_MAX, 4);
    file_refused(bytes, len, 1, 0, "a file of 2^32 - 1 cells");
    for (size_t some = 48; some <= 52; some++)
        file_refused(bytes, some, 1, 0, "its counts alone, or less than these");
    put(bytes, 3, 4);
    file_refused(bytes, len, 13, 0, "a file of edition 3");
    file_refused(bytes, 48, 13, 0, "48 bytes of edition 3");
    file_refused(bytes, 47, 12, 0, "47 bytes");
    file_refused(bytes, 0, 12, 0, "no bytes");
}

/* Files of edition 1: such as it was, and a whole one of edition 2 that is said to be one. */
static void earlier_edition(void)
{
    static const uint64_t offsets[6] = {48, 80, 112, 144, 176, 344};
    struct rig rig;
    uint8_t bytes[572], earlier[536];
    telling_file(&rig, bytes);
    put(bytes, 1, 4);
    file_refused(bytes, 572, 13, 0, "a file that is said to be of edition 1");
    memcpy(earlier, bytes, 24);
    for (size_t i = 0; i < 6; i++)
        put(earlier + 24 + 4 * i, offsets[i], 4);
    memcpy(earlier + 48, bytes + 52, 488);
    file_refused(earlier, 536, 13, 0, "a file of edition 1");
    file_refused(earlier, 48, 13, 0, "48 bytes of it");
    file_refused(earlier, 47, 12, 0, "47 bytes of it");
    put(earlier + 4, 7, 4);
    file_refused(earlier, 536, 13, 0, "one of 7 cells");
}

static void file_offsets(void)
{
    struct rig rig;
    uint8_t bytes[572];
    for (size_t at = 24; at < 52; at++) {
        telling_file(&rig, bytes);
        bytes[at] ^= 1;
        file_refused(bytes, 572, 14, 0, "an offset");
    }
    telling_file(&rig, bytes);
    put(bytes + 16, UINT32_MAX, 4);
    file_refused(bytes, 572, 2, 0, "counts are unsigned");
}

/* Dampings in the bytes of a file: signed, and each at its bounds. */
static void file_dampings(void)
{
    static const uint64_t outside[] = {UINT32_MAX, 10001, 0x7fffffff, 0x80000000, 0xffff2710, 65536};
    struct rig rig;
    uint8_t bytes[572];
    for (size_t cell = 1; cell <= 8; cell++) {
        for (size_t i = 0; i < sizeof outside / sizeof *outside; i++) {
            telling_file(&rig, bytes);
            put(bytes + 540 + 4 * (cell - 1), outside[i], 4);
            file_refused(bytes, 572, 38, (unsigned)cell, "a damping in a file");
            put(bytes + 540 + 4 * 7, 10001, 4);
            file_refused(bytes, 572, 38, (unsigned)cell, "it and one in the last cell");
        }
        for (uint64_t damping = 0; damping <= 10000; damping += 2500) {
            telling_file(&rig, bytes);
            put(bytes + 540 + 4 * (cell - 1), damping, 4);
            check_accepted(second_read(bytes, 572, &rig.c), 0, "an allowed damping in a file");
            check_number(rig.c.damping.at[cell - 1], (int64_t)damping, "which is read");
        }
    }
}

static void file_lent_rows(void)
{
    struct rig rig, nine;
    uint8_t bytes[572];
    telling_file(&rig, bytes);
    still(&nine, 9);
    check_answer(second_read(bytes, 572, &nine.c), 1, 0, 0, 0, "rows lent for 9 cells");
    check_answer(second_read(bytes, 500, &nine.c), 1, 0, 0, 0, "lent rows come before the length");
    check(nine.c.N == 9 && nine.c.h.at[0] == 1000, "and stay as they were");
    still(&rig, 8);
    rig.c.F.len = 8;
    check_answer(second_read(bytes, 572, &rig.c), 1, 0, 0, 0, "one level lent for three");
    still(&rig, 8);
    rig.c.damping.len = 7;
    check_answer(second_read(bytes, 572, &rig.c), 1, 0, 0, 0, "a short damping row lent");
    still(&rig, 8);
    rig.c.N = 77;
    check_accepted(second_read(bytes, 572, &rig.c), 0, "the lent channel's N is not read");
}

/* Files, which no writer gives, whose time step is too long by one ms, or by one mm of a depth. */
static void file_time_step(void)
{
    struct rig rig;
    uint8_t bytes[572];
    stepping(&rig, 20, 22, 500);
    check_accepted(second_write(&rig.c, bytes, 572), 0, "the longest time step is written");
    check_accepted(second_read(bytes, 572, &rig.c), 0, "and read");
    bytes[12] = 23;
    file_refused(bytes, 572, 26, 0, "a file one ms above it");
    stepping(&rig, 500, 100, 15280);
    rig.c.h.at[7] = 15290;
    check_accepted(second_write(&rig.c, bytes, 572), 0, "the deepest last cell is written");
    check_accepted(second_read(bytes, 572, &rig.c), 0, "and read");
    put(bytes + 52 + 7 * 4, 15291, 4);
    file_refused(bytes, 572, 26, 0, "a file whose last cell is one mm deeper");
}

static void printed(void)
{
    struct rig rig;
    uint8_t bytes[SECOND_FILE];
    char text[SECOND_LINE];
    still(&rig, 8);
    for (size_t j = 0; j < 8; j++)
        rig.c.e.at[j] = 7;
    second_write(&rig.c, bytes, 572);
    check_accepted(second_print(bytes, 572, text), 0, "a file is printed");
    check(strcmp(text, "8 0 10 open 56\n") == 0, "its line");
    rig.c.accepted = 10;
    second_write(&rig.c, bytes, 572);
    second_print(bytes, 572, text);
    check(strcmp(text, "8 10 10 done 56\n") == 0, "a complete file's line");
    still(&rig, 256);
    depths(&rig, 20000);
    rig.c.X = 5000;
    rig.c.accepted = rig.c.wanted = 1000000;
    for (size_t j = 0; j < 256; j++)
        rig.c.e.at[j] = -19999000;
    check_accepted(second_write(&rig.c, bytes, SECOND_FILE), 0, "the longest file");
    second_print(bytes, SECOND_FILE, text);
    check(strcmp(text, "256 1000000 1000000 done -5119744000\n") == 0, "the longest line");
}

/* A record and what is counted of it. */
#define RECORD(...) \
    (struct second_read_row){(const int64_t[]){__VA_ARGS__}, \
                             sizeof(int64_t[]){__VA_ARGS__} / sizeof(int64_t)}

static void check_waves(struct second_read_row record, uint64_t crossings, uint64_t waves,
                        int64_t largest, int64_t sum, const char *what)
{
    struct second_waves got = second_waves(record);
    bool good = got.crossings == crossings && got.waves == waves && got.largest == largest &&
                got.sum == sum;
    check(good, what);
    if (!good)
        printf("  got %" PRIu64 " %" PRIu64 " %" PRId64 " %" PRId64 "\n", got.crossings, got.waves,
               got.largest, got.sum);
}

static void whole_records(void)
{
    check_waves((struct second_read_row){NULL, 0}, 0, 0, 0, 0, "no height");
    check_waves(RECORD(5), 0, 0, 0, 0, "one height");
    check_waves(RECORD(-5), 0, 0, 0, 0, "one height below zero");
    check_waves(RECORD(-1, 0, 5, -3, -1, 2, 7, -2, 0, 3), 3, 2, 9, 17, "the worked example");
    check_waves(RECORD(-1, 0), 1, 0, 0, 0, "zero after one below zero is a crossing");
    check_waves(RECORD(0, 0, 0, 0), 0, 0, 0, 0, "zero after zero is none");
    check_waves(RECORD(0, 1, 2), 0, 0, 0, 0, "the first height is none");
    check_waves(RECORD(4, 4, 4), 0, 0, 0, 0, "a constant one");
    check_waves(RECORD(-4, -4, -4), 0, 0, 0, 0, "a constant one below zero");
    check_waves(RECORD(-3, -2, -1, 0, 1, 2), 1, 0, 0, 0, "rising only");
    check_waves(RECORD(3, 2, 1, 0, -1, -2), 0, 0, 0, 0, "falling only");
    check_waves(RECORD(-1, 0, -1, 0, -1), 2, 1, 1, 1, "touching zero from below");
    check_waves(RECORD(1, 0, 1, 0, 1), 0, 0, 0, 0, "touching zero from above");
    check_waves(RECORD(-1, 0, 0, 0, -2, 0, 0), 2, 1, 2, 2, "staying at zero");
    check_waves(RECORD(-50, 1, 3, -1, 2), 2, 1, 4, 4, "what came before the first crossing");
    check_waves(RECORD(-1, 1, 3, -1, 90), 2, 1, 4, 4, "a crossing's height is the next wave's");
    check_waves(RECORD(-1, 1, 3, -1, 2, 80, -70), 2, 1, 4, 4, "the open wave counts nowhere");
    check_waves(RECORD(-1, 1, 9, -9, 1, 2, -3, 0), 3, 2, 18, 23, "the largest may come first");
    check_waves(RECORD(-19999000, 20000000, -19999000, 20000000), 2, 1, 39999000, 39999000,
                "the highest wave");
}

static void longest_record(void)
{
    static int64_t at[1000000];
    for (size_t i = 0; i < 1000000; i++)
        at[i] = i % 2 ? 20000000 : -19999000;
    check_waves((struct second_read_row){at, 1000000}, 500000, 499999, 39999000, 19999460001000,
                "the longest record holds at most so much");
}

/* A gauge of a state. */
static void set_gauge(uint8_t *state, size_t i, const int64_t *g)
{
    put_row(state + 8 * GAUGE * i, (struct second_row){(int64_t *)g, GAUGE}, 8);
}

/* The state of the gauges with a byte that nobody may touch on each side. */
struct gauge_rig {
    struct rig rig;
    uint8_t before, state[SECOND_STATE], behind;
};

static void gauges_of(struct gauge_rig *g, size_t N)
{
    memset(g, 0, sizeof *g);
    still(&g->rig, N);
    depths(&g->rig, 20000);
    g->rig.c.X = 5000;
    g->before = g->behind = 0x5a;
}

enum gauge_call { PLACE, FEED, TELL };

static struct second_answer gauge_call(struct gauge_rig *g, enum gauge_call which, size_t len,
                                       uint64_t cell)
{
    int64_t told[SECOND_READINGS];
    switch (which) {
    case PLACE:
        return second_place_gauge(&g->rig.c, g->state, len, cell);
    case FEED:
        return second_feed_gauges(&g->rig.c, g->state, len);
    default:
        return second_read_gauges(g->state, len, (struct second_row){told, cell ? 48 : 47});
    }
}

static void gauge_refused(struct gauge_rig *g, enum gauge_call which, size_t len, uint64_t cell,
                          unsigned number, const char *what)
{
    static struct gauge_rig before;
    memcpy(&before, g, sizeof before);
    check_answer(gauge_call(g, which, len, cell), number, 0, 0, 0, what);
    check(memcmp(&before, g, sizeof before) == 0, "a refused call of a gauge changes nothing");
}

static void check_gauge(const struct gauge_rig *g, size_t i, const int64_t *due, const char *what)
{
    struct gauges got;
    check(take_gauges(g->state, SECOND_STATE, &got) == 0, "a state");
    check_row(got.at[i], due, GAUGE, what);
}

static void feed_each(struct gauge_rig *g, size_t cell, struct second_read_row record)
{
    for (size_t i = 0; i < record.len; i++) {
        g->rig.c.e.at[cell - 1] = record.at[i];
        check_accepted(gauge_call(g, FEED, SECOND_STATE, 0), 0, "gauges are fed");
    }
}

static void placing(void)
{
    static struct gauge_rig g;
    gauges_of(&g, 8);
    feed_each(&g, 3, RECORD(-1, 1));
    for (size_t i = 0; i < SECOND_STATE; i++)
        check(g.state[i] == 0, "feeding where there is no gauge");
    gauge_refused(&g, PLACE, SECOND_STATE, 0, 21, "cell 0");
    gauge_refused(&g, PLACE, SECOND_STATE, 9, 21, "the cell behind the last");
    gauge_refused(&g, PLACE, SECOND_STATE, UINT64_MAX, 21, "cell 2^64 - 1");
    gauge_refused(&g, PLACE, SECOND_STATE, UINT64_C(0x100000001), 21, "cell 2^32 + 1");
    for (uint64_t i = 1; i <= 8; i++)
        check_accepted(gauge_call(&g, PLACE, SECOND_STATE, i == 2 ? 1 : i), i, "a gauge's place");
    check_gauge(&g, 1, (int64_t[GAUGE]){1}, "two at one cell, with nothing fed");
    gauge_refused(&g, PLACE, SECOND_STATE, 3, 20, "a ninth gauge");
    gauge_refused(&g, PLACE, SECOND_STATE, 9, 20, "a ninth gauge before its cell");
    memset(g.state + 64 * 3, 0, 64);
    memset(g.state + 64 * 6, 0, 64);
    check_accepted(gauge_call(&g, PLACE, SECOND_STATE, 5), 4, "the lowest empty place");
    check_gauge(&g, 3, (int64_t[GAUGE]){5}, "its cell");
    check(g.before == 0x5a && g.behind == 0x5a, "the bytes about a state");
}

static void feeding(void)
{
    static struct gauge_rig g;
    static int64_t told[SECOND_READINGS];
    gauges_of(&g, 8);
    gauge_call(&g, PLACE, SECOND_STATE, 2);
    feed_each(&g, 2, RECORD(-1, 0, 5, -3));
    check_gauge(&g, 0, (int64_t[GAUGE]){2, 4, -3, 1, 5, -3, 0, 0}, "the example to its fourth");
    gauge_call(&g, PLACE, SECOND_STATE, 2);
    feed_each(&g, 2, RECORD(-1, 2, 7, -2, 0, 3));
    check_gauge(&g, 0, (int64_t[GAUGE]){2, 10, 3, 3, 3, 0, 9, 17}, "the worked example");
    check_gauge(&g, 1, (int64_t[GAUGE]){2, 6, 3, 2, 3, 0, 9, 9}, "a gauge placed late");
    g.rig.c.accepted = g.rig.c.wanted;
    feed_each(&g, 2, RECORD(-9));
    check_gauge(&g, 0, (int64_t[GAUGE]){2, 11, -9, 3, 3, -9, 9, 17}, "a complete channel feeds");
    check_accepted(second_read_gauges(g.state, SECOND_STATE, (struct second_row){told, 48}), 0,
                   "gauges are read");
    check_row(told, (int64_t[18]){2, 11, 3, 2, 9, 17, 2, 7, 2, 1, 9, 9}, 18, "what is read");
    check(g.before == 0x5a && g.behind == 0x5a, "the bytes about a state");
}

/* States that no record gives, fed by the rule all the same. */
static void feeding_any_state(void)
{
    static struct gauge_rig g;
    static const int64_t from[3][GAUGE] = {{1, 9, -5, 0, 70, 60, 0, 0},
                                           {1, 9, -5, 2, -70, -80, 3, 4},
                                           {1, 9, 5, 2, -70, -80, 3, 4}};
    static const int64_t to[3][GAUGE] = {{1, 10, 6, 1, 6, 6, 0, 0},
                                         {1, 10, 6, 3, 6, 6, 10, 14},
                                         {1, 10, 6, 2, 6, -80, 3, 4}};
    static const int64_t on[3][GAUGE] = {{1, 10, -6, 0, 70, 60, 0, 0},
                                         {1, 10, -6, 2, -6, -80, 3, 4},
                                         {1, 10, -6, 2, -6, -80, 3, 4}};
    for (size_t i = 0; i < 3; i++) {
        gauges_of(&g, 8);
        set_gauge(g.state, 5, from[i]);
        feed_each(&g, 1, RECORD(6));
        check_gauge(&g, 5, to[i], "any state fed a height above zero");
        set_gauge(g.state, 5, from[i]);
        feed_each(&g, 1, RECORD(-6));
        check_gauge(&g, 5, on[i], "any state fed a height below zero");
    }
}

/* A number of an allowed gauge set so: whether its state is then one. */
static void gauge_number(const int64_t *from, size_t number, int64_t to, bool allowed)
{
    static struct gauge_rig g;
    int64_t changed[GAUGE];
    memcpy(changed, from, sizeof changed);
    changed[number] = to;
    gauges_of(&g, 8);
    set_gauge(g.state, 7, changed);
    if (allowed)
        check_accepted(gauge_call(&g, TELL, SECOND_STATE, 1), 0, "a gauge at its bounds");
    else
        for (enum gauge_call which = PLACE; which <= TELL; which++)
            gauge_refused(&g, which, SECOND_STATE, 1, 14, "a gauge out of its bounds");
}

static void gauge_bounds(void)
{
    static const int64_t g[GAUGE] = {4, 21, -7, 10, 6, 2, 5, 40};
    static const int64_t low[GAUGE] = {1, 21, -19999000, 2, 2, -19999000, 0, 5};
    static const int64_t high[GAUGE] = {256, 1000000, 20000000, 10, 20000000, 6, 40, 359991000};
    for (size_t i = 0; i < GAUGE; i++) {
        gauge_number(g, i, low[i], true);
        gauge_number(g, i, high[i], true);
        gauge_number(g, i, low[i] - 1, false);
        gauge_number(g, i, high[i] + 1, false);
        gauge_number(g, i, INT64_MAX, false);
        gauge_number(g, i, INT64_MIN, false);
    }
    gauge_number((int64_t[GAUGE]){4, 1, 0, 0, 0, 0, 0, 0}, SUM, 1, false);
    gauge_number((int64_t[GAUGE]){4, 2, 0, 1, 0, 0, 0, 0}, SUM, 1, false);
    gauge_number((int64_t[GAUGE]){4, 4, 0, 2, 0, 0, 0, 0}, SUM, 39999000, true);
    gauge_number((int64_t[GAUGE]){4, 1, -1, 0, 0, 0, 0, 0}, FED, 0, false);
    gauge_number((int64_t[GAUGE]){4, 6, 0, 3, 0, 0, 9, 79998000}, LARGEST, 39999000, true);
    gauge_number((int64_t[GAUGE]){4, 6, 0, 3, 0, 0, 9, 79998000}, LARGEST, 39999001, false);
    for (size_t i = 0; i < GAUGE; i++)
        gauge_number((int64_t[GAUGE]){0}, i, 1, i == CELL);
}

static void gauge_order(void)
{
    static struct gauge_rig g;
    static const int64_t full[GAUGE] = {8, 1000000, 5, 0, 0, 0, 0, 0}, far[GAUGE] = {9};
    gauges_of(&g, 8);
    set_gauge(g.state, 0, full);
    gauge_refused(&g, FEED, SECOND_STATE, 0, 30, "a gauge that is full");
    set_gauge(g.state, 1, far);
    gauge_refused(&g, FEED, SECOND_STATE, 0, 21, "a cell off the channel before a full gauge");
    check_accepted(gauge_call(&g, PLACE, SECOND_STATE, 1), 3, "placing looks at neither");
    for (size_t i = 0; i < 8; i++)
        set_gauge(g.state, i, full);
    put(g.state + 8 * 9, UINT64_MAX, 8);
    gauge_refused(&g, PLACE, SECOND_STATE, 0, 14, "a state out of its bounds before a ninth gauge");
    gauge_refused(&g, FEED, SECOND_STATE, 0, 14, "and before a full one");
    gauge_refused(&g, TELL, SECOND_STATE, 0, 14, "and before the room for the readings");
    gauge_refused(&g, TELL, SECOND_STATE - 1, 0, 12, "a short state first");
    gauge_refused(&g, FEED, SECOND_STATE + 1, 0, 12, "a long state first");
    gauge_refused(&g, PLACE, 0, 0, 12, "no state first");
    g.rig.c.X = 9;
    gauge_refused(&g, PLACE, 0, 0, 2, "the channel's own refusal before all");
    gauge_refused(&g, FEED, 0, 0, 2, "the channel's own refusal before all");
    gauges_of(&g, 8);
    g.rig.c.X = 571;
    g.rig.c.T = 100;
    gauge_refused(&g, PLACE, SECOND_STATE, 1, 26, "a gauge where the time step is too long");
    gauge_refused(&g, FEED, SECOND_STATE, 0, 26, "gauges fed where it is too long");
    gauge_refused(&g, PLACE, 0, 0, 26, "which comes before the state");
    gauge_refused(&g, FEED, 0, 0, 26, "which comes before the state");
    gauges_of(&g, 8);
    gauge_refused(&g, TELL, SECOND_STATE, 0, 15, "room for 47 readings");
    g.rig.c.e.at[4] = -19999001;
    check_answer(gauge_call(&g, FEED, 0, 0), 4, 0, 5, 0, "the channel's refusal has its place");
}

/* Records of any kind: the state fed step by step and the whole record. */
static void states_and_records(void)
{
    static struct gauge_rig g;
    static int64_t told[SECOND_READINGS], record[40];
    uint64_t seed = 7;
    bool good = true;
    for (int round = 0; round < 2000; round++) {
        gauges_of(&g, 8);
        gauge_call(&g, PLACE, SECOND_STATE, 8);
        for (size_t i = 0; i < 40; i++) {
            seed = seed * 6364136223846793005u + 1442695040888963407u;
            g.rig.c.e.at[7] = record[i] = (int64_t)(seed >> 40) % 7 - 3;
            gauge_call(&g, FEED, SECOND_STATE, 0);
            second_read_gauges(g.state, SECOND_STATE, (struct second_row){told, 48});
            struct second_waves due = second_waves((struct second_read_row){record, i + 1});
            good = good && told[1] == (int64_t)i + 1 && told[2] == (int64_t)due.crossings &&
                   told[3] == (int64_t)due.waves && told[4] == due.largest && told[5] == due.sum;
        }
    }
    check(good, "states count what the whole records hold");
}

int main(void)
{
    case_1_rounding();
    quotients();
    quick_quotients();
    case_2_D();
    case_3_acceleration();
    case_4_plain_part();
    damped_slopes();
    rounded_apart();
    damped_quotients();
    largest_F();
    case_5_movement();
    weights();
    newest_alone();
    case_6_dispersive_part();
    case_7_coefficients();
    case_8_dominance();
    wall_dominance();
    strict_dominance();
    case_9_settling();
    case_10_filter();
    filtered_halves();
    case_11_filter();
    filter_mirrors();
    ranges_before_rounding();
    cells_and_lengths();
    counts();
    values();
    two_values();
    water();
    lowest_dominance();
    time_steps();
    every_time_step();
    deepest_cell();
    time_step_order();
    input_order();
    poured_order();
    complete_order();
    stage_order();
    flux_refusals();
    sum_of_flux();
    filter_refusals();
    later_stages();
    whole_calls();
    first_steps();
    filtered_first_steps();
    counts_and_rows();
    damped_calls();
    damped_stages();
    damped_steps();
    stored_u(0);
    stored_u(10000);
    pouring();
    runs();
    dry_prediction();
    dry_run();
    file_bytes();
    file_order();
    earlier_edition();
    file_offsets();
    file_dampings();
    file_lent_rows();
    file_time_step();
    printed();
    whole_records();
    longest_record();
    placing();
    feeding();
    feeding_any_state();
    gauge_bounds();
    gauge_order();
    states_and_records();
    printf("%u passed, %u failed\n", passed, failed);
    return failed != 0;
}
