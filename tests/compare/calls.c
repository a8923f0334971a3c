/* The library and the second program on the same calls: answers and every lent value equal to the bit.
   usage: calls [CALLS]   prints how often each refusal, stage, k, tie, place, time step at its bound, damping and start
                          occurred, all of which must, and last 'N passed, M failed'
          calls CALLS some   the same calls, but too few of them for all of that to occur
          calls scenes COUNT   draws that many scenes with the second program alone, and prints the first three in
                               which each refusal occurs */
#include "faults.h"
#include "lent.h"
#include "rare.h"

#include <inttypes.h>
#include <stdio.h>

enum { NUMBERS = 39, STAGES = 11 };
static const char *const names[KINDS] = {"make", "step", "filter", "run"};

#define LENT(i) c->row[i], c->len[i]
#define COUNTS(accepted) (size_t)c->N, c->X, c->T, accepted, c->wanted
#define CHANNEL LENT(ROW_h), LENT(ROW_e), LENT(ROW_u), LENT(ROW_V), LENT(ROW_Q), LENT(ROW_F), LENT(ROW_damping)
#define ANSWER &stage, &place, &count

static struct answer library_does(enum kind kind, struct call *c)
{
    uint64_t number, stage, place, count;
    switch (kind) {
    case MAKE: number = lent_make(COUNTS(&c->accepted), CHANNEL, ANSWER); break;
    case STEP: number = lent_step(COUNTS(&c->accepted), CHANNEL, LENT(ROW_s), ANSWER); break;
    case FILTER: number = lent_filter(COUNTS(c->accepted), CHANNEL, ANSWER); break;
    default: number = lent_run(COUNTS(&c->accepted), CHANNEL, ANSWER);
    }
    return (struct answer){number, stage, place, count};
}

static bool same(struct answer a, struct answer b, const struct call *left, const struct call *other)
{
    return a.number == b.number && a.stage == b.stage && a.place == b.place && a.count == b.count &&
           !memcmp(left, other, sizeof *left);
}

/* Whether a call left the rows that it may only read as they were, and what lies beside them. */
static bool kept(const struct call *c, const struct call *left)
{
    size_t size = sizeof c->row[0];
    return !memcmp(left->row[ROW_h], c->row[ROW_h], size) && !memcmp(left->row[ROW_s], c->row[ROW_s], size) &&
           !memcmp(left->row[ROW_damping], c->row[ROW_damping], size);
}

/* What lies past a row's length is other than anything that a call leaves. */
static void put_canaries(struct call *c)
{
    for (int i = 0; i < ROWS; i++)
        for (size_t j = c->len[i]; j < ROOM; j++)
            c->row[i][j] = INT64_MAX - (int64_t)j;
}

/* How often each tie was met, and how many calls, up to ENOUGH, it decides: they leave something else when it is
   rounded the other way. Those of a step's sums are told apart by its row of weights, and a run's are together; those
   of what the damping takes are told apart by the calls. */
enum { ENOUGH = 20, OF_RUNS = RUNGS, GROUPS };
static long ties_met[GROUPS][TIES], ties_decide[GROUPS][TIES];

static bool is_weighed(int place) { return place < FILTERED_G; }

static int group_of(enum kind kind, const struct call *c, int place)
{
    return is_weighed(place) ? (kind == STEP ? rung_of(c) : OF_RUNS) : place == DAMPED ? (int)kind : 0;
}

/* How often F and what the damping takes from it would be another number if they were rounded at once, and how many
   calls, up to ENOUGH, that decides. */
static long apart_met[KINDS], apart_decides[KINDS];

/* The second program has done the call on c: it answered a and left this. */
static void count_ties(enum kind kind, const struct call *c, struct answer a, const struct call *left)
{
    static struct call other;
    long here[TIES], apart_here = apart;
    memcpy(here, ties, sizeof here);
    for (turned = 0; turned < TIES; turned++) {
        int group = group_of(kind, c, place_of(turned));
        ties_met[group][turned] += here[turned];
        if (here[turned] && ties_decide[group][turned] < ENOUGH) {
            other = *c;
            ties_decide[group][turned] += !same(a, second_does(kind, &other), left, &other);
        }
    }
    apart_met[kind] += apart_here;
    if (apart_here && apart_decides[kind] < ENOUGH) {
        other = *c;
        at_once = 1;
        apart_decides[kind] += !same(a, second_does(kind, &other), left, &other);
        at_once = 0;
    }
}

/* The count of accepted steps that a step or a run starts from. One whose lowest byte alone is 0 or 1 is a later one
   too, and the last before the wanted is one of the others. */
enum { FROM_0, FROM_1, FROM_2, FROM_3, FROM_LATER, FROM_BYTE, FROM_LAST, STARTS };
static const char *const starts[STARTS] = {"0", "1", "2", "3", "later", "256, 257..", "wanted - 1"};

/* How often such a call was accepted, refused at stage 0 and refused at a correction; how often it came after a filter
   pass; and how many, up to ENOUGH, each other row of weights makes end otherwise: the same rows with another count. */
enum { ACCEPTED, REFUSED_AT_0, REFUSED_LATER, AFTER_FILTER, BY_ROW, ENDS = BY_ROW + RUNGS };
static const char *const ends[ENDS] = {
    "accepted", "refused at stage 0", "at a correction", "after a filter", "other by the first", "second", "third row",
};
static long started[KINDS][STARTS][ENDS], settled_from[STARTS][STAGES];
static bool filtered; /* whether the call before, in the same scene, was an accepted filter pass */

/* Whether a call starts from there. */
static bool starts_from(const struct call *c, int start)
{
    switch (start) {
    case FROM_LATER: return c->accepted > FROM_3;
    case FROM_BYTE: return c->accepted > FROM_3 && c->accepted % 256 < RUNGS - 1;
    case FROM_LAST: return c->accepted + 1 == c->wanted;
    default: return c->accepted == (uint64_t)start;
    }
}

/* Whether the answer to a call is one of its stages, and not one for its input. */
static bool of_a_stage(const struct call *c, struct answer a)
{
    bool dry = false;
    for (size_t j = 0; a.number == 4 && a.stage == 0 && j < c->N; j++)
        dry = dry || dry_at(c, j);
    return a.number == 0 || (a.number >= 6 && a.number <= 10) || (a.number == 4 && !dry);
}

/* Whether a call of the same rows that starts by another row of weights ends otherwise. As many steps are left. */
static bool other_by(int rung, enum kind kind, const struct call *c, struct answer a, const struct call *left)
{
    static struct call other;
    uint64_t more = c->wanted - c->accepted;
    other = *c;
    other.accepted = (uint64_t)rung;
    other.wanted = more < 999000 ? more + other.accepted : 1000000;
    struct answer b = second_does(kind, &other);
    other.accepted = left->accepted, other.wanted = left->wanted;
    return !same(a, b, left, &other);
}

/* Counts a step or a run by its start. */
static void count_start(enum kind kind, const struct call *c, struct answer a, const struct call *left)
{
    int end = a.number == 0 ? ACCEPTED : a.stage == 0 ? REFUSED_AT_0 : REFUSED_LATER;
    if ((kind != STEP && kind != RUN) || c->accepted >= c->wanted || !of_a_stage(c, a))
        return;
    for (int start = 0; start < STARTS; start++) {
        if (!starts_from(c, start))
            continue;
        started[kind][start][end]++;
        started[kind][start][AFTER_FILTER] += filtered;
        if (kind == STEP && a.number == 0)
            settled_from[start][a.count]++;
        for (int rung = 0; rung < RUNGS; rung++)
            if (rung != rung_of(c) && started[kind][start][BY_ROW + rung] < ENOUGH)
                started[kind][start][BY_ROW + rung] += other_by(rung, kind, c, a, left);
    }
}

static long passed, failed, refused_at[KINDS][NUMBERS][STAGES], settled_at[STAGES];
static uint64_t scene_here; /* its number */
static bool alone;          /* without the library */

/* Where a refusal with a place was met: in the input, at stage 0 (a filter pass has no other), or at a correction. */
enum { INPUT, STAGE_0, CORRECTION, WHENS };
static const char *const whens[WHENS] = {"in the input", "at stage 0", "at a correction"};

/* How often it was at the first place, the last and between; how often with several faults at once; with several in the
   row told; with one at a lower place in a later row; and of levels how often with one in an older level too, and there
   at a lower place. */
enum { FIRST, BETWEEN, LAST, SEVERAL, ROW_SEVERAL, LATER_LOWER, TWO_LEVELS, OLDER_LOWER, COLUMNS };
static const char *const columns[COLUMNS] = {
    "first", "between", "last", "several", "in the row", "later row lower", "two levels", "older level lower",
};
static long placed[KINDS][NUMBERS][WHENS][COLUMNS];

/* How often a step or a run was refused for a level that its first row of weights has no weight for. */
static long unweighed[KINDS][NUMBERS][RUNGS];

static bool has_levels(int number) { return number == 35 || number == 36; }

static void count_place(long *at, uint64_t place, size_t places)
{
    at[place == 1 ? FIRST : place == places ? LAST : BETWEEN]++;
}

/* How a damping number is outside its range, and how often it is told, alone in its row, with the first place, one
   between and the last. */
enum { BELOW_BY_1, ABOVE_BY_1, BELOW, ABOVE, LEAST, MOST, BY_HIGH_BITS, OUTSIDES };
static const char *const outsides[OUTSIDES] = {
    "-1", "10,001", "further below", "further above", "the least of 64 bits", "the most of 64 bits",
    "in range by 32 bits",
};
static long outside_by[KINDS][OUTSIDES][LAST + 1];

static int how_outside(int64_t damping)
{
    if (damping == -1 || damping == 10001)
        return damping < 0 ? BELOW_BY_1 : ABOVE_BY_1;
    if (damping == INT64_MIN || damping == INT64_MAX)
        return damping < 0 ? LEAST : MOST;
    return (uint32_t)damping <= 10000 ? BY_HIGH_BITS : damping < 0 ? BELOW : ABOVE;
}

/* How often the damping was at fault beside something else: a count, length or row that is told before it, or one that
   is told after it, or a complete channel. */
static long beside_38[KINDS][NUMBERS];

/* How often its length alone was refused: one cell too few, and one too many. */
static long lengths_by_1[KINDS][2];

/* Counts a refusal 1 or 2. */
static void count_form(enum kind kind, const struct call *c, uint64_t number)
{
    const size_t N = (size_t)c->N, len = c->len[ROW_damping];
    bool outside = false, others = N >= 8 && N <= CELLS;
    for (size_t j = 0; j < len && j < N; j++)
        outside = outside || !in_range(ROW_damping, c->row[ROW_damping][j]);
    for (int row = 0; row < ROW_damping; row++)
        others = others && (c->len[row] == levels_of(row) * (N - (row == ROW_Q)) || (row == ROW_s && kind != STEP));
    beside_38[kind][number] += outside;
    if (others && (len == N - 1 || len == N + 1))
        lengths_by_1[kind][len > N]++;
}

/* Counts a refusal of a call whose damping is at fault, for it or for a row before it. */
static void count_beside(enum kind kind, const struct call *c, const struct searched *told, const struct searched *end)
{
    if (told->number != 38) {
        beside_38[kind][told->number]++;
        return;
    }
    for (const struct searched *s = told + 1; s < end; s++)
        beside_38[kind][s->number] += lowest_of(s) != 0;
    beside_38[kind][11] += kind != MAKE && c->accepted == c->wanted;
}

/* The damping of an accepted call: how often it was such, and how many of them, up to ENOUGH, leave something else
   without it. */
enum { NO_CELL, FIRST_ALONE, BETWEEN_ALONE, LAST_ALONE, ALL_CELLS, ALL_MOST, AT_ENDS, RISING, FALLING, SHAPES };
static const char *const shapes[SHAPES] = {
    "in no cell", "in the first cell alone", "in one between alone", "in the last cell alone", "in all cells",
    "10,000 in all cells", "0, 1, 9,999 and 10,000", "rising", "falling",
};
static long shaped[KINDS][SHAPES][2];

static bool other_undamped(enum kind kind, const struct call *c, struct answer a, const struct call *left)
{
    static struct call other;
    other = *c;
    memset(other.row[ROW_damping], 0, c->len[ROW_damping] * sizeof(int64_t));
    struct answer b = second_does(kind, &other);
    memcpy(other.row[ROW_damping], left->row[ROW_damping], sizeof other.row[ROW_damping]);
    return !same(a, b, left, &other);
}

static void count_damping(enum kind kind, const struct call *c, struct answer a, const struct call *left)
{
    const int64_t *row = c->row[ROW_damping];
    size_t N = (size_t)c->N, none = 0, least = 0, less = 0, most = 0, up = 0, down = 0;
    if (a.number)
        return;
    for (size_t j = 0; j < N; j++) {
        none += row[j] == 0;
        least += row[j] == 1;
        less += row[j] == 9999;
        most += row[j] == 10000;
        up += j > 0 && row[j] > row[j - 1];
        down += j > 0 && row[j] < row[j - 1];
    }
    bool one = none == N - 1, in_first = row[0] > 0, in_last = row[N - 1] > 0;
    const bool has[SHAPES] = {
        none == N, one && in_first, one && !in_first && !in_last, one && in_last, none == 0, most == N,
        none && least && less && most, up > 1 && !down, down > 1 && !up,
    };
    for (int shape = 0; shape < SHAPES; shape++) {
        shaped[kind][shape][0] += has[shape];
        if (has[shape] && shape != NO_CELL && shaped[kind][shape][1] < ENOUGH)
            shaped[kind][shape][1] += other_undamped(kind, c, a, left);
    }
}

/* Counts a refusal of the input for the first row at fault. */
static void count_input(enum kind kind, const struct call *c, const struct searched *told, const struct searched *end,
                        struct answer a)
{
    long *at = placed[kind][a.number][INPUT];
    bool later = false, level = false, older = false;
    long faults = faults_in(told);
    if (has_levels((int)a.number) && told->level > rung_of(c))
        unweighed[kind][a.number][rung_of(c)]++;
    at[ROW_SEVERAL] += faults > 1;
    for (const struct searched *s = told + 1; s < end; s++) {
        uint64_t place = lowest_of(s);
        bool lower = place && has_place(s->number) && place < a.place, same_row = s->number == told->number;
        later |= lower && !same_row;
        older |= lower && same_row;
        level |= place && same_row;
        faults += faults_in(s);
    }
    if (a.place)
        count_place(at, a.place, told->len);
    if (told->number == 38 && faults_in(told) == 1) {
        uint64_t place = lowest_of(told);
        count_place(outside_by[kind][how_outside(c->row[ROW_damping][place - 1])], place, told->len);
    }
    at[SEVERAL] += faults > 1;
    at[LATER_LOWER] += later;
    at[TWO_LEVELS] += level;
    at[OLDER_LOWER] += older;
}

/* What calls had to do with the bound of the time step. Refused for it: one mm less deep, one ms less or one mm wider
   would have been allowed; the first cell, one between or the last alone is too deep; the mean of the depths is not;
   the water of no cell is; the products modulo 2^32 are not; a row is not dominant; the channel is complete. Allowed:
   one mm deeper, one ms more or one mm narrower would have been refused; both products are equal; the water of a cell
   is too deep; the products modulo 2^32 are; then a row is not dominant. And refused for a dry cell before both. */
enum { LONG_h, LONG_T, LONG_X, LONG_FIRST, LONG_BETWEEN, LONG_LAST, LONG_MEAN, LONG_WATER, LONG_BITS, LONG_WEAK,
       LONG_COMPLETE, DUE_h, DUE_T, DUE_X, DUE_EQUAL, DUE_WATER, DUE_BITS, DUE_WEAK, DRY_LONG_WEAK, TIMES };
static const char *const times[TIMES] = {
    "26 by one mm of depth", "26 by one ms", "26 by one mm of width", "26 for the first cell alone",
    "26 for one between alone", "26 for the last cell alone", "26, not by the mean depth", "26, not by the water",
    "26, not by 32 bits", "26 before 5", "26 of a complete channel", "allowed by one mm of depth", "allowed by one ms",
    "allowed by one mm of width", "allowed, equal", "allowed, not by the water", "allowed, not by 32 bits",
    "allowed, then 5", "4 before 26 and 5",
};
static long timed[KINDS][TIMES];

/* How often each refusal of the input was told before 26. */
static long before_26[KINDS][NUMBERS];

/* Counts a call that is refused for its time step, or for none of what is asked before it or with it. by_time are the
   depths that the time step is too long for, and behind them the rows that are not dominant. */
static void count_time(enum kind kind, const struct call *c, const struct searched *by_time)
{
    int64_t X = (int64_t)c->X, T = (int64_t)c->T, h = 0, sum = 0, water = 0;
    long *at = timed[kind];
    for (size_t j = 0; j < c->N; j++) {
        int64_t depth = c->row[ROW_h][j], over = (1000 * depth + c->row[ROW_e][j]) / 1000;
        h = depth > h ? depth : h;
        water = over > water ? over : water;
        sum += depth;
    }
    bool bits = (uint32_t)(9810 * h * T * T) > (uint32_t)(6000000 * X * X), weak = lowest_of(by_time + 1) != 0;
    if (!lowest_of(by_time)) {
        at[DUE_h] += h < 20000 && too_long(h + 1, X, T);
        at[DUE_T] += T < 100 && too_long(h, X, T + 1);
        at[DUE_X] += X > 10 && too_long(h, X - 1, T);
        at[DUE_EQUAL] += 9810 * h * T * T == 6000000 * X * X;
        at[DUE_WATER] += too_long(water, X, T);
        at[DUE_BITS] += bits;
        at[DUE_WEAK] += weak;
        return;
    }
    at[LONG_h] += !too_long(h - 1, X, T);
    at[LONG_T] += !too_long(h, X, T - 1);
    at[LONG_X] += !too_long(h, X + 1, T);
    if (faults_in(by_time) == 1)
        at[lowest_of(by_time) == 1 ? LONG_FIRST : lowest_of(by_time) == c->N ? LONG_LAST : LONG_BETWEEN]++;
    at[LONG_MEAN] += 9810 * sum * T * T <= 6000000 * X * X * (int64_t)c->N;
    at[LONG_WATER] += !too_long(water, X, T);
    at[LONG_BITS] += !bits;
    at[LONG_WEAK] += weak;
    at[LONG_COMPLETE] += kind != MAKE && c->accepted == c->wanted;
}

/* Counts a refusal 4 of a stage; the channel left is the one whose step or filter pass was refused. */
static void count_stage(enum kind kind, struct call *left, struct answer a)
{
    static const int64_t nothing[CELLS];
    struct second_channel channel = channel_of(left);
    long *at = placed[kind][a.number][a.stage ? CORRECTION : STAGE_0];
    count_place(at, a.place, (size_t)left->N);
    at[SEVERAL] += dry_cells(&channel, kind == STEP ? left->row[ROW_s] : kind == RUN ? nothing : NULL, a.stage) > 1;
}

/* Counts the place of an answer to the call on c; whether the answer is one that the faults of the input allow. */
static bool count_places(enum kind kind, const struct call *c, struct answer a, struct call *left)
{
    static struct searched rows[SEARCHED];
    const struct searched *told = rows, *end = rows + SEARCHED;
    if (a.number == 1 || a.number == 2) {
        count_form(kind, c, a.number);
        return a.place == 0;
    }
    find_faults(kind, c, rows);
    while (told < end && !lowest_of(told))
        told++;
    const struct searched *by_time = end - 2, *by_damping = end - 5; /* the last five are 38, 37, 4, 26 and 5 */
    if (lowest_of(by_damping))
        count_beside(kind, c, told, end);
    if (told >= by_time)
        count_time(kind, c, by_time);
    else if (lowest_of(by_time))
        before_26[kind][told->number]++;
    timed[kind][DRY_LONG_WEAK] += told == by_time - 1 && lowest_of(by_time) && lowest_of(by_time + 1);
    if (told < end) {
        count_input(kind, c, told, end, a);
        uint64_t place = has_place(told->number) ? lowest_of(told) : 0;
        return a.number == told->number && a.place == place && a.stage == 0 && a.count == 0;
    }
    if (a.number == 4)
        count_stage(kind, left, a);
    return a.number == 4 ? a.place > 0 && a.place <= c->N : !has_place(a.number) && a.place == 0;
}

/* Both programs do the call on c; c is then what they left. */
static struct answer compare(enum kind kind, struct call *c)
{
    static struct call mine, theirs;
    put_canaries(c);
    mine = theirs = *c;
    memset(ties, 0, sizeof ties);
    apart = 0;
    struct answer b = second_does(kind, &theirs), a = alone ? b : library_does(kind, &mine);
    bool right = alone || count_places(kind, c, b, &theirs);
    if (!alone) {
        count_ties(kind, c, b, &theirs);
        count_start(kind, c, b, &theirs);
        count_damping(kind, c, b, &theirs);
    }
    bool rows_kept = kept(c, &mine);
    if (alone || (right && rows_kept && same(a, b, &mine, &theirs))) {
        passed++;
    } else if (failed++ < 10) {
        printf("%s differs: library %" PRIu64 " %" PRIu64 " %" PRIu64 " %" PRIu64, names[kind], a.number, a.stage, a.place,
               a.count);
        printf(", second %" PRIu64 " %" PRIu64 " %" PRIu64 " %" PRIu64 "%s%s\n", b.number, b.stage, b.place, b.count,
               right ? "" : ", where the input's faults are others",
               rows_kept ? "" : ", and a row that is only read is other");
        printf("N %" PRIu64 " X %" PRIu64 " T %" PRIu64 " accepted %" PRIu64 " wanted %" PRIu64 "\n", c->N, c->X, c->T,
               c->accepted, c->wanted);
        for (int i = 0; i < ROWS; i++)
            for (size_t j = 0; j < ROOM; j++)
                if (mine.row[i][j] != theirs.row[i][j]) {
                    printf("row %d entry %zu: %" PRId64 " %" PRId64 "\n", i, j, mine.row[i][j], theirs.row[i][j]);
                    break;
                }
    }
    if (b.number) {
        if (refused_at[kind][b.number][b.stage]++ < 3 && alone)
            printf("scene %" PRIu64 ": %s refused %" PRIu64 " at stage %" PRIu64 "\n", scene_here, names[kind],
                   b.number, b.stage);
    } else if (kind == STEP) {
        settled_at[b.count]++;
    }
    filtered = kind == FILTER && b.number == 0;
    *c = theirs;
    return b;
}

/* Some calls in a row on the channel that is there, from any count of accepted steps. */
static void go_on(struct call *c)
{
    if (one_in(2))
        c->accepted = open_start(c->wanted);
    for (int i = 0; i < 4; i++) {
        enum kind kind = one_in(5) ? FILTER : one_in(12) ? RUN : STEP;
        if (kind == RUN && c->wanted - c->accepted > 40)
            kind = STEP;
        if (one_in(12))
            spoil(c);
        if (compare(kind, c).number)
            break;
    }
}

/* Calls that are decided by a half or less. */
static void by_little(struct call *c)
{
    switch (draw() % 5) {
    case 0: just_too_fast(c); compare(STEP, c); break;
    case 1: just_too_large(c); compare(MAKE, c); break;
    case 2: just_too_dispersive(c); compare(MAKE, c); break;
    case 3: just_dry(c); compare(STEP, c); break;
    default:
        if (small_halves(c))
            compare(STEP, c);
        break;
    }
}

static void one_scene(struct call *c)
{
    uint64_t from;
    switch (draw() % 22) {
    case 0: reduced_halves(c); compare(MAKE, c); break;
    case 1: flux_halves(c); compare(MAKE, c); break;
    case 2: velocity_halves(c); compare(STEP, c); break;
    case 3:
        if (!just_too_much(c))
            break;
        from = c->accepted;
        if (compare(MAKE, c).number)
            break;
        c->accepted = from;
        compare(STEP, c);
        break;
    case 4: case 5: case 6: case 7:
        violent(c);
        if (!compare(MAKE, c).number)
            go_on(c);
        break;
    case 8: case 9: case 10:
        scene(c);
        any_levels(c);
        go_on(c);
        break;
    case 11:
        if (one_in(4)) {
            enum kind kind = (enum kind)PICK(STEP, FILTER, RUN);
            just_too_rough(c, kind);
            compare(kind, c);
        } else if (at_the_brink(c)) {
            compare(one_in(4) ? RUN : STEP, c);
        }
        break;
    case 12:
        if (moved_halves(c))
            compare(one_in(4) ? RUN : STEP, c);
        break;
    case 13:
        if (one_in(2)) {
            by_little(c);
            break;
        }
        filtered_halves(c);
        compare(FILTER, c);
        break;
    case 14: flow_halves(c); compare(MAKE, c); break;
    case 15: made_halves(c); compare(MAKE, c); break;
    case 16:
        while (!dispersive_halves(c))
            ;
        compare(MAKE, c);
        break;
    default:
        scene(c);
        if (one_in(4))
            spoil(c);
        if (!compare(MAKE, c).number)
            go_on(c);
        break;
    }
}

/* Calls that are refused for faults in the input, or for a cell that falls dry. Scene i has a seed of its own. */
static void fault_scene(struct call *c, uint64_t i)
{
    state = i * 0xDA942042E4DD58B5u;
    filtered = false;
    enum kind kind = (enum kind)(draw() % KINDS);
    if (kind != MAKE && one_in(5))
        drying(c, kind);
    else
        faulty(c, kind);
    compare(kind, c);
}

/* Calls at the bound of the time step, likewise. */
static void bound_scene(struct call *c, uint64_t i)
{
    state = i * 0xA0761D6478BD642Fu;
    filtered = false;
    enum kind kind = (enum kind)(draw() % KINDS);
    faulty_bound(c, kind);
    compare(kind, c);
}

/* Calls with damping out of its range, and with halves of what it takes, likewise. */
static void damped_scene(struct call *c, uint64_t i)
{
    state = i * 0x8CB92BA72F3D8DD7u;
    filtered = false;
    if (one_in(8)) {
        damped_halves(c);
        if (!compare(MAKE, c).number)
            go_on(c);
        return;
    }
    enum kind kind = (enum kind)(draw() % KINDS);
    faulty_damping(c, kind);
    compare(kind, c);
}

/* Whether a refusal is known to occur in a call at a stage. */
static bool occurs(enum kind kind, int number, int stage)
{
    bool input = number == 1 || number == 2 || number == 4 || number == 5 || number == 26 ||
                 (number > 30 && reads(kind, number - 31));
    bool stages = number == 4 || number == 7 || number == 8 || number == 9;
    switch (kind) {
    case MAKE: return stage == 0 && (input || number == 7 || number == 9);
    case STEP: return stage == 0 ? input || stages || number == 11 : number == 10 ? stage == 10 : stages;
    case FILTER: return stage == 0 && (input || stages || number == 11);
    default: return stage == 0 ? input || stages : number == 10 ? stage == 10 : stage <= 2 && number == 4;
    }
}

/* What must have occurred, as the table shows it. */
static bool seen(void)
{
    bool all = true;
    for (int kind = 0; kind < KINDS; kind++)
        for (int number = 1; number < NUMBERS; number++)
            for (int stage = 0; stage < STAGES; stage++)
                if (occurs((enum kind)kind, number, stage) && !refused_at[kind][number][stage]) {
                    printf("%s was never refused %d at stage %d\n", names[kind], number, stage);
                    all = false;
                }
    for (int k = 1; k <= 10; k++)
        if (!settled_at[k]) {
            printf("no step settled at correction %d\n", k);
            all = false;
        }
    return all;
}

/* Whether a refusal's place must have been met so. */
static bool place_occurs(enum kind kind, int number, int when, int column)
{
    if (!has_place((uint64_t)number) || !occurs(kind, number, when == CORRECTION))
        return false;
    if (when != INPUT)
        return number == 4 && kind != MAKE && column <= SEVERAL;
    return column <= ROW_SEVERAL || (column == LATER_LOWER ? number != 5 : has_levels(number));
}

/* The places of every refusal that has one. */
static void print_places(void)
{
    printf("%-40s", "places");
    for (int column = 0; column < COLUMNS; column++)
        printf("  %s", columns[column]);
    printf("\n");
    for (int kind = 0; kind < KINDS; kind++)
        for (int number = 1; number < NUMBERS; number++)
            for (int when = 0; when < WHENS; when++) {
                if (!place_occurs((enum kind)kind, number, when, FIRST))
                    continue;
                printf("%-6s refused %2d %-23s", names[kind], number, whens[when]);
                for (int column = 0; column < COLUMNS; column++)
                    if (place_occurs((enum kind)kind, number, when, column))
                        printf("  %*ld", (int)strlen(columns[column]), placed[kind][number][when][column]);
                    else
                        printf("  %*s", (int)strlen(columns[column]), "");
                printf("\n");
            }
}

static bool places_seen(void)
{
    bool all = true;
    for (int kind = 0; kind < KINDS; kind++)
        for (int number = 1; number < NUMBERS; number++)
            for (int when = 0; when < WHENS; when++)
                for (int column = 0; column < COLUMNS; column++)
                    if (place_occurs((enum kind)kind, number, when, column) && !placed[kind][number][when][column]) {
                        printf("no place of %s refused %d %s: %s\n", names[kind], number, whens[when], columns[column]);
                        all = false;
                    }
    return all;
}

/* Whether a call must have been met so: make reads no count of accepted steps. */
static bool time_occurs(enum kind kind, int time) { return time != LONG_COMPLETE || kind != MAKE; }

/* Whether a refusal must have been told before 26. */
static bool occurs_before_26(enum kind kind, int number)
{
    return number == 4 || (number > 30 && reads(kind, number - 31));
}

/* Calls by their time steps. */
static void print_times(void)
{
    printf("%-32s", "time steps");
    for (int kind = 0; kind < KINDS; kind++)
        printf("%8s", names[kind]);
    printf("\n");
    for (int time = 0; time < TIMES; time++) {
        printf("%-32s", times[time]);
        for (int kind = 0; kind < KINDS; kind++)
            if (time_occurs((enum kind)kind, time))
                printf("%8ld", timed[kind][time]);
            else
                printf("%8s", "");
        printf("\n");
    }
    for (int number = 4; number < NUMBERS; number++) {
        if (!occurs_before_26(STEP, number))
            continue;
        printf("%2d %-29s", number, "before 26");
        for (int kind = 0; kind < KINDS; kind++)
            if (occurs_before_26((enum kind)kind, number))
                printf("%8ld", before_26[kind][number]);
            else
                printf("%8s", "");
        printf("\n");
    }
}

static bool times_seen(void)
{
    bool all = true;
    for (int kind = 0; kind < KINDS; kind++) {
        for (int time = 0; time < TIMES; time++)
            if (time_occurs((enum kind)kind, time) && !timed[kind][time]) {
                printf("no time step of %s: %s\n", names[kind], times[time]);
                all = false;
            }
        for (int number = 4; number < NUMBERS; number++)
            if (occurs_before_26((enum kind)kind, number) && !before_26[kind][number]) {
                printf("%s was never refused %d before 26\n", names[kind], number);
                all = false;
            }
    }
    return all;
}

/* Whether the damping must have been at fault beside that. A complete channel is no fault of a run, and 38 still is. */
static bool occurs_beside_38(enum kind kind, int number)
{
    return number == 1 || number == 2 || number == 4 || number == 5 || number == 26 || (number == 11 && kind != MAKE) ||
           (number > 30 && number < 38 && reads(kind, number - 31));
}

static void print_kinds(const char *title)
{
    printf("%-40s", title);
    for (int kind = 0; kind < KINDS; kind++)
        printf("%16s", names[kind]);
    printf("\n");
}

/* Calls by their damping. */
static void print_dampings(void)
{
    print_kinds("accepted with damping, other without");
    for (int shape = 0; shape < SHAPES; shape++) {
        printf("%-40s", shapes[shape]);
        for (int kind = 0; kind < KINDS; kind++)
            printf("%13ld%3ld", shaped[kind][shape][0], shaped[kind][shape][1]);
        printf("\n");
    }
    print_kinds("rounded at once, and calls it decides");
    printf("%-40s", "F and what the damping takes");
    for (int kind = 0; kind < KINDS; kind++)
        printf("%13ld%3ld", apart_met[kind], apart_decides[kind]);
    printf("\n");
    print_kinds("38 alone in its row: first, between, last");
    for (int by = 0; by < OUTSIDES; by++) {
        printf("%-40s", outsides[by]);
        for (int kind = 0; kind < KINDS; kind++)
            printf("%8ld%4ld%4ld", outside_by[kind][by][FIRST], outside_by[kind][by][BETWEEN],
                   outside_by[kind][by][LAST]);
        printf("\n");
    }
    print_kinds("the damping at fault beside others");
    for (int number = 1; number < NUMBERS; number++) {
        if (!occurs_beside_38(STEP, number))
            continue;
        bool before = number < 3 || (number > 30 && number < 37);
        printf("%2d %-37s", number, before ? "told, and not 38" : "not told, but 38");
        for (int kind = 0; kind < KINDS; kind++)
            if (occurs_beside_38((enum kind)kind, number))
                printf("%16ld", beside_38[kind][number]);
            else
                printf("%16s", "");
        printf("\n");
    }
    for (int more = 0; more < 2; more++) {
        printf(" 1 for its row alone, one cell too %-7s", more ? "long" : "short");
        for (int kind = 0; kind < KINDS; kind++)
            printf("%16ld", lengths_by_1[kind][more]);
        printf("\n");
    }
}

static bool dampings_seen(void)
{
    bool all = true;
    for (int kind = 0; kind < KINDS; kind++) {
        for (int shape = 0; shape < SHAPES; shape++)
            if (shaped[kind][shape][shape != NO_CELL] < ENOUGH) {
                printf("fewer than %d calls of %s with damping %s\n", ENOUGH, names[kind], shapes[shape]);
                all = false;
            }
        for (int by = 0; by < OUTSIDES; by++)
            for (int where = FIRST; where <= LAST; where++)
                if (!outside_by[kind][by][where]) {
                    printf("no damping of %s out of its range: %s, %s\n", names[kind], outsides[by], columns[where]);
                    all = false;
                }
        for (int number = 1; number < NUMBERS; number++)
            if (occurs_beside_38((enum kind)kind, number) && !beside_38[kind][number]) {
                printf("no damping of %s out of its range beside %d\n", names[kind], number);
                all = false;
            }
        for (int more = 0; more < 2; more++)
            if (!lengths_by_1[kind][more]) {
                printf("no damping row of %s one too %s\n", names[kind], more ? "long" : "short");
                all = false;
            }
        if (apart_decides[kind] < ENOUGH) {
            printf("fewer than %d calls of %s were decided by rounding F and its damping apart\n", ENOUGH, names[kind]);
            all = false;
        }
    }
    return all;
}

/* Whether steps or runs must have been met so: by its own row a call ends as it does. */
static bool start_occurs(int start, int end)
{
    return end < BY_ROW || start == FROM_LAST || end - BY_ROW != (start < RUNGS ? start : RUNGS - 1);
}

/* Steps and runs by the count that they start from. */
static void print_starts(void)
{
    printf("%-24s", "steps and runs, starts");
    for (int end = 0; end < ENDS; end++)
        printf("  %s", ends[end]);
    printf("\n");
    for (int kind = STEP; kind <= RUN; kind += RUN - STEP)
        for (int start = 0; start < STARTS; start++) {
            printf("%-6s from %-13s", names[kind], starts[start]);
            for (int end = 0; end < ENDS; end++)
                if (start_occurs(start, end))
                    printf("  %*ld", (int)strlen(ends[end]), started[kind][start][end]);
                else
                    printf("  %*s", (int)strlen(ends[end]), "");
            printf("\n");
        }
    printf("%-24s", "steps settled at");
    for (int k = 1; k <= 10; k++)
        printf("%8d", k);
    printf("\n");
    for (int start = 0; start < STARTS; start++) {
        printf("step   from %-12s", starts[start]);
        for (int k = 1; k <= 10; k++)
            printf("%8ld", settled_from[start][k]);
        printf("\n");
    }
    for (int kind = STEP; kind <= RUN; kind += RUN - STEP)
        for (int number = 35; has_levels(number); number++)
            printf("%-6s refused %d for a level of weight 0: from 0 %ld, from 1 %ld\n", names[kind], number,
                   unweighed[kind][number][0], unweighed[kind][number][1]);
}

static bool starts_seen(void)
{
    bool all = true;
    for (int kind = STEP; kind <= RUN; kind += RUN - STEP) {
        for (int start = 0; start < STARTS; start++)
            for (int end = 0; end < ENDS; end++)
                if (start_occurs(start, end) && !started[kind][start][end]) {
                    printf("no %s from %s: %s\n", names[kind], starts[start], ends[end]);
                    all = false;
                }
        for (int number = 35; has_levels(number); number++)
            for (int rung = 0; rung < RUNGS - 1; rung++)
                if (!unweighed[kind][number][rung]) {
                    printf("no %s from %d was refused %d for a level of weight 0\n", names[kind], rung, number);
                    all = false;
                }
    }
    for (int start = 0; start < STARTS; start++)
        for (int k = 1; k <= 10; k++)
            if (!settled_from[start][k]) {
                printf("no step from %s settled at correction %d\n", starts[start], k);
                all = false;
            }
    return all;
}

static const char *const places[PLACES] = {
    "W predicted", "W corrected", "V's quotient predicted", "V's quotient corrected", "G of the filter",
    "V of the filter", "plain part", "F", "what the damping takes", "dispersive part", "u", "V of make",
};
static const char *const nears[NEARS] = {"", ", float smaller than its half", ", float larger than its half"};
static const char *const sides[4] = {"+ even", "+ odd", "- even", "- odd"};

static const char *const groups[GROUPS] = {", by the first row", ", by the second", ", by the third", ", of runs"};
static const char *const calls[KINDS] = {", make", ", step", ", filter", ", run"};

/* What a place can have: a quotient is worked out exactly; one that is weighed is told apart by its weights, and what the
   damping takes by the calls. */
static int nears_of(int place) { return place < DISPERSIVE ? 1 : NEARS; }
static int groups_of(int place) { return is_weighed(place) ? GROUPS : place == DAMPED ? KINDS : 1; }
static const char *kind_of(int place, int near, int group)
{
    return is_weighed(place) ? groups[group] : place == DAMPED ? calls[group] : nears[near];
}

/* The ties of every place, by sign and by the neighbour towards zero: how many were met, and how many calls they
   decide. */
static void print_ties(void)
{
    printf("%-45s", "exact ties, and calls that they decide");
    for (int side = 0; side < 4; side++)
        printf("%12s", sides[side]);
    printf("\n");
    for (int place = 0; place < PLACES; place++)
        for (int near = 0; near < nears_of(place); near++)
            for (int group = 0; group < groups_of(place); group++) {
                printf("%s%-*s", places[place], 45 - (int)strlen(places[place]), kind_of(place, near, group));
                for (int side = 0; side < 4; side++) {
                    int tie = tie_of(place, near, side / 2, side % 2);
                    printf("%9ld%3ld", ties_met[group][tie], ties_decide[group][tie]);
                }
                printf("\n");
            }
}

/* Each tie must have decided so many calls: to be met is not enough. */
static bool ties_seen(void)
{
    bool all = true;
    for (int place = 0; place < PLACES; place++)
        for (int near = 0; near < nears_of(place); near++)
            for (int group = 0; group < groups_of(place); group++)
                for (int side = 0; side < 4; side++)
                    if (ties_decide[group][tie_of(place, near, side / 2, side % 2)] < ENOUGH) {
                        printf("fewer than %d calls were decided by a tie of %s%s, %s\n", ENOUGH, places[place],
                               kind_of(place, near, group), sides[side]);
                        all = false;
                    }
    return all;
}

/* Scene i is drawn from a seed of its own. */
static void scene_number(struct call *c, uint64_t i)
{
    state = i * 0xD1342543DE82EF95u;
    scene_here = i;
    filtered = false;
    one_scene(c);
}

int main(int argc, char **argv)
{
    long calls = argc > 1 ? atol(argv[1]) : 110000;
    bool some = argc > 2 && !strcmp(argv[2], "some");
    static struct call c;
    for (size_t i = 0; i < sizeof c.row / sizeof(int64_t); i++)
        ((int64_t *)c.row)[i] = (int64_t)draw();
    if (argc > 2 && !strcmp(argv[1], "scenes")) {
        alone = true;
        for (uint64_t i = 1; i <= strtoull(argv[2], NULL, 10); i++)
            scene_number(&c, i);
        return 0;
    }
    for (size_t i = 0; i < LATE_BRINKS; i++)
        if (late_brink(&c, i))
            compare(STEP, &c);
    for (uint64_t i = 1; passed + failed < calls; i++) {
        scene_number(&c, i);
        if (i % 4 == 0)
            fault_scene(&c, i);
        if (i % 8 == 0)
            damped_scene(&c, i);
        if (i % 10 == 0)
            bound_scene(&c, i);
    }
    for (int kind = 0; kind < KINDS; kind++)
        for (int number = 1; number < NUMBERS; number++)
            for (int stage = 0; stage < STAGES; stage++)
                if (refused_at[kind][number][stage])
                    printf("%-6s refused %2d at stage %2d: %8ld\n", names[kind], number, stage, refused_at[kind][number][stage]);
    for (int k = 1; k <= 10; k++)
        printf("step settled at correction %2d: %8ld\n", k, settled_at[k]);
    print_places();
    print_times();
    print_dampings();
    print_starts();
    print_ties();
    if (!some && !seen())
        failed++;
    if (!some && !places_seen())
        failed++;
    if (!some && !times_seen())
        failed++;
    if (!some && !dampings_seen())
        failed++;
    if (!some && !starts_seen())
        failed++;
    if (!some && !ties_seen())
        failed++;
    printf("%ld passed, %ld failed\n", passed, failed);
    return failed != 0;
}
