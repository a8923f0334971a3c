/* The gauges of include/pathpetal.h: what the library counts, a height at a time, beside what the second program finds
   in the whole record; and states of any bytes, beside the second program's.
   usage: test RECORDS FED    how many records, and how many heights of the longest are fed by the library itself;
                              prints how often each kind was met, and last 'N passed, M failed' */
#define _DEFAULT_SOURCE
#include "../everywhere/by_second.h"
#include "../../second/second.h"
#include "lend.h"
#include "records.h"

#include <inttypes.h>
#include <stdlib.h>

enum { GAUGES = 8, STATE = PATHPETAL_GAUGES_LENGTH, READINGS = PATHPETAL_READINGS };
enum { CELL, FED, LAST, CROSSINGS, HIGHEST, LOWEST, LARGEST, SUM, NUMBERS };
enum { TOLD = READINGS / GAUGES, LONG = 1000000, RUN_MOST = 2000 };
#define WAVE (MOST - LEAST)

/* ---- counting ---- */

static long passed, failed, records, moments, feeds, waves_met[RECORD_KINDS], records_met[RECORD_KINDS];

/* What else must be met. */
enum event { NO_HEIGHT, ONE_HEIGHT, TWO_HEIGHTS, THREE_HEIGHTS, MANY_HEIGHTS, STARTS_ABOVE, CROSSES_AT_ZERO,
             ZERO_AFTER_ZERO, ENDS_AT_CROSSING, NO_WAVE, LOWER_BEFORE, HIGHER_OPEN, LARGE_SUM, LARGEST_WAVE,
             AT_ONE_CELL, PLACED_LATE, WENT_ON, EMPTIED, IN_A_GAP, EIGHT, NO_GAUGE, FED_COMPLETE, FED_DAMPED,
             RUN_DAMPED, EVENTS };
static const char *const event_names[EVENTS] = {
    "records of no height",
    "of one",
    "of two",
    "of three",
    "of 100 or more",
    "that start at zero or above",
    "with a crossing at exactly zero",
    "with zero after zero",
    "that end at a crossing",
    "with a crossing and no complete wave",
    "with a height before the first crossing below all behind it",
    "with a height behind the last crossing above all before it",
    "whose heights sum to more than 2^32",
    "with a wave of 39,999,000 um",
    "of a gauge at a cell where another stands",
    "of a gauge that was placed late",
    "gone on with by another channel",
    "of a gauge that was taken away",
    "of a gauge in a place that stood empty before others",
    "eight gauges at once",
    "feedings without a gauge",
    "feedings by a complete channel",
    "feedings by a damped channel",
    "steps of a real run of damped water that were fed",
};
static long events[EVENTS];

/* Answers by call and number: 0 where the channel's file is at fault, 1 otherwise. */
enum { NUMBERS_MOST = 39 };
static long answers[CALLS][NUMBERS_MOST][2];
static long states, lengths_tried, placed_in[GAUGES + 1];

static void expect(bool holds, const char *what)
{
    if (holds)
        passed++;
    else if (failed++ < 20)
        printf("not so: %s\n", what);
}

/* ---- bytes ---- */

static void put(uint8_t *at, uint64_t n, unsigned bytes)
{
    for (unsigned i = 0; i < bytes; i++)
        at[i] = (uint8_t)(n >> 8 * i);
}

static int64_t get(const uint8_t *at)
{
    uint64_t n = pathpetal_word(at) | (uint64_t)pathpetal_word(at + 4) << 32;
    return n <= INT64_MAX ? (int64_t)n : -1 - (int64_t)~n;
}

static void put_gauge(struct call *c, size_t place, const int64_t *g)
{
    for (size_t i = 0; i < NUMBERS; i++)
        put(c->state + 64 * place + 8 * i, (uint64_t)g[i], 8);
}

static int64_t number_of(const struct call *c, size_t place, size_t number)
{
    return get(c->state + 64 * place + 8 * number);
}

static void no_gauges(struct call *c)
{
    c->state_len = STATE;
    memset(c->state, 0, STATE);
}

/* A damping row: of zeros, or with dampings from one cell to another, each the most or of any size. */
static void draw_dampings(uint8_t *row, size_t N)
{
    bool none = one_in(3);
    size_t from = one_in(2) ? 0 : draw() % N, to = one_in(2) ? N : from + 1 + draw() % (N - from);
    int64_t least = PICK(10000, 1);
    for (size_t j = 0; j < N; j++) {
        int64_t damping = between(least, 10000);
        put(row + 4 * j, !none && j >= from && j < to ? (uint64_t)damping : 0, 4);
    }
}

static bool is_damped(const struct call *c)
{
    bool damped = false;
    for (size_t j = 0; j < pathpetal_cells(c->file); j++)
        damped |= pathpetal_damping(c->file, j) > 0;
    return damped;
}

/* The file of a channel so deep that every height may stand in every cell, and with cells at least so wide that every
   time step is allowed. */
static void channel(struct call *c, size_t N)
{
    uint64_t n = N;
    uint64_t accepted = (uint64_t)between(0, 50), step = (uint64_t)PICK(100, between(1, 100));
    uint64_t width = (uint64_t)PICK(572, 5000);
    const uint64_t head[13] = {2, n, width, step, accepted, 50, 52, 52 + 4 * n, 52 + 8 * n, 52 + 12 * n, 52 + 16 * n,
                               28 + 40 * n, 28 + 64 * n};
    c->file_len = pathpetal_length(N);
    memset(c->file, 0, c->file_len);
    for (size_t i = 0; i < 13; i++)
        put(c->file + 4 * i, head[i], 4);
    for (size_t j = 0; j < N; j++)
        put(c->file + 52 + 4 * j, 20000, 4);
    draw_dampings(c->file + 28 + 64 * N, N);
}

static void set_height(struct call *c, size_t cell, int64_t height)
{
    put(c->file + 52 + 4 * (size_t)pathpetal_cells(c->file) + 4 * (cell - 1), (uint64_t)height, 4);
}

static size_t some_cells(void) { return one_in(40) ? (size_t)between(8, 256) : (size_t)between(8, 12); }

/* ---- the library's calls, held to an answer ---- */

static bool answered(enum which which, struct call *c, uint64_t due, const char *what)
{
    enum touched touched;
    uint64_t answer = by_library(which, c, &touched);
    if (answer == due && touched == NOTHING) {
        passed++;
        return true;
    }
    if (failed++ < 20)
        printf("%s, %s: answers %u %u %u %" PRIu64 ", not %u %" PRIu64 "%s%s\n", call_names[which], what,
               pathpetal_number(answer), pathpetal_stage(answer), pathpetal_place(answer), pathpetal_count(answer),
               pathpetal_number(due), pathpetal_count(due), touched ? ", and touched " : "", touched_names[touched]);
    return false;
}

static uint64_t refused(unsigned number) { return (uint64_t)number * 256; }
static uint64_t placed_as(size_t place) { return (uint64_t)place * 33554432; }

/* ---- whole records ---- */

/* A gauge as the test knows it: where and since when it stands, and a record of what it was fed. */
struct gauge {
    bool there, late, moved_on, in_a_gap;
    size_t cell, fed;
    enum record_kind kind;
    int64_t *record;
};

static bool crosses(const int64_t *record, size_t i) { return i > 0 && record[i - 1] < 0 && record[i] >= 0; }

/* The eight numbers of a gauge that was fed a whole record. */
static void state_of(const struct gauge *g, const struct second_waves *found, int64_t *due)
{
    size_t last = g->fed; /* the last crossing */
    while (last > 0 && !crosses(g->record, last - 1))
        last--;
    int64_t high = 0, low = 0;
    for (size_t i = last; i > 0 && i <= g->fed; i++) {
        high = i == last || g->record[i - 1] > high ? g->record[i - 1] : high;
        low = i == last || g->record[i - 1] < low ? g->record[i - 1] : low;
    }
    const int64_t numbers[NUMBERS] = {(int64_t)g->cell, (int64_t)g->fed, g->fed ? g->record[g->fed - 1] : 0,
                                      (int64_t)found->crossings, high, low, found->largest, found->sum};
    memcpy(due, numbers, sizeof numbers);
}

static struct second_waves waves_of(const struct gauge *g)
{
    return second_waves((struct second_read_row){g->record, g->fed});
}

/* All gauges at one moment, in the bytes of their state and as they are read. */
static void compare_now(struct call *c, const struct gauge *gauges, const char *what)
{
    bool same = true;
    c->readings_len = READINGS;
    if (!answered(READ, c, 0, what))
        return;
    for (size_t i = 0; i < GAUGES; i++) {
        int64_t due[NUMBERS] = {0}, told[TOLD] = {0};
        if (gauges[i].there) {
            struct second_waves found = waves_of(&gauges[i]);
            state_of(&gauges[i], &found, due);
            const int64_t numbers[TOLD] = {due[CELL], due[FED], due[CROSSINGS], (int64_t)found.waves, due[LARGEST],
                                           due[SUM]};
            memcpy(told, numbers, sizeof told);
            moments++;
        }
        for (size_t k = 0; k < NUMBERS; k++)
            same = same && number_of(c, i, k) == due[k];
        same = same && !memcmp(told, c->readings + TOLD * i, sizeof told);
        if (!same && failed < 20) {
            printf("%s, place %zu, %s, %zu heights:", what, i + 1, record_names[gauges[i].kind], gauges[i].fed);
            for (size_t k = 0; k < gauges[i].fed && k < 12; k++)
                printf(" %" PRId64, gauges[i].record[k]);
            printf("; read");
            for (size_t k = 0; k < TOLD; k++)
                printf(" %" PRId64, c->readings[TOLD * i + k]);
            printf(", not");
            for (size_t k = 0; k < TOLD; k++)
                printf(" %" PRId64, told[k]);
            puts("");
        }
        if (!same)
            break;
    }
    expect(same, what);
}

/* A record that is at its end: what of it was met. */
static void ended(const struct gauge *g)
{
    const int64_t *r = g->record;
    size_t first = g->fed, last = g->fed; /* crossings */
    bool zero_after_zero = false, at_zero = false;
    struct second_waves found = waves_of(g);
    records++;
    records_met[g->kind]++;
    waves_met[g->kind] += (long)found.waves;
    for (size_t i = 1; i < g->fed; i++) {
        if (crosses(r, i)) {
            first = first == g->fed ? i : first;
            last = i;
            at_zero |= r[i] == 0;
        }
        zero_after_zero |= r[i] == 0 && r[i - 1] == 0;
    }
    int64_t low_before = MOST + 1, low = MOST + 1, high = LEAST - 1, high_open = LEAST - 1;
    for (size_t i = 0; i < g->fed; i++) {
        int64_t *lowest = i < first ? &low_before : &low, *highest = i < last ? &high : &high_open;
        *lowest = r[i] < *lowest ? r[i] : *lowest;
        *highest = r[i] > *highest ? r[i] : *highest;
    }
    events[NO_HEIGHT] += g->fed == 0, events[ONE_HEIGHT] += g->fed == 1, events[TWO_HEIGHTS] += g->fed == 2;
    events[THREE_HEIGHTS] += g->fed == 3, events[MANY_HEIGHTS] += g->fed >= 100;
    events[STARTS_ABOVE] += g->fed > 0 && r[0] >= 0;
    events[CROSSES_AT_ZERO] += at_zero, events[ZERO_AFTER_ZERO] += zero_after_zero;
    events[ENDS_AT_CROSSING] += g->fed > 0 && crosses(r, g->fed - 1);
    events[NO_WAVE] += found.crossings == 1;
    events[LOWER_BEFORE] += found.waves > 0 && low_before < low;
    events[HIGHER_OPEN] += found.waves > 0 && high_open > high;
    events[LARGE_SUM] += found.sum > UINT32_MAX, events[LARGEST_WAVE] += found.largest == WAVE;
    events[PLACED_LATE] += g->late, events[WENT_ON] += g->moved_on, events[IN_A_GAP] += g->in_a_gap;
}

/* The lowest empty place, from 0; as many as there are places if none is. */
static size_t empty_place(const struct gauge *gauges)
{
    size_t i = 0;
    while (i < GAUGES && gauges[i].there)
        i++;
    return i;
}

/* A gauge placed at a cell: in the lowest empty place, where the library must put it too. */
static void place_one(struct call *c, struct gauge *gauges, size_t cell, enum record_kind kind, bool late)
{
    static int64_t room[GAUGES][LONG];
    size_t i = empty_place(gauges);
    bool beside = false;
    c->cell = cell;
    if (i == GAUGES) {
        answered(PLACE, c, refused(PATHPETAL_NINTH_GAUGE), "a ninth gauge");
        return;
    }
    if (!answered(PLACE, c, placed_as(i + 1), "a gauge"))
        return;
    placed_in[i + 1]++;
    for (size_t k = 0; k < GAUGES; k++) {
        beside |= gauges[k].there && gauges[k].cell == cell;
        gauges[i].in_a_gap |= gauges[k].there && k > i;
    }
    gauges[i] = (struct gauge){.there = true, .late = late, .in_a_gap = gauges[i].in_a_gap, .cell = cell, .kind = kind,
                               .record = room[i]};
    events[AT_ONE_CELL] += beside;
}

/* A feeding by the channel as it stands: every gauge's record grows by the height at its cell. */
static void feed_all(struct call *c, struct gauge *gauges)
{
    size_t there = 0;
    feeds++;
    for (size_t i = 0; i < GAUGES; i++)
        if (gauges[i].there) {
            gauges[i].record[gauges[i].fed++] = pathpetal_height_um(c->file, gauges[i].cell - 1);
            there++;
        }
    events[NO_GAUGE] += there == 0, events[EIGHT] += there == GAUGES;
    events[FED_COMPLETE] += pathpetal_complete(c->file), events[FED_DAMPED] += is_damped(c);
    answered(FEED, c, 0, "a feeding");
}

static void all_ended(struct call *c, struct gauge *gauges, const char *what)
{
    compare_now(c, gauges, what);
    for (size_t i = 0; i < GAUGES; i++)
        if (gauges[i].there)
            ended(&gauges[i]);
}

static size_t furthest(const struct gauge *gauges)
{
    size_t most = 8;
    for (size_t i = 0; i < GAUGES; i++)
        most = gauges[i].there && gauges[i].cell > most ? gauges[i].cell : most;
    return most;
}

/* Another channel, of at most so many cells, in which every gauge has its own: it goes on with them. */
static void other_channel(struct call *c, struct gauge *gauges, size_t most)
{
    size_t least = furthest(gauges);
    channel(c, (size_t)between((int64_t)least, (int64_t)(least + 4 < most ? least + 4 : most)));
    for (size_t i = 0; i < GAUGES; i++)
        gauges[i].moved_on |= gauges[i].fed > 0;
}

static void take_away(struct call *c, struct gauge *gauges)
{
    size_t i = draw() % GAUGES;
    if (!gauges[i].there)
        return;
    compare_now(c, gauges, "before a gauge is taken away");
    ended(&gauges[i]);
    events[EMPTIED]++;
    memset(c->state + 64 * i, 0, 64);
    gauges[i] = (struct gauge){0};
}

/* Records of many kinds at once, one for each cell, and gauges that come and go at them. */
static void one_run(void)
{
    static struct call c;
    static int64_t heights[256][RUN_MOST];
    enum record_kind kinds[256];
    struct gauge gauges[GAUGES] = {0};
    size_t N = some_cells(), len = one_in(6) ? draw() % 4 : one_in(100) ? (size_t)between(100, RUN_MOST) : draw() % 60;
    size_t wanted = (size_t)PICK(0, 1, 2, 3, 4, 5, 6, 7, 8, 8, 9), most = N + 8 < 256 ? N + 8 : 256;
    if (N > 12)
        len %= 40;
    for (size_t j = 0; j < most; j++) {
        kinds[j] = (enum record_kind)(draw() % DRAWN_KINDS);
        draw_record(kinds[j], heights[j], len);
    }
    channel(&c, N);
    no_gauges(&c);
    expect(pathpetal_check(c.file, c.file_len) == 0, "the channel is one");
    for (size_t t = 0; t <= len; t++) {
        size_t cells = pathpetal_cells(c.file);
        for (size_t k = t > 0 && one_in(len) ? 1 : t > 0 ? 0 : wanted; k > 0; k--) {
            size_t cell = 1 + draw() % cells;
            place_one(&c, gauges, cell, kinds[cell - 1], t > 0);
        }
        if (one_in(60)) {
            c.cell = (uint64_t)PICK(0, (int64_t)cells + 1, 257, INT64_MAX, -1, (1ll << 32) + 1);
            unsigned number = empty_place(gauges) == GAUGES ? PATHPETAL_NINTH_GAUGE : PATHPETAL_OFF_CHANNEL;
            answered(PLACE, &c, refused(number), "a cell off the channel");
        }
        if (one_in(120))
            take_away(&c, gauges);
        if (one_in(40))
            other_channel(&c, gauges, most);
        if (t == len)
            break;
        for (size_t j = 0; j < pathpetal_cells(c.file); j++)
            set_height(&c, j + 1, heights[j][t]);
        feed_all(&c, gauges);
        if (one_in(5))
            compare_now(&c, gauges, "at a moment");
    }
    all_ended(&c, gauges, "at the end of its records");
}

/* Water that is high at one end and low at the other, and then swings. */
static void swinging(struct scene *s, size_t N)
{
    s->cells = N, s->width = 1000, s->step = 50, s->wanted = (uint64_t)between(100, 500);
    for (size_t j = 0; j < N; j++) {
        s->depths[j] = 1000, s->velocities[j] = 0, s->poured[j] = 0;
        s->heights[j] = j < N / 2 ? 20000 : j >= N - N / 2 ? -20000 : 0;
    }
}

/* Heights fed between the steps of a channel that the library makes and steps, and after its last. */
static void real_run(void)
{
    static struct call c;
    static struct scene s;
    static uint8_t rows[5][4 * 256];
    struct gauge gauges[GAUGES] = {0};
    size_t N = (size_t)between(8, 16);
    if (one_in(2))
        swinging(&s, N);
    else
        calm(&s, N);
    const int32_t *from[4] = {s.depths, s.heights, s.velocities, s.poured};
    for (size_t i = 0; i < 4; i++)
        for (size_t j = 0; j < N; j++)
            put(rows[i] + 4 * j, (uint64_t)(int64_t)from[i][j], 4);
    draw_dampings(rows[4], N);
    c.file_len = pathpetal_length(N);
    no_gauges(&c);
    uint64_t made = pathpetal_make(N, s.width, s.step, s.wanted, rows[0], 4 * N, rows[1], 4 * N, rows[2], 4 * N,
                                   rows[4], 4 * N, c.file, c.file_len);
    expect(made == 0, "a channel for a real run is made");
    if (made)
        return;
    for (size_t k = (size_t)between(1, 8); k > 0; k--) {
        size_t cell = 1 + draw() % N;
        place_one(&c, gauges, cell, REAL, false);
    }
    for (int beyond = 0; beyond < 3; beyond++) {
        uint64_t step = 0;
        while (!pathpetal_complete(c.file) && pathpetal_number(step) == 0) {
            bool pour = one_in(4);
            step = pour ? pathpetal_step(c.file, c.file_len, rows[3], 4 * N) : pathpetal_run(c.file, c.file_len, 1);
            if (pathpetal_number(step) == PATHPETAL_MORE)
                step = 0;
            if (pathpetal_number(step) == 0) {
                feed_all(&c, gauges);
                events[RUN_DAMPED] += is_damped(&c);
            }
            if (one_in(20))
                compare_now(&c, gauges, "between steps");
        }
        feed_all(&c, gauges);
    }
    all_ended(&c, gauges, "after a real run");
}

/* Seven gauges with as many heights as a gauge holds, the last `by_hand` of them fed by the library and those before by
   putting their state into the bytes. */
static void longest(size_t by_hand)
{
    static struct call c;
    static int64_t heights[8][LONG];
    static const enum record_kind kinds[8] = {ALTERNATE, EXTREMES, WALK, SWELL, SMALL, PLATEAUS, ANY, ONE_CROSSING};
    struct gauge gauges[GAUGES] = {0};
    channel(&c, 8);
    no_gauges(&c);
    for (size_t j = 0; j < 8; j++)
        draw_record(kinds[j], heights[j], LONG);
    for (size_t t = 0; t < LONG; t++) /* the most waves, and the largest */
        heights[0][t] = t % 2 ? MOST : LEAST;
    for (size_t j = 0; j < 7; j++)
        place_one(&c, gauges, j + 1, LONGEST, false);
    for (size_t j = 0; j < 7 && by_hand < LONG; j++) {
        int64_t due[NUMBERS];
        gauges[j].fed = LONG - by_hand;
        memcpy(gauges[j].record, heights[j], gauges[j].fed * sizeof(int64_t));
        struct second_waves found = waves_of(&gauges[j]);
        state_of(&gauges[j], &found, due);
        put_gauge(&c, j, due);
    }
    for (size_t t = LONG - by_hand; t < LONG; t++) {
        for (size_t j = 0; j < 8; j++)
            set_height(&c, j + 1, heights[j][t]);
        feed_all(&c, gauges);
        if (t % 100000 == 0)
            compare_now(&c, gauges, "in a long record");
    }
    all_ended(&c, gauges, "at the end of a long record");
    expect(c.readings[3] == 499999 && c.readings[4] == WAVE && c.readings[5] == INT64_C(19999460001000),
           "the most waves, and the largest sum");
    answered(FEED, &c, refused(PATHPETAL_GAUGE_FULL), "seven full gauges");
    place_one(&c, gauges, 8, LONGEST, true);
    answered(FEED, &c, refused(PATHPETAL_GAUGE_FULL), "seven full gauges and one that is not");
    compare_now(&c, gauges, "after it was refused");
    for (size_t i = 0; i < 7; i++) {
        memset(c.state + 64 * i, 0, 64);
        gauges[i].there = false;
    }
    set_height(&c, 8, -5);
    feed_all(&c, gauges);
    compare_now(&c, gauges, "with the full ones taken away");
}

/* Records whose counts are known beforehand. */
static void known(void)
{
    static const struct {
        int64_t record[12];
        size_t len;
        int64_t crossings, waves, largest, sum;
    } cases[] = {
        {{-1, 0, 5, -3, -1, 2, 7, -2, 0, 3}, 10, 3, 2, 9, 17},
        {{-1, 0, 0, -1, 0}, 5, 2, 1, 1, 1},
        {{0, 0, 0, 1, 2}, 5, 0, 0, 0, 0},
        {{3, -2, 4}, 3, 1, 0, 0, 0},
        {{-9, 1, -1, 50}, 4, 2, 1, 2, 2},
        {{-9, 1, -1, 50, -50}, 5, 2, 1, 2, 2},
        {{-9, 8, -8, 1, -1, 0}, 6, 3, 2, 16, 18},
        {{LEAST, MOST, LEAST, MOST}, 4, 2, 1, WAVE, WAVE},
        {{-1, -1, -1}, 3, 0, 0, 0, 0},
        {{0}, 0, 0, 0, 0, 0},
    };
    for (size_t i = 0; i < sizeof cases / sizeof *cases; i++) {
        static struct call c;
        struct gauge gauges[GAUGES] = {0};
        channel(&c, 9);
        no_gauges(&c);
        place_one(&c, gauges, 4, ANY, false);
        for (size_t t = 0; t < cases[i].len; t++) {
            set_height(&c, 4, cases[i].record[t]);
            feed_all(&c, gauges);
        }
        compare_now(&c, gauges, "a known record");
        const int64_t told[TOLD] = {4, (int64_t)cases[i].len, cases[i].crossings, cases[i].waves, cases[i].largest,
                                    cases[i].sum};
        expect(!memcmp(told, c.readings, sizeof told), "the counts of a known record");
    }
}

/* ---- states of any bytes ---- */

static bool file_at_fault(const struct call *c) { return by_second_check(c->file, c->file_len) != 0; }

/* What a call may change. */
struct left {
    uint8_t state[STATE_MOST];
    int64_t readings[READINGS_MOST];
};

static void keep(struct left *left, const struct call *c)
{
    memcpy(left->state, c->state, sizeof left->state);
    memcpy(left->readings, c->readings, sizeof left->readings);
}

static void put_back(struct call *c, const struct left *left)
{
    memcpy(c->state, left->state, sizeof left->state);
    memcpy(c->readings, left->readings, sizeof left->readings);
}

/* The call by both: the same answer, the same bytes. c stays as it is. */
static uint64_t compare(enum which which, struct call *c)
{
    static struct left before, second, library;
    enum touched touched;
    uint64_t due;
    keep(&before, c);
    switch (which) {
    case PLACE: due = by_second_place_gauge(c->file, c->file_len, c->state, c->state_len, c->cell); break;
    case FEED: due = by_second_feed_gauges(c->file, c->file_len, c->state, c->state_len); break;
    default: due = by_second_read_gauges(c->state, c->state_len, c->readings, c->readings_len); break;
    }
    keep(&second, c);
    put_back(c, &before);
    uint64_t answer = by_library(which, c, &touched);
    keep(&library, c);
    put_back(c, &before);
    bool same = !memcmp(&library, &second, sizeof second);
    answers[which][pathpetal_number(due)][which == READ || !file_at_fault(c)]++;
    if (answer == due && same && touched == NOTHING)
        passed++;
    else if (failed++ < 20) {
        printf("%s of gauges in %zu bytes: answers %u %u %u %" PRIu64 ", not %u %u %u %" PRIu64 "%s%s%s; cell %" PRIu64
               ", %zu readings\n", call_names[which], c->state_len, pathpetal_number(answer), pathpetal_stage(answer),
               pathpetal_place(answer), pathpetal_count(answer), pathpetal_number(due), pathpetal_stage(due),
               pathpetal_place(due), pathpetal_count(due), same ? "" : ", other bytes", touched ? ", and touched " : "",
               touched_names[touched], c->cell, c->readings_len);
        for (size_t i = 0; i < GAUGES && c->state_len == STATE; i++)
            for (size_t k = 0; k < NUMBERS; k++)
                printf("%s%" PRId64 "%s", k ? " " : "  ", number_of(c, i, k), k + 1 < NUMBERS ? "" : "\n");
    }
    return due;
}

static void to_every_call(struct call *c)
{
    states++;
    c->readings_len = one_in(9) ? (size_t)PICK(0, 47, 49, 96, 1) : READINGS;
    c->cell = (uint64_t)PICK(1, 1, 8, 9, 0, 257, -1);
    for (size_t i = 0; i < READINGS_MOST; i++)
        c->readings[i] = (int64_t)draw();
    for (enum which which = PLACE; which < CALLS; which++)
        compare(which, c);
}

/* A gauge within its bounds, whether a record gives it or not. */
static void any_gauge(int64_t *g, size_t N)
{
    g[CELL] = one_in(40) ? between(1, 256) : between(1, (int64_t)N);
    g[FED] = one_in(60) ? LONG : magnitude(LONG - 1);
    g[LAST] = g[FED] == 0 ? between(0, 5) : one_in(2) ? between(-3, 3) : between(LEAST, MOST);
    g[CROSSINGS] = between(0, (g[FED] - (g[LAST] < 0)) / 2);
    g[HIGHEST] = one_in(2) ? between(-3, 3) : between(LEAST, MOST);
    g[LOWEST] = one_in(2) ? between(LEAST, g[HIGHEST]) : g[HIGHEST];
    int64_t waves = g[CROSSINGS] > 0 ? g[CROSSINGS] - 1 : 0;
    g[SUM] = one_in(3) ? WAVE * waves : between(0, WAVE * waves);
    g[LARGEST] = between(0, g[SUM] < WAVE ? g[SUM] : WAVE);
}

/* Places filled or empty in any order. */
static void any_state(struct call *c, size_t N)
{
    uint64_t share = (uint64_t)PICK(1, 2, 5, 100); /* how many of the places are empty */
    no_gauges(c);
    for (size_t i = 0; i < GAUGES; i++) {
        int64_t g[NUMBERS];
        any_gauge(g, N);
        if (share == 100 || !one_in(share))
            put_gauge(c, i, g);
    }
}

static void any_channel(struct call *c, size_t N)
{
    channel(c, N);
    for (size_t j = 0; j < N; j++) {
        int64_t height = one_in(3) ? between(-2, 2) : between(LEAST, MOST);
        set_height(c, j + 1, height);
    }
}

/* Each number of a gauge at the ends of its range, as the others leave it, and just outside them. */
static void at_the_ends(struct call *c, size_t place, const int64_t *g)
{
    int64_t waves = g[CROSSINGS] > 0 ? g[CROSSINGS] - 1 : 0, least_fed = 2 * g[CROSSINGS] + (g[LAST] < 0);
    const int64_t ends[NUMBERS][8] = {
        [CELL] = {0, 1, 256, 257, -1, 255, (int64_t)pathpetal_cells(c->file), (int64_t)pathpetal_cells(c->file) + 1},
        [FED] = {least_fed - 1, least_fed, LONG, LONG + 1, -1, 0, least_fed + 1, LONG - 1},
        [LAST] = {LEAST - 1, LEAST, MOST, MOST + 1, -1, 0, 1, LEAST + 1},
        [CROSSINGS] = {-1, 0, 1, (g[FED] - (g[LAST] < 0)) / 2, (g[FED] - (g[LAST] < 0)) / 2 + 1,
                       1 + (g[SUM] + WAVE - 1) / WAVE, (g[SUM] + WAVE - 1) / WAVE, (g[FED] + 1) / 2},
        [HIGHEST] = {g[LOWEST] - 1, g[LOWEST], MOST, MOST + 1, LEAST, LEAST - 1, 0, g[LOWEST] + 1},
        [LOWEST] = {g[HIGHEST] + 1, g[HIGHEST], LEAST, LEAST - 1, MOST, MOST + 1, 0, g[HIGHEST] - 1},
        [LARGEST] = {-1, 0, g[SUM], g[SUM] + 1, WAVE, WAVE + 1, 1, WAVE - 1},
        [SUM] = {g[LARGEST] - 1, g[LARGEST], WAVE * waves, WAVE * waves + 1, -1, 0, WAVE * (waves + 1), 1},
    };
    static const int64_t far[] = {INT64_MIN, INT64_MAX, INT64_MIN + 1, INT64_MAX / 2 + 1, 1ll << 32, INT32_MAX,
                                  INT32_MIN, -(1ll << 32), 1ll << 56, (1ll << 62) + 1};
    for (size_t k = 0; k < NUMBERS; k++) {
        int64_t changed[NUMBERS];
        memcpy(changed, g, sizeof changed);
        for (size_t i = 0; i < 8; i++) {
            changed[k] = ends[k][i];
            put_gauge(c, place, changed);
            to_every_call(c);
        }
        for (size_t i = 0; i < 2 * sizeof far / sizeof *far; i++) { /* alone, and added to what is there */
            uint64_t to = (uint64_t)far[i / 2] + (i % 2 ? (uint64_t)g[k] : 0);
            put_gauge(c, place, g);
            put(c->state + 64 * place + 8 * k, to, 8);
            to_every_call(c);
        }
        put_gauge(c, place, g);
    }
}

static void ends_of_ranges(long rounds)
{
    static struct call c;
    for (long i = 0; i < rounds; i++) {
        int64_t g[NUMBERS];
        size_t N = some_cells(), place = (size_t)i % GAUGES;
        any_channel(&c, N);
        any_state(&c, N);
        any_gauge(g, N);
        put_gauge(&c, place, g);
        to_every_call(&c);
        at_the_ends(&c, place, g);
        /* a place that is empty but for one number */
        static const int64_t empty[NUMBERS];
        at_the_ends(&c, place, empty);
    }
}

static void random_bytes(long rounds)
{
    static struct call c;
    for (long i = 0; i < rounds; i++) {
        size_t N = some_cells();
        any_channel(&c, N);
        any_state(&c, N);
        to_every_call(&c);
        for (uint64_t k = one_in(2) ? 1 : 1 + draw() % 8; k > 0; k--) {
            uint8_t *at = c.state + draw() % STATE;
            *at = one_in(2) ? (uint8_t)draw() : (uint8_t)(*at ^ 1u << draw() % 8);
        }
        to_every_call(&c);
        if (one_in(4)) {
            no_gauges(&c);
            c.state[draw() % STATE] = (uint8_t)(1u << draw() % 8);
            to_every_call(&c);
        }
        if (one_in(20)) {
            for (size_t k = 0; k < STATE; k++)
                c.state[k] = (uint8_t)draw();
            to_every_call(&c);
        }
    }
}

/* Every length to more than twice the right one, over gauges that go on behind it or over zeros. */
static void other_lengths(void)
{
    static struct call c;
    any_channel(&c, 9);
    for (size_t len = 0; len <= 1100; len++)
        for (int zeros = 0; zeros < 2; zeros++) {
            any_state(&c, 9);
            memcpy(c.state + STATE, c.state, STATE);
            if (zeros)
                memset(c.state, 0, STATE_MOST);
            c.state_len = len;
            to_every_call(&c);
            lengths_tried++;
        }
}

/* ---- faults together: the first in the interface's order is the answer ---- */

enum { OWN_FAULTS = 22 };

/* The same channel in a file of edition 1, which has no damping row and no offset for it. */
static void to_edition_1(struct call *c)
{
    size_t N = pathpetal_cells(c->file);
    put(c->file, 1, 4);
    for (size_t i = 0; i < 6; i++)
        put(c->file + 24 + 4 * i, pathpetal_word(c->file + 24 + 4 * i) - 4, 4);
    c->file_len = 24 + 64 * N;
    memmove(c->file + 48, c->file + 52, c->file_len - 48);
}

/* A fault of the channel's file, with the number and the place that it must be refused with. */
static uint64_t spoil_file(struct call *c, int fault)
{
    size_t N = pathpetal_cells(c->file), j = draw() % N, face = draw() % (N - 1), level = draw() % 3;
    uint8_t *rows = c->file + 52;
    switch (fault) {
    case 0: c->file_len = draw() % 48; return refused(12);
    case 1: put(c->file, (uint64_t)PICK(0, 1, 3), 4); return refused(13);
    case 2: /* in a file of any length from 48 bytes */
        put(c->file + 4, (uint64_t)PICK(7, 257, 0, UINT32_MAX), 4);
        c->file_len = (size_t)PICK((int64_t)c->file_len, 48, 50, 52);
        return refused(1);
    case 3:
        c->file_len = one_in(2) ? (size_t)PICK(48, 51) : c->file_len + (size_t)PICK(1, -1, 68, -68);
        return refused(12);
    case 4: put(c->file + 24 + 4 * (draw() % 7), 47, 4); return refused(14);
    case 5: put(c->file + 16, 51, 4); return refused(2);
    case 6: put(rows + 4 * j, (uint64_t)PICK(0, 20001), 4); return refused(31) + (j + 1) * 65536;
    case 7: put(rows + 4 * N + 4 * j, (uint64_t)PICK(20000001, -20000001), 4); return refused(32) + (j + 1) * 65536;
    case 8: put(rows + 8 * N + 4 * j, 20000001, 4); return refused(33) + (j + 1) * 65536;
    case 9: put(rows + 12 * N + 4 * j, 2000000001, 4); return refused(34) + (j + 1) * 65536;
    case 10:
        put(rows + 16 * N + 8 * (level * (N - 1) + face), 1000000000000001, 8);
        return refused(35) + (face + 1) * 65536;
    case 11:
        put(c->file + 28 + 40 * N + 8 * (level * N + j), (uint64_t)INT64_C(-100000000001), 8);
        return refused(36) + (j + 1) * 65536;
    case 12: set_height(c, j + 1, LEAST - 1); return refused(4) + (j + 1) * 65536;
    case 13:
        for (size_t i = 0; i < N; i++) {
            put(rows + 4 * i, i == j ? 1000 : 4353, 4);
            set_height(c, i + 1, 0);
        }
        put(c->file + 8, 1000, 4);
        return refused(5) + (j + 1) * 65536;
    case 14: put(c->file + 8, 571, 4), put(c->file + 12, 100, 4); return refused(26);
    case 15: /* beside a row that is not dominant, which comes after it */
        spoil_file(c, 13), put(c->file + 8, 266, 4), put(c->file + 12, 100, 4);
        return refused(26);
    case 16: /* beside a dry cell too, which comes before it */
        spoil_file(c, 15), set_height(c, j + 1, LEAST);
        return refused(4) + (j + 1) * 65536;
    case 17: to_edition_1(c); return refused(13);
    case 18: /* in the last cell too */
        put(c->file + c->file_len - 4, (uint64_t)PICK(-1, 10001), 4);
        put(c->file + 28 + 64 * N + 4 * j, (uint64_t)PICK(-1, 10001, INT32_MIN, INT32_MAX), 4);
        return refused(38) + (j + 1) * 65536;
    case 19: /* beside what comes after it: a dry cell, a time step that is too long, a row that is not dominant */
        spoil_file(c, 16);
        return spoil_file(c, 18);
    case 20: /* beside an acceleration, which comes before it */
        spoil_file(c, 18);
        return spoil_file(c, 11);
    default: return 0; /* none */
    }
}

/* Every subset of the faults that one call can have, in the order in which they are refused. */
static void faults(enum which which)
{
    enum { LENGTH = 1, DAMAGED = 2, THIRD = 4, FOURTH = 8, ALL = 16 };
    static const unsigned third[CALLS] = {PATHPETAL_NINTH_GAUGE, PATHPETAL_OFF_CHANNEL, PATHPETAL_BUFFER};
    static const unsigned fourth[CALLS] = {PATHPETAL_OFF_CHANNEL, PATHPETAL_GAUGE_FULL, 0};
    static struct call c;
    for (int own = 0; own < (which == READ ? 1 : OWN_FAULTS); own++)
        for (unsigned set = 0; set < (which == READ ? FOURTH : ALL); set++) {
            size_t N = some_cells(), there = which == PLACE ? (set & THIRD ? 8 : draw() % 8) : draw() % 9;
            any_channel(&c, N);
            no_gauges(&c);
            for (size_t i = 0; i < there; i++) {
                int64_t g[NUMBERS];
                do
                    any_gauge(g, N);
                while (g[CELL] > (int64_t)N || g[FED] == LONG);
                put_gauge(&c, i, g);
            }
            c.cell = (uint64_t)between(1, (int64_t)N);
            if (which == PLACE && set & FOURTH)
                c.cell = (uint64_t)PICK(0, (int64_t)N + 1, -1);
            c.readings_len = which == READ && set & THIRD ? (size_t)PICK(0, 47, 49, 6, 96) : READINGS;
            size_t last = GAUGES - 1, one = draw() % 7;
            if (which == FEED && set & FOURTH)
                put_gauge(&c, one, (int64_t[NUMBERS]){1, LONG});
            if (which == FEED && set & THIRD)
                put_gauge(&c, last, (int64_t[NUMBERS]){256, 3});
            if (which == FEED && set & THIRD && N == 256)
                continue;
            if (set & DAMAGED)
                put(c.state + 64 * (one + (which == FEED && set & FOURTH ? 0 : draw() % 2)) + 8 * HIGHEST,
                    (uint64_t)PICK(MOST + 1, LEAST - 1, INT64_MAX), 8);
            if (set & LENGTH)
                c.state_len = (size_t)PICK(0, 64, 511, 513, 1024);
            uint64_t due = own < OWN_FAULTS - 1 && which != READ ? spoil_file(&c, own) : 0;
            if (!due)
                due = set & LENGTH ? refused(12) : set & DAMAGED ? refused(14) : set & THIRD ? refused(third[which])
                    : set & FOURTH ? refused(fourth[which]) : which == PLACE ? placed_as(there + 1) : 0;
            expect(compare(which, &c) == due, "faults together are refused in their order");
            states++;
        }
}

/* ---- what must have been met ---- */

static bool due(enum which which, int number, int of_gauges)
{
    static const int of_file[] = {1, 2, 4, 5, 12, 13, 14, 26, 31, 32, 33, 34, 35, 36, 38};
    if (!of_gauges) {
        for (size_t i = 0; i < sizeof of_file / sizeof *of_file; i++)
            if (number == of_file[i])
                return which != READ;
        return false;
    }
    switch (number) {
    case 0: case 12: case 14: return true;
    case 15: return which == READ;
    case 20: return which == PLACE;
    case 21: return which != READ;
    case 30: return which == FEED;
    default: return false;
    }
}

static void table(long wanted)
{
    char what[80];
    puts("records by kind, and the complete waves in them:");
    for (int i = 0; i < RECORD_KINDS; i++) {
        printf("  %7ld %8ld  %s\n", records_met[i], waves_met[i], record_names[i]);
        expect(records_met[i] > 0, record_names[i]);
    }
    puts("of these:");
    for (int i = 0; i < EVENTS; i++) {
        printf("  %7ld  %s\n", events[i], event_names[i]);
        expect(events[i] > 0, event_names[i]);
    }
    fputs("gauges placed in place 1 to 8:", stdout);
    for (int i = 1; i <= GAUGES; i++) {
        printf(" %ld", placed_in[i]);
        expect(placed_in[i] > 0, "a gauge in every place");
    }
    printf("\n%ld records, looked at in %ld moments, by %ld feedings\n", records, moments, feeds);
    expect(records >= wanted, "as many records as were asked for");
    puts("answers over states of any bytes, by call and number:");
    for (enum which which = PLACE; which < CALLS; which++)
        for (int own = 0; own < 2; own++) {
            printf("  %-5s %s", call_names[which], own ? "by its gauges" : "by its file");
            for (int number = 0; number < NUMBERS_MOST; number++) {
                if (answers[which][number][own])
                    printf(", %d: %ld", number, answers[which][number][own]);
                snprintf(what, sizeof what, "%s answers %d", call_names[which], number);
                if (due(which, number, own))
                    expect(answers[which][number][own] > 0, what);
                else
                    expect(answers[which][number][own] == 0, what);
            }
            puts("");
        }
    printf("%ld states, %ld lengths\n", states, lengths_tried);
}

int main(int argc, char **argv)
{
    long wanted = argc == 3 ? atol(argv[1]) : 0, by_hand = argc == 3 ? atol(argv[2]) : 0;
    if (wanted < 1 || by_hand < 1 || by_hand > LONG) {
        fputs("usage: test RECORDS FED\n", stderr);
        return 2;
    }
    setvbuf(stdout, NULL, _IOLBF, 0);
    arenas();
    seed(20260102);
    known();
    for (enum which which = PLACE; which < CALLS; which++)
        for (int i = 0; i < 20; i++)
            faults(which);
    other_lengths();
    ends_of_ranges(wanted / 2000 + 16);
    random_bytes(wanted / 10);
    longest((size_t)by_hand);
    for (long i = 0; i < wanted / 1000 + 20; i++)
        real_run();
    while (records < wanted && failed < 1000)
        one_run();
    table(wanted);
    printf("%ld passed, %ld failed\n", passed, failed);
    return failed != 0;
}
