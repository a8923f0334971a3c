/* The C interface of include/pathpetal.h beside the second program: for every call the same answer and the same bytes,
   and no byte touched outside the strings that were lent. Of the gauges here is what a C program sees; what they count
   is compared in tests/gauges.
   usage: test    prints how often each answer occurred, and last 'N passed, M failed' */
#define _DEFAULT_SOURCE
#include "../../include/pathpetal.h"
#include "expected.h"
#include "rare.h"
#include "scenes.h"

#include <inttypes.h>
#include <signal.h>
#include <stdio.h>
#include <string.h>
#include <sys/mman.h>
#include <unistd.h>

enum kind { CHECK, STEP, FILTER, RUN, MAKE, KINDS };
static const char *const names[KINDS] = {"check", "step", "filter", "run", "make"};

enum { BYTES, POURED, DEPTHS, HEIGHTS, VELOCITIES, DAMPINGS, STRINGS };
/* Fewer bytes than HEAD are no file of any edition; from ROWS_START on, behind WORDS counts and offsets, are the rows. */
enum { ROOM = 40000, HEAD = 48, ROWS_START = 52, WORDS = ROWS_START / 4, CANARIES = 64, ARENA = 65536 };

/* A byte string, in room enough for any length that is tried. */
struct string {
    size_t len;
    uint8_t at[ROOM];
};

/* A call's whole input. */
struct call {
    uint64_t cells, width, step, wanted; /* of make */
    uint64_t most;                       /* of run */
    struct string string[STRINGS];       /* the file, step's poured row, make's rows */
};

static bool takes(enum kind kind, int i)
{
    return i == BYTES || (kind == STEP && i == POURED) || (kind == MAKE && i >= DEPTHS);
}

struct interface {
    uint64_t (*make)(uint64_t, uint64_t, uint64_t, uint64_t, const uint8_t *, size_t, const uint8_t *, size_t,
                     const uint8_t *, size_t, const uint8_t *, size_t, uint8_t *, size_t);
    uint64_t (*check)(const uint8_t *, size_t);
    uint64_t (*step)(uint8_t *, size_t, const uint8_t *, size_t);
    uint64_t (*filter)(uint8_t *, size_t);
    uint64_t (*run)(uint8_t *, size_t, uint64_t);
};
static const struct interface library = {pathpetal_make, pathpetal_check, pathpetal_step, pathpetal_filter,
                                         pathpetal_run};
static const struct interface second = {expected_make, expected_check, expected_step, expected_filter, expected_run};

#define LENT(i) at[i], c->string[i].len

static uint64_t done_by(const struct interface *by, enum kind kind, const struct call *c, uint8_t *const at[STRINGS])
{
    switch (kind) {
    case CHECK: return by->check(LENT(BYTES));
    case STEP: return by->step(LENT(BYTES), LENT(POURED));
    case FILTER: return by->filter(LENT(BYTES));
    case RUN: return by->run(LENT(BYTES), c->most);
    default: return by->make(c->cells, c->width, c->step, c->wanted, LENT(DEPTHS), LENT(HEIGHTS), LENT(VELOCITIES),
                             LENT(DAMPINGS), LENT(BYTES));
    }
}

/* ---- where the strings lie: between two pages that nobody may touch ---- */

static uint8_t *arena[STRINGS];

static void arenas(void)
{
    for (int i = 0; i < STRINGS; i++) {
        uint8_t *at = mmap(NULL, 3 * ARENA, PROT_NONE, MAP_PRIVATE | MAP_ANONYMOUS, -1, 0);
        if (at == MAP_FAILED || mprotect(at + ARENA, ARENA, PROT_READ | PROT_WRITE)) {
            puts("no memory\n0 passed, 1 failed");
            _exit(1);
        }
        arena[i] = at + ARENA;
    }
}

static void touched(int number)
{
    static const char line[] = "a call touched memory that it was not lent\n0 passed, 1 failed\n";
    (void)number;
    _exit(write(1, line, sizeof line - 1) < 0 ? 2 : 1);
}

/* A string put up against the page behind it, against the page before it, or at any address between. */
static uint8_t *place(int i, const struct string *s)
{
    uint8_t *at = arena[i];
    switch (draw() % 4) {
    case 0: at += ARENA - s->len; break;
    case 1: break;
    default: at += CANARIES + draw() % 32; break;
    }
    if (s->len)
        memcpy(at, s->at, s->len);
    return s->len == 0 && one_in(2) ? NULL : at;
}

static uint8_t canary(const uint8_t *at) { return (uint8_t)(((uintptr_t)at * 37) ^ 0xA5); }

/* How many canaries there is room for before and behind a string. */
static size_t room_before(int i, const uint8_t *at)
{
    return at - arena[i] < CANARIES ? (size_t)(at - arena[i]) : CANARIES;
}

static size_t room_behind(int i, const uint8_t *at, size_t len)
{
    return arena[i] + ARENA - (at + len) < CANARIES ? (size_t)(arena[i] + ARENA - (at + len)) : CANARIES;
}

static void set_canaries(int i, uint8_t *at, size_t len)
{
    if (!at)
        return;
    size_t before = room_before(i, at), behind = room_behind(i, at, len);
    for (size_t j = 1; j <= before; j++)
        *(at - j) = canary(at - j);
    for (size_t j = 0; j < behind; j++)
        at[len + j] = canary(at + len + j);
}

static bool canaries_live(int i, const uint8_t *at, size_t len)
{
    bool live = true;
    if (!at)
        return true;
    size_t before = room_before(i, at), behind = room_behind(i, at, len);
    for (size_t j = 1; j <= before; j++)
        live = live && *(at - j) == canary(at - j);
    for (size_t j = 0; j < behind; j++)
        live = live && at[len + j] == canary(at + len + j);
    return live;
}

/* ---- counting ---- */

enum { NUMBERS = 39, TURNS = 12 };
static long passed, failed, damaged_files, settled[11];
static long refused_at[KINDS][NUMBERS][TURNS]; /* turn 0: before the stages; 1 + k: stage k */

/* Where in its row or level the cell or face at fault is: how often for each refusal, before the stages and at them. */
enum where { AT_FIRST, BETWEEN, AT_LAST, WHERES };
static long placed[KINDS][NUMBERS][2][WHERES];
static const char *const where_names[WHERES] = {"the first place", "a place between", "the last place"};

/* What else must occur. */
enum event { ROW_BESIDE, AMOUNT_BESIDE, COMPLETE_BEFORE, COMPLETED, MORE_AT_ONCE, MORE_LATER, REFUSED_FIRST,
             REFUSED_LATER, MAKE_CELLS, MAKE_ROW, EVENTS };
static long events[EVENTS];
static const char *const event_names[EVENTS] = {
    "step refused 1 for its poured row alone",   "step refused 37 for its poured row alone",
    "run of a channel complete before",          "run completed a channel",
    "run stopped (16) with no step taken",       "run stopped (16) after some steps",
    "run refused at a stage of its first step",  "run refused at a stage of a later step",
    "make refused 1 for the number of cells",    "make refused 1 for a row alone"};

/* The count of accepted steps that a step or a run starts from; the last before the wanted is one of the others too.
   How often it then took a step, and how often it was refused at a stage. */
enum { FROM_LATER = 4, FROM_LAST, STARTS, RUNGS = 3 };
static const char *const starts[STARTS] = {"0", "1", "2", "3", "later", "wanted - 1"};
static long started[KINDS][STARTS][2];

/* How often a step was refused at each stage, by its row of the ladder of weights: the first step's, the second's and
   that of all others. */
static long refused_by[RUNGS][NUMBERS][TURNS];

/* How often a flux (0) or an acceleration (1) was refused in a level whose weight is 0, by the row of weights. */
static long unweighed[2][RUNGS];

/* How often a call did something with a channel that is damped (0), and was refused at a stage (1); and how often its
   answer or another row would have been otherwise without the damping. */
static long damped[KINDS][2], by_damping[KINDS][2];

/* How often damping * u / 1000 was a half in a make: below zero (1), and beside an odd number towards zero (1). */
static long damped_halves[2][2];

static size_t rung_of(uint32_t accepted) { return accepted < RUNGS - 1 ? accepted : RUNGS - 1; }

static void count_start(enum kind kind, uint32_t accepted, uint32_t wanted, bool refused)
{
    started[kind][accepted < FROM_LATER ? accepted : FROM_LATER][refused]++;
    if (accepted + 1 == wanted)
        started[kind][FROM_LAST][refused]++;
}

/* How many cells the call's channel has, or faces where those are looked at. */
static unsigned last_place(enum kind kind, const struct call *c, unsigned number)
{
    unsigned cells = kind == MAKE ? (unsigned)c->cells : pathpetal_cells(c->string[BYTES].at);
    return number == PATHPETAL_BAD_FLUX ? cells - 1 : cells;
}

/* A call that did something or was refused at a stage, and the file it left; the second program does it without the
   damping. */
static void count_damping(enum kind kind, const struct call *c, uint64_t answer, const uint8_t *left, bool refused)
{
    static uint8_t file[ROOM], none[4 * MOST_CELLS];
    size_t n = kind == MAKE ? (size_t)c->cells : pathpetal_cells(c->string[BYTES].at), row = 28 + 64 * n;
    const uint8_t *dampings = kind == MAKE ? c->string[DAMPINGS].at : c->string[BYTES].at + row;
    if (!memcmp(dampings, none, 4 * n))
        return;
    memcpy(file, c->string[BYTES].at, c->string[BYTES].len);
    memset(file + row, 0, 4 * n);
    uint8_t *lent[STRINGS];
    for (int i = 0; i < STRINGS; i++)
        lent[i] = (uint8_t *)c->string[i].at;
    lent[BYTES] = file, lent[DAMPINGS] = none;
    damped[kind][refused]++;
    by_damping[kind][refused] += done_by(&second, kind, c, lent) != answer || memcmp(file, left, row);
    for (size_t j = 0; j < n && kind == MAKE && !refused; j++) {
        int64_t u = pathpetal_signed(c->string[VELOCITIES].at + 4 * j), product = u * pathpetal_signed(dampings + 4 * j);
        if (product % 1000 == 500 || product % 1000 == -500)
            damped_halves[product < 0][product / 1000 % 2 != 0]++;
    }
}

/* Counts a call, its answer and the file it left. */
static void count(enum kind kind, const struct call *c, uint64_t answer, const uint8_t *left)
{
    unsigned number = pathpetal_number(answer), stage = pathpetal_stage(answer), place = pathpetal_place(answer);
    uint64_t steps = pathpetal_count(answer);
    bool taken = kind != CHECK && kind != MAKE && (number == 1 || number == 37 || number == 4) &&
                 expected_check(c->string[BYTES].at, c->string[BYTES].len) == 0;
    bool at_stage = (number == 4 && (taken || stage || steps)) || (number >= 6 && number <= 10);
    refused_at[kind][number][at_stage ? 1 + stage : 0]++;
    if (place > 0) {
        enum where where = place == 1 ? AT_FIRST : place == last_place(kind, c, number) ? AT_LAST : BETWEEN;
        placed[kind][number][at_stage][where]++;
    }
    if (kind == STEP && number == 0)
        settled[steps]++;
    if (kind == STEP && taken && number != 4)
        events[number == 1 ? ROW_BESIDE : AMOUNT_BESIDE]++;
    if (kind == MAKE && number == 1)
        events[c->cells < 8 || c->cells > 256 ? MAKE_CELLS : MAKE_ROW]++;
    if (kind == RUN && number == 0)
        events[steps ? COMPLETED : COMPLETE_BEFORE]++;
    if (kind == RUN && number == PATHPETAL_MORE)
        events[steps ? MORE_LATER : MORE_AT_ONCE]++;
    if (kind == RUN && at_stage)
        events[steps ? REFUSED_LATER : REFUSED_FIRST]++;
    if ((kind == STEP || kind == RUN) && (at_stage || steps > 0)) {
        uint32_t accepted = pathpetal_accepted(c->string[BYTES].at);
        count_start(kind, accepted, pathpetal_wanted(c->string[BYTES].at), at_stage);
        if (kind == STEP)
            refused_by[rung_of(accepted)][number][at_stage ? 1 + stage : 0]++;
    }
    if (kind != CHECK && (at_stage || number == 0 || steps > 0))
        count_damping(kind, c, answer, left, at_stage);
}

static void expect(bool holds, const char *what)
{
    if (holds)
        passed++;
    else if (failed++ < 20)
        printf("not so: %s\n", what);
}

static void tell(enum kind kind, const struct call *c, uint64_t a, uint64_t b, const char *what, size_t at)
{
    printf("%s differs in %s at %zu: library %u %u %u %" PRIu64 ", second %u %u %u %" PRIu64 "; file of %zu bytes:",
           names[kind], what, at, pathpetal_number(a), pathpetal_stage(a), pathpetal_place(a), pathpetal_count(a),
           pathpetal_number(b), pathpetal_stage(b), pathpetal_place(b), pathpetal_count(b), c->string[BYTES].len);
    if (kind == MAKE)
        printf(" cells %" PRIu64 " width %" PRIu64 " step %" PRIu64 " wanted %" PRIu64
               ", rows of %zu %zu %zu %zu bytes\n",
               c->cells, c->width, c->step, c->wanted, c->string[DEPTHS].len, c->string[HEIGHTS].len,
               c->string[VELOCITIES].len, c->string[DAMPINGS].len);
    else {
        for (size_t i = 0; i < WORDS && c->string[BYTES].len >= ROWS_START; i++)
            printf(" %" PRIu32, pathpetal_word(c->string[BYTES].at + 4 * i));
        printf(kind == STEP ? ", %zu poured bytes\n" : "\n", c->string[POURED].len);
    }
}

/* Both do the call; c's file is then what the second program left. */
static uint64_t compare(enum kind kind, struct call *c)
{
    static uint8_t theirs[ROOM];
    uint8_t *at[STRINGS] = {NULL}, *lent[STRINGS];
    const char *what = NULL;
    size_t where = 0;
    for (int i = 0; i < STRINGS; i++)
        lent[i] = c->string[i].at;
    lent[BYTES] = theirs;
    memcpy(theirs, c->string[BYTES].at, c->string[BYTES].len);
    uint64_t b = done_by(&second, kind, c, lent);
    for (int i = 0; i < STRINGS; i++)
        if (takes(kind, i)) {
            at[i] = place(i, &c->string[i]);
            set_canaries(i, at[i], c->string[i].len);
        }
    uint64_t a = done_by(&library, kind, c, at);
    if (a != b)
        what = "its answer";
    for (int i = 0; i < STRINGS; i++)
        if (takes(kind, i)) {
            for (size_t j = 0; !what && at[i] && j < c->string[i].len; j++)
                if (at[i][j] != lent[i][j])
                    what = i == BYTES ? "the file's byte" : "a byte that it only reads", where = j;
            if (!canaries_live(i, at[i], c->string[i].len))
                what = "a byte beside what it was lent, string", where = (size_t)i;
        }
    if (!what)
        passed++;
    else if (failed++ < 20)
        tell(kind, c, a, b, what, where);
    count(kind, c, b, theirs);
    memcpy(c->string[BYTES].at, theirs, c->string[BYTES].len);
    return b;
}

/* ---- bytes ---- */

static void put(uint8_t *at, uint64_t n, unsigned bytes)
{
    for (unsigned i = 0; i < bytes; i++)
        at[i] = (uint8_t)(n >> 8 * i);
}

static void put_row(struct string *s, const int32_t *row, size_t cells)
{
    s->len = 4 * cells;
    for (size_t j = 0; j < cells; j++)
        put(s->at + 4 * j, (uint32_t)row[j], 4);
}

static uint32_t word(const struct call *c, int i) { return pathpetal_word(c->string[BYTES].at + 4 * i); }
static void set_word(struct call *c, int i, uint64_t n) { put(c->string[BYTES].at + 4 * i, n, 4); }

enum { EDITION, CELLS, WIDTH, STEP_MS, ACCEPTED, WANTED, OFFSETS };

/* So many steps are said to be accepted, and not all that are wanted: none, one, two, three, all but one, or a count
   whose lowest bytes are 0 or 1, of which some more are then wanted. */
static void set_start(struct call *c)
{
    uint32_t wanted = word(c, WANTED);
    int64_t many = PICK(256, 257, 65536, 65537), from = PICK(0, 1, 2, 3, (int64_t)wanted - 1, many);
    if (from == many)
        set_word(c, WANTED, (uint64_t)(from + between(1, 9)));
    else if (from >= (int64_t)wanted)
        from = (int64_t)wanted - 1;
    set_word(c, ACCEPTED, (uint64_t)from);
}

/* The seven rows of a file of n cells: where they start, the bytes of an entry, how many there are, and their range. */
enum { ROW_h, ROW_e, ROW_u, ROW_V, ROW_Q, ROW_F, ROW_damping, ROWS };
static const int64_t row_least[ROWS] = {1, -20000000, -20000000, -2000000000, -1000000000000000, -100000000000, 0};
static const int64_t row_most[ROWS] = {20000, 20000000, 20000000, 2000000000, 1000000000000000, 100000000000, 10000};
static size_t row_start(int row, size_t n)
{
    return row < ROW_F ? ROWS_START + 4 * n * (size_t)row : row == ROW_F ? 28 + 40 * n : 28 + 64 * n;
}
static bool has_levels(int row) { return row == ROW_Q || row == ROW_F; }
static unsigned row_bytes(int row) { return has_levels(row) ? 8 : 4; }
static size_t row_len(int row, size_t n) { return row == ROW_Q ? 3 * (n - 1) : row == ROW_F ? 3 * n : n; }

/* The rows that make takes, in its order. */
enum { MADE_ROWS = 4 };
static const int made_rows[MADE_ROWS] = {ROW_h, ROW_e, ROW_u, ROW_damping};

static void set_entry(struct call *c, size_t n, int row, size_t j, int64_t value)
{
    put(c->string[BYTES].at + row_start(row, n) + row_bytes(row) * j, (uint64_t)value, row_bytes(row));
}

static int64_t depth(const struct call *c, size_t n, size_t j)
{
    return pathpetal_signed(c->string[BYTES].at + row_start(ROW_h, n) + 4 * j);
}

/* The least width, in mm, that is allowed with this time step where the deepest cell is so deep. */
static int64_t least_width(int64_t deepest, int64_t step)
{
    int64_t width = 10;
    while (9810 * deepest * step * step > 6000000 * width * width)
        width++;
    return width;
}

/* A time step that is too long, by 1 mm of the width, for the deepest cell. No width is too small for less than 7 mm:
   if that is all there is, one cell is made as deep. */
static void set_long_step(struct call *c, size_t n)
{
    size_t deepest = draw() % n;
    for (size_t j = 0; j < n; j++)
        if (depth(c, n, j) > depth(c, n, deepest))
            deepest = j;
    if (depth(c, n, deepest) < 7)
        set_entry(c, n, ROW_h, deepest, 7);
    set_word(c, STEP_MS, 100);
    set_word(c, WIDTH, (uint64_t)least_width(depth(c, n, deepest), 100) - 1);
}

/* Another file in place of the one that is there. */
static void set_file(struct call *c, const struct call *from)
{
    c->string[BYTES].len = from->string[BYTES].len;
    memcpy(c->string[BYTES].at, from->string[BYTES].at, from->string[BYTES].len);
    c->string[POURED].len = from->string[POURED].len;
    memcpy(c->string[POURED].at, from->string[POURED].at, from->string[POURED].len);
}

/* make's input, the poured row and a buffer of the right length with anything in it. */
static void set_scene(struct call *c, const struct scene *s)
{
    size_t n = (size_t)s->cells;
    c->cells = n, c->width = s->width, c->step = s->step, c->wanted = s->wanted;
    put_row(&c->string[DEPTHS], s->depths, n);
    put_row(&c->string[HEIGHTS], s->heights, n);
    put_row(&c->string[VELOCITIES], s->velocities, n);
    put_row(&c->string[DAMPINGS], s->dampings, n);
    put_row(&c->string[POURED], s->poured, n);
    c->string[BYTES].len = 28 + 68 * n;
    for (size_t j = 0; j < c->string[BYTES].len; j += 8)
        put(c->string[BYTES].at + j, draw(), 8);
}

/* A channel that was made, stepped and filtered a little. */
static void a_channel(struct call *c, size_t n)
{
    static struct scene s;
    do {
        if (one_in(3))
            wild(&s, n);
        else
            calm(&s, n);
        s.wanted = s.wanted % 40 + 6;
        set_scene(c, &s);
    } while (compare(MAKE, c));
    for (uint64_t k = draw() % 4; k > 0; k--)
        compare(one_in(4) ? FILTER : STEP, c);
}

static size_t few_cells(void) { return one_in(60) ? (size_t)between(8, 256) : (size_t)between(8, 12); }

/* V and levels of any size, that need not belong to the heights. */
static void any_levels(struct call *c, size_t n)
{
    for (int row = ROW_V; row <= ROW_F; row++) {
        int64_t size = magnitude(row_most[row] / 1000);
        size *= PICK(1, 30, 1000);
        for (size_t j = 0; j < row_len(row, n); j++)
            set_entry(c, n, row, j, between(-size, size));
    }
}

/* A file of 8 cells whose next prediction leaves V as it is, with every u a half in exact arithmetic: the depth is 4
   widths, and each second difference of u, mirrored at the walls, an odd number of 62,500. */
static void velocity_halves(struct call *c)
{
    static const int64_t sixteenths[8] = {1, 5, -3, -7, -7, -3, 5, 1};
    static struct scene s;
    int64_t twice[10], sign = PICK(1, -1); /* 2u, with a mirrored cell at each end */
    calm(&s, 8);
    set_scene(c, &s);
    compare(MAKE, c);
    set_start(c);
    set_word(c, WIDTH, 4000);
    set_word(c, STEP_MS, 1);
    for (int j = 0; j < 8; j++, sign = -sign)
        twice[j + 1] = sign * 15625 * (16 * PICK(0, 0, 0, 1, -1) + sixteenths[j]);
    twice[0] = -twice[1];
    twice[9] = -twice[8];
    for (size_t j = 0; j < 8; j++) {
        int64_t second_difference = (twice[j] - 2 * twice[j + 1] + twice[j + 2]) / 2;
        set_entry(c, 8, ROW_h, j, 16000);
        set_entry(c, 8, ROW_e, j, 1000000);
        set_entry(c, 8, ROW_V, j, (twice[j + 1] - 780039 * (second_difference / 62500)) / 2);
    }
    for (int row = ROW_Q; row <= ROW_F; row++)
        for (size_t j = 0; j < row_len(row, 8); j++)
            set_entry(c, 8, row, j, 0);
}

/* ---- damaged files ---- */

/* A damaged file: checked, and some of them given to every call that takes a file. */
static void damaged(struct call *c)
{
    static struct call again;
    damaged_files++;
    compare(CHECK, c);
    if (!one_in(5))
        return;
    set_file(&again, c);
    for (enum kind kind = STEP; kind <= RUN; kind++) {
        again.most = (uint64_t)PICK(0, 1, 3);
        compare(kind, &again);
        set_file(&again, c);
    }
}

/* Every word of the head at every bound, one off what it is, and at random. */
static void head_words(const struct call *from)
{
    static const uint32_t bounds[] = {0, 1, 2, 3, 7, 8, 9, 10, 11, 47, 48, 49, 51, 52, 53, 99, 100, 101, 255, 256, 257,
                                      4999, 5000, 5001, 65535, 65536, 999999, 1000000, 1000001, 0x01000000, 0x7FFFFFFF,
                                      0x80000000, 0x80000001, 0xFFFFFFFE, 0xFFFFFFFF};
    static struct call c;
    set_file(&c, from);
    for (int i = 0; i < WORDS; i++) {
        uint32_t was = word(from, i);
        uint32_t any = (uint32_t)draw(), small = (uint32_t)draw() % 300;
        const uint32_t near[] = {was - 4, was - 1, was + 1, was + 4, was + 0x100, was + 0x10000, was + 0x1000000,
                                 was ^ 0x80000000, was << 8, was << 24, any, small};
        for (size_t k = 0; k < sizeof bounds / sizeof *bounds; k++) {
            set_word(&c, i, bounds[k]);
            damaged(&c);
        }
        for (size_t k = 0; k < sizeof near / sizeof *near; k++) {
            set_word(&c, i, near[k]);
            damaged(&c);
        }
        set_word(&c, i, was);
    }
    for (int i = OFFSETS; i + 1 < WORDS; i++) {
        set_word(&c, i, word(from, i + 1));
        set_word(&c, i + 1, word(from, i));
        damaged(&c);
        set_file(&c, from);
    }
    for (int off = -1; off <= 1; off++) {
        set_word(&c, ACCEPTED, word(from, WANTED) + (uint32_t)off);
        damaged(&c);
    }
}

static void lengthened(struct call *c, const struct call *from, size_t len)
{
    set_file(c, from);
    for (size_t j = c->string[BYTES].len; j < len; j++)
        c->string[BYTES].at[j] = (uint8_t)draw();
    c->string[BYTES].len = len;
    damaged(c);
}

/* Cut short and lengthened: about every border, and to every length if the file is a small one. */
static void lengths(const struct call *from)
{
    static struct call c;
    size_t n = word(from, CELLS), len = 28 + 68 * n;
    for (size_t l = 0; l < len && n <= 9; l++)
        lengthened(&c, from, l);
    for (size_t l = 0; l < 60; l++)
        lengthened(&c, from, l), lengthened(&c, from, len + 1 + l);
    for (int row = 0; row < ROWS; row++)
        for (size_t l = row_start(row, n) - 9; l <= row_start(row, n) + 9; l++)
            lengthened(&c, from, l);
    for (size_t l = len - 70; l < len; l++)
        lengthened(&c, from, l);
    for (size_t other = 7; other <= 260; other += n < 64 ? 1 : 20)
        lengthened(&c, from, 28 + 68 * other), lengthened(&c, from, 24 + 64 * other);
    lengthened(&c, from, 2 * len);
    lengthened(&c, from, ROOM);
}

/* Values at their bounds, one within and one beyond, in the first and the last cells of each level and in any cell. */
static void values(const struct call *from)
{
    static struct call c;
    size_t n = word(from, CELLS);
    set_file(&c, from);
    for (int row = 0; row < ROWS; row++) {
        size_t len = row_len(row, n), level = has_levels(row) ? len / 3 : len;
        const size_t cells[] = {0, 1, level - 1, level % len, 2 * level % len, len - 2, len - 1, draw() % len};
        int64_t far = has_levels(row) ? INT64_MAX : INT32_MAX;
        const int64_t to[] = {row_least[row] - 1, row_least[row], row_least[row] + 1, row_most[row] - 1, row_most[row],
                              row_most[row] + 1, far, -far - 1, 0, -1, 1, between(-far / 2, far / 2)};
        for (size_t i = 0; i < sizeof cells / sizeof *cells; i++)
            for (size_t k = 0; k < sizeof to / sizeof *to; k++) {
                set_entry(&c, n, row, cells[i], to[k]);
                damaged(&c);
                set_file(&c, from);
            }
    }
}

/* 1 mm of water in a cell, less by 1 um, more by 1 um. */
static void dry_cells(const struct call *from)
{
    static struct call c;
    size_t n = word(from, CELLS);
    set_file(&c, from);
    for (size_t j = 0; j < n; j += n > 16 ? 17 : 1)
        for (int64_t water = 999; water <= 1001; water++) {
            set_entry(&c, n, ROW_e, j, water - 1000 * depth(from, n, j));
            damaged(&c);
            set_file(&c, from);
        }
}

/* A bottom that is even but for one cell or one wall cell, about the edge of refusal 5; no time step is too long. */
static void steep(struct call *c, size_t n, size_t cell, int64_t width, int64_t shallow, int64_t left, int64_t right)
{
    set_word(c, WIDTH, (uint64_t)width);
    set_word(c, STEP_MS, 1);
    for (size_t j = 0; j < n; j++) {
        set_entry(c, n, ROW_h, j, j == cell ? shallow : j < cell ? left : right);
        set_entry(c, n, ROW_e, j, 0);
    }
    damaged(c);
}

static void steep_bottoms(const struct call *from)
{
    static struct call c;
    size_t n = word(from, CELLS);
    set_file(&c, from);
    /* marked case 8, and rows that are equal to their neighbours' sum exactly: these are refused */
    for (size_t j = 0; j < n; j++)
        for (int64_t off = -1; off <= 1; off++) {
            steep(&c, n, j, 1000, 1000, 1941 + off, 1941 + off);
            steep(&c, n, j, 1000, 1000, 4352 + off, 4352 + off);
            for (int64_t k = 1; k <= 4; k++)
                steep(&c, n, j, 177 * k, 1000, 1000 + 29 * k * k + off, 1000 + 30 * k * k);
            steep(&c, n, j, 177, 1000, 2528 + off, 2528 + off);
        }
    for (int i = 0; i < 60; i++) {
        int64_t width = 10 + magnitude(4990), shallow = 1 + magnitude(9999), low = shallow, high = 20001;
        size_t cell = draw() % n;
        while (high - low > 1) {
            int64_t middle = (low + high) / 2;
            set_word(&c, WIDTH, (uint64_t)width);
            set_word(&c, STEP_MS, 1);
            for (size_t j = 0; j < n; j++) {
                set_entry(&c, n, ROW_h, j, j == cell ? shallow : middle);
                set_entry(&c, n, ROW_e, j, 0);
            }
            if (expected_check(c.string[BYTES].at, c.string[BYTES].len))
                high = middle;
            else
                low = middle;
        }
        for (int64_t off = -1; off <= 2; off++)
            steep(&c, n, cell, width, shallow, low + off, low + off);
        steep(&c, n, cell, width, shallow, low + 1, low);
        steep(&c, n, cell, width, shallow, low, low + 1);
    }
}

/* Still water over an even bottom, or one that is even but for its deepest cell, at depths on both sides of the edge of
   refusal 26. */
static void long_steps(const struct call *from)
{
    static struct call c;
    size_t n = word(from, CELLS);
    set_file(&c, from);
    for (int i = 0; i < 200; i++) {
        int64_t width = 10 + magnitude(562), step = between(2, 100), others = PICK(0, 1); /* others: how much less deep */
        int64_t edge = 6000000 * width * width / (9810 * step * step);
        size_t deepest = (size_t)PICK(0, (int64_t)n - 1, between(0, (int64_t)n - 1));
        for (int64_t deep = edge - 1; deep <= edge + 2; deep++) {
            if (deep < 2 || deep > 20000)
                continue;
            set_word(&c, WIDTH, (uint64_t)width);
            set_word(&c, STEP_MS, (uint64_t)step);
            for (size_t j = 0; j < n; j++) {
                set_entry(&c, n, ROW_h, j, j == deepest ? deep : deep - others);
                set_entry(&c, n, ROW_e, j, 0);
            }
            damaged(&c);
        }
    }
}

/* Bytes changed at random, in the head, in the rows or anywhere. */
static void random_bytes(const struct call *from)
{
    static struct call c;
    size_t len = from->string[BYTES].len;
    set_file(&c, from);
    for (uint64_t k = one_in(2) ? 1 : 1 + draw() % 8; k > 0; k--) {
        size_t at = one_in(3) ? draw() % ROWS_START : one_in(2) ? ROWS_START + draw() % (len - ROWS_START) : draw() % len;
        c.string[BYTES].at[at] = one_in(3) ? (uint8_t)draw() : (uint8_t)(c.string[BYTES].at[at] ^ 1u << draw() % 8);
    }
    if (one_in(10))
        c.string[BYTES].len += (size_t)PICK(1, -1, 4, -4, 8, -8, 68, -68);
    damaged(&c);
}

/* ---- faults together: the first in the interface's order is the answer ---- */

/* Those of the rows first and those of the head last, so that each finds its place in the file. */
enum fault { AT_ITS_END, STEEP, LONG_STEP, DRY, POURED_AMOUNT, VALUE, COUNT, OFFSET, LENGTH, POURED_LENGTH, CELLS_FAULT,
             EDITION_FAULT, SHORT, FAULTS };

static void wrong_length(struct string *s)
{
    size_t was = s->len;
    const size_t to[] = {0, was - 1, was + 1, was - 4, was + 4, was / 4, was / 2, 2 * was, 4 * was, draw() % 2000};
    do
        s->len = to[draw() % (sizeof to / sizeof *to)];
    while (s->len == was || s->len > ROOM);
    for (size_t j = was; j < s->len; j++)
        s->at[j] = 0;
}

static void damage(struct call *c, size_t n, enum fault fault)
{
    size_t j = draw() % n;
    int row;
    switch (fault) {
    case AT_ITS_END: set_word(c, ACCEPTED, word(c, WANTED)); break;
    case STEEP:
        j = (size_t)between(1, (int64_t)n - 2);
        set_entry(c, n, ROW_h, j - 1, 20000), set_entry(c, n, ROW_h, j, 5000), set_entry(c, n, ROW_h, j + 1, 20000);
        set_entry(c, n, ROW_e, j, 0);
        set_word(c, STEP_MS, 1);
        break;
    case LONG_STEP: set_long_step(c, n); break;
    case DRY: set_entry(c, n, ROW_e, j, 999 - 1000 * depth(c, n, j)); break;
    case POURED_AMOUNT:
        put(c->string[POURED].at + 4 * j, (uint64_t)PICK(1000001, -1000001, INT32_MAX, INT32_MIN), 4);
        break;
    case VALUE:
        for (uint64_t more = draw() % 4; more < 4; more++) {
            row = (int)(draw() % ROWS);
            j = draw() % row_len(row, n);
            set_entry(c, n, row, j, one_in(2) ? row_most[row] + 1 : row_least[row] - 1);
        }
        break;
    case COUNT:
        switch (draw() % 4) {
        case 0: set_word(c, WIDTH, (uint64_t)PICK(0, 9, 5001, UINT32_MAX)); break;
        case 1: set_word(c, STEP_MS, (uint64_t)PICK(0, 101, UINT32_MAX)); break;
        case 2: set_word(c, WANTED, (uint64_t)PICK(0, 1000001, UINT32_MAX)); break;
        default: set_word(c, ACCEPTED, word(c, WANTED) + (uint64_t)PICK(1, 2, 1000)); break;
        }
        break;
    case OFFSET: row = OFFSETS + (int)(draw() % ROWS); set_word(c, row, word(c, row) + (uint64_t)PICK(1, -1, 4)); break;
    case LENGTH: c->string[BYTES].len += (size_t)PICK(1, -1, 4, -4, 68, -68); break;
    case POURED_LENGTH: wrong_length(&c->string[POURED]); break;
    case CELLS_FAULT: set_word(c, CELLS, (uint64_t)PICK(0, 7, 257, UINT32_MAX, 1 << 30)); break;
    case EDITION_FAULT: set_word(c, EDITION, (uint64_t)PICK(0, 1, 3, 258, UINT32_MAX)); break;
    default: c->string[BYTES].len = draw() % HEAD; break;
    }
}

static void to_every_call(struct call *c)
{
    static struct call again;
    set_file(&again, c);
    for (enum kind kind = CHECK; kind <= RUN; kind++) {
        again.most = (uint64_t)PICK(0, 1, 2, INT64_MAX);
        compare(kind, &again);
        set_file(&again, c);
    }
}

/* Each fault, each two, and some threes. */
static void faults(const struct call *from)
{
    static struct call c;
    size_t n = word(from, CELLS);
    for (int i = 0; i < FAULTS; i++)
        for (int j = i; j < FAULTS; j++) {
            set_file(&c, from);
            damage(&c, n, (enum fault)i);
            if (j != i)
                damage(&c, n, (enum fault)j);
            damaged_files++;
            to_every_call(&c);
            if (one_in(3)) {
                damage(&c, n, one_in(2) ? POURED_LENGTH : EDITION_FAULT);
                to_every_call(&c);
            }
        }
}

/* ---- where a fault is: the lowest place of the first row, and of the newest level, that has one ---- */

static bool is_at(uint64_t answer, unsigned number, unsigned stage, unsigned place, uint64_t steps)
{
    return pathpetal_number(answer) == number && pathpetal_stage(answer) == stage &&
           pathpetal_place(answer) == place && pathpetal_count(answer) == steps;
}

static unsigned row_number(int row)
{
    return row == ROW_damping ? PATHPETAL_BAD_DAMPING : PATHPETAL_BAD_DEPTH + (unsigned)row;
}

/* How many levels a row has, and how many entries each of them. */
static size_t row_levels(int row) { return has_levels(row) ? 3 : 1; }
static size_t level_len(int row, size_t n) { return row_len(row, n) / row_levels(row); }

/* The place to try after another: each of them, or five of a long row, the first and the last among them. */
static size_t next_place(size_t j, size_t len)
{
    return len <= 24 || j == 0 || j + 2 >= len ? j + 1 : j == 1 ? len / 2 : len - 2;
}

/* An entry that is just out of its range. */
static void set_wrong(struct call *c, size_t n, int row, size_t j)
{
    set_entry(c, n, row, j, one_in(2) ? row_most[row] + 1 : row_least[row] - 1);
}

/* A file of which the refusal and its place are known, to every call. */
static void refused_there(struct call *c, unsigned number, size_t place)
{
    static struct call again;
    damaged_files++;
    set_file(&again, c);
    for (enum kind kind = CHECK; kind <= RUN; kind++) {
        again.most = (uint64_t)PICK(0, 1, 2);
        expect(is_at(compare(kind, &again), number, 0, (unsigned)place, 0), "a fault is told by its row and place");
    }
}

/* One fault at each place of each row and level. Others change nothing: behind it in its level, and at lower places in
   older levels and in later rows. A level whose weight is 0 in the next step is looked at as well. */
static void places(const struct call *from)
{
    static struct call c;
    size_t n = word(from, CELLS), rung = rung_of(word(from, ACCEPTED));
    for (int row = 0; row < ROWS; row++)
        for (size_t level = 0; level < row_levels(row); level++)
            for (size_t len = level_len(row, n), j = 0; j < len; j = next_place(j, len)) {
                size_t at = level * len + j;
                if (level > rung)
                    unweighed[row - ROW_Q][rung]++;
                set_file(&c, from);
                set_wrong(&c, n, row, at);
                refused_there(&c, row_number(row), j + 1);
                if (j + 1 < len)
                    set_wrong(&c, n, row, (size_t)between((int64_t)at + 1, (int64_t)(at - j + len) - 1));
                for (size_t older = level + 1; older < row_levels(row); older++)
                    set_wrong(&c, n, row, older * len + (j > 0 ? draw() % j : 0));
                refused_there(&c, row_number(row), j + 1);
                for (int later = row + 1; later < ROWS; later++)
                    set_wrong(&c, n, later, j > 0 ? draw() % j : 0);
                put(c.string[POURED].at, 1000001, 4);
                refused_there(&c, row_number(row), j + 1);
            }
}

/* A bottom that is too steep, then a time step that is too long for it, and then cells with less than 1 mm of water. */
static void dry_and_steep_places(const struct call *from)
{
    static struct call c;
    size_t n = word(from, CELLS);
    for (size_t j = 0; j < n; j = next_place(j, n)) {
        set_file(&c, from);
        set_word(&c, WIDTH, 1000);
        for (size_t i = 0; i < n; i++) {
            set_entry(&c, n, ROW_h, i, i == j ? 1000 : 4353);
            set_entry(&c, n, ROW_e, i, 0);
        }
        memset(c.string[POURED].at, 0, 4 * n);
        refused_there(&c, PATHPETAL_DOMINANCE, j + 1);
        if (j + 2 < n)
            set_entry(&c, n, ROW_h, n - 1, 1000);
        refused_there(&c, PATHPETAL_DOMINANCE, j + 1);
        set_long_step(&c, n);
        refused_there(&c, PATHPETAL_TIME_STEP, 0);
        set_entry(&c, n, ROW_e, n - 1, 999 - 1000 * depth(&c, n, n - 1));
        refused_there(&c, PATHPETAL_DEPTH, n);
        set_entry(&c, n, ROW_e, j, 999 - 1000 * depth(&c, n, j));
        refused_there(&c, PATHPETAL_DEPTH, j + 1);
    }
}

/* Amounts that are out of their range, and a time step that is too long and a dry cell, which come after them. */
static void poured_places(const struct call *from)
{
    static struct call c;
    size_t n = word(from, CELLS);
    for (size_t j = 0; j < n; j = next_place(j, n))
        for (int more = 0; more < 4; more++) {
            set_file(&c, from);
            memset(c.string[POURED].at, 0, 4 * n);
            put(c.string[POURED].at + 4 * j, (uint64_t)PICK(1000001, -1000001, INT32_MAX, INT32_MIN), 4);
            for (size_t i = j + 1; i < n && more > 0; i += 2)
                put(c.string[POURED].at + 4 * i, 1000001, 4);
            if (more > 1)
                set_long_step(&c, n);
            if (more > 2)
                set_entry(&c, n, ROW_e, 0, 999 - 1000 * depth(&c, n, 0));
            damaged_files++;
            expect(is_at(compare(STEP, &c), PATHPETAL_BAD_POURED, 0, (unsigned)j + 1, 0),
                   "a poured amount is told by its place");
        }
}

/* make's rows in the same way. */
static void made_places(size_t n)
{
    static struct call c;
    static struct scene s;
    calm(&s, n);
    for (int i = 0; i < MADE_ROWS; i++)
        for (size_t j = 0; j < n; j = next_place(j, n)) {
            set_scene(&c, &s);
            for (int later = i; later < MADE_ROWS; later++) {
                size_t at = later > i && j > 0 ? draw() % j : j;
                int row = made_rows[later];
                put(c.string[DEPTHS + later].at + 4 * at,
                    (uint64_t)(one_in(2) ? row_most[row] + 1 : row_least[row] - 1), 4);
            }
            if (j + 1 < n)
                put(c.string[DEPTHS + i].at + 4 * (n - 1), (uint64_t)row_least[made_rows[i]] - 1, 4);
            expect(is_at(compare(MAKE, &c), row_number(made_rows[i]), 0, (unsigned)j + 1, 0),
                   "a fault in make's rows is told by its row and place");
        }
}

static void many_damaged_files(void)
{
    static struct call base;
    static const size_t sizes[] = {8, 9, 8, 12, 23, 256};
    for (size_t i = 0; i < sizeof sizes / sizeof *sizes; i++) {
        a_channel(&base, sizes[i]);
        set_word(&base, ACCEPTED, i % RUNGS);
        head_words(&base);
        lengths(&base);
        values(&base);
        dry_cells(&base);
        places(&base);
        dry_and_steep_places(&base);
        poured_places(&base);
        made_places(sizes[i]);
        long_steps(&base);
        if (sizes[i] < 256)
            steep_bottoms(&base);
    }
    for (int i = 0; i < 900; i++) {
        a_channel(&base, few_cells());
        for (int k = 0; k < 10; k++)
            random_bytes(&base);
        if (i % 30 == 0)
            faults(&base);
    }
    /* every number of cells */
    for (size_t n = 8; n <= 256; n += n < 40 || n > 250 ? 1 : 7) {
        static struct scene s;
        calm(&s, n);
        set_scene(&base, &s);
        compare(MAKE, &base);
        to_every_call(&base);
    }
}

/* ---- make ---- */

static void spoil_make(struct call *c)
{
    static const uint64_t counts[] = {0, 1, 7, 8, 9, 10, 11, 99, 100, 101, 255, 256, 257, 4999, 5000, 5001, 999999,
                                      1000000, 1000001, UINT32_MAX, 1ull << 32, INT64_MAX, UINT64_MAX};
    uint64_t any = counts[draw() % (sizeof counts / sizeof *counts)];
    uint64_t over = 1ull << PICK(32, 33, 58, 62, 63); /* what is lost if a product or a number is cut short */
    int made = (int)(draw() % MADE_ROWS), i = DEPTHS + made, row = made_rows[made];
    size_t n = c->string[i].len / 4, j = n ? PICK(0, (int64_t)n - 1, (int64_t)(draw() % n)) : 0;
    switch (draw() % 13) {
    case 0: c->cells = any; break;
    case 1: c->cells += over; break;
    case 2: c->cells += (uint64_t)PICK(1, -1); break;
    case 3: c->width = one_in(3) ? c->width + over : any; break;
    case 4: c->step = one_in(3) ? c->step + over : any; break;
    case 5: c->wanted = one_in(3) ? c->wanted + over : any; break;
    case 6: wrong_length(&c->string[i]); break;
    case 7: wrong_length(&c->string[BYTES]); break;
    case 8:
        if (n && c->string[HEIGHTS].len == c->string[DEPTHS].len) /* at the edge of a dry cell */
            put(c->string[HEIGHTS].at + 4 * j,
                (uint64_t)(PICK(999, 1000) - 1000 * (int64_t)pathpetal_signed(c->string[DEPTHS].at + 4 * j)), 4);
        break;
    case 9:
        if (n) /* a step of the bottom */
            put(c->string[DEPTHS].at + 4 * (j % (c->string[DEPTHS].len / 4 + 1)), (uint64_t)between(1, 20000), 4);
        break;
    case 10: { /* at the edge of a time step that is too long */
        int64_t deepest = 1, step = between(1, 100);
        for (size_t k = 0; k < c->string[DEPTHS].len / 4; k++) {
            int64_t h = pathpetal_signed(c->string[DEPTHS].at + 4 * k);
            deepest = h > deepest && h <= 20000 ? h : deepest;
        }
        c->step = (uint64_t)step;
        c->width = (uint64_t)(least_width(deepest, step) - PICK(0, 1));
        break;
    }
    default:
        if (n)
            put(c->string[i].at + 4 * j,
                (uint64_t)PICK(row_least[row] - 1, row_least[row], row_most[row], row_most[row] + 1, INT32_MIN,
                               INT32_MAX, 0, -1, 1), 4);
        break;
    }
}

static void makes(void)
{
    static struct call c;
    static struct scene s;
    for (int i = 0; i < 6000; i++) {
        size_t n = few_cells();
        if (one_in(4))
            deep(&s, n);
        else
            wild(&s, n);
        set_scene(&c, &s);
        for (uint64_t k = draw() % 4; k > 0; k--)
            spoil_make(&c);
        compare(MAKE, &c);
    }
    for (int i = 0; i < 300; i++) {
        if (one_in(2))
            reduced_halves(&s, few_cells());
        else
            flux_halves(&s, few_cells());
        set_scene(&c, &s);
        compare(MAKE, &c);
    }
}

/* ---- steps, filters and runs ---- */

/* Some calls in a row on the file that is there. */
static void go_on(struct call *c)
{
    size_t n = word(c, CELLS);
    for (int i = 0; i < 5; i++) {
        enum kind kind = one_in(5) ? FILTER : one_in(6) ? RUN : STEP;
        uint32_t left = word(c, WANTED) - word(c, ACCEPTED);
        c->most = (uint64_t)PICK(0, 1, 2, 5, (int64_t)left, (int64_t)left - 1, (int64_t)left + 1);
        if (left < 40 && one_in(3))
            c->most = (uint64_t)PICK(INT64_MAX, -1, 1ll << 32);
        if (c->most > 20 && left > 40)
            c->most = 3;
        size_t was = c->string[POURED].len;
        if (one_in(12))
            damage(c, n, one_in(2) ? POURED_AMOUNT : POURED_LENGTH);
        else if (one_in(4))
            memset(c->string[POURED].at, 0, was);
        uint64_t answer = compare(kind, c);
        c->string[POURED].len = was;
        if (pathpetal_number(answer) && pathpetal_number(answer) != PATHPETAL_MORE && one_in(2))
            break;
    }
}

static void channels(void)
{
    static struct call c;
    static struct scene s;
    for (int i = 0; i < 2000; i++) {
        size_t n = few_cells();
        switch (draw() % 9) {
        case 0: case 1: violent(&s, n); break;
        case 2: case 3: wild(&s, n); break;
        case 4: deep(&s, n); break;
        case 5: hasty(&s, n); break;
        default: calm(&s, n); break;
        }
        set_scene(&c, &s);
        if (compare(MAKE, &c))
            continue;
        if (one_in(4))
            any_levels(&c, n);
        if (one_in(2))
            set_start(&c);
        go_on(&c);
    }
    for (int i = 0; i < 200; i++) {
        velocity_halves(&c);
        compare(STEP, &c);
    }
}

/* Rare channels: without the dampings that their seeds draw, or with them, and then met by them alone. */
static void rare_channels(const struct rare *of, size_t len, bool with)
{
    static const enum kind kinds[] = {[RARE_STEP] = STEP, [RARE_RUN] = RUN, [RARE_FILTER] = FILTER};
    static struct call c;
    static struct scene s;
    for (const struct rare *r = of; r < of + len; r++) {
        enum kind kind = kinds[r->call];
        long other = by_damping[kind][true];
        seed(r->from);
        size_t n = (size_t)between(8, 12);
        r->scene(&s, n);
        for (size_t j = 0; j < n; j++)
            s.velocities[j] = (int32_t)(s.velocities[j] * r->millionths / 1000000);
        if (!with)
            memset(s.dampings, 0, sizeof s.dampings);
        set_scene(&c, &s);
        compare(MAKE, &c);
        set_word(&c, ACCEPTED, r->start);
        c.most = 40;
        uint64_t answer = compare(kind, &c);
        expect(pathpetal_number(answer) == r->number && pathpetal_stage(answer) == r->stage,
               "a rare refusal is met where it was found");
        expect(!with || by_damping[kind][true] == other + 1, "a rare refusal is met by the damping");
    }
}

/* ---- calls with numbers known beforehand ---- */

static void even(struct call *c, size_t n, int32_t deep, int32_t high, uint64_t wanted)
{
    static struct scene s;
    s.cells = n, s.width = 1000, s.step = 20, s.wanted = wanted;
    for (size_t j = 0; j < n; j++)
        s.depths[j] = deep, s.heights[j] = high, s.velocities[j] = s.dampings[j] = s.poured[j] = 0;
    set_scene(c, &s);
}

static int64_t heights(const struct call *c)
{
    int64_t sum = 0;
    for (size_t j = 0; j < pathpetal_cells(c->string[BYTES].at); j++)
        sum += pathpetal_height_um(c->string[BYTES].at, j);
    return sum;
}

/* An answer without a place. */
static bool is(uint64_t answer, unsigned number, unsigned stage, uint64_t steps)
{
    return is_at(answer, number, stage, 0, steps);
}

/* The header's four readers give back what was packed. */
static void readers(void)
{
    static const unsigned numbers[] = {0, 4, 16, 26, 31, 38, 255}, stages[] = {0, 1, 10, 255};
    static const unsigned at[] = {0, 1, 255, 256, 511};
    static const uint64_t counts[] = {0, 1, 10, 999999, 1000000};
    for (size_t i = 0; i < sizeof numbers / sizeof *numbers; i++)
        for (size_t j = 0; j < sizeof stages / sizeof *stages; j++)
            for (size_t k = 0; k < sizeof at / sizeof *at; k++)
                for (size_t l = 0; l < sizeof counts / sizeof *counts; l++)
                    expect(is_at(counts[l] * 33554432 + at[k] * 65536 + numbers[i] * 256 + stages[j], numbers[i],
                                 stages[j], at[k], counts[l]), "an answer is read back");
}

/* Several faults at once, and a cell that falls dry in a step and in a run. */
static void known_places(void)
{
    static struct call c, start;
    even(&start, 8, 2, 0, 10);
    start.step = 1;
    expect(is(compare(MAKE, &start), 0, 0, 0), "8 cells with 2 mm of water");
    set_file(&c, &start);
    set_entry(&c, 8, ROW_Q, 6, 1000000000000001), set_entry(&c, 8, ROW_Q, 7 + 1, 1000000000000001);
    expect(is_at(compare(CHECK, &c), 35, 0, 7, 0), "face 7 of the newest level before face 2 of the middle one");
    set_file(&c, &start);
    set_entry(&c, 8, ROW_h, 5, 0), set_entry(&c, 8, ROW_e, 1, 20000001);
    expect(is_at(compare(CHECK, &c), 31, 0, 6, 0), "the depth of cell 6 before the height of cell 2");
    set_file(&c, &start);
    for (size_t level = 0; level < 3; level++)
        set_entry(&c, 8, ROW_Q, 7 * level + 2, 1000000000), set_entry(&c, 8, ROW_Q, 7 * level + 5, 1000000000);
    set_entry(&c, 8, ROW_e, 2, -1000), set_entry(&c, 8, ROW_e, 5, -1000);
    expect(is_at(compare(STEP, &c), 4, 0, 3, 0), "cell 3 falls dry in a step");
    c.most = 10;
    expect(is_at(compare(RUN, &c), 4, 0, 3, 0), "cell 3 falls dry in a run");
}

/* A cell's number in make's row and in the file. */
static void set_both(struct call *c, size_t n, int row, size_t j, int64_t value)
{
    put(c->string[row == ROW_damping ? DAMPINGS : DEPTHS + row].at + 4 * j, (uint64_t)value, 4);
    set_entry(c, n, row, j, value);
}

static void set_step(struct call *c, uint64_t width, uint64_t step)
{
    c->width = width, c->step = step;
    set_word(c, WIDTH, width), set_word(c, STEP_MS, step);
}

/* Still water of one depth, as make's input and in a file, whether make gives such a file or not. */
static void still(struct call *c, size_t n, uint64_t width, uint64_t step, int32_t deep)
{
    even(c, n, deep, 0, 10);
    c->width = 5000, c->step = 1;
    expect(is(compare(MAKE, c), 0, 0, 0), "still water in wide cells, with the shortest time step");
    set_step(c, width, step);
}

/* All calls of a file, and make if it is among them, accept still water, or all refuse it by the same number and place,
   and then leave every byte as it was. */
static void kinds_answer(const struct call *from, int kinds, unsigned number, unsigned at, const char *what)
{
    static struct call c;
    uint8_t gauges[PATHPETAL_GAUGES_LENGTH] = {0}, none[PATHPETAL_GAUGES_LENGTH] = {0};
    const uint8_t *file = from->string[BYTES].at;
    size_t len = from->string[BYTES].len;
    for (int kind = CHECK; kind < kinds; kind++) {
        bool takes_step = number == 0 && (kind == STEP || kind == RUN);
        c = *from;
        c.most = 1;
        uint64_t answer = compare((enum kind)kind, &c);
        expect(is_at(answer, takes_step && kind == RUN ? PATHPETAL_MORE : number, 0, at, takes_step), what);
        expect(number == 0 || !memcmp(c.string[BYTES].at, file, len), "a refused call leaves the file as it was");
    }
    expect(is_at(pathpetal_place_gauge(file, len, gauges, sizeof gauges, 1), number, 0, at, number == 0), what);
    expect(is_at(pathpetal_feed_gauges(file, len, gauges, sizeof gauges), number, 0, at, 0), what);
    expect(number == 0 || !memcmp(gauges, none, sizeof gauges), "a refused call leaves the gauges as they were");
}

static void files_answer(const struct call *from, unsigned number, unsigned at, const char *what)
{
    kinds_answer(from, MAKE, number, at, what);
}

static void all_answer_at(const struct call *from, unsigned number, unsigned at, const char *what)
{
    static struct call c;
    kinds_answer(from, KINDS, number, at, what);
    c = *from;
    c.string[BYTES].len--;
    expect(is_at(compare(MAKE, &c), number ? number : PATHPETAL_BUFFER, 0, at, 0), "make without room for the file");
}

static void all_answer(const struct call *from, unsigned number, const char *what)
{
    all_answer_at(from, number, 0, what);
}

/* The edge of refusal 26 by one ms, by one mm of width and by one mm of depth; the least and the largest numbers. */
static void known_time_steps(void)
{
    static const struct {
        uint64_t width, step;
        int32_t deep;
        unsigned due;
    } at[] = {
        {327, 100, 6540, 0},   {327, 100, 6541, 26}, /* equal on both sides, and 1 mm more */
        {326, 100, 6540, 26},  {328, 100, 6541, 0},  {327, 99, 6541, 0},
        {20, 22, 500, 0},      {20, 23, 500, 26},    {19, 22, 500, 26},     {21, 23, 500, 0},
        {20, 20, 500, 0},      {20, 20, 611, 0},     {20, 20, 612, 26},
        {10, 1, 20000, 0},     {10, 2, 20000, 26},   {10, 2, 15290, 0},     {10, 2, 15291, 26},
        {10, 100, 6, 0},       {10, 100, 7, 26},     {571, 100, 20000, 26}, {572, 100, 20000, 0},
        {5000, 100, 20000, 0}, {5000, 1, 1, 0},      {10, 1, 1, 0},         {10, 100, 20000, 26},
    };
    static struct call c;
    for (size_t i = 0; i < sizeof at / sizeof *at; i++) {
        still(&c, 8, at[i].width, at[i].step, at[i].deep);
        all_answer(&c, at[i].due, "a time step at the edge of what is allowed");
    }
}

/* The deepest cell counts wherever it stands, by its depth and not by the water in it. */
static void known_deepest_cell(void)
{
    static const size_t sizes[] = {8, 23, 256};
    static const int64_t levels[] = {1000 - 6530000, 0, 20000000};
    static struct call c;
    for (size_t i = 0; i < sizeof sizes / sizeof *sizes; i++) {
        size_t n = sizes[i];
        const size_t cells[] = {0, 1, n / 2, n - 2, n - 1};
        for (size_t k = 0; k < sizeof cells / sizeof *cells; k++)
            for (size_t l = 0; l < sizeof levels / sizeof *levels; l++) {
                still(&c, n, 327, 100, 6530);
                for (size_t j = 0; j < n; j++)
                    set_both(&c, n, ROW_e, j, levels[l]);
                set_both(&c, n, ROW_h, cells[k], 6540);
                all_answer(&c, 0, "the deepest cell is just allowed");
                set_both(&c, n, ROW_h, cells[k], 6541);
                all_answer(&c, PATHPETAL_TIME_STEP, "the deepest cell alone is too deep");
            }
    }
}

/* A time step that is too long beside the faults that come after it, and then beside those that come before it. */
static void known_time_step_order(void)
{
    static struct call c, start;
    expect(PATHPETAL_TIME_STEP == 26, "the number of a time step that is too long");
    still(&start, 8, 20, 23, 500);
    set_both(&start, 8, ROW_u, 0, 20000000);
    all_answer(&start, PATHPETAL_TIME_STEP, "before a reduced velocity that make finds too large");
    c = start;
    set_step(&c, 20, 22);
    expect(is(compare(MAKE, &c), PATHPETAL_SPEED, 0, 0), "that velocity, by itself");
    set_both(&start, 8, ROW_h, 4, 100);
    all_answer(&start, PATHPETAL_TIME_STEP, "before a row that is not dominant");
    set_word(&start, ACCEPTED, word(&start, WANTED));
    all_answer(&start, PATHPETAL_TIME_STEP, "a complete channel");
    c = start;
    set_step(&c, 20, 22);
    for (enum kind kind = CHECK; kind < KINDS; kind++)
        expect(is_at(compare(kind, &c), PATHPETAL_DOMINANCE, 0, 5, 0), "the row that is not dominant, by itself");
    c = start;
    put(c.string[POURED].at + 28, (uint64_t)-1000001, 4);
    expect(is_at(compare(STEP, &c), PATHPETAL_BAD_POURED, 0, 8, 0), "after a poured amount");
    c.string[POURED].len -= 4;
    expect(is(compare(STEP, &c), PATHPETAL_SHAPE, 0, 0), "after the length of the poured row");
    c = start;
    set_both(&c, 8, ROW_e, 6, 999 - 500000);
    for (enum kind kind = CHECK; kind < KINDS; kind++)
        expect(is_at(compare(kind, &c), PATHPETAL_DEPTH, 0, 7, 0), "after a cell with too little water");
    set_entry(&c, 8, ROW_F, 23, -100000000001);
    for (enum kind kind = CHECK; kind <= RUN; kind++)
        expect(is_at(compare(kind, &c), PATHPETAL_BAD_ACCELERATION, 0, 8, 0), "after a level");
    set_both(&c, 8, ROW_u, 2, -20000001);
    for (enum kind kind = CHECK; kind < KINDS; kind++)
        expect(is_at(compare(kind, &c), PATHPETAL_BAD_VELOCITY, 0, 3, 0), "after a velocity out of its range");
}

/* An entry of one of the levels of accelerations. */
static int64_t acceleration(const struct call *c, size_t n, size_t j)
{
    const uint8_t *at = c->string[BYTES].at + row_start(ROW_F, n) + 8 * j;
    return pathpetal_word(at) + (int64_t)pathpetal_signed(at + 4) * 4294967296;
}

/* Water that slopes by 12 um a cell and moves alike: in the cells 3 to 6 F is -118, less what the damping takes. A half
   of that goes to the even number. */
static void known_damping(void)
{
    static const struct {
        int32_t velocity, damping, taken;
    } at[] = {
        {1, 0, 0},      {1, 499, 0},      {1, 500, 0},   {1, 501, 1},     {3, 499, 1},    {3, 500, 2},    {5, 500, 2},
        {7, 500, 4},    {1, 9500, 10},    {1, 10000, 10}, {-1, 500, 0},   {-1, 501, -1},  {-3, 500, -2},  {-5, 500, -2},
        {-1, 10000, -10}, {499, 1, 0},    {500, 1, 0},   {501, 1, 1},     {1500, 1, 2},   {10000, 1, 10},
        {20000000, 1, 20000},             {20000000, 10000, 200000000},   {-20000000, 10000, -200000000},
        {19999999, 9999, 199979990},      {-19999999, 9999, -199979990},
    };
    static struct call c;
    for (size_t i = 0; i < sizeof at / sizeof *at; i++) {
        even(&c, 8, 1000, 0, 10);
        for (size_t j = 0; j < 8; j++) {
            put(c.string[HEIGHTS].at + 4 * j, 12 * (j + 1), 4);
            put(c.string[VELOCITIES].at + 4 * j, (uint64_t)at[i].velocity, 4);
            put(c.string[DAMPINGS].at + 4 * j, (uint64_t)at[i].damping, 4);
        }
        expect(is(compare(MAKE, &c), 0, 0, 0), "a slope with damping is made");
        for (size_t level = 0; level < 3; level++)
            for (size_t j = 2; j < 6; j++)
                expect(acceleration(&c, 8, 8 * level + j) == -118 - at[i].taken, "what the damping takes from F");
        for (size_t j = 0; j < 8; j++)
            expect(pathpetal_damping(c.string[BYTES].at, j) == at[i].damping, "the dampings in the file");
    }
    even(&c, 8, 1000, 0, 10);
    put(c.string[HEIGHTS].at + 8, 1, 4);
    put(c.string[VELOCITIES].at + 12, 3, 4);
    put(c.string[DAMPINGS].at + 12, 150, 4);
    expect(is(compare(MAKE, &c), 0, 0, 0) && acceleration(&c, 8, 3) == 7, "6.54 and 0.45, each rounded by itself");
}

/* A damping just in its range and just out of it, in the first cell, in the middle and in the last. */
static void known_dampings(void)
{
    static const size_t sizes[] = {8, 23, 256};
    static const int64_t in[] = {0, 1, 9999, 10000}, out[] = {-1, 10001, INT32_MIN, INT32_MAX};
    static struct call c;
    expect(PATHPETAL_BAD_DAMPING == 38, "the number of a damping that is out of its range");
    for (size_t i = 0; i < sizeof sizes / sizeof *sizes; i++) {
        size_t n = sizes[i];
        const size_t cells[] = {0, n / 2, n - 1};
        for (size_t k = 0; k < sizeof cells / sizeof *cells; k++)
            for (size_t l = 0; l < 4; l++) {
                size_t j = cells[k];
                still(&c, n, 5000, 1, 1000);
                set_both(&c, n, ROW_damping, j, in[l]);
                all_answer(&c, 0, "a damping at an end of its range");
                set_both(&c, n, ROW_damping, j, out[l]);
                all_answer_at(&c, PATHPETAL_BAD_DAMPING, (unsigned)j + 1, "a damping out of its range");
                set_both(&c, n, ROW_damping, n - 1, out[(l + 1) % 4]);
                all_answer_at(&c, PATHPETAL_BAD_DAMPING, (unsigned)j + 1, "the lower of two cells");
            }
    }
}

/* A damping out of its range beside the faults that come after it, and then beside those that come before it. */
static void known_damping_order(void)
{
    static struct call c, start;
    still(&start, 8, 20, 22, 500);
    set_both(&start, 8, ROW_damping, 4, 10001);
    set_both(&start, 8, ROW_u, 0, 20000000);
    all_answer_at(&start, PATHPETAL_BAD_DAMPING, 5, "before a reduced velocity that make finds too large");
    set_both(&start, 8, ROW_h, 2, 100);
    all_answer_at(&start, PATHPETAL_BAD_DAMPING, 5, "before a row that is not dominant");
    set_step(&start, 20, 23);
    all_answer_at(&start, PATHPETAL_BAD_DAMPING, 5, "before a time step that is too long");
    set_both(&start, 8, ROW_e, 0, 999 - 500000);
    all_answer_at(&start, PATHPETAL_BAD_DAMPING, 5, "before a cell with too little water");
    put(start.string[POURED].at + 4, 1000001, 4);
    all_answer_at(&start, PATHPETAL_BAD_DAMPING, 5, "before a poured amount");
    set_word(&start, ACCEPTED, word(&start, WANTED));
    all_answer_at(&start, PATHPETAL_BAD_DAMPING, 5, "a complete channel");
    c = start;
    set_both(&c, 8, ROW_damping, 4, 10000);
    for (enum kind kind = CHECK; kind < KINDS; kind++)
        expect(kind == STEP ? is_at(compare(kind, &c), PATHPETAL_BAD_POURED, 0, 2, 0)
                            : is_at(compare(kind, &c), PATHPETAL_DEPTH, 0, 1, 0), "what comes next, by itself");
    for (int row = ROW_F; row >= ROW_h; row--) {
        set_wrong(&start, 8, row, row_len(row, 8) - 1);
        files_answer(&start, row_number(row), (unsigned)level_len(row, 8), "after all other values of the file");
    }
    set_word(&start, WIDTH, 9);
    files_answer(&start, PATHPETAL_COUNTS, 0, "after the counts");
    set_word(&start, WORDS - 1, word(&start, WORDS - 1) - 4);
    files_answer(&start, PATHPETAL_OFFSETS, 0, "after the offsets");
    start.string[BYTES].len--;
    files_answer(&start, PATHPETAL_LENGTH, 0, "after the length");
    c = start;
    c.string[POURED].len--;
    expect(is(compare(STEP, &c), PATHPETAL_SHAPE, 0, 0), "after the length of the poured row");
    set_word(&start, CELLS, 7);
    files_answer(&start, PATHPETAL_SHAPE, 0, "after the cells");
    set_word(&start, EDITION, 1);
    files_answer(&start, PATHPETAL_EDITION, 0, "after the edition");
}

/* The beginnings of files: of 48 bytes and more the edition comes first, then the cells, then the length. */
static void known_beginnings(void)
{
    static const struct {
        uint32_t edition, cells;
        unsigned due;
    } at[] = {
        {2, 8, 12}, {2, 9, 12}, {2, 256, 12}, {2, 7, 1},  {2, 0, 1},  {2, 257, 1}, {2, UINT32_MAX, 1}, {1, 8, 13},
        {1, 7, 13}, {0, 8, 13}, {3, 8, 13},   {3, 0, 13}, {258, 8, 13}, {UINT32_MAX, 8, 13},
    };
    static struct call c;
    for (size_t i = 0; i < sizeof at / sizeof *at; i++)
        for (size_t len = 46; len <= 56; len++) {
            still(&c, 8, 5000, 1, 1000);
            set_word(&c, EDITION, at[i].edition), set_word(&c, CELLS, at[i].cells);
            c.string[BYTES].len = len;
            c.string[POURED].len = at[i].due == 12 ? 4 * at[i].cells : 32;
            files_answer(&c, len < HEAD ? PATHPETAL_LENGTH : at[i].due, 0, "the beginning of a file");
            c.string[POURED].len--;
            expect(is(compare(STEP, &c), len < HEAD ? 12 : at[i].due == 13 ? 13 : 1, 0, 0),
                   "the beginning of a file and a poured row of another length");
        }
}

/* The file of edition 1 of the same channel: one offset fewer, all others 4 less, and no row of dampings. */
static void to_edition_1(struct call *c, size_t n)
{
    for (int i = OFFSETS; i + 1 < WORDS; i++)
        set_word(c, i, word(c, i) - 4);
    set_word(c, EDITION, 1);
    memmove(c->string[BYTES].at + HEAD, c->string[BYTES].at + ROWS_START, 64 * n - 24);
    c->string[BYTES].len = 24 + 64 * n;
}

/* Files that are right but for their edition, for one offset or for a byte more or less. */
static void known_editions(void)
{
    static const size_t sizes[] = {8, 23, 256};
    static struct call c, start;
    for (size_t k = 0; k < sizeof sizes / sizeof *sizes; k++) {
        size_t n = sizes[k];
        const size_t due[WORDS - OFFSETS] = {52,          52 + 4 * n,  52 + 8 * n, 52 + 12 * n,
                                             52 + 16 * n, 28 + 40 * n, 28 + 64 * n};
        still(&start, n, 5000, 1, 1000);
        expect(word(&start, EDITION) == 2 && start.string[BYTES].len == 28 + 68 * n, "a file of edition 2");
        for (int i = OFFSETS; i < WORDS; i++) {
            expect(word(&start, i) == due[i - OFFSETS], "where the rows start");
            for (int64_t off = -4; off <= 4; off++) {
                c = start;
                set_word(&c, i, word(&c, i) + (uint64_t)off);
                files_answer(&c, off ? PATHPETAL_OFFSETS : 0, 0, "one offset is wrong");
            }
        }
        c = start;
        for (int i = OFFSETS; i < WORDS; i++)
            set_word(&c, i, word(&c, i) - 4);
        files_answer(&c, PATHPETAL_OFFSETS, 0, "all offsets are 4 less");
        for (int64_t off = -4; off <= 4; off++) {
            c = start;
            memset(c.string[BYTES].at + c.string[BYTES].len, 0, 4);
            c.string[BYTES].len += (size_t)off;
            files_answer(&c, off ? PATHPETAL_LENGTH : 0, 0, "some bytes more or less");
        }
        c = start;
        set_word(&c, EDITION, 1);
        files_answer(&c, PATHPETAL_EDITION, 0, "edition 1 in the form of edition 2");
        c = start;
        to_edition_1(&c, n);
        files_answer(&c, PATHPETAL_EDITION, 0, "edition 1");
        set_word(&c, EDITION, 2);
        files_answer(&c, PATHPETAL_LENGTH, 0, "edition 2 in the form of edition 1");
    }
}

/* Water that slopes from wall to wall, at rest: its first steps, and a run of as many, from the same file. Other numbers
   than these, or than those of the filter passes below, would be another rule's, which then has another number. */
static void known_first_steps(void)
{
    static const int32_t first[3] = {15971, 15884, 15742};
    static struct scene s;
    static struct call c, ran;
    s.cells = 16, s.width = 500, s.step = 50, s.wanted = 10;
    for (size_t j = 0; j < 16; j++)
        s.depths[j] = 1000, s.heights[j] = 16000 - 1000 * (int32_t)j, s.velocities[j] = s.dampings[j] = s.poured[j] = 0;
    set_scene(&c, &s);
    expect(pathpetal_rule() == 3, "the rule's number");
    expect(is(compare(MAKE, &c), 0, 0, 0), "a slope of 16 cells is made");
    set_file(&ran, &c);
    for (int i = 0; i < 3; i++) {
        expect(is(compare(STEP, &c), 0, 0, 1), "a first step settles at the first correction");
        expect(pathpetal_height_um(c.string[BYTES].at, 0) == first[i], "cell 1 after it");
    }
    ran.most = 3;
    expect(is(compare(RUN, &ran), PATHPETAL_MORE, 0, 3), "a run of three steps");
    expect(!memcmp(ran.string[BYTES].at, c.string[BYTES].at, c.string[BYTES].len), "it leaves the same file");
}

/* Still water with one height in cell 8, of 16 cells, after a filter pass: cells 4 to 12, and 0 in all others. */
static void known_filter(int32_t height, const int32_t *due, const char *what)
{
    static struct call c;
    bool same = true;
    even(&c, 16, 1000, 0, 10);
    put(c.string[HEIGHTS].at + 28, (uint64_t)height, 4);
    expect(is(compare(MAKE, &c), 0, 0, 0) && is(compare(FILTER, &c), 0, 0, 0), what);
    for (size_t j = 0; j < 16; j++)
        same = same && pathpetal_height_um(c.string[BYTES].at, j) == (j >= 3 && j < 12 ? due[j - 3] : 0);
    expect(same, what);
}

/* Marked case 10; and half of it, where a half goes to the even number at every face: away from zero it would be -1, 5,
   -15, 29, 92, 29, -15, 5, -1. */
static void known_filters(void)
{
    known_filter(256, (const int32_t[]){-1, 8, -28, 56, 186, 56, -28, 8, -1}, "marked case 10");
    known_filter(128, (const int32_t[]){0, 4, -14, 28, 92, 28, -14, 4, 0}, "128 in cell 8, filtered");
    known_filter(-128, (const int32_t[]){0, -4, 14, -28, -92, -28, 14, -4, 0}, "-128 in cell 8, filtered");
}

static void known(void)
{
    static struct call c;
    uint8_t *file = c.string[BYTES].at;
    even(&c, 8, 1000, 7, 10);
    expect(is(compare(MAKE, &c), 0, 0, 0), "a channel of still water is made");
    expect(c.string[BYTES].len == pathpetal_length(8) && pathpetal_length(8) == 572 && pathpetal_length(256) == 17436,
           "8 cells are 572 bytes, and 256 are 17,436");
    expect(pathpetal_cells(file) == 8 && pathpetal_width_mm(file) == 1000 && pathpetal_step_ms(file) == 20 &&
           pathpetal_accepted(file) == 0 && pathpetal_wanted(file) == 10, "the file's counts are those given");
    expect(pathpetal_depth_mm(file, 7) == 1000 && pathpetal_height_um(file, 7) == 7 &&
           pathpetal_velocity_um_s(file, 7) == 0 && pathpetal_damping(file, 7) == 0,
           "the file's rows are those given");
    expect(!pathpetal_complete(file) && heights(&c) == 56, "open, heights 56");
    expect(is(compare(CHECK, &c), 0, 0, 0), "its file is one");
    expect(is(compare(STEP, &c), 0, 0, 1), "still water settles at the first correction");
    c.most = 4;
    expect(is(compare(RUN, &c), PATHPETAL_MORE, 0, 4) && pathpetal_accepted(file) == 5, "4 steps, more to do");
    put(c.string[POURED].at, 1000, 4);
    put(c.string[POURED].at + 28, (uint64_t)-300, 4);
    expect(pathpetal_number(compare(STEP, &c)) == 0 && pathpetal_accepted(file) == 6, "a step with water poured in");
    expect(heights(&c) == 756, "what was poured in is there");
    expect(is(compare(FILTER, &c), 0, 0, 0) && heights(&c) == 756, "a filter pass moves no water in or out");
    c.most = UINT64_MAX;
    expect(is(compare(RUN, &c), 0, 0, 4) && pathpetal_complete(file), "the rest of the run: complete");
    expect(is(compare(STEP, &c), PATHPETAL_COMPLETE, 0, 0), "no step after that");
    expect(is(compare(FILTER, &c), PATHPETAL_COMPLETE, 0, 0), "no filter pass after that");
    expect(is(compare(RUN, &c), 0, 0, 0), "a run of a complete channel takes no step");
    expect(is(compare(CHECK, &c), 0, 0, 0) && heights(&c) == 756, "a complete channel is a channel");
    for (int32_t d = 1941; d <= 1942; d++) {
        even(&c, 9, d, 0, 10);
        put(c.string[DEPTHS].at + 16, 1000, 4);
        uint64_t answer = compare(MAKE, &c);
        expect(d == 1941 ? is(answer, 0, 0, 0) : is_at(answer, PATHPETAL_DOMINANCE, 0, 5, 0), "marked case 8");
    }
    expect(pathpetal_signed((const uint8_t *)"\xff\xff\xff\xff") == -1 &&
           pathpetal_signed((const uint8_t *)"\0\0\0\x80") == INT32_MIN, "signed numbers are read as such");
}

/* Strings of no bytes, lent as NULL. */
static void nothing_lent(void)
{
    static struct call c;
    even(&c, 8, 1000, 7, 10);
    uint8_t row[32], file[572], before[572];
    memcpy(row, c.string[DEPTHS].at, 32);
    expect(is(pathpetal_make(8, 1000, 20, 10, NULL, 0, NULL, 0, NULL, 0, NULL, 0, NULL, 0), 1, 0, 0), "make of nothing");
    expect(is(pathpetal_make(0, 0, 0, 0, NULL, 0, NULL, 0, NULL, 0, NULL, 0, NULL, 0), 1, 0, 0), "make of no cells");
    expect(is(pathpetal_make(1ull << 62, 1000, 20, 10, NULL, 0, NULL, 0, NULL, 0, NULL, 0, NULL, 0), 1, 0, 0),
           "make of so many cells that 4 bytes for each seem to be none");
    expect(is(pathpetal_make(8, 1000, 20, 10, row, 32, row, 32, row, 32, row, 32, NULL, 0), 15, 0, 0),
           "make into nothing");
    expect(is(pathpetal_make(8, 1000, 20, 10, row, 32, row, 32, row, 32, row, 32, file, 572), 0, 0, 0),
           "one row lent four times");
    expect(is(pathpetal_make(8, 1000, 20, 10, row, 32, row, 32, row, 32, NULL, 0, file, 572), 1, 0, 0),
           "nothing is no row of dampings");
    memcpy(before, file, 572);
    expect(is(pathpetal_check(NULL, 0), 12, 0, 0) && is(pathpetal_filter(NULL, 0), 12, 0, 0) &&
           is(pathpetal_run(NULL, 0, 5), 12, 0, 0) && is(pathpetal_step(NULL, 0, NULL, 0), 12, 0, 0) &&
           is(pathpetal_step(NULL, 0, row, 32), 12, 0, 0), "no bytes are no file");
    expect(is(pathpetal_step(file, 572, NULL, 0), 1, 0, 0) && !memcmp(file, before, 572), "nothing is no poured row");
    uint8_t gauges[PATHPETAL_GAUGES_LENGTH] = {0};
    expect(is(pathpetal_place_gauge(NULL, 0, gauges, sizeof gauges, 1), 12, 0, 0) &&
           is(pathpetal_feed_gauges(NULL, 0, NULL, 0), 12, 0, 0), "no bytes are no file to place or to feed gauges");
    expect(is(pathpetal_place_gauge(file, 572, NULL, 0, 1), 12, 0, 0) &&
           is(pathpetal_feed_gauges(file, 572, NULL, 0), 12, 0, 0) &&
           is(pathpetal_read_gauges(NULL, 0, NULL, 0), 12, 0, 0), "no bytes are no gauges");
    expect(is(pathpetal_read_gauges(gauges, sizeof gauges, NULL, 0), 15, 0, 0), "nothing is no room for readings");
}

/* A gauge beside a channel that is stepped: what it is fed is in the file, and no call of it changes the file. */
static void gauges_beside(void)
{
    static struct call c;
    static const int64_t due[12] = {3, 10, 3, 2, 9, 17, 3, 6, 2, 1, 9, 9};
    static const int32_t fed[10] = {-1, 0, 5, -3, -1, 2, 7, -2, 0, 3};
    uint8_t gauges[PATHPETAL_GAUGES_LENGTH] = {0}, *file = c.string[BYTES].at, before[572];
    int64_t readings[PATHPETAL_READINGS];
    expect(PATHPETAL_GAUGES_LENGTH == 512 && PATHPETAL_READINGS == 48, "the lengths of gauges and of readings");
    expect(PATHPETAL_NINTH_GAUGE == 20 && PATHPETAL_OFF_CHANNEL == 21 && PATHPETAL_GAUGE_FULL == 30,
           "the numbers of the gauges' own refusals");
    even(&c, 8, 1000, 7, 10);
    expect(is(compare(MAKE, &c), 0, 0, 0), "a channel for gauges");
    for (size_t i = 0; i < 10; i++) {
        if (i == 0 || i == 4)
            expect(is(pathpetal_place_gauge(file, 572, gauges, 512, 3), 0, 0, i == 0 ? 1 : 2), "a gauge at cell 3");
        set_entry(&c, 8, ROW_e, 2, fed[i]);
        memcpy(before, file, 572);
        expect(is(pathpetal_feed_gauges(file, 572, gauges, 512), 0, 0, 0) && !memcmp(file, before, 572),
               "gauges are fed and the file stays");
    }
    expect(is(pathpetal_read_gauges(gauges, 512, readings, 48), 0, 0, 0) && !memcmp(readings, due, sizeof due),
           "the worked example, and a gauge placed before its fifth height");
    for (size_t i = 12; i < 48; i++)
        expect(readings[i] == 0, "where there is no gauge all readings are 0");
}

/* Strings longer than 4 GiB, so that their lengths' last 32 bits alone would be right. */
static void long_strings(void)
{
    static struct call c;
    size_t over = (size_t)(1ull << 32), size = over + 2 * ARENA;
    uint8_t *file = over ? mmap(NULL, size, PROT_READ | PROT_WRITE, MAP_PRIVATE | MAP_ANONYMOUS | MAP_NORESERVE, -1, 0)
                         : MAP_FAILED;
    if (file == MAP_FAILED) {
        puts("strings of 4 GiB: no room here, left out");
        return;
    }
    even(&c, 8, 1000, 7, 10);
    compare(MAKE, &c);
    memcpy(file, c.string[BYTES].at, 572);
    const uint8_t *row = c.string[DEPTHS].at, *bytes = c.string[BYTES].at;
    expect(is(pathpetal_check(file, over + 572), 12, 0, 0), "a file 4 GiB too long is checked");
    expect(is(pathpetal_filter(file, over + 572), 12, 0, 0), "a file 4 GiB too long is filtered");
    expect(is(pathpetal_run(file, over + 572, 1), 12, 0, 0), "a file 4 GiB too long is run");
    expect(is(pathpetal_step(file, over + 572, row, 32), 12, 0, 0), "a file 4 GiB too long is stepped");
    expect(!memcmp(file, bytes, 572), "it stays as it was");
    expect(is(pathpetal_step(c.string[BYTES].at, 572, file, over + 32), 1, 0, 0), "a poured row 4 GiB too long");
    for (int i = 0; i < MADE_ROWS; i++) {
        const uint8_t *rows[MADE_ROWS] = {row, row, row, row};
        size_t len[MADE_ROWS] = {32, 32, 32, 32};
        rows[i] = file, len[i] = over + 32;
        expect(is(pathpetal_make(8, 1000, 20, 10, rows[0], len[0], rows[1], len[1], rows[2], len[2], rows[3], len[3],
                                 c.string[BYTES].at, 572), 1, 0, 0), "a row of make 4 GiB too long");
    }
    expect(is(pathpetal_make(8, 1000, 20, 10, row, 32, row, 32, row, 32, row, 32, file, over + 572), 15, 0, 0) &&
           !memcmp(file, bytes, 572), "make into a buffer 4 GiB too long");
    uint8_t gauges[PATHPETAL_GAUGES_LENGTH] = {0};
    int64_t readings[PATHPETAL_READINGS];
    expect(is(pathpetal_place_gauge(file, over + 572, gauges, 512, 1), 12, 0, 0) &&
           is(pathpetal_feed_gauges(file, over + 572, gauges, 512), 12, 0, 0) && !memcmp(file, bytes, 572),
           "gauges of a file 4 GiB too long");
    memset(file, 0, 572);
    expect(is(pathpetal_place_gauge(bytes, 572, file, over + 512, 1), 12, 0, 0) &&
           is(pathpetal_feed_gauges(bytes, 572, file, over + 512), 12, 0, 0) &&
           is(pathpetal_read_gauges(file, over + 512, readings, 48), 12, 0, 0), "gauges 4 GiB too long");
    expect(is(pathpetal_place_gauge(bytes, 572, gauges, 512, (1ull << 32) + 1), 21, 0, 0) &&
           is(pathpetal_place_gauge(bytes, 572, gauges, 512, 1ull << 63), 21, 0, 0), "a cell 2^32 too far");
    munmap(file, size);
}

/* ---- what must have occurred ---- */

static bool due(enum kind kind, int number, int turn)
{
    bool stepped = kind == STEP || kind == RUN;
    if (turn == 0)
        switch (number) {
        case 0: case 1: case 2: case 4: case 5: case 26: case 31: case 32: case 33: case 38: return true;
        case 11: return kind == STEP || kind == FILTER;
        case 12: case 13: case 14: case 34: case 35: case 36: return kind != MAKE;
        case 15: return kind == MAKE;
        case 16: return kind == RUN;
        case 37: return kind == STEP;
        default: return false;
        }
    switch (number) {
    case 4: case 8: return stepped || (kind == FILTER && turn == 1);
    case 7: return stepped || (kind != CHECK && turn == 1);
    case 9: return (stepped && turn <= 1 + 3) || (kind != CHECK && turn == 1);
    case 10: return stepped && turn == 1 + 10;
    default: return false;
    }
}

static bool has_place(int number) { return number == 4 || number == 5 || number >= 31; }

/* Of each refusal that has a place: how often it was the first, one between and the last. */
static void places_table(void)
{
    char what[80];
    puts("places, by call and number: the first, between, the last before the stages | at a stage");
    for (enum kind kind = CHECK; kind < KINDS; kind++)
        for (int number = 0; number < NUMBERS; number++) {
            long (*of)[WHERES] = placed[kind][number];
            bool at_stage = due(kind, number, 1);
            if (!has_place(number) || !due(kind, number, 0))
                continue;
            printf("%-6s %2d %7ld %ld %ld", names[kind], number, of[0][AT_FIRST], of[0][BETWEEN], of[0][AT_LAST]);
            if (at_stage)
                printf(" | %ld %ld %ld", of[1][AT_FIRST], of[1][BETWEEN], of[1][AT_LAST]);
            puts("");
            for (int i = 0; i < WHERES; i++) {
                snprintf(what, sizeof what, "%s answered %d with %s", names[kind], number, where_names[i]);
                expect(of[0][i] > 0 && (!at_stage || of[1][i] > 0), what);
            }
        }
}

/* Steps and runs by the count that they start from, and the refusals of steps at every stage by the row of weights. */
static void starts_table(void)
{
    char what[80];
    puts("steps and runs, by the accepted steps they start from: took a step, refused at a stage");
    for (enum kind kind = STEP; kind <= RUN; kind += RUN - STEP)
        for (int start = 0; start < STARTS; start++) {
            printf("%-6s from %-10s %7ld %7ld\n", names[kind], starts[start], started[kind][start][0],
                   started[kind][start][1]);
            for (int refused = 0; refused < 2; refused++) {
                snprintf(what, sizeof what, "a %s from %s %s", names[kind], starts[start],
                         refused ? "was refused at a stage" : "took a step");
                expect(started[kind][start][refused] > 0, what);
            }
        }
    puts("step refused at stage 0, 1 .. 10, by its row of weights");
    for (int number = 4; number <= 10; number++)
        for (int rung = 0; rung < RUNGS && due(STEP, number, 1 + 10 * (number == 10)); rung++) {
            printf("%2d by row %d", number, rung + 1);
            for (int turn = 1; turn < TURNS; turn++) {
                printf(" %ld", refused_by[rung][number][turn]);
                snprintf(what, sizeof what, "a step by row %d was refused %d at stage %d", rung + 1, number, turn - 1);
                if (due(STEP, number, turn))
                    expect(refused_by[rung][number][turn] > 0, what);
            }
            puts("");
        }
    for (int row = 0; row < 2; row++) {
        printf("refused %d in a level of weight 0: from 0 %ld, from 1 %ld\n", PATHPETAL_BAD_FLUX + row,
               unweighed[row][0], unweighed[row][1]);
        expect(unweighed[row][0] > 0 && unweighed[row][1] > 0, "levels of weight 0 were out of range");
    }
}

static void damping_table(void)
{
    char what[80];
    puts("damped channels, by call: did something, of these otherwise without damping | refused at a stage, of these");
    for (enum kind kind = STEP; kind < KINDS; kind++) {
        printf("%-6s %7ld %7ld | %7ld %7ld\n", names[kind], damped[kind][0], by_damping[kind][0], damped[kind][1],
               by_damping[kind][1]);
        snprintf(what, sizeof what, "the damping told in a hundred calls of %s", names[kind]);
        expect(by_damping[kind][0] >= 100, what);
        snprintf(what, sizeof what, "the damping told in ten refusals of %s", names[kind]);
        expect(by_damping[kind][1] >= (kind == STEP || kind == RUN ? 10 : 0), what);
    }
    fputs("halves of damping * u / 1000 in makes, beside an even and an odd number:", stdout);
    for (int below = 0; below < 2; below++) {
        printf(" %s zero %ld %ld", below ? "below" : "above", damped_halves[below][0], damped_halves[below][1]);
        expect(damped_halves[below][0] >= 50 && damped_halves[below][1] >= 50, "halves that the damping takes");
    }
    puts("");
}

static void table(void)
{
    char what[80];
    puts("answers, by call and number: before the stages | at stage 0, 1 .. 10");
    for (enum kind kind = CHECK; kind < KINDS; kind++)
        for (int number = 0; number < NUMBERS; number++) {
            long sum = 0;
            for (int turn = 0; turn < TURNS; turn++) {
                sum += refused_at[kind][number][turn];
                if (due(kind, number, turn)) {
                    snprintf(what, sizeof what, "%s answered %d %s %d", names[kind], number,
                             turn ? "at stage" : "before its stages", turn ? turn - 1 : 0);
                    expect(refused_at[kind][number][turn] > 0, what);
                }
            }
            if (sum == 0)
                continue;
            printf("%-6s %2d %7ld", names[kind], number, refused_at[kind][number][0]);
            if (sum > refused_at[kind][number][0]) {
                fputs(" |", stdout);
                for (int turn = 1; turn < TURNS; turn++)
                    printf(" %ld", refused_at[kind][number][turn]);
            }
            puts("");
        }
    fputs("step   settled at correction 1 to 10:", stdout);
    for (int k = 1; k <= 10; k++) {
        printf(" %ld", settled[k]);
        expect(settled[k] > 0, "steps settled at every correction");
    }
    puts("");
    places_table();
    starts_table();
    damping_table();
    for (int i = 0; i < EVENTS; i++) {
        printf("%s: %ld\n", event_names[i], events[i]);
        expect(events[i] > 0, event_names[i]);
    }
    printf("damaged files: %ld\n", damaged_files);
    expect(damaged_files >= 20000, "20,000 damaged files");
}

int main(void)
{
    struct sigaction on_touch = {.sa_handler = touched};
    setvbuf(stdout, NULL, _IOLBF, 0);
    sigaction(SIGSEGV, &on_touch, NULL);
    sigaction(SIGBUS, &on_touch, NULL);
    arenas();
    rare_channels(rares, sizeof rares / sizeof *rares, false);
    rare_channels(damped_rares, sizeof damped_rares / sizeof *damped_rares, true);
    seed(20260101);
    readers();
    known();
    known_filters();
    known_places();
    known_time_steps();
    known_deepest_cell();
    known_time_step_order();
    known_damping();
    known_dampings();
    known_damping_order();
    known_beginnings();
    known_editions();
    known_first_steps();
    nothing_lent();
    long_strings();
    many_damaged_files();
    makes();
    channels();
    gauges_beside();
    table();
    printf("%ld passed, %ld failed\n", passed, failed);
    return failed != 0;
}
