/* calls write CALLS: draws calls of pathpetal.h from one seed and writes them to the file CALLS. What each would
   answer is asked of the second program, so that accepted calls, each refusal at each stage, the first, middle and last
   places of those that have one, each k from 1 to 10, each count of accepted steps that the weights of a step hang on,
   time steps at their bound and beyond it, damping of every form and at fault beside every other fault, files of edition
   1, files' first bytes, and an exact half at each place that rounds, of both signs and parities, all have their share.
   The calls of gauges come last.
   calls table CALLS ANSWERS: prints how often each answer occurred; fails if one that is known to occur did not, or if
   a call touched a byte that is not its own.
   calls differ CALLS ANSWERS OTHERS..: prints the first calls that one of the OTHERS answers differently, and last 'N
   passed, M failed', by calls. */
#include "../compare/rare.h"
#include "../../include/pathpetal.h"
#include "by_second.h"
#include "record.h"

#include <inttypes.h>

enum { REASONS = 39, STAGES = 11, EACH = 5000, MOST_DRAWN = 4000000 };
static const char *const names[DO_KINDS] = {"make", "step", "filter", "check", "run", "place", "feed", "read"};

enum { V_HALVES, FLUX_HALVES, U_HALVES, MOVED_HALVES, FLOW_HALVES, FILTERED_HALVES, DAMPED_HALVES, BY_LESS, THIN, BOUND,
       EDITIONS, FAULTS, EDGE, VIOLENT, ANY, DRAWN, WATCHED, ENDS, GAUGE_FAULTS, SCENES };
static const char *const scenes[SCENES] = {
    "every inner V of make is exactly a half",
    "dispersive parts are exactly halves",
    "every u of a step is exactly a half",
    "what moves in a step is exactly a half",
    "plain parts or accelerations are exactly halves",
    "what a filter pass rounds is exactly a half",
    "what the damping takes is exactly a half",
    "out of its range by a half or less",
    "sides of the solve fall below the least normal float",
    "a time step at its bound or just beyond it",
    "files of edition 1, and first bytes of files",
    "several faults at once, so that their order decides",
    "a flux just out of range",
    "fast or much poured, over long steps",
    "levels that do not belong to the heights",
    "drawn at random",
    "gauges placed, fed and read in a row",
    "numbers of gauges at the ends of their ranges",
    "several faults of a file and its gauges at once",
};

enum { AT_FIRST, BETWEEN, AT_LAST, WHERES };
static const char *const wheres[WHERES] = {"the first place", "a place between", "the last place"};

/* How often each answer occurred, of a step by its k too, of a refusal by where its place is, and each scene. */
static long total[DO_KINDS], answered[DO_KINDS][REASONS][STAGES], settled[STAGES], placed[DO_KINDS][REASONS][WHERES],
            shown[SCENES][DO_KINDS];

/* How often 12 and 14 were of the gauges and not of the file, and a gauge got each of the eight places. */
enum { GAUGES = 8 };
static long of_gauges[DO_KINDS][2], got[GAUGES + 1];

/* How often a time step was refused that is too long by one ms, or for one mm of depth or width; and how often one was
   let through that would be so with one more. */
static long bounded[DO_KINDS][2];

/* How often a flux and an acceleration were refused in one level while an older one has a fault at a lower place; and
   in a step or a run whose next step has no weight for the level. */
static long older_lower[2], unweighed[2];

/* How many calls, up to ENOUGH, each tie decides: they end otherwise when it is turned (tests/compare/ties.h). */
enum { ENOUGH = 20 };
static long decided[TIES];
static const char *const rounding[PLACES] = {
    "W predicted", "W corrected", "V's quotient predicted", "V's quotient corrected", "G of the filter",
    "V of the filter", "plain part", "F", "what the damping takes", "dispersive part", "u", "V of make",
};
static const char *const sides[4] = {"above zero, even", "above zero, odd", "below zero, even", "below zero, odd"};

/* How many calls, up to ENOUGH, end otherwise when F and what the damping takes from it are rounded at once; and without
   the damping. */
static long decided_apart[DO_KINDS], decided_damped[DO_KINDS];

/* The damping of the calls that did something: in no cell; in one; in all; 10,000 in all; 0 and 10,000; more or less from
   cell to cell. */
enum { NO_CELL, ONE_CELL, ALL_CELLS, ALL_MOST, BOTH_ENDS, SLOPING, SHAPES };
static const char *const shapes[SHAPES] = {
    "in no cell", "in one cell", "in all cells", "10,000 in all cells", "0 and 10,000", "sloping",
};
static long shaped[DO_KINDS][SHAPES];

/* How often a damping out of its range stood beside another fault: of each number what was told before it, and what
   would have been told next. */
static long before_38[DO_KINDS][REASONS], next_to_38[DO_KINDS][REASONS];

/* How often 38 was told of each number just out of its range, and of the furthest that 4 bytes hold. */
enum { OUTSIDES = 4 };
static const int64_t outsides[OUTSIDES] = {-1, 10001, INT32_MIN, INT32_MAX};
static long outside[DO_KINDS][OUTSIDES];

/* How often the file of a channel was refused for its edition, 1, and nothing else; and the first bytes of a file: 47 of
   them with 12, 48 to 51 for their edition, for their cells, and with 12 where both are right. */
enum { OF_EDITION_1, OF_47, EDITION_OF_48, CELLS_OF_48, LENGTH_OF_48, FORMS };
static const char *const forms[FORMS] = {
    "13 for edition 1 alone", "12 for 47 bytes", "13 for 48 to 51", "1 for their cells", "12 for their length",
};
static long formed[DO_KINDS][FORMS];

/* The count of accepted steps that a step or a run starts from. One whose lowest byte alone is 0 or 1 is a later one
   too, and the last before the wanted is one of the others. How often it took a step, and was refused at a stage. */
enum { FROM_LATER = 4, FROM_BYTE, FROM_LAST, STARTS };
static const char *const starts[STARTS] = {"0", "1", "2", "3", "later", "256, 257..", "wanted - 1"};
static long started[DO_KINDS][STARTS][2];

static bool starts_from(const struct record *r, int start)
{
    const uint8_t *file = r->string[FILE_STRING].at;
    uint32_t accepted = pathpetal_accepted(file);
    switch (start) {
    case FROM_LATER: return accepted >= FROM_LATER;
    case FROM_BYTE: return accepted >= FROM_LATER && accepted % 256 < 2;
    case FROM_LAST: return accepted + 1 == pathpetal_wanted(file);
    default: return accepted == (uint32_t)start;
    }
}

/* Whether a step or a run came to its stages, and was refused at one of them or took a step. */
static bool came_to_stages(const struct record *r, uint64_t answer, bool *refused)
{
    unsigned number = pathpetal_number(answer);
    bool dry = number == PATHPETAL_DEPTH &&
               (pathpetal_stage(answer) || by_second_check(r->string[FILE_STRING].at, r->string[FILE_STRING].len) == 0);
    *refused = dry || (number >= 6 && number <= 10);
    return (r->kind == DO_STEP || r->kind == DO_RUN) && (*refused || pathpetal_count(answer) > 0);
}

static bool has_place(unsigned number)
{
    return number == PATHPETAL_DEPTH || number == PATHPETAL_DOMINANCE || number >= PATHPETAL_BAD_DEPTH;
}

/* The cells, or faces, that a refusal's place is one of. */
static unsigned last_place(const struct record *r, unsigned number)
{
    unsigned cells = r->kind == DO_MAKE ? (unsigned)r->number[0] : pathpetal_cells(r->string[FILE_STRING].at);
    return number == PATHPETAL_BAD_FLUX ? cells - 1 : cells;
}

static int where(const struct record *r, unsigned number, unsigned place)
{
    return place == 1 ? AT_FIRST : place == last_place(r, number) ? AT_LAST : BETWEEN;
}

/* The lowest place of a level of fluxes or accelerations whose value is out of its range; one behind the last if none
   is. */
static unsigned lowest_in_level(const struct record *r, unsigned number, unsigned level)
{
    const uint8_t *file = r->string[FILE_STRING].at;
    unsigned len = last_place(r, number), place = 1;
    uint64_t bound = number == PATHPETAL_BAD_FLUX ? 1000000000000000 : 100000000000;
    const uint8_t *row = file + pathpetal_word(file + (number == PATHPETAL_BAD_FLUX ? 40 : 44)); /* by its offset */
    for (const uint8_t *at = row + 8 * (size_t)(level * len); place <= len; place++, at += 8) {
        uint64_t value = pathpetal_word(at) | (uint64_t)pathpetal_word(at + 4) << 32;
        if (value + bound > 2 * bound)
            break;
    }
    return place;
}

/* The level that a refusal's place is in. */
static unsigned level_told(const struct record *r, unsigned number, unsigned place)
{
    unsigned level = 0;
    while (level < 3 && lowest_in_level(r, number, level) != place)
        level++;
    return level;
}

static bool lower_in_older(const struct record *r, unsigned number, unsigned place)
{
    unsigned level = level_told(r, number, place);
    while (++level < 3)
        if (lowest_in_level(r, number, level) < place)
            return true;
    return false;
}

/* Whether a call is refused for its time step, or is not and comes to what is asked after it. */
static bool comes_to_time(unsigned number)
{
    return number == 0 || (number >= PATHPETAL_DOMINANCE && number <= PATHPETAL_COMPLETE) || number == PATHPETAL_MORE ||
           number == PATHPETAL_TIME_STEP;
}

/* Whether the time step of such a call is next to its bound. */
static bool next_to_bound(const struct record *r, bool beyond)
{
    bool make = r->kind == DO_MAKE;
    const uint8_t *file = r->string[FILE_STRING].at, *depths = make ? r->string[FIRST_ROW].at : file + 52;
    const uint64_t *n = r->number, N = make ? n[0] : pathpetal_cells(file);
    int64_t X = (int64_t)(make ? n[1] : pathpetal_width_mm(file));
    int64_t T = (int64_t)(make ? n[2] : pathpetal_step_ms(file)), h = 0;
    for (size_t j = 0; j < N; j++) {
        int64_t depth = pathpetal_signed(depths + 4 * j);
        h = depth > h ? depth : h;
    }
    if (beyond)
        return !too_long(h - 1, X, T) || !too_long(h, X, T - 1) || !too_long(h, X + 1, T);
    return too_long(h + 1, X, T) || too_long(h, X, T + 1) || too_long(h, X - 1, T);
}

static bool is_of_gauges(const struct record *r, unsigned number)
{
    if (r->kind < DO_PLACE || (number != PATHPETAL_LENGTH && number != PATHPETAL_OFFSETS))
        return false;
    return r->kind == DO_READ || by_second_check(r->string[FILE_STRING].at, r->string[FILE_STRING].len) == 0;
}

/* The first step has no weight for any level but the newest, the second none for the oldest. */
static bool is_unweighed(const struct record *r, unsigned number, unsigned place)
{
    return (r->kind == DO_STEP || r->kind == DO_RUN) &&
           level_told(r, number, place) > pathpetal_accepted(r->string[FILE_STRING].at);
}

static uint64_t by_second(struct record *c);

/* The damping row of a call and its cells, if the lengths of the call allow to find it. */
static const uint8_t *dampings_of(const struct record *r, size_t *N)
{
    const struct string *f = &r->string[FILE_STRING], *row = &r->string[FOURTH_ROW];
    bool make = r->kind == DO_MAKE;
    uint64_t cells = make ? r->number[0] : r->kind != DO_READ && f->len >= 48 ? pathpetal_cells(f->at) : 0;
    *N = (size_t)cells;
    if (cells < 8 || cells > CELLS || (make ? row->len != 4 * *N : f->len != pathpetal_length(*N)))
        return NULL;
    return make ? row->at : f->at + 28 + 64 * *N;
}

static bool damping_wrong(const struct record *r)
{
    size_t N;
    const uint8_t *at = dampings_of(r, &N);
    bool wrong = false;
    for (size_t j = 0; at && j < N; j++)
        wrong = wrong || pathpetal_word(at + 4 * j) > 10000;
    return wrong;
}

/* The call without its damping, done by the second program. */
static uint64_t undamped(const struct record *r, struct record *other)
{
    size_t N;
    *other = *r;
    uint8_t *at = (uint8_t *)dampings_of(other, &N);
    memset(at, 0, 4 * N);
    return by_second(other);
}

/* What a call that is refused for its damping would be refused for next. */
static unsigned next_number(const struct record *r)
{
    static struct record other;
    return pathpetal_number(undamped(r, &other));
}

static bool has_shape(const uint8_t *row, size_t N, int shape)
{
    size_t cells = 0, most = 0, up = 0, down = 0;
    for (size_t j = 0; j < N; j++) {
        int32_t here = pathpetal_signed(row + 4 * j), last = j > 0 ? pathpetal_signed(row + 4 * (j - 1)) : here;
        cells += here != 0, most += here == 10000, up += here > last, down += here < last;
    }
    switch (shape) {
    case NO_CELL: return cells == 0;
    case ONE_CELL: return cells == 1;
    case ALL_CELLS: return cells == N;
    case ALL_MOST: return most == N;
    case BOTH_ENDS: return most > 0 && cells < N;
    default: return (up > 1 && !down) || (down > 1 && !up);
    }
}

/* Whether the file is that of a channel in edition 1: with dampings of 0 and its offsets 4 larger it is one of edition
   2. */
static bool is_of_edition_1(const struct record *r)
{
    static uint8_t file[LONGEST];
    const struct string *f = &r->string[FILE_STRING];
    size_t N = f->len >= 48 ? pathpetal_cells(f->at) : 0;
    if (N < 8 || N > CELLS || f->len != 24 + 64 * N || pathpetal_word(f->at) != 1)
        return false;
    uint32_t last = (uint32_t)(28 + 64 * N);
    memset(file, 0, pathpetal_length(N));
    memcpy(file, f->at, 48);
    memcpy(file + 52, f->at + 48, f->len - 48);
    file[0] = 2;
    for (size_t i = 6; i <= 12; i++) {
        uint32_t offset = i < 12 ? pathpetal_word(f->at + 4 * i) + 4 : last;
        for (size_t k = 0; k < 4; k++)
            file[4 * i + k] = (uint8_t)(offset >> 8 * k);
    }
    return by_second_check(file, pathpetal_length(N)) == 0;
}

/* What an answer is for by the form of the file alone; FORMS if it is for something else. */
static int form_of(const struct record *r, unsigned number)
{
    const struct string *f = &r->string[FILE_STRING];
    bool begun = f->len >= 48 && f->len < 52;
    uint32_t cells = begun ? pathpetal_cells(f->at) : 0;
    if (r->kind == DO_MAKE || r->kind == DO_READ)
        return FORMS;
    if (number == PATHPETAL_LENGTH && f->len == 47)
        return OF_47;
    if (number == PATHPETAL_EDITION)
        return begun ? EDITION_OF_48 : is_of_edition_1(r) ? OF_EDITION_1 : FORMS;
    if (number == PATHPETAL_SHAPE && begun && (cells < 8 || cells > CELLS))
        return CELLS_OF_48;
    return number == PATHPETAL_LENGTH && begun ? LENGTH_OF_48 : FORMS;
}

/* Which of the outsides the damping told is; OUTSIDES if it is another. */
static int outside_of(const struct record *r, unsigned place)
{
    size_t N;
    int32_t damping = pathpetal_signed(dampings_of(r, &N) + 4 * (place - 1));
    int i = 0;
    while (i < OUTSIDES && outsides[i] != damping)
        i++;
    return i;
}

/* Counts what an answer has to do with the damping and the form of the file. */
static void count_damping(const struct record *r, uint64_t answer)
{
    unsigned number = pathpetal_number(answer);
    size_t N;
    const uint8_t *row = dampings_of(r, &N);
    int form = form_of(r, number);
    if (form < FORMS)
        formed[r->kind][form]++;
    if (number == PATHPETAL_BAD_DAMPING) {
        int out_by = outside_of(r, pathpetal_place(answer));
        next_to_38[r->kind][next_number(r)]++;
        if (out_by < OUTSIDES)
            outside[r->kind][out_by]++;
    } else if (number && damping_wrong(r)) {
        before_38[r->kind][number]++;
    }
    for (int shape = 0; shape < SHAPES && row && (number == 0 || number == PATHPETAL_MORE); shape++)
        shaped[r->kind][shape] += has_shape(row, N, shape);
}

/* Counts an answer; 0 if it is none that a call can give. */
static bool counted(const struct record *r, uint64_t answer)
{
    unsigned number = pathpetal_number(answer), stage = pathpetal_stage(answer), place = pathpetal_place(answer);
    uint64_t count = pathpetal_count(answer);
    if (r->kind >= DO_KINDS || r->scene >= SCENES || number >= REASONS || stage >= STAGES)
        return false;
    if (r->kind == DO_STEP && number == 0 && (count < 1 || count > 10))
        return false;
    if (r->kind >= DO_PLACE && (r->kind == DO_PLACE && number == 0 ? count < 1 || count > GAUGES : count != 0))
        return false;
    if (has_place(number) ? place < 1 || place > last_place(r, number) : place != 0)
        return false;
    if (number == PATHPETAL_BAD_DAMPING && !damping_wrong(r))
        return false;
    total[r->kind]++;
    answered[r->kind][number][stage]++;
    if (place)
        placed[r->kind][number][where(r, number, place)]++;
    if (number == PATHPETAL_BAD_FLUX || number == PATHPETAL_BAD_ACCELERATION) {
        older_lower[number - PATHPETAL_BAD_FLUX] += lower_in_older(r, number, place);
        unweighed[number - PATHPETAL_BAD_FLUX] += is_unweighed(r, number, place);
    }
    shown[r->scene][r->kind]++;
    if (r->kind == DO_STEP && number == 0)
        settled[count]++;
    if (r->kind == DO_PLACE && number == 0)
        got[count]++;
    if (is_of_gauges(r, number))
        of_gauges[r->kind][number == PATHPETAL_OFFSETS]++;
    if (r->kind != DO_READ && comes_to_time(number))
        bounded[r->kind][number != PATHPETAL_TIME_STEP] += next_to_bound(r, number == PATHPETAL_TIME_STEP);
    bool refused, stages = came_to_stages(r, answer, &refused);
    for (int start = 0; stages && start < STARTS; start++)
        started[r->kind][start][refused] += starts_from(r, start);
    count_damping(r, answer);
    return true;
}

/* What is known to occur. 6 is not: no channel is known that meets it. */
static bool due(unsigned kind, unsigned number, unsigned stage)
{
    bool made = number == 1 || number == 2 || number == 4 || number == 5 || number == PATHPETAL_TIME_STEP ||
                (number >= 31 && number <= 33) || number == PATHPETAL_BAD_DAMPING;
    bool input = made || (number >= 12 && number <= 14) || (number >= 34 && number <= 36);
    switch (kind) {
    case DO_MAKE: return stage == 0 && (number == 0 || made || number == 7 || number == 9 || number == 15);
    case DO_CHECK: return stage == 0 && (number == 0 || input);
    case DO_FILTER: return stage == 0 && (number == 0 || input || number == 11 || (number >= 7 && number <= 9));
    case DO_PLACE: return stage == 0 && (number == 0 || input || number == 20 || number == 21);
    case DO_FEED: return stage == 0 && (number == 0 || input || number == 21 || number == 30);
    case DO_READ: return stage == 0 && (number == 0 || number == 12 || number == 14 || number == 15);
    case DO_RUN: input |= number == 0 || number == 16; break;
    default: input |= number == 0 || number == 11 || number == 37; break;
    }
    if (stage == 0)
        return input || (number >= 7 && number <= 9);
    if (number == 10)
        return stage == 10;
    if (kind == DO_RUN)
        return stage <= 2 && (number == 4 || number == 7 || number == 8);
    return number == 4 || (number >= 7 && number <= 9);
}

/* Whether 38 must have been told where that would have been next. 0: nothing else was at fault. */
static bool due_next(unsigned kind, unsigned number)
{
    switch (number) {
    case 0: case PATHPETAL_DEPTH: case PATHPETAL_TIME_STEP: case PATHPETAL_DOMINANCE: return true;
    case PATHPETAL_BAD_POURED: return kind == DO_STEP;
    case PATHPETAL_COMPLETE: return kind == DO_STEP || kind == DO_FILTER;
    case PATHPETAL_BUFFER: return kind == DO_MAKE;
    case PATHPETAL_MORE: return kind == DO_RUN;
    case PATHPETAL_LENGTH: case PATHPETAL_OFFSETS: case PATHPETAL_OFF_CHANNEL: return kind >= DO_PLACE;
    case PATHPETAL_NINTH_GAUGE: return kind == DO_PLACE;
    case PATHPETAL_GAUGE_FULL: return kind == DO_FEED;
    default: return false;
    }
}

/* Whether that must have been told where 38 would have been next. Where cells or lengths of a file are wrong, no damping is
   found; 1 is for a row beside it. */
static bool due_before(unsigned kind, unsigned number)
{
    return number == PATHPETAL_COUNTS || (number >= PATHPETAL_BAD_DEPTH && number <= PATHPETAL_BAD_VELOCITY) ||
           (number == PATHPETAL_SHAPE && (kind == DO_MAKE || kind == DO_STEP)) ||
           (kind != DO_MAKE && (number == PATHPETAL_EDITION || number == PATHPETAL_OFFSETS ||
                                (number >= PATHPETAL_BAD_REDUCED && number <= PATHPETAL_BAD_ACCELERATION)));
}

/* How much of what is known of damping and of files' forms did not occur. */
static long missing_damping(bool say, unsigned kinds)
{
    long n = 0;
    for (unsigned kind = 0; kind < kinds && kind != DO_READ; kind++) {
        bool moves = kind <= DO_RUN && kind != DO_CHECK;
        for (unsigned number = 0; number < REASONS; number++) {
            if (due_next(kind, number) && next_to_38[kind][number] < 5) {
                n++;
                if (say)
                    printf("%s seldom answered 38 and would have answered %u next\n", names[kind], number);
            }
            if (due_before(kind, number) && before_38[kind][number] < 5) {
                n++;
                if (say)
                    printf("%s seldom answered %u before 38\n", names[kind], number);
            }
        }
        for (int i = 0; i < OUTSIDES; i++)
            if (!outside[kind][i]) {
                n++;
                if (say)
                    printf("%s never answered 38 for a damping of %" PRId64 "\n", names[kind], outsides[i]);
            }
        for (int form = 0; form < FORMS && kind != DO_MAKE; form++)
            if (formed[kind][form] < 10) {
                n++;
                if (say)
                    printf("%s seldom answered %s\n", names[kind], forms[form]);
            }
        for (int shape = 0; shape < SHAPES && moves; shape++)
            if (shaped[kind][shape] < 20) {
                n++;
                if (say)
                    printf("%s seldom did something with damping %s\n", names[kind], shapes[shape]);
            }
        if (moves && (decided_apart[kind] < 5 || decided_damped[kind] < ENOUGH)) {
            n++;
            if (say)
                printf("%s was seldom decided by its damping, or by two roundings of F\n", names[kind]);
        }
    }
    return n;
}

/* How much of what is known to occur did not, in the calls of the first kinds. */
static long missing(bool say, unsigned kinds)
{
    long n = 0;
    for (unsigned kind = 0; kind < kinds; kind++) {
        if (total[kind] < EACH) {
            n++;
            if (say)
                printf("fewer than %d calls of %s\n", EACH, names[kind]);
        }
        for (unsigned number = 0; number < REASONS; number++)
            for (unsigned stage = 0; stage < STAGES; stage++)
                if (due(kind, number, stage) && !answered[kind][number][stage]) {
                    n++;
                    if (say)
                        printf("%s never answered %u at stage %u\n", names[kind], number, stage);
                }
        for (unsigned number = 0; number < REASONS; number++)
            for (unsigned i = 0; i < WHERES && has_place(number) && due(kind, number, 0); i++)
                if (!placed[kind][number][i]) {
                    n++;
                    if (say)
                        printf("%s never answered %u with %s\n", names[kind], number, wheres[i]);
                }
        for (int start = 0; start < STARTS && (kind == DO_STEP || kind == DO_RUN); start++)
            for (int refused = 0; refused < 2; refused++)
                if (started[kind][start][refused] < 20) {
                    n++;
                    if (say)
                        printf("%s from %s seldom %s\n", names[kind], starts[start],
                               refused ? "refused at a stage" : "took a step");
                }
        for (unsigned i = 0; i < 2 && kind != DO_READ; i++)
            if (bounded[kind][i] < 100) {
                n++;
                if (say)
                    printf("%s seldom %s a time step next to its bound\n", names[kind], i ? "let through" : "refused");
            }
        for (unsigned i = 0; i < 2 && kind >= DO_PLACE; i++)
            if (of_gauges[kind][i] < 100) {
                n++;
                if (say)
                    printf("%s seldom answered %d for its gauges\n", names[kind], i ? 14 : 12);
            }
    }
    for (int i = 1; i <= GAUGES && kinds == DO_KINDS; i++)
        if (!got[i]) {
            n++;
            if (say)
                printf("no gauge was placed as number %d\n", i);
        }
    for (unsigned i = 0; i < 2; i++)
        if (older_lower[i] < 50) {
            n++;
            if (say)
                printf("refusal %u seldom stood before a lower place in an older level\n", PATHPETAL_BAD_FLUX + i);
        }
    for (unsigned i = 0; i < 2; i++)
        if (unweighed[i] < 20) {
            n++;
            if (say)
                printf("refusal %u was seldom for a level of weight 0\n", PATHPETAL_BAD_FLUX + i);
        }
    for (int k = 1; k <= 10; k++)
        if (!settled[k]) {
            n++;
            if (say)
                printf("no step settled at correction %d\n", k);
        }
    for (int place = 0; place < PLACES; place++)
        for (int side = 0; side < 4; side++)
            if (decided[tie_of(place, IS_HALF, side / 2, side % 2)] < 5) {
                n++;
                if (say)
                    printf("calls were seldom decided by a half of %s, %s\n", rounding[place], sides[side]);
            }
    return n + missing_damping(say, kinds);
}

/* The call at hand, its file's bytes before it, and where the calls that are kept go. */
static struct record r;
static FILE *out;
static long drawn;

static uint64_t by_second(struct record *c)
{
    const uint64_t *n = c->number;
    struct string *f = &c->string[FILE_STRING], *a = &c->string[FIRST_ROW], *b = &c->string[SECOND_ROW],
                  *d = &c->string[THIRD_ROW], *g = &c->string[FOURTH_ROW];
    switch (c->kind) {
    case DO_MAKE:
        return by_second_make(n[0], n[1], n[2], n[3], a->at, a->len, b->at, b->len, d->at, d->len, g->at, g->len, f->at,
                              f->len);
    case DO_STEP: return by_second_step(f->at, f->len, a->at, a->len);
    case DO_FILTER: return by_second_filter(f->at, f->len);
    case DO_CHECK: return by_second_check(f->at, f->len);
    case DO_RUN: return by_second_run(f->at, f->len, n[0]);
    case DO_PLACE: return by_second_place_gauge(f->at, f->len, a->at, a->len, n[0]);
    case DO_FEED: return by_second_feed_gauges(f->at, f->len, a->at, a->len);
    default: {
        static int64_t readings[LONGEST / 8];
        memcpy(readings, b->at, b->len);
        uint64_t answer = by_second_read_gauges(a->at, a->len, readings, b->len / 8);
        memcpy(b->at, readings, b->len);
        return answer;
    }
    }
}

/* Counts the ties, the roundings apart and the damping that decide a call. The string that a call may change is all that
   it leaves; without its damping, a file is compared up to that. */
static void count_ties(const struct record *c)
{
    static struct record one, other;
    const struct string *left = &one.string[changed_by(c->kind)], *otherwise = &other.string[changed_by(c->kind)];
    long here[TIES];
    size_t N;
    one = *c;
    memset(ties, 0, sizeof ties);
    apart = 0;
    uint64_t answer = by_second(&one);
    memcpy(here, ties, sizeof here);
    if (apart && decided_apart[c->kind] < ENOUGH) {
        other = *c;
        at_once = 1;
        decided_apart[c->kind] += by_second(&other) != answer || memcmp(left->at, otherwise->at, left->len);
        at_once = 0;
    }
    if (pathpetal_number(answer) == 0 && dampings_of(c, &N) && decided_damped[c->kind] < ENOUGH)
        decided_damped[c->kind] += undamped(c, &other) != answer || memcmp(left->at, otherwise->at, 28 + 64 * N);
    for (turned = 0; turned < TIES; turned++)
        if (here[turned] && decided[turned] < ENOUGH) {
            other = *c;
            decided[turned] += by_second(&other) != answer || memcmp(left->at, otherwise->at, left->len);
        }
}

/* Whether a call with this answer is to be kept: a share for each. */
static bool share_left(const struct record *c, uint64_t answer)
{
    unsigned number = pathpetal_number(answer), stage = pathpetal_stage(answer);
    long share = number == 0 || number == PATHPETAL_MORE ? 2600 : c->kind == DO_READ ? 900 : stage == 0 ? 300 : 80;
    bool refused, stages = came_to_stages(c, answer, &refused);
    int form = form_of(c, number);
    if (form < FORMS && formed[c->kind][form] < 40)
        return true;
    if (number == PATHPETAL_BAD_DAMPING && damping_wrong(c)) {
        int out_by = outside_of(c, pathpetal_place(answer));
        if (next_to_38[c->kind][next_number(c)] < 20 || (out_by < OUTSIDES && outside[c->kind][out_by] < 20))
            return true;
    } else if (number && before_38[c->kind][number] < 20 && damping_wrong(c)) {
        return true;
    }
    if (is_of_gauges(c, number) && of_gauges[c->kind][number == PATHPETAL_OFFSETS] < share)
        return true;
    if (c->scene <= FAULTS && shown[c->scene][c->kind] < 400)
        return true;
    if (c->kind != DO_READ && comes_to_time(number) && bounded[c->kind][number != PATHPETAL_TIME_STEP] < 150 &&
        next_to_bound(c, number == PATHPETAL_TIME_STEP))
        return true;
    if (has_place(number) && placed[c->kind][number][where(c, number, pathpetal_place(answer))] < 40)
        return true;
    for (int start = 0; stages && start < STARTS; start++)
        if (starts_from(c, start) && started[c->kind][start][refused] < 100)
            return true;
    if (c->kind == DO_STEP && number == 0)
        return settled[pathpetal_count(answer)] < 250;
    return answered[c->kind][number][stage] < share;
}

/* The second program does the call at hand; the string that it may change is then what it left. */
static uint64_t offer(unsigned kind)
{
    static struct record before;
    r.kind = kind;
    before = r;
    uint64_t answer = by_second(&r);
    drawn++;
    if (share_left(&before, answer) && counted(&before, answer)) {
        put_record(out, &before);
        count_ties(&before);
    }
    return pathpetal_number(answer);
}

/* The lowest bytes of a value. */
static void put_value(uint8_t *at, int64_t value, size_t bytes)
{
    for (size_t i = 0; i < bytes; i++)
        at[i] = (uint8_t)((uint64_t)value >> 8 * i);
}

static void put_row(struct string *to, const int64_t *row, size_t len, size_t bytes)
{
    for (size_t j = 0; j < len; j++, to->len += bytes)
        put_value(to->at + to->len, row[j], bytes);
}

static void clear(void)
{
    memset(r.number, 0, sizeof r.number);
    for (int i = 0; i < STRINGS; i++)
        r.string[i].len = 0;
}

/* Depths, heights, velocities and dampings, and room for the file with anything in it. */
static void as_make(const struct call *c)
{
    clear();
    const uint64_t counts[NUMBERS] = {c->N, c->X, c->T, c->wanted};
    memcpy(r.number, counts, sizeof counts);
    for (int i = 0; i < 4; i++) {
        int row = i < 3 ? ROW_h + i : ROW_damping;
        put_row(&r.string[FIRST_ROW + i], c->row[row], c->len[row], 4);
        if (one_in(300))
            r.string[FIRST_ROW + i].len ^= (size_t)between(1, 3);
    }
    r.string[FILE_STRING].len = c->N <= CELLS ? pathpetal_length((size_t)c->N) : 600;
    if (one_in(30))
        r.string[FILE_STRING].len =
            one_in(2) ? r.string[FILE_STRING].len + (size_t)PICK(1, -1, 4, -4) : (size_t)between(0, 18000);
    for (size_t i = 0; i < r.string[FILE_STRING].len; i++)
        r.string[FILE_STRING].at[i] = (uint8_t)draw();
}

/* The file of a channel, right or not. */
static void as_file(const struct call *c)
{
    struct string *f = &r.string[FILE_STRING];
    uint64_t N = c->N;
    const int64_t head[13] = {2, (int64_t)N, (int64_t)c->X, (int64_t)c->T, (int64_t)c->accepted, (int64_t)c->wanted, 52,
                              52 + 4 * (int64_t)N, 52 + 8 * (int64_t)N, 52 + 12 * (int64_t)N, 52 + 16 * (int64_t)N,
                              28 + 40 * (int64_t)N, 28 + 64 * (int64_t)N};
    clear();
    put_row(f, head, 13, 4);
    for (int i = ROW_h; i <= ROW_V; i++)
        put_row(f, c->row[i], c->len[i], 4);
    put_row(f, c->row[ROW_Q], c->len[ROW_Q], 8);
    put_row(f, c->row[ROW_F], c->len[ROW_F], 8);
    put_row(f, c->row[ROW_damping], c->len[ROW_damping], 4);
}

/* The file at hand in edition 1: without its last offset, the others 4 less, and without dampings. */
static void to_edition_1(void)
{
    struct string *f = &r.string[FILE_STRING];
    size_t N = pathpetal_cells(f->at);
    for (size_t i = 6; i < 12; i++)
        put_value(f->at + 4 * i, (int64_t)pathpetal_word(f->at + 4 * i) - 4, 4);
    put_value(f->at, 1, 4);
    memmove(f->at + 48, f->at + 52, 64 * N - 24);
    f->len = 24 + 64 * N;
}

/* One count, offset, length or value of the file at hand at its bound or beyond it. */
static void damage(void)
{
    static const int64_t bounds[] = {20000, 20000000, 20000000, 2000000000, 1000000000000000, 100000000000, 10000};
    static const int64_t counts[] = {0, 1, 2, 7, 8, 9, 10, 11, 48, 52, 99, 100, 101, 255, 256, 257, 4999, 5000, 5001,
                                     999999, 1000000, 1000001, INT32_MAX, UINT32_MAX};
    struct string *f = &r.string[FILE_STRING];
    size_t N = f->len >= 48 ? pathpetal_cells(f->at) : 0;
    bool whole = N >= 8 && N <= CELLS && f->len == pathpetal_length(N);
    int64_t count = counts[draw() % (sizeof counts / sizeof *counts)];
    switch (draw() % (whole ? 10 : 4)) {
    case 0: f->len = f->len && one_in(2) ? f->len + (size_t)PICK(1, -1) : (size_t)between(0, (int64_t)f->len + 600); break;
    case 1: f->len = (size_t)PICK(0, 1, 4, 47, 48, 49, 51, 52, 53, 536, 571, 572, 573, 17435, 17436, 17437); break;
    case 2: case 3: case 4:
        if (f->len >= 48) {
            size_t at = 4 * (size_t)(draw() % 13);
            put_value(f->at + at, one_in(2) ? count : (int64_t)pathpetal_word(f->at + at) + PICK(1, -1, 4, -4), 4);
        }
        break;
    default: {
        size_t row = (size_t)(draw() % 7), len = row == 4 ? 3 * (N - 1) : row == 5 ? 3 * N : N;
        size_t bytes = row == 4 || row == 5 ? 8 : 4;
        size_t at = pathpetal_word(f->at + 24 + 4 * row) + bytes * (size_t)(draw() % len);
        int64_t value = one_in(6) ? PICK(INT64_MIN, INT64_MAX, INT32_MIN, INT32_MAX, 0, 1, -1) : about(bounds[row]);
        if (at + bytes <= f->len)
            put_value(f->at + at, value, bytes);
        break;
    }
    }
    if (f->len > 18000)
        f->len = 18000;
}

/* A poured row for the file at hand, or zeros where nothing is given. */
static void pour(const int64_t *s)
{
    struct string *f = &r.string[FILE_STRING], *p = &r.string[FIRST_ROW];
    size_t N = f->len >= 48 ? pathpetal_cells(f->at) : 8;
    p->len = 0;
    for (size_t j = 0; j < (N <= CELLS ? N : 8); j++, p->len += 4)
        put_value(p->at + p->len, s ? s[j] : 0, 4);
    if (one_in(25) && p->len) {
        int64_t sign = PICK(1, -1), amount = 1000000 + PICK(0, 0, 1, -1, 1000000000);
        put_value(p->at + 4 * (size_t)(draw() % (p->len / 4)), sign * amount, 4);
    }
    if (one_in(40))
        p->len = one_in(2) ? p->len + (size_t)PICK(1, 4) : (size_t)between(0, 1100);
}

/* How many steps a run may take: seldom so many that the emulated library is long at it. */
static uint64_t most(void)
{
    const struct string *f = &r.string[FILE_STRING];
    uint64_t N = f->len >= 48 ? pathpetal_cells(f->at) : 8;
    uint64_t left = f->len >= 48 ? (uint64_t)pathpetal_wanted(f->at) - pathpetal_accepted(f->at) : 0;
    uint64_t few = N > 20 ? 2 : 8;
    return left <= few ? (uint64_t)PICK(0, 1, (int64_t)left, (int64_t)left + 1, INT64_MAX, -1) : (uint64_t)between(0, (int64_t)few);
}

/* Some calls in a row on the file at hand. */
static void go_on(const struct call *c)
{
    for (int i = 0; i < 4; i++) {
        unsigned kind = one_in(4) ? DO_FILTER : one_in(4) ? DO_RUN : one_in(8) ? DO_CHECK : DO_STEP;
        for (int hits = one_in(8) ? (int)between(1, 3) : 0; hits > 0; hits--)
            damage();
        pour(c->row[ROW_s]);
        r.number[0] = kind == DO_RUN ? most() : 0;
        if (kind != DO_STEP)
            r.string[FIRST_ROW].len = 0;
        uint64_t number = offer(kind);
        if (number && number != PATHPETAL_MORE)
            break;
    }
}

/* A make, and if it is accepted calls on its file, in which as often as not other steps are said to be accepted. */
static void from_make(const struct call *c, unsigned scene)
{
    as_make(c);
    r.scene = scene;
    if (offer(DO_MAKE))
        return;
    struct string made = r.string[FILE_STRING];
    clear();
    r.string[FILE_STRING] = made;
    uint64_t from = open_start(c->wanted);
    if (scene == EDGE) /* it is out of range from that start */
        from = c->accepted;
    if (scene == EDGE || one_in(2))
        put_value(r.string[FILE_STRING].at + 16, (int64_t)from, 4);
    go_on(c);
}

static void from_file(const struct call *c, unsigned scene)
{
    as_file(c);
    r.scene = scene;
    go_on(c);
}

/* One call on the file of a channel. */
static void once(const struct call *c, unsigned scene, unsigned kind)
{
    as_file(c);
    r.scene = scene;
    if (kind == DO_STEP)
        pour(c->row[ROW_s]);
    r.number[0] = kind == DO_RUN ? most() : 0;
    offer(kind);
}

/* Shallow water in wide cells that moves in the first cell alone. */
static void thin(struct call *c)
{
    scene(c);
    lengths(c, (size_t)between(40, 60));
    c->X = (uint64_t)between(4000, 5000), c->T = (uint64_t)between(1, 100), c->wanted = 5, c->accepted = open_start(5);
    memset(c->row, 0, sizeof c->row);
    for (size_t j = 0; j < c->N; j++)
        c->row[ROW_h][j] = 1 + (one_in(9) ? 1 : 0);
    c->row[ROW_V][0] = between(-20000000, 20000000);
    any_damping(c);
}

/* A value that is out of its range, or would be in another row: in the first, the last or any place of any level. */
static void wrong_value(struct call *c)
{
    int row = (int)PICK(ROW_h, ROW_e, ROW_u, ROW_V, ROW_Q, ROW_F, ROW_damping, ROW_damping);
    int64_t sign = PICK(1, -1), size = PICK(20001, 20000001, 2000000001, 1000000000000001);
    size_t levels = row == ROW_Q || row == ROW_F ? 3 : 1, len = c->len[row] / levels, any = (size_t)(draw() % len);
    size_t at = (size_t)PICK(0, (int64_t)len - 1, (int64_t)any), level = (size_t)(draw() % levels);
    c->row[row][level * len + at] = row == ROW_damping ? pick(outsides, OUTSIDES) : sign * size;
}

/* Fluxes or accelerations out of their range in two levels or three, each at any place. */
static void wrong_levels(struct call *c)
{
    int row = (int)PICK(ROW_Q, ROW_F);
    size_t len = c->len[row] / 3, without = (size_t)(draw() % 4);
    for (size_t level = 0; level < 3; level++) {
        size_t at = (size_t)(draw() % len);
        if (level != without)
            c->row[row][level * len + at] = row == ROW_Q ? 1000000000000001 : -100000000001;
    }
}

/* A channel with some of the faults of its counts and values, and a poured row beside it with some of its own. */
static void faulty(struct call *c)
{
    size_t N = (size_t)between(8, 12), j = (size_t)between(0, (int64_t)N - 1);
    lengths(c, N);
    memset(c->row, 0, sizeof c->row);
    c->X = 500, c->T = (uint64_t)between(1, 20), c->wanted = 9, c->accepted = open_start(9);
    any_damping(c);
    bool steep = one_in(4); /* in one cell, far less deep than those beside it */
    for (size_t i = 0; i < N; i++)
        c->row[ROW_h][i] = steep ? 3000 : 1000, c->row[ROW_e][i] = between(-500, 500);
    if (steep)
        c->row[ROW_h][PICK(0, (int64_t)N - 1, (int64_t)j)] = 1000;
    if (one_in(4)) /* too long a time step */
        c->X = 100, c->T = 100;
    if (one_in(4))
        c->X = (uint64_t)PICK(9, 5001);
    if (one_in(4))
        c->accepted = (uint64_t)PICK(9, 9, 9, 10);
    for (int64_t wrong = one_in(2) ? between(1, 4) : 0; wrong > 0; wrong--)
        wrong_value(c);
    if (one_in(6))
        wrong_levels(c);
    if (one_in(3))
        c->row[ROW_e][(j + 1) % N] = -999001;
    if (one_in(3))
        c->row[ROW_h][(j + 2) % N] = 20000;
    for (int64_t wrong = one_in(3) ? between(1, 2) : 0; wrong > 0; wrong--) {
        size_t at = (size_t)(draw() % N);
        c->row[ROW_s][at] = PICK(1, -1) * 1000001;
    }
}

/* Some faults of the file at hand around its rows. */
static void faults_around(void)
{
    struct string *f = &r.string[FILE_STRING];
    if (one_in(5)) {
        int64_t offset = between(0, 1000);
        put_value(f->at + 24 + 4 * (size_t)between(0, 6), offset, 4);
    }
    if (one_in(5))
        f->len += (size_t)PICK(1, 4, 68, -1, -4, -68);
    if (one_in(12))
        put_value(f->at + 4, PICK(0, 7, 257, UINT32_MAX), 4);
    if (one_in(12))
        put_value(f->at, PICK(0, 1, 3, 258), 4);
    if (one_in(20))
        f->len = (size_t)between(0, 52);
}

/* Calls with several faults: of the channel, of the file around it, of the room for it. */
static void with_faults(struct call *c)
{
    unsigned kind = (unsigned)PICK(DO_MAKE, DO_STEP, DO_STEP, DO_STEP, DO_FILTER, DO_CHECK, DO_RUN);
    struct string *f = &r.string[FILE_STRING], *p = &r.string[FIRST_ROW];
    faulty(c);
    r.scene = FAULTS;
    if (kind == DO_MAKE) {
        if (one_in(6))
            spoil(c);
        if (one_in(3))
            c->row[ROW_u][0] = c->row[ROW_u][3] = PICK(1, -1) * 20000000, c->X = 10, c->T = 1;
        as_make(c);
        if (one_in(2))
            f->len = (f->len + (size_t)PICK(1, 4, 68, 136, 600)) % 18000;
        offer(DO_MAKE);
        return;
    }
    as_file(c);
    if (kind == DO_STEP) {
        put_row(p, c->row[ROW_s], c->N, 4);
        if (one_in(3))
            p->len += (size_t)PICK(4, -4, 1);
    }
    r.number[0] = kind == DO_RUN ? most() : 0;
    faults_around();
    offer(kind);
}

/* A file of edition 1, right but for that or with a fault of its values; or the first bytes of a file, of any edition and
   number of cells. */
static void early_form(struct call *c)
{
    struct string *f = &r.string[FILE_STRING];
    if (one_in(2)) {
        scene(c);
        for (int i = ROW_V; i <= ROW_F; i++)
            memset(c->row[i], 0, c->len[i] * sizeof(int64_t));
        if (one_in(4))
            wrong_value(c);
    } else {
        faulty(c);
    }
    as_file(c);
    if (one_in(3)) {
        to_edition_1();
        return;
    }
    if (one_in(3))
        put_value(f->at, PICK(0, 1, 1, 3), 4);
    if (one_in(3))
        put_value(f->at + 4, PICK(0, 7, 257, UINT32_MAX), 4);
    f->len = (size_t)between(46, 53);
}

static void with_early_form(struct call *c)
{
    unsigned kind = (unsigned)PICK(DO_STEP, DO_FILTER, DO_CHECK, DO_RUN);
    early_form(c);
    r.scene = EDITIONS;
    if (kind == DO_STEP)
        pour(one_in(2) ? c->row[ROW_s] : NULL);
    r.number[0] = kind == DO_RUN ? most() : 0;
    offer(kind);
}

static void one_scene(struct call *c)
{
    unsigned kind;
    switch (draw() % 30) {
    case 18: with_faults(c); break;
    case 19:
        if (moved_halves(c))
            once(c, MOVED_HALVES, (unsigned)PICK(DO_STEP, DO_STEP, DO_RUN));
        break;
    case 20: flow_halves(c); from_make(c, FLOW_HALVES); break;
    case 21: filtered_halves(c); once(c, FILTERED_HALVES, DO_FILTER); break;
    case 22:
        kind = (unsigned)PICK(DO_STEP, DO_FILTER, DO_RUN);
        if (one_in(4)) {
            just_too_rough(c, kind == DO_FILTER ? FILTER : STEP);
            once(c, EDGE, kind);
        } else if (at_the_brink(c)) {
            from_file(c, EDGE);
        }
        break;
    case 28: damped_halves(c); from_make(c, DAMPED_HALVES); break;
    case 29: if (one_in(4)) with_early_form(c); break;
    case 23: just_too_fast(c); once(c, BY_LESS, DO_STEP); break;
    case 24: just_too_large(c); from_make(c, BY_LESS); break;
    case 25: just_too_dispersive(c); from_make(c, BY_LESS); break;
    case 26: just_dry(c); once(c, BY_LESS, DO_STEP); break;
    case 27:
        at_the_bound(c);
        kind = (unsigned)PICK(DO_MAKE, DO_STEP, DO_FILTER, DO_CHECK, DO_RUN);
        if (kind == DO_MAKE)
            from_make(c, BOUND);
        else
            once(c, BOUND, kind);
        break;
    case 0:
        if (one_in(2))
            reduced_halves(c);
        else
            made_halves(c);
        from_make(c, V_HALVES);
        break;
    case 1:
        if (one_in(2))
            flux_halves(c);
        else
            while (!dispersive_halves(c))
                ;
        c->wanted = (uint64_t)between(1, 4);
        memset(c->row[ROW_s], 0, sizeof c->row[ROW_s]);
        from_make(c, FLUX_HALVES);
        break;
    case 2:
        if (one_in(3))
            while (!small_halves(c))
                ;
        else
            velocity_halves(c);
        from_file(c, U_HALVES);
        break;
    case 3: if (one_in(4)) { thin(c); from_file(c, THIN); } break;
    case 4: if (just_too_much(c)) from_make(c, EDGE); break;
    case 5: case 6: case 7: case 8: violent(c); from_make(c, VIOLENT); break;
    case 9: case 10: case 11: scene(c); any_levels(c); from_file(c, ANY); break;
    default:
        scene(c);
        if (one_in(4))
            spoil(c);
        from_make(c, DRAWN);
        break;
    }
}

/* ---- gauges ---- */

enum { CELL, FED, LAST, CROSSINGS, HIGHEST, LOWEST, LARGEST, SUM, GAUGE };
enum { RECORD = 1000000, LEAST = -19999000, MOST = 20000000, WAVE = MOST - LEAST };

/* A channel in which any height may stand in any cell. */
static void deep_channel(struct call *c)
{
    size_t N = one_in(60) ? (size_t)between(13, 256) : (size_t)between(8, 12);
    lengths(c, N);
    memset(c->row, 0, sizeof c->row);
    c->X = 5000, c->T = (uint64_t)between(1, 100), c->wanted = 9, c->accepted = (uint64_t)between(0, 9);
    for (size_t j = 0; j < N; j++)
        c->row[ROW_h][j] = 20000;
    any_damping(c);
}

static void any_heights(struct call *c)
{
    for (size_t j = 0; j < c->N; j++) {
        bool far = one_in(2);
        c->row[ROW_e][j] = far ? between(LEAST, MOST) : between(-2, 2);
    }
}

/* A gauge within its bounds, whether a record gives it or not. */
static void any_gauge(int64_t *g, const struct call *c)
{
    g[CELL] = one_in(30) ? between(1, 256) : between(1, (int64_t)c->N);
    g[FED] = one_in(20) ? RECORD - PICK(0, 0, 1) : one_in(2) ? between(0, 9) : between(0, RECORD - 1);
    g[LAST] = g[FED] == 0 ? 0 : one_in(2) ? between(-2, 2) : between(LEAST, MOST);
    g[CROSSINGS] = between(0, (g[FED] - (g[LAST] < 0)) / 2);
    g[HIGHEST] = one_in(2) ? between(-2, 2) : between(LEAST, MOST);
    g[LOWEST] = between(LEAST, g[HIGHEST]);
    int64_t most = g[CROSSINGS] > 0 ? WAVE * (g[CROSSINGS] - 1) : 0;
    g[SUM] = one_in(3) ? most : between(0, most);
    g[LARGEST] = between(0, g[SUM] < WAVE ? g[SUM] : WAVE);
}

static void put_gauge(uint8_t *gauges, size_t place, const int64_t *g)
{
    for (size_t i = 0; i < GAUGE; i++)
        put_value(gauges + 8 * (GAUGE * place + i), g[i], 8);
}

/* Gauges in some of the places, or in all. */
static void any_gauges(struct string *to, const struct call *c)
{
    int64_t share = PICK(2, 4, 9, 100);
    to->len = PATHPETAL_GAUGES_LENGTH;
    memset(to->at, 0, 2 * PATHPETAL_GAUGES_LENGTH);
    for (size_t i = 0; i < GAUGES; i++) {
        int64_t g[GAUGE];
        any_gauge(g, c);
        if (share == 100 || !one_in((uint64_t)share))
            put_gauge(to->at, i, g);
    }
}

/* One number of a gauge at an end of its range as the others leave it, just outside, or far away. */
static void at_an_end(struct string *to, const struct call *c)
{
    int64_t g[GAUGE];
    any_gauge(g, c);
    int64_t below = g[LAST] < 0, waves = g[CROSSINGS] > 0 ? g[CROSSINGS] - 1 : 0;
    const int64_t low[GAUGE] = {1, 2 * g[CROSSINGS] + below, LEAST, 0, g[LOWEST], LEAST, 0, g[LARGEST]};
    const int64_t high[GAUGE] = {256, RECORD, MOST, (g[FED] - below) / 2, MOST, g[HIGHEST], g[SUM] < WAVE ? g[SUM] : WAVE,
                                 WAVE * waves};
    size_t i = (size_t)(draw() % GAUGE), place = (size_t)(draw() % GAUGES);
    int64_t far = PICK(INT64_MIN, INT64_MAX, INT64_MAX / 2 + 1, INT64_MAX / 2 + 2, INT64_C(1) << 32, -1, 0);
    int64_t end = one_in(2) ? low[i] - PICK(0, 1) : high[i] + PICK(0, 1);
    g[i] = one_in(4) ? far : end;
    put_gauge(to->at, place, g);
}

/* The gauges at hand are read, with room for the readings or for another number of them. */
static void offer_read(const struct string *gauges)
{
    struct string *readings = &r.string[READINGS_STRING];
    unsigned scene = r.scene;
    clear();
    r.scene = scene;
    r.string[GAUGES_STRING] = *gauges;
    readings->len = 8 * (size_t)(one_in(5) ? PICK(0, 1, 47, 49, 96) : PATHPETAL_READINGS);
    for (size_t i = 0; i < readings->len; i++)
        readings->at[i] = (uint8_t)draw();
    offer(DO_READ);
}

/* A file and gauges to one of the calls; gauges is then what the call left. */
static void offer_gauges(const struct call *c, struct string *gauges, unsigned kind)
{
    if (kind == DO_READ) {
        offer_read(gauges);
        return;
    }
    r.string[GAUGES_STRING] = *gauges;
    r.number[0] = kind == DO_FEED ? 0 : one_in(8) ? (uint64_t)PICK(0, (int64_t)c->N + 1, 257, -1, (INT64_C(1) << 32) + 1)
                                                  : (uint64_t)between(1, (int64_t)c->N);
    offer(kind);
    *gauges = r.string[GAUGES_STRING];
}

static void gauge_scene(struct call *c)
{
    static struct string gauges;
    unsigned kind = (unsigned)PICK(DO_PLACE, DO_FEED, DO_READ);
    switch (draw() % 6) {
    case 0:
        deep_channel(c);
        memset(gauges.at, 0, gauges.len = PATHPETAL_GAUGES_LENGTH);
        for (int i = 0; i < 12; i++) {
            any_heights(c);
            as_file(c);
            r.scene = WATCHED;
            kind = (unsigned)PICK(DO_PLACE, DO_FEED, DO_FEED, DO_FEED, DO_READ);
            offer_gauges(c, &gauges, kind);
        }
        break;
    case 1:
        deep_channel(c);
        any_heights(c);
        as_file(c);
        r.scene = ENDS;
        any_gauges(&gauges, c);
        if (!one_in(3))
            at_an_end(&gauges, c);
        offer_gauges(c, &gauges, kind);
        break;
    case 2:
        at_the_bound(c);
        as_file(c);
        r.scene = BOUND;
        any_gauges(&gauges, c);
        offer_gauges(c, &gauges, (unsigned)PICK(DO_PLACE, DO_FEED));
        break;
    case 3:
        early_form(c);
        r.scene = EDITIONS;
        any_gauges(&gauges, c);
        offer_gauges(c, &gauges, (unsigned)PICK(DO_PLACE, DO_FEED));
        break;
    default:
        faulty(c);
        as_file(c);
        r.scene = GAUGE_FAULTS;
        any_gauges(&gauges, c);
        if (one_in(2))
            at_an_end(&gauges, c);
        if (one_in(4))
            gauges.len = (size_t)PICK(0, 64, 511, 513, 1024);
        if (one_in(2))
            faults_around();
        offer_gauges(c, &gauges, kind);
        break;
    }
}

static int write_calls(const char *to)
{
    static struct call c;
    out = opened(to, "wb");
    for (size_t i = 0; i < sizeof c.row / sizeof(int64_t); i++)
        ((int64_t *)c.row)[i] = (int64_t)draw();
    for (size_t i = 0; i < LATE_BRINKS; i++)
        if (late_brink(&c, i))
            once(&c, EDGE, DO_STEP);
    while (missing(false, DO_PLACE) && drawn < MOST_DRAWN)
        one_scene(&c);
    while (missing(false, DO_KINDS) && drawn < MOST_DRAWN)
        gauge_scene(&c);
    if (fclose(out)) {
        perror(to);
        return 2;
    }
    printf("%ld calls drawn\n", drawn);
    return missing(true, DO_KINDS) != 0;
}

static void print_damping(void)
{
    printf("calls, up to %d, that two roundings of F decide, and that the damping does:", ENOUGH);
    for (unsigned kind = 0; kind <= DO_RUN; kind++)
        if (kind != DO_CHECK)
            printf(" %s %ld %ld", names[kind], decided_apart[kind], decided_damped[kind]);
    printf("\n");
    for (int shape = 0; shape < SHAPES; shape++) {
        printf("damping %s:", shapes[shape]);
        for (unsigned kind = 0; kind < DO_READ; kind++)
            printf(" %s %ld", names[kind], shaped[kind][shape]);
        printf("\n");
    }
    for (unsigned kind = 0; kind < DO_READ; kind++) {
        printf("%s told 38 of -1, 10,001 and the furthest:", names[kind]);
        for (int i = 0; i < OUTSIDES; i++)
            printf(" %ld", outside[kind][i]);
        printf("; before");
        for (unsigned number = 0; number < REASONS; number++)
            if (next_to_38[kind][number])
                printf(" %u: %ld", number, next_to_38[kind][number]);
        printf("; after");
        for (unsigned number = 0; number < REASONS; number++)
            if (before_38[kind][number])
                printf(" %u: %ld", number, before_38[kind][number]);
        printf("\n");
    }
    for (int form = 0; form < FORMS; form++) {
        printf("%s:", forms[form]);
        for (unsigned kind = DO_STEP; kind < DO_READ; kind++)
            printf(" %s %ld", names[kind], formed[kind][form]);
        printf("\n");
    }
}

static int table(const char *calls, const char *answers)
{
    static struct reply reply;
    FILE *from = opened(calls, "rb"), *of = opened(answers, "rb");
    long stray = 0;
    while (more(from)) {
        get_record(from, &r);
        get_reply(of, &reply);
        if (!counted(&r, reply.answer) || !reply.kept)
            stray++;
        count_ties(&r);
    }
    for (unsigned kind = 0; kind < DO_KINDS; kind++) {
        printf("%-7s %6ld calls", names[kind], total[kind]);
        for (unsigned number = 0; number < REASONS; number++) {
            long n = 0;
            for (unsigned stage = 0; stage < STAGES; stage++)
                n += answered[kind][number][stage];
            if (n)
                printf(", %u: %ld", number, n);
        }
        printf("\n");
    }
    for (unsigned number = 1; number < REASONS; number++) {
        bool any = false;
        for (unsigned stage = 1; stage < STAGES; stage++)
            any |= answered[DO_STEP][number][stage] != 0;
        if (!any)
            continue;
        printf("step refused %2u at stage 0 to 10:", number);
        for (unsigned stage = 0; stage < STAGES; stage++)
            printf(" %ld", answered[DO_STEP][number][stage]);
        printf("\n");
    }
    printf("step settled at correction 1 to 10:");
    for (int k = 1; k <= 10; k++)
        printf(" %ld", settled[k]);
    printf("\n");
    printf("steps and runs, by the accepted steps they start from: took a step, refused at a stage\n");
    for (unsigned kind = DO_STEP; kind <= DO_RUN; kind += DO_RUN - DO_STEP)
        for (int start = 0; start < STARTS; start++)
            printf("%s from %s: %ld %ld\n", names[kind], starts[start], started[kind][start][0],
                   started[kind][start][1]);
    printf("places of each refusal that has one, over all calls: the first, between, the last\n");
    for (unsigned number = 0; number < REASONS; number++) {
        long of[WHERES] = {0};
        for (unsigned kind = 0; kind < DO_KINDS; kind++)
            for (unsigned i = 0; i < WHERES; i++)
                of[i] += placed[kind][number][i];
        if (has_place(number))
            printf("%2u: %ld %ld %ld\n", number, of[AT_FIRST], of[BETWEEN], of[AT_LAST]);
    }
    printf("35 and 36 before a lower place in an older level: %ld %ld\n", older_lower[0], older_lower[1]);
    printf("35 and 36 of a step or a run, for a level of weight 0: %ld %ld\n", unweighed[0], unweighed[1]);
    printf("time steps next to their bounds, refused and let through:");
    for (unsigned kind = 0; kind < DO_READ; kind++)
        printf(" %s %ld %ld", names[kind], bounded[kind][0], bounded[kind][1]);
    printf("\n12 and 14 of the gauges and not of the file:");
    for (unsigned kind = DO_PLACE; kind < DO_KINDS; kind++)
        printf(" %s %ld %ld", names[kind], of_gauges[kind][0], of_gauges[kind][1]);
    printf("\ngauges placed as number 1 to 8:");
    for (int i = 1; i <= GAUGES; i++)
        printf(" %ld", got[i]);
    printf("\n");
    printf("calls, up to %d, that a half decides: above zero, even and odd; below zero, even and odd\n", ENOUGH);
    for (int place = 0; place < PLACES; place++) {
        printf("%s:", rounding[place]);
        for (int side = 0; side < 4; side++)
            printf(" %ld", decided[tie_of(place, IS_HALF, side / 2, side % 2)]);
        printf("\n");
    }
    print_damping();
    for (unsigned i = 0; i < SCENES; i++) {
        printf("%s:", scenes[i]);
        for (unsigned kind = 0; kind < DO_KINDS; kind++)
            if (shown[i][kind])
                printf(" %s %ld", names[kind], shown[i][kind]);
        printf("\n");
    }
    if (stray)
        printf("%ld calls answered what none can, or touched a byte that is not theirs\n", stray);
    return missing(true, DO_KINDS) || stray;
}

/* The calls that some of the others answer differently; at most five of them are told. */
static int differ(const char *calls, const char *answers, char **others, int n)
{
    static struct reply a, b;
    FILE *from = opened(calls, "rb"), *one = opened(answers, "rb"), *other[8];
    long place = 0, differing = 0, told = 0;
    for (int i = 0; i < n; i++)
        other[i] = opened(others[i], "rb");
    for (; more(from); place++) {
        bool same = true;
        get_record(from, &r);
        get_reply(one, &a);
        for (int i = 0; i < n; i++) {
            get_reply(other[i], &b);
            bool bytes = a.left.len == b.left.len && !memcmp(a.left.at, b.left.at, a.left.len);
            if (a.answer == b.answer && a.kept == b.kept && bytes)
                continue;
            same = false;
            if (told++ < 5)
                printf("%s, call %ld, %s, %s: answers %" PRIu64 ", not %" PRIu64 "%s\n", others[i], place, names[r.kind],
                       scenes[r.scene], b.answer, a.answer, bytes ? "" : ", other bytes");
        }
        differing += !same;
    }
    printf("%ld passed, %ld failed\n", place - differing, differing);
    return differing != 0;
}

int main(int argc, char **argv)
{
    if (argc == 3 && !strcmp(argv[1], "write"))
        return write_calls(argv[2]);
    if (argc == 4 && !strcmp(argv[1], "table"))
        return table(argv[2], argv[3]);
    if (argc >= 5 && argc <= 12 && !strcmp(argv[1], "differ"))
        return differ(argv[2], argv[3], argv + 4, argc - 4);
    fputs("usage: calls write CALLS | table CALLS ANSWERS | differ CALLS ANSWERS OTHERS..\n", stderr);
    return 2;
}
