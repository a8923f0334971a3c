#include "refusal.h"
#include "damping.h"

#include <stdio.h>

/* By their numbers, between which some are not used. */
static const struct {
    const char *words, *mend;
} refusals[] = {
    [PATHPETAL_SHAPE] = {"it has not 8 to 256 cells, or a row beside it has not one entry for each cell",
                         "give a row for each of 8 to 256 cells"},
    [PATHPETAL_COUNTS] = {"the cell width is not 10 to 5,000 mm, the time step not 1 to 100 ms, the steps wanted not 1 "
                          "to 1,000,000, or more steps are accepted than wanted",
                          "choose a width, a time step and a count of steps within these bounds"},
    [PATHPETAL_DEPTH] = {"less than 1 mm of water is left", "make that cell deeper, or the water in it higher"},
    [PATHPETAL_DOMINANCE] = {"the bottom is too steep for cells this narrow", "take wider cells, or smooth the bottom"},
    [PATHPETAL_PIVOT] = {"the velocities cannot be worked out", "keep the file and tell who looks after the program"},
    [PATHPETAL_SPEED] = {"the water became faster than 20 m/s", "take lower velocities"},
    [PATHPETAL_HEIGHT] = {"the water rose or fell by more than 20 m", "take a shorter time step, wider cells, a filter "
                                                                      "pass more often, or pour less"},
    [PATHPETAL_FLUX] = {"more water goes through a face than the file can hold",
                        "take lower velocities, wider cells or a smoother bottom"},
    [PATHPETAL_UNSETTLED] = {"ten corrections did not settle", "take a shorter time step, wider cells or a filter pass "
                                                               "more often"},
    [PATHPETAL_COMPLETE] = {"all wanted steps are already taken", "nothing is left to do"},
    [PATHPETAL_LENGTH] = {"the file is cut short, too long, or no channel file", "take a fresh copy of the file"},
    [PATHPETAL_EDITION] = {"it is not a channel file of edition 2", "name a file that pathpetal make has written"},
    [PATHPETAL_OFFSETS] = {"the file's rows do not stand where they must", "take a fresh copy of the file"},
    [PATHPETAL_BUFFER] = {"the room for the file has not its length", "tell who looks after the program"},
    [PATHPETAL_NINTH_GAUGE] = {"eight gauges are placed already", "tell who looks after the program"},
    [PATHPETAL_OFF_CHANNEL] = {"a gauge's cell is not in the channel", "mark cells that the channel has"},
    [PATHPETAL_TIME_STEP] = {"the time step is too long for the deepest cell", "take a shorter time step, or wider cells"},
    [PATHPETAL_GAUGE_FULL] = {"a gauge holds 1,000,000 heights already", "begin a record under another name"},
    [PATHPETAL_BAD_DEPTH] = {"a depth is 1 to 20,000 mm",
                             "correct that depth; it may have been typed in another unit than mm"},
    [PATHPETAL_BAD_HEIGHT] = {"a height is -20,000,000 to 20,000,000 um",
                              "correct that height; it may have been typed in another unit than um"},
    [PATHPETAL_BAD_VELOCITY] = {"a velocity is -20,000,000 to 20,000,000 um/s",
                                "correct that velocity; it may have been typed in another unit than um/s"},
    [PATHPETAL_BAD_REDUCED] = {"a reduced velocity is -2,000,000,000 to 2,000,000,000 um/s",
                               "take a fresh copy of the file"},
    [PATHPETAL_BAD_FLUX] = {"a flux is -10^15 to 10^15 um2/s", "take a fresh copy of the file"},
    [PATHPETAL_BAD_ACCELERATION] = {"an acceleration is -10^11 to 10^11 um/s2", "take a fresh copy of the file"},
    [PATHPETAL_BAD_POURED] = {"a poured amount is -1,000,000 to 1,000,000 um", "pour in or take out less in one step"},
    [PATHPETAL_BAD_DAMPING] = {"a damping is 0 to 10,000 thousandths per second",
                               "correct that damping; it may have been typed in another unit than thousandths per "
                               "second"},
};

static bool has_words(unsigned number)
{
    return number < sizeof refusals / sizeof refusals[0] && refusals[number].words;
}

const char *refusal_words(unsigned number)
{
    return has_words(number) ? refusals[number].words : "this program has no words for that number";
}

const char *refusal_mend(unsigned number)
{
    return has_words(number) ? refusals[number].mend : "look the number up in the list that came with the library";
}

struct rows rows_of(const uint8_t *file)
{
    size_t cells = pathpetal_cells(file);
    const uint8_t *first = file + 52;
    return (struct rows){.width = pathpetal_width_mm(file),
                         .step = pathpetal_step_ms(file),
                         .cells = cells,
                         .depths = first,
                         .heights = first + 4 * cells,
                         .velocities = first + 8 * cells,
                         .reduced = first + 12 * cells,
                         .dampings = file + pathpetal_length(cells) - 4 * cells};
}

size_t deepest_cell(const struct rows *rows)
{
    size_t deepest = 0;
    for (size_t cell = 1; cell < rows->cells; cell++)
        if (pathpetal_signed(rows->depths + 4 * cell) > pathpetal_signed(rows->depths + 4 * deepest))
            deepest = cell;
    return deepest;
}

struct shown refusal_place(uint64_t answer)
{
    struct shown out = {{0}};
    unsigned place = pathpetal_place(answer);
    if (place > 0 && pathpetal_number(answer) == PATHPETAL_BAD_FLUX)
        snprintf(out.text, sizeof out.text, ", at face %u, between cells %u and %u", place, place, place + 1);
    else if (place > 0)
        snprintf(out.text, sizeof out.text, ", in cell %u", place);
    return out;
}

static struct grouped at_cell(const uint8_t *row, size_t cell)
{
    return grouped(pathpetal_signed(row + 4 * cell));
}

/* ": 1,000 mm beside 1,942 and 1,950 mm", of a cell and its one or two neighbours. */
static struct standing beside_words(const struct rows *rows, size_t cell)
{
    struct standing out;
    const uint8_t *depths = rows->depths;
    size_t last = rows->cells - 1;
    if (cell > 0 && cell < last)
        snprintf(out.text, sizeof out.text, ": %s mm beside %s and %s mm", at_cell(depths, cell).text,
                 at_cell(depths, cell - 1).text, at_cell(depths, cell + 1).text);
    else
        snprintf(out.text, sizeof out.text, ": %s mm beside %s mm", at_cell(depths, cell).text,
                 at_cell(depths, cell > 0 ? last - 1 : 1).text);
    return out;
}

struct standing refusal_found(uint64_t answer, const struct rows *rows)
{
    struct standing out = {{0}};
    const uint8_t *row = NULL;
    unsigned place = pathpetal_place(answer);
    size_t cell = place - 1;
    if (pathpetal_number(answer) == PATHPETAL_TIME_STEP)
        snprintf(out.text, sizeof out.text, ": %s ms, with cells of %s mm and a depth of %s mm in cell %zu",
                 GROUPED((int64_t)rows->step), GROUPED((int64_t)rows->width),
                 at_cell(rows->depths, deepest_cell(rows)).text, deepest_cell(rows) + 1);
    if (place == 0)
        return out;
    switch (pathpetal_number(answer)) {
    case PATHPETAL_BAD_DEPTH: row = rows->depths; break;
    case PATHPETAL_BAD_HEIGHT: row = rows->heights; break;
    case PATHPETAL_BAD_VELOCITY: row = rows->velocities; break;
    case PATHPETAL_BAD_REDUCED: row = rows->reduced; break;
    case PATHPETAL_BAD_DAMPING: row = rows->dampings; break;
    case PATHPETAL_BAD_FLUX:
    case PATHPETAL_BAD_ACCELERATION:
        snprintf(out.text, sizeof out.text, ", but not in all three levels here");
        break;
    case PATHPETAL_DEPTH:
        snprintf(out.text, sizeof out.text, ": a depth of %s mm, a height of %s um",
                 at_cell(rows->depths, cell).text, at_cell(rows->heights, cell).text);
        break;
    case PATHPETAL_DOMINANCE: return beside_words(rows, cell);
    default: break;
    }
    if (row)
        snprintf(out.text, sizeof out.text, ", not %s", at_cell(row, cell).text);
    return out;
}

/* A channel's deepest depth in mm, its cell width in mm and its time step in ms. */
struct measures {
    uint64_t depth, width, step;
};

static struct measures measures_in(const struct rows *rows)
{
    uint64_t depth = (uint64_t)pathpetal_signed(rows->depths + 4 * deepest_cell(rows));
    return (struct measures){depth, rows->width, rows->step};
}

/* Whether the square of the Courant number, sqrt(9.81 depth) step / width in m and s, is at most so many millionths: no
   root is rounded. */
static bool square_within(struct measures of, uint64_t millionths)
{
    return 9810 * of.depth * of.step * of.step <= millionths * of.width * of.width;
}

/* Whether the library allows the time step. */
static bool is_allowed(struct measures of)
{
    return square_within(of, 6000000);
}

enum { COURANT_ADVISED = 350 }; /* thousandths, by docs/CHOOSING.md */

/* Whether the Courant number is at most so many thousandths. */
static bool courant_within(struct measures of, uint64_t thousandths)
{
    return square_within(of, thousandths * thousandths);
}

/* The longest time step that is advised; 0 where 1 ms is too long. */
static uint64_t advised_step(struct measures of)
{
    of.step = STEP_MOST;
    while (of.step > 0 && !courant_within(of, COURANT_ADVISED))
        of.step--;
    return of.step;
}

/* The narrowest cells that are advised with a time step of 1 ms. */
static uint64_t calm_width(struct measures of)
{
    of.step = 1;
    while (!courant_within(of, COURANT_ADVISED))
        of.width++;
    return of.width;
}

/* 1 ms is allowed in every channel, and so are cells of 5,000 mm. */
void say_time_step(const struct rows *rows, bool survey)
{
    struct measures of = measures_in(rows), wider = of;
    uint64_t advised = advised_step(of);
    while (!is_allowed(of))
        of.step--;
    while (!is_allowed(wider))
        wider.width++;
    say("to mend: %s a time step of at most %s ms, the longest that is allowed here, or cells of at least %s mm%s",
        survey ? "take" : "take a fresh copy of the file, if it is damaged; or make it again from its survey, with",
        GROUPED((int64_t)of.step), GROUPED((int64_t)wider.width),
        survey ? "; or correct that depth, if it is wrong" : "");
    if (advised > 0)
        say("waves may still grow with what is allowed: advised is at most %s ms with cells of %s mm (a Courant number of "
            "0.35)",
            GROUPED((int64_t)advised), GROUPED((int64_t)of.width));
    else
        say("waves may still grow with what is allowed: advised are cells of at least %s mm, with 1 ms (a Courant number "
            "of 0.35)",
            GROUPED((int64_t)calm_width(of)));
}

/* Of a Courant number above what is advised: "the Courant number is 1.57, and 0.35 is advised". */
static struct standing courant_words(struct measures of)
{
    struct standing out;
    unsigned hundredths = COURANT_ADVISED / 10; /* the nearest */
    while (!courant_within(of, 10 * hundredths + 5))
        hundredths++;
    if (hundredths == COURANT_ADVISED / 10)
        snprintf(out.text, sizeof out.text, "the Courant number is just above the 0.35 that is advised");
    else
        snprintf(out.text, sizeof out.text, "the Courant number is %u.%02u, and 0.35 is advised", hundredths / 100,
                 hundredths % 100);
    return out;
}

/* The longest time step that is advised, or with 1 ms the narrowest cells. */
static void say_courant(struct measures of)
{
    struct standing why = courant_words(of);
    uint64_t advised = advised_step(of);
    if (advised > 0) {
        say("to mend: take a shorter time step: at most %s ms for cells of %s mm and a depth of %s mm (%s)",
            GROUPED((int64_t)advised), GROUPED((int64_t)of.width), GROUPED((int64_t)of.depth), why.text);
        return;
    }
    say("to mend: take wider cells: at least %s mm for a time step of 1 ms and a depth of %s mm (%s)",
        GROUPED((int64_t)calm_width(of)), GROUPED((int64_t)of.depth), why.text);
}

/* Whether the deepest water is deeper than 10 cells are wide, beyond which steps may not settle. */
static bool is_too_deep(struct measures of)
{
    return of.depth > 10 * of.width;
}

static void say_wider(struct measures of, const char *before)
{
    say("%stake wider cells: at least %s mm for a depth of %s mm (at most 10 of depth over width is advised)", before,
        GROUPED((int64_t)(of.depth + 9) / 10), GROUPED((int64_t)of.depth));
}

enum { DAMPED_MOST = 900000 }; /* thousandths per second times ms, by docs/CHOOSING.md */

/* Whether the greatest damping times the time step is beyond what is advised, where the first step of water that moves
   there may not settle. */
static bool is_damped_hard(const uint8_t *file)
{
    return pathpetal_damping(file, most_damped(file)) * (int64_t)pathpetal_step_ms(file) >= DAMPED_MOST;
}

static void say_less_damping(const uint8_t *file, const char *before)
{
    size_t cell = most_damped(file);
    int64_t damping = pathpetal_damping(file, cell);
    say("%stake a shorter time step: at most %s ms for the damping of %s thousandths per second in cell %zu; or less "
        "damping (their product is to stay below %s)", before, GROUPED((DAMPED_MOST - 1) / damping), GROUPED(damping),
        cell + 1, GROUPED(DAMPED_MOST));
}

/* What to mend in a run whose time step is not too long for the depth. */
static void say_calm_mend(const uint8_t *file, struct measures of, uint64_t answer, const char *before)
{
    const char *often = "a filter pass more often (every 20 steps)";
    unsigned number = pathpetal_number(answer);
    switch (number) {
    case PATHPETAL_DEPTH:
        say("%smake the water deeper in cell %u, which fell dry, or the waves lower, or take %s or narrower cells",
            before, pathpetal_place(answer), often);
        break;
    case PATHPETAL_SPEED: say("%stake lower velocities, lower waves or %s", before, often); break;
    case PATHPETAL_HEIGHT: say("%stake lower waves, wider cells or %s", before, often); break;
    case PATHPETAL_UNSETTLED:
        if (is_damped_hard(file))
            say_less_damping(file, before);
        else if (is_too_deep(of))
            say_wider(of, before);
        else
            say("%stake half the time step, wider cells or %s", before, often);
        break;
    default: say("%s%s", before, refusal_mend(number));
    }
}

void say_mend(const uint8_t *file, uint64_t answer, bool poured)
{
    struct rows rows = rows_of(file);
    struct measures of = measures_in(&rows);
    unsigned number = pathpetal_number(answer);
    const char *pour_less = refusal_mend(PATHPETAL_BAD_POURED);
    /* the refusals that too long a time step leads to */
    bool of_water = number == PATHPETAL_DEPTH || (number >= PATHPETAL_SPEED && number <= PATHPETAL_UNSETTLED);
    poured = poured && of_water;
    if (of_water && !courant_within(of, COURANT_ADVISED)) {
        say_courant(of);
        if (number == PATHPETAL_UNSETTLED && is_too_deep(of))
            say_wider(of, "or better ");
        if (poured)
            say("or %s", pour_less);
        if (number == PATHPETAL_DEPTH)
            say("or make the water deeper in cell %u, which fell dry", pathpetal_place(answer));
        return;
    }
    if (poured)
        say("to mend: %s", pour_less);
    say_calm_mend(file, of, answer, poured ? "or " : "to mend: ");
}

struct shown stage_words(unsigned stage)
{
    struct shown out;
    if (stage == 0)
        snprintf(out.text, sizeof out.text, "in its prediction or before it");
    else
        snprintf(out.text, sizeof out.text, "in its correction %u", stage);
    return out;
}
