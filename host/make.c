/* make.c: from a survey to the file of a new channel. */
#include "commands.h"
#include "csv.h"
#include "options.h"
#include "refusal.h"
#include "text.h"
#include "whole.h"

#include <stdlib.h>
#include <string.h>

static const char usage[] = "pathpetal make SURVEY.csv -o START --width-mm MM --step-ms MS --steps N [--replace]";

/* A survey: rows of numbers as the library takes them, and the line on which each cell stands. */
struct survey {
    size_t cells;
    uint8_t depths[4 * CELLS_MOST], heights[4 * CELLS_MOST], velocities[4 * CELLS_MOST], dampings[4 * CELLS_MOST];
    unsigned long line[CELLS_MOST];
};

/* Where a survey's columns stand; -1 for one that is not there. */
struct columns {
    long cell, depth, height, velocity, damping;
};

static bool begins(const char *text, const char *with)
{
    for (; *with; text++, with++)
        if (*text != *with && *text != *with - 'a' + 'A')
            return false;
    return true;
}

static bool ends(const char *text, const char *with)
{
    size_t length = strlen(text), tail = strlen(with);
    return length >= tail && strcmp(text + length - tail, with) == 0;
}

/* Whether a column is one of these. */
static bool is_used(const struct columns *columns, long at)
{
    return at == columns->cell || at == columns->depth || at == columns->height || at == columns->velocity ||
           at == columns->damping;
}

/* Finds the columns by name. A name that is nearly one of them is refused and not passed over: its numbers would be
   in another unit, or be missed. */
static enum status find_columns(const struct csv *csv, struct columns *columns)
{
    *columns = (struct columns){.cell = csv_column(csv, "cell"),
                                .depth = csv_column(csv, "depth_mm"),
                                .height = csv_column(csv, "height_um"),
                                .velocity = csv_column(csv, "velocity_um_s"),
                                .damping = csv_column(csv, "damping_thousandths_s")};
    for (size_t k = 0; k < csv->columns; k++) {
        const char *name = csv->names[k];
        long at = (long)k;
        if (is_used(columns, at))
            continue;
        if (begins(name, "depth") || begins(name, "height") || begins(name, "velocity") || begins(name, "damp") ||
            ends(name, "_um") || ends(name, "_um_s") || ends(name, "_thousandths_s"))
            return csv_wrong(csv, at, "is not a name of a survey; the names are depth_mm, height_um, velocity_um_s, "
                                      "damping_thousandths_s and cell, in these units");
    }
    if (columns->depth < 0)
        return csv_wrong(csv, -1, "has no column depth_mm");
    return STATUS_DONE;
}

/* Puts a field into a row, if it is a whole number that fits there. Its range is for the library to tell, by the
   refusal that is named. */
static enum status take_number(const struct csv *csv, long column, unsigned refusal, uint8_t *at)
{
    int64_t number = 0;
    enum status status;
    if (read_number(csv->fields[column], INT32_MIN, INT32_MAX, &number) == NUMBER_OUTSIDE)
        return csv_wrong(csv, column, "%s, not %s", refusal_words(refusal), SHOWN(csv->fields[column]));
    status = csv_number(csv, column, INT32_MIN, INT32_MAX, &number);
    put_signed(at, number);
    return status;
}

/* The same of a number that may be left out: an empty field is 0. */
static enum status take_optional(const struct csv *csv, long column, unsigned refusal, uint8_t *at)
{
    put_signed(at, 0);
    if (column < 0 || csv->fields[column][0] == '\0')
        return STATUS_DONE;
    return take_number(csv, column, refusal, at);
}

static enum status take_row(const struct csv *csv, const struct columns *columns, struct survey *survey)
{
    size_t cell = survey->cells;
    int64_t numbered = 0;
    enum status status;
    if (cell == CELLS_MOST)
        return csv_wrong(csv, -1, "is row %zu; a channel has 8 to 256 cells: take wider cells, fewer rows", cell + 1);
    if (columns->cell >= 0) {
        status = csv_number(csv, columns->cell, 1, CELLS_MOST, &numbered);
        if (status != STATUS_DONE)
            return status;
        if (numbered != (int64_t)cell + 1)
            return csv_wrong(csv, columns->cell, "is %s where cell %zu must follow; rows are lost or out of order",
                             GROUPED(numbered), cell + 1);
    }
    survey->line[cell] = csv->line;
    status = take_number(csv, columns->depth, PATHPETAL_BAD_DEPTH, survey->depths + 4 * cell);
    if (status == STATUS_DONE)
        status = take_optional(csv, columns->height, PATHPETAL_BAD_HEIGHT, survey->heights + 4 * cell);
    if (status == STATUS_DONE)
        status = take_optional(csv, columns->velocity, PATHPETAL_BAD_VELOCITY, survey->velocities + 4 * cell);
    if (status == STATUS_DONE)
        status = take_optional(csv, columns->damping, PATHPETAL_BAD_DAMPING, survey->dampings + 4 * cell);
    if (status == STATUS_DONE)
        survey->cells++;
    return status;
}

static enum status read_survey(struct csv *csv, const char *path, struct survey *survey, struct columns *columns)
{
    bool more = true;
    enum status status = csv_open(csv, path);
    if (status == STATUS_DONE)
        status = find_columns(csv, columns);
    while (status == STATUS_DONE) {
        status = csv_row(csv, &more);
        if (status != STATUS_DONE || !more)
            break;
        status = take_row(csv, columns, survey);
    }
    if (status == STATUS_DONE && survey->cells < CELLS_LEAST) {
        say("%s: has %zu row%s; a channel has 8 to 256 cells: take narrower cells, more rows", path, survey->cells,
            survey->cells == 1 ? "" : "s");
        status = STATUS_REFUSED;
    }
    return status;
}

/* The column to look at for a refusal. */
static long column_of(const struct columns *columns, unsigned number)
{
    switch (number) {
    case PATHPETAL_BAD_VELOCITY: return columns->velocity;
    case PATHPETAL_BAD_DAMPING: return columns->damping;
    case PATHPETAL_BAD_HEIGHT:
    case PATHPETAL_DEPTH: return columns->height;
    default: return columns->depth;
    }
}

/* Says a refusal of the library, with the line and column to look at where it names a cell, or the line of the deepest. */
static void say_refusal(const struct csv *csv, const struct columns *columns, const struct survey *survey,
                        const int64_t counts[3], uint64_t answer)
{
    struct rows rows = {.width = (uint64_t)counts[0],
                        .step = (uint64_t)counts[1],
                        .cells = survey->cells,
                        .depths = survey->depths,
                        .heights = survey->heights,
                        .velocities = survey->velocities,
                        .dampings = survey->dampings};
    unsigned number = pathpetal_number(answer), place = pathpetal_place(answer);
    if (number == PATHPETAL_TIME_STEP)
        say("%s: refused, number %u: %s%s, on line %lu", csv->path, number, refusal_words(number),
            refusal_found(answer, &rows).text, survey->line[deepest_cell(&rows)]);
    else if (place > 0)
        csv_wrong_on(csv, survey->line[place - 1], column_of(columns, number), "%s%s (refused, number %u%s)",
                     refusal_words(number), refusal_found(answer, &rows).text, number, refusal_place(answer).text);
    else
        say("%s: refused, number %u: %s", csv->path, number, refusal_words(number));
    if (number == PATHPETAL_TIME_STEP)
        say_time_step(&rows, true);
    else
        say("to mend: %s", refusal_mend(number));
    say("nothing is written");
}

/* The columns that were not used, so that a misspelt one is seen. */
static void tell_unused(const struct csv *csv, const struct columns *columns)
{
    struct text names = {0};
    for (size_t k = 0; k < csv->columns; k++)
        if (!is_used(columns, (long)k))
            text_add(&names, "%s '%s'", names.length ? "," : "", SHOWN(csv->names[k]));
    if (names.length)
        tell("  not used:%s", names.at);
    free(names.at);
    if (columns->height < 0)
        tell("  no column height_um: all heights are 0");
    if (columns->velocity < 0)
        tell("  no column velocity_um_s: all velocities are 0");
    if (columns->damping < 0)
        tell("  no column damping_thousandths_s: all dampings are 0");
}

static enum status make_file(const struct csv *csv, const struct columns *columns, const struct survey *survey,
                             const int64_t counts[3], const char *path, bool replace)
{
    size_t cells = survey->cells, row = 4 * cells, length = pathpetal_length(cells);
    uint8_t *file = room_for(length, 1);
    enum status status = STATUS_REFUSED;
    uint64_t answer = pathpetal_make(cells, (uint64_t)counts[0], (uint64_t)counts[1], (uint64_t)counts[2],
                                     survey->depths, row, survey->heights, row, survey->velocities, row,
                                     survey->dampings, row, file, length);
    if (pathpetal_number(answer) != PATHPETAL_DONE)
        say_refusal(csv, columns, survey, counts, answer);
    else
        status = whole_write(path, file, length, &(struct over){.any = replace});
    if (status == STATUS_DONE) {
        tell("%s: %zu cells of %s mm, %s steps of %s ms wanted", path, cells, GROUPED(counts[0]),
             GROUPED(counts[2]), GROUPED(counts[1]));
        tell_unused(csv, columns);
        status = told();
    }
    free(file);
    return status;
}

enum status make_command(int count, char **words)
{
    struct option options[] = {{.name = "-o", .takes = "START"},
                               {.name = "--width-mm", .takes = "MM"},
                               {.name = "--step-ms", .takes = "MS"},
                               {.name = "--steps", .takes = "N"},
                               {.name = "--replace"},
                               {.name = NULL}};
    const char *from = NULL, *to;
    struct survey *survey = NULL;
    struct columns columns;
    struct csv csv = {.file = -1};
    int64_t counts[3]; /* width in mm, step in ms, steps wanted */
    enum status status = options_read(count, words, options, &from, 1, usage);
    bool replace;
    if (status != STATUS_DONE)
        return status;
    to = option_value(options, "-o");
    replace = option_value(options, "--replace") != NULL;
    if (!to) {
        say("-o START is missing");
        say("usage: %s", usage);
        return STATUS_USAGE;
    }
    if ((status = option_number(options, "--width-mm", WIDTH_LEAST, WIDTH_MOST, &counts[0])) != STATUS_DONE ||
        (status = option_number(options, "--step-ms", STEP_LEAST, STEP_MOST, &counts[1])) != STATUS_DONE ||
        (status = option_number(options, "--steps", STEPS_LEAST, STEPS_MOST, &counts[2])) != STATUS_DONE)
        return status;
    survey = room_for(1, sizeof *survey);
    status = read_survey(&csv, from, survey, &columns);
    if (status == STATUS_DONE) {
        struct place places[] = {input_place("SURVEY", from), output_place("START", to)};
        status = outputs_allowed(places, 2, replace);
    }
    if (status == STATUS_DONE)
        status = make_file(&csv, &columns, survey, counts, to, replace);
    csv_close(&csv);
    free(survey);
    return status;
}
