#include "staff.h"
#include "csv.h"
#include "layout.h"

#include <stdio.h>
#include <stdlib.h>
#include <string.h>

enum {
    LINE_LONGEST = 200,  /* bytes of a line of the head, of one on what a gauge counted, and more */
    WAVE_MOST = 39999000 /* um, from the lowest to the highest that a channel can hold */
};

int64_t staff_height(const struct staffs *staffs, size_t row, size_t staff)
{
    return staffs->heights[row * staffs->count + staff];
}

/* The cell of a column named cell_12_um; 0 if it has another name. */
static uint32_t cell_of(const char *name)
{
    uint32_t cell = 0;
    if (strncmp(name, "cell_", 5) != 0 || name[5] == '0')
        return 0;
    for (name += 5; *name >= '0' && *name <= '9' && cell <= CELLS_MOST; name++)
        cell = cell * 10 + (uint32_t)(*name - '0');
    return strcmp(name, "_um") == 0 && cell <= CELLS_MOST ? cell : 0;
}

/* A time in s with three places, as ms. */
static enum status take_time(const struct csv *csv, long column, int64_t *ms)
{
    const char *field = csv->fields[column], *point = strchr(field, '.');
    char digits[24];
    size_t whole = point ? (size_t)(point - field) : 0;
    if (point && whole > 0 && whole <= 10 && strlen(point) == 4) {
        memcpy(digits, field, whole);
        memcpy(digits + whole, point + 1, 4);
        if (digits[0] != '-' && digits[0] != '+' &&
            read_number(digits, 0, (int64_t)STEPS_MOST * STEP_MOST, ms) == NUMBER_TAKEN)
            return STATUS_DONE;
    }
    return csv_wrong(csv, column, "'%s' is not a time in s with three decimal places", SHOWN(field));
}

/* The columns of a staff record: step, time_s, then one for each marked cell. */
static enum status take_columns(const struct csv *csv, struct staffs *staffs)
{
    if (csv->columns < 3 || csv_column(csv, "step") != 0 || csv_column(csv, "time_s") != 1)
        return csv_wrong(csv, -1,
                         "is no staff record: its columns are step, time_s and cell_N_um for each marked cell");
    staffs->count = csv->columns - 2;
    staffs->cells = room_for(staffs->count, sizeof *staffs->cells);
    for (size_t k = 0; k < staffs->count; k++) {
        staffs->cells[k] = cell_of(csv->names[k + 2]);
        if (staffs->cells[k] == 0)
            return csv_wrong(csv, (long)k + 2, "is no marked cell: such a column is named like cell_12_um");
    }
    return STATUS_DONE;
}

/* What a record's lines say of it, taken in while they are read. */
struct lines {
    unsigned long count;
    struct waves *waves;   /* what gauges counted, by the first lines that tell it, as many as there can be cells */
    size_t counts;         /* how many such lines there are, */
    unsigned long counted; /* and which is the last, from 1 */
    struct text head;   /* the lines that follow the names: as many as a head can have */
    struct sum sum;     /* of all lines */
    struct sum before;  /* of all but the last */
    struct text last;   /* the last, with its end; the beginning alone of one that is too long */
};

static void take_line(void *to, const char *line, size_t length)
{
    struct lines *lines = to;
    struct waves waves;
    if (lines->count > 0 && lines->count <= HEAD_LINES_MOST)
        text_add_bytes(&lines->head, line, length < LINE_LONGEST ? length : LINE_LONGEST);
    lines->count++;
    lines->before = lines->sum;
    sum_add(&lines->sum, line, length);
    lines->last.length = 0;
    text_add_bytes(&lines->last, line, length < LINE_LONGEST ? length : LINE_LONGEST);
    if (line[0] != '#' || !take_waves(lines->last.at, &waves))
        return;
    if (lines->counts < CELLS_MOST)
        lines->waves[lines->counts] = waves;
    lines->counts++;
    lines->counted = lines->count;
}

/* Whether the last line of all is this one, to the byte, and has the sum of all before its digits. */
static bool sum_is_right(const struct lines *lines, const char *last, const struct tail *tail)
{
    struct sum sum = lines->before;
    struct hex hex;
    size_t length = strlen(last);
    if (lines->last.length != length + 1 || memcmp(lines->last.at, last, length) != 0 ||
        lines->last.at[length] != '\n')
        return false;
    sum_add(&sum, last, tail->before);
    hex = sum_hex(&sum);
    return same_hex(&hex, &tail->sum);
}

/* What the rows of a record are so far. */
struct rows {
    int64_t last, every;  /* the step of the row before, -1 before the first, and the steps between two; 0 for one row */
    int64_t step_ms;      /* the time of a step, by the first row that tells it; 0 while none does */
    bool uneven;          /* a time is not its step's */
    size_t room;          /* for how many there is room */
};

/* Whether head, rows and last line of a record are of one run. */
static bool agree(const struct lines *lines, const struct head *head, const struct rows *rows, const struct tail *tail,
                  const struct staffs *staffs)
{
    uint32_t last = (uint32_t)rows->last;
    return lines->count == 1 + head_lines(head) + staffs->rows + lines->counts + 1 && !rows->uneven &&
           tail->rows == staffs->rows && head->first == staffs->first && tail->first == staffs->first &&
           (rows->every == 0 || rows->every == head->every) && tail->accepted >= last &&
           (uint64_t)tail->accepted < (uint64_t)last + head->every && tail->accepted <= tail->wanted &&
           tail->wanted >= 1 && tail->wanted <= STEPS_MOST && head->run.filter_every <= STEPS_MOST &&
           tail->complete == (tail->accepted == tail->wanted);
}

/* Whether what a gauge counted can be that of this cell, in a record that has come to this count: of the heights after
   every step since one that such a record can begin with. */
static bool can_be(const struct waves *waves, const struct head *head, uint32_t cell, uint32_t accepted)
{
    int64_t placed = waves->first - 1;
    if (waves->cell != cell || waves->fed != (int64_t)accepted - placed || placed < head->run.origin_step ||
        placed > head->first || placed + head->every <= head->first)
        return false;
    if (waves->count == 0)
        return waves->largest == 0 && waves->sum == 0;
    return 2 * waves->count + 2 <= waves->fed && waves->largest >= 1 && waves->largest <= WAVE_MOST &&
           waves->sum >= waves->largest && waves->sum <= waves->largest * waves->count &&
           waves->from > waves->first && waves->to >= waves->from + 2 && waves->to <= accepted;
}

/* Whether a record says what its gauges counted: a line for each staff, in their order, directly before the last. */
static bool are_counted(const struct lines *lines, const struct head *head, const struct tail *tail,
                        const struct staffs *staffs)
{
    if (lines->counts != staffs->count || lines->counts > CELLS_MOST || lines->counted + 1 != lines->count)
        return false;
    for (size_t k = 0; k < staffs->count; k++)
        if (lines->waves[k].first != lines->waves[0].first ||
            !can_be(&lines->waves[k], head, staffs->cells[k], tail->accepted))
            return false;
    return true;
}

/* Judges a record by its head, its rows, what its gauges counted and its last line. */
static void judge(const struct csv *csv, const struct lines *lines, const struct rows *rows, struct staffs *staffs)
{
    struct head head;
    struct tail tail;
    bool headed = lines->head.at && take_head(lines->head.at, &head) > 0;
    bool ended = csv->remark && !csv->cut && take_tail(csv->remark, &tail);
    bool counted = headed && ended && are_counted(lines, &head, &tail, staffs);
    staffs->accepted = (uint32_t)rows->last;
    staffs->step_ms = rows->uneven ? 0 : rows->step_ms;
    staffs->whole = RECORD_CHANGED;
    if (!csv->remark || csv->cut || lines->counted == lines->count) {
        if (!headed || (head.first == staffs->first && (rows->every == 0 || rows->every == head.every)))
            staffs->whole = RECORD_CUT;
    } else if (ended && !headed && !tail.summed) {
        staffs->whole = RECORD_OLD;
    } else if (ended && headed && tail.summed && sum_is_right(lines, csv->remark, &tail) &&
               agree(lines, &head, rows, &tail, staffs) &&
               (counted || (lines->counts == 0 && head.run.rule == RULE_UNSAID))) {
        staffs->whole = tail.complete ? RECORD_COMPLETE : RECORD_OPEN;
        staffs->counted = counted;
        staffs->accepted = tail.accepted;
        staffs->wanted = tail.wanted;
    }
    staffs->rule = headed && staffs->whole != RECORD_CHANGED ? head.run.rule : 0;
}

/* Looks at a time beside its step. */
static void look_at_time(struct rows *rows, int64_t step, int64_t ms)
{
    if (rows->step_ms == 0 && step > 0)
        rows->step_ms = ms / step;
    if (ms != step * rows->step_ms || rows->step_ms > STEP_MOST || (step > 0 && rows->step_ms < STEP_LEAST))
        rows->uneven = true;
}

/* Takes the row at hand in. Without `keep` each takes the place of the one before. */
static enum status take_row(const struct csv *csv, struct rows *rows, struct staffs *staffs, bool keep)
{
    size_t at = keep ? staffs->rows : 0;
    int64_t step = 0;
    enum status status = csv_number(csv, 0, 0, STEPS_MOST, &step);
    if (status != STATUS_DONE)
        return status;
    if (rows->last >= 0 && (step <= rows->last || (rows->every > 0 && step != rows->last + rows->every)))
        return csv_wrong(csv, 0, "is not the step that must follow: rows are lost or out of order");
    if (rows->last >= 0)
        rows->every = step - rows->last;
    else
        staffs->first = (uint32_t)step;
    rows->last = step;
    if (at == rows->room) {
        rows->room = rows->room ? 2 * rows->room : 256;
        staffs->times = more_room(staffs->times, rows->room, sizeof *staffs->times);
        staffs->heights = more_room(staffs->heights, rows->room * staffs->count, sizeof *staffs->heights);
    }
    status = take_time(csv, 1, &staffs->times[at]);
    if (status == STATUS_DONE)
        look_at_time(rows, step, staffs->times[at]);
    for (size_t k = 0; status == STATUS_DONE && k < staffs->count; k++)
        status = csv_number(csv, (long)k + 2, -HEIGHT_MOST, HEIGHT_MOST, &staffs->heights[at * staffs->count + k]);
    staffs->rows++;
    return status;
}

/* A record without rows tells nothing; one whose last line counts some was cut. */
static enum status no_rows(const struct csv *csv)
{
    struct tail tail;
    if (csv->remark && take_tail(csv->remark, &tail) && tail.rows > 0)
        say("%s: has no rows, but its last line counts some: it was cut after it was written", csv->path);
    else
        say("%s: has no rows yet", csv->path);
    return STATUS_REFUSED;
}

enum status staffs_read(const char *path, struct staffs *staffs, bool keep)
{
    struct csv csv;
    struct lines lines = {.waves = room_for(CELLS_MOST, sizeof *lines.waves)};
    struct rows rows = {.last = -1};
    enum status status;
    *staffs = (struct staffs){.count = 0};
    sum_begin(&lines.sum);
    status = csv_open_each(&csv, path, take_line, &lines);
    if (csv.channel)
        say("to mend: leave out --staff to show a channel file");
    if (status == STATUS_DONE)
        status = take_columns(&csv, staffs);
    while (status == STATUS_DONE) {
        bool more = false;
        status = csv_row(&csv, &more);
        if (status != STATUS_DONE && csv.cut) {
            say("the last line is cut: the run was stopped while it was written; give the run's command again");
            break;
        }
        if (status != STATUS_DONE || !more)
            break;
        if (csv.cut) {
            say("%s: line %lu: is cut, and passed over", path, csv.line);
            break;
        }
        status = take_row(&csv, &rows, staffs, keep);
    }
    if (status == STATUS_DONE)
        status = staffs->rows == 0 ? no_rows(&csv) : status;
    if (status == STATUS_DONE)
        judge(&csv, &lines, &rows, staffs);
    staffs->waves = lines.waves;
    free(lines.head.at);
    free(lines.last.at);
    csv_close(&csv);
    return status;
}

void staffs_free(struct staffs *staffs)
{
    free(staffs->cells);
    free(staffs->times);
    free(staffs->heights);
    free(staffs->waves);
}

struct standing staffs_standing(const struct staffs *staffs)
{
    struct standing out = {""};
    char from[64] = "";
    if (staffs->first > 0)
        snprintf(from, sizeof from, ", recorded from step %s", GROUPED(staffs->first));
    switch (staffs->whole) {
    case RECORD_COMPLETE:
        snprintf(out.text, sizeof out.text, "complete: all %s steps accepted%s", GROUPED(staffs->wanted), from);
        break;
    case RECORD_OPEN:
        snprintf(out.text, sizeof out.text, "open: %s of %s steps accepted%s", GROUPED(staffs->accepted),
                 GROUPED(staffs->wanted), from);
        break;
    case RECORD_CUT:
        snprintf(out.text, sizeof out.text, "open: cut after step %s%s", GROUPED(staffs->accepted), from);
        break;
    case RECORD_CHANGED:
        snprintf(out.text, sizeof out.text, "not whole: cut or changed after it was written; its last row is of step "
                 "%s", GROUPED(staffs->accepted));
        break;
    case RECORD_OLD:
        snprintf(out.text, sizeof out.text, "cannot tell whether whole: an earlier program wrote it, without a check "
                 "sum; its last row is of step %s", GROUPED(staffs->accepted));
        break;
    }
    return out;
}

struct standing fed_words(const struct staffs *staffs)
{
    struct standing out;
    const struct waves *waves = &staffs->waves[0];
    const char *more = waves->fed == 1 ? "" : "s";
    if (waves->fed == 0)
        snprintf(out.text, sizeof out.text, "no step");
    else if (waves->first > 1)
        snprintf(out.text, sizeof out.text, "the %s step%s from step %s on", GROUPED(waves->fed), more,
                 GROUPED(waves->first));
    else
        snprintf(out.text, sizeof out.text, "%s %s step%s", staffs->whole == RECORD_COMPLETE ? "all" : "the first",
                 GROUPED(waves->fed), more);
    return out;
}

struct standing waves_words(const struct waves *waves, bool in_mm)
{
    struct standing out;
    struct grouped (*written)(int64_t number) = in_mm ? thousandths : grouped;
    const char *unit = in_mm ? "mm" : "um";
    if (waves->count == 0)
        snprintf(out.text, sizeof out.text, "no complete wave");
    else
        snprintf(out.text, sizeof out.text, "%s wave%s, mean %s %s, largest %s %s", GROUPED(waves->count),
                 waves->count == 1 ? "" : "s", written(mean_height(waves)).text, unit, written(waves->largest).text,
                 unit);
    return out;
}

struct standing largest_words(const struct staffs *staffs, const struct waves *waves)
{
    struct standing out = {""};
    if (waves->count > 0 && staffs->step_ms > 0)
        snprintf(out.text, sizeof out.text, " (from %s s to %s s)", THOUSANDTHS(waves->from * staffs->step_ms),
                 THOUSANDTHS(waves->to * staffs->step_ms));
    else if (waves->count > 0)
        snprintf(out.text, sizeof out.text, " (from step %s to step %s)", GROUPED(waves->from), GROUPED(waves->to));
    return out;
}

const char *uncounted_words(const struct staffs *staffs)
{
    switch (staffs->whole) {
    case RECORD_CUT: return "the run that writes them was cut, or still goes; give its command again";
    case RECORD_CHANGED: return "the record is not whole";
    case RECORD_COMPLETE:
    case RECORD_OPEN:
    case RECORD_OLD: break;
    }
    return "an earlier program wrote this record";
}
