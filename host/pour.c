#include "pour.h"
#include "csv.h"

#include <inttypes.h>
#include <stdio.h>
#include <stdlib.h>
#include <string.h>

static int by_step_and_cell(const void *left, const void *right)
{
    const struct poured *a = left, *b = right;
    if (a->step != b->step)
        return a->step < b->step ? -1 : 1;
    if (a->cell != b->cell)
        return a->cell < b->cell ? -1 : 1;
    return a->line < b->line ? -1 : a->line > b->line;
}

/* Puts the rows in order; a step and cell that stand twice are refused. */
static enum status sort_rows(const struct csv *csv, struct pour *pour)
{
    if (pour->count > 0)
        qsort(pour->list, pour->count, sizeof *pour->list, by_step_and_cell);
    for (size_t k = 1; k < pour->count; k++)
        if (pour->list[k - 1].step == pour->list[k].step && pour->list[k - 1].cell == pour->list[k].cell) {
            say("%s: line %lu: step %s, cell %s stands on line %lu already; give one amount", csv->path,
                pour->list[k].line, GROUPED(pour->list[k].step), GROUPED(pour->list[k].cell), pour->list[k - 1].line);
            return STATUS_REFUSED;
        }
    return STATUS_DONE;
}

/* Room for one row more. Where it must grow, the rows so far are looked at: a table without end does not take all
   memory, for its rows stand there twice before long. */
static enum status one_more(const struct csv *csv, struct pour *pour, size_t *room)
{
    enum status status;
    if (pour->count < *room)
        return STATUS_DONE;
    status = sort_rows(csv, pour);
    *room = *room ? 2 * *room : 64;
    pour->list = more_room(pour->list, *room, sizeof *pour->list);
    return status;
}

static enum status take_rows(struct csv *csv, const uint8_t *file, struct pour *pour)
{
    const char *names[3] = {"step", "cell", "amount_um"};
    const int64_t lowest[3] = {1, 1, -POURED_MOST};
    const int64_t highest[3] = {pathpetal_wanted(file), pathpetal_cells(file), POURED_MOST};
    long columns[3];
    size_t room = 0;
    for (size_t k = 0; k < 3; k++) {
        columns[k] = csv_column(csv, names[k]);
        if (columns[k] < 0)
            return csv_wrong(csv, -1, "has no column %s; a table of poured water has step, cell and amount_um",
                             names[k]);
    }
    for (size_t k = 0; k < csv->columns; k++)
        if ((long)k != columns[0] && (long)k != columns[1] && (long)k != columns[2])
            return csv_wrong(csv, (long)k, "is not a name of a table of poured water: step, cell and amount_um");
    for (;;) {
        int64_t numbers[3];
        bool more = false;
        enum status status = csv_row(csv, &more);
        if (status != STATUS_DONE || !more)
            return status;
        for (size_t k = 0; k < 3; k++) {
            status = csv_number(csv, columns[k], lowest[k], highest[k], &numbers[k]);
            if (status != STATUS_DONE)
                return status;
        }
        status = one_more(csv, pour, &room);
        if (status != STATUS_DONE)
            return status;
        pour->list[pour->count++] = (struct poured){.step = (uint32_t)numbers[0],
                                                    .cell = (uint32_t)numbers[1],
                                                    .amount = (int32_t)numbers[2],
                                                    .line = csv->line};
    }
}

enum status pour_read(const char *path, const uint8_t *file, struct pour *pour)
{
    struct csv csv;
    enum status status;
    *pour = (struct pour){.list = NULL};
    status = csv_open(&csv, path);
    if (status == STATUS_DONE)
        status = take_rows(&csv, file, pour);
    if (status == STATUS_DONE)
        status = sort_rows(&csv, pour);
    csv_close(&csv);
    return status;
}

struct hex pour_sum(const struct pour *pour)
{
    struct sum sum;
    if (pour->count == 0)
        return (struct hex){"none"};
    sum_begin(&sum);
    for (size_t k = 0; k < pour->count; k++) {
        char row[64];
        int length = snprintf(row, sizeof row, "%" PRIu32 ",%" PRIu32 ",%" PRId32 "\n", pour->list[k].step,
                              pour->list[k].cell, pour->list[k].amount);
        sum_add(&sum, row, (size_t)length);
    }
    return sum_hex(&sum);
}

void pour_from(struct pour *pour, uint32_t accepted)
{
    pour->next = 0;
    while (pour->next < pour->count && pour->list[pour->next].step <= accepted)
        pour->next++;
}

uint32_t pour_step(const struct pour *pour)
{
    return pour->next < pour->count ? pour->list[pour->next].step : 0;
}

bool pours_into(const struct pour *pour, uint32_t step)
{
    for (size_t k = 0; k < pour->count; k++)
        if (pour->list[k].step == step && pour->list[k].amount != 0)
            return true;
    return false;
}

void pour_row(struct pour *pour, uint8_t *row, size_t cells)
{
    uint32_t step = pour_step(pour);
    memset(row, 0, 4 * cells);
    for (; pour->next < pour->count && pour->list[pour->next].step == step; pour->next++)
        put_signed(row + 4 * (size_t)(pour->list[pour->next].cell - 1), pour->list[pour->next].amount);
}
