/* Mixed calls on many channels through the C interface, written down for tests/water_sum/check.
   usage: water_sum_drive FOLDER
   FOLDER/files holds the channel file after every call, one behind another; FOLDER/log a line for each:
     channel call number stage place count state length most row amounts..
   channel  its name; 3.2 is the second damaged copy of channel 3; 3d and 3u are channel 3 made anew, with its damping
            and undamped, and met by the same calls; those of an odd number start from rest
   call     make, step, filter, run or check; or bytes: no call, the bytes that the calls on this channel start from
   state    open or done, or - if the bytes are no channel file
   length   of the file in bytes
   most     of a run, else -
   row      the length of a step's poured row in bytes, else -; its whole amounts follow, in um */
#include "../../include/pathpetal.h"

#include <inttypes.h>
#include <stdbool.h>
#include <stdio.h>
#include <stdlib.h>
#include <string.h>

enum { MOST_CELLS = 256, ROOM = 28 + 68 * MOST_CELLS + 64, CHANNELS = 36, CALLS = 110 };

struct channel {
    int number, copy; /* copy 0: the channel itself */
    const char *twin; /* d or u, or nothing */
    size_t len;
    uint8_t file[ROOM];
};

static FILE *files, *journal;

static uint64_t state = 6000;
static uint64_t draw(void)
{
    uint64_t z = (state += 0x9E3779B97F4A7C15u);
    z = (z ^ z >> 30) * 0xBF58476D1CE4E5B9u;
    z = (z ^ z >> 27) * 0x94D049BB133111EBu;
    return z ^ z >> 31;
}

static int64_t between(int64_t low, int64_t high) { return low + (int64_t)(draw() % (uint64_t)(high - low + 1)); }
static bool one_in(uint64_t n) { return draw() % n == 0; }

static void put(uint8_t *at, int64_t n)
{
    for (int i = 0; i < 4; i++)
        at[i] = (uint8_t)((uint64_t)n >> 8 * i);
}

static void note(const struct channel *c, const char *call, uint64_t answer)
{
    const char *word = "-";
    if (pathpetal_number(pathpetal_check(c->file, c->len)) == 0)
        word = pathpetal_complete(c->file) ? "done" : "open";
    fprintf(journal, c->copy ? "%d%s.%d" : "%d%s", c->number, c->twin, c->copy);
    fprintf(journal, " %s %u %u %u %" PRIu64 " %s %zu", call, pathpetal_number(answer), pathpetal_stage(answer),
            pathpetal_place(answer), pathpetal_count(answer), word, c->len);
    fwrite(c->file, 1, c->len, files);
}

static void plain_call(struct channel *c, const char *call, uint64_t answer)
{
    note(c, call, answer);
    fputs(" - -\n", journal);
}

static void run(struct channel *c, uint64_t most)
{
    note(c, "run", pathpetal_run(c->file, c->len, most));
    fprintf(journal, " %" PRIu64 " -\n", most);
}

static void step(struct channel *c, const uint8_t *row, size_t row_len)
{
    note(c, "step", pathpetal_step(c->file, c->len, row, row_len));
    fprintf(journal, " - %zu", row_len);
    for (size_t j = 0; j < row_len / 4; j++)
        fprintf(journal, " %" PRId32, pathpetal_signed(row + 4 * j));
    fputs("\n", journal);
}

/* A poured row of cells whole amounts: nothing, a little in a few cells, or much. */
static void pour(uint8_t *row, size_t cells, int64_t amount)
{
    memset(row, 0, 4 * cells);
    if (amount == 0)
        return;
    for (int64_t k = between(1, 6); k > 0; k--) {
        size_t j = draw() % cells;
        put(row + 4 * j, between(-amount, amount));
    }
}

static void any_call(struct channel *c, size_t cells)
{
    uint8_t row[8 * MOST_CELLS + 8] = {0};
    uint64_t which = draw() % 100;
    size_t len = 4 * cells, at;
    if (which < 28) {
        step(c, row, len);
    } else if (which < 50) {
        pour(row, cells, between(1, 3000));
        step(c, row, len);
    } else if (which < 58) {
        pour(row, cells, 1000000);
        step(c, row, len);
    } else if (which < 65) { /* an amount out of its range, among others */
        pour(row, cells, 500);
        at = draw() % cells;
        put(row + 4 * at, one_in(2) ? between(1000001, INT32_MAX) : between(INT32_MIN, -1000001));
        step(c, row, len);
    } else if (which < 72) { /* a row of a wrong length */
        static const int off[] = {-4, -1, 1, 4, 8};
        size_t wrong = one_in(5) ? 0 : one_in(5) ? 2 * len : len + (size_t)off[draw() % 5];
        pour(row, cells, 500);
        step(c, row, wrong);
    } else if (which < 85) {
        plain_call(c, "filter", pathpetal_filter(c->file, c->len));
    } else if (which < 96) {
        run(c, one_in(6) ? 0 : draw() % 9);
    } else {
        plain_call(c, "check", pathpetal_check(c->file, c->len));
    }
}

/* The longest time step, in the narrowest cells. */
static void spoil_step(uint8_t *file)
{
    put(file + 8, 10);
    put(file + 12, 100);
}

/* Dampings out of their range, in one cell or more. */
static void spoil_damping(uint8_t *file, size_t cells)
{
    static const int64_t bad[] = {-1, 10001, INT32_MIN, INT32_MAX};
    for (size_t j = draw() % cells; j < cells; j += 1 + draw() % cells)
        put(file + 28 + 64 * cells + 4 * j, bad[draw() % 4]);
}

/* Calls on a copy with some of its bytes changed, cut off or added, with a time step that is too long, or with
   dampings out of their range. */
static void damaged(const struct channel *c, int copy)
{
    static struct channel d;
    size_t cells = pathpetal_cells(c->file);
    d = *c;
    d.copy = copy;
    switch (draw() % 6) {
    case 0:
        d.len = draw() % d.len;
        break;
    case 1:
        d.len += 1 + draw() % 60;
        break;
    case 2:
        spoil_step(d.file);
        break;
    case 3: /* also beside what is looked at after them */
        spoil_damping(d.file, cells);
        if (one_in(2))
            spoil_step(d.file);
        break;
    default:
        for (uint64_t k = 1 + draw() % 3; k > 0; k--) {
            size_t at = one_in(3) ? draw() % 52 : draw() % d.len;
            d.file[at] ^= (uint8_t)(1u << draw() % 8);
        }
        break;
    }
    plain_call(&d, "bytes", 0);
    for (int i = 0; i < 2; i++)
        any_call(&d, cells);
}

/* What a channel starts from. Waves over an even bottom and up a beach, water so low that a cell soon falls dry, so
   high that it soon leaves its range, rough water, two storms, and deep water in narrow cells. */
struct water {
    int64_t deep, width, high, fast, above; /* depth 0: drawn, and as wide as deep; above: of all heights */
    uint64_t step;
    bool rough, beach;
};
static const struct water waters[] = {
    {.high = 9000, .step = 20},
    {.high = 9000, .step = 20, .beach = true},
    {.deep = 40, .width = 400, .high = 2000, .step = 20},
    {.deep = 3000, .width = 3000, .high = 9000, .above = 19980000, .step = 20},
    {.high = 40000, .fast = 5000, .step = 20, .rough = true},
    {.deep = 300, .width = 500, .high = 60000, .fast = 400000, .step = 100, .rough = true},
    {.deep = 60, .width = 50, .high = 5000, .fast = 5000, .step = 50, .rough = true},
    {.deep = 500, .width = 20, .high = 500, .step = 20},
};

/* Where the water is damped: of three channels one nowhere, the others by turns. */
enum where { NOWHERE, EVERYWHERE, THE_MOST, ONE_CELL, LEFT_END, RIGHT_END, WHERES };

static enum where damped_where(int i) { return i % 3 == 0 ? NOWHERE : 1 + (i - i / 3 - 1) % (WHERES - 1); }

/* The dampings of a row of zeros: those of an end grow towards its wall. */
static void damp(uint8_t *row, size_t cells, enum where where)
{
    int64_t most = one_in(2) ? 10000 : between(100, 9999), reach = between(2, (int64_t)cells / 2);
    size_t one = draw() % cells;
    for (size_t j = 0; j < cells; j++) {
        int64_t from_wall = (int64_t)(where == LEFT_END ? j : cells - 1 - j), drawn = between(1, 10000);
        if (where == EVERYWHERE)
            put(row + 4 * j, drawn);
        else if (where == THE_MOST)
            put(row + 4 * j, 10000);
        else if (where == ONE_CELL && j == one)
            put(row + 4 * j, most);
        else if ((where == LEFT_END || where == RIGHT_END) && from_wall < reach)
            put(row + 4 * j, most * (reach - from_wall) / reach);
    }
}

static void make(struct channel *c, int i, enum where where, const char *twin)
{
    static const size_t sizes[] = {8, 9, 10, 12, 16, 24, 31, 48, 64, 100, 150, 256};
    size_t cells = sizes[(size_t)i / 2 % (sizeof sizes / sizeof *sizes)];
    const struct water *w = &waters[(size_t)i % (sizeof waters / sizeof *waters)];
    int64_t deep = w->deep ? w->deep : between(300, 2500), width = w->deep ? w->width : deep;
    int64_t high = w->high, period = between(8, 30);
    uint64_t wanted = i % 3 == 2 ? 1000000 : (uint64_t)between(30, 110);
    uint8_t depths[4 * MOST_CELLS], heights[4 * MOST_CELLS], velocities[4 * MOST_CELLS];
    uint8_t dampings[4 * MOST_CELLS] = {0};
    for (size_t j = 0; j < cells; j++) {
        int64_t at = (int64_t)j % period * 4 * high / period, wave = at < 2 * high ? at - high : 3 * high - at;
        put(depths + 4 * j, w->beach ? deep - (int64_t)j * deep / (2 * (int64_t)cells) : deep);
        put(heights + 4 * j, w->above + (w->rough ? between(-high, high) : wave));
        int64_t velocity = w->rough ? between(-w->fast, w->fast) : wave / 4;
        put(velocities + 4 * j, *twin && i % 2 == 0 ? 0 : velocity);
    }
    damp(dampings, cells, where);
    c->number = i + 1;
    c->copy = 0;
    c->twin = twin;
    c->len = pathpetal_length(cells);
    uint64_t answer = pathpetal_make(cells, (uint64_t)width, w->step, wanted, depths, 4 * cells, heights, 4 * cells,
                                     velocities, 4 * cells, dampings, 4 * cells, c->file, c->len);
    plain_call(c, "make", answer);
}

/* The same channel with its damping and without, and the same calls on both. */
static void twins(int i)
{
    static struct channel with, without;
    struct channel *both[] = {&with, &without};
    uint64_t from = state;
    uint8_t row[4 * MOST_CELLS];
    make(&with, i, damped_where(i), "d");
    state = from;
    make(&without, i, NOWHERE, "u");
    size_t len = 4 * (size_t)pathpetal_cells(with.file);
    pour(row, len / 4, 300);
    for (int k = 0; k < 2; k++) {
        run(both[k], 5);
        step(both[k], row, len);
        plain_call(both[k], "filter", pathpetal_filter(both[k]->file, both[k]->len));
        run(both[k], 12);
    }
}

static FILE *opened(const char *folder, const char *name)
{
    char path[4096];
    snprintf(path, sizeof path, "%s/%s", folder, name);
    FILE *f = fopen(path, "wb");
    if (!f) {
        perror(path);
        exit(1);
    }
    return f;
}

int main(int argc, char **argv)
{
    static struct channel c;
    if (argc != 2) {
        fputs("usage: water_sum_drive FOLDER\n", stderr);
        return 2;
    }
    files = opened(argv[1], "files");
    journal = opened(argv[1], "log");
    for (int i = 0; i < CHANNELS; i++) {
        if (damped_where(i) != NOWHERE)
            twins(i);
        make(&c, i, damped_where(i), "");
        int copies = 0;
        for (int k = 0; k < CALLS; k++) {
            if (one_in(9))
                damaged(&c, ++copies);
            any_call(&c, pathpetal_cells(c.file));
        }
    }
    return fclose(files) || fclose(journal) ? 1 : 0;
}
