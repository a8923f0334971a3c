/* The second program works on rows and has a reader and a writer of files. Here they are put together in the order
   of refusals that pathpetal.h gives. */
#include "by_second.h"

#include "../../include/pathpetal.h"
#include "../../second/second.h"

#include <stdbool.h>

enum { CELLS = SECOND_CELLS, HEAD = 48 };
#define POURED_MOST 1000000

struct rows {
    int64_t h[CELLS], e[CELLS], u[CELLS], V[CELLS], Q[3 * (CELLS - 1)], F[3 * CELLS], damping[CELLS];
};

static uint64_t packed(struct second_answer a)
{
    return a.count * 33554432 + a.place * 65536 + a.number * 256 + a.stage;
}

static uint64_t refused(unsigned number, size_t place)
{
    return packed((struct second_answer){.number = number, .place = (unsigned)place});
}

static bool cells_allowed(uint64_t cells)
{
    return cells >= 8 && cells <= CELLS;
}

static struct second_channel lend(struct rows *rows, size_t N)
{
    return (struct second_channel){.N = N, .h = {rows->h, N}, .e = {rows->e, N}, .u = {rows->u, N},
                                   .V = {rows->V, N}, .Q = {rows->Q, 3 * (N - 1)}, .F = {rows->F, 3 * N},
                                   .damping = {rows->damping, N}};
}

/* The second program's reader, with rows that fit the file. A file whose cells are not allowed is refused for that,
   whatever rows are lent. */
static struct second_answer read(const uint8_t *file, size_t len, struct second_channel *channel, struct rows *rows)
{
    uint64_t N = len >= HEAD ? pathpetal_cells(file) : 0;
    *channel = lend(rows, cells_allowed(N) ? (size_t)N : 8);
    return second_read(file, len, channel);
}

static void take(int64_t *row, const uint8_t *bytes, size_t N)
{
    for (size_t j = 0; j < N; j++)
        row[j] = pathpetal_signed(bytes + 4 * j);
}

/* The lowest cell, from 1, whose poured amount is out of its range; 0 if there is none. */
static size_t poured_place(const int64_t *s, size_t N)
{
    for (size_t j = 0; j < N; j++)
        if (s[j] < -POURED_MOST || s[j] > POURED_MOST)
            return j + 1;
    return 0;
}

/* Whether a refusal is of what is given, and not of what comes of it. */
static bool of_input(unsigned number)
{
    return (number >= PATHPETAL_SHAPE && number <= PATHPETAL_DOMINANCE) || number == PATHPETAL_TIME_STEP ||
           number >= PATHPETAL_BAD_DEPTH;
}

/* Whether a refusal of a file is told after what is poured. */
static bool after_poured(unsigned number)
{
    return number == PATHPETAL_DEPTH || number == PATHPETAL_TIME_STEP || number == PATHPETAL_DOMINANCE;
}

/* A channel that a call accepted, back in the bytes it came from. */
static uint64_t written(struct second_answer a, const struct second_channel *channel, uint8_t *file, size_t len)
{
    struct second_answer w = second_write(channel, file, len);
    return w.number ? UINT64_MAX : packed(a);
}

uint64_t by_second_make(uint64_t cells, uint64_t width_mm, uint64_t step_ms, uint64_t wanted,
                        const uint8_t *depths, size_t depths_len, const uint8_t *heights, size_t heights_len,
                        const uint8_t *velocities, size_t velocities_len, const uint8_t *dampings, size_t dampings_len,
                        uint8_t *file, size_t file_len)
{
    struct rows rows;
    size_t N = (size_t)cells, row_len = 4 * N;
    if (!cells_allowed(cells) || depths_len != row_len || heights_len != row_len || velocities_len != row_len ||
        dampings_len != row_len)
        return refused(PATHPETAL_SHAPE, 0);
    struct second_channel channel = lend(&rows, N);
    channel.X = width_mm, channel.T = step_ms, channel.wanted = wanted;
    take(rows.h, depths, N);
    take(rows.e, heights, N);
    take(rows.u, velocities, N);
    take(rows.damping, dampings, N);
    struct second_answer a = second_make(&channel);
    if (of_input(a.number))
        return packed(a);
    if (file_len != pathpetal_length(N))
        return refused(PATHPETAL_BUFFER, 0);
    return a.number ? packed(a) : written(a, &channel, file, file_len);
}

uint64_t by_second_check(const uint8_t *file, size_t file_len)
{
    struct second_channel channel;
    struct rows rows;
    return packed(read(file, file_len, &channel, &rows));
}

/* The poured row's length is tested right after the cells, its amounts right after the file's values. */
uint64_t by_second_step(uint8_t *file, size_t file_len, const uint8_t *poured, size_t poured_len)
{
    struct second_channel channel;
    struct rows rows;
    int64_t s[CELLS];
    struct second_answer a = read(file, file_len, &channel, &rows);
    if (file_len < HEAD || a.number == PATHPETAL_EDITION || a.number == PATHPETAL_SHAPE)
        return packed(a);
    size_t N = pathpetal_cells(file);
    if (poured_len != 4 * N)
        return refused(PATHPETAL_SHAPE, 0);
    if (a.number && !after_poured(a.number))
        return packed(a);
    take(s, poured, N);
    if (poured_place(s, N))
        return refused(PATHPETAL_BAD_POURED, poured_place(s, N));
    if (a.number)
        return packed(a);
    a = second_step(&channel, (struct second_read_row){s, N});
    return a.number ? packed(a) : written(a, &channel, file, file_len);
}

uint64_t by_second_filter(uint8_t *file, size_t file_len)
{
    struct second_channel channel;
    struct rows rows;
    struct second_answer a = read(file, file_len, &channel, &rows);
    if (!a.number)
        a = second_filter(&channel);
    return a.number ? packed(a) : written(a, &channel, file, file_len);
}

/* Steps one by one as far as `most` allows; the second program's own run where it allows them all. */
static struct second_answer steps(struct second_channel *channel, uint64_t most)
{
    static const int64_t nothing[CELLS];
    struct second_answer a;
    if (most >= channel->wanted - channel->accepted)
        return second_run(channel);
    for (uint64_t count = 0; count < most; count++) {
        a = second_step(channel, (struct second_read_row){nothing, (size_t)channel->N});
        if (a.number) {
            a.count = count;
            return a;
        }
    }
    return (struct second_answer){.number = PATHPETAL_MORE, .count = most};
}

uint64_t by_second_run(uint8_t *file, size_t file_len, uint64_t most)
{
    struct second_channel channel;
    struct rows rows;
    struct second_answer a = read(file, file_len, &channel, &rows);
    return a.number ? packed(a) : written(steps(&channel, most), &channel, file, file_len);
}

uint64_t by_second_place_gauge(const uint8_t *file, size_t file_len, uint8_t *gauges, size_t gauges_len, uint64_t cell)
{
    struct second_channel channel;
    struct rows rows;
    struct second_answer a = read(file, file_len, &channel, &rows);
    return packed(a.number ? a : second_place_gauge(&channel, gauges, gauges_len, cell));
}

uint64_t by_second_feed_gauges(const uint8_t *file, size_t file_len, uint8_t *gauges, size_t gauges_len)
{
    struct second_channel channel;
    struct rows rows;
    struct second_answer a = read(file, file_len, &channel, &rows);
    return packed(a.number ? a : second_feed_gauges(&channel, gauges, gauges_len));
}

uint64_t by_second_read_gauges(const uint8_t *gauges, size_t gauges_len, int64_t *readings, size_t readings_len)
{
    return packed(second_read_gauges(gauges, gauges_len, (struct second_row){readings, readings_len}));
}
