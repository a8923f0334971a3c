/* The calls of include/pathpetal.h over the second program, in the interface's order of refusals. */
#include "expected.h"
#include "../../second/second.h"

#include <stdbool.h>

enum { CELLS = SECOND_CELLS, HEAD = 48, ROWS_START = 52, MORE = 16 };

/* A channel's rows, and the channel that lends them. */
struct channel {
    int64_t h[CELLS], e[CELLS], u[CELLS], V[CELLS], Q[3 * (CELLS - 1)], F[3 * CELLS], damping[CELLS];
    struct second_channel lends;
};

static uint64_t answer(struct second_answer a)
{
    return a.count * 33554432 + a.place * 65536 + a.number * 256 + a.stage;
}

static uint64_t refused(unsigned number)
{
    return (uint64_t)number * 256;
}

/* The lowest `bytes` bytes of a two's complement number, least first. */
static int64_t number_at(const uint8_t *at, unsigned bytes)
{
    uint64_t n = at[bytes - 1] >= 128 ? UINT64_MAX : 0;
    while (bytes-- > 0)
        n = n << 8 | at[bytes];
    return n <= INT64_MAX ? (int64_t)n : -1 - (int64_t)~n;
}

static uint64_t count_at(const uint8_t *at)
{
    return (uint64_t)number_at(at, 4) & UINT32_MAX;
}

static const uint8_t *take(int64_t *row, size_t len, const uint8_t *at, unsigned bytes)
{
    for (size_t j = 0; j < len; j++)
        row[j] = number_at(at + bytes * j, bytes);
    return at + bytes * len;
}

static void lend(struct channel *c, size_t N)
{
    c->lends = (struct second_channel){.N = N, .h = {c->h, N}, .e = {c->e, N}, .u = {c->u, N}, .V = {c->V, N},
                                       .Q = {c->Q, N ? 3 * (N - 1) : 0}, .F = {c->F, 3 * N},
                                       .damping = {c->damping, N}};
}

/* The reader's checks of the bytes; the row beside the file, if there is one, has its place among the lent rows: if
   its length is wrong, the second program's reader is lent rows of a wrong length. */
static struct second_answer reader(const uint8_t *file, size_t len, bool beside, size_t beside_len, struct channel *c)
{
    uint64_t N = len >= HEAD ? count_at(file + 4) : 0;
    if (N > CELLS)
        N = 0;
    lend(c, beside && beside_len != 4 * N ? 0 : (size_t)N);
    return second_read(file, len, &c->lends);
}

/* The channel of a file whose length and offsets are right, whatever its counts and values are. */
static void take_all(const uint8_t *file, struct channel *c)
{
    size_t N = (size_t)count_at(file + 4);
    const uint8_t *at = file + ROWS_START;
    lend(c, N);
    c->lends.X = count_at(file + 8);
    c->lends.T = count_at(file + 12);
    c->lends.accepted = count_at(file + 16);
    c->lends.wanted = count_at(file + 20);
    at = take(c->h, N, at, 4);
    at = take(c->e, N, at, 4);
    at = take(c->u, N, at, 4);
    at = take(c->V, N, at, 4);
    at = take(c->Q, 3 * (N - 1), at, 8);
    at = take(c->F, 3 * N, at, 8);
    take(c->damping, N, at, 4);
}

uint64_t expected_check(const uint8_t *file, size_t file_len)
{
    struct channel c;
    return answer(reader(file, file_len, false, 0, &c));
}

/* What the reader finds before the counts and the values comes first. From there on the second program's step has the
   order: counts, all values with the poured ones among them, depths, time step, rows, then 11 and the stages. */
uint64_t expected_step(uint8_t *file, size_t file_len, const uint8_t *poured, size_t poured_len)
{
    struct channel c;
    int64_t s[CELLS];
    struct second_answer a = reader(file, file_len, true, poured_len, &c);
    if (a.number == 1 || (a.number >= 12 && a.number <= 14))
        return answer(a);
    take_all(file, &c);
    take(s, poured_len / 4, poured, 4);
    a = second_step(&c.lends, (struct second_read_row){s, poured_len / 4});
    if (a.number == 0)
        second_write(&c.lends, file, file_len);
    return answer(a);
}

uint64_t expected_filter(uint8_t *file, size_t file_len)
{
    struct channel c;
    struct second_answer a = reader(file, file_len, false, 0, &c);
    if (a.number)
        return answer(a);
    a = second_filter(&c.lends);
    if (a.number == 0)
        second_write(&c.lends, file, file_len);
    return answer(a);
}

uint64_t expected_run(uint8_t *file, size_t file_len, uint64_t most)
{
    static const int64_t nothing[CELLS];
    struct channel c;
    struct second_answer a = reader(file, file_len, false, 0, &c);
    if (a.number)
        return answer(a);
    uint64_t count = 0;
    while (c.lends.accepted < c.lends.wanted && count < most && a.number == 0) {
        a = second_step(&c.lends, (struct second_read_row){nothing, (size_t)c.lends.N});
        if (a.number == 0)
            count++;
    }
    if (a.number == 0 && c.lends.accepted < c.lends.wanted)
        a.number = MORE;
    a.count = count;
    second_write(&c.lends, file, file_len);
    return answer(a);
}

uint64_t expected_make(uint64_t cells, uint64_t width_mm, uint64_t step_ms, uint64_t wanted,
                       const uint8_t *depths, size_t depths_len,
                       const uint8_t *heights, size_t heights_len,
                       const uint8_t *velocities, size_t velocities_len,
                       const uint8_t *dampings, size_t dampings_len,
                       uint8_t *file, size_t file_len)
{
    struct channel c;
    if (cells < 8 || cells > CELLS)
        return refused(1);
    size_t N = (size_t)cells;
    if (depths_len != 4 * N || heights_len != 4 * N || velocities_len != 4 * N || dampings_len != 4 * N)
        return refused(1);
    lend(&c, N);
    c.lends.X = width_mm;
    c.lends.T = step_ms;
    c.lends.wanted = wanted;
    take(c.h, N, depths, 4);
    take(c.e, N, heights, 4);
    take(c.u, N, velocities, 4);
    take(c.damping, N, dampings, 4);
    struct second_answer a = second_make(&c.lends);
    bool input = (a.number >= 1 && a.number <= 5) || a.number == 26 || a.number >= 31;
    if (!input && file_len != 28 + 68 * N)
        return refused(15);
    if (a.number == 0)
        second_write(&c.lends, file, file_len);
    return answer(a);
}
