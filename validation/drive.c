/* Steps channels through pathpetal.h as standard input asks, one command a line, and prints what becomes of them.

     make N X T WANTED ACCEPTED, then a line each of N depths, heights, velocities, dampings   prints 'made NUMBER'; the
                               file is that of a new channel, but says that ACCEPTED steps are accepted
     walk STEPS EVERY FILTER   takes STEPS steps with nothing poured, and a filter pass after every FILTER-th (none
                               once the channel is complete: it would be refused); prints 'e' and the heights after
                               every EVERY-th (0: never), then 'walked STEPS NUMBER STAGE' and how many steps took
                               1 to 10 corrections
     pour CELL AMOUNT          one step with AMOUNT poured into CELL; prints 'poured NUMBER'
     filter                    one filter pass; prints 'filtered NUMBER'
     look                      prints 'e' and the heights, 'u' and the velocities, 'sum' and the heights' sum
     same                      prints 'same 1' if a copy of the file that is checked again and run on takes the same
                               two steps, byte for byte, as the file itself, else 'same 0' */
#include "pathpetal.h"

#include <inttypes.h>
#include <stdio.h>
#include <stdlib.h>
#include <string.h>

enum { CELLS = 256, MOST = 28 + 68 * CELLS };

static uint8_t file[MOST], nothing[4 * CELLS];
static size_t cells;

_Noreturn static void fail(const char *what)
{
    fprintf(stderr, "drive: %s\n", what);
    exit(2);
}

static long long take(void)
{
    long long n;
    if (scanf("%lld", &n) != 1)
        fail("a number is missing");
    return n;
}

static void put(uint8_t *at, long long n)
{
    uint32_t bits = (uint32_t)n;
    for (int i = 0; i < 4; i++)
        at[i] = (uint8_t)(bits >> 8 * i);
}

static void take_row(uint8_t *row)
{
    for (size_t j = 0; j < cells; j++)
        put(row + 4 * j, take());
}

static void make(void)
{
    static uint8_t depths[4 * CELLS], heights[4 * CELLS], velocities[4 * CELLS], dampings[4 * CELLS];
    long long n = take(), width = take(), step = take(), wanted = take(), accepted = take();
    if (n < 1 || n > CELLS)
        fail("too many cells");
    cells = (size_t)n;
    take_row(depths);
    take_row(heights);
    take_row(velocities);
    take_row(dampings);
    uint64_t answer = pathpetal_make(cells, (uint64_t)width, (uint64_t)step, (uint64_t)wanted, depths, 4 * cells,
                                     heights, 4 * cells, velocities, 4 * cells, dampings, 4 * cells, file,
                                     pathpetal_length(cells));
    put(file + 16, accepted); /* the file's fifth count */
    printf("made %u\n", pathpetal_number(answer));
}

static void print_heights(void)
{
    putchar('e');
    for (size_t j = 0; j < cells; j++)
        printf(" %" PRId32, pathpetal_height_um(file, j));
    putchar('\n');
}

static void walk(void)
{
    long long steps = take(), every = take(), filter = take(), done = 0;
    uint64_t answer = 0, corrections[11] = {0};
    size_t length = pathpetal_length(cells);
    while (done < steps) {
        answer = pathpetal_step(file, length, nothing, 4 * cells);
        if (pathpetal_number(answer))
            break;
        done++;
        corrections[pathpetal_count(answer) % 11]++;
        if (filter && done % filter == 0 && !pathpetal_complete(file)) {
            answer = pathpetal_filter(file, length);
            if (pathpetal_number(answer))
                break;
        }
        if (every && done % every == 0)
            print_heights();
    }
    printf("walked %lld %u %u", done, pathpetal_number(answer), pathpetal_stage(answer));
    for (int k = 1; k <= 10; k++)
        printf(" %" PRIu64, corrections[k]);
    putchar('\n');
}

static void pour(void)
{
    uint8_t poured[4 * CELLS] = {0};
    long long cell = take(), amount = take();
    if (cell < 0 || (size_t)cell >= cells)
        fail("no such cell");
    put(poured + 4 * cell, amount);
    printf("poured %u\n", pathpetal_number(pathpetal_step(file, pathpetal_length(cells), poured, 4 * cells)));
}

static void look(void)
{
    int64_t sum = 0;
    print_heights();
    putchar('u');
    for (size_t j = 0; j < cells; j++) {
        printf(" %" PRId32, pathpetal_velocity_um_s(file, j));
        sum += pathpetal_height_um(file, j);
    }
    printf("\nsum %" PRId64 "\n", sum);
}

static void same(void)
{
    static uint8_t copy[MOST];
    size_t length = pathpetal_length(cells);
    memcpy(copy, file, length);
    uint64_t one = pathpetal_run(file, length, 2), checked = pathpetal_check(copy, length);
    pathpetal_step(copy, length, nothing, 4 * cells);
    pathpetal_step(copy, length, nothing, 4 * cells);
    printf("same %d\n", pathpetal_count(one) == 2 && checked == 0 && memcmp(copy, file, length) == 0);
}

int main(void)
{
    char command[16];
    while (scanf("%15s", command) == 1) {
        if (!strcmp(command, "make"))
            make();
        else if (!strcmp(command, "walk"))
            walk();
        else if (!strcmp(command, "pour"))
            pour();
        else if (!strcmp(command, "filter"))
            printf("filtered %u\n", pathpetal_number(pathpetal_filter(file, pathpetal_length(cells))));
        else if (!strcmp(command, "look"))
            look();
        else if (!strcmp(command, "same"))
            same();
        else
            fail("no such command");
        fflush(stdout);
    }
    return 0;
}
