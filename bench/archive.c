/* The archive and the second program on the same channel files, in one run.
   archive times FOLDER: for each number of cells, damping and call prints a line: cells, damping of every cell, call,
   steps, stages, and the best seconds of the archive and of the second program; writes the files before and after to
   FOLDER.
   archive stack: prints the bytes of stack that each call uses at 256 cells. */
#define _GNU_SOURCE
#include "../tests/everywhere/by_second.h"
#include "../include/pathpetal.h"

#include <pthread.h>
#include <stdio.h>
#include <stdlib.h>
#include <string.h>
#include <time.h>

enum { CELLS = 256, LONGEST = 28 + 68 * CELLS, ROUNDS = 15, STACK = 1 << 20, KINDS = 5 };

struct channel {
    size_t len;
    uint8_t file[LONGEST];
};

static const uint8_t nothing[4 * CELLS];

static void die(const char *why)
{
    fprintf(stderr, "%s\n", why);
    exit(2);
}

static void put(uint8_t *at, long value)
{
    for (int i = 0; i < 4; i++)
        at[i] = (uint8_t)((unsigned long)value >> 8 * i);
}

/* A smooth hump of 20 mm let go from rest in water of 1 m, over a bottom that rises gently, with one damping in all
   cells. */
static struct channel hump(size_t N, uint64_t wanted, long damping)
{
    struct channel c = {.len = pathpetal_length(N)};
    uint8_t h[4 * CELLS], e[4 * CELLS], d[4 * CELLS];
    for (size_t j = 0; j < N; j++) {
        long far = ((long)(2 * j) - (long)N) * 1000 / (long)N;
        put(h + 4 * j, 1000 - (long)j * 200 / (long)N);
        put(e + 4 * j, far > -300 && far < 300 ? 20000 * (90000 - far * far) / 90000 : 0);
        put(d + 4 * j, damping);
    }
    if (by_second_make(N, 500, 20, wanted, h, 4 * N, e, 4 * N, nothing, 4 * N, d, 4 * N, c.file, c.len))
        die("the bench's channel is refused");
    return c;
}

typedef uint64_t stepper(uint8_t *, size_t, const uint8_t *, size_t);
typedef uint64_t runner(uint8_t *, size_t, uint64_t);

static double now(void)
{
    struct timespec t;
    clock_gettime(CLOCK_MONOTONIC, &t);
    return (double)t.tv_sec + 1e-9 * (double)t.tv_nsec;
}

/* Seconds for the steps, call by call, and the stages that they took. */
static double stepped(stepper *step, struct channel *c, long steps, long *stages)
{
    double start = now();
    *stages = 0;
    for (long i = 0; i < steps; i++) {
        uint64_t answer = step(c->file, c->len, nothing, 4 * (size_t)pathpetal_cells(c->file));
        if (pathpetal_number(answer))
            die("a step is refused");
        *stages += 1 + (long)pathpetal_count(answer);
    }
    return now() - start;
}

/* Seconds for one run to the end. */
static double ran(runner *run, struct channel *c, long steps)
{
    double start = now();
    uint64_t answer = run(c->file, c->len, (uint64_t)steps);
    double seconds = now() - start;
    if (pathpetal_number(answer) || pathpetal_count(answer) != (uint64_t)steps)
        die("a run is refused");
    return seconds;
}

static void store(const char *folder, size_t N, long damping, const char *when, const struct channel *c)
{
    char name[4096];
    snprintf(name, sizeof name, "%s/%zu-%ld.%s", folder, N, damping, when);
    FILE *f = fopen(name, "wb");
    if (!f || fwrite(c->file, 1, c->len, f) != c->len || fclose(f))
        die("a file cannot be written");
}

static void least(double *best, double seconds)
{
    *best = seconds < *best ? seconds : *best;
}

static void compare(const char *folder, size_t N, long damping, long steps)
{
    const struct channel start = hump(N, (uint64_t)steps, damping);
    double best[2][2] = {{1e9, 1e9}, {1e9, 1e9}};
    struct channel end[4];
    long stages = 0;
    for (int round = 0; round < ROUNDS; round++) {
        for (int i = 0; i < 4; i++)
            end[i] = start;
        least(&best[0][0], ran(pathpetal_run, &end[0], steps));
        least(&best[0][1], ran(by_second_run, &end[1], steps));
        least(&best[1][0], stepped(pathpetal_step, &end[2], steps, &stages));
        least(&best[1][1], stepped(by_second_step, &end[3], steps, &stages));
    }
    for (int i = 1; i < 4; i++)
        if (memcmp(end[0].file, end[i].file, start.len))
            die("the two differ");
    for (int i = 0; i < 2; i++)
        printf("%zu %ld %s %ld %ld %.9f %.9f\n", N, damping, i ? "step" : "run", steps, stages, best[i][0], best[i][1]);
    store(folder, N, damping, "before", &start);
    store(folder, N, damping, "after", &end[0]);
}

/* One call, by the archive or by the second program, on a channel of 256 cells. */
struct one_call {
    int kind;
    int second;
    struct channel c;
};

static const char *const names[KINDS] = {"make", "check", "step", "filter", "run"};

static void *does(void *given)
{
    struct one_call *one = given;
    uint8_t *f = one->c.file, h[4 * CELLS];
    size_t len = one->c.len, row = 4 * CELLS;
    uint64_t answer = 0;
    for (size_t j = 0; j < CELLS; j++)
        put(h + 4 * j, 1000);
    switch (one->kind) {
    case 0:
        answer = (one->second ? by_second_make : pathpetal_make)(CELLS, 500, 20, 9, h, row, nothing, row, nothing, row,
                                                                 nothing, row, f, len);
        break;
    case 1: answer = (one->second ? by_second_check : pathpetal_check)(f, len); break;
    case 2: answer = (one->second ? by_second_step : pathpetal_step)(f, len, nothing, row); break;
    case 3: answer = (one->second ? by_second_filter : pathpetal_filter)(f, len); break;
    default: answer = (one->second ? by_second_run : pathpetal_run)(f, len, 3); break;
    }
    if (pathpetal_number(answer))
        die("a call is refused");
    return NULL;
}

static void *does_nothing(void *given)
{
    struct one_call *one = given;
    uint8_t h[4 * CELLS];
    for (size_t j = 0; j < CELLS; j++)
        put(h + 4 * j, 1000);
    memcpy(one->c.file, h, sizeof h);
    return NULL;
}

/* Bytes of a painted stack that were written on, when a thread does its work on it. */
static size_t touched(void *(*work)(void *), struct one_call *given)
{
    unsigned char *stack = aligned_alloc(4096, STACK);
    pthread_attr_t attr;
    pthread_t thread;
    size_t low = 0;
    memset(stack, 0xA5, STACK);
    pthread_attr_init(&attr);
    if (pthread_attr_setstack(&attr, stack, STACK) || pthread_create(&thread, &attr, work, given))
        die("no thread");
    pthread_join(thread, NULL);
    while (low < STACK && stack[low] == 0xA5)
        low++;
    free(stack);
    return STACK - low;
}

static void stacks(void)
{
    static struct one_call one;
    for (int second = 0; second < 2; second++) {
        printf("%s", second ? "second" : "archive");
        for (int kind = 0; kind < KINDS; kind++) {
            one = (struct one_call){kind, second, hump(CELLS, 3, 0)};
            size_t used = touched(does, &one), idle = touched(does_nothing, &one);
            printf(" %s %zu", names[kind], used - idle);
        }
        printf("\n");
    }
}

int main(int argc, char **argv)
{
    if (argc == 3 && !strcmp(argv[1], "times")) {
        compare(argv[2], 256, 0, 400);
        compare(argv[2], 256, 100, 400);
        compare(argv[2], 64, 0, 1600);
        compare(argv[2], 8, 0, 6000);
        return 0;
    }
    if (argc == 2 && !strcmp(argv[1], "stack")) {
        stacks();
        return 0;
    }
    fputs("usage: archive times FOLDER | stack\n", stderr);
    return 2;
}
