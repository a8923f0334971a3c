/* Steps of the same channel by the library and by the second program, in one run.
   Prints steps a second, nanoseconds a cell and stage, the ratio, and the most stack that one step uses. */
#define _GNU_SOURCE
#include "../tests/compare/lent.h"
#include "../second/second.h"

#include <pthread.h>
#include <stdint.h>
#include <stdio.h>
#include <stdlib.h>
#include <string.h>
#include <time.h>

enum { CELLS = 256, ROUNDS = 15, STACK = 1 << 20 };

struct channel {
    size_t N;
    uint64_t X, T, accepted, wanted;
    int64_t h[CELLS], e[CELLS], u[CELLS], V[CELLS], Q[3 * CELLS], F[3 * CELLS], damping[CELLS], s[CELLS];
};

typedef struct second_answer stepper(struct channel *);

static struct second_answer library_step(struct channel *c)
{
    uint64_t stage, place, count;
    uint64_t number = lent_step(c->N, c->X, c->T, &c->accepted, c->wanted, c->h, c->N, c->e, c->N, c->u, c->N, c->V, c->N,
                                c->Q, 3 * (c->N - 1), c->F, 3 * c->N, c->damping, c->N, c->s, c->N, &stage, &place,
                                &count);
    return (struct second_answer){(unsigned)number, (unsigned)stage, (unsigned)place, count};
}

static struct second_channel lend(struct channel *c)
{
    return (struct second_channel){c->N, c->X, c->T, c->accepted, c->wanted, {c->h, c->N}, {c->e, c->N}, {c->u, c->N},
                                   {c->V, c->N}, {c->Q, 3 * (c->N - 1)}, {c->F, 3 * c->N}, {c->damping, c->N}};
}

static struct second_answer second_does(struct channel *c)
{
    struct second_channel lent = lend(c);
    struct second_answer a = second_step(&lent, (struct second_read_row){c->s, c->N});
    c->accepted = lent.accepted;
    return a;
}

/* A smooth hump of 20 mm let go from rest in water of 1 m, over a bottom that rises gently, with one damping in all
   cells. */
static struct channel hump(size_t N, int64_t damping)
{
    struct channel c = {.N = N, .X = 500, .T = 20, .wanted = 1000000};
    for (size_t j = 0; j < N; j++) {
        int64_t far = ((int64_t)(2 * j) - (int64_t)N) * 1000 / (int64_t)N;
        c.h[j] = 1000 - (int64_t)j * 200 / (int64_t)N;
        c.e[j] = far > -300 && far < 300 ? 20000 * (90000 - far * far) / 90000 : 0;
        c.damping[j] = damping;
    }
    struct second_channel lent = lend(&c);
    if (second_make(&lent).number) {
        fputs("the bench's channel is refused\n", stderr);
        exit(2);
    }
    return c;
}

static double now(void)
{
    struct timespec t;
    clock_gettime(CLOCK_MONOTONIC, &t);
    return (double)t.tv_sec + 1e-9 * (double)t.tv_nsec;
}

/* Seconds for the steps, and the stages they took. */
static double timed(stepper *step, struct channel c, long steps, long *stages, struct channel *end)
{
    double start = now();
    *stages = 0;
    for (long i = 0; i < steps; i++) {
        struct second_answer answer = step(&c);
        if (answer.number) {
            fprintf(stderr, "step %ld refused %d\n", i, (int)answer.number);
            exit(2);
        }
        *stages += 1 + (long)answer.count;
    }
    double seconds = now() - start;
    *end = c;
    return seconds;
}

static void compare(size_t N, int64_t damping, long steps)
{
    struct channel c = hump(N, damping), a, b;
    double best[2] = {1e9, 1e9};
    long stages = 0;
    for (int round = 0; round < ROUNDS; round++) {
        double t = timed(library_step, c, steps, &stages, &a);
        best[0] = t < best[0] ? t : best[0];
        t = timed(second_does, c, steps, &stages, &b);
        best[1] = t < best[1] ? t : best[1];
    }
    if (memcmp(&a, &b, sizeof a)) {
        fputs("the two differ\n", stderr);
        exit(1);
    }
    printf("%5zu %8d", N, (int)damping);
    for (int i = 0; i < 2; i++)
        printf(" %12.0f %10.1f", (double)steps / best[i], 1e9 * best[i] / ((double)stages * (double)N));
    printf(" %8.2f %8.2f\n", best[0] / best[1], (double)stages / (double)steps);
}

struct one_step {
    stepper *step;
    struct channel c;
};

static void *run_one(void *given)
{
    struct one_step *one = given;
    one->step(&one->c);
    return NULL;
}

static void *run_none(void *given)
{
    return given;
}

/* Bytes of a painted stack that were written on, when a thread does its work on it. */
static size_t touched(void *(*work)(void *), void *given)
{
    unsigned char *stack = aligned_alloc(4096, STACK);
    pthread_attr_t attr;
    pthread_t thread;
    size_t low = 0;
    memset(stack, 0xA5, STACK);
    pthread_attr_init(&attr);
    if (pthread_attr_setstack(&attr, stack, STACK) || pthread_create(&thread, &attr, work, given))
        exit(2);
    pthread_join(thread, NULL);
    while (low < STACK && stack[low] == 0xA5)
        low++;
    free(stack);
    return STACK - low;
}

static size_t stack_of(stepper *step)
{
    static struct one_step one;
    one = (struct one_step){step, hump(256, 0)};
    return touched(run_one, &one) - touched(run_none, NULL);
}

int main(void)
{
    printf("                 library                 second program\n");
    printf("    N  damping      steps/s ns/cell·st      steps/s ns/cell·st    ratio stages/step\n");
    compare(256, 0, 400);
    compare(256, 100, 400);
    compare(64, 0, 1600);
    compare(8, 0, 6000);
    printf("stack of one step at N = 256: library %zu bytes, second program %zu bytes\n", stack_of(library_step),
           stack_of(second_does));
    return 0;
}
