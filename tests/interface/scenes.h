/* Channels for the test of the C interface, drawn from a seed. */
#ifndef SCENES_H
#define SCENES_H

#include <stdbool.h>
#include <stddef.h>
#include <stdint.h>

enum { MOST_CELLS = 256 };

/* What a channel is made from, and a row to pour into it. */
struct scene {
    uint64_t cells, width, step, wanted;
    int32_t depths[MOST_CELLS], heights[MOST_CELLS], velocities[MOST_CELLS], dampings[MOST_CELLS], poured[MOST_CELLS];
};

/* Where the draws start. Dampings are drawn apart: what else is drawn does not hang on them. */
void seed(uint64_t from);
uint64_t draw(void);
bool one_in(uint64_t n);
int64_t between(int64_t low, int64_t high);

/* A size up to top, each order of magnitude as likely as another. */
int64_t magnitude(int64_t top);

/* One of the values named. */
#define PICK(...) pick((const int64_t[]){__VA_ARGS__}, sizeof (const int64_t[]){__VA_ARGS__} / sizeof(int64_t))
int64_t pick(const int64_t *from, size_t n);

/* In all scenes: every second one has no damping; the others have it in one cell, alike in all, more and more towards an
   end, or in each cell another. */

/* Waves that step and settle. */
void calm(struct scene *s, size_t cells);
/* Anything within the ranges. */
void wild(struct scene *s, size_t cells);
/* Fast water, or shallow water with much poured into it, over long steps: corrections wander, and some leave a range
   late. */
void violent(struct scene *s, size_t cells);
/* Time steps that are nearly too long, over shallow water or over water that is near its highest: corrections grow from
   one to the next, and leave a range late. */
void hasty(struct scene *s, size_t cells);
/* Deep and fast water, to be scaled to the edge of a refusal. */
void deep(struct scene *s, size_t cells);
/* Every V of make is a half in exact arithmetic, so that the order of the float operations decides its rounding. */
void reduced_halves(struct scene *s, size_t cells);
/* A quarter of the dispersive parts of make are halves in exact arithmetic. */
void flux_halves(struct scene *s, size_t cells);

#endif
