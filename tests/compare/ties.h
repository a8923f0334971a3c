/* Exact ties in the second program: numbers that it rounds and that lie half way between two whole numbers. */
#ifndef TIES_H
#define TIES_H

#include "../../second/second.h"

#include <stdbool.h>

enum place {
    PREDICTED_W, CORRECTED_W, PREDICTED_V, CORRECTED_V, FILTERED_G, FILTERED_V, PLAIN, MINUS_F, DAMPED, /* quotients */
    DISPERSIVE, SOLVED_u, MADE_V,                                                                    /* floats */
    PLACES
};

/* The number itself is a half; or it is a float that is none, of a real number that is: the float is smaller in size,
   or larger. */
enum { IS_HALF, SMALLER, LARGER, NEARS };

/* A tie is of a place, a nearness, a sign (1: below zero) and a parity: that of the neighbour towards zero (1: odd). */
enum { TIES = PLACES * NEARS * 2 * 2 };
static inline int tie_of(int place, int near, int negative, int odd)
{
    return ((place * NEARS + near) * 2 + negative) * 2 + odd;
}

static inline int place_of(int tie) { return tie / (NEARS * 2 * 2); }

/* How often the second program met each since they were last set to 0. */
extern long ties[TIES];
extern const int tie_count; /* TIES, for tests/compare/computed */

/* A tie that the second program rounds the other way, or TIES: none. */
extern int turned;

/* How often F and what the damping takes from it, rounded at once, gave another number since it was last set to 0; and
   whether the second program rounds them so. */
extern long apart;
extern int at_once;

/* The trial's Q and F at the end of a step's prediction; whether the step comes so far. */
bool predicted_levels(const struct second_channel *channel, struct second_read_row s, int64_t *Q, int64_t *F);

/* How many cells have too little water at a stage of a step that is refused 4 there, or in a filter pass (s is NULL). */
long dry_cells(const struct second_channel *channel, const int64_t *s, uint64_t stage);

#endif
