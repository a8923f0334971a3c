/* The ladder of time weights, for scenes whose levels are made to be weighed. */
#ifndef LADDER_H
#define LADDER_H

#include "scenes.h"

/* The row of weights that the next step has: the steps accepted so far, and never more than two. */
enum { RUNGS = 3 };
static int rung_of(const struct call *c) { return c->accepted < RUNGS - 1 ? (int)c->accepted : RUNGS - 1; }

/* By each row: the weight of the trial's level in a correction; and levels, newest first, that add nothing to a
   prediction and to a correction as much as the trial's. By the first row there are none. */
static const int64_t trial_weight[RUNGS] = {12, 10, 9}, late_levels[RUNGS][3] = {{0, 0, 0}, {1, 3, 0}, {0, -5, -16}};

#endif
