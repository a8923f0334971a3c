/* gauges.h: a gauge of the library at each marked cell of a run, in groups of eight, fed after every accepted step.

   What they count is the library's. The steps between which the largest wave ran are noted here, from what changes in
   the readings. */
#ifndef GAUGES_H
#define GAUGES_H

#include "channel.h"

enum {
    GAUGE_NUMBERS = 8,                                      /* of one gauge, in the order of pathpetal.h: */
    GAUGE_FED = 1,                                          /* this one is how many heights it was fed, */
    GAUGE_LAST = 2,                                         /* this the last of them, */
    GAUGE_HIGHEST = 4,                                      /* and these the highest and lowest since a crossing */
    GAUGE_LOWEST = 5,
    GAUGE_LENGTH = 8 * GAUGE_NUMBERS,                       /* its bytes */
    GROUP_GAUGES = PATHPETAL_GAUGES_LENGTH / GAUGE_LENGTH,  /* gauges of one group */
    GROUPS = (CELLS_MOST + GROUP_GAUGES - 1) / GROUP_GAUGES /* a gauge for each cell, and no more */
};

/* Steps at which a gauge met a crossing, 0 for none: the last; and those between which the first of its largest waves
   ran, from the one up to, not including, the other. */
struct noted {
    int64_t crossed, from, to;
};

/* A gauge as it is kept beside a saved channel. */
struct gauge {
    int64_t numbers[GAUGE_NUMBERS];
    struct noted noted;
};

/* All gauges of a run. */
struct gauges {
    size_t count;
    uint32_t placed; /* the count of the channel that they were placed in: the next step was the first that fed them */
    uint8_t bytes[GROUPS * PATHPETAL_GAUGES_LENGTH]; /* group after group */
    int64_t readings[GROUPS * PATHPETAL_READINGS];   /* what they tell */
    struct noted noted[CELLS_MOST];
};

/* What one gauge tells: its cell, how many heights it was fed, from that after which step on, and of these the complete
   waves, the largest height of one and the sum of their heights, um. */
struct waves {
    int64_t cell, fed, first, count, largest, sum;
    int64_t from, to; /* steps, as noted */
};
struct waves waves_at(const struct gauges *gauges, size_t staff);

/* The mean height of a wave, rounded as the rule rounds: to the nearest um, a half to the even one. There must be a
   wave. */
int64_t mean_height(const struct waves *waves);

/* Places a gauge at each of these cells of a channel, counted from 0; gives the library's answer. */
uint64_t gauges_place(struct gauges *gauges, const uint8_t *file, const size_t *cells, size_t count);

/* Feeds every gauge the height at its cell, or none: gives the library's answer. */
uint64_t gauges_feed(struct gauges *gauges, const uint8_t *file);

/* The gauges as they are kept. */
void gauges_keep(const struct gauges *gauges, struct gauge *kept);

/* Takes gauges that were kept with a channel; whether they are such as stand at these cells, were fed after every step
   since they were placed, the channel's own heights last, are taken by the library, and have counts and noted steps
   that agree. */
bool gauges_take(struct gauges *gauges, const struct gauge *kept, const size_t *cells, size_t count,
                 const uint8_t *file);

#endif
