#ifndef SECOND_H
#define SECOND_H

/* Waves along one closed channel, after the written rule (docs/RULE.md), in whole numbers.
   Lengths are in µm but for h and X (mm); T is in ms. */

#include <stddef.h>
#include <stdint.h>

enum {
    SECOND_CELLS = 256,  /* most cells of a channel */
    SECOND_FILE = 17436, /* longest channel file, in bytes */
    SECOND_LINE = 64,    /* room for the printed line and its closing 0 */
    SECOND_GAUGES = 8,   /* most gauges */
    SECOND_STATE = 512,  /* bytes of the gauges' state */
    SECOND_READINGS = 48 /* numbers read of it: six of each gauge */
};

/* A lent row and its length. */
struct second_row {
    int64_t *at;
    size_t len;
};

/* A lent row that is only read. */
struct second_read_row {
    const int64_t *at;
    size_t len;
};

/* Of the counts and the depths together: a time step for which 9,810·h·T² is more than 6,000,000·X²
   at the deepest h is too long, and every call that takes the channel then answers 26, after 4 and
   before 5. The damping of a cell is 0 to 10,000 thousandths per second; no call changes it. */
struct second_channel {
    uint64_t N, X, T, accepted, wanted;
    struct second_row h, e, u, V; /* N each */
    struct second_row Q;          /* 3(N-1): newest level, middle, oldest */
    struct second_row F;          /* 3N: newest level, middle, oldest */
    struct second_row damping;    /* N */
};

/* number 0: accepted, and count is the corrections of a step, the steps of a
   run or the place of a new gauge; otherwise the refusal's number and stage (a run's count stands).
   place, of the refusals 4, 5 and 31 to 38: the lowest cell at fault, counted
   from 1; of 35 the lowest face. Of 35 and 36 it is a place within the newest
   level that has a fault. In all other answers it is 0. */
struct second_answer {
    unsigned number, stage, place;
    uint64_t count;
};

/* Reads N, X, T, wanted, h, e, u, damping; fills V, Q, F and sets accepted to 0. */
struct second_answer second_make(struct second_channel *channel);

/* One step, with the amount s poured into each cell. Its time weights are those of the
   first step, of the second or of any later one, by the count of accepted steps alone. */
struct second_answer second_step(struct second_channel *channel, struct second_read_row s);

struct second_answer second_filter(struct second_channel *channel);

/* Steps with nothing poured, until complete or refused. */
struct second_answer second_run(struct second_channel *channel);

/* Fills the counts and the lent rows from a channel file. */
struct second_answer second_read(const uint8_t *bytes, size_t len, struct second_channel *channel);

/* Writes the channel file; len must be 28 + 68N. */
struct second_answer second_write(const struct second_channel *channel, uint8_t *bytes, size_t len);

/* Writes the one printed line of a file, newline and closing 0 included. */
struct second_answer second_print(const uint8_t *bytes, size_t len, char text[SECOND_LINE]);

/* What a gauge counts. */
struct second_waves {
    uint64_t crossings;   /* upward, of zero */
    uint64_t waves;       /* complete: from one crossing up to the next */
    int64_t largest, sum; /* of the waves' heights; 0 if there is no wave */
};

/* The counts of the whole record of heights that a gauge was fed. */
struct second_waves second_waves(struct second_read_row record);

/* The gauges of a channel, in a state of SECOND_STATE bytes, all 0 at first:
   of each gauge its cell, counted from 1, the heights fed, the last of them,
   the crossings, the highest and the lowest since the last crossing, and the
   largest and the sum of the waves' heights, 8 bytes each. A cell of 0 is no
   gauge, and the other seven are then 0 too. The channel's refusals come
   first; then 12, 14; 20, 21 or 21, 30. */
struct second_answer second_place_gauge(const struct second_channel *channel, uint8_t *state,
                                        size_t len, uint64_t cell);

/* Feeds each gauge the height at its cell. */
struct second_answer second_feed_gauges(const struct second_channel *channel, uint8_t *state,
                                        size_t len);

/* Of each gauge, in six numbers: cell, heights fed, crossings, waves, largest
   and sum. Refused 12, 14, 15. */
struct second_answer second_read_gauges(const uint8_t *state, size_t len,
                                        struct second_row readings);

#endif
