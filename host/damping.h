/* damping.h: which cells of a channel are damped, and how much, in words. */
#ifndef DAMPING_H
#define DAMPING_H

#include "text.h"

/* Some cells side by side, counted from 0. */
struct stretch {
    size_t first, end; /* end: the one after the last */
};

/* The first stretch of damped cells that begins at a cell or after it; at the end of the channel, and of no cell, where
   there is none. The file is one that the library takes. */
struct stretch damped_from(const uint8_t *file, size_t cell);

/* Whether there is one. */
bool is_damped(const uint8_t *file);

/* The cell with the greatest damping, counted from 0; of equal ones the first. */
size_t most_damped(const uint8_t *file);

/* "none", or "3 to 2,000 thousandths per second in cells 91 to 120; the greatest first in cell 120". */
void add_damping(struct text *text, const uint8_t *file);

#endif
