/* pour.h: water poured into cells at given steps, from a table with the columns step, cell and amount_um.

   Step k is the step that makes the accepted count k. A step and cell may stand once; cells count from 1. */
#ifndef POUR_H
#define POUR_H

#include "channel.h"
#include "sum.h"

struct poured {
    uint32_t step, cell;
    int32_t amount; /* um */
    unsigned long line;
};

struct pour {
    struct poured *list; /* by step, then cell */
    size_t count;
    size_t next; /* the first that is not yet behind */
};

/* Reads a table for a channel. */
enum status pour_read(const char *path, const uint8_t *file, struct pour *pour);

/* What the table pours, whatever its order, its remarks and its line ends: the sum of its rows by step and cell, each
   as "step,cell,amount" with a line end. "none" if it has no rows. */
struct hex pour_sum(const struct pour *pour);

/* Passes over what belongs to steps that a channel has behind it. */
void pour_from(struct pour *pour, uint32_t accepted);

/* The next step into which water is poured; 0 if there is none. */
uint32_t pour_step(const struct pour *pour);

/* Whether water is poured into a step. */
bool pours_into(const struct pour *pour, uint32_t step);

/* Fills the row for that step, and goes on to the next. */
void pour_row(struct pour *pour, uint8_t *row, size_t cells);

#endif
