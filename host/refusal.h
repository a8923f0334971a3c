/* refusal.h: the library's refusals in words: why, in which cell or face, what stands there, and what to mend. */
#ifndef REFUSAL_H
#define REFUSAL_H

#include "channel.h"

/* What a refusal says, and what to mend in a survey; never NULL. */
const char *refusal_words(unsigned number);
const char *refusal_mend(unsigned number);

/* A channel's cell width in mm, its time step in ms, and its rows as the library takes them, 4 bytes a cell: those of a
   survey, without the reduced velocities, or of a file. */
struct rows {
    uint64_t width, step;
    size_t cells;
    const uint8_t *depths, *heights, *velocities, *dampings, *reduced;
};

/* Those of a file that the library takes, or refuses with a place or for its time step. */
struct rows rows_of(const uint8_t *file);

/* The deepest cell, counted from 0; of equal ones the first. */
size_t deepest_cell(const struct rows *rows);

/* Where an answer says that the fault is: ", in cell 36" or ", at face 7, between cells 7 and 8"; nothing where it has
   no place. */
struct shown refusal_place(uint64_t answer);

/* What stands at the place of an answer of make or check, to be said after the refusal's words: ", not 25,000"; of a
   time step that is too long ": 50 ms, with cells of 60 mm and a depth of 3,400 mm in cell 92"; nothing of other
   refusals without a place. */
struct standing refusal_found(uint64_t answer, const struct rows *rows);

/* Says what to mend where the time step is too long, of a survey or else of a file: the longest that the library allows,
   or the narrowest cells; and the longest that docs/CHOOSING.md advises. */
void say_time_step(const struct rows *rows, bool survey);

/* Says what to mend in a run whose step or filter pass was refused: the time step first, where it is longer than
   docs/CHOOSING.md advises; `poured` is whether water was poured into the step. */
void say_mend(const uint8_t *file, uint64_t answer, bool poured);

/* Where in a step: "in its prediction or before it", "in its correction 3". */
struct shown stage_words(unsigned stage);

#endif
