/* layout.h: the lines of a staff record that are not rows: its head, what its gauges counted, and its last line.

       step,time_s,cell_10_um,cell_60_um
       # origin 6c0f... at step 0
       # rule 3
       # filter-every 50
       # pour 8e1b...
       # every 10 from step 0
       0,0.000,0,0
       ...
       # cell 10: 6000 heights from step 1, 22 waves, largest 81234 um, sum 912345 um, noted from step 812 to step 871
       # cell 60: 6000 heights from step 1, 0 waves, largest 0 um, sum 0 um
       # complete: 6000 of 6000 steps accepted, 601 rows, sha256 91d4...

   The head says of which run the record is and which rows it has; the sum at the very end is that of all bytes before
   its own digits, so that nothing can be taken away or changed unseen. What the gauges counted stands there when the
   run has ended, complete or open, and not while it goes. A record of the unsaid rule has no line on it, and need not
   have what gauges counted. */
#ifndef LAYOUT_H
#define LAYOUT_H

#include "beside.h"

/* What the head says after the names of the columns. */
struct head {
    struct run_id run;
    uint32_t every, first; /* the steps between two rows, and the step of the first */
};

/* The names of the columns, for cells counted from 0; then what the head says. */
void put_names(struct text *text, const size_t *cells, size_t count);
void put_head(struct text *text, const struct head *head);

/* Takes apart the lines that follow the names; gives their length, 0 if they are no head. */
size_t take_head(const char *lines, struct head *head);

/* How many lines they are, and at most. */
size_t head_lines(const struct head *head);
enum { HEAD_LINES_MOST = 5 };

/* The line on what a gauge counted, with its end; and taken apart, whether it is one. */
void put_waves(struct text *text, const struct waves *waves);
bool take_waves(const char *line, struct waves *waves);

/* What the last line says. */
struct tail {
    bool complete;
    uint32_t accepted, wanted, first;
    bool summed; /* it has the two that follow: records of earlier programs have not */
    uint32_t rows;
    struct hex sum;
    size_t before; /* bytes of the line before the digits of the sum */
};

/* The last line: without its sum, which is added with the line's end; and taken apart, without its end. */
void put_tail(struct text *text, const struct tail *tail);
bool take_tail(const char *line, struct tail *tail);

#endif
