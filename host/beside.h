/* beside.h: NAME.run, which stands beside each channel that a run saves, and says of which run it is.

   A run is known by the channel that it began with, by the rule that its steps follow and by what goes into them: the
   filter passes and the poured water. Two runs that agree in these take the same numbers, so what one left the other
   may go on with. NAME.run also says how far the staff record had come when the channel was saved, and what its gauges
   were then. It is written before its channel and speaks of two: the one that stands, and the one that is about to take
   its place. So whichever of them a killed run leaves, it is known. */
#ifndef BESIDE_H
#define BESIDE_H

#include "gauges.h"
#include "sum.h"
#include "text.h"

enum { RULE_UNSAID = 1 }; /* the rule of what says none: programs that had no other did not say it */

/* Which run. */
struct run_id {
    struct hex origin;     /* of the channel that it began with, */
    uint32_t origin_step;  /* and its count */
    uint32_t rule;         /* that its steps and filter passes follow, as pathpetal_rule tells it */
    uint32_t filter_every; /* 0 for never */
    struct hex pour;       /* of the poured rows; "none" where nothing is poured */
};

/* A channel of a run, as it was saved. */
struct saved {
    struct hex channel;
    uint32_t step;
    bool recorded;   /* a staff record had come this far: */
    struct hex sum;  /* of its first */
    uint64_t length; /* bytes, which end with a row */
    uint32_t rows, first; /* how many rows those are, and the step of the first */
    size_t gauges;        /* one for each of its staffs; by the unsaid rule there may be none */
    struct gauge gauge[CELLS_MOST];
};

struct beside {
    char *path;
    int file;    /* open for this run alone; -1 where it is only read */
    bool unused; /* it speaks of no channel that is there, and goes with this run */
    bool strange; /* something stands there that no run has written */
    struct run_id run;
    struct saved saved[2];
    size_t count; /* of saved channels; 0 where nothing is known */
};

/* The lines on a run, as they stand in NAME.run and, each after a mark, in a record; and taken apart: gives what
   follows them, NULL if they are not there. They are a run's only if putting them together gives the same bytes. */
void put_run(struct text *text, const char *mark, const struct run_id *run);
const char *take_run(const char *lines, const char *mark, struct run_id *run);

/* The rule of this program: that of the library that it is linked with. */
uint32_t own_rule(void);

/* A rule that is not this program's, in words: "an earlier program's rule (1)". */
struct standing rule_words(uint32_t rule);

/* That steps were taken by another rule than this program's: "its steps were taken by an earlier program's rule (1);
   this program's is 2". Empty where they were not, or nothing says by which rule they were: 0. */
struct standing other_rule(uint32_t rule);

/* Tells that, where there is something to tell. */
void tell_rule(uint32_t rule);

/* Whether two runs follow the same rule, take the same filter passes and pour the same water; whether they also began
   with the same channel. What differs is added to `how`. */
bool same_options(const struct run_id *there, const struct run_id *here, struct text *how);
bool same_run(const struct run_id *there, const struct run_id *here, struct text *how);

/* Where it stands, for a channel that is read: beside the file itself, also where a link names it. */
char *beside_path(const char *channel);

/* Reads what stands beside a channel; nothing there is nothing known. */
enum status beside_read(const char *channel, struct beside *beside);

/* The same, for a channel that this run will save: no other run may save it meanwhile. */
enum status beside_hold(const char *channel, struct beside *beside);

/* What is known of a channel with these bytes; NULL if nothing is. */
const struct saved *beside_find(const struct beside *beside, const struct hex *channel);

/* The same of a channel with so many accepted steps, the last of them by the run that is spoken of: nothing is known of
   how those were taken that a channel had when its run began. */
const struct saved *beside_stepped(const struct beside *beside, const struct hex *channel, uint32_t accepted);

/* The rule that a channel's last steps were taken by, as what stands beside it says; 0 where nothing does. */
uint32_t rule_of(const char *path, const struct channel *channel);

/* Says of the channel about to be saved what it is. `stands` is the one at its name, NULL if it is none of this run. */
enum status beside_write(struct beside *beside, const struct run_id *run, const struct saved *stands,
                         const struct saved *coming);

void beside_free(struct beside *beside);

#endif
