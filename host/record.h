/* record.h: the staff record: the heights at marked cells every so many accepted steps.

   While a run goes, its rows are added to NAME.open; NAME appears when the run is complete, with a last line that says
   so. Its head says of which run it is (layout.h), and what stands beside a saved channel says how many of its bytes
   that channel has behind it, and their sum (beside.h). So a run goes on only with rows that are its own: it finds them
   in NAME.open or, where that has become NAME, in NAME, and writes the later ones again.

   A gauge stands at each marked cell (gauges.h), and is fed after every accepted step, also where no row is due. What
   they have counted comes before the last line; what they were when a channel was saved stands beside it. */
#ifndef RECORD_H
#define RECORD_H

#include "layout.h"
#include "whole.h"

struct record {
    char *path, *open_path;
    size_t *cells; /* from 0 */
    size_t count;  /* of marked cells */
    struct head head;
    int file;          /* NAME.open, for this run alone; -1 when there is no record */
    bool there;        /* NAME stood there when the run began, */
    struct stat mode;  /* whose mode the new one gets then, */
    int named;         /* and its contents, -1 where it cannot be read */
    bool named_whole;  /* its last line says complete, and its sum is right */
    bool made;         /* this run has made NAME.open, */
    bool begun;        /* and has begun to write it */
    bool spoilt;       /* another program has changed it since */
    bool over_open;    /* NAME.open is of no more use: NAME is whole */
    struct over over;  /* what of NAME may be written over */
    int found;         /* where the rows are that are kept: one of the two files, -1 for no rows */
    struct sum sum;    /* of the bytes that are kept or written */
    uint32_t rows;     /* among them */
    bool ungauged;     /* rows were found, but the gauges that were saved cannot be theirs */
    struct gauges gauges; /* one for each marked cell */
    char *line;        /* room for a row */
};

/* The marked cells of a list like 12,40. */
enum status record_cells(const char *list, const uint8_t *file, struct record *record);

/* Opens NAME.open for this run alone, and looks at NAME; writes nothing. */
enum status record_open(struct record *record, const struct run_id *run);

/* The step of the first row of a record that begins with a channel. */
uint32_t record_first(const struct record *record, const uint8_t *file);

/* Whether NAME is whole, and the record that a complete channel was saved with: what the gauges counted too. */
bool record_done(struct record *record, const struct saved *saved, const uint8_t *file);

/* Whether the rows that a saved channel has behind it are there, as it was saved with them, and its gauges can be its
   own; they are kept then. */
bool record_find(struct record *record, const struct saved *saved, const uint8_t *file);

/* The same for a channel that begins the record, or goes on with one whose rows are lost: nothing is kept, and the
   gauges are placed. Refused, with what is different, where NAME.open is of another run, or holds rows of this one that
   are not known to be the channel's. `replace` lets a run from step 0 write over it. */
enum status record_anew(struct record *record, const uint8_t *file, bool replace);

/* Whether NAME may be written over at the end: it is not there, is whole, of this run and with waves that are counted
   from the same step on, or `replace` is given. For the gauges that were found or placed. */
enum status record_name_free(struct record *record, bool replace);

/* Brings NAME.open to the rows that are kept, and writes that of the channel's own count if one is due and lacking. */
enum status record_begin(struct record *record, const uint8_t *file);

/* Whether a row is due at the channel's count, and the row. */
bool record_due(const struct record *record, uint32_t accepted);
enum status record_row(struct record *record, const uint8_t *file);

/* Feeds the gauges the heights after a step that was just accepted; gives the library's answer. */
uint64_t record_feed(struct record *record, const uint8_t *file);

/* All rows so far on disk. */
enum status record_flush(struct record *record);

/* How far the record has come, to be said beside a channel that is saved. */
void record_saved(const struct record *record, struct saved *saved);

/* What the gauges counted, and the last line: of a complete channel the record gets its name, if all its bytes are
   still those that were written; else it stays under NAME.open. */
enum status record_end(struct record *record, const uint8_t *file);

/* What is left under NAME.open: nothing, the rows so far, or something that another program has changed. */
enum left { LEFT_NONE, LEFT_ROWS, LEFT_SPOILT };
enum left record_left(const struct record *record);

/* Lets go of memory and files; the rows stay as they are. */
void record_free(struct record *record);

#endif
