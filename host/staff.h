/* staff.h: a staff record read back. */
#ifndef STAFF_H
#define STAFF_H

#include "gauges.h"

/* What a record's head, rows and last line say together. */
enum whole {
    RECORD_COMPLETE, /* its last line says complete, and nothing of it is lost or changed */
    RECORD_OPEN,     /* the same of a run that ended open */
    RECORD_CUT,      /* it has no last line: its run was killed, or still goes */
    RECORD_CHANGED,  /* something of it is lost or changed since it was written */
    RECORD_OLD       /* an earlier program wrote it, without a sum */
};

struct staffs {
    size_t count, rows;
    uint32_t *cells;   /* of each staff, from 1 */
    int64_t *times;    /* of each row, ms */
    int64_t *heights;  /* um: of each row, of each staff */
    uint32_t first;    /* the step of the first row */
    uint32_t accepted; /* the count that the record has come to */
    uint32_t wanted;   /* 0 where the record does not say it */
    int64_t step_ms;   /* the time of a step; 0 where no row tells it */
    uint32_t rule;     /* that the run's steps followed; 0 where the record has no head, or is not whole */
    enum whole whole;
    bool counted;      /* it is whole, complete or open, and says what its gauges counted: */
    struct waves *waves; /* of each staff */
};

/* Reads a record and judges it; without `keep` the times and heights are looked at, and not held. */
enum status staffs_read(const char *path, struct staffs *staffs, bool keep);
void staffs_free(struct staffs *staffs);

int64_t staff_height(const struct staffs *staffs, size_t row, size_t staff);

/* "complete: all 6,000 steps accepted", "open: ..." */
struct standing staffs_standing(const struct staffs *staffs);

/* Of which steps the heights are that the gauges of a record were fed: "all 6,000 steps", "the first 402 steps", "the
   140 steps from step 161 on". */
struct standing fed_words(const struct staffs *staffs);

/* The complete waves at a staff, in um or, for a picture, in mm: "22 waves, mean 50,837 um, largest 134,117 um", "no
   complete wave". */
struct standing waves_words(const struct waves *waves, bool in_mm);

/* When the largest of them was, as it was noted: " (from 186.200 s to 209.250 s)", in steps where no row tells the time
   of one; nothing where there is no wave. */
struct standing largest_words(const struct staffs *staffs, const struct waves *waves);

/* Why a record tells of no waves: "an earlier program wrote this record", ... */
const char *uncounted_words(const struct staffs *staffs);

#endif
