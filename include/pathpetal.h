/* pathpetal.h: waves along one closed channel, over the bytes of a channel file.

   Every call takes numbers and byte strings and gives one number back. A channel lives in the bytes of its file
   and nowhere else: read a file into memory, call, write the bytes out again. So do gauges, in a byte string of
   their own beside the file. No call allocates, keeps a pointer, prints, or touches a byte outside the strings
   that it is given.

   Every call ends, for any bytes of any length, in the rule's result or in one numbered refusal, and a refused
   call leaves every byte as it was.

   THE ANSWER of all but pathpetal_rule is one 64-bit number: count * 33554432 + place * 65536 + number * 256 + stage.
     number  0 when the call did what was asked, else why it did not: see the list below
     stage   of a step, and of the step that ended a run: where it was refused, 0 for the prediction and for
             everything before it, 1 to 10 for that correction; 0 in all other calls
     place   of 4, 5 and 31 to 38: the lowest cell at fault, of 35 the lowest face, counted from 1 at the left wall;
             face j lies between cells j and j + 1. Each row is looked at wholly before the next, and flux and
             acceleration level by level, the newest first: the place is one in that level. 0 of all other numbers
     count   of a step: how many corrections it took, 1 to 10; of a run: how many steps it accepted, also when it
             then met a refusal; of a gauge that was placed: which of the eight it is, 1 to 8; else 0

   THE FILE of a channel of n cells has 28 + 68 * n bytes, little-endian: thirteen 4-byte counts (edition 2, cells,
   cell width in mm, time step in ms, steps accepted, steps wanted, and where the seven rows start), then the rows:
   depth in mm, height above still water in um, velocity in um/s, reduced velocity in um/s (4 bytes a cell,
   signed), flux in um2/s (3 levels of n - 1 faces), acceleration in um/s2 (3 levels of n cells; 8 bytes each,
   signed) and damping in thousandths per second (4 bytes a cell, signed). It is complete exactly when as many steps are
   accepted as are wanted: pathpetal_complete asks that. The count of steps accepted also chooses the next step's time
   weights, which a first and a second step have of their own. A file of edition 1, which has no damping row, is refused
   with 13.

   THE DAMPING of a cell tells how quickly it slows the water down, as reeds do: 0 not at all, 10,000 the most. Every
   acceleration that a call works out is less by damping * velocity / 1000 of its cell, which is rounded by itself.
   That alone moves no water between cells, and no call changes a damping.

   THE GAUGES are 512 bytes, all zeros while there is none: eight places of 64 bytes, each empty (all zeros) or one
   gauge, in eight numbers of 8 bytes, little-endian and signed:
     cell       1 to 256
     fed        how many heights it was fed, 0 to 1,000,000
     last       the last of them in um, -19,999,000 to 20,000,000
     crossings  how many of them were zero or more directly after one below zero: twice that, and one more where
                the last is below zero, is at most `fed`
     highest    the highest since the last crossing, in the range of `last`
     lowest     the lowest since then, in that range and not above the highest
     largest    the largest height of a complete wave in um, 0 to 39,999,000; 0 while there is none
     sum        of the heights of all complete waves, from `largest` to 39,999,000 times their number
   A wave runs from one crossing up to, not including, the next; its height is the highest fed in it minus the
   lowest. What came before the first crossing, and what came since the last, is no complete wave. A number out of
   its range is refused with 14; what these ranges cannot tell from a gauge that was fed is taken as it stands. The
   calls leave `last` 0 before the first height, and `highest` and `lowest` 0 before the first crossing. To take a
   gauge away, set its 64 bytes to zero.

   C99 and C++. Link with libpathpetal.a. Calls may run at the same time on different bytes. The strings of one call
   must not overlap, but rows that are only read may be the same one. A string of length 0 may be NULL. A call needs
   up to 200 KiB of stack. */
#ifndef PATHPETAL_H
#define PATHPETAL_H

#include <stddef.h>
#include <stdint.h>

#ifdef __cplusplus
extern "C" {
#endif

/* Why a call did not do what was asked. */
enum pathpetal_reason {
    PATHPETAL_DONE = 0,
    PATHPETAL_SHAPE = 1,      /* not 8 to 256 cells, or a row beside the file has not one entry for each cell */
    PATHPETAL_COUNTS = 2,     /* cell width not 10 to 5,000 mm, time step not 1 to 100 ms, steps wanted not 1 to
                                 1,000,000, or more accepted than wanted */
    PATHPETAL_DEPTH = 4,      /* a cell has less than 1 mm of water: it fell dry, or nearly so */
    PATHPETAL_DOMINANCE = 5,  /* the bottom is too steep for cells this narrow: take wider cells or smooth it */
    PATHPETAL_PIVOT = 6,      /* the velocities cannot be worked out; no file is known that meets this */
    PATHPETAL_SPEED = 7,      /* the water became faster than 20 m/s */
    PATHPETAL_HEIGHT = 8,     /* the water rose or fell by more than 20 m */
    PATHPETAL_FLUX = 9,       /* more water through a face than the file can hold */
    PATHPETAL_UNSETTLED = 10, /* ten corrections did not settle: take a shorter time step or wider cells */
    PATHPETAL_COMPLETE = 11,  /* all wanted steps are already taken: nothing is left to step or filter */
    PATHPETAL_LENGTH = 12,    /* the file is cut short, too long, or no channel file; or the gauges are not 512 bytes */
    PATHPETAL_EDITION = 13,   /* not a channel file of edition 2 */
    PATHPETAL_OFFSETS = 14,   /* the file's rows do not stand where they must; or a number of the gauges is out of its
                                 range */
    PATHPETAL_BUFFER = 15,    /* the room for the file is not exactly 28 + 68 * cells bytes, or that for the readings
                                 of gauges is not exactly 48 numbers */
    PATHPETAL_MORE = 16,      /* a run only: as many steps were taken as this call allowed, and the channel is not
                                 complete; call again to go on */
    PATHPETAL_NINTH_GAUGE = 20, /* eight gauges are placed already */
    PATHPETAL_OFF_CHANNEL = 21, /* a gauge's cell is not in the channel */
    PATHPETAL_TIME_STEP = 26,   /* the time step is too long for the deepest cell: 9,810 * depth * step * step is more
                                   than 6,000,000 * width * width; take a shorter one or wider cells */
    PATHPETAL_GAUGE_FULL = 30,  /* a gauge holds 1,000,000 heights already */
    PATHPETAL_BAD_DEPTH = 31,        /* a depth is not 1 to 20,000 mm */
    PATHPETAL_BAD_HEIGHT = 32,       /* a height is not within 20,000,000 um */
    PATHPETAL_BAD_VELOCITY = 33,     /* a velocity is not within 20,000,000 um/s */
    PATHPETAL_BAD_REDUCED = 34,      /* a reduced velocity is not within 2,000,000,000 um/s */
    PATHPETAL_BAD_FLUX = 35,         /* a flux is not within 10^15 um2/s */
    PATHPETAL_BAD_ACCELERATION = 36, /* an acceleration is not within 10^11 um/s2 */
    PATHPETAL_BAD_POURED = 37,       /* a poured amount is not within 1,000,000 um */
    PATHPETAL_BAD_DAMPING = 38       /* a damping is not 0 to 10,000 thousandths per second */
};

/* The rule that all calls of the library that is linked follow: 3, and no answer as above. It grows whenever a call
   comes to leave other numbers in a file for the same input, so that a host can tell what it may go on with. It has not
   grown by refusal 26, which came later, for a channel that is refused has no other numbers; nor by damping, for a
   channel without it has the numbers that it had. By rule 2 a half was rounded away from zero, and not to the even
   number. Rule 1 was that before the start ladder, the time weights of a first and a second step; its library has no
   such function. */
uint64_t pathpetal_rule(void);

/* Makes the file of a new channel, with no step accepted, in the file_len bytes at file: exactly
   pathpetal_length(cells). depths, heights, velocities and dampings hold 4 bytes for each cell, signed and
   little-endian (mm, um, um/s, thousandths per second); dampings are all zeros for a channel without. Refused: 1, 2,
   31, 32, 33, 38, 4, 26, 5, 15, 7, 9, the first that holds in this order. */
uint64_t pathpetal_make(uint64_t cells, uint64_t width_mm, uint64_t step_ms, uint64_t wanted,
                        const uint8_t *depths, size_t depths_len,
                        const uint8_t *heights, size_t heights_len,
                        const uint8_t *velocities, size_t velocities_len,
                        const uint8_t *dampings, size_t dampings_len,
                        uint8_t *file, size_t file_len);

/* Whether these bytes are a channel file that every other call will take. Refused: 12 (shorter than 48 bytes, whatever
   the edition), 13, 1, 12 (not the length for its cells), 14, 2, 31, 32, 33, 34, 35, 36, 38, 4, 26, 5. No file that a
   call has changed or made is refused by 26. */
uint64_t pathpetal_check(const uint8_t *file, size_t file_len);

/* One step, with an amount of water poured into each cell: poured holds 4 bytes for each cell (um, within
   1,000,000), all zeros to pour nothing. The file becomes that of the channel after the step. Refused as by
   pathpetal_check, the poured row's length with 1, and its amounts with 37, between 38 and 4; then 11; then at a stage
   8, 4, 7, 6, 7, 9; then 10. */
uint64_t pathpetal_step(uint8_t *file, size_t file_len, const uint8_t *poured, size_t poured_len);

/* One filter pass: smooths what is only a few cells long, and moves no water in or out. Refused as by
   pathpetal_check; then 11; then 8, 4, 7, 6, 7, 9. */
uint64_t pathpetal_filter(uint8_t *file, size_t file_len);

/* Steps with nothing poured, until the channel is complete, a step is refused, or `most` steps were accepted by
   this call: a host calls again and again, and may stop, save or show the file between calls. The file keeps every
   accepted step. number is 0 exactly when the channel is complete; 16 when it is not and no step was refused; else
   the refused step's number, with its stage and its place; and count is what this call accepted. Bytes that
   pathpetal_check refuses are refused by the same number and place and stay as they are. */
uint64_t pathpetal_run(uint8_t *file, size_t file_len, uint64_t most);

/* Gauges: what is counted is proved of the whole record of heights that a gauge was fed. A host feeds them once after
   each accepted step, so it takes steps one at a time (pathpetal_step, or pathpetal_run with most 1), and does not feed
   a step that was refused; what it does not feed is not counted. No call alters the channel file. It may be complete,
   and a state may be fed by one channel after another. 12 and 14 are of the gauges where pathpetal_check takes the
   file. */
enum {
    PATHPETAL_GAUGES_LENGTH = 512, /* bytes of the gauges */
    PATHPETAL_READINGS = 48        /* numbers that are read of them: eight times the six below */
};
enum pathpetal_reading {
    PATHPETAL_READ_CELL,      /* counted from 1; 0 where there is no gauge */
    PATHPETAL_READ_FED,       /* heights */
    PATHPETAL_READ_CROSSINGS,
    PATHPETAL_READ_WAVES,     /* complete ones */
    PATHPETAL_READ_LARGEST,   /* height of one, um */
    PATHPETAL_READ_SUM,       /* of the heights of all, um */
    PATHPETAL_READ_NUMBERS    /* of one gauge */
};

/* Places a gauge at a cell, counted from 1, in the first place that is empty. Two may stand at one cell. Refused as by
   pathpetal_check; then 12, 14, 20, 21. */
uint64_t pathpetal_place_gauge(const uint8_t *file, size_t file_len, uint8_t *gauges, size_t gauges_len, uint64_t cell);

/* Feeds each gauge the height at its cell. Refused as by pathpetal_check; then 12, 14, 21, 30: one gauge that cannot be
   fed refuses it for all. */
uint64_t pathpetal_feed_gauges(const uint8_t *file, size_t file_len, uint8_t *gauges, size_t gauges_len);

/* What the gauges have counted: of each of the eight places its cell, the heights fed, crossings, complete waves, the
   largest height of one and the sum of their heights (um); all six are 0 where there is no gauge. readings_len counts
   numbers: exactly 48, none of them below zero. Refused: 12, 14, 15. */
uint64_t pathpetal_read_gauges(const uint8_t *gauges, size_t gauges_len, int64_t *readings, size_t readings_len);

/* The parts of an answer. */
static inline unsigned pathpetal_number(uint64_t answer) { return (unsigned)(answer / 256 % 256); }
static inline unsigned pathpetal_stage(uint64_t answer) { return (unsigned)(answer % 256); }
static inline unsigned pathpetal_place(uint64_t answer) { return (unsigned)(answer / 65536 % 512); }
static inline uint64_t pathpetal_count(uint64_t answer) { return answer / 33554432; }

/* The length of a channel's file. */
static inline size_t pathpetal_length(size_t cells) { return 28 + 68 * cells; }

/* Reading from the bytes of a file that pathpetal_check takes, or refuses with 4, 5, 26, 31 to 36 or 38. */
static inline uint32_t pathpetal_word(const uint8_t *at)
{
    return (uint32_t)at[0] | (uint32_t)at[1] << 8 | (uint32_t)at[2] << 16 | (uint32_t)at[3] << 24;
}
static inline int32_t pathpetal_signed(const uint8_t *at)
{
    uint32_t n = pathpetal_word(at);
    return n < 0x80000000u ? (int32_t)n : -1 - (int32_t)(0xFFFFFFFFu - n);
}
static inline uint32_t pathpetal_cells(const uint8_t *file) { return pathpetal_word(file + 4); }
static inline uint32_t pathpetal_width_mm(const uint8_t *file) { return pathpetal_word(file + 8); }
static inline uint32_t pathpetal_step_ms(const uint8_t *file) { return pathpetal_word(file + 12); }
static inline uint32_t pathpetal_accepted(const uint8_t *file) { return pathpetal_word(file + 16); }
static inline uint32_t pathpetal_wanted(const uint8_t *file) { return pathpetal_word(file + 20); }
static inline int pathpetal_complete(const uint8_t *file)
{
    return pathpetal_accepted(file) == pathpetal_wanted(file);
}
/* of cell 0 to cells - 1: the place of an answer, less 1 */
static inline int32_t pathpetal_depth_mm(const uint8_t *file, size_t cell)
{
    return pathpetal_signed(file + 52 + 4 * cell);
}
static inline int32_t pathpetal_height_um(const uint8_t *file, size_t cell)
{
    return pathpetal_signed(file + 52 + 4 * (size_t)pathpetal_cells(file) + 4 * cell);
}
static inline int32_t pathpetal_velocity_um_s(const uint8_t *file, size_t cell)
{
    return pathpetal_signed(file + 52 + 8 * (size_t)pathpetal_cells(file) + 4 * cell);
}
/* thousandths per second */
static inline int32_t pathpetal_damping(const uint8_t *file, size_t cell)
{
    return pathpetal_signed(file + 28 + 64 * (size_t)pathpetal_cells(file) + 4 * cell);
}

#ifdef __cplusplus
}
#endif
#endif
