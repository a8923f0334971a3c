/* channel.h: channel files read, and how they stand. */
#ifndef CHANNEL_H
#define CHANNEL_H

#include "pathpetal.h"
#include "say.h"

/* What a channel may hold, to name the option or the line of a table at fault; the library decides again. */
enum {
    CELLS_LEAST = 8,
    CELLS_MOST = 256,
    WIDTH_LEAST = 10, /* mm */
    WIDTH_MOST = 5000,
    STEP_LEAST = 1, /* ms */
    STEP_MOST = 100,
    STEPS_LEAST = 1,
    STEPS_MOST = 1000000,
    HEIGHT_MOST = 20000000, /* um, either way, in a staff record */
    POURED_MOST = 1000000   /* um, either way, in a table of poured water */
};

/* The bytes of a file that was read: room for more than the longest channel, so that a longer file is refused by its
   length and not cut. */
struct channel {
    uint8_t bytes[65537];
    size_t length;
};

/* Reads a file, whatever it holds. */
enum status channel_bytes(const char *path, struct channel *channel);

/* Reads a channel file that the library takes; else says why it is refused, and in which cell. */
enum status channel_read(const char *path, struct channel *channel);

/* Whether these are the bytes of a channel file of edition 1, which has no damping and which the library refuses. */
bool is_edition_1(const struct channel *channel);

/* "complete: all 6,000 steps accepted" or "open: 5,400 of 6,000 steps accepted" */
struct standing {
    char text[192];
};
struct standing standing(const uint8_t *file);

/* The sum of the heights of all cells, um. */
int64_t water_sum(const uint8_t *file);

/* A number as the library takes it in a row: 4 bytes, signed, little-endian. */
void put_signed(uint8_t *at, int64_t number);

#endif
