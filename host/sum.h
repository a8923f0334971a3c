/* sum.h: SHA-256, by which a run knows its files and a record shows that it is whole. The command sha256sum gives the
   same. */
#ifndef SUM_H
#define SUM_H

#include "say.h"

/* The sum of the bytes that were added so far. */
struct sum {
    uint32_t state[8];
    uint64_t length;    /* bytes added */
    uint8_t block[64];  /* the last of them, those of a block that is not full */
};

void sum_begin(struct sum *sum);
void sum_add(struct sum *sum, const void *bytes, size_t length);

/* A sum in hexadecimal digits; more may be added to the sum after it was asked. */
struct hex {
    char text[65];
};
struct hex sum_hex(const struct sum *sum);
struct hex sum_of(const void *bytes, size_t length);
bool same_hex(const struct hex *a, const struct hex *b);

#endif
