#include "sum.h"

#include <string.h>

/* FIPS 180-4, 4.2.2: the first 32 bits of the fractional parts of the cube roots of the first 64 primes. */
static const uint32_t k[64] = {
    0x428a2f98, 0x71374491, 0xb5c0fbcf, 0xe9b5dba5, 0x3956c25b, 0x59f111f1, 0x923f82a4, 0xab1c5ed5,
    0xd807aa98, 0x12835b01, 0x243185be, 0x550c7dc3, 0x72be5d74, 0x80deb1fe, 0x9bdc06a7, 0xc19bf174,
    0xe49b69c1, 0xefbe4786, 0x0fc19dc6, 0x240ca1cc, 0x2de92c6f, 0x4a7484aa, 0x5cb0a9dc, 0x76f988da,
    0x983e5152, 0xa831c66d, 0xb00327c8, 0xbf597fc7, 0xc6e00bf3, 0xd5a79147, 0x06ca6351, 0x14292967,
    0x27b70a85, 0x2e1b2138, 0x4d2c6dfc, 0x53380d13, 0x650a7354, 0x766a0abb, 0x81c2c92e, 0x92722c85,
    0xa2bfe8a1, 0xa81a664b, 0xc24b8b70, 0xc76c51a3, 0xd192e819, 0xd6990624, 0xf40e3585, 0x106aa070,
    0x19a4c116, 0x1e376c08, 0x2748774c, 0x34b0bcb5, 0x391c0cb3, 0x4ed8aa4a, 0x5b9cca4f, 0x682e6ff3,
    0x748f82ee, 0x78a5636f, 0x84c87814, 0x8cc70208, 0x90befffa, 0xa4506ceb, 0xbef9a3f7, 0xc67178f2};

static uint32_t turned(uint32_t word, unsigned by)
{
    return word >> by | word << (32 - by);
}

/* One block into the state: the names are the standard's. */
static void add_block(uint32_t state[8], const uint8_t *block)
{
    uint32_t w[64], a = state[0], b = state[1], c = state[2], d = state[3];
    uint32_t e = state[4], f = state[5], g = state[6], h = state[7];
    for (size_t t = 0; t < 16; t++)
        w[t] = (uint32_t)block[4 * t] << 24 | (uint32_t)block[4 * t + 1] << 16 | (uint32_t)block[4 * t + 2] << 8 |
               block[4 * t + 3];
    for (size_t t = 16; t < 64; t++) {
        uint32_t s0 = turned(w[t - 15], 7) ^ turned(w[t - 15], 18) ^ w[t - 15] >> 3;
        uint32_t s1 = turned(w[t - 2], 17) ^ turned(w[t - 2], 19) ^ w[t - 2] >> 10;
        w[t] = s1 + w[t - 7] + s0 + w[t - 16];
    }
    for (size_t t = 0; t < 64; t++) {
        uint32_t t1 = h + (turned(e, 6) ^ turned(e, 11) ^ turned(e, 25)) + ((e & f) ^ (~e & g)) + k[t] + w[t];
        uint32_t t2 = (turned(a, 2) ^ turned(a, 13) ^ turned(a, 22)) + ((a & b) ^ (a & c) ^ (b & c));
        h = g, g = f, f = e, e = d + t1;
        d = c, c = b, b = a, a = t1 + t2;
    }
    state[0] += a, state[1] += b, state[2] += c, state[3] += d;
    state[4] += e, state[5] += f, state[6] += g, state[7] += h;
}

void sum_begin(struct sum *sum)
{
    *sum = (struct sum){.state = {0x6a09e667, 0xbb67ae85, 0x3c6ef372, 0xa54ff53a, 0x510e527f, 0x9b05688c, 0x1f83d9ab,
                                  0x5be0cd19}};
}

void sum_add(struct sum *sum, const void *bytes, size_t length)
{
    const uint8_t *at = bytes;
    size_t held = sum->length % sizeof sum->block;
    sum->length += length;
    while (length > 0) {
        size_t some = sizeof sum->block - held < length ? sizeof sum->block - held : length;
        memcpy(sum->block + held, at, some);
        at += some;
        length -= some;
        held += some;
        if (held < sizeof sum->block)
            return;
        add_block(sum->state, sum->block);
        held = 0;
    }
}

struct hex sum_hex(const struct sum *sum)
{
    static const char digits[] = "0123456789abcdef";
    static const uint8_t padding[64] = {0x80};
    struct sum last = *sum;
    struct hex out = {{0}};
    uint8_t bits[8];
    for (size_t j = 0; j < 8; j++)
        bits[j] = (uint8_t)(sum->length * 8 >> (56 - 8 * j));
    sum_add(&last, padding, 1 + (119 - sum->length % 64) % 64);
    sum_add(&last, bits, sizeof bits);
    for (size_t j = 0; j < 64; j++)
        out.text[j] = digits[last.state[j / 8] >> (28 - 4 * (j % 8)) & 15];
    return out;
}

struct hex sum_of(const void *bytes, size_t length)
{
    struct sum sum;
    sum_begin(&sum);
    sum_add(&sum, bytes, length);
    return sum_hex(&sum);
}

bool same_hex(const struct hex *a, const struct hex *b)
{
    return strcmp(a->text, b->text) == 0;
}
