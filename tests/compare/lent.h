/* The library's four calls over lent rows, as the archive of the crate lent exports them. A row is a pointer and its
   length. */
#ifndef LENT_H
#define LENT_H

#include <stddef.h>
#include <stdint.h>

/* What each gives is the answer's number. 0: accepted; else the refusal's number, with its stage. place: the lowest cell or
   face at fault, counted from 1, of the refusals that tell it, else 0. count: the corrections of a step, or the steps of a
   run. */

uint64_t lent_make(size_t N, uint64_t X, uint64_t T, uint64_t *accepted, uint64_t wanted,
    const int64_t *h, size_t h_len, const int64_t *e, size_t e_len,
    const int64_t *u, size_t u_len, int64_t *V, size_t V_len,
    int64_t *Q, size_t Q_len, int64_t *F, size_t F_len,
    const int64_t *damping, size_t damping_len, uint64_t *stage, uint64_t *place, uint64_t *count);
uint64_t lent_step(size_t N, uint64_t X, uint64_t T, uint64_t *accepted, uint64_t wanted,
    const int64_t *h, size_t h_len, int64_t *e, size_t e_len,
    int64_t *u, size_t u_len, int64_t *V, size_t V_len,
    int64_t *Q, size_t Q_len, int64_t *F, size_t F_len,
    const int64_t *damping, size_t damping_len,
    const int64_t *s, size_t s_len, uint64_t *stage, uint64_t *place, uint64_t *count);
uint64_t lent_filter(size_t N, uint64_t X, uint64_t T, uint64_t accepted, uint64_t wanted,
    const int64_t *h, size_t h_len, int64_t *e, size_t e_len,
    int64_t *u, size_t u_len, int64_t *V, size_t V_len,
    int64_t *Q, size_t Q_len, int64_t *F, size_t F_len,
    const int64_t *damping, size_t damping_len, uint64_t *stage, uint64_t *place, uint64_t *count);
uint64_t lent_run(size_t N, uint64_t X, uint64_t T, uint64_t *accepted, uint64_t wanted,
    const int64_t *h, size_t h_len, int64_t *e, size_t e_len,
    int64_t *u, size_t u_len, int64_t *V, size_t V_len,
    int64_t *Q, size_t Q_len, int64_t *F, size_t F_len,
    const int64_t *damping, size_t damping_len, uint64_t *stage, uint64_t *place, uint64_t *count);

#endif
