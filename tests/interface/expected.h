/* What each call of include/pathpetal.h must answer and leave, worked out by the second program (second/). The
   arguments and the answer are those of the call of the same name. */
#ifndef EXPECTED_H
#define EXPECTED_H

#include <stddef.h>
#include <stdint.h>

uint64_t expected_make(uint64_t cells, uint64_t width_mm, uint64_t step_ms, uint64_t wanted,
                       const uint8_t *depths, size_t depths_len,
                       const uint8_t *heights, size_t heights_len,
                       const uint8_t *velocities, size_t velocities_len,
                       const uint8_t *dampings, size_t dampings_len,
                       uint8_t *file, size_t file_len);
uint64_t expected_check(const uint8_t *file, size_t file_len);
uint64_t expected_step(uint8_t *file, size_t file_len, const uint8_t *poured, size_t poured_len);
uint64_t expected_filter(uint8_t *file, size_t file_len);
uint64_t expected_run(uint8_t *file, size_t file_len, uint64_t most);

#endif
