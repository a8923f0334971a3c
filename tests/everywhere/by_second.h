/* The calls of pathpetal.h done by the second program: the same bytes in, the same answer and bytes out. */
#ifndef BY_SECOND_H
#define BY_SECOND_H

#include <stddef.h>
#include <stdint.h>

uint64_t by_second_make(uint64_t cells, uint64_t width_mm, uint64_t step_ms, uint64_t wanted,
                        const uint8_t *depths, size_t depths_len, const uint8_t *heights, size_t heights_len,
                        const uint8_t *velocities, size_t velocities_len, const uint8_t *dampings, size_t dampings_len,
                        uint8_t *file, size_t file_len);
uint64_t by_second_check(const uint8_t *file, size_t file_len);
uint64_t by_second_step(uint8_t *file, size_t file_len, const uint8_t *poured, size_t poured_len);
uint64_t by_second_filter(uint8_t *file, size_t file_len);
uint64_t by_second_run(uint8_t *file, size_t file_len, uint64_t most);
uint64_t by_second_place_gauge(const uint8_t *file, size_t file_len, uint8_t *gauges, size_t gauges_len, uint64_t cell);
uint64_t by_second_feed_gauges(const uint8_t *file, size_t file_len, uint8_t *gauges, size_t gauges_len);
uint64_t by_second_read_gauges(const uint8_t *gauges, size_t gauges_len, int64_t *readings, size_t readings_len);

#endif
