/* Every call of the interface, from C++: a channel is made, checked, stepped, filtered and run to its end; a gauge is
   placed, fed and read. */
#include "../../include/pathpetal.h"

int main()
{
    uint8_t depths[32], still[32], reeds[32], file[572], gauges[PATHPETAL_GAUGES_LENGTH];
    int64_t readings[PATHPETAL_READINGS];
    for (unsigned j = 0; j < 32; j++) {
        depths[j] = j % 4 == 0 ? 200 : 0; /* 200 mm */
        still[j] = 0;
        reeds[j] = j == 28 ? 100 : 0; /* in the last cell */
    }
    for (unsigned j = 0; j < sizeof gauges; j++)
        gauges[j] = 0;
    bool good = pathpetal_make(8, 1000, 20, 3, depths, 32, still, 32, still, 32, reeds, 32, file,
                               pathpetal_length(8)) == 0 &&
                pathpetal_check(file, sizeof file) == PATHPETAL_DONE &&
                pathpetal_number(pathpetal_step(file, sizeof file, still, 32)) == 0 &&
                pathpetal_filter(file, sizeof file) == 0 &&
                pathpetal_number(pathpetal_run(file, sizeof file, 1)) == PATHPETAL_MORE && !pathpetal_complete(file) &&
                pathpetal_count(pathpetal_run(file, sizeof file, 100)) == 1 && pathpetal_complete(file) &&
                pathpetal_stage(pathpetal_run(file, sizeof file, 1)) == 0 &&
                pathpetal_place(pathpetal_run(file, sizeof file, 1)) == 0 && pathpetal_cells(file) == 8 &&
                pathpetal_width_mm(file) == 1000 && pathpetal_step_ms(file) == 20 && pathpetal_accepted(file) == 3 &&
                pathpetal_wanted(file) == 3 && pathpetal_depth_mm(file, 7) == 200 &&
                pathpetal_height_um(file, 7) == 0 && pathpetal_velocity_um_s(file, 7) == 0 &&
                pathpetal_damping(file, 6) == 0 && pathpetal_damping(file, 7) == 100 &&
                pathpetal_count(pathpetal_place_gauge(file, sizeof file, gauges, sizeof gauges, 8)) == 1 &&
                pathpetal_number(pathpetal_place_gauge(file, sizeof file, gauges, sizeof gauges, 9)) ==
                    PATHPETAL_OFF_CHANNEL &&
                pathpetal_feed_gauges(file, sizeof file, gauges, sizeof gauges) == 0 &&
                pathpetal_read_gauges(gauges, sizeof gauges, readings, PATHPETAL_READINGS) == 0 && readings[0] == 8 &&
                readings[1] == 1 && readings[2] == 0 && readings[3] == 0 && readings[6] == 0;
    return good ? 0 : 1;
}
