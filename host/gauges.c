#include "gauges.h"

#include <string.h>

/* How many groups so many gauges are. */
static size_t groups_of(size_t count)
{
    return (count + GROUP_GAUGES - 1) / GROUP_GAUGES;
}

/* Eight bytes, little-endian and signed. */
static int64_t get_number(const uint8_t *at)
{
    uint64_t number = (uint64_t)pathpetal_word(at + 4) << 32 | pathpetal_word(at);
    return number <= INT64_MAX ? (int64_t)number : -1 - (int64_t)(UINT64_MAX - number);
}

static void put_number(uint8_t *at, int64_t number)
{
    for (size_t k = 0; k < 8; k++)
        at[k] = (uint8_t)((uint64_t)number >> 8 * k);
}

struct waves waves_at(const struct gauges *gauges, size_t staff)
{
    const int64_t *read = gauges->readings + staff * PATHPETAL_READ_NUMBERS;
    return (struct waves){.cell = read[PATHPETAL_READ_CELL],
                          .fed = read[PATHPETAL_READ_FED],
                          .first = (int64_t)gauges->placed + 1,
                          .count = read[PATHPETAL_READ_WAVES],
                          .largest = read[PATHPETAL_READ_LARGEST],
                          .sum = read[PATHPETAL_READ_SUM],
                          .from = gauges->noted[staff].from,
                          .to = gauges->noted[staff].to};
}

int64_t mean_height(const struct waves *waves)
{
    int64_t mean = waves->sum / waves->count, rest = waves->sum % waves->count;
    return mean + (2 * rest + mean % 2 > waves->count);
}

/* What the groups tell; gives the first refusal, if there is one. */
static uint64_t read_all(const uint8_t *bytes, size_t groups, int64_t *readings)
{
    uint64_t answer = PATHPETAL_DONE;
    for (size_t k = 0; pathpetal_number(answer) == PATHPETAL_DONE && k < groups; k++)
        answer = pathpetal_read_gauges(bytes + k * PATHPETAL_GAUGES_LENGTH, PATHPETAL_GAUGES_LENGTH,
                                       readings + k * PATHPETAL_READINGS, PATHPETAL_READINGS);
    return answer;
}

uint64_t gauges_place(struct gauges *gauges, const uint8_t *file, const size_t *cells, size_t count)
{
    size_t length = pathpetal_length(pathpetal_cells(file));
    uint64_t answer = PATHPETAL_DONE;
    memset(gauges, 0, sizeof *gauges);
    gauges->count = count;
    gauges->placed = pathpetal_accepted(file);
    for (size_t k = 0; pathpetal_number(answer) == PATHPETAL_DONE && k < count; k++)
        answer = pathpetal_place_gauge(file, length, gauges->bytes + k / GROUP_GAUGES * PATHPETAL_GAUGES_LENGTH,
                                       PATHPETAL_GAUGES_LENGTH, cells[k] + 1);
    if (pathpetal_number(answer) == PATHPETAL_DONE)
        answer = read_all(gauges->bytes, groups_of(count), gauges->readings);
    return answer;
}

/* Notes the steps of crossings, from what a gauge told before and after it was fed the height after a step. A wave that
   is as high as the largest before it is not larger. */
static void note(struct noted *noted, const int64_t *before, const int64_t *after, uint32_t step)
{
    if (after[PATHPETAL_READ_CROSSINGS] == before[PATHPETAL_READ_CROSSINGS])
        return;
    if (after[PATHPETAL_READ_LARGEST] > before[PATHPETAL_READ_LARGEST]) {
        noted->from = noted->crossed;
        noted->to = step;
    }
    noted->crossed = step;
}

uint64_t gauges_feed(struct gauges *gauges, const uint8_t *file)
{
    size_t length = pathpetal_length(pathpetal_cells(file)), groups = groups_of(gauges->count);
    uint8_t bytes[sizeof gauges->bytes]; /* as they are after this */
    int64_t readings[GROUPS * PATHPETAL_READINGS];
    uint64_t answer = PATHPETAL_DONE;
    memcpy(bytes, gauges->bytes, groups * PATHPETAL_GAUGES_LENGTH);
    for (size_t k = 0; pathpetal_number(answer) == PATHPETAL_DONE && k < groups; k++)
        answer = pathpetal_feed_gauges(file, length, bytes + k * PATHPETAL_GAUGES_LENGTH, PATHPETAL_GAUGES_LENGTH);
    if (pathpetal_number(answer) == PATHPETAL_DONE)
        answer = read_all(bytes, groups, readings);
    if (pathpetal_number(answer) != PATHPETAL_DONE)
        return answer;
    for (size_t k = 0; k < gauges->count; k++)
        note(&gauges->noted[k], gauges->readings + k * PATHPETAL_READ_NUMBERS, readings + k * PATHPETAL_READ_NUMBERS,
             pathpetal_accepted(file));
    memcpy(gauges->bytes, bytes, groups * PATHPETAL_GAUGES_LENGTH);
    memcpy(gauges->readings, readings, groups * PATHPETAL_READINGS * sizeof readings[0]);
    return answer;
}

void gauges_keep(const struct gauges *gauges, struct gauge *kept)
{
    for (size_t k = 0; k < gauges->count; k++) {
        for (size_t number = 0; number < GAUGE_NUMBERS; number++)
            kept[k].numbers[number] = get_number(gauges->bytes + k * GAUGE_LENGTH + 8 * number);
        kept[k].noted = gauges->noted[k];
    }
}

/* Whether a gauge's numbers, which the library takes, and the steps that are noted of it can be those of one that was
   fed. The first height that it was fed is no crossing; a height below zero lies between two, so that no wave has the
   height 0; and the last height is one of those since the last crossing. */
static bool can_be(const struct gauge *kept, const int64_t *read, int64_t placed, int64_t step)
{
    const struct noted *noted = &kept->noted;
    int64_t last = kept->numbers[GAUGE_LAST], highest = kept->numbers[GAUGE_HIGHEST];
    int64_t lowest = kept->numbers[GAUGE_LOWEST], waves = read[PATHPETAL_READ_WAVES];
    if (read[PATHPETAL_READ_CROSSINGS] == 0)
        return noted->crossed == 0 && noted->from == 0 && noted->to == 0 && highest == 0 && lowest == 0;
    if (noted->crossed < placed + 2 || noted->crossed + (last < 0) > step || highest < 0 || lowest > last ||
        last > highest)
        return false;
    if (waves == 0)
        return noted->from == 0 && noted->to == 0;
    return noted->from >= placed + 2 && noted->to >= noted->from + 2 && noted->to <= noted->crossed &&
           read[PATHPETAL_READ_LARGEST] >= 1 && read[PATHPETAL_READ_SUM] <= read[PATHPETAL_READ_LARGEST] * waves;
}

bool gauges_take(struct gauges *gauges, const struct gauge *kept, const size_t *cells, size_t count,
                 const uint8_t *file)
{
    uint32_t step = pathpetal_accepted(file);
    int64_t fed = count > 0 ? kept[0].numbers[GAUGE_FED] : 0;
    memset(gauges, 0, sizeof *gauges);
    if (fed < 0 || fed > (int64_t)step)
        return false;
    gauges->count = count;
    gauges->placed = step - (uint32_t)fed;
    for (size_t k = 0; k < count; k++) {
        for (size_t number = 0; number < GAUGE_NUMBERS; number++)
            put_number(gauges->bytes + k * GAUGE_LENGTH + 8 * number, kept[k].numbers[number]);
        gauges->noted[k] = kept[k].noted;
    }
    if (pathpetal_number(read_all(gauges->bytes, groups_of(count), gauges->readings)) != PATHPETAL_DONE)
        return false;
    for (size_t k = 0; k < count; k++) {
        const int64_t *read = gauges->readings + k * PATHPETAL_READ_NUMBERS;
        if (read[PATHPETAL_READ_CELL] != (int64_t)cells[k] + 1 || read[PATHPETAL_READ_FED] != fed ||
            kept[k].numbers[GAUGE_LAST] != (fed > 0 ? pathpetal_height_um(file, cells[k]) : 0) ||
            !can_be(&kept[k], read, gauges->placed, step))
            return false;
    }
    return true;
}
