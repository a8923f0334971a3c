/* show.c: a channel file or a staff record in a few lines, and as a picture. */
#include "beside.h"
#include "commands.h"
#include "damping.h"
#include "options.h"
#include "pictures.h"
#include "whole.h"

#include <stdlib.h>

static const char usage[] = "pathpetal show FILE [--svg PICTURE.svg] [--replace], or "
                            "pathpetal show --staff RECORD.csv [--svg PICTURE.svg] [--replace]";

/* A height in mm beside its um. */
static struct grouped in_mm(int64_t um)
{
    return thousandths(um);
}

static void tell_channel(const char *path, const struct channel *channel, uint32_t rule)
{
    const uint8_t *file = channel->bytes;
    uint32_t cells = pathpetal_cells(file), step_ms = pathpetal_step_ms(file);
    struct text damping = {0};
    size_t low = 0, high = 0;
    for (size_t cell = 1; cell < cells; cell++) {
        if (pathpetal_height_um(file, cell) < pathpetal_height_um(file, low))
            low = cell;
        if (pathpetal_height_um(file, cell) > pathpetal_height_um(file, high))
            high = cell;
    }
    tell("%s", path);
    tell("  %s", standing(file).text);
    tell_rule(rule);
    tell("  time run       %s s of %s s, in steps of %s ms",
         THOUSANDTHS((int64_t)pathpetal_accepted(file) * step_ms),
         THOUSANDTHS((int64_t)pathpetal_wanted(file) * step_ms), GROUPED(step_ms));
    tell("  channel        %s cells of %s mm: %s m", GROUPED(cells), GROUPED(pathpetal_width_mm(file)),
         THOUSANDTHS((int64_t)cells * pathpetal_width_mm(file)));
    add_damping(&damping, file);
    tell("  damping        %s", damping.at);
    free(damping.at);
    tell("  lowest height  %s um (%s mm), first in cell %zu", GROUPED(pathpetal_height_um(file, low)),
         in_mm(pathpetal_height_um(file, low)).text, low + 1);
    tell("  highest height %s um (%s mm), first in cell %zu", GROUPED(pathpetal_height_um(file, high)),
         in_mm(pathpetal_height_um(file, high)).text, high + 1);
    tell("  water sum      %s um (the heights of all cells added up)", GROUPED(water_sum(file)));
}

/* The waves at each staff, as the proved library has counted them; told apart from that, when the largest was. */
static void tell_waves(const struct staffs *staffs)
{
    tell("  waves by the proved counts of %s; in brackets the time of the largest, noted by the host",
         fed_words(staffs).text);
    for (size_t k = 0; k < staffs->count; k++)
        tell("  cell %u: %s%s", (unsigned)staffs->cells[k], waves_words(&staffs->waves[k], false).text,
             largest_words(staffs, &staffs->waves[k]).text);
}

static void tell_staffs(const char *path, const struct staffs *staffs)
{
    tell("%s", path);
    tell("  %s", staffs_standing(staffs).text);
    tell_rule(staffs->rule);
    tell("  %s row%s, from %s s to %s s; lowest and highest are those of the rows", GROUPED((int64_t)staffs->rows),
         staffs->rows == 1 ? "" : "s", THOUSANDTHS(staffs->times[0]), THOUSANDTHS(staffs->times[staffs->rows - 1]));
    for (size_t k = 0; k < staffs->count; k++) {
        size_t low = 0, high = 0;
        for (size_t row = 1; row < staffs->rows; row++) {
            if (staff_height(staffs, row, k) < staff_height(staffs, low, k))
                low = row;
            if (staff_height(staffs, row, k) > staff_height(staffs, high, k))
                high = row;
        }
        tell("  cell %u: lowest %s um at %s s, highest %s um at %s s", (unsigned)staffs->cells[k],
             GROUPED(staff_height(staffs, low, k)), THOUSANDTHS(staffs->times[low]),
             GROUPED(staff_height(staffs, high, k)), THOUSANDTHS(staffs->times[high]));
    }
    if (staffs->counted)
        tell_waves(staffs);
    else
        tell("  no counts of waves: %s", uncounted_words(staffs));
}

static enum status write_picture(const char *use, const char *from, const char *to, const struct text *svg,
                                 bool replace)
{
    struct place places[] = {input_place(use, from), output_place("PICTURE", to)};
    enum status status = outputs_allowed(places, 2, replace);
    return status == STATUS_DONE ? whole_write(to, svg->at, svg->length, &(struct over){.any = replace}) : status;
}

static enum status show_channel(const char *path, const char *picture, bool replace)
{
    struct channel *channel = room_for(1, sizeof *channel);
    struct text svg = {0};
    enum status status = channel_read(path, channel);
    uint32_t rule = status == STATUS_DONE ? rule_of(path, channel) : 0;
    if (status == STATUS_DONE && picture) {
        draw_channel(&svg, path, channel->bytes, rule);
        status = write_picture("FILE", path, picture, &svg, replace);
    }
    if (status == STATUS_DONE) {
        tell_channel(path, channel, rule);
        status = told();
    }
    free(svg.at);
    free(channel);
    return status;
}

static enum status show_staffs(const char *path, const char *picture, bool replace)
{
    struct staffs staffs;
    struct text svg = {0};
    enum status status = staffs_read(path, &staffs, true);
    if (status == STATUS_DONE && picture) {
        draw_staffs(&svg, path, &staffs);
        status = write_picture("RECORD", path, picture, &svg, replace);
    }
    if (status == STATUS_DONE) {
        tell_staffs(path, &staffs);
        status = told();
    }
    free(svg.at);
    staffs_free(&staffs);
    return status;
}

enum status show_command(int count, char **words)
{
    struct option options[] = {{.name = "--svg", .takes = "PICTURE.svg"},
                               {.name = "--staff"},
                               {.name = "--replace"},
                               {.name = NULL}};
    const char *path = NULL;
    enum status status = options_read(count, words, options, &path, 1, usage);
    bool replace;
    if (status != STATUS_DONE)
        return status;
    replace = option_value(options, "--replace") != NULL;
    if (option_value(options, "--staff"))
        return show_staffs(path, option_value(options, "--svg"), replace);
    return show_channel(path, option_value(options, "--svg"), replace);
}
