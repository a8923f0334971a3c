#include "pictures.h"
#include "beside.h"
#include "damping.h"
#include "svg.h"

#include <math.h>
#include <stdio.h>
#include <stdlib.h>
#include <string.h>

enum {
    WIDTH = 1000,
    LEFT = 110, /* where panels begin and end across the sheet */
    RIGHT = 970,
    COLUMNS = RIGHT - LEFT,
    CHANNEL_TALL = 710, /* of a channel's sheet, */
    DAMPING_TALL = 150, /* and what the panel of its damping adds */
    REED_APART = 7,     /* between two reeds, */
    REED_ABOVE = 12,    /* and how far they stand above the surface */
    STAFF_TALL = 130,   /* of one staff's panel */
    STAFF_APART = 34
};

static double mm(int64_t um)
{
    return (double)um / 1000.0;
}

/* The name without its folders. */
static const char *short_name(const char *path)
{
    const char *slash = strrchr(path, '/');
    return slash && slash[1] ? slash + 1 : path;
}

static void head(struct text *svg, const char *name, const char *standing, bool complete, uint32_t rule,
                 const char *about)
{
    struct standing other = other_rule(rule);
    svg_words(svg, LEFT, 34, "title", short_name(name));
    svg_words(svg, LEFT, 58, complete ? "done" : "open", standing);
    svg_words(svg, RIGHT, 58, "right", about);
    if (other.text[0])
        svg_words(svg, LEFT, 76, "open", other.text);
}

/* The middle of a cell, m from the left wall. */
static double middle_of(const uint8_t *file, size_t cell)
{
    return ((double)cell + 0.5) * pathpetal_width_mm(file) / 1000.0;
}

/* The points of the surface from wall to wall, times a scale of a mm. */
static void surface_points(struct text *svg, const struct axis *across, const struct axis *up, const uint8_t *file,
                           double scale)
{
    size_t cells = pathpetal_cells(file);
    svg_point(svg, across, up, across->from, mm(pathpetal_height_um(file, 0)) * scale);
    for (size_t cell = 0; cell < cells; cell++)
        svg_point(svg, across, up, middle_of(file, cell), mm(pathpetal_height_um(file, cell)) * scale);
    svg_point(svg, across, up, across->to, mm(pathpetal_height_um(file, cells - 1)) * scale);
}

static void still_water(struct text *svg, const struct axis *across, const struct axis *up)
{
    svg_line_begin(svg, "still");
    svg_point(svg, across, up, across->from, 0);
    svg_point(svg, across, up, across->to, 0);
    svg_line_end(svg);
}

static void frame(struct text *svg, const struct axis *across, const struct axis *up)
{
    text_add(svg, "<rect class=\"frame\" x=\"%.1f\" y=\"%.1f\" width=\"%.1f\" height=\"%.1f\"/>\n", across->start,
             up->end, across->end - across->start, up->start - up->end);
}

/* Cell numbers over a panel. */
static void cell_marks(struct text *svg, const struct axis *across, double y, const uint8_t *file)
{
    size_t cells = pathpetal_cells(file);
    struct axis marks = axis_for(0, (double)cells, 0, 1, 13, false);
    size_t apart = marks.mark < 1 ? 1 : (size_t)marks.mark;
    for (size_t cell = apart; cell <= cells; cell += apart) {
        char number[16];
        double x = on_axis(across, middle_of(file, cell - 1));
        snprintf(number, sizeof number, "%zu", cell);
        text_add(svg, "<line class=\"frame\" x1=\"%.1f\" y1=\"%.1f\" x2=\"%.1f\" y2=\"%.1f\"/>\n", x, y - 5, x, y);
        svg_words(svg, x, y - 9, "middle", number);
    }
    svg_words(svg, across->start, y - 9, "", "cell");
}

/* The height of the surface, drawn tall enough to be read. */
static void surface_panel(struct text *svg, const struct axis *across, const uint8_t *file)
{
    double lowest = 0, highest = 0;
    struct axis up;
    for (size_t cell = 0; cell < pathpetal_cells(file); cell++) {
        double height = mm(pathpetal_height_um(file, cell));
        lowest = height < lowest ? height : lowest;
        highest = height > highest ? height : highest;
    }
    up = axis_for(lowest - (highest - lowest) / 25, highest + (highest - lowest) / 25, 340, 132, 7, true);
    svg_panel(svg, across, &up, NULL, "height above still water (mm)", NULL);
    svg_words(svg, across->start, 96, "panel", "The surface, its heights drawn large");
    cell_marks(svg, across, 132, file);
    still_water(svg, across, &up);
    svg_line_begin(svg, "surface");
    surface_points(svg, across, &up, file, 1);
    svg_line_end(svg);
    frame(svg, across, &up);
}

/* How reeds and the damping of cells are drawn: told apart from water and bottom by their strokes, not by colour. */
static void damping_style(struct text *svg)
{
    text_add(svg, "<style>\n"
                  ".reeds { stroke: #2f5d1e; stroke-width: 1.3; fill: none; }\n"
                  ".damping { fill: url(#strokes); stroke: #2f5d1e; stroke-width: 1.2; }\n"
                  "</style>\n"
                  "<pattern id=\"strokes\" width=\"%d\" height=\"%d\" patternUnits=\"userSpaceOnUse\">"
                  "<path class=\"reeds\" d=\"M3,0 V%d\"/></pattern>\n",
             REED_APART, REED_APART, REED_APART);
}

/* Reeds where cells are damped, at least one in each stretch, from the foot of the panel, which the bottom then covers,
   to above the surface. */
static void reeds(struct text *svg, const struct axis *across, const struct axis *up, const uint8_t *file)
{
    size_t cells = pathpetal_cells(file);
    double wide = (across->end - across->start) / (double)cells; /* of a cell */
    text_add(svg, "<path class=\"reeds\" d=\"");
    for (struct stretch one = damped_from(file, 0); one.first < cells; one = damped_from(file, one.end)) {
        double along = (double)(one.end - one.first), count = floor(along * wide / REED_APART);
        count = count < 1 ? 1 : count;
        for (double k = 0.5; k < count; k++) {
            double place = (double)one.first + k * along / count; /* in cells from the left wall */
            double top = on_axis(up, mm(pathpetal_height_um(file, (size_t)place)) / 1000.0) - REED_ABOVE;
            text_add(svg, "M%.1f,%.1f V%.1f ", across->start + place * wide, up->start, top > up->end ? top : up->end);
        }
    }
    text_add(svg, "\"/>\n");
}

/* The damping of each cell, as a bar. */
static void damping_panel(struct text *svg, const struct axis *across, const uint8_t *file)
{
    size_t cells = pathpetal_cells(file);
    double wide = pathpetal_width_mm(file) / 1000.0;
    struct axis up = axis_for(0, pathpetal_damping(file, most_damped(file)), 780, 680, 4, true);
    svg_panel(svg, across, &up, "Damping: how quickly each cell slows the water down, as reeds do", "thousandths per s",
              "distance from the left wall (m)");
    for (struct stretch one = damped_from(file, 0); one.first < cells; one = damped_from(file, one.end)) {
        text_add(svg, "<polygon class=\"damping\" points=\"");
        svg_point(svg, across, &up, (double)one.first * wide, 0);
        for (size_t cell = one.first; cell < one.end; cell++) {
            svg_point(svg, across, &up, (double)cell * wide, pathpetal_damping(file, cell));
            svg_point(svg, across, &up, (double)(cell + 1) * wide, pathpetal_damping(file, cell));
        }
        svg_point(svg, across, &up, (double)one.end * wide, 0);
        text_add(svg, "\"/>\n");
    }
    frame(svg, across, &up);
}

/* Bottom and surface to one scale, and where the cells are damped reeds. */
static void bottom_panel(struct text *svg, const struct axis *across, const uint8_t *file)
{
    bool damped = is_damped(file);
    size_t cells = pathpetal_cells(file);
    double lowest = 0, highest = 0;
    struct axis up;
    for (size_t cell = 0; cell < cells; cell++) {
        double bottom = -pathpetal_depth_mm(file, cell) / 1000.0, height = mm(pathpetal_height_um(file, cell)) / 1000.0;
        lowest = bottom < lowest ? bottom : lowest;
        lowest = height < lowest ? height : lowest;
        highest = height > highest ? height : highest;
    }
    up = axis_for(lowest - (highest - lowest) / 25, damped ? highest + (highest - lowest) / 12 : highest, 630, 400, 7,
                  true);
    svg_panel(svg, across, &up, "Bottom and surface, to one scale of height", "height (m)",
              damped ? NULL : "distance from the left wall (m)");
    text_add(svg, "<polygon class=\"water\" points=\"");
    surface_points(svg, across, &up, file, 0.001);
    svg_point(svg, across, &up, across->to, up.from);
    svg_point(svg, across, &up, across->from, up.from);
    text_add(svg, "\"/>\n");
    if (damped)
        reeds(svg, across, &up, file);
    text_add(svg, "<polygon class=\"bottom\" points=\"");
    svg_point(svg, across, &up, across->from, -pathpetal_depth_mm(file, 0) / 1000.0);
    for (size_t cell = 0; cell < cells; cell++)
        svg_point(svg, across, &up, middle_of(file, cell), -pathpetal_depth_mm(file, cell) / 1000.0);
    svg_point(svg, across, &up, across->to, -pathpetal_depth_mm(file, cells - 1) / 1000.0);
    svg_point(svg, across, &up, across->to, up.from);
    svg_point(svg, across, &up, across->from, up.from);
    text_add(svg, "\"/>\n");
    still_water(svg, across, &up);
    svg_line_begin(svg, "surface");
    surface_points(svg, across, &up, file, 0.001);
    svg_line_end(svg);
    frame(svg, across, &up);
}

/* What the lines mean, under all panels. */
static void key(struct text *svg, double y, bool damped)
{
    text_add(svg, "<line class=\"surface\" x1=\"%d\" y1=\"%.1f\" x2=\"%d\" y2=\"%.1f\"/>\n", LEFT, y - 4, LEFT + 36,
             y - 4);
    svg_words(svg, LEFT + 44, y, "", "surface");
    text_add(svg, "<line class=\"still\" x1=\"%d\" y1=\"%.1f\" x2=\"%d\" y2=\"%.1f\"/>\n", LEFT + 130, y - 4,
             LEFT + 166, y - 4);
    svg_words(svg, LEFT + 174, y, "", "still water");
    text_add(svg, "<rect class=\"bottom\" x=\"%d\" y=\"%.1f\" width=\"36\" height=\"12\"/>\n", LEFT + 280, y - 10);
    svg_words(svg, LEFT + 324, y, "", "bottom");
    if (!damped)
        return;
    text_add(svg, "<path class=\"reeds\" d=\"");
    for (int x = LEFT + 408; x <= LEFT + 440; x += REED_APART)
        text_add(svg, "M%d,%.1f V%.1f ", x, y + 2, y - 10);
    text_add(svg, "\"/>\n");
    svg_words(svg, LEFT + 450, y, "", "damped cells (reeds)");
}

void draw_channel(struct text *svg, const char *name, const uint8_t *file, uint32_t rule)
{
    double length = (double)pathpetal_cells(file) * pathpetal_width_mm(file) / 1000.0;
    struct axis across = axis_for(0, length, LEFT, RIGHT, 12, false);
    bool damped = is_damped(file);
    double tall = CHANNEL_TALL + (damped ? DAMPING_TALL : 0);
    char about[128];
    snprintf(about, sizeof about, "at %s s; water sum %s \xC2\xB5m",
             THOUSANDTHS((int64_t)pathpetal_accepted(file) * pathpetal_step_ms(file)), GROUPED(water_sum(file)));
    svg_begin(svg, WIDTH, tall);
    if (damped)
        damping_style(svg);
    head(svg, name, standing(file).text, pathpetal_complete(file), rule, about);
    surface_panel(svg, &across, file);
    bottom_panel(svg, &across, file);
    if (damped)
        damping_panel(svg, &across, file);
    key(svg, tall - 12, damped);
    svg_end(svg);
}

/* One staff's line. Where there are more rows than the sheet has columns, each column draws its lowest and highest
   height, so that no crest is lost. */
static void staff_line(struct text *svg, const struct axis *across, const struct axis *up, const struct staffs *staffs,
                       size_t staff)
{
    size_t each = staffs->rows <= 2 * COLUMNS ? 1 : (staffs->rows + COLUMNS - 1) / COLUMNS;
    svg_line_begin(svg, "surface");
    for (size_t row = 0; row < staffs->rows; row += each) {
        size_t stop = row + each < staffs->rows ? row + each : staffs->rows, low = row, high = row;
        for (size_t k = row; k < stop; k++) {
            if (staff_height(staffs, k, staff) < staff_height(staffs, low, staff))
                low = k;
            if (staff_height(staffs, k, staff) > staff_height(staffs, high, staff))
                high = k;
        }
        size_t first = low < high ? low : high, second = low < high ? high : low;
        svg_point(svg, across, up, (double)staffs->times[first] / 1000.0, mm(staff_height(staffs, first, staff)));
        if (second != first)
            svg_point(svg, across, up, (double)staffs->times[second] / 1000.0, mm(staff_height(staffs, second, staff)));
    }
    svg_line_end(svg);
}

/* Whether the waves are counted, and the rows tell the time of a step. */
static bool timed_waves(const struct staffs *staffs)
{
    return staffs->counted && staffs->step_ms > 0;
}

/* The time of the rows, s; where waves are shaded that of all steps that they are counted of, for the largest may run
   before the first row or after the last. */
static struct axis time_axis(const struct staffs *staffs)
{
    int64_t from = staffs->times[0], to = staffs->times[staffs->rows - 1];
    if (timed_waves(staffs)) {
        from = (staffs->waves[0].first - 1) * staffs->step_ms;
        to = (int64_t)staffs->accepted * staffs->step_ms;
    }
    return axis_for((double)from / 1000.0, (double)to / 1000.0, LEFT, RIGHT, 15, false);
}

/* The time that the largest wave at a staff took, shaded wide enough to be seen; whether there is one. */
static bool largest_wave(struct text *svg, const struct axis *across, const struct axis *up,
                         const struct staffs *staffs, size_t staff)
{
    const struct waves *waves = &staffs->waves[staff];
    double from = on_axis(across, (double)(waves->from * staffs->step_ms) / 1000.0);
    double to = on_axis(across, (double)(waves->to * staffs->step_ms) / 1000.0);
    if (waves->count == 0 || !timed_waves(staffs))
        return false;
    from = from > across->end - 2 ? across->end - 2 : from;
    to = to < from + 2 ? from + 2 : to;
    text_add(svg, "<rect class=\"largest\" x=\"%.1f\" y=\"%.1f\" width=\"%.1f\" height=\"%.1f\"/>\n", from, up->end,
             to - from, up->start - up->end);
    return true;
}

/* What is said of waves, under all panels. */
static void waves_key(struct text *svg, double y, const struct staffs *staffs, bool shaded)
{
    char words[256];
    if (shaded) {
        text_add(svg, "<rect class=\"largest\" x=\"%d\" y=\"%.1f\" width=\"36\" height=\"12\"/>\n", LEFT, y - 10);
        svg_words(svg, LEFT + 44, y, "", "when the largest wave was (noted by the host)");
    }
    snprintf(words, sizeof words, "waves by the proved counts of %s", fed_words(staffs).text);
    svg_words(svg, RIGHT, y, "right", words);
}

void draw_staffs(struct text *svg, const char *name, const struct staffs *staffs)
{
    double lowest = 0, highest = 0, tall = staffs->count == 1 ? 2 * STAFF_TALL : STAFF_TALL, below;
    struct axis across = time_axis(staffs);
    bool shaded = false;
    char about[128];
    for (size_t k = 0; k < staffs->rows * staffs->count; k++) {
        lowest = mm(staffs->heights[k]) < lowest ? mm(staffs->heights[k]) : lowest;
        highest = mm(staffs->heights[k]) > highest ? mm(staffs->heights[k]) : highest;
    }
    snprintf(about, sizeof about, "%s to %s s, %s row%s", THOUSANDTHS(staffs->times[0]),
             THOUSANDTHS(staffs->times[staffs->rows - 1]), GROUPED((int64_t)staffs->rows),
             staffs->rows == 1 ? "" : "s");
    below = 96 + (double)staffs->count * (tall + STAFF_APART) + 30;
    svg_begin(svg, WIDTH, below + (staffs->counted ? STAFF_APART : 0));
    head(svg, name, staffs_standing(staffs).text, staffs->whole == RECORD_COMPLETE, staffs->rule, about);
    for (size_t k = 0; k < staffs->count; k++) {
        double top = 104 + (double)k * (tall + STAFF_APART);
        struct axis up = axis_for(lowest, highest, top + tall, top, 4, true);
        char title[64];
        snprintf(title, sizeof title, "Staff at cell %u", (unsigned)staffs->cells[k]);
        if (staffs->counted) {
            svg_words(svg, RIGHT, top - 9, "right", waves_words(&staffs->waves[k], true).text);
            shaded = largest_wave(svg, &across, &up, staffs, k) || shaded;
        }
        svg_panel(svg, &across, &up, title, "height (mm)", k + 1 == staffs->count ? "time (s)" : NULL);
        still_water(svg, &across, &up);
        staff_line(svg, &across, &up, staffs, k);
        frame(svg, &across, &up);
    }
    if (staffs->counted)
        waves_key(svg, below + 12, staffs, shaded);
    svg_end(svg);
}
