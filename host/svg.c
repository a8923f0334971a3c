#include "svg.h"

#include <math.h>
#include <stdio.h>
#include <string.h>

/* The round number, 1, 2 or 5 times a power of ten, that gives at most so many marks. */
static double round_mark(double range, int marks, int *places)
{
    static const double steps[] = {1, 2, 5};
    double power = 1e-9;
    int exponent = -9;
    for (;; power *= 10, exponent++)
        for (size_t k = 0; k < 3; k++)
            if (range / (steps[k] * power) <= marks) {
                *places = exponent < 0 ? -exponent : 0;
                return steps[k] * power;
            }
}

struct axis axis_for(double lowest, double highest, double start, double end, int marks, bool widen)
{
    struct axis axis = {lowest, highest, start, end, 1, 0};
    if (!(highest > lowest)) {
        axis.from = lowest - 1;
        axis.to = highest + 1;
    }
    axis.mark = round_mark(axis.to - axis.from, marks, &axis.places);
    if (widen) {
        axis.from = floor(axis.from / axis.mark) * axis.mark;
        axis.to = ceil(axis.to / axis.mark) * axis.mark;
    }
    return axis;
}

double on_axis(const struct axis *axis, double number)
{
    return axis->start + (number - axis->from) / (axis->to - axis->from) * (axis->end - axis->start);
}

void svg_begin(struct text *svg, double width, double height)
{
    text_add(svg,
             "<svg xmlns=\"http://www.w3.org/2000/svg\" viewBox=\"0 0 %.0f %.0f\" width=\"%.0f\" height=\"%.0f\">\n"
             "<style>\n"
             "text { font-family: 'DejaVu Sans', Verdana, Arial, sans-serif; font-size: 13px; fill: #243038; }\n"
             ".title { font-size: 19px; font-weight: bold; }\n"
             ".panel { font-size: 14px; font-weight: bold; }\n"
             ".done { font-size: 15px; font-weight: bold; fill: #1a6b3c; }\n"
             ".open { font-size: 15px; font-weight: bold; fill: #b3261e; }\n"
             ".middle { text-anchor: middle; }\n"
             ".right { text-anchor: end; }\n"
             ".grid { stroke: #d5dde1; stroke-width: 1; }\n"
             ".frame { stroke: #5b6a72; stroke-width: 1.2; fill: none; }\n"
             ".still { stroke: #243038; stroke-width: 1; stroke-dasharray: 6 4; fill: none; }\n"
             ".surface { stroke: #0b5394; stroke-width: 2.2; fill: none; stroke-linejoin: round; }\n"
             ".water { fill: #9cc9ec; stroke: none; }\n"
             ".bottom { fill: #cdb58a; stroke: #7a6238; stroke-width: 1.5; }\n"
             ".largest { fill: #fbe0a6; stroke: none; }\n"
             "</style>\n"
             "<rect width=\"%.0f\" height=\"%.0f\" fill=\"#ffffff\"/>\n",
             width, height, width, height, width, height);
}

void svg_end(struct text *svg)
{
    text_add(svg, "</svg>\n");
}

void svg_words(struct text *svg, double x, double y, const char *style, const char *words)
{
    text_add(svg, "<text x=\"%.1f\" y=\"%.1f\" class=\"%s\">", x, y, style);
    text_add_escaped(svg, words);
    text_add(svg, "</text>\n");
}

/* A mark's number: with its places, commas between thousands, and no minus before a zero. */
static void put_mark(struct text *svg, double number, const struct axis *axis)
{
    char digits[64];
    size_t length, whole;
    if (fabs(number) < axis->mark / 2)
        number = 0;
    snprintf(digits, sizeof digits, "%.*f", axis->places, fabs(number));
    length = strlen(digits);
    whole = strcspn(digits, ".");
    if (number < 0)
        text_add(svg, "\xE2\x88\x92");
    for (size_t k = 0; k < length; k++)
        text_add(svg, "%s%c", k > 0 && k < whole && (whole - k) % 3 == 0 ? "," : "", digits[k]);
}

void svg_panel(struct text *svg, const struct axis *across, const struct axis *up, const char *title,
               const char *beside, const char *below)
{
    double left = across->start, right = across->end, low = up->start, top = up->end, middle = (low + top) / 2;
    for (double k = ceil(up->from / up->mark - 1e-6); k * up->mark <= up->to + up->mark * 1e-6; k++) {
        double y = on_axis(up, k * up->mark);
        text_add(svg, "<line class=\"grid\" x1=\"%.1f\" y1=\"%.1f\" x2=\"%.1f\" y2=\"%.1f\"/>\n", left, y, right, y);
        text_add(svg, "<text x=\"%.1f\" y=\"%.1f\" class=\"right\">", left - 8, y + 4.5);
        put_mark(svg, k * up->mark, up);
        text_add(svg, "</text>\n");
    }
    for (double k = ceil(across->from / across->mark - 1e-6); k * across->mark <= across->to + across->mark * 1e-6;
         k++) {
        double x = on_axis(across, k * across->mark);
        text_add(svg, "<line class=\"grid\" x1=\"%.1f\" y1=\"%.1f\" x2=\"%.1f\" y2=\"%.1f\"/>\n", x, low, x, top);
        if (below) {
            text_add(svg, "<text x=\"%.1f\" y=\"%.1f\" class=\"middle\">", x, low + 19);
            put_mark(svg, k * across->mark, across);
            text_add(svg, "</text>\n");
        }
    }
    if (below)
        svg_words(svg, (left + right) / 2, low + 40, "middle", below);
    if (title)
        svg_words(svg, left, top - 9, "panel", title);
    text_add(svg, "<text transform=\"translate(%.1f %.1f) rotate(-90)\" class=\"middle\">", left - 92, middle);
    text_add_escaped(svg, beside);
    text_add(svg, "</text>\n");
}

void svg_line_begin(struct text *svg, const char *style)
{
    text_add(svg, "<polyline class=\"%s\" points=\"", style);
}

void svg_point(struct text *svg, const struct axis *across, const struct axis *up, double x, double y)
{
    text_add(svg, "%.2f,%.2f ", on_axis(across, x), on_axis(up, y));
}

void svg_line_end(struct text *svg)
{
    text_add(svg, "\"/>\n");
}
