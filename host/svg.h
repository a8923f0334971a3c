/* svg.h: pictures as SVG: a sheet with panels, each with two axes in the numbers that it draws. */
#ifndef SVG_H
#define SVG_H

#include "text.h"

/* One axis: a range of numbers over a range of the sheet, with marks at round numbers. */
struct axis {
    double from, to;     /* numbers */
    double start, end;   /* where they stand on the sheet */
    double mark;         /* between two marks */
    int places;          /* decimal places of a mark's number */
};

/* An axis for numbers from lowest to highest, widened to whole marks if asked for. */
struct axis axis_for(double lowest, double highest, double start, double end, int marks, bool widen);

double on_axis(const struct axis *axis, double number);

void svg_begin(struct text *svg, double width, double height);
void svg_end(struct text *svg);

/* A text at a place; the style is a class of svg_begin's list. */
void svg_words(struct text *svg, double x, double y, const char *style, const char *words);

/* The grid, numbers and titles of a panel: the panel's title stands over it, upwards the title of its numbers. The
   numbers below are left out where `below` is NULL. */
void svg_panel(struct text *svg, const struct axis *across, const struct axis *up, const char *title,
               const char *beside, const char *below);

/* A line through points, begun and ended by these. */
void svg_line_begin(struct text *svg, const char *style);
void svg_point(struct text *svg, const struct axis *across, const struct axis *up, double x, double y);
void svg_line_end(struct text *svg);

#endif
