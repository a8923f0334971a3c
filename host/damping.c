#include "damping.h"
#include "pathpetal.h"
#include "say.h"

enum { NAMED_MOST = 4 }; /* stretches that are named one by one */

struct stretch damped_from(const uint8_t *file, size_t cell)
{
    size_t cells = pathpetal_cells(file), end;
    while (cell < cells && pathpetal_damping(file, cell) == 0)
        cell++;
    for (end = cell; end < cells && pathpetal_damping(file, end) > 0;)
        end++;
    return (struct stretch){cell, end};
}

bool is_damped(const uint8_t *file)
{
    return damped_from(file, 0).first < pathpetal_cells(file);
}

size_t most_damped(const uint8_t *file)
{
    size_t most = 0;
    for (size_t cell = 1; cell < pathpetal_cells(file); cell++)
        if (pathpetal_damping(file, cell) > pathpetal_damping(file, most))
            most = cell;
    return most;
}

/* The least damping of the cells that are damped. */
static int32_t least_damping(const uint8_t *file)
{
    int32_t least = pathpetal_damping(file, most_damped(file));
    for (size_t cell = 0; cell < pathpetal_cells(file); cell++) {
        int32_t damping = pathpetal_damping(file, cell);
        least = damping > 0 && damping < least ? damping : least;
    }
    return least;
}

/* "cell 5", "cells 1 to 20 and 101 to 120", "cells 1, 3, 5, 7 and 60 more stretches up to cell 127". */
static void add_stretches(struct text *text, const uint8_t *file)
{
    size_t cells = pathpetal_cells(file), count = 0, last = 0;
    struct stretch one = damped_from(file, 0);
    bool single = one.end == one.first + 1 && damped_from(file, one.end).first == cells;
    text_add(text, single ? "cell" : "cells");
    for (; one.first < cells; one = damped_from(file, one.end), count++) {
        const char *before = count == 0 ? "" : damped_from(file, one.end).first == cells ? " and" : ",";
        last = one.end;
        if (count >= NAMED_MOST)
            continue;
        text_add(text, "%s %zu", before, one.first + 1);
        if (one.end > one.first + 1)
            text_add(text, " to %zu", one.end);
    }
    if (count > NAMED_MOST)
        text_add(text, " and %zu more stretch%s up to cell %zu", count - NAMED_MOST,
                 count == NAMED_MOST + 1 ? "" : "es", last);
}

void add_damping(struct text *text, const uint8_t *file)
{
    size_t most = most_damped(file);
    int32_t greatest = pathpetal_damping(file, most), least = least_damping(file);
    if (!is_damped(file)) {
        text_add(text, "none");
        return;
    }
    if (least < greatest)
        text_add(text, "%s to ", GROUPED(least));
    text_add(text, "%s thousandth%s per second in ", GROUPED(greatest), greatest == 1 ? "" : "s");
    add_stretches(text, file);
    if (least < greatest)
        text_add(text, "; the greatest first in cell %zu", most + 1);
}
