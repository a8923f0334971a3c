#include "layout.h"

#include <inttypes.h>
#include <stdio.h>
#include <stdlib.h>
#include <string.h>

void put_names(struct text *text, const size_t *cells, size_t count)
{
    text_add(text, "step,time_s");
    for (size_t k = 0; k < count; k++)
        text_add(text, ",cell_%zu_um", cells[k] + 1);
    text_add(text, "\n");
}

void put_head(struct text *text, const struct head *head)
{
    put_run(text, "# ", &head->run);
    text_add(text, "# every %" PRIu32 " from step %" PRIu32 "\n", head->every, head->first);
}

/* Whether a head's numbers are such as a run has, but for its filter passes. */
static bool in_bounds(const struct head *head)
{
    return strlen(head->run.origin.text) == 64 &&
           (strcmp(head->run.pour.text, "none") == 0 || strspn(head->run.pour.text, "0123456789abcdef") == 64) &&
           head->every >= 1 && head->every <= STEPS_MOST && head->first <= STEPS_MOST &&
           head->first % head->every == 0 && head->run.origin_step <= head->first;
}

/* Like the last line and what stands beside a channel, a head is one of ours only if putting it together again gives
   the same bytes. */
size_t take_head(const char *lines, struct head *head)
{
    struct text again = {0};
    size_t length = 0;
    const char *at;
    *head = (struct head){.every = 0};
    at = take_run(lines, "# ", &head->run);
    if (!at || sscanf(at, "# every %7" SCNu32 " from step %7" SCNu32, &head->every, &head->first) != 2 ||
        !in_bounds(head))
        return 0;
    put_head(&again, head);
    if (strncmp(lines, again.at, again.length) == 0)
        length = again.length;
    free(again.at);
    return length;
}

size_t head_lines(const struct head *head)
{
    return head->run.rule > RULE_UNSAID ? HEAD_LINES_MOST : HEAD_LINES_MOST - 1;
}

void put_waves(struct text *text, const struct waves *waves)
{
    text_add(text, "# cell %" PRId64 ": %" PRId64 " height%s from step %" PRId64 ", %" PRId64 " wave%s, largest "
             "%" PRId64 " um, sum %" PRId64 " um", waves->cell, waves->fed, waves->fed == 1 ? "" : "s", waves->first,
             waves->count, waves->count == 1 ? "" : "s", waves->largest, waves->sum);
    if (waves->count > 0)
        text_add(text, ", noted from step %" PRId64 " to step %" PRId64, waves->from, waves->to);
    text_add(text, "\n");
}

bool take_waves(const char *line, struct waves *waves)
{
    struct text again = {0};
    bool same;
    int read;
    *waves = (struct waves){.cell = 0};
    read = sscanf(line, "# cell %7" SCNd64 ": %7" SCNd64 " %*[heigts] from step %7" SCNd64 ", %7" SCNd64 " %*[waves], "
                  "largest %8" SCNd64 " um, sum %14" SCNd64 " um, noted from step %7" SCNd64 " to step %7" SCNd64,
                  &waves->cell, &waves->fed, &waves->first, &waves->count, &waves->largest, &waves->sum, &waves->from,
                  &waves->to);
    if (read != 6 && read != 8)
        return false;
    put_waves(&again, waves);
    same = strcmp(line, again.at) == 0;
    free(again.at);
    return same;
}

void put_tail(struct text *text, const struct tail *tail)
{
    text_add(text, "# %s: %" PRIu32 " of %" PRIu32 " steps accepted", tail->complete ? "complete" : "open",
             tail->accepted, tail->wanted);
    if (tail->first > 0)
        text_add(text, ", recorded from step %" PRIu32, tail->first);
    if (tail->summed)
        text_add(text, ", %" PRIu32 " rows, sha256 ", tail->rows);
}

bool take_tail(const char *line, struct tail *tail)
{
    struct text again = {0};
    const char *from, *rows;
    bool same;
    *tail = (struct tail){.complete = strncmp(line, "# complete: ", 12) == 0};
    if (sscanf(line, tail->complete ? "# complete: %7" SCNu32 " of %7" SCNu32 : "# open: %7" SCNu32 " of %7" SCNu32,
               &tail->accepted, &tail->wanted) != 2)
        return false;
    from = strstr(line, ", recorded from step ");
    if (from && sscanf(from, ", recorded from step %7" SCNu32, &tail->first) != 1)
        return false;
    rows = strstr(line, " rows, sha256 ");
    if (rows) {
        while (rows > line && rows[-1] != ' ')
            rows--;
        tail->summed = sscanf(rows, "%7" SCNu32 " rows, sha256 %64[0-9a-f]", &tail->rows, tail->sum.text) == 2;
    }
    put_tail(&again, tail);
    tail->before = again.length;
    same = strncmp(line, again.at, again.length) == 0 &&
           strcmp(line + again.length, tail->summed ? tail->sum.text : "") == 0;
    free(again.at);
    return same && (!tail->summed || strlen(tail->sum.text) == 64);
}
