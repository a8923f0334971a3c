#define _XOPEN_SOURCE 700 /* realpath */
#include "beside.h"
#include "whole.h"

#include <errno.h>
#include <fcntl.h>
#include <inttypes.h>
#include <stdio.h>
#include <stdlib.h>
#include <string.h>
#include <unistd.h>

#define FORM "pathpetal run 1\n"

enum { LONGEST = 1 << 16 }; /* bytes, more than two channels with a gauge in each cell have; what is longer was not
                               written here */

static void put_filter(struct text *text, uint32_t every)
{
    if (every)
        text_add(text, "%" PRIu32, every);
    else
        text_add(text, "none");
}

void put_run(struct text *text, const char *mark, const struct run_id *run)
{
    text_add(text, "%sorigin %s at step %" PRIu32 "\n", mark, run->origin.text, run->origin_step);
    if (run->rule > RULE_UNSAID)
        text_add(text, "%srule %" PRIu32 "\n", mark, run->rule);
    text_add(text, "%sfilter-every ", mark);
    put_filter(text, run->filter_every);
    text_add(text, "\n%spour %s\n", mark, run->pour.text);
}

static void put_gauge(struct text *text, const struct gauge *gauge)
{
    text_add(text, "gauge");
    for (size_t k = 0; k < GAUGE_NUMBERS; k++)
        text_add(text, " %" PRId64, gauge->numbers[k]);
    text_add(text, " noted %" PRId64 " %" PRId64 " %" PRId64 "\n", gauge->noted.crossed, gauge->noted.from,
             gauge->noted.to);
}

static void put_saved(struct text *text, const struct saved *saved)
{
    text_add(text, "channel %s at step %" PRIu32 "\n", saved->channel.text, saved->step);
    if (saved->recorded)
        text_add(text, "record %s of %" PRIu64 " bytes: %" PRIu32 " rows from step %" PRIu32 "\n", saved->sum.text,
                 saved->length, saved->rows, saved->first);
    for (size_t k = 0; k < saved->gauges; k++)
        put_gauge(text, &saved->gauge[k]);
}

static void put_beside(struct text *text, const struct beside *beside)
{
    text_add(text, FORM);
    put_run(text, "", &beside->run);
    for (size_t k = 0; k < beside->count; k++)
        put_saved(text, &beside->saved[k]);
    text_add(text, "sum %s\n", sum_of(text->at, text->length).text);
}

uint32_t own_rule(void)
{
    return (uint32_t)pathpetal_rule();
}

static const char *whose(uint32_t rule)
{
    return rule < own_rule() ? "an earlier" : "a later";
}

struct standing rule_words(uint32_t rule)
{
    struct standing out;
    snprintf(out.text, sizeof out.text, "%s program's rule (%" PRIu32 ")", whose(rule), rule);
    return out;
}

struct standing other_rule(uint32_t rule)
{
    struct standing out = {.text = ""};
    if (rule != 0 && rule != own_rule())
        snprintf(out.text, sizeof out.text, "its steps were taken by %s program's rule (%" PRIu32 "); this program's is %"
                 PRIu32, whose(rule), rule, own_rule());
    return out;
}

void tell_rule(uint32_t rule)
{
    struct standing words = other_rule(rule);
    if (words.text[0])
        tell("  %s", words.text);
}

/* How a filter or a pour reads in a sentence. */
static void add_how(struct text *how, const char *option, const char *there, const char *here)
{
    text_add(how, "%s%s %s there, %s here", how->length ? "; " : "", option, there, here);
}

bool same_options(const struct run_id *there, const struct run_id *here, struct text *how)
{
    bool same = there->rule == here->rule;
    if (!same)
        text_add(how, "%s there, %" PRIu32 " here", rule_words(there->rule).text, here->rule);
    if (there->filter_every != here->filter_every) {
        struct text a = {0}, b = {0};
        put_filter(&a, there->filter_every);
        put_filter(&b, here->filter_every);
        add_how(how, "--filter-every", a.at, b.at);
        free(a.at);
        free(b.at);
        same = false;
    }
    if (!same_hex(&there->pour, &here->pour)) {
        bool none_there = strcmp(there->pour.text, "none") == 0, none_here = strcmp(here->pour.text, "none") == 0;
        add_how(how, "--pour", none_there ? "none" : "a table",
                none_here ? "none" : none_there ? "a table" : "another");
        same = false;
    }
    return same;
}

bool same_run(const struct run_id *there, const struct run_id *here, struct text *how)
{
    bool same = same_options(there, here, how);
    if (there->origin_step == here->origin_step && same_hex(&there->origin, &here->origin))
        return same;
    text_add(how, "%sit began with another channel", how->length ? "; " : "");
    return false;
}

/* What follows the first word of a line, which stands after a mark; NULL if the line begins otherwise. */
static const char *after_word(const char *line, const char *mark, const char *word)
{
    size_t marks = strlen(mark), letters = strlen(word);
    bool same = strncmp(line, mark, marks) == 0 && strncmp(line + marks, word, letters) == 0;
    return same ? line + marks + letters : NULL;
}

const char *take_run(const char *lines, const char *mark, struct run_id *run)
{
    char every[16] = "";
    const char *at = after_word(lines, mark, "origin "), *rule;
    int used = 0;
    *run = (struct run_id){.rule = RULE_UNSAID};
    if (!at || sscanf(at, "%64[0-9a-f] at step %7" SCNu32 " %n", run->origin.text, &run->origin_step, &used) != 2)
        return NULL;
    at += used;
    rule = after_word(at, mark, "rule ");
    if (rule && sscanf(rule, "%7" SCNu32 " %n", &run->rule, &used) == 1)
        at = rule + used;
    at = after_word(at, mark, "filter-every ");
    if (!at || sscanf(at, "%15s %n", every, &used) != 1)
        return NULL;
    run->filter_every = (uint32_t)strtoul(every, NULL, 10); /* "none" is 0 */
    at = after_word(at + used, mark, "pour ");
    if (!at || sscanf(at, "%64s %n", run->pour.text, &used) != 1)
        return NULL;
    return at + used;
}

/* A gauge's line; gives what follows it, NULL if it is not there. */
static const char *take_gauge(const char *at, struct gauge *gauge)
{
    int64_t *n = gauge->numbers;
    int used = 0;
    if (sscanf(at, "gauge %17" SCNd64 " %17" SCNd64 " %17" SCNd64 " %17" SCNd64 " %17" SCNd64 " %17" SCNd64
               " %17" SCNd64 " %17" SCNd64 " noted %7" SCNd64 " %7" SCNd64 " %7" SCNd64 "%n", &n[0], &n[1], &n[2],
               &n[3], &n[4], &n[5], &n[6], &n[7], &gauge->noted.crossed, &gauge->noted.from, &gauge->noted.to,
               &used) != GAUGE_NUMBERS + 3)
        return NULL;
    return at + used + (at[used] == '\n');
}

/* A channel's lines; gives what follows them, NULL if they are not there. */
static const char *take_saved(const char *at, struct saved *saved)
{
    int used = 0;
    *saved = (struct saved){.step = 0};
    if (sscanf(at, "channel %64[0-9a-f] at step %7" SCNu32 "%n", saved->channel.text, &saved->step, &used) != 2)
        return NULL;
    at += used + (at[used] == '\n');
    used = 0;
    if (sscanf(at, "record %64[0-9a-f] of %18" SCNu64 " bytes: %7" SCNu32 " rows from step %7" SCNu32 "%n",
               saved->sum.text, &saved->length, &saved->rows, &saved->first, &used) == 4 && used > 0) {
        saved->recorded = true;
        at += used + (at[used] == '\n');
    }
    while (saved->recorded && saved->gauges < CELLS_MOST) {
        const char *after = take_gauge(at, &saved->gauge[saved->gauges]);
        if (!after)
            break;
        saved->gauges++;
        at = after;
    }
    return at;
}

/* Takes a text apart. It is one of ours only if putting it together again gives the same bytes. A record without gauges
   is of the unsaid rule. */
static bool take_beside(const char *text, size_t length, struct beside *beside)
{
    struct text again = {0};
    const char *at = after_word(text, "", FORM);
    bool same;
    at = at ? take_run(at, "", &beside->run) : NULL;
    if (!at)
        return false;
    while (beside->count < 2) {
        struct saved *saved = &beside->saved[beside->count];
        const char *after = take_saved(at, saved);
        if (!after)
            break;
        if (saved->recorded && saved->gauges == 0 && beside->run.rule != RULE_UNSAID)
            return false;
        beside->count++;
        at = after;
    }
    put_beside(&again, beside);
    same = again.length == length && memcmp(again.at, text, length) == 0;
    free(again.at);
    return same;
}

/* Reads an open NAME.run. An empty one was left by a run that was killed before it saved anything. */
static enum status take_open(struct beside *beside, int file)
{
    char *text = room_for(LONGEST + 1, 1);
    size_t length = 0;
    while (length < LONGEST) {
        ssize_t got = read(file, text + length, LONGEST - length);
        if (got < 0 && errno == EINTR)
            continue;
        if (got < 0) {
            say("%s: cannot be read: %s", beside->path, strerror(errno));
            free(text);
            return STATUS_REFUSED;
        }
        if (got == 0)
            break;
        length += (size_t)got;
    }
    beside->strange = length > 0 && (length == LONGEST || memchr(text, '\0', length) ||
                                     !take_beside(text, length, beside));
    if (beside->strange || length == 0)
        beside->count = 0;
    free(text);
    return STATUS_DONE;
}

char *beside_path(const char *channel)
{
    char *itself = realpath(channel, NULL), *path;
    path = joined(itself ? itself : channel, ".run");
    free(itself);
    return path;
}

enum status beside_read(const char *channel, struct beside *beside)
{
    enum status status;
    int file;
    *beside = (struct beside){.path = beside_path(channel), .file = -1};
    file = open(beside->path, O_RDONLY | O_NONBLOCK | O_CLOEXEC);
    if (file < 0 && (errno == ENOENT || errno == ENOTDIR || errno == ENAMETOOLONG || errno == ENXIO))
        return STATUS_DONE;
    if (file < 0) {
        say("%s: cannot be read: %s", beside->path, strerror(errno));
        return STATUS_REFUSED;
    }
    status = take_open(beside, file);
    close(file);
    return status;
}

enum status beside_hold(const char *channel, struct beside *beside)
{
    enum status status;
    *beside = (struct beside){.path = joined(channel, ".run"), .file = -1};
    status = open_alone(beside->path, &beside->file, &beside->unused);
    return status == STATUS_DONE ? take_open(beside, beside->file) : status;
}

const struct saved *beside_find(const struct beside *beside, const struct hex *channel)
{
    for (size_t k = 0; k < beside->count; k++)
        if (same_hex(&beside->saved[k].channel, channel))
            return &beside->saved[k];
    return NULL;
}

const struct saved *beside_stepped(const struct beside *beside, const struct hex *channel, uint32_t accepted)
{
    const struct saved *found = beside_find(beside, channel);
    return found && found->step == accepted && accepted > beside->run.origin_step ? found : NULL;
}

uint32_t rule_of(const char *path, const struct channel *channel)
{
    struct hex sum = sum_of(channel->bytes, channel->length);
    struct beside beside;
    uint32_t rule = 0;
    if (beside_read(path, &beside) == STATUS_DONE &&
        beside_stepped(&beside, &sum, pathpetal_accepted(channel->bytes)))
        rule = beside.run.rule;
    beside_free(&beside);
    return rule;
}

enum status beside_write(struct beside *beside, const struct run_id *run, const struct saved *stands,
                         const struct saved *coming)
{
    struct beside says = {.run = *run, .saved = {*coming}, .count = 1};
    struct text text = {0};
    struct next next;
    int before = beside->file;
    enum status status = next_begin(beside->path, beside->file, &next);
    if (status != STATUS_DONE)
        return status;
    if (stands && !same_hex(&stands->channel, &coming->channel))
        says.saved[says.count++] = *stands;
    put_beside(&text, &says);
    status = write_all(next.file, text.at, text.length, beside->path);
    status = next_end(beside->path, &beside->file, &next, status);
    beside->unused = beside->unused && beside->file == before;
    free(text.at);
    return status;
}

void beside_free(struct beside *beside)
{
    if (beside->file >= 0 && beside->unused && still_named(beside->file, beside->path))
        unlink(beside->path);
    if (beside->file >= 0)
        close(beside->file);
    free(beside->path);
    *beside = (struct beside){.file = -1};
}
