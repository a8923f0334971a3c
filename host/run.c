/* run.c: a run of a channel file, with filter passes, poured water, a staff record with its gauges and checkpoints.

   All of these are tied to the accepted count alone, and a saved channel always stands directly after a step. A
   filter pass belongs to the step that follows it, and the feeding of the gauges to the step before it: all happen, or
   none is kept. So a run that goes on from a saved file does what one run in one go would have done. What the same run
   has left when it was cut is known by what stands beside it, and is gone on with. */
#include "commands.h"
#include "options.h"
#include "pour.h"
#include "record.h"
#include "refusal.h"
#include "saves.h"

#include <signal.h>
#include <stdio.h>
#include <stdlib.h>
#include <string.h>
#include <time.h>
#include <unistd.h>

static const char usage[] = "pathpetal run START -o END [--filter-every N] [--pour POUR.csv] [--staff CELLS --record "
                            "RECORD.csv [--every N]] [--checkpoint FILE --checkpoint-every N] [--replace]";

enum { BLOCK = 100 }; /* the most steps between two looks at signals and the clock */

struct run {
    const char *start;
    struct save end, checkpoint;
    uint32_t checkpoint_every; /* 0 for never */
    bool replace;
    struct run_id id;
    struct saved start_saved; /* what is known of START, if anything */
    const struct save *from;  /* what the run goes on from in the place of START, NULL for START itself */
    struct pour pour;
    struct record record;
    struct channel channel;
    struct channel before;     /* as it was before the step at hand and its filter pass, where it may be needed */
    uint8_t *poured;           /* a row for one step */
    uint32_t first; /* the count it began with */
    double began;   /* the clock when it began, s */
    double shown;   /* the clock when progress was last shown */
};

/* Why a run ended. */
struct ending {
    enum status status;
    enum { IN_STEP, IN_FILTER, IN_GAUGES } where; /* the refusal was met */
    uint64_t answer;                              /* of the refused call */
};

/* The signal that asked the run to end; 0 for none. */
static volatile sig_atomic_t asked;

static void ask(int signal)
{
    asked = signal;
}

/* Signals that end a run in good order; one that was being ignored stays so. */
static void listen(void)
{
    const int signals[] = {SIGINT, SIGTERM, SIGHUP};
    for (size_t k = 0; k < sizeof signals / sizeof signals[0]; k++) {
        struct sigaction action, before;
        memset(&action, 0, sizeof action);
        action.sa_handler = ask;
        action.sa_flags = SA_RESTART;
        sigemptyset(&action.sa_mask);
        if (sigaction(signals[k], NULL, &before) == 0 && before.sa_handler != SIG_IGN)
            sigaction(signals[k], &action, NULL);
    }
}

static double clock_s(void)
{
    struct timespec now = {0};
    clock_gettime(CLOCK_MONOTONIC, &now);
    return (double)now.tv_sec + (double)now.tv_nsec / 1e9;
}

/* On a terminal and five times a second, the longest of these that is not wrapped there:
   "1,200 of 6,000 steps, 20 %, about 40 s left", "1,200 of 6,000 steps, 20 %", "20 %" or nothing. */
static void show_progress(struct run *run)
{
    uint32_t accepted = pathpetal_accepted(run->channel.bytes), wanted = pathpetal_wanted(run->channel.bytes);
    double now = clock_s(), left = 0;
    char share[16], steps[96], all[192];
    const char *forms[] = {all, steps, share, ""};
    size_t form = 0;
    if (!isatty(STDERR_FILENO) || now - run->shown < 0.2)
        return;
    run->shown = now;
    snprintf(share, sizeof share, "%u %%", (unsigned)((uint64_t)accepted * 100 / wanted));
    snprintf(steps, sizeof steps, "%s of %s steps, %s", GROUPED(accepted), GROUPED(wanted), share);
    if (accepted > run->first)
        left = (now - run->began) / (accepted - run->first) * (wanted - accepted) + 0.5;
    else
        form = 1;
    snprintf(all, sizeof all, "%s, about %.0f %s left", steps, left < 90 ? left : left / 60 + 0.5,
             left < 90 ? "s" : "min");
    while (strlen(forms[form]) > progress_room())
        form++;
    say_progress(forms[form]);
}

/* The first multiple of `every` after a count; far away for never. */
static uint64_t next_multiple(uint32_t count, uint32_t every)
{
    return every ? ((uint64_t)count / every + 1) * every : UINT64_MAX;
}

static uint64_t least(uint64_t a, uint64_t b)
{
    return a < b ? a : b;
}

/* How many steps with nothing poured may be taken at once; 0 if the next step pours. */
static uint64_t free_steps(const struct run *run)
{
    uint32_t accepted = pathpetal_accepted(run->channel.bytes), pours = pour_step(&run->pour);
    uint64_t until = (uint64_t)accepted + BLOCK;
    until = least(until, next_multiple(accepted, run->id.filter_every));
    until = least(until, next_multiple(accepted, run->checkpoint_every));
    if (run->record.path)
        until = (uint64_t)accepted + 1; /* the gauges are fed after every step */
    if (pours)
        until = least(until, pours - 1);
    return until - accepted;
}

/* The step that pours, or as many as are free. */
static uint64_t step_on(struct run *run)
{
    struct channel *channel = &run->channel;
    uint64_t steps = free_steps(run);
    size_t cells = pathpetal_cells(channel->bytes);
    if (steps > 0)
        return pathpetal_run(channel->bytes, channel->length, steps);
    pour_row(&run->pour, run->poured, cells);
    return pathpetal_step(channel->bytes, channel->length, run->poured, 4 * cells);
}

/* One filter pass if one is due, then at least one step, and with a record exactly one, which the gauges are fed; or
   nothing, and the refusal. */
static void advance(struct run *run, struct ending *ending)
{
    struct channel *channel = &run->channel;
    uint32_t before = pathpetal_accepted(channel->bytes);
    uint64_t answer = PATHPETAL_DONE;
    memcpy(run->before.bytes, channel->bytes, channel->length);
    if (run->id.filter_every && before > 0 && before % run->id.filter_every == 0)
        answer = pathpetal_filter(channel->bytes, channel->length);
    if (pathpetal_number(answer) != PATHPETAL_DONE) {
        *ending = (struct ending){STATUS_OPEN, IN_FILTER, answer};
        return;
    }
    answer = step_on(run);
    if (pathpetal_number(answer) != PATHPETAL_DONE && pathpetal_number(answer) != PATHPETAL_MORE)
        *ending = (struct ending){STATUS_OPEN, IN_STEP, answer};
    if (pathpetal_accepted(channel->bytes) != before) {
        answer = run->record.path ? record_feed(&run->record, channel->bytes) : PATHPETAL_DONE;
        if (pathpetal_number(answer) == PATHPETAL_DONE)
            return;
        *ending = (struct ending){STATUS_OPEN, IN_GAUGES, answer};
    }
    memcpy(channel->bytes, run->before.bytes, channel->length);
    ending->status = STATUS_OPEN; /* a call that takes no step ends the run, whatever it answers */
}

/* The channel at hand, as it is to be saved. */
static struct saved saved_now(const struct run *run)
{
    struct saved saved = {.channel = sum_of(run->channel.bytes, run->channel.length),
                          .step = pathpetal_accepted(run->channel.bytes)};
    record_saved(&run->record, &saved);
    return saved;
}

/* What is due at the count just reached: the row of the record, then the checkpoint, which never runs ahead of it.
   A complete channel goes to END alone. */
static enum status keep(struct run *run)
{
    uint32_t accepted = pathpetal_accepted(run->channel.bytes);
    enum status status = STATUS_DONE;
    if (record_due(&run->record, accepted))
        status = record_row(&run->record, run->channel.bytes);
    if (status != STATUS_DONE || !run->checkpoint.path || accepted % run->checkpoint_every != 0 ||
        pathpetal_complete(run->channel.bytes))
        return status;
    if (run->record.path)
        status = record_flush(&run->record);
    if (status == STATUS_DONE) {
        struct saved now = saved_now(run);
        status = save_write(&run->checkpoint, &run->id, &run->channel, &now, false);
    }
    return status;
}

static struct ending take_steps(struct run *run)
{
    struct ending ending = {.status = STATUS_DONE};
    run->first = pathpetal_accepted(run->channel.bytes);
    run->began = clock_s();
    while (ending.status == STATUS_DONE && !pathpetal_complete(run->channel.bytes)) {
        uint32_t before = pathpetal_accepted(run->channel.bytes);
        if (asked) {
            ending.status = STATUS_INTERRUPTED;
            break;
        }
        show_progress(run);
        advance(run, &ending);
        if (pathpetal_accepted(run->channel.bytes) != before && keep(run) != STATUS_DONE)
            ending.status = STATUS_UNWRITTEN;
    }
    return ending;
}

/* Where in the channel a step or filter pass was refused: ", in cell 17, 33.000 m from the left wall" to the middle of
   the cell; nothing where no cell is named. */
static struct standing place_along(const uint8_t *file, uint64_t answer)
{
    struct standing out = {{0}};
    uint64_t cell = pathpetal_place(answer);
    if (cell > 0)
        snprintf(out.text, sizeof out.text, "%s, %s m from the left wall", refusal_place(answer).text,
                 THOUSANDTHS((int64_t)((2 * cell - 1) * pathpetal_width_mm(file) / 2)));
    return out;
}

/* Says why the run is not complete. */
static void say_ending(const struct run *run, const struct ending *ending)
{
    const uint8_t *file = run->channel.bytes;
    uint32_t step = pathpetal_accepted(file) + 1, wanted = pathpetal_wanted(file);
    unsigned number = pathpetal_number(ending->answer), stage = pathpetal_stage(ending->answer);
    if (ending->status == STATUS_INTERRUPTED)
        say("interrupted before step %s of %s", GROUPED(step), GROUPED(wanted));
    if (ending->status != STATUS_OPEN)
        return;
    if (ending->where == IN_GAUGES) {
        say("step %s of %s is not kept: its heights could not be fed to the gauges (number %u): %s", GROUPED(step),
            GROUPED(wanted), number, refusal_words(number));
        say("to mend: %s", refusal_mend(number));
        return;
    }
    if (ending->where == IN_FILTER)
        say("the filter pass before step %s of %s was refused (number %u)%s: %s", GROUPED(step), GROUPED(wanted),
            number, place_along(file, ending->answer).text, refusal_words(number));
    else
        say("step %s of %s was refused %s (number %u, stage %u)%s: %s", GROUPED(step), GROUPED(wanted),
            stage_words(stage).text, number, stage, place_along(file, ending->answer).text, refusal_words(number));
    /* a filter pass meets what was poured into the step before it */
    say_mend(file, ending->answer, pours_into(&run->pour, ending->where == IN_FILTER ? step - 1 : step));
}

/* Writes END; *holds is whether it then holds the channel at hand, and not one that the same run has left further on.
   Where something that the same command goes on from stands already, END is not written unless it is known. */
static enum status save_end(struct run *run, bool *holds)
{
    struct saved now = saved_now(run);
    enum status flushed = run->record.path ? record_flush(&run->record) : STATUS_DONE, status;
    bool known = run->end.own || run->checkpoint.own;
    status = save_write(&run->end, &run->id, &run->channel, &now, !known);
    *holds = stands_with(run->end.path, &now.channel);
    if (status == STATUS_DONE && *holds && !run->end.fresh)
        status = flush_named(run->end.path);
    return status == STATUS_DONE ? flushed : status;
}

/* Of a run whose END does not hold what it has come to. */
static void say_unsaved(const struct run *run)
{
    const struct save *left = run->end.own ? &run->end : run->checkpoint.own ? &run->checkpoint : NULL;
    struct stat found;
    const char *other = !run->end.own && lstat(run->end.path, &found) == 0 ? ", with another name for END" : "";
    if (left != &run->end)
        say("END is not written; START is as it was");
    if (left)
        say("%s stays as it was, with %s steps; to go on, give the same command again%s", left->path,
            GROUPED(left->stands.step), other);
}

/* What can be done with what is left of a run that is not complete. */
static void say_left(const struct run *run, enum status why)
{
    enum left left = record_left(&run->record);
    if (left == LEFT_ROWS)
        say("%s: holds the record so far", run->record.open_path);
    if (left == LEFT_SPOILT)
        say("%s: holds no record: remove it", run->record.open_path);
    if (!run->end.own)
        say("to go on: move %s away, and give the same command again", run->end.path);
    else if (why != STATUS_OPEN)
        say("to go on: %sgive the same command again", left == LEFT_SPOILT ? "then " : "");
}

/* Writes END, then ends the record, so that no record says complete without END. */
static enum status end_run(struct run *run, struct ending ending)
{
    const uint8_t *file = run->channel.bytes;
    bool holds = false;
    enum status status;
    say_progress("");
    say_ending(run, &ending);
    status = save_end(run, &holds);
    if (run->record.path && status == STATUS_DONE && ending.status != STATUS_UNWRITTEN &&
        (holds || !pathpetal_complete(file)))
        status = record_end(&run->record, file);
    if (ending.status == STATUS_DONE && status == STATUS_DONE && holds) {
        tell("%s: %s", run->end.path, standing(file).text);
        return told();
    }
    if (holds) {
        say("%s: %s", run->end.path, standing(file).text);
        say_left(run, ending.status);
    } else {
        say_unsaved(run);
    }
    if (ending.status == STATUS_DONE && status == STATUS_DONE)
        return STATUS_UNWRITTEN;
    return status != STATUS_DONE ? status : ending.status;
}

static enum status usage_wrong(const char *what)
{
    say("%s", what);
    say("usage: %s", usage);
    return STATUS_USAGE;
}

/* A count of steps that an option gives. */
static enum status take_every(const struct option *options, const char *name, uint32_t *every)
{
    int64_t number = 0;
    enum status status = option_number(options, name, 1, STEPS_MOST, &number);
    *every = (uint32_t)number;
    return status;
}

/* What was asked on the command line, as far as it can be told without the channel. */
static enum status take_options(struct run *run, const struct option *options)
{
    const char *record = option_value(options, "--record");
    enum status status = STATUS_DONE;
    run->end.path = option_value(options, "-o");
    run->checkpoint.path = option_value(options, "--checkpoint");
    run->replace = option_value(options, "--replace") != NULL;
    if (!run->end.path)
        return usage_wrong("-o END is missing");
    if (!run->checkpoint.path != !option_value(options, "--checkpoint-every"))
        return usage_wrong("--checkpoint and --checkpoint-every go together");
    if (!record != !option_value(options, "--staff"))
        return usage_wrong("--staff and --record go together");
    if (!record && option_value(options, "--every"))
        return usage_wrong("--every goes with --staff and --record");
    if (option_value(options, "--filter-every"))
        status = take_every(options, "--filter-every", &run->id.filter_every);
    if (status == STATUS_DONE && run->checkpoint.path)
        status = take_every(options, "--checkpoint-every", &run->checkpoint_every);
    run->record.head.every = 1;
    if (status == STATUS_DONE && option_value(options, "--every"))
        status = take_every(options, "--every", &run->record.head.every);
    if (status == STATUS_DONE && record) {
        run->record.path = joined(record, "");
        run->record.open_path = joined(record, ".open");
    }
    return status;
}

/* Whether all places are apart, and every output can be written. What stands there already is judged later. */
static enum status look_at_places(const struct run *run, const char *pour)
{
    char *beside[3] = {beside_path(run->start), joined(run->end.path, ".run"), NULL};
    enum status status;
    if (run->checkpoint.path)
        beside[2] = joined(run->checkpoint.path, ".run");
    {
        struct place places[] = {input_place("START", run->start), input_place("POUR", pour),
                                 work_place("END", run->end.path),
                                 work_place("the checkpoint", run->checkpoint.path),
                                 work_place("RECORD", run->record.path),
                                 work_place("RECORD.open", run->record.open_path),
                                 input_place("START.run", beside[0]), work_place("END.run", beside[1]),
                                 work_place("the checkpoint's .run", beside[2])};
        status = outputs_allowed(places, sizeof places / sizeof places[0], run->replace);
    }
    for (size_t k = 0; k < 3; k++)
        free(beside[k]);
    return status;
}

/* Reads START and what stands beside it. Where START is a checkpoint that another run is writing, both are read again
   until they are of one moment. */
static enum status read_start(struct run *run, struct beside *beside)
{
    struct channel *again = room_for(1, sizeof *again);
    enum status status = channel_read(run->start, &run->channel);
    *beside = (struct beside){.file = -1};
    for (int try = 0; status == STATUS_DONE && try < 100; try++) {
        struct hex sum = sum_of(run->channel.bytes, run->channel.length);
        struct stat found;
        beside_free(beside);
        status = beside_read(run->start, beside);
        if (status != STATUS_DONE || pathpetal_accepted(run->channel.bytes) == 0 || beside_find(beside, &sum) ||
            stat(run->start, &found) != 0 || !S_ISREG(found.st_mode))
            break;
        status = channel_read(run->start, again);
        if (status != STATUS_DONE || (again->length == run->channel.length &&
                                      memcmp(again->bytes, run->channel.bytes, again->length) == 0))
            break;
        run->channel = *again;
    }
    free(again);
    return status;
}

/* Refuses a START that the run cannot go on with. */
static enum status taken_otherwise(const struct run *run, bool same_rule, const char *how)
{
    say("%s: its last steps were taken %s: %s", run->start, same_rule ? "with other options" : "by another rule", how);
    say("%s; or, to begin a run of its own from it, copy it under another name, without its .run",
        same_rule ? "give the same options" : "begin again with the channel that its run began with");
    return STATUS_REFUSED;
}

/* Which run this is: by what stands beside START, where that is one that a run has saved. */
static enum status know_start(struct run *run, const struct beside *beside)
{
    uint32_t accepted = pathpetal_accepted(run->channel.bytes);
    struct text how = {0};
    const struct saved *found;
    enum status status = STATUS_DONE;
    run->id.origin = sum_of(run->channel.bytes, run->channel.length);
    run->id.origin_step = accepted;
    found = beside_stepped(beside, &run->id.origin, accepted);
    if (found) {
        bool same_rule = beside->run.rule == run->id.rule;
        /* no option does anything to a complete channel, but an END of another rule is none of this one */
        if (!same_options(&beside->run, &run->id, &how) && !(same_rule && pathpetal_complete(run->channel.bytes)))
            status = taken_otherwise(run, same_rule, how.at);
        run->id = beside->run;
        run->start_saved = *found;
    } else if (accepted > 0) {
        say("%s: nothing beside it says by which rule and under which options its %s steps were taken", run->start,
            GROUPED(accepted));
    }
    free(how.at);
    return status;
}

/* The count of the channel that the gauges of a saved record were placed in. */
static int64_t placed_at(const struct saved *saved)
{
    return saved->step - saved->gauge[0].numbers[GAUGE_FED];
}

/* Whether a record was saved that has its first row at a step, and its gauges from a count on. */
static bool begins_at(const struct saved *saved, uint32_t first, int64_t placed)
{
    return saved->recorded && saved->first == first && placed_at(saved) == placed;
}

/* Whether a record that was saved begins where one does that goes on from START, or begins there. */
static bool begins_alike(const struct run *run, const struct saved *saved)
{
    const struct saved *start = &run->start_saved;
    const uint8_t *file = run->channel.bytes;
    return begins_at(saved, record_first(&run->record, file), pathpetal_accepted(file)) ||
           (start->recorded && begins_at(saved, start->first, placed_at(start)));
}

/* Whether a channel that the same run has left is gone on with: it is further than START, and the record has the rows
   that belong to it. */
static bool goes_on_from(struct run *run, const struct save *left)
{
    if (run->from || !left->own || left->stands.step < pathpetal_accepted(run->channel.bytes))
        return false;
    if (!run->record.path || (begins_alike(run, &left->stands) &&
                              record_find(&run->record, &left->stands, left->channel.bytes)))
        return true;
    if (!left->stands.recorded)
        say("%s: is of this run, but was saved without a record: it is not gone on with, and stays", left->path);
    else if (left->stands.first != record_first(&run->record, run->channel.bytes) && !begins_alike(run, &left->stands))
        say("%s: is of this run, but its record begins at step %s: it is not gone on with, and stays", left->path,
            GROUPED(left->stands.first));
    else if (!begins_alike(run, &left->stands))
        say("%s: is of this run, but its waves are counted from step %s on: it is not gone on with, and stays",
            left->path, GROUPED(placed_at(&left->stands) + 1));
    else if (run->record.ungauged)
        say("%s: is of this run, but the gauges beside it cannot be its own: it is not gone on with, and stays",
            left->path);
    else
        say("%s: is of this run, but %s has not the rows that belong to it: it is not gone on with, and stays",
            left->path, run->record.open_path);
    return false;
}

/* Finds the record that goes with START, or begins one. */
static enum status choose_record(struct run *run)
{
    if (record_find(&run->record, &run->start_saved, run->channel.bytes))
        return STATUS_DONE;
    if (!run->record.ungauged)
        return record_anew(&run->record, run->channel.bytes, run->replace);
    say("%s: the gauges beside it cannot be its own", run->start);
    say("give the command that this run began with, or record under another name");
    return STATUS_REFUSED;
}

/* Where the run begins: at the furthest channel that the same run, cut before, has left; else at START. */
static enum status choose(struct run *run)
{
    bool further = run->checkpoint.own && run->checkpoint.stands.step > run->end.stands.step;
    const struct save *left[] = {further ? &run->checkpoint : &run->end, further ? &run->end : &run->checkpoint};
    enum status status = STATUS_DONE;
    for (size_t k = 0; k < 2; k++)
        if (goes_on_from(run, left[k]))
            run->from = left[k];
    if (run->from)
        run->channel = run->from->channel;
    else if (run->record.path)
        status = choose_record(run);
    if (status == STATUS_DONE && run->record.path)
        status = record_name_free(&run->record, run->replace);
    pour_from(&run->pour, pathpetal_accepted(run->channel.bytes));
    return status;
}

/* Whether all that is asked for is there already: the same run has written it. */
static bool is_done(struct run *run)
{
    const struct save *end = &run->end;
    return end->own && pathpetal_complete(end->channel.bytes) &&
           (!run->record.path ||
            (begins_alike(run, &end->stands) && record_done(&run->record, &end->stands, end->channel.bytes)));
}

/* Says that all is there already, after it is flushed: the run that wrote it may have been killed before that. */
static enum status tell_done(const struct run *run)
{
    enum status status = flush_named(run->end.path);
    if (status == STATUS_DONE)
        status = flush_file(run->end.beside.file, run->end.beside.path);
    if (status == STATUS_DONE && run->record.path)
        status = flush_named(run->record.path);
    if (status != STATUS_DONE)
        return status;
    tell("%s: %s (it was there already)", run->end.path, standing(run->end.channel.bytes).text);
    return told();
}

/* Takes hold of all outputs. A checkpoint that is complete is the END of this run under another name. */
static enum status hold(struct run *run)
{
    struct save *checkpoint = &run->checkpoint;
    enum status status = save_hold(&run->end, &run->id, run->replace);
    if (status == STATUS_DONE && checkpoint->path)
        status = save_hold(checkpoint, &run->id, run->replace);
    if (status == STATUS_DONE && checkpoint->own && pathpetal_complete(checkpoint->channel.bytes)) {
        checkpoint->own = false;
        if (!run->replace) {
            say("%s: is complete, and no checkpoint; give another name for the checkpoint, or --replace",
                checkpoint->path);
            status = STATUS_REFUSED;
        }
    }
    if (status == STATUS_DONE && run->record.path)
        status = record_open(&run->record, &run->id);
    return status;
}

/* Reads all inputs and looks at all outputs; nothing is written before all of it is in order. */
static enum status prepare(struct run *run, const struct option *options)
{
    const char *pour = option_value(options, "--pour");
    struct beside beside;
    enum status status = read_start(run, &beside);
    if (status == STATUS_DONE)
        run->poured = room_for(pathpetal_cells(run->channel.bytes), 4);
    if (status == STATUS_DONE && pour)
        status = pour_read(pour, run->channel.bytes, &run->pour);
    run->id.pour = pour_sum(&run->pour);
    if (status == STATUS_DONE && run->record.path)
        status = record_cells(option_value(options, "--staff"), run->channel.bytes, &run->record);
    if (status == STATUS_DONE)
        listen(); /* a signal before this ends the program at once, also where it waits for an input */
    if (status == STATUS_DONE)
        status = look_at_places(run, pour);
    if (status == STATUS_DONE)
        status = know_start(run, &beside);
    beside_free(&beside);
    return status == STATUS_DONE ? hold(run) : status;
}

/* The run itself, after all is in order. */
static enum status go(struct run *run)
{
    enum status status;
    if (is_done(run))
        return tell_done(run);
    status = choose(run);
    if (status != STATUS_DONE)
        return status;
    if (run->from)
        say("%s: is of this run, cut before: goes on after step %s", run->from->path,
            GROUPED(pathpetal_accepted(run->channel.bytes)));
    if (run->record.path)
        status = record_begin(&run->record, run->channel.bytes);
    return status == STATUS_DONE ? end_run(run, take_steps(run)) : status;
}

enum status run_command(int count, char **words)
{
    struct option options[] = {{.name = "-o", .takes = "END"},
                               {.name = "--filter-every", .takes = "N"},
                               {.name = "--pour", .takes = "POUR.csv"},
                               {.name = "--staff", .takes = "CELLS"},
                               {.name = "--every", .takes = "N"},
                               {.name = "--record", .takes = "RECORD.csv"},
                               {.name = "--checkpoint", .takes = "FILE"},
                               {.name = "--checkpoint-every", .takes = "N"},
                               {.name = "--replace"},
                               {.name = NULL}};
    struct run *run = room_for(1, sizeof *run);
    enum status status;
    run->id.rule = own_rule();
    run->end.use = "END";
    run->checkpoint.use = "the checkpoint";
    run->end.beside.file = run->checkpoint.beside.file = -1;
    run->record.file = run->record.named = run->record.found = -1;
    status = options_read(count, words, options, &run->start, 1, usage);
    if (status == STATUS_DONE)
        status = take_options(run, options);
    if (status == STATUS_DONE)
        status = prepare(run, options);
    if (status == STATUS_DONE)
        status = go(run);
    record_free(&run->record);
    save_free(&run->end);
    save_free(&run->checkpoint);
    free(run->pour.list);
    free(run->poured);
    free(run);
    return status;
}
