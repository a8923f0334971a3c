#include "saves.h"

#include <stdlib.h>
#include <string.h>

/* Refuses what stands there; `how` says in what it is of another run, as far as that is known. */
static enum status is_there(const struct save *save, const struct text *how)
{
    if (how->length)
        say("%s: is there already, is of another run (%s) and is not written over; give another name for %s, or "
            "--replace", save->path, how->at, save->use);
    else
        say("%s: is there already and is not written over; give another name for %s, or --replace", save->path,
            save->use);
    return STATUS_REFUSED;
}

/* Whether the channel that stands there is of this run. */
static enum status know(struct save *save, const struct run_id *run, struct text *how)
{
    const struct saved *found;
    struct hex sum;
    enum status status;
    if (save->beside.count == 0)
        return STATUS_DONE;
    status = channel_bytes(save->path, &save->channel);
    if (status != STATUS_DONE)
        return status;
    if (is_edition_1(&save->channel)) {
        text_add(how, "it is a channel file of edition 1");
        return STATUS_DONE;
    }
    sum = sum_of(save->channel.bytes, save->channel.length);
    found = beside_find(&save->beside, &sum);
    if (!found || !same_run(&save->beside.run, run, how) ||
        pathpetal_number(pathpetal_check(save->channel.bytes, save->channel.length)) != PATHPETAL_DONE ||
        pathpetal_accepted(save->channel.bytes) != found->step)
        return STATUS_DONE;
    save->own = true;
    save->stands = *found;
    save->over.own = true;
    save->over.sum = sum;
    return STATUS_DONE;
}

enum status save_hold(struct save *save, const struct run_id *run, bool replace)
{
    struct text how = {0};
    struct stat found;
    enum status status;
    save->over = (struct over){.any = replace};
    status = beside_hold(save->path, &save->beside);
    if (status != STATUS_DONE)
        return status;
    if (save->beside.strange && !replace) {
        say("%s: is none that a run writes beside its channel, and is not written over; give another name for %s, or "
            "--replace", save->beside.path, save->use);
        return STATUS_REFUSED;
    }
    if (lstat(save->path, &found) != 0)
        return STATUS_DONE;
    status = know(save, run, &how);
    if (status == STATUS_DONE && !save->own && !replace)
        status = is_there(save, &how);
    else if (status == STATUS_DONE && !save->own && how.length)
        say("%s: is of another run (%s); with --replace it is written over", save->path, how.at);
    free(how.at);
    return status;
}

/* Whether what this run has saved there still stands. */
static bool still_stands(const struct save *save)
{
    return save->own && stands_with(save->path, &save->stands.channel);
}

static bool same_saved(const struct saved *a, const struct saved *b)
{
    return same_hex(&a->channel, &b->channel) && a->recorded == b->recorded && same_hex(&a->sum, &b->sum) &&
           a->gauges == b->gauges && memcmp(a->gauge, b->gauge, a->gauges * sizeof a->gauge[0]) == 0;
}

enum status save_write(struct save *save, const struct run_id *run, const struct channel *channel,
                       const struct saved *coming, bool insist)
{
    bool stands = save->own && save->stands.step >= coming->step && still_stands(save);
    enum status said, status;
    if (stands && (save->stands.step > coming->step || same_saved(&save->stands, coming)))
        return STATUS_DONE;
    said = beside_write(&save->beside, run, save->own ? &save->stands : NULL, coming);
    if (said != STATUS_DONE && (stands || !insist))
        return said;
    status = stands ? STATUS_DONE : whole_write(save->path, channel->bytes, channel->length, &save->over);
    if (status != STATUS_DONE) {
        /* where it speaks of nothing that is there, it goes */
        save->beside.unused = !save->own && !stands_with(save->path, &coming->channel);
        return status;
    }
    save->fresh = save->fresh || !stands;
    save->own = said == STATUS_DONE;
    save->stands = *coming;
    save->over.own = true;
    save->over.sum = coming->channel;
    return said;
}

void save_free(struct save *save)
{
    beside_free(&save->beside);
}
