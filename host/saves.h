/* saves.h: the channels that a run saves, END and the checkpoint, and what the same run has left of them when it was
   cut. */
#ifndef SAVES_H
#define SAVES_H

#include "beside.h"
#include "whole.h"

struct save {
    const char *use;        /* what the command calls it: END */
    const char *path;       /* NULL for none */
    struct beside beside;   /* held for this run alone */
    struct over over;       /* what may be written over */
    bool fresh;             /* the channel that stands there was written just now */
    bool own;               /* it is of this run: */
    struct saved stands;    /* this one, */
    struct channel channel; /* with these bytes */
};

/* Looks at what stands at the name. It is refused if it is none of this run, unless `replace` is given. */
enum status save_hold(struct save *save, const struct run_id *run, bool replace);

/* Saves a channel, after saying beside it what it is; `insist` is to save it even if that cannot be said. What this run
   has saved there before never goes back: where it is further it stays, where it is the same only what stands beside it
   is written. */
enum status save_write(struct save *save, const struct run_id *run, const struct channel *channel,
                       const struct saved *coming, bool insist);

void save_free(struct save *save);

#endif
