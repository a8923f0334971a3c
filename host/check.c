/* check.c: whether a file is a channel file or a staff record, and whether it is complete. */
#include "beside.h"
#include "commands.h"
#include "options.h"
#include "staff.h"

#include <stdlib.h>

/* Tells how a file stands that is in order, and another rule than this program's that its steps were taken by; its
   status where it must be complete. */
static enum status tell_standing(const char *path, const char *standing, uint32_t rule, bool complete, bool must)
{
    enum status status;
    tell("%s: %s", path, standing);
    tell_rule(rule);
    status = told();
    return status == STATUS_DONE && must && !complete ? STATUS_OPEN : status;
}

static enum status check_channel(const char *path, bool must)
{
    struct channel *channel = room_for(1, sizeof *channel);
    enum status status = channel_read(path, channel);
    if (status == STATUS_DONE)
        status = tell_standing(path, standing(channel->bytes).text, rule_of(path, channel),
                               pathpetal_complete(channel->bytes), must);
    free(channel);
    return status;
}

static enum status check_record(const char *path, bool must)
{
    struct staffs staffs;
    enum status status = staffs_read(path, &staffs, false);
    if (status == STATUS_DONE && (staffs.whole == RECORD_CHANGED || staffs.whole == RECORD_OLD)) {
        say("%s: %s", path, staffs_standing(&staffs).text);
        status = STATUS_REFUSED;
    }
    if (status == STATUS_DONE)
        status = tell_standing(path, staffs_standing(&staffs).text, staffs.rule, staffs.whole == RECORD_COMPLETE, must);
    staffs_free(&staffs);
    return status;
}

enum status check_command(int count, char **words)
{
    struct option options[] = {{.name = "--staff"}, {.name = "--complete"}, {.name = NULL}};
    const char *path = NULL;
    enum status status = options_read(count, words, options, &path, 1,
                                      "pathpetal check FILE [--complete], or pathpetal check --staff RECORD.csv "
                                      "[--complete]");
    bool must;
    if (status != STATUS_DONE)
        return status;
    must = option_value(options, "--complete") != NULL;
    return option_value(options, "--staff") ? check_record(path, must) : check_channel(path, must);
}
