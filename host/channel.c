#include "channel.h"
#include "refusal.h"

#include <errno.h>
#include <fcntl.h>
#include <stdio.h>
#include <string.h>
#include <unistd.h>

enum status channel_bytes(const char *path, struct channel *channel)
{
    int file = open(path, O_RDONLY | O_CLOEXEC);
    channel->length = 0;
    if (file < 0) {
        say("%s: cannot be read: %s", path, strerror(errno));
        return STATUS_REFUSED;
    }
    while (channel->length < sizeof channel->bytes) {
        ssize_t got = read(file, channel->bytes + channel->length, sizeof channel->bytes - channel->length);
        if (got < 0 && errno == EINTR)
            continue;
        if (got < 0) {
            say("%s: cannot be read: %s", path, strerror(errno));
            close(file);
            return STATUS_REFUSED;
        }
        if (got == 0)
            break;
        channel->length += (size_t)got;
    }
    close(file);
    return STATUS_DONE;
}

/* Whether bytes are text: no control characters but tabs and line ends. */
static bool is_text(const struct channel *channel)
{
    for (size_t k = 0; k < channel->length; k++) {
        uint8_t byte = channel->bytes[k];
        if (byte < 32 && byte != '\t' && byte != '\r' && byte != '\n')
            return false;
    }
    return true;
}

/* Whether a text holds another. */
static bool holds(const struct channel *channel, const char *what)
{
    size_t length = strlen(what);
    for (size_t k = 0; k + length <= channel->length; k++)
        if (memcmp(channel->bytes + k, what, length) == 0)
            return true;
    return false;
}

/* What to do about a file that is no channel, by what it is. */
static const char *other_file(const struct channel *channel)
{
    const char record[] = "step,time_s";
    size_t mark = channel->length >= 3 && memcmp(channel->bytes, "\xEF\xBB\xBF", 3) == 0 ? 3 : 0;
    if (channel->length >= mark + strlen(record) && memcmp(channel->bytes + mark, record, strlen(record)) == 0)
        return "this is a staff record, not a channel; pathpetal show --staff shows it";
    if (is_text(channel) &&
        (holds(channel, ",") || holds(channel, ";") || holds(channel, "\t") || holds(channel, "depth_mm")))
        return "this is a table, not a channel; pathpetal make makes a channel from a survey";
    return "take a fresh copy of the file, or make it again from its survey";
}

/* The length is that of twelve counts and six rows. */
bool is_edition_1(const struct channel *channel)
{
    size_t cells = channel->length >= 48 ? pathpetal_cells(channel->bytes) : 0;
    return cells >= CELLS_LEAST && cells <= CELLS_MOST && pathpetal_word(channel->bytes) == 1 &&
           channel->length == 24 + 64 * cells;
}

/* Says why the library refuses a file, and what to mend. */
static void say_refused(const char *path, const struct channel *channel, uint64_t answer)
{
    unsigned number = pathpetal_number(answer);
    bool late = number == PATHPETAL_TIME_STEP;
    struct rows rows = late || pathpetal_place(answer) ? rows_of(channel->bytes) : (struct rows){0};
    if (is_edition_1(channel)) {
        say("%s: refused, number %u: it is a channel file of edition 1, made before channels had damping, and this "
            "program does not read it", path, number);
        say("to mend: make the channel again from its survey; this file stays as it is");
        return;
    }
    say("%s: refused, number %u%s: %s%s", path, number, refusal_place(answer).text, refusal_words(number),
        refusal_found(answer, &rows).text);
    if (late)
        say_time_step(&rows, false);
    else
        say("to mend: %s", other_file(channel));
}

enum status channel_read(const char *path, struct channel *channel)
{
    uint64_t answer;
    enum status status = channel_bytes(path, channel);
    if (status != STATUS_DONE)
        return status;
    answer = pathpetal_check(channel->bytes, channel->length);
    if (pathpetal_number(answer) == PATHPETAL_DONE)
        return STATUS_DONE;
    say_refused(path, channel, answer);
    return STATUS_REFUSED;
}

struct standing standing(const uint8_t *file)
{
    struct standing out;
    if (pathpetal_complete(file))
        snprintf(out.text, sizeof out.text, "complete: all %s steps accepted", GROUPED(pathpetal_wanted(file)));
    else
        snprintf(out.text, sizeof out.text, "open: %s of %s steps accepted", GROUPED(pathpetal_accepted(file)),
                 GROUPED(pathpetal_wanted(file)));
    return out;
}

int64_t water_sum(const uint8_t *file)
{
    int64_t sum = 0;
    for (size_t cell = 0; cell < pathpetal_cells(file); cell++)
        sum += pathpetal_height_um(file, cell);
    return sum;
}

void put_signed(uint8_t *at, int64_t number)
{
    uint32_t bits = (uint32_t)(uint64_t)number;
    at[0] = (uint8_t)bits;
    at[1] = (uint8_t)(bits >> 8);
    at[2] = (uint8_t)(bits >> 16);
    at[3] = (uint8_t)(bits >> 24);
}
