#include "record.h"
#include "refusal.h"

#include <errno.h>
#include <fcntl.h>
#include <inttypes.h>
#include <stdio.h>
#include <stdlib.h>
#include <string.h>
#include <unistd.h>

enum {
    FIELD_ROOM = 24, /* of a number and the comma before it */
    HEAD_ROOM = 512, /* of a head without the names of the columns */
    TAIL_ROOM = 512  /* of a last line */
};

enum status record_cells(const char *list, const uint8_t *file, struct record *record)
{
    char *copy = joined(list, ""), *at = copy;
    enum status status = STATUS_DONE;
    while (status == STATUS_DONE && at) {
        char *comma = strchr(at, ',');
        int64_t cell = 0;
        if (comma)
            *comma = '\0';
        if (read_number(at, 1, pathpetal_cells(file), &cell) != NUMBER_TAKEN) {
            say("--staff '%s': is not a cell; the channel's cells are 1 to %s", SHOWN(at),
                GROUPED(pathpetal_cells(file)));
            status = STATUS_REFUSED;
            break;
        }
        for (size_t k = 0; k < record->count; k++)
            if (record->cells[k] == (size_t)cell - 1) {
                say("--staff: cell %s stands there twice", GROUPED(cell));
                status = STATUS_REFUSED;
            }
        record->cells = more_room(record->cells, record->count + 1, sizeof *record->cells);
        record->cells[record->count++] = (size_t)cell - 1;
        at = comma ? comma + 1 : NULL;
    }
    free(copy);
    return status;
}

bool record_due(const struct record *record, uint32_t accepted)
{
    return record->path && accepted % record->head.every == 0;
}

/* The row of the channel's count: its number, its time in s, and the heights. */
static size_t put_row(const struct record *record, const uint8_t *file)
{
    uint32_t step = pathpetal_accepted(file);
    size_t at = (size_t)snprintf(record->line, 2 * FIELD_ROOM, "%" PRIu32 ",%s,", step,
                                 THOUSANDTHS((int64_t)step * pathpetal_step_ms(file)));
    for (size_t k = 0; k < record->count; k++)
        at += (size_t)snprintf(record->line + at, FIELD_ROOM, "%" PRId32 "%c",
                               pathpetal_height_um(file, record->cells[k]), k + 1 < record->count ? ',' : '\n');
    return at;
}

enum status record_row(struct record *record, const uint8_t *file)
{
    size_t length = put_row(record, file);
    enum status status = write_all(record->file, record->line, length, record->open_path);
    if (status == STATUS_DONE) {
        sum_add(&record->sum, record->line, length);
        record->rows++;
    }
    return status;
}

static enum status cannot(const struct record *record, const char *what)
{
    say("%s: cannot be %s: %s", record->open_path, what, strerror(errno));
    return STATUS_UNWRITTEN;
}

static uint64_t length_of(int file)
{
    struct stat found;
    return fstat(file, &found) == 0 && found.st_size > 0 ? (uint64_t)found.st_size : 0;
}

/* Reads up to `room` bytes at a place of an open file; gives how many there were. */
static size_t read_at(int file, uint64_t at, char *bytes, size_t room)
{
    size_t length = 0;
    while (length < room) {
        ssize_t got = pread(file, bytes + length, room - length, (off_t)(at + length));
        if (got < 0 && errno == EINTR)
            continue;
        if (got <= 0)
            break;
        length += (size_t)got;
    }
    return length;
}

/* The head of this run's record. */
static struct text own_head(const struct record *record)
{
    struct text text = {0};
    put_names(&text, record->cells, record->count);
    put_head(&text, &record->head);
    return text;
}

/* Whether a file begins with this run's head; or, where `cut` allows it, is a part of that head from its beginning. */
static bool begins_own(const struct record *record, int file, bool cut)
{
    struct text head = own_head(record);
    char *bytes = room_for(head.length + 1, 1);
    size_t length = read_at(file, 0, bytes, head.length);
    bool own = memcmp(bytes, head.at, length) == 0 && (cut ? length_of(file) <= length : length == head.length);
    free(bytes);
    free(head.at);
    return own;
}

/* The end of a file, as much as has its last line and the one before it; gives where the last begins, without its end,
   after the end of the one before. NULL if there are no two. */
static char *last_line(int file, char bytes[TAIL_ROOM + 1])
{
    uint64_t length = length_of(file);
    size_t got = read_at(file, length > TAIL_ROOM ? length - TAIL_ROOM : 0, bytes, TAIL_ROOM);
    if (got < 2 || bytes[got - 1] != '\n')
        return NULL;
    bytes[got - 1] = '\0';
    return strrchr(bytes, '\n');
}

/* Whether a file's last line says complete and has the sum of all before it. */
static bool is_whole(int file)
{
    char bytes[TAIL_ROOM + 1] = "", *line = last_line(file, bytes);
    uint64_t length = length_of(file);
    struct tail tail;
    struct sum sum;
    struct hex hex;
    if (!line || !take_tail(line + 1, &tail) || !tail.complete || !tail.summed ||
        !sum_start(file, length - strlen(tail.sum.text) - 1, &sum))
        return false;
    hex = sum_hex(&sum);
    return same_hex(&hex, &tail.sum);
}

enum status record_open(struct record *record, const struct run_id *run)
{
    enum status status = open_alone(record->open_path, &record->file, &record->made);
    if (status != STATUS_DONE)
        return status;
    record->head.run = *run;
    record->line = room_for(record->count + 2, FIELD_ROOM);
    record->there = lstat(record->path, &record->mode) == 0;
    record->named = open(record->path, O_RDONLY | O_NOFOLLOW | O_CLOEXEC);
    record->named_whole = record->named >= 0 && is_whole(record->named);
    return STATUS_DONE;
}

uint32_t record_first(const struct record *record, const uint8_t *file)
{
    uint32_t every = record->head.every;
    return (pathpetal_accepted(file) + every - 1) / every * every;
}

/* Whether a file begins as the record did that a channel was saved with; its sum is then at hand. */
static bool begins_saved(struct record *record, int file, const struct saved *saved)
{
    struct hex hex;
    record->head.first = saved->first;
    if (file < 0 || !begins_own(record, file, false) || !sum_start(file, saved->length, &record->sum))
        return false;
    hex = sum_hex(&record->sum);
    return same_hex(&hex, &saved->sum);
}

/* Whether NAME.open is empty, or has this run's head or a part of it. */
static bool open_is_own(const struct record *record)
{
    return begins_own(record, record->file, true) || begins_own(record, record->file, false);
}

/* Takes the gauges that a channel was saved with, if they are those of this record. */
static bool take_gauges(struct record *record, const struct saved *saved, const uint8_t *file)
{
    struct gauges *gauges = &record->gauges;
    return saved->gauges == record->count && gauges_take(gauges, saved->gauge, record->cells, record->count, file) &&
           gauges->placed <= saved->first && (uint64_t)gauges->placed + record->head.every > saved->first;
}

/* What the gauges counted, and a last line with its sum: the bytes that follow those of the sum at hand. */
static struct text own_end(const struct record *record, const struct tail *tail)
{
    struct text end = {0};
    struct sum sum = record->sum;
    for (size_t k = 0; k < record->count; k++) {
        struct waves waves = waves_at(&record->gauges, k);
        put_waves(&end, &waves);
    }
    put_tail(&end, tail);
    sum_add(&sum, end.at, end.length);
    text_add(&end, "%s\n", sum_hex(&sum).text);
    return end;
}

/* Whether NAME, which begins as the record did that a complete channel was saved with, ends as that does. */
static bool ends_saved(struct record *record, const struct saved *saved, const uint8_t *file)
{
    struct tail tail = {.complete = true, .accepted = saved->step, .wanted = saved->step, .first = saved->first,
                        .summed = true, .rows = saved->rows};
    struct text end;
    char *there;
    bool same;
    if (!take_gauges(record, saved, file))
        return false;
    end = own_end(record, &tail);
    there = room_for(end.length + 1, 1);
    same = read_at(record->named, saved->length, there, end.length + 1) == end.length &&
           memcmp(there, end.at, end.length) == 0;
    free(there);
    free(end.at);
    return same;
}

bool record_done(struct record *record, const struct saved *saved, const uint8_t *file)
{
    if (!record->named_whole || !saved->recorded || !begins_saved(record, record->named, saved) ||
        !ends_saved(record, saved, file))
        return false;
    record->over_open = !record->made && open_is_own(record);
    return true;
}

bool record_find(struct record *record, const struct saved *saved, const uint8_t *file)
{
    uint64_t next = saved->first + (uint64_t)saved->rows * record->head.every; /* the step of the row to come */
    record->ungauged = false;
    /* the row of the channel's own count may lack: it could not be written */
    if (!saved->recorded || next < saved->step || next > (uint64_t)saved->step + record->head.every)
        return false;
    record->found = begins_saved(record, record->file, saved) ? record->file : -1;
    /* rows of NAME are written to NAME.open, which must then hold nothing that is not this run's own */
    if (record->found < 0 && begins_saved(record, record->named, saved) && open_is_own(record))
        record->found = record->named;
    record->rows = saved->rows;
    record->ungauged = record->found >= 0 && !take_gauges(record, saved, file);
    return record->found >= 0 && !record->ungauged;
}

/* What makes NAME.open none that this run can go on with; *same is whether it is of this run all the same. */
static struct text what_differs(const struct record *record, const uint8_t *file, bool *same)
{
    struct text how = {0}, names = {0};
    struct head head;
    char *bytes;
    put_names(&names, record->cells, record->count);
    bytes = room_for(names.length + HEAD_ROOM + 1, 1);
    bytes[read_at(record->file, 0, bytes, names.length + HEAD_ROOM)] = '\0';
    *same = false;
    if (strncmp(bytes, names.at, names.length) != 0) {
        text_add(&how, "its columns are not those of this run's staffs");
    } else if (take_head(bytes + names.length, &head) == 0) {
        text_add(&how, "it does not say of which run it is");
    } else if (same_run(&head.run, &record->head.run, &how)) {
        *same = head.every == record->head.every;
        if (!*same)
            text_add(&how, "--every %s there, %s here", GROUPED(head.every), GROUPED(record->head.every));
        else if (head.first != record->head.first && pathpetal_accepted(file) <= head.first)
            text_add(&how, "it begins at step %s, and this run's would at step %s", GROUPED(head.first),
                     GROUPED(record->head.first));
        else
            text_add(&how, "its rows up to step %s are not those that START was saved with: some are lost or changed",
                     GROUPED(pathpetal_accepted(file)));
    }
    free(bytes);
    free(names.at);
    return how;
}

/* Places the gauges in a channel that the record begins with. */
static enum status place_gauges(struct record *record, const uint8_t *file)
{
    uint64_t answer = gauges_place(&record->gauges, file, record->cells, record->count);
    if (pathpetal_number(answer) == PATHPETAL_DONE)
        return STATUS_DONE;
    say("--staff: no gauges can be placed (number %u): %s", pathpetal_number(answer),
        refusal_words(pathpetal_number(answer)));
    return STATUS_REFUSED;
}

enum status record_anew(struct record *record, const uint8_t *file, bool replace)
{
    uint32_t accepted = pathpetal_accepted(file), wanted = pathpetal_wanted(file);
    struct text how;
    bool same;
    if (place_gauges(record, file) != STATUS_DONE)
        return STATUS_REFUSED;
    record->head.first = record_first(record, file);
    record->found = -1;
    record->rows = 0;
    if (record->head.first > wanted) {
        say("--every %s: no step from %s to %s is recorded; take a smaller number", GROUPED(record->head.every),
            GROUPED(accepted), GROUPED(wanted));
        return STATUS_REFUSED;
    }
    if (begins_own(record, record->file, true)) {
        if (accepted > 0)
            say("%s: the record begins at step %s: no earlier rows are there", record->open_path,
                GROUPED(record->head.first));
        return STATUS_DONE;
    }
    if (begins_own(record, record->file, false)) {
        say("%s: is left from this same run, which begins again: its rows are written anew from step %s",
            record->open_path, GROUPED(record->head.first));
        return STATUS_DONE;
    }
    how = what_differs(record, file, &same);
    if (replace && accepted == 0) {
        say("%s: is left from another run (%s), and is written over", record->open_path, how.at);
        free(how.at);
        return STATUS_DONE;
    }
    say("%s: %s", record->open_path, how.at);
    if (same)
        say("give the command that this run began with, or record under another name");
    else
        say("it is left from another run: remove it, or record under another name");
    free(how.at);
    return STATUS_REFUSED;
}

/* Whether NAME, which is whole, tells counts of gauges that were placed where those of this run were. Its rows alone
   can be those of a record that another START began. */
static bool counts_alike(const struct record *record)
{
    char bytes[TAIL_ROOM + 1] = "", *last = last_line(record->named, bytes), *line = last;
    struct waves waves;
    if (!last)
        return false;
    while (line > bytes && line[-1] != '\n')
        line--;
    last[1] = '\0';
    return take_waves(line, &waves) && waves.first == (int64_t)record->gauges.placed + 1;
}

enum status record_name_free(struct record *record, bool replace)
{
    record->over = (struct over){.any = replace};
    if (!record->there || replace)
        return STATUS_DONE;
    if (record->named_whole && begins_own(record, record->named, false) && counts_alike(record)) {
        struct sum sum;
        record->over.own = sum_start(record->named, length_of(record->named), &sum);
        record->over.sum = sum_hex(&sum);
        return STATUS_DONE;
    }
    say("%s: is there already and is not written over; give another name for RECORD, or --replace", record->path);
    return STATUS_REFUSED;
}

/* Copies the rows that are kept. */
static enum status copy_found(const struct record *record, int to)
{
    char some[65536];
    for (uint64_t at = 0; at < record->sum.length;) {
        uint64_t rest = record->sum.length - at;
        size_t got = read_at(record->found, at, some, rest < sizeof some ? (size_t)rest : sizeof some);
        enum status status;
        if (got == 0) {
            say("%s: cannot be written: the rows so far were cut while they were copied", record->open_path);
            return STATUS_UNWRITTEN;
        }
        status = write_all(to, some, got, record->open_path);
        if (status != STATUS_DONE)
            return status;
        at += got;
    }
    return STATUS_DONE;
}

static enum status write_head(struct record *record, int to)
{
    struct text head = own_head(record);
    enum status status = write_all(to, head.at, head.length, record->open_path);
    sum_begin(&record->sum);
    sum_add(&record->sum, head.at, head.length);
    free(head.at);
    return status;
}

/* A new NAME.open, with its head or with the rows that are kept, takes the place of the one at hand. So there is never
   one with half a head, what is kept is on disk even where an earlier flush had failed, and a file that shares its
   bytes with the old one by a link stays as it is. */
enum status record_begin(struct record *record, const uint8_t *file)
{
    uint32_t accepted = pathpetal_accepted(file);
    struct next next;
    enum status status = next_begin(record->open_path, record->file, &next);
    if (status != STATUS_DONE)
        return status;
    if (record->there)
        keep_mode(next.file, &record->mode, 0600); /* a run that goes on must be able to write it */
    status = record->found < 0 ? write_head(record, next.file) : copy_found(record, next.file);
    status = next_end(record->open_path, &record->file, &next, status);
    record->begun = status == STATUS_DONE;
    if (status == STATUS_DONE && record_due(record, accepted) &&
        record->head.first + (uint64_t)record->rows * record->head.every == accepted)
        status = record_row(record, file);
    return status;
}

uint64_t record_feed(struct record *record, const uint8_t *file)
{
    return gauges_feed(&record->gauges, file);
}

enum status record_flush(struct record *record)
{
    return flush_file(record->file, record->open_path);
}

void record_saved(const struct record *record, struct saved *saved)
{
    saved->recorded = record->path && record->begun;
    if (!saved->recorded)
        return;
    saved->sum = sum_hex(&record->sum);
    saved->length = record->sum.length;
    saved->rows = record->rows;
    saved->first = record->head.first;
    saved->gauges = record->count;
    gauges_keep(&record->gauges, saved->gauge);
}

/* Whether NAME.open still has its name and begins with the bytes that were written to it. */
static bool begins_intact(const struct record *record)
{
    struct sum sum;
    struct hex there, ours = sum_hex(&record->sum);
    if (!still_named(record->file, record->open_path) || !sum_start(record->file, record->sum.length, &sum))
        return false;
    there = sum_hex(&sum);
    return same_hex(&there, &ours);
}

/* Gives the record its name. It is this run's alone until it has it. */
static enum status give_name(const struct record *record)
{
    enum status status;
    if (record->there)
        keep_mode(record->file, &record->mode, 0);
    status = whole_name(record->open_path, record->path, &record->over);
    if (status != STATUS_DONE && record->there)
        keep_mode(record->file, &record->mode, 0600);
    if (status == STATUS_DONE &&
        (!still_named(record->file, record->path) || length_of(record->file) != record->sum.length)) {
        say("%s: was changed or taken away by another program in the last moment", record->path);
        status = STATUS_UNWRITTEN;
    }
    return status;
}

enum status record_end(struct record *record, const uint8_t *file)
{
    struct tail tail = {.complete = pathpetal_complete(file),
                        .accepted = pathpetal_accepted(file),
                        .wanted = pathpetal_wanted(file),
                        .first = record->head.first,
                        .summed = true,
                        .rows = record->rows};
    struct text end = own_end(record, &tail);
    enum status status = write_all(record->file, end.at, end.length, record->open_path);
    sum_add(&record->sum, end.at, end.length);
    free(end.at);
    if (status == STATUS_DONE)
        status = record_flush(record);
    record->spoilt = !begins_intact(record) || length_of(record->file) != record->sum.length;
    if (status == STATUS_DONE && record->spoilt) {
        say("%s: was cut, changed or taken away by another program while this ran", record->open_path);
        status = STATUS_UNWRITTEN;
    }
    if (status == STATUS_DONE && tail.complete)
        status = give_name(record);
    if (close(record->file) != 0 && status == STATUS_DONE)
        status = cannot(record, "closed");
    record->file = -1;
    return status;
}

enum left record_left(const struct record *record)
{
    struct stat found;
    if (!record->path || lstat(record->open_path, &found) != 0)
        return LEFT_NONE;
    return record->spoilt || (record->file >= 0 && !begins_intact(record)) ? LEFT_SPOILT : LEFT_ROWS;
}

void record_free(struct record *record)
{
    if (record->file >= 0 && (record->over_open || (record->made && !record->begun)) &&
        still_named(record->file, record->open_path))
        unlink(record->open_path);
    if (record->file >= 0)
        close(record->file);
    if (record->named >= 0)
        close(record->named);
    free(record->path);
    free(record->open_path);
    free(record->cells);
    free(record->line);
}
