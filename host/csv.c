#include "csv.h"
#include "text.h"

#include <errno.h>
#include <fcntl.h>
#include <stdarg.h>
#include <stdlib.h>
#include <string.h>
#include <unistd.h>

enum {
    LINE_MOST = 1048576,       /* bytes of a line without its end */
    ROOM_FIRST = 65536,        /* bytes of room to read into, at first */
    ROOM_MOST = LINE_MOST + 2, /* for the longest line, its end and a zero byte */
    FIELDS_MOST = 16384        /* of a line, as in spreadsheets */
};

static bool is_space(char c)
{
    return c == ' ' || c == '\t';
}

static char small(char c)
{
    return c >= 'A' && c <= 'Z' ? (char)(c - 'A' + 'a') : c;
}

static bool same_name(const char *a, const char *b)
{
    for (; *a && small(*a) == small(*b); a++)
        b++;
    return *a == *b;
}

static void say_wrong(const struct csv *csv, unsigned long line, long column, const char *format, va_list arguments)
{
    struct text what = {0};
    text_add(&what, "%s: line %lu", csv->path, line);
    if (column >= 0)
        text_add(&what, ", column %ld", column + 1);
    if (column >= 0 && (size_t)column < csv->columns)
        text_add(&what, " (%s)", SHOWN(csv->names[column]));
    text_add(&what, ": ");
    text_add_list(&what, format, arguments);
    say("%s", what.at);
    free(what.at);
}

enum status csv_wrong(const struct csv *csv, long column, const char *format, ...)
{
    va_list arguments;
    va_start(arguments, format);
    say_wrong(csv, csv->line, column, format, arguments);
    va_end(arguments);
    return STATUS_REFUSED;
}

enum status csv_wrong_on(const struct csv *csv, unsigned long line, long column, const char *format, ...)
{
    va_list arguments;
    va_start(arguments, format);
    say_wrong(csv, line, column, format, arguments);
    va_end(arguments);
    return STATUS_REFUSED;
}

static void add_field(struct csv *csv, char *field)
{
    if (csv->count == csv->room) {
        csv->room = csv->room ? 2 * csv->room : 8;
        csv->fields = more_room(csv->fields, csv->room, sizeof *csv->fields);
    }
    csv->fields[csv->count++] = field;
}

/* Cuts a field in quotes out of the text: *from becomes what follows the closing quote, NULL if there is none. */
static char *quoted(char **from)
{
    char *field = *from + 1, *to = field, *at = field;
    for (; *at; at++) {
        if (*at == '"' && at[1] == '"')
            at++;
        else if (*at == '"')
            break;
        *to++ = *at;
    }
    *from = *at == '"' ? at + 1 : NULL;
    *to = '\0';
    return field;
}

/* Cuts the fields out of one line. */
static enum status cut_fields(struct csv *csv, char *at)
{
    csv->count = 0;
    for (;;) {
        char *field, *end;
        while (is_space(*at))
            at++;
        if (*at == '"') {
            field = quoted(&at);
            if (!at)
                return csv_wrong(csv, (long)csv->count, "a quote is not closed on this line");
            while (is_space(*at))
                at++;
            if (*at != ',' && *at != '\0')
                return csv_wrong(csv, (long)csv->count, "something stands after the closing quote");
            end = at;
        } else {
            field = at;
            at += strcspn(at, ",");
            end = at;
            while (end > field && is_space(end[-1]))
                end--;
        }
        if (csv->count == FIELDS_MOST)
            return csv_wrong(csv, -1, "has more than %s fields", GROUPED(FIELDS_MOST));
        add_field(csv, field);
        if (*at == '\0') {
            *end = '\0';
            return STATUS_DONE;
        }
        at++;
        *end = '\0';
    }
}

static bool all_empty(const struct csv *csv)
{
    for (size_t k = 0; k < csv->count; k++)
        if (csv->fields[k][0] != '\0')
            return false;
    return true;
}

/* Reads more behind what is there; csv->ended becomes whether the file ends there. */
static enum status read_on(struct csv *csv)
{
    ssize_t got;
    csv->length -= csv->at;
    memmove(csv->text, csv->text + csv->at, csv->length);
    csv->at = 0;
    if (csv->length + 1 == csv->text_room) {
        csv->text_room = 2 * csv->text_room < ROOM_MOST ? 2 * csv->text_room : ROOM_MOST;
        csv->text = more_room(csv->text, csv->text_room, 1);
    }
    do
        got = read(csv->file, csv->text + csv->length, csv->text_room - csv->length - 1);
    while (got < 0 && errno == EINTR);
    if (got < 0) {
        say("%s: cannot be read: %s", csv->path, strerror(errno));
        return STATUS_REFUSED;
    }
    csv->ended = got == 0;
    csv->length += (size_t)got;
    return STATUS_DONE;
}

/* Whether a line is left; what is there then begins with it. */
static enum status begin_line(struct csv *csv, bool *more)
{
    enum status status = STATUS_DONE;
    if (csv->at == csv->length && !csv->ended)
        status = read_on(csv);
    *more = csv->at < csv->length;
    if (status == STATUS_DONE && *more) {
        csv->line++;
        csv->cut = false;
    }
    return status;
}

static enum status old_ends(const struct csv *csv)
{
    return csv_wrong(csv, -1, "a carriage return stands inside the line; save the table with line ends of Unix or "
                              "Windows");
}

/* Reads on until the line is whole: *length becomes its bytes without its end. */
static enum status whole_line(struct csv *csv, size_t *length)
{
    size_t seen = 0; /* bytes of the line that hold no end */
    for (;;) {
        const char *line = csv->text + csv->at;
        size_t there = csv->length - csv->at;
        const char *end = memchr(line + seen, '\n', there - seen);
        enum status status;
        *length = end ? (size_t)(end - line) : there;
        if (memchr(line + seen, '\0', *length - seen))
            return csv_wrong(csv, -1, "is no plain text: it holds a zero byte; save the table as CSV in UTF-8");
        if (*length > LINE_MOST && memchr(line, '\r', *length))
            return old_ends(csv);
        if (*length > LINE_MOST)
            return csv_wrong(csv, -1, "is longer than %s bytes; a table has a line for each row", GROUPED(LINE_MOST));
        csv->cut = !end && csv->ended;
        if (end || csv->ended)
            return STATUS_DONE;
        seen = there;
        status = read_on(csv);
        if (status != STATUS_DONE)
            return status;
    }
}

/* The line that begins what is there, as a text without its end; what follows it is then next. */
static enum status take_line(struct csv *csv, char **line)
{
    size_t length = 0, ended;
    enum status status = whole_line(csv, &length);
    if (status != STATUS_DONE)
        return status;
    *line = csv->text + csv->at;
    ended = length + (csv->cut ? 0 : 1);
    if (csv->each)
        csv->each(csv->to, *line, ended);
    csv->at += ended;
    (*line)[length] = '\0';
    if (length > 0 && (*line)[length - 1] == '\r')
        (*line)[length - 1] = '\0';
    if (csv->line == 1 && strncmp(*line, "\xEF\xBB\xBF", 3) == 0)
        *line += 3;
    return STATUS_DONE;
}

static enum status parted_by(const struct csv *csv, char mark)
{
    if (mark == '\t')
        return csv_wrong(csv, -1, "columns are parted by tabs; save the table with commas");
    return csv_wrong(csv, -1, "columns are parted by '%c'; save the table with commas", mark);
}

/* The mark that a first line like sep=; or "sep=;" names, which Excel reads and hides; '\0' if the line is another. */
static char named_mark(const char *line)
{
    size_t quote = *line == '"' ? 1 : 0;
    const char *name = "sep=";
    if (strlen(line) != 5 + 2 * quote || (quote && line[6] != '"'))
        return '\0';
    for (line += quote; *name && small(*line) == *name; line++)
        name++;
    return *name ? '\0' : *line;
}

/* The mark that parts column names where no comma does: ';' or a tab between them; '\0' if there is none. */
static char other_mark(const char *line)
{
    const char *end = line + strlen(line);
    bool in_quotes = false;
    char mark = '\0';
    while (end > line && is_space(end[-1]))
        end--;
    for (line += strspn(line, " \t"); line < end; line++) {
        if (*line == '"')
            in_quotes = !in_quotes;
        if (*line == ',' && !in_quotes)
            return '\0';
        if (mark == '\0' && (*line == ';' || *line == '\t'))
            mark = *line;
    }
    return mark;
}

/* Refuses fields that something else than a comma parts, by a first line that names it or by the column names;
   *passed is whether the line is such a first line that names the comma. */
static enum status look_at_marks(const struct csv *csv, const char *line, bool *passed)
{
    char named = csv->line == 1 ? named_mark(line) : '\0', mark = csv->names ? '\0' : other_mark(line);
    *passed = named == ',';
    if (named != '\0' && named != ',')
        return parted_by(csv, named);
    return mark != '\0' ? parted_by(csv, mark) : STATUS_DONE;
}

static void set_remark(struct csv *csv, const char *line)
{
    free(csv->remark);
    csv->remark = line ? joined(line, "") : NULL;
}

/* The next line that is neither blank nor a remark, cut into fields. */
static enum status next_line(struct csv *csv, bool *more)
{
    for (;;) {
        char *line = NULL, *first;
        bool passed = false;
        enum status status = begin_line(csv, more);
        if (status != STATUS_DONE || !*more)
            return status;
        status = take_line(csv, &line);
        if (status != STATUS_DONE)
            return status;
        if (strchr(line, '\r'))
            return old_ends(csv);
        first = line + strspn(line, " \t");
        if (*first == '#')
            set_remark(csv, first);
        if (*first == '#' || *first == '\0')
            continue;
        status = look_at_marks(csv, line, &passed);
        if (status == STATUS_DONE && !passed)
            status = cut_fields(csv, line);
        if (status != STATUS_DONE)
            return status;
        if (passed || all_empty(csv))
            continue;
        set_remark(csv, NULL);
        return STATUS_DONE;
    }
}

/* A column's name, and where it stands. */
struct named {
    const char *name;
    size_t column;
};

static int by_name(const void *left, const void *right)
{
    const struct named *a = left, *b = right;
    const char *x = a->name, *y = b->name;
    for (; *x && small(*x) == small(*y); x++)
        y++;
    if (small(*x) != small(*y))
        return (unsigned char)small(*x) < (unsigned char)small(*y) ? -1 : 1;
    return a->column < b->column ? -1 : a->column > b->column;
}

/* Whether no two columns have one name; those without a name do not count. */
static enum status names_differ(const struct csv *csv)
{
    struct named *list = room_for(csv->columns, sizeof *list);
    enum status status = STATUS_DONE;
    for (size_t k = 0; k < csv->columns; k++)
        list[k] = (struct named){.name = csv->names[k], .column = k};
    qsort(list, csv->columns, sizeof *list, by_name);
    for (size_t k = 1; k < csv->columns && status == STATUS_DONE; k++)
        if (list[k].name[0] != '\0' && same_name(list[k - 1].name, list[k].name))
            status = csv_wrong(csv, (long)list[k].column, "this name stands over column %zu too",
                               list[k - 1].column + 1);
    free(list);
    return status;
}

/* Keeps the fields of the line at hand as the column names. */
static enum status take_names(struct csv *csv)
{
    csv->names = room_for(csv->count, sizeof *csv->names);
    for (; csv->columns < csv->count; csv->columns++)
        csv->names[csv->columns] = joined(csv->fields[csv->columns], "");
    return names_differ(csv);
}

/* Refuses a channel file, of either edition, which is easily named in the place of a table. */
static enum status no_channel(struct csv *csv)
{
    enum status status = STATUS_DONE;
    while (status == STATUS_DONE && csv->length < 4 && !csv->ended)
        status = read_on(csv);
    csv->channel = csv->length >= 4 &&
                   (memcmp(csv->text, "\1\0\0\0", 4) == 0 || memcmp(csv->text, "\2\0\0\0", 4) == 0);
    if (status != STATUS_DONE || !csv->channel)
        return status;
    say("%s: is a channel file and no table", csv->path);
    return STATUS_REFUSED;
}

enum status csv_open_each(struct csv *csv, const char *path, void (*each)(void *to, const char *line, size_t length),
                          void *to)
{
    bool more = false;
    enum status status;
    *csv = (struct csv){.path = path, .file = open(path, O_RDONLY | O_CLOEXEC), .each = each, .to = to};
    if (csv->file < 0) {
        say("%s: cannot be read: %s", path, strerror(errno));
        return STATUS_REFUSED;
    }
    csv->text_room = ROOM_FIRST;
    csv->text = room_for(csv->text_room, 1);
    status = no_channel(csv);
    if (status == STATUS_DONE)
        status = next_line(csv, &more);
    if (status != STATUS_DONE)
        return status;
    if (!more) {
        say("%s: is empty: it needs a line of column names and a row a line", path);
        return STATUS_REFUSED;
    }
    return take_names(csv);
}

enum status csv_open(struct csv *csv, const char *path)
{
    return csv_open_each(csv, path, NULL, NULL);
}

void csv_close(struct csv *csv)
{
    if (csv->file >= 0)
        close(csv->file);
    for (size_t k = 0; k < csv->columns; k++)
        free(csv->names[k]);
    free(csv->names);
    free(csv->fields);
    free(csv->remark);
    free(csv->text);
    *csv = (struct csv){.file = -1};
}

enum status csv_row(struct csv *csv, bool *more)
{
    enum status status = next_line(csv, more);
    if (status != STATUS_DONE || !*more)
        return status;
    if (csv->count != csv->columns)
        return csv_wrong(csv, -1, "has %zu field%s where the column names are %zu", csv->count,
                         csv->count == 1 ? "" : "s", csv->columns);
    return STATUS_DONE;
}

long csv_column(const struct csv *csv, const char *name)
{
    for (size_t k = 0; k < csv->columns; k++)
        if (same_name(csv->names[k], name))
            return (long)k;
    return -1;
}

enum status csv_number(const struct csv *csv, long column, int64_t lowest, int64_t highest, int64_t *number)
{
    const char *field = csv->fields[column];
    switch (read_number(field, lowest, highest, number)) {
    case NUMBER_TAKEN: return STATUS_DONE;
    case NUMBER_EMPTY: return csv_wrong(csv, column, "is empty: a whole number is needed");
    case NUMBER_NOT:
        return csv_wrong(csv, column, "'%s' is not a whole number (digits only, with - before a negative one)",
                         SHOWN(field));
    case NUMBER_OUTSIDE: break;
    }
    return csv_wrong(csv, column, "%s is outside %s to %s", SHOWN(field), GROUPED(lowest), GROUPED(highest));
}
