/* csv.h: tables as spreadsheets write them: a line of column names, then a row a line.

   Fields are parted by commas, may stand in double quotes and lose the spaces around them. Lines may end in CRLF,
   the last one without an end. Blank lines, lines of empty fields and lines that begin with # are passed over.

   A table is read line by line and never held whole, so that it may come from a pipe and be of any length. */
#ifndef CSV_H
#define CSV_H

#include "say.h"

struct csv {
    const char *path;
    int file;                     /* -1 where it is not open */
    char *text;                   /* the line at hand, out of which fields are cut, and what was read beyond it */
    size_t length, at, text_room; /* its bytes, where the next line begins in it, and its room */
    bool ended;                   /* nothing more can be read */
    bool channel;                 /* it is no table but begins as channel files do */
    bool cut;                     /* the line at hand has no end: it is the last */
    unsigned long line;           /* of the row at hand, from 1 */
    char **fields;                /* of the row at hand */
    size_t count, room;           /* its fields */
    char **names;                 /* the column names */
    size_t columns;
    char *remark;                 /* the last line that begins with #, if nothing but blank lines follows it */
    void (*each)(void *to, const char *line, size_t length); /* is shown every line as it stands; NULL for none */
    void *to;
};

/* Reads a table's column names. */
enum status csv_open(struct csv *csv, const char *path);

/* The same; every line of the file is shown to `each` before anything is cut out of it: blank ones, remarks and the
   names too, with the line's end if it has one. A line that is no text or too long is refused before that. */
enum status csv_open_each(struct csv *csv, const char *path, void (*each)(void *to, const char *line, size_t length),
                          void *to);
void csv_close(struct csv *csv);

/* The next row, with a field for each column: *more is whether there is one. */
enum status csv_row(struct csv *csv, bool *more);

/* The place of a column, from 0; -1 if there is none. Capitals count as small letters. */
long csv_column(const struct csv *csv, const char *name);

/* Says what is wrong in a column of the row at hand (from 0, or -1 for the whole line), or of a line that was read; is
   STATUS_REFUSED. */
enum status csv_wrong(const struct csv *csv, long column, const char *format, ...) LIKE_PRINTF(3, 4);
enum status csv_wrong_on(const struct csv *csv, unsigned long line, long column, const char *format, ...)
    LIKE_PRINTF(4, 5);

/* The field of a column as a whole number within bounds, or what is wrong with it. */
enum status csv_number(const struct csv *csv, long column, int64_t lowest, int64_t highest, int64_t *number);

#endif
