/* say.h: what the program says to people, how a command can end, and numbers as people write them. */
#ifndef SAY_H
#define SAY_H

#include <stdbool.h>
#include <stddef.h>
#include <stdint.h>

#if defined(__GNUC__)
#define LIKE_PRINTF(words, first) __attribute__((format(printf, words, first)))
#else
#define LIKE_PRINTF(words, first)
#endif

/* How a command ends: the exit status. */
enum status {
    STATUS_DONE = 0,       /* what was asked is done; of a run: the channel is complete and END says so */
    STATUS_MEMORY = 1,     /* there was no memory */
    STATUS_USAGE = 2,      /* the command line is not understood */
    STATUS_REFUSED = 3,    /* an input is refused, or an output would write over a file */
    STATUS_UNWRITTEN = 4,  /* something could not be written */
    STATUS_OPEN = 5,       /* a step was refused: END holds what was accepted and says open */
    STATUS_INTERRUPTED = 6 /* a signal ended the run: END holds what was accepted and says open */
};

/* One line on standard error, after the program's name. What is formatted may hold names and fields from outside: of
   every line, here and below, only what text_add_seen lets through reaches a terminal. */
void say(const char *format, ...) LIKE_PRINTF(1, 2);

/* One line on standard output; a page of the program's own words, with its line ends. told() is whether all of it
   could be written. */
void tell(const char *format, ...) LIKE_PRINTF(1, 2);
void tell_page(const char *text);
enum status told(void);

/* The progress line on standard error, in place of the one before; an empty text takes it away. It is not wrapped if
   it has at most progress_room() columns: one less than the terminal's width, or than 80 if that cannot be told. */
void say_progress(const char *text);
size_t progress_room(void);

/* Memory, or the end of the program with STATUS_MEMORY. */
void *room_for(size_t count, size_t size);
void *more_room(void *at, size_t count, size_t size);
char *joined(const char *first, const char *second);

/* A number with commas between the thousands: 6,000. The text lives as long as the expression it stands in. */
struct grouped {
    char text[32];
};
struct grouped grouped(int64_t number);
#define GROUPED(number) (grouped(number).text)

/* Thousandths as a decimal number with all three places: 12345 is 12.345. */
struct grouped thousandths(int64_t number);
#define THOUSANDTHS(number) (thousandths(number).text)

/* Text from elsewhere, cut with dots at 40 bytes. */
struct shown {
    char text[48];
};
struct shown shown(const char *text);
#define SHOWN(from) (shown(from).text)

/* What a text is, read as a whole number within bounds; only NUMBER_TAKEN sets *number. */
enum number_read { NUMBER_TAKEN, NUMBER_EMPTY, NUMBER_NOT, NUMBER_OUTSIDE };
enum number_read read_number(const char *text, int64_t lowest, int64_t highest, int64_t *number);

#endif
