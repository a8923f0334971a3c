#include "say.h"
#include "text.h"

#include <inttypes.h>
#include <stdarg.h>
#include <stdio.h>
#include <stdlib.h>
#include <string.h>
#include <sys/ioctl.h>
#include <unistd.h>

static size_t progress_length; /* columns of the progress line that stands on the terminal */

size_t progress_room(void)
{
    struct winsize size;
    if (ioctl(STDERR_FILENO, TIOCGWINSZ, &size) == 0 && size.ws_col > 0)
        return size.ws_col - 1u;
    return 79;
}

static size_t least(size_t a, size_t b)
{
    return a < b ? a : b;
}

/* Takes the progress line away; needs no memory. */
static void end_progress(void)
{
    if (progress_length > 0)
        fprintf(stderr, "\r%*s\r", (int)least(progress_length, progress_room()), "");
    progress_length = 0;
}

void say_progress(const char *text)
{
    struct text line = {0};
    size_t columns, before = least(progress_length, progress_room());
    if (*text == '\0') {
        end_progress();
        return;
    }
    text_add(&line, "\r");
    text_add_seen(&line, text);
    columns = line.length - 1;
    if (columns < before)
        text_add(&line, "%*s", (int)(before - columns), "");
    fwrite(line.at, 1, line.length, stderr);
    free(line.at);
    progress_length = columns;
}

/* One line, whatever stands in the arguments; what is said to people goes out here and nowhere else. */
static void put_line(FILE *to, const char *before, const char *format, va_list arguments)
{
    struct text words = {0}, line = {0};
    end_progress();
    text_add_list(&words, format, arguments);
    text_add(&line, "%s", before);
    if (words.length)
        text_add_seen(&line, words.at);
    text_add(&line, "\n");
    fwrite(line.at, 1, line.length, to);
    free(words.at);
    free(line.at);
}

void say(const char *format, ...)
{
    va_list arguments;
    va_start(arguments, format);
    put_line(stderr, "pathpetal: ", format, arguments);
    va_end(arguments);
}

void tell(const char *format, ...)
{
    va_list arguments;
    va_start(arguments, format);
    put_line(stdout, "", format, arguments);
    va_end(arguments);
}

void tell_page(const char *text)
{
    fputs(text, stdout);
}

enum status told(void)
{
    int failed = fflush(stdout) != 0;
    if (ferror(stdout) || failed) {
        say("standard output could not be written: it is closed or full");
        return STATUS_UNWRITTEN;
    }
    return STATUS_DONE;
}

void *more_room(void *at, size_t count, size_t size)
{
    void *room = NULL;
    if (count == 0)
        count = 1;
    if (size != 0 && count <= SIZE_MAX / size)
        room = realloc(at, count * size);
    if (!room) {
        end_progress();
        fputs("pathpetal: no memory\n", stderr); /* a message of say would need some */
        exit(STATUS_MEMORY);
    }
    return room;
}

void *room_for(size_t count, size_t size)
{
    void *room = more_room(NULL, count, size);
    memset(room, 0, count * size);
    return room;
}

char *joined(const char *first, const char *second)
{
    size_t a = strlen(first), b = strlen(second);
    char *both = room_for(a + b + 1, 1);
    memcpy(both, first, a);
    memcpy(both + a, second, b + 1);
    return both;
}

/* The size of a number; that of the lowest fits too. */
static uint64_t size_of(int64_t number)
{
    return number < 0 ? 0 - (uint64_t)number : (uint64_t)number;
}

struct grouped grouped(int64_t number)
{
    struct grouped out = {{0}};
    char digits[24];
    int count = snprintf(digits, sizeof digits, "%" PRIu64, size_of(number));
    size_t at = 0;
    if (number < 0)
        out.text[at++] = '-';
    for (int k = 0; k < count; k++) {
        if (k > 0 && (count - k) % 3 == 0)
            out.text[at++] = ',';
        out.text[at++] = digits[k];
    }
    return out;
}

struct grouped thousandths(int64_t number)
{
    struct grouped out;
    uint64_t size = size_of(number);
    snprintf(out.text, sizeof out.text, "%s%" PRIu64 ".%03u", number < 0 ? "-" : "", size / 1000,
             (unsigned)(size % 1000));
    return out;
}

struct shown shown(const char *text)
{
    struct shown out = {{0}};
    size_t length = strlen(text), kept = length > 40 ? 37 : length;
    /* a cut does not fall inside a character of several bytes */
    while (kept < length && kept > 0 && ((unsigned char)text[kept] & 0xC0) == 0x80)
        kept--;
    memcpy(out.text, text, kept);
    if (kept < length)
        memcpy(out.text + kept, "...", 3);
    return out;
}

enum number_read read_number(const char *text, int64_t lowest, int64_t highest, int64_t *number)
{
    const int64_t far = INT64_C(1000000000000000000);
    bool negative = *text == '-';
    int64_t size = 0;
    if (*text == '\0')
        return NUMBER_EMPTY;
    if (*text == '-' || *text == '+')
        text++;
    if (*text == '\0')
        return NUMBER_NOT;
    for (; *text; text++) {
        if (*text < '0' || *text > '9')
            return NUMBER_NOT;
        size = size >= far / 10 ? far : size * 10 + (*text - '0');
    }
    if (negative)
        size = -size;
    if (size < lowest || size > highest)
        return NUMBER_OUTSIDE;
    *number = size;
    return NUMBER_TAKEN;
}
