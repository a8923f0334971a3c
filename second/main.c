#include "second.h"

#include <errno.h>
#include <inttypes.h>
#include <stdbool.h>
#include <stdio.h>
#include <stdlib.h>
#include <string.h>

_Noreturn static void fail(const char *what)
{
    fprintf(stderr, "second: %s\n", what);
    exit(2);
}

static void *grown(void *at, size_t bytes)
{
    at = realloc(at, bytes ? bytes : 1);
    if (!at)
        fail("no memory");
    return at;
}

/* A channel with rows of its own for any N. */
struct roomy {
    int64_t h[SECOND_CELLS], e[SECOND_CELLS], u[SECOND_CELLS], V[SECOND_CELLS];
    int64_t Q[3 * (SECOND_CELLS - 1)], F[3 * SECOND_CELLS], damping[SECOND_CELLS];
    struct second_channel channel;
};

static void lend(struct roomy *roomy, size_t N)
{
    roomy->channel.h = (struct second_row){roomy->h, N};
    roomy->channel.e = (struct second_row){roomy->e, N};
    roomy->channel.u = (struct second_row){roomy->u, N};
    roomy->channel.V = (struct second_row){roomy->V, N};
    roomy->channel.Q = (struct second_row){roomy->Q, 3 * (N - 1)};
    roomy->channel.F = (struct second_row){roomy->F, 3 * N};
    roomy->channel.damping = (struct second_row){roomy->damping, N};
}

/* Cells a file says it has, or 0 when it has no allowed number. */
static size_t cells_of(const uint8_t *bytes, size_t len)
{
    uint32_t N;
    if (len < 48)
        return 0;
    N = (uint32_t)bytes[4] | (uint32_t)bytes[5] << 8 | (uint32_t)bytes[6] << 16 |
        (uint32_t)bytes[7] << 24;
    return N >= 8 && N <= SECOND_CELLS ? N : 0;
}

/* Standard input, as far as one byte beyond the longest file. */
static size_t take_input(uint8_t bytes[SECOND_FILE + 1])
{
    size_t len = fread(bytes, 1, SECOND_FILE + 1, stdin);
    if (ferror(stdin))
        fail("cannot read");
    return len;
}

static void tell(struct second_answer answer)
{
    fprintf(stderr, "%" PRIu64 " %u %u %u\n", answer.count, answer.number, answer.stage,
            answer.place);
}

/* Whether the file on standard input was taken; tells a refusal. */
static bool take_channel(struct roomy *roomy)
{
    uint8_t bytes[SECOND_FILE + 1];
    size_t len = take_input(bytes), N = cells_of(bytes, len);
    struct second_answer answer;
    lend(roomy, N ? N : 8);
    answer = second_read(bytes, len, &roomy->channel);
    if (answer.number)
        tell(answer);
    return answer.number == 0;
}

static void give_channel(const struct second_channel *channel)
{
    uint8_t bytes[SECOND_FILE];
    size_t len = 28 + 68 * (size_t)channel->N;
    if (second_write(channel, bytes, len).number)
        fail("cannot form the file");
    if (fwrite(bytes, 1, len, stdout) != len || fflush(stdout))
        fail("cannot write");
}

/* K steps with nothing poured, or as many as are accepted. */
static struct second_answer steps(struct second_channel *channel, uint64_t K)
{
    static const int64_t nothing[SECOND_CELLS];
    struct second_answer answer = {0};
    uint64_t count = 0;
    while (count < K && !answer.number) {
        answer = second_step(channel, (struct second_read_row){nothing, (size_t)channel->N});
        count += answer.number == 0;
    }
    answer.count = count;
    return answer;
}

static int print_file(void)
{
    uint8_t bytes[SECOND_FILE + 1];
    char text[SECOND_LINE];
    size_t len = take_input(bytes);
    second_print(bytes, len, text);
    fputs(text, stdout);
    return 0;
}

/* The rows of a text call, by their names; those of a channel in the order of its file. */
enum { ROW_h, ROW_e, ROW_u, ROW_V, ROW_Q, ROW_F, ROW_damping, ROW_s, ROW_bytes, ROWS };
enum { CHANNEL_ROWS = ROW_s };
static const char *const row_names[ROWS] = {"h", "e", "u", "V", "Q", "F", "damping", "s", "bytes"};
enum { COUNT_N, COUNT_X, COUNT_T, COUNT_accepted, COUNT_wanted, COUNT_len, COUNTS };
static const char *const count_names[COUNTS] = {"N", "X", "T", "accepted", "wanted", "len"};

struct call {
    char name[16];
    uint64_t counts[COUNTS];
    bool given[ROWS], len_given;
    struct second_row rows[ROWS];
};

/* A line of standard input without its newline, or NULL at the end. */
static char *take_line(void)
{
    static char *line;
    static size_t room;
    size_t len = 0;
    int c;
    while ((c = getchar()) != EOF && c != '\n') {
        if (len + 2 > room)
            line = grown(line, room = 2 * room + 256);
        line[len++] = (char)c;
    }
    if (c == EOF && len == 0)
        return NULL;
    if (len + 1 > room)
        line = grown(line, room = 256);
    line[len] = 0;
    return line;
}

static void resize(struct second_row *row, size_t len)
{
    row->at = grown(row->at, len * sizeof *row->at);
    for (size_t j = row->len; j < len; j++)
        row->at[j] = 0;
    row->len = len;
}

static void parse_row(struct second_row *row, const char *text)
{
    char *after;
    size_t len = 0, room = 0;
    for (;; len++) {
        errno = 0;
        long long n = strtoll(text, &after, 10);
        if (after == text)
            break;
        if (errno || n < INT64_MIN || n > INT64_MAX)
            fail("a value beyond 64 bits");
        if (len == room)
            row->at = grown(row->at, (room = 2 * room + 64) * sizeof *row->at);
        row->at[len] = n;
        text = after;
    }
    if (text[strspn(text, " \t\r")])
        fail("a value that is no number");
    row->len = len;
}

static uint64_t parse_count(const char *text)
{
    char *after;
    errno = 0;
    unsigned long long n = strtoull(text, &after, 10);
    if (after == text || errno || n > UINT64_MAX || after[strspn(after, " \t\r")])
        fail("a count that is no number of 64 bits");
    return n;
}

static int find(const char *const *names, int len, const char *key)
{
    for (int i = 0; i < len; i++)
        if (!strcmp(names[i], key))
            return i;
    return -1;
}

static void parse_item(struct call *call, char *line)
{
    size_t end = strcspn(line, " \t\r");
    char *values = line + end + (line[end] != 0);
    int i;
    line[end] = 0;
    if ((i = find(count_names, COUNTS, line)) >= 0) {
        call->counts[i] = parse_count(values);
        call->len_given |= i == COUNT_len;
    } else if ((i = find(row_names, ROWS, line)) >= 0) {
        parse_row(&call->rows[i], values);
        call->given[i] = true;
    } else {
        fail("an item of no known name");
    }
}

/* The next call on standard input; false at the end. */
static bool take_call(struct call *call)
{
    char *line;
    do {
        if (!(line = take_line()))
            return false;
        line[strcspn(line, " \t\r")] = 0;
    } while (!*line);
    if (strlen(line) >= sizeof call->name)
        fail("a call of no known name");
    for (int i = 0; i < COUNTS; i++)
        call->counts[i] = 0;
    for (int i = 0; i < ROWS; i++) {
        call->rows[i].len = 0;
        call->given[i] = false;
    }
    call->len_given = false;
    strcpy(call->name, line);
    while ((line = take_line()) && strcmp(line, "end"))
        if (*line)
            parse_item(call, line);
    if (!line)
        fail("a call without its end");
    return true;
}

/* Gives the channel's rows from first on that were not given the lengths N asks. */
static void lend_missing(struct call *call, int first, uint64_t N)
{
    if (N < 8 || N > SECOND_CELLS)
        return;
    for (int i = first; i < CHANNEL_ROWS; i++)
        if (!call->given[i])
            resize(&call->rows[i], (size_t)(i == ROW_Q ? 3 * (N - 1) : i == ROW_F ? 3 * N : N));
}

static struct second_channel channel_of(const struct call *call)
{
    const uint64_t *n = call->counts;
    const struct second_row *row = call->rows;
    return (struct second_channel){n[COUNT_N],      n[COUNT_X], n[COUNT_T], n[COUNT_accepted],
                                   n[COUNT_wanted], row[ROW_h], row[ROW_e], row[ROW_u],
                                   row[ROW_V],      row[ROW_Q], row[ROW_F], row[ROW_damping]};
}

static size_t bytes_of(const struct second_row *row, uint8_t **bytes)
{
    *bytes = grown(NULL, row->len);
    for (size_t j = 0; j < row->len; j++) {
        if (row->at[j] < 0 || row->at[j] > 255)
            fail("a byte beyond 255");
        (*bytes)[j] = (uint8_t)row->at[j];
    }
    return row->len;
}

static uint8_t *put(uint8_t *b, uint64_t n, int bytes)
{
    for (int i = 0; i < bytes; i++)
        b[i] = (uint8_t)(n >> 8 * i);
    return b + bytes;
}

/* Bytes of a value of a row in a file. */
static int bytes_in(int row)
{
    return row == ROW_Q || row == ROW_F ? 8 : 4;
}

/* The file's bytes for the counts and rows as they are, unchecked: of each
   value the lowest 4 or 8 bytes. */
static size_t unchecked_bytes(const struct call *call, uint8_t **bytes)
{
    const uint64_t *n = call->counts, N = n[COUNT_N];
    const uint64_t counts[13] = {2, N, n[COUNT_X], n[COUNT_T], n[COUNT_accepted],
                                 n[COUNT_wanted], 52, 52 + 4 * N, 52 + 8 * N, 52 + 12 * N,
                                 52 + 16 * N, 28 + 40 * N, 28 + 64 * N};
    size_t len = 52;
    for (int i = 0; i < CHANNEL_ROWS; i++)
        len += (size_t)bytes_in(i) * call->rows[i].len;
    uint8_t *b = *bytes = grown(NULL, len);
    for (int i = 0; i < 13; i++)
        b = put(b, counts[i], 4);
    for (int i = 0; i < CHANNEL_ROWS; i++)
        for (size_t j = 0; j < call->rows[i].len; j++)
            b = put(b, (uint64_t)call->rows[i].at[j], bytes_in(i));
    return len;
}

static void say_answer(struct second_answer answer, const struct second_channel *channel)
{
    const struct second_row rows[CHANNEL_ROWS] = {channel->h, channel->e, channel->u,
                                                  channel->V, channel->Q, channel->F,
                                                  channel->damping};
    printf("answer %u %u %u %" PRIu64 "\n", answer.number, answer.stage, answer.place,
           answer.count);
    printf("N %" PRIu64 "\nX %" PRIu64 "\nT %" PRIu64 "\n", channel->N, channel->X, channel->T);
    printf("accepted %" PRIu64 "\nwanted %" PRIu64 "\n", channel->accepted, channel->wanted);
    for (int i = 0; i < CHANNEL_ROWS; i++) {
        printf("%s", row_names[i]);
        for (size_t j = 0; j < rows[i].len; j++)
            printf(" %" PRId64, rows[i].at[j]);
        putchar('\n');
    }
}

static void text_write(const struct call *call)
{
    struct second_channel channel = channel_of(call);
    uint64_t N = channel.N;
    size_t len = call->len_given ? (size_t)call->counts[COUNT_len]
                 : N >= 8 && N <= SECOND_CELLS ? 28 + 68 * (size_t)N
                                               : 0;
    uint8_t *bytes = grown(NULL, len);
    struct second_answer answer = second_write(&channel, bytes, len);
    say_answer(answer, &channel);
    if (!answer.number) {
        printf("bytes");
        for (size_t i = 0; i < len; i++)
            printf(" %u", bytes[i]);
        putchar('\n');
    }
    free(bytes);
}

static void text_print(const struct call *call)
{
    struct second_channel channel = channel_of(call);
    uint8_t *bytes;
    char text[SECOND_LINE];
    size_t len = call->given[ROW_bytes] ? bytes_of(&call->rows[ROW_bytes], &bytes)
                                        : unchecked_bytes(call, &bytes);
    say_answer(second_print(bytes, len, text), &channel);
    printf("line %s", text);
    free(bytes);
}

static void text_read(struct call *call)
{
    uint8_t *bytes;
    size_t len = bytes_of(&call->rows[ROW_bytes], &bytes);
    lend_missing(call, ROW_h, cells_of(bytes, len));
    struct second_channel channel = channel_of(call);
    struct second_answer answer = second_read(bytes, len, &channel);
    say_answer(answer, &channel);
    free(bytes);
}

static void text_channel_call(struct call *call)
{
    if (!strcmp(call->name, "make"))
        lend_missing(call, ROW_V, call->counts[COUNT_N]);
    struct second_channel channel = channel_of(call);
    struct second_read_row s = {call->rows[ROW_s].at, call->rows[ROW_s].len};
    struct second_answer answer;
    if (!strcmp(call->name, "make"))
        answer = second_make(&channel);
    else if (!strcmp(call->name, "step"))
        answer = second_step(&channel, s);
    else if (!strcmp(call->name, "filter"))
        answer = second_filter(&channel);
    else if (!strcmp(call->name, "run"))
        answer = second_run(&channel);
    else
        fail("a call of no known name");
    say_answer(answer, &channel);
}

static int text(void)
{
    static struct call call;
    while (take_call(&call)) {
        if (strcmp(call.name, "read")) /* without a damping row there is no damping */
            lend_missing(&call, ROW_damping, call.counts[COUNT_N]);
        if (!strcmp(call.name, "write"))
            text_write(&call);
        else if (!strcmp(call.name, "print"))
            text_print(&call);
        else if (!strcmp(call.name, "read"))
            text_read(&call);
        else
            text_channel_call(&call);
        puts("end");
    }
    for (int i = 0; i < ROWS; i++)
        free(call.rows[i].at);
    return 0;
}

/* run, steps and filter: a file in, a file out, the answer told. */
static int file_call(const char *name, const char *K)
{
    static struct roomy roomy;
    uint64_t wanted = K ? parse_count(K) : 0;
    struct second_answer answer;
    if (!take_channel(&roomy))
        return 1;
    if (!strcmp(name, "run"))
        answer = second_run(&roomy.channel);
    else if (!strcmp(name, "steps"))
        answer = steps(&roomy.channel, wanted);
    else
        answer = second_filter(&roomy.channel);
    give_channel(&roomy.channel);
    tell(answer);
    return 0;
}

int main(int argc, char **argv)
{
    if (argc == 2 && !strcmp(argv[1], "print"))
        return print_file();
    if (argc == 2 && !strcmp(argv[1], "text"))
        return text();
    if (argc == 2 && (!strcmp(argv[1], "run") || !strcmp(argv[1], "filter")))
        return file_call(argv[1], NULL);
    if (argc == 3 && !strcmp(argv[1], "steps"))
        return file_call(argv[1], argv[2]);
    fputs("usage: second run | print | steps K | filter | text\n", stderr);
    return 2;
}
