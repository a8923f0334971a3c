/* main.c: pathpetal COMMAND, and help. */
#include "commands.h"

#include <errno.h>
#include <fcntl.h>
#include <signal.h>
#include <stdlib.h>
#include <string.h>
#include <unistd.h>

#define STATUSES \
    "\nExit status: 0 done, 1 no memory, 2 wrong command line, 3 refused input, 4 failed writing,\n" \
    "5 open (a step was refused), 6 interrupted.\n"

static const char overall_help[] =
    "pathpetal: waves along one closed channel\n"
    "\n"
    "  pathpetal make SURVEY.csv -o START ...   a channel file from a survey\n"
    "  pathpetal run START -o END ...           take the channel's steps\n"
    "  pathpetal show FILE ...                  a channel or a staff record, in words and as a picture\n"
    "  pathpetal check FILE ...                 whether a channel or a staff record is whole, and complete\n"
    "  pathpetal COMMAND --help                 more of a command\n"
    "\n"
    "No command changes or removes a file that it is given to read. A file of another run is written\n"
    "over only with --replace, and every file appears under its name only when it is whole. A run that\n"
    "was cut goes on when the same command is given again.\n" STATUSES;

static const char make_help[] =
    "pathpetal make SURVEY.csv -o START --width-mm MM --step-ms MS --steps N [--replace]\n"
    "\n"
    "Makes the file of a new channel, START, from a table with a row for each cell, left to right.\n"
    "\n"
    "  --width-mm MM   width of a cell, 10 to 5,000 mm\n"
    "  --step-ms MS    time step, 1 to 100 ms\n"
    "  --steps N       steps wanted, 1 to 1,000,000\n"
    "  --replace       write over START if it is there\n"
    "\n"
    "Columns, by name: depth_mm (1 to 20,000); height_um above still water and velocity_um_s to the\n"
    "right (each within 20,000,000; 0 where left out); damping_thousandths_s, how quickly the cell\n"
    "slows the water down, as reeds do, in thousandths per second (0 to 10,000; 0, not at all, where\n"
    "left out); cell (counts 1, 2, 3, where given). Whole numbers only. 8 to 256 rows. Lines that\n"
    "begin with # and blank lines are passed over. Nothing is written if anything is wrong.\n" STATUSES;

static const char run_help[] =
    "pathpetal run START -o END [options]\n"
    "\n"
    "Takes the steps that START still wants and writes END. A run that was cut goes on when the same\n"
    "command is given again, and ends in the same bytes as one in one go. START may also be a\n"
    "checkpoint, or an END that says open, with the same options and other names for END and FILE.\n"
    "\n"
    "  --filter-every N       a filter pass after every N accepted steps, before the next step\n"
    "  --pour POUR.csv        water poured in; columns step, cell, amount_um\n"
    "  --staff CELLS          marked cells, like 12,40; cells count from 1 at the left wall\n"
    "  --record RECORD.csv    the heights at the marked cells, and the waves there; RECORD.csv.open until\n"
    "                         complete\n"
    "  --every N              a row of the record every N accepted steps (1 if left out)\n"
    "  --checkpoint FILE      keep the channel in FILE on the way ...\n"
    "  --checkpoint-every N   ... every N accepted steps\n"
    "  --replace              write over END, RECORD.csv and the checkpoint also where they are of\n"
    "                         another run\n"
    "\n"
    "END.run and FILE.run stand beside END and the checkpoint and say of which run they are: keep them\n"
    "together. Ctrl-C, SIGTERM and SIGHUP end the run in good order: END then says open. Progress is\n"
    "shown where standard error is a terminal.\n" STATUSES;

static const char show_help[] =
    "pathpetal show FILE [--svg PICTURE.svg] [--replace]\n"
    "pathpetal show --staff RECORD.csv [--svg PICTURE.svg] [--replace]\n"
    "\n"
    "Tells what a channel file or a staff record holds and whether it is complete; --svg draws it. Of a\n"
    "record that is whole also the waves at each staff, by the proved counts of the heights after every\n"
    "step, whatever --every was.\n"
    "\n"
    "  --svg PICTURE.svg   bottom, surface and damping of the channel, or the heights at each staff over\n"
    "                      time\n"
    "  --staff             the file is a staff record\n"
    "  --replace           write over PICTURE.svg if it is there\n" STATUSES;

static const char check_help[] =
    "pathpetal check FILE [--complete]\n"
    "pathpetal check --staff RECORD.csv [--complete]\n"
    "\n"
    "Whether FILE is a channel file, or RECORD.csv a staff record of which nothing is lost or changed\n"
    "(0), or why not in words (3). Where its steps were taken by another rule than this program's, that\n"
    "is told too: no run goes on with such a channel.\n"
    "\n"
    "  --staff      the file is a staff record\n"
    "  --complete   also whether it is complete: 5 if it is open\n" STATUSES;

static const struct {
    const char *name, *help;
    enum status (*command)(int count, char **words);
} commands[] = {
    {"make", make_help, make_command},
    {"run", run_help, run_command},
    {"show", show_help, show_command},
    {"check", check_help, check_command},
};

static bool asks_help(const char *word)
{
    return strcmp(word, "--help") == 0 || strcmp(word, "-h") == 0;
}

static enum status help(const char *text)
{
    tell_page(text);
    return told();
}

/* Standard input, output and error are open, so that no file that is written gets their numbers. */
static bool standard_files(void)
{
    for (int file = STDIN_FILENO; file <= STDERR_FILENO; file++)
        if (fcntl(file, F_GETFD) < 0 && errno == EBADF && open("/dev/null", O_RDWR) != file)
            return false;
    return true;
}

int main(int count, char **words)
{
    if (!standard_files()) {
        say("standard input, output or error is closed, and there is no /dev/null");
        return STATUS_UNWRITTEN;
    }
    /* a closed pipe and a full quota are answers of write, not the end */
    signal(SIGPIPE, SIG_IGN);
    signal(SIGXFSZ, SIG_IGN);
    if (count >= 2 && asks_help(words[1]))
        return (int)help(overall_help);
    for (size_t k = 0; count >= 2 && k < sizeof commands / sizeof commands[0]; k++) {
        if (strcmp(words[1], commands[k].name) != 0)
            continue;
        for (int word = 2; word < count && strcmp(words[word], "--") != 0; word++)
            if (asks_help(words[word]))
                return (int)help(commands[k].help);
        return (int)commands[k].command(count - 2, words + 2);
    }
    if (count >= 2)
        say("'%s' is no command", SHOWN(words[1]));
    say("the commands are make, run, show and check; see pathpetal --help");
    return STATUS_USAGE;
}
