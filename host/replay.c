/* serifladder-replay: prints what was sent and what was refused according to a journal of the host, as the test program replay does. */
#include "host.h"

#include <errno.h>
#include <fcntl.h>
#include <stdio.h>
#include <stdlib.h>
#include <string.h>
#include <unistd.h>

static const char HELP[] =
    "serifladder-replay [--table FILE] [JOURNAL]\n"
    "\n"
    "Prints what a journal of serifladder-host, or any row of house records, has the library send: S and the frame, its\n"
    "spaces as _, or C for a close, each behind its session, and R with the number of a call that was refused.\n"
    "\n"
    "  JOURNAL       the journal; standard input if it is not given; parts are read as one with cat FILE.7 FILE.8 FILE |\n"
    "  --table FILE  the table with which it begins: FILE.7.table for a journal that begins with the part FILE.7; without\n"
    "                it the journal begins with a start\n"
    "  --version, --help, -h\n"
    "\n"
    "The run ends with the last whole record. Status 0: all was printed; 1: something cannot be read or written; 2: wrong\n"
    "usage.\n";

static uint8_t table[SERIFLADDER_TABLE_SIZE];

static void print_frame(unsigned session, const uint8_t *frame, size_t length)
{
    uint8_t line[SERIFLADDER_OUTPUT_SIZE];
    for (size_t i = 0; i < length; i++)
        line[i] = frame[i] == ' ' ? '_' : frame[i];
    line[length - 1] = '\n'; /* in place of the NUL */
    printf("%u S ", session);
    fwrite(line, 1, length, stdout);
}

static void print_answer(const struct answer *answer, const uint8_t *output)
{
    if (answer->number != SERIFLADDER_DONE)
        printf("R %u\n", (unsigned)answer->number);
    for (size_t at = 0; at < answer->written;) {
        size_t length = (size_t)little(output + at, 2);
        unsigned record_kind = (unsigned)little(output + at + 2, 2);
        at += SERIFLADDER_RECORD_HEADER;
        if (record_kind >= SERIFLADDER_CLOSE)
            printf("%u C\n", record_kind - SERIFLADDER_CLOSE);
        else
            print_frame(record_kind - SERIFLADDER_FRAME, output + at, length);
        at += length;
    }
}

static void flush(void)
{
    if (fflush(stdout) != 0)
        fail("the lines cannot be written: %s", strerror(errno));
}

static _Noreturn void wrong_usage(const char *what, const char *of)
{
    fprintf(stderr, "serifladder-replay: %s%s (--help says how it is used)\n", what, of);
    exit(2);
}

static int opened(const char *path)
{
    int file = open(path, O_RDONLY);
    if (file < 0)
        fail("%s cannot be read: %s", path, strerror(errno));
    return file;
}

int main(int count, char **arguments)
{
    static const struct listener PRINTER = { print_answer, flush };
    const char *journal = NULL, *begins = NULL;
    for (int i = 1; i < count; i++) {
        const char *argument = arguments[i];
        if (strcmp(argument, "--help") == 0 || strcmp(argument, "-h") == 0)
            return fputs(HELP, stdout) == EOF;
        if (strcmp(argument, "--version") == 0)
            return puts("serifladder-replay " SERIFLADDER_VERSION) == EOF;
        if (strcmp(argument, "--table") == 0 && i + 1 < count && begins == NULL)
            begins = arguments[++i];
        else if (strcmp(argument, "--table") == 0)
            wrong_usage("--table is given once, with a value", "");
        else if (argument[0] == '-')
            wrong_usage("there is no option ", argument);
        else if (journal != NULL)
            wrong_usage("a second journal is given: ", argument);
        else
            journal = argument;
    }
    if (begins != NULL && !table_read(opened(begins), table))
        fail("%s is no table", begins);
    struct replayed replayed = replay_journal(journal == NULL ? STDIN_FILENO : opened(journal), table, &PRINTER);
    if (replayed.failed)
        fail("%s cannot be read: %s", journal == NULL ? "standard input" : journal, strerror(errno));
    return 0;
}
