/* Signals: the handler writes a signal's number into a pipe, which the loop polls. */
#include "host.h"

#include <errno.h>
#include <signal.h>
#include <string.h>
#include <unistd.h>

static int ends[2]; /* of the pipe: to read, to write */
static uint8_t ended_by;
static bool reopen;

static void on_signal(int number)
{
    int kept = errno;
    uint8_t byte = (uint8_t)number;
    ssize_t ignored = write(ends[1], &byte, 1);
    (void)ignored;
    errno = kept;
}

void signals_catch(void)
{
    struct sigaction ignore = { .sa_handler = SIG_IGN }, told = { .sa_handler = on_signal };
    if (pipe(ends) != 0)
        fail("no pipe for signals: %s", strerror(errno));
    unblock(ends[0]);
    unblock(ends[1]);
    sigaction(SIGPIPE, &ignore, NULL);
    sigaction(SIGXFSZ, &ignore, NULL); /* a file that may not grow is an error of the write */
    sigaction(SIGTERM, &told, NULL);
    sigaction(SIGINT, &told, NULL);
    sigaction(SIGHUP, &told, NULL);
}

int signals_descriptor(void)
{
    return ends[0];
}

bool signals_end(void)
{
    uint8_t number;
    while (read(ends[0], &number, 1) == 1) {
        if (number == SIGHUP)
            reopen = true;
        else
            ended_by = number;
    }
    return ended_by != 0;
}

bool signals_reopen(void)
{
    bool asked = reopen;
    reopen = false;
    return asked;
}

const char *signals_ended_by(void)
{
    return ended_by == SIGTERM ? "SIGTERM" : "SIGINT";
}
