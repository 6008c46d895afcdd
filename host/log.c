/* The log: lines with the time before them, on standard error or in a file. Nothing that a peer does may fill a disk with it: lines that
   repeat are counted. */
#include "host.h"

#include <errno.h>
#include <fcntl.h>
#include <limits.h>
#include <stdarg.h>
#include <stdio.h>
#include <stdlib.h>
#include <string.h>
#include <sys/stat.h>
#include <time.h>
#include <unistd.h>

enum {
    LINE = 1024,
    LINE_KINDS = 128,         /* so many formats are told apart */
    LINES_A_SECOND = 32,      /* of one kind */
    FILE_GREATEST = 8 << 20,  /* a file that is longer is put aside */
};

static const char *log_path;
static int log_file = STDERR_FILENO;
static off_t file_size;

/* What was said within a second of one kind of line: those of one format. */
static struct line_kind {
    const char *format;
    time_t second;
    unsigned said;
    unsigned long left_out;
    char last[LINE]; /* the text of the last one that was left out */
} line_kinds[LINE_KINDS];
static bool some_left_out;

/* ---- writing */

/* False with errno where it cannot be opened: the log goes on where it was. */
static bool open_file(void)
{
    struct stat found;
    int opened = open(log_path, O_WRONLY | O_APPEND | O_CREAT | O_CLOEXEC | O_NOCTTY | O_NONBLOCK, file_mode);
    if (opened < 0)
        return false;
    if (log_file != STDERR_FILENO)
        close(log_file);
    log_file = opened;
    file_size = fstat(log_file, &found) == 0 && S_ISREG(found.st_mode) ? found.st_size : 0;
    return true;
}

/* A file that is full takes the place of the one that was put aside before it. */
static void put_aside(void)
{
    char name[PATH_MAX];
    file_size = 0; /* where it stays, the next attempt comes as many bytes later */
    if (snprintf(name, sizeof name, "%s.1", log_path) < PATH_MAX && rename(log_path, name) == 0)
        open_file();
}

/* Writes a line, unless it goes to a pipe that nobody empties: no reader of the log may hold the host up. Lines that are left out are
   counted, and the count is said once lines are taken again. */
static void write_line(const char *line, size_t length)
{
    static unsigned long left_out;
    struct pollfd taker = { .fd = log_file, .events = POLLOUT };
    if (poll(&taker, 1, 0) != 1) {
        left_out += 1;
        return;
    }
    if (left_out > 0) {
        char said[80];
        int size = snprintf(said, sizeof said, "%lu lines of the log are left out: they were not read\n", left_out);
        if (write_all(log_file, said, (size_t)size))
            left_out = 0;
    }
    if (!write_all(log_file, line, length))
        left_out += 1;
    file_size += (off_t)length;
    if (log_path != NULL && file_size > FILE_GREATEST)
        put_aside();
}

static void write_text(const char *before, const char *text)
{
    char line[LINE + 64];
    struct timespec now;
    struct tm parts;
    clock_gettime(CLOCK_REALTIME, &now);
    gmtime_r(&now.tv_sec, &parts);
    size_t at = strftime(line, sizeof line, "%Y-%m-%dT%H:%M:%S", &parts);
    at += (size_t)snprintf(line + at, sizeof line - at, ".%03ldZ %s%s\n", now.tv_nsec / 1000000, before, text);
    write_line(line, at);
}

/* ---- lines that repeat */

static void say_left_out(struct line_kind *line_kind)
{
    char before[64];
    snprintf(before, sizeof before, "%lu lines like this are left out, the last: ", line_kind->left_out);
    if (line_kind->left_out > 0)
        write_text(before, line_kind->last);
    line_kind->left_out = 0;
}

static void say_left_out_before(time_t second)
{
    if (!some_left_out)
        return;
    some_left_out = false;
    for (struct line_kind *line_kind = line_kinds; line_kind < line_kinds + LINE_KINDS && line_kind->format != NULL; line_kind++)
        if (line_kind->second < second)
            say_left_out(line_kind);
        else
            some_left_out |= line_kind->left_out > 0;
}

void log_counts(void)
{
    say_left_out_before(time(NULL));
}

static void log_end(void)
{
    say_left_out_before(time(NULL) + 2);
}

static struct line_kind *line_kind_of(const char *format)
{
    for (struct line_kind *line_kind = line_kinds; line_kind < line_kinds + LINE_KINDS; line_kind++) {
        if (line_kind->format == NULL)
            line_kind->format = format;
        if (line_kind->format == format)
            return line_kind;
    }
    return NULL;
}

/* Whether a line of a kind is left out: there were enough within this second. */
static bool is_left_out(struct line_kind *line_kind, const char *text)
{
    time_t now = time(NULL);
    if (line_kind->second != now) {
        say_left_out(line_kind);
        line_kind->second = now;
        line_kind->said = 0;
    }
    if (line_kind->said < LINES_A_SECOND) {
        line_kind->said += 1;
        return false;
    }
    memcpy(line_kind->last, text, strlen(text) + 1);
    line_kind->left_out += 1;
    some_left_out = true;
    return true;
}

/* ---- what the host says */

void say(const char *format, ...)
{
    char text[LINE];
    va_list values;
    va_start(values, format);
    vsnprintf(text, sizeof text, format, values);
    va_end(values);
    struct line_kind *line_kind = line_kind_of(format);
    if (line_kind == NULL || !is_left_out(line_kind, text))
        write_text("", text);
}

void say_each(const char *format, ...)
{
    char text[LINE];
    va_list values;
    va_start(values, format);
    vsnprintf(text, sizeof text, format, values);
    va_end(values);
    write_text("", text);
}

void fail(const char *format, ...)
{
    char text[LINE];
    va_list values;
    va_start(values, format);
    vsnprintf(text, sizeof text, format, values);
    va_end(values);
    write_text("error: ", text);
    if (log_file != STDERR_FILENO) { /* whoever has started it is to see it too */
        log_end();
        log_path = NULL;
        log_file = STDERR_FILENO;
        write_text("error: ", text);
    }
    exit(1);
}

void log_open(const char *path)
{
    atexit(log_end);
    log_path = path;
    if (path != NULL && !open_file())
        fail("log %s cannot be opened: %s", path, strerror(errno));
}

void log_reopen(void)
{
    if (log_path != NULL && !open_file())
        say("log %s cannot be opened again: %s", log_path, strerror(errno));
}
