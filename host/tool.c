/* The tool: house records over a Unix stream socket, a line back for each, or from a FIFO, which takes no answers. */
#include "host.h"

#include <errno.h>
#include <fcntl.h>
#include <stdio.h>
#include <stdlib.h>
#include <string.h>
#include <sys/socket.h>
#include <sys/stat.h>
#include <unistd.h>

enum {
    FIFO_READS = 130, /* at once, of RECORD_GREATEST bytes: more than the largest FIFO holds, 1 MiB */
    WITH_SERIAL = 4,  /* the kind of a record that has a serial in front of another record */
    SILENT = 15       /* a tool that said nothing for so many ticks gives its place up where another waits for one */
};

/* Where records come from: the FIFO, or one connection. */
static struct source {
    int descriptor; /* -1: none */
    uint8_t record[RECORD_GREATEST]; /* the one that is coming in */
    size_t length;                   /* so many bytes of it are there */
    bool skipping;                   /* what still comes cannot be told apart into records */
    bool ended;                      /* nothing comes any more, but answers wait */
    unsigned silent;                 /* for so many ticks nothing came */
    struct waiting answers;
} sources[TOOL_CONNECTIONS];

static const char *tool_path;
static bool fifo;
static uint64_t refused; /* records */
static bool missing; /* the FIFO is not where it was; it is looked for at each tick */
static struct door door = { .whose = "tool", .socket = -1 };

/* ---- a record */

enum { TAKEN_TEXT = 24 };

static void write_taken(char text[TAKEN_TEXT], uint64_t taken)
{
    int at = snprintf(text, TAKEN_TEXT, "taken by%s", taken == 0 ? " none" : "");
    for (unsigned s = 0; s < SERIFLADDER_SESSIONS; s++)
        if (taken >> s & 1)
            at += snprintf(text + at, TAKEN_TEXT - (size_t)at, " %u", s);
}

/* The answer to a record that is done; number 0: it has none. */
static void write_done(char line[ANSWER_LINE], uint64_t taken, uint32_t number)
{
    char text[TAKEN_TEXT];
    write_taken(text, taken);
    int at = snprintf(line, ANSWER_LINE, "%u %s, %s", SERIFLADDER_DONE, meaning(SERIFLADDER_DONE), text);
    if (number > 0)
        snprintf(line + at, ANSWER_LINE - (size_t)at, ", number %u", number);
}

static void say_alarm(const uint8_t *payload, const char *taken)
{
    enum { CONTROLLER_READY = CODE_LENGTH, TOOL_READY };
    char text[EVENT_TEXT];
    struct event alarm = alarm_brought(payload);
    write_event(text, &alarm);
    say("tool: %s, controller %sready, tool %sready, %s", text, payload[CONTROLLER_READY] ? "" : "not ", payload[TOOL_READY] ? "" : "not ",
        taken);
}

static void say_identifier(const char *text, size_t size, const char *taken)
{
    while (size > 0 && text[size - 1] == ' ')
        size--;
    say("tool: identifier \"%.*s\", %s", (int)size, text, taken);
}

void tool_record(const uint8_t *serial, const uint8_t *record, size_t length, char line[ANSWER_LINE])
{
    char taken[TAKEN_TEXT];
    const uint8_t *payload = record + SERIFLADDER_RECORD_HEADER;
    unsigned record_kind = (unsigned)little(record + 2, 2);
    struct answer answer = call_record(serial, record, length);
    if (answer.number != SERIFLADDER_DONE) {
        snprintf(line, ANSWER_LINE, "%u %s", (unsigned)answer.number, meaning(answer.number));
        say("tool: refused, %s", line);
        refused += 1;
        return;
    }
    bool numbered = record_kind == SERIFLADDER_TIGHTENING;
    write_taken(taken, answer.taken);
    write_done(line, answer.taken, numbered ? last_number() : 0);
    if (numbered)
        say("tool: tightening %u, %s", last_number(), taken);
    else if (record_kind == SERIFLADDER_ALARM)
        say_alarm(payload, taken);
    else
        say_identifier((const char *)payload, length - SERIFLADDER_RECORD_HEADER, taken);
}

uint64_t tool_refused(void)
{
    return refused;
}

/* Takes a record that may have a serial in front of it. Anything else of that kind is a bad record, which the library refuses. */
static void take_record(const uint8_t *record, size_t length, char line[ANSWER_LINE])
{
    const size_t before = SERIFLADDER_RECORD_HEADER + SERIAL_LENGTH;
    const uint8_t *serial = NULL;
    uint32_t number;
    uint64_t taken;
    if (little(record + 2, 2) == WITH_SERIAL && length >= before + SERIFLADDER_RECORD_HEADER
        && little(record + before, 2) == length - before - SERIFLADDER_RECORD_HEADER) {
        serial = record + SERIFLADDER_RECORD_HEADER;
        record += before;
        length -= before;
    }
    if (serial != NULL && serial_known(serial, &number, &taken)) {
        write_done(line, taken, number);
        say("tool: a record came again, answered as before: %s", line);
    } else {
        tool_record(serial, record, length, line);
    }
}

/* ---- a source */

static void close_source(struct source *source)
{
    close(source->descriptor);
    source->descriptor = -1;
}

static void begin_source(struct source *source, int descriptor)
{
    unblock(descriptor);
    source->descriptor = descriptor;
    source->length = 0;
    source->silent = 0;
    source->skipping = source->ended = false;
    source->answers.length = 0;
}

static void answer_line(struct source *source, const char *line)
{
    if (fifo)
        return;
    waiting_add(&source->answers, line, strlen(line)); /* there is room: a record is read only where no answer waits */
    waiting_add(&source->answers, "\n", 1);
}

/* Opens the FIFO; answers why it cannot be, or NULL. */
static const char *open_fifo(void)
{
    struct stat found;
    int descriptor = open(tool_path, O_RDONLY | O_NONBLOCK | O_CLOEXEC);
    if (descriptor < 0)
        return strerror(errno);
    if (fstat(descriptor, &found) != 0 || !S_ISFIFO(found.st_mode)) {
        close(descriptor);
        return "it is no FIFO any more";
    }
    begin_source(&sources[0], descriptor);
    return NULL;
}

/* Opens the FIFO anew, and only then closes it as it was open before. Where it is not there, that is said once. */
static void open_fifo_again(void)
{
    int before = sources[0].descriptor;
    sources[0].descriptor = -1;
    const char *why = open_fifo();
    if (why != NULL && !missing)
        say("tool %s cannot be opened: %s; it is looked for at each tick", tool_path, why);
    if (why == NULL && missing)
        say("tool %s is there again", tool_path);
    missing = why != NULL;
    if (before >= 0)
        close(before);
}

/* Whether another file stands where the FIFO was that is open, or none. */
static bool fifo_replaced(void)
{
    struct stat opened, found;
    return fstat(sources[0].descriptor, &opened) == 0
           && (stat(tool_path, &found) != 0 || found.st_dev != opened.st_dev || found.st_ino != opened.st_ino);
}

/* The writers of the FIFO have left, or the peer of a connection sends no more. */
static void end_source(struct source *source)
{
    if (source->length > 0 && !source->skipping) {
        say("tool: record cut after %zu bytes", source->length);
        answer_line(source, "record cut");
    }
    if (fifo && source->skipping)
        say("tool: the FIFO has no writer any more; what comes next is read");
    if (fifo)
        open_fifo_again();
    else
        source->ended = true;
}

/* Reads what is missing of one record, or some of what is skipped. Answers whether the source stands within a record then. */
static bool receive(struct source *source)
{
    size_t whole = SERIFLADDER_RECORD_HEADER;
    char line[ANSWER_LINE];
    if (source->skipping)
        source->length = 0;
    if (source->length >= SERIFLADDER_RECORD_HEADER)
        whole += (size_t)little(source->record, 2);
    ssize_t got = read(source->descriptor, source->record + source->length, source->skipping ? RECORD_GREATEST : whole - source->length);
    if (got < 0 && (errno == EAGAIN || errno == EWOULDBLOCK || errno == EINTR))
        return false;
    if (got <= 0) {
        end_source(source);
        return false;
    }
    source->silent = 0;
    source->length += (size_t)got;
    if (source->skipping || source->length < SERIFLADDER_RECORD_HEADER)
        return true;
    whole = SERIFLADDER_RECORD_HEADER + (size_t)little(source->record, 2);
    if (whole > RECORD_GREATEST) {
        say("tool: record too long, %zu bytes; what follows it is not read", whole - SERIFLADDER_RECORD_HEADER);
        answer_line(source, "record too long");
        source->skipping = true;
    } else if (source->length == whole) {
        take_record(source->record, whole, line);
        answer_line(source, line);
        source->length = 0;
        return false;
    }
    return true;
}

/* Within a record a FIFO is read on to where nothing is there, or to the end: poll does not tell the end of a writer that came and went
   before the FIFO was opened anew, and what it left must not be taken for the beginning of the next one's record. */
static void receive_fifo(struct source *source)
{
    unsigned reads = 0;
    while (receive(source) && ++reads < FIFO_READS)
        ;
}

/* Sends the answers. A tool that has left takes none, but the records that it sent are still read. Behind the last answer the connection
   is closed where nothing comes any more, or nothing that can be told apart into records: it must not keep its place from other tools. */
static void send_answers(struct source *source)
{
    if (!waiting_send(&source->answers, source->descriptor))
        source->answers.length = 0;
    if (source->answers.length == 0 && (source->ended || source->skipping))
        close_source(source);
}

/* ---- the door */

void tool_open(const char *path, const struct socket_access *access)
{
    struct stat found;
    tool_path = path;
    for (unsigned i = 0; i < TOOL_CONNECTIONS; i++)
        sources[i].descriptor = -1;
    if (path == NULL)
        return;
    fifo = stat(path, &found) == 0 && S_ISFIFO(found.st_mode);
    if (fifo) {
        const char *why = open_fifo();
        if (why != NULL)
            fail("tool %s cannot be opened: %s", path, why);
        return;
    }
    if (stat(path, &found) == 0 && !S_ISSOCK(found.st_mode))
        fail("tool %s is neither a FIFO nor a socket", path);
    door_make(&door, path, access);
}

static struct source *free_source(void)
{
    for (unsigned i = 0; i < TOOL_CONNECTIONS; i++)
        if (sources[i].descriptor < 0)
            return &sources[i];
    return NULL;
}

/* The one that has been silent longest, where that is too long; NULL where none has been. */
static struct source *silent_source(void)
{
    struct source *most = &sources[0];
    for (unsigned i = 1; i < TOOL_CONNECTIONS; i++)
        if (sources[i].silent > most->silent)
            most = &sources[i];
    return most->silent < SILENT ? NULL : most;
}

static void take_in(void)
{
    int descriptor = door_take(&door, NULL);
    struct source *source = free_source();
    if (descriptor < 0)
        return;
    if (source == NULL) {
        source = silent_source();
        say("tool: a connection that was silent for %u ticks is closed, after %zu bytes of a record: another needs its place",
            source->silent, source->length);
        close_source(source);
    }
    begin_source(source, descriptor);
}

void tool_poll(struct pollfd set[TOOL_POLLED])
{
    set[0] = free_source() == NULL && silent_source() == NULL ? (struct pollfd){ .fd = -1 } : door_poll(&door);
    for (unsigned i = 0; i < TOOL_CONNECTIONS; i++) {
        struct source *source = &sources[i];
        short events = source->answers.length > 0 ? POLLOUT : source->ended ? 0 : POLLIN;
        set[1 + i] = (struct pollfd){ .fd = source->descriptor, .events = events };
    }
}

void tool_serve(const struct pollfd set[TOOL_POLLED])
{
    for (unsigned i = 0; i < TOOL_CONNECTIONS; i++) {
        struct source *source = &sources[i];
        if (source->descriptor < 0 || set[1 + i].revents == 0)
            continue;
        if (fifo) {
            receive_fifo(source);
            continue;
        }
        if (source->answers.length == 0 && !source->ended)
            receive(source);
        send_answers(source);
    }
    if (set[0].revents != 0 && (free_source() != NULL || silent_source() != NULL))
        take_in();
}

void tool_tick(void)
{
    for (unsigned i = 0; i < TOOL_CONNECTIONS; i++)
        sources[i].silent += sources[i].descriptor >= 0;
    if (!fifo)
        return;
    if (missing)
        open_fifo_again();
    else if (fifo_replaced())
        receive_fifo(&sources[0]); /* where it has no writer, it is at its end, and opened anew */
}
