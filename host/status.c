/* The status: a Unix socket that answers each connection with one line of JSON, and closes it. */
#include "host.h"

#include <inttypes.h>
#include <stdarg.h>
#include <stdio.h>
#include <string.h>
#include <sys/socket.h>
#include <unistd.h>

static struct door door = { .whose = "status", .socket = -1 };
static int64_t began;

/* The line, as it is filled from its front. */
static struct {
    char text[4096];
    size_t length;
} line;

static void add(const char *format, ...) __attribute__((format(printf, 1, 2)));

static void add(const char *format, ...)
{
    va_list values;
    va_start(values, format);
    int size = vsnprintf(line.text + line.length, sizeof line.text - line.length, format, values);
    va_end(values);
    if (size > 0 && (size_t)size < sizeof line.text - line.length)
        line.length += (size_t)size;
}

static const char *truth(bool value)
{
    return value ? "true" : "false";
}

/* A text in its quotation marks; what JSON does not take in one as it is has a backslash before it. */
static void add_text(const char *text, size_t length)
{
    add("\"");
    for (size_t i = 0; i < length; i++)
        add("%s%c", strchr("\"\\", text[i]) == NULL ? "" : "\\", text[i]);
    add("\"");
}

static void add_session(unsigned s)
{
    const struct session_state *state = session_state(s);
    const struct lane *results = &state->lanes[RESULT], *alarms = &state->lanes[ALARM];
    if (!state->open) {
        add("{\"session\":%u,\"phase\":\"closed\"}", s);
        return;
    }
    add("{\"session\":%u,\"phase\":\"%s\",\"peer\":\"%s\"", s, state->started ? "started" : "opened", links_peer(s));
    add(",\"identifiers\":%s,\"results\":%s", truth(state->identifiers), truth(results->subscribed));
    add(",\"acknowledges\":%s", truth(results->acknowledges));
    add(",\"held\":[");
    for (unsigned i = 0; i < results->held; i++)
        add("%s%" PRIu32, i == 0 ? "" : ",", results->events[i].number);
    add("],\"alarms\":%s,\"acknowledges_alarms\":%s", truth(alarms->subscribed), truth(alarms->acknowledges));
    add(",\"held_alarms\":[");
    for (unsigned i = 0; i < alarms->held; i++) {
        add("%s", i == 0 ? "" : ",");
        add_text(alarms->events[i].code, CODE_LENGTH);
    }
    add("],\"bytes_waiting\":%zu}", links_waiting(s));
}

static void add_losses(const char *of, const struct losses *losses)
{
    add(",\"%s_not_taken\":%" PRIu64 ",\"%s_given_up\":%" PRIu64, of, losses->not_taken, of, losses->given_up);
    add(",\"%s_dropped\":%" PRIu64, of, losses->dropped);
}

static void fill_line(void)
{
    line.length = 0;
    add("{\"last_number\":%" PRIu32 ",\"uptime_seconds\":%" PRId64 ",\"sessions\":[", last_number(), (now() - began) / SECOND);
    for (unsigned s = 0; s < SERIFLADDER_SESSIONS; s++) {
        add("%s", s == 0 ? "" : ",");
        add_session(s);
    }
    add("]");
    add_losses("results", session_losses(RESULT));
    add_losses("alarms", session_losses(ALARM));
    add(",\"links_refused\":%" PRIu64 ",\"tool_records_refused\":%" PRIu64, links_refused(), tool_refused());
    add(",\"journal_parts\":%" PRIu64 "}\n", journal_parts());
}

void status_open(const char *path, const struct socket_access *access)
{
    began = now();
    if (path != NULL)
        door_make(&door, path, access);
}

void status_poll(struct pollfd set[STATUS_POLLED])
{
    set[0] = door_poll(&door);
}

/* What is sent finds room in the system's own buffer, which is empty: nobody is waited for. */
void status_serve(const struct pollfd set[STATUS_POLLED])
{
    int taken = set[0].revents == 0 ? -1 : door_take(&door, NULL);
    if (taken < 0)
        return;
    fill_line();
    send(taken, line.text, line.length, MSG_NOSIGNAL);
    close(taken);
}
