/* What each session is, and the results and alarms that it holds, as the host can tell from what came and went (docs/HOST.md says how). The
   library holds the same; here it is kept so that the log has a line for each that is lost, and for the status. */
#include "host.h"

#include <stdio.h>
#include <string.h>

enum {
    GIVEN_UP = 120,       /* so many ticks after a notice was first sent it is given up */
    MESSAGE_LENGTH = 20,  /* of an acknowledge that counts */
    DATA = 20,            /* where a frame's data field begins */
    NOTICE_SHORTEST = 54, /* of the frames that may be lost the shortest, a 0071, its NUL included */
    UNSENT_GREATEST = WAITING_GREATEST / NOTICE_SHORTEST + 1
};

/* Of results and of alarms: their messages, and how many a session takes before they are acknowledged. */
static const struct {
    unsigned subscribes, tells, acknowledges, unsubscribes;
    unsigned held_greatest;
    const char *why_not_taken;
} KINDS[EVENT_KINDS] = {
    [RESULT] = { 60, 61, 62, 63, HELD_GREATEST, "eight are held for it" },
    [ALARM] = { 70, 71, 72, 73, 4, "four are held for it" },
};

static struct session {
    struct session_state state;
    char byte_12;                 /* of the message that came last: a 1 asks for no acknowledge */
    unsigned clocks[EVENT_KINDS]; /* so many ticks have passed since the first of a kind that is held was first sent */

    /* Where no acknowledge is asked for: what was sent last, and how many bytes had been given to the link with each. */
    struct {
        struct event event;
        uint64_t end;
    } sent[UNSENT_GREATEST];
    uint64_t sent_count, given;
} sessions[SERIFLADDER_SESSIONS];

static struct losses losses[EVENT_KINDS];

const struct session_state *session_state(unsigned session)
{
    return &sessions[session].state;
}

const struct losses *session_losses(enum event_kind kind)
{
    return &losses[kind];
}

/* ---- events */

static struct event alarm(const uint8_t *code, const uint8_t *time)
{
    struct event event = { .kind = ALARM };
    memcpy(event.code, code, CODE_LENGTH);
    memcpy(event.time, time, TIME_LENGTH);
    return event;
}

struct event alarm_brought(const uint8_t *payload)
{
    enum { TIME = CODE_LENGTH + 2 };
    return alarm(payload, payload + TIME);
}

/* Two digits stand before each of its fields. */
struct event alarm_told(const uint8_t *frame)
{
    enum { CODE = DATA + 2, TIME = 34 };
    return alarm(frame + CODE, frame + TIME);
}

/* It stands at the end of a 0061 of revision 1; from revision 2 on it is field 41, and more stands behind it. */
unsigned long result_number(const uint8_t *frame)
{
    enum { OF_REVISION_1 = 221, OF_LATER_REVISIONS = 303 };
    return number_at(frame + (revision_of(frame) == 1 ? OF_REVISION_1 : OF_LATER_REVISIONS), NUMBER_LENGTH);
}

static struct event told(enum event_kind kind, const uint8_t *frame)
{
    return kind == ALARM ? alarm_told(frame) : (struct event){ .kind = RESULT, .number = (uint32_t)result_number(frame) };
}

void write_event(char text[EVENT_TEXT], const struct event *event)
{
    if (event->kind == ALARM)
        snprintf(text, EVENT_TEXT, "alarm \"%.*s\" of %.*s", CODE_LENGTH, event->code, TIME_LENGTH, event->time);
    else
        snprintf(text, EVENT_TEXT, "result %u", event->number);
}

/* ---- what is lost */

static void say_lost(unsigned session, const struct event *event, const char *how, const char *why)
{
    char text[EVENT_TEXT];
    write_event(text, event);
    say_each("session %u %s: %s %s: %s", session, links_peer(session), text, how, why);
}

/* Each of a kind that is held is dropped, with a line. */
static void drop_held(unsigned s, enum event_kind kind, const char *why)
{
    struct lane *lane = &sessions[s].state.lanes[kind];
    for (unsigned i = 0; i < lane->held; i++)
        say_lost(s, &lane->events[i], i == 0 ? "dropped, sent but not acknowledged" : "dropped, not sent", why);
    losses[kind].dropped += lane->held;
    lane->held = 0;
}

static void drop_all_held(unsigned s, const char *why)
{
    for (enum event_kind kind = 0; kind < EVENT_KINDS; kind++)
        drop_held(s, kind, why);
}

/* What no acknowledge is asked for and the link has not given to the system whole is dropped, each with a line. */
static void drop_unsent(unsigned s, uint64_t waiting, const char *why)
{
    struct session *session = &sessions[s];
    uint64_t first = session->sent_count < UNSENT_GREATEST ? 0 : session->sent_count - UNSENT_GREATEST;
    for (uint64_t i = first; i < session->sent_count; i++)
        if (session->sent[i % UNSENT_GREATEST].end > session->given - waiting) {
            const struct event *event = &session->sent[i % UNSENT_GREATEST].event;
            say_lost(s, event, "dropped, not sent", why);
            losses[event->kind].dropped += 1;
        }
    session->sent_count = 0;
}

static void drop_first(struct session *session, enum event_kind kind)
{
    struct lane *lane = &session->state.lanes[kind];
    lane->held -= 1;
    memmove(lane->events, lane->events + 1, lane->held * sizeof lane->events[0]);
    session->clocks[kind] = 0;
}

/* ---- what came and went */

void session_opened(unsigned s)
{
    sessions[s] = (struct session){ .state.open = true };
}

void session_ended(unsigned s, size_t waiting, const char *why)
{
    drop_all_held(s, why);
    drop_unsent(s, waiting, why);
    sessions[s].state = (struct session_state){ .open = false };
}

void session_said(unsigned s, const uint8_t *message, size_t length)
{
    sessions[s].byte_12 = (char)message[11];
    for (enum event_kind kind = 0; kind < EVENT_KINDS; kind++)
        if (sessions[s].state.lanes[kind].held > 0 && length == MESSAGE_LENGTH && number_at(message + 4, 4) == KINDS[kind].acknowledges)
            drop_first(&sessions[s], kind);
}

/* The message that is accepted by a 0005. */
static void accepted(unsigned s, unsigned message)
{
    struct session_state *state = &sessions[s].state;
    switch (message) {
    case 3:
        drop_all_held(s, "the session is stopped");
        *state = (struct session_state){ .open = true };
        return;
    case 51:
    case 54:
        state->identifiers = message == 51;
        return;
    }
    for (enum event_kind kind = 0; kind < EVENT_KINDS; kind++) {
        if (message == KINDS[kind].subscribes) {
            state->lanes[kind] = (struct lane){ .subscribed = true, .acknowledges = sessions[s].byte_12 != '1' };
        } else if (message == KINDS[kind].unsubscribes) {
            drop_held(s, kind, "its subscription is ended");
            state->lanes[kind] = (struct lane){ .subscribed = false };
        }
    }
}

/* A notice was sent that no acknowledge is asked for. */
static void keep_sent(struct session *session, struct event event, bool waits)
{
    session->sent[session->sent_count % UNSENT_GREATEST].event = event;
    session->sent[session->sent_count++ % UNSENT_GREATEST].end = waits ? session->given : UINT64_MAX;
}

void session_sent(unsigned s, const uint8_t *frame, size_t length, bool waits)
{
    unsigned long message = number_at(frame + 4, 4);
    sessions[s].given += waits ? length : 0;
    if (message == 2)
        sessions[s].state.started = true;
    if (message == 5)
        accepted(s, (unsigned)number_at(frame + DATA, 4));
    for (enum event_kind kind = 0; kind < EVENT_KINDS; kind++)
        if (message == KINDS[kind].tells && !sessions[s].state.lanes[kind].acknowledges)
            keep_sent(&sessions[s], told(kind, frame), waits);
}

void sessions_event(struct event event, uint64_t taken)
{
    for (unsigned s = 0; s < SERIFLADDER_SESSIONS; s++) {
        struct lane *lane = &sessions[s].state.lanes[event.kind];
        if (!lane->acknowledges)
            continue;
        if (taken >> s & 1 && lane->held < KINDS[event.kind].held_greatest) {
            if (lane->held == 0)
                sessions[s].clocks[event.kind] = 0;
            lane->events[lane->held++] = event;
        } else {
            say_lost(s, &event, "not taken", KINDS[event.kind].why_not_taken);
            losses[event.kind].not_taken += 1;
        }
    }
}

void sessions_end(void)
{
    for (unsigned s = 0; s < SERIFLADDER_SESSIONS; s++)
        drop_all_held(s, "the host ends");
}

static void lane_ticked(unsigned s, enum event_kind kind)
{
    struct lane *lane = &sessions[s].state.lanes[kind];
    if (lane->held > 0 && ++sessions[s].clocks[kind] == GIVEN_UP) {
        say_lost(s, &lane->events[0], "given up", "it was not acknowledged in 120 ticks");
        losses[kind].given_up += 1;
        drop_first(&sessions[s], kind);
    }
}

void sessions_ticked(void)
{
    for (unsigned s = 0; s < SERIFLADDER_SESSIONS; s++)
        for (enum event_kind kind = 0; kind < EVENT_KINDS; kind++)
            lane_ticked(s, kind);
}
