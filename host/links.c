/* The TCP connections of the line servers. Link s carries session s; a link is there exactly when its session is open. */
#include "host.h"

#include <arpa/inet.h>
#include <ctype.h>
#include <errno.h>
#include <netinet/tcp.h>
#include <stdio.h>
#include <string.h>
#include <sys/socket.h>
#include <unistd.h>

enum {
    RECEIVED_AT_ONCE = 8192,
    RUNS_AT_ONCE = 16,        /* of a link in a turn: what else has come waits for the next */
    BYTES_A_SECOND = 262144,  /* so much may come over a link; */
    BYTES_OF_A_CALL = 64,     /* a call counts as so many more, since a run of no bytes costs one too */
    HEADER = 20,              /* bytes of the shortest message */
    OLD_NUMBER = HEADER + 2,  /* where a 0065 has the result's number */
    RUN_KEPT = 45,            /* so many bytes of a run are kept, for the log */
    TOO_LONG = 10000,         /* a run of so many bytes is no message */
    TOO_LONG_GREATEST = 5,    /* so many times that length, with no message between, is too much */
    SYSTEM_ROOM = 16384,      /* so much the system keeps to be sent, so that it shows soon who does not read, */
    SYSTEM_HEARD = 65536      /* and so much that has come and waits to be heard */
};

#define NOT_KEPT "15" /* the error of a 0064 whose number, ten digits, is not kept */

static struct link {
    int socket; /* -1: no link */
    char peer[INET_ADDRSTRLEN + 8];
    in_addr_t address;
    uint8_t run[RUN_KEPT]; /* the beginning of the run that is being received, or has ended last */
    size_t run_length;
    bool ended;
    unsigned overlong;  /* how many times TOO_LONG bytes came without a NUL since the last message */
    const char *failed; /* why it is to be hung up */
    int64_t paid;       /* up to when its time is used up by what came; it stays so for the next link of the session */
    struct waiting waiting;
} links[SERIFLADDER_SESSIONS];

static struct door door = { .whose = "links" };

static void write_address(char text[INET_ADDRSTRLEN + 8], const struct sockaddr_in *address)
{
    char host[INET_ADDRSTRLEN];
    inet_ntop(AF_INET, &address->sin_addr, host, sizeof host);
    snprintf(text, INET_ADDRSTRLEN + 8, "%s:%u", host, ntohs(address->sin_port));
}

static _Noreturn void cannot_listen(const struct sockaddr_in *address)
{
    const char *why = strerror(errno);
    char text[INET_ADDRSTRLEN + 8];
    write_address(text, address);
    fail("cannot listen on %s: %s", text, why);
}

void links_listen(const struct sockaddr_in *address)
{
    int on = 1, heard = SYSTEM_HEARD;
    for (unsigned s = 0; s < SERIFLADDER_SESSIONS; s++)
        links[s].socket = -1;
    door.socket = socket(AF_INET, SOCK_STREAM, 0);
    if (door.socket < 0 || setsockopt(door.socket, SOL_SOCKET, SO_REUSEADDR, &on, sizeof on) != 0
        || setsockopt(door.socket, SOL_SOCKET, SO_RCVBUF, &heard, sizeof heard) != 0
        || bind(door.socket, (const struct sockaddr *)address, sizeof *address) != 0 || listen(door.socket, SOMAXCONN) != 0)
        cannot_listen(address);
    unblock(door.socket);
}

void links_ready(void)
{
    struct sockaddr_in address = { .sin_family = AF_INET };
    socklen_t size = sizeof address;
    char text[INET_ADDRSTRLEN + 8];
    if (getsockname(door.socket, (struct sockaddr *)&address, &size) != 0)
        cannot_listen(&address);
    write_address(text, &address);
    say("listening on %s", text);
}

const char *links_peer(unsigned session)
{
    return links[session].peer;
}

/* ---- ends */

static void close_link(struct link *link, const char *why)
{
    session_ended((unsigned)(link - links), link->waiting.length, why);
    say("session %td %s closed: %s", link - links, link->peer, why);
    close(link->socket);
    link->socket = -1;
}

/* Ends the link and its session, which is open still. */
static void hang_up(struct link *link, const char *why)
{
    link->failed = NULL;
    call_hang_up((unsigned)(link - links));
    close_link(link, why);
}

void links_close(unsigned session)
{
    close_link(&links[session], "idle for 15 ticks");
}

void links_hang_up_failed(void)
{
    for (unsigned s = 0; s < SERIFLADDER_SESSIONS; s++)
        if (links[s].socket >= 0 && links[s].failed != NULL)
            hang_up(&links[s], links[s].failed);
}

void links_end(void)
{
    for (unsigned s = 0; s < SERIFLADDER_SESSIONS; s++)
        if (links[s].socket >= 0)
            hang_up(&links[s], "the host ends");
    door_close(&door);
}

/* ---- sending */

static void send_waiting(struct link *link)
{
    if (!waiting_send(&link->waiting, link->socket))
        link->failed = strerror(errno);
}

static void write_alarm(char *text, size_t size, const uint8_t *frame)
{
    char name[EVENT_TEXT];
    struct event alarm = alarm_told(frame);
    write_event(name, &alarm);
    snprintf(text, size, " %s", name);
}

/* A line for a frame: of a 0004 with the message and its error, and with the number of a 0064 that is not kept, of a 0005 with the message,
   and with the text of a 0050, of a 0061 and a 0065 with the result's number, of a 0071 with the alarm. */
static void say_sent(const struct link *link, const uint8_t *frame)
{
    const char *text = (const char *)frame, *data = text + HEADER;
    char more[80] = "";
    if (memcmp(text + 4, "0004", 4) == 0 && memcmp(data + 4, NOT_KEPT, 2) == 0)
        snprintf(more, sizeof more, " to %.4s, error %.2s, number %lu", data, data + 4, number_at(link->run + HEADER, NUMBER_LENGTH));
    else if (memcmp(text + 4, "0004", 4) == 0)
        snprintf(more, sizeof more, " to %.4s, error %.2s", data, data + 4);
    else if (memcmp(text + 4, "0005", 4) == 0 && memcmp(data, "0050", 4) == 0)
        snprintf(more, sizeof more, " to %.4s \"%.*s\"", data, (int)(link->run_length - HEADER), (const char *)link->run + HEADER);
    else if (memcmp(text + 4, "0005", 4) == 0)
        snprintf(more, sizeof more, " to %.4s", data);
    else if (memcmp(text + 4, "0061", 4) == 0)
        snprintf(more, sizeof more, " number %lu", result_number(frame));
    else if (memcmp(text + 4, "0065", 4) == 0)
        snprintf(more, sizeof more, " old result, number %lu", number_at(frame + OLD_NUMBER, NUMBER_LENGTH));
    else if (memcmp(text + 4, "0071", 4) == 0)
        write_alarm(more, sizeof more, frame);
    say("session %td %s > %.4s%s", link - links, link->peer, text + 4, more);
}

void links_send(unsigned session, const uint8_t *frame, size_t length)
{
    struct link *link = &links[session];
    bool waits = link->failed == NULL && waiting_add(&link->waiting, frame, length);
    session_sent(session, frame, length, waits);
    if (link->failed != NULL)
        return;
    if (!waits) {
        link->failed = "64 KiB wait for it, and it does not read";
        return;
    }
    say_sent(link, frame);
    send_waiting(link);
}

/* ---- receiving */

static bool are_digits(const uint8_t *bytes, size_t count)
{
    while (count > 0 && isdigit(bytes[count - 1]))
        count--;
    return count == 0;
}

/* Whether the run that has ended is a message, by the header rule of document 01. */
static bool is_message(const struct link *link)
{
    char length[5];
    snprintf(length, sizeof length, "%04zu", link->run_length % TOO_LONG);
    return link->run_length >= HEADER && link->run_length < TOO_LONG && memcmp(link->run, length, 4) == 0 && are_digits(link->run + 4, 4)
           && (are_digits(link->run + 8, 3) || memcmp(link->run + 8, "   ", 3) == 0) && memchr("01 ", link->run[11], 3) != NULL;
}

/* A line for a message, with its revision where that is not 1. */
static void say_received(const struct link *link)
{
    char more[24] = "";
    if (revision_of(link->run) > 1)
        snprintf(more, sizeof more, " revision %lu", revision_of(link->run));
    say("session %td %s < %.4s%s", link - links, link->peer, (const char *)link->run + 4, more);
}

/* Keeps of the run what the next call will consume, and says which message ends with it; nothing where none ends. */
static void note_received(struct link *link, const uint8_t *bytes, size_t length)
{
    const uint8_t *nul = memchr(bytes, 0, length);
    size_t more = nul == NULL ? length : (size_t)(nul - bytes);
    if (link->ended)
        link->run_length = 0;
    for (size_t i = 0; i < more && link->run_length + i < RUN_KEPT; i++)
        link->run[link->run_length + i] = bytes[i];
    link->overlong += (unsigned)((link->run_length % TOO_LONG + more) / TOO_LONG);
    link->run_length += more;
    link->ended = nul != NULL;
    if (link->overlong >= TOO_LONG_GREATEST)
        link->failed = "it sends runs that are too long again and again";
    if (!link->ended)
        return;
    if (is_message(link)) {
        link->overlong = 0;
        session_said((unsigned)(link - links), link->run, link->run_length);
        say_received(link);
    } else {
        say("session %td %s < no message, %zu bytes", link - links, link->peer, link->run_length);
    }
}

/* How many of the bytes are the link's share of a turn. */
static size_t share_of(const uint8_t *bytes, size_t length)
{
    size_t share = 0;
    for (unsigned runs = 0; runs < RUNS_AT_ONCE && share < length; runs++) {
        const uint8_t *nul = memchr(bytes + share, 0, length - share);
        share = nul == NULL ? length : (size_t)(nul - bytes) + 1;
    }
    return share;
}

/* The time that a second's share of bytes allows for so many. */
static int64_t time_for(size_t bytes)
{
    return (int64_t)bytes * SECOND / BYTES_A_SECOND;
}

static bool may_be_heard(const struct link *link)
{
    return link->paid - now() < SECOND;
}

/* Takes the link's share of a turn; what else has come stays with the system, and so does all of it while a second's share is used up. */
static void receive(struct link *link)
{
    uint8_t bytes[RECEIVED_AT_ONCE];
    ssize_t length = recv(link->socket, bytes, sizeof bytes, MSG_PEEK);
    if (length > 0)
        length = recv(link->socket, bytes, share_of(bytes, (size_t)length), 0);
    if (length < 0 && (errno == EAGAIN || errno == EWOULDBLOCK || errno == EINTR))
        return;
    if (length <= 0) {
        hang_up(link, length == 0 ? "the peer left" : strerror(errno));
        return;
    }
    if (link->paid < now())
        link->paid = now();
    for (size_t at = 0; at < (size_t)length && link->socket >= 0;) {
        note_received(link, bytes + at, (size_t)length - at);
        size_t consumed = call_bytes((unsigned)(link - links), bytes + at, (size_t)length - at);
        link->paid += time_for(consumed + BYTES_OF_A_CALL);
        at += consumed;
    }
}

/* ---- the door */

enum { ALLOWED_GREATEST = 32 };
static struct {
    in_addr_t address, mask;
} allowed[ALLOWED_GREATEST];
static unsigned allowed_count, of_an_address = SERIFLADDER_SESSIONS;
static uint64_t refused;

bool links_allow(const char *text)
{
    const char *slash = strchr(text, '/');
    char host[INET_ADDRSTRLEN] = "";
    struct in_addr address;
    uint64_t bits;
    if (allowed_count == ALLOWED_GREATEST || slash == NULL || (size_t)(slash - text) >= sizeof host)
        return false;
    memcpy(host, text, (size_t)(slash - text));
    if (inet_pton(AF_INET, host, &address) != 1 || !read_number(slash + 1, 32, &bits))
        return false;
    in_addr_t mask = htonl(bits == 0 ? 0 : UINT32_MAX << (32 - bits));
    allowed[allowed_count].mask = mask;
    allowed[allowed_count++].address = address.s_addr & mask;
    return true;
}

void links_limit(unsigned links_of_an_address)
{
    of_an_address = links_of_an_address;
}

uint64_t links_refused(void)
{
    return refused;
}

size_t links_waiting(unsigned session)
{
    return links[session].waiting.length;
}

/* Why a peer may not have a link; NULL where it may. */
static const char *why_refused(const struct sockaddr_in *peer, bool room)
{
    in_addr_t address = peer->sin_addr.s_addr;
    unsigned i = 0, open = 0;
    while (i < allowed_count && (address & allowed[i].mask) != allowed[i].address)
        i++;
    if (allowed_count > 0 && i == allowed_count)
        return "its address is not allowed";
    if (!room)
        return "all four sessions are taken";
    for (unsigned s = 0; s < SERIFLADDER_SESSIONS; s++)
        open += links[s].socket >= 0 && links[s].address == address;
    return open < of_an_address ? NULL : "its address has as many links as one may have";
}

static void take_in(void)
{
    struct sockaddr_in address;
    char peer[INET_ADDRSTRLEN + 8];
    int on = 1, room = SYSTEM_ROOM, socket = door_take(&door, &address);
    if (socket < 0)
        return;
    write_address(peer, &address);
    unsigned s = 0;
    while (s < SERIFLADDER_SESSIONS && links[s].socket >= 0)
        s++;
    const char *why = why_refused(&address, s < SERIFLADDER_SESSIONS);
    if (why != NULL) {
        say("%s closed: %s", peer, why);
        refused += 1;
        close(socket);
        return;
    }
    setsockopt(socket, IPPROTO_TCP, TCP_NODELAY, &on, sizeof on);
    setsockopt(socket, SOL_SOCKET, SO_SNDBUF, &room, sizeof room);
    struct link *link = &links[s];
    memcpy(link->peer, peer, sizeof peer);
    link->address = address.sin_addr.s_addr;
    link->socket = socket;
    link->run_length = 0;
    link->overlong = 0;
    link->ended = false;
    link->failed = NULL;
    link->waiting.length = 0;
    session_opened(s);
    call_open(s);
    say("session %u %s opened", s, peer);
}

void links_poll(struct pollfd set[LINKS_POLLED])
{
    set[0] = door_poll(&door);
    for (unsigned s = 0; s < SERIFLADDER_SESSIONS; s++) {
        short events = (short)((may_be_heard(&links[s]) ? POLLIN : 0) | (links[s].waiting.length > 0 ? POLLOUT : 0));
        set[1 + s] = (struct pollfd){ .fd = events == 0 ? -1 : links[s].socket, .events = events };
    }
}

int64_t links_heard_again(void)
{
    int64_t first = INT64_MAX;
    for (unsigned s = 0; s < SERIFLADDER_SESSIONS; s++)
        if (links[s].socket >= 0 && !may_be_heard(&links[s]) && links[s].paid - SECOND < first)
            first = links[s].paid - SECOND;
    return first;
}

void links_serve(const struct pollfd set[LINKS_POLLED])
{
    for (unsigned s = 0; s < SERIFLADDER_SESSIONS; s++) {
        if (links[s].socket >= 0 && set[1 + s].revents & POLLOUT)
            send_waiting(&links[s]);
        if (links[s].socket >= 0 && set[1 + s].revents & (POLLIN | POLLHUP | POLLERR))
            receive(&links[s]);
    }
    links_hang_up_failed();
    if (set[0].revents != 0)
        take_in();
}
