/* The host: up to four line servers over TCP and one tool, around the library's six calls. docs/HOST.md says how they fit together. */
#ifndef HOST_H
#define HOST_H

#include "serifladder.h"

#include <netinet/in.h>
#include <poll.h>
#include <stdbool.h>
#include <stddef.h>
#include <stdint.h>
#include <sys/types.h>

enum {
    PAYLOAD_GREATEST = 8192, /* of a house record that the tool sends or the journal holds */
    RECORD_GREATEST = SERIFLADDER_RECORD_HEADER + PAYLOAD_GREATEST,
    SETTINGS_RECORD = SERIFLADDER_RECORD_HEADER + 33,
    NAME_LENGTH = 25,          /* of a controller's name and of an identifier */
    CODE_LENGTH = 4,           /* of an alarm's error code */
    TIME_LENGTH = 19,
    WAITING_GREATEST = 65536,  /* so many bytes may wait for a peer that does not read */
    TOOL_CONNECTIONS = 8,      /* so many at once; a further one waits */
    LINKS_POLLED = 1 + SERIFLADDER_SESSIONS,
    TOOL_POLLED = 1 + TOOL_CONNECTIONS,
    STATUS_POLLED = 1
};

/* ---- log.c: the log, on standard error until it is opened */

/* The log goes to a file from now on, or where that is NULL to standard error as before. */
void log_open(const char *path);
void log_reopen(void);

/* Says how many lines of the last second were left out; so it is to be called now and then. */
void log_counts(void);

/* A line with the time before it. Where a format repeats too often within a second, the rest of its lines is counted. */
void say(const char *format, ...) __attribute__((format(printf, 1, 2)));

/* The same for what is lost, of which each has its line, however often it repeats. */
void say_each(const char *format, ...) __attribute__((format(printf, 1, 2)));

/* Says why the host cannot go on, and ends it with status 1. */
_Noreturn void fail(const char *format, ...) __attribute__((format(printf, 1, 2)));

/* ---- signals.c: those that end the host, and SIGHUP */
void signals_catch(void);
int signals_descriptor(void);     /* to be polled: it can be read when a signal has come */
bool signals_end(void);           /* reads what has come: whether the host is to end */
bool signals_reopen(void);        /* whether SIGHUP has come since it was asked last */
const char *signals_ended_by(void);

/* ---- common.c: what several files need */

extern mode_t file_mode; /* of the files that are made */

/* Numbers of `size` bytes, little-endian. */
uint64_t little(const uint8_t *bytes, size_t size);
void put_little(uint8_t *bytes, size_t size, uint64_t number);

/* What a call answers, read from the bytes in which it stands. */
struct answer {
    uint64_t number, consumed, written, taken;
};
struct answer read_answer(const uint8_t bytes[SERIFLADDER_ANSWER_SIZE]);

/* Reads a text that is a decimal number and nothing else, `greatest` at most. */
bool read_number(const char *text, uint64_t greatest, uint64_t *number);

/* The number that decimal digits in a frame stand for, NUMBER_LENGTH of them at most. */
enum { NUMBER_LENGTH = 10 }; /* of a result's number */
unsigned long number_at(const uint8_t *digits, size_t count);

/* The revision of a message or a frame, from its header: 000 and three spaces mean 1. */
unsigned long revision_of(const uint8_t *message);

/* Writes all of it, or answers false with errno. */
bool write_all(int file, const void *bytes, size_t length);

/* Locks a file against other processes; false where another holds it, or it cannot be locked. */
bool lock_file(int file);
const char *why_not_locked(void);

/* The file's name within its folder, and the folder opened (-1 with errno where it cannot be). */
const char *name_in_folder(const char *path);
int open_folder(const char *path);

struct stat;
bool same_file(const struct stat *one, const struct stat *other);

/* Whether two paths are one file, or would be if it were made. */
bool same_place(const char *one, const char *other);

/* Makes a descriptor non-blocking. */
void unblock(int descriptor);

/* The time that has passed, in nanoseconds; no clock that is set alters it. */
enum { MILLISECOND = 1000000, SECOND = 1000000000 };
int64_t now(void);

/* Bytes that wait to be sent, in order. */
struct waiting {
    uint8_t bytes[WAITING_GREATEST];
    size_t length;
};

/* False where they do not fit. */
bool waiting_add(struct waiting *waiting, const void *bytes, size_t length);

/* Sends what is taken now. False with errno where the peer is gone. */
bool waiting_send(struct waiting *waiting, int socket);

/* ---- access.c: modes and groups, as options give them */
bool read_mode(const char *text, mode_t *mode);   /* of octal digits */
bool read_group(const char *text, gid_t *group);  /* of a number, or a name that /etc/group has */

struct socket_access {
    mode_t mode;
    gid_t group; /* NO_GROUP: that of the host */
};
#define NO_GROUP ((gid_t)-1)

/* Binds a socket so that nobody else has access at any time. False with errno where it cannot be. */
struct sockaddr_un;
bool bind_with(int socket, const struct sockaddr_un *address, const struct socket_access *access);

/* ---- door.c: sockets that listen */

struct door {
    const char *whose;
    int socket;    /* -1: none */
    int64_t rests; /* until then nobody is let in: a system that has no descriptor left has none either when it is asked at once again */
};

struct pollfd door_poll(const struct door *door);

/* Takes a connection in, which does not block, and where the address is asked for, its peer's; -1 where there is none that can be kept. */
int door_take(struct door *door, struct sockaddr_in *address);
void door_close(struct door *door);

/* Makes a Unix socket at a path, which is removed when the host ends. Fails where it cannot be made. */
void door_make(struct door *door, const char *path, const struct socket_access *access);

/* ---- settings.c: the settings file as a settings record, its last number 0 */
void settings_read(const char *path, uint8_t record[SETTINGS_RECORD]);

/* ---- state.c: the file that keeps the last tightening number */

/* Locks and reads the state file. Where it is not there and `fresh` is not NULL, the number is that, and is yet to be kept. */
uint32_t state_open(const char *path, const uint32_t *fresh);

/* Keeps the number: when this returns it has reached the disk, and no other host has the state. */
void state_keep(uint32_t number);

/* CRC-32, as in zip files. */
uint32_t check_sum(const char *bytes, size_t length);

/* ---- serials.c: the names that tools give to their records */

enum { SERIAL_LENGTH = 16 };

/* Reads what is kept beside the state. Tightenings up to the number `given` were given. */
void serials_open(const char *state, uint32_t given);

/* Keeps the answer to a record, on the disk where it has a number (0: it has none); before the number itself is kept. */
void serial_keep(const uint8_t serial[SERIAL_LENGTH], uint32_t number, uint64_t taken);

/* Whether a record of that name was done, and what the answer was. */
bool serial_known(const uint8_t serial[SERIAL_LENGTH], uint32_t *number, uint64_t *taken);

/* ---- journal.c: every call as house records, as the program serifladder-replay reads them */

/* The kinds besides those of the library; a session's number is added. */
enum { JOURNAL_OPEN = 16, JOURNAL_HANG_UP = 32, JOURNAL_BYTES = 48, JOURNAL_TICK = 64 };

/* A table that is kept has a line behind it with the number of its map. The first map was of 16 KiB; the second had no lanes of alarms;
   both were kept without a line. In the third each session had its own copy of the results that wait for it. These three had one mark. */
#define TABLE_MAP "map 4\n"
enum { TABLE_MAP_LENGTH = sizeof TABLE_MAP - 1, TABLE_KEPT_SIZE = SERIFLADDER_TABLE_SIZE + TABLE_MAP_LENGTH };

struct journal_options {
    const char *path;
    uint64_t size, keep; /* when a part is full, and how many are kept besides the one that is written */
};

/* Reads what is there of an earlier journal, and leaves it as it is. True where it shows the last tightening number. */
bool journal_find(const struct journal_options *options, uint32_t *last);

/* Goes on with what was found, or begins anew; without this call nothing is journaled. */
void journal_open(void);

/* Before a call: puts a part that is full aside, begins one that was removed anew, and keeps the table beside what begins. */
void journal_prepare(const uint8_t *table);
void journal_record(unsigned record_kind, const uint8_t *payload, size_t length);

/* How many files the journal has, the one that is written included. */
uint64_t journal_parts(void);

/* ---- replaying.c: a journal given to the library again */

struct listener {
    void (*answered)(const struct answer *answer, const uint8_t *output); /* behind each call */
    void (*served)(void);                                                 /* before more is read */
};

/* What there was to read. */
struct replayed {
    uint64_t whole; /* bytes of whole records */
    size_t rest;    /* bytes behind them */
    bool too_long;  /* these are no record's beginning: its length is above PAYLOAD_GREATEST */
    bool failed;    /* it cannot be read, errno says why */
};

/* Makes the calls of a journal over a table, the listener being told of them if there is one. */
struct replayed replay_journal(int file, uint8_t table[SERIFLADDER_TABLE_SIZE], const struct listener *who);

/* Reads a table that was kept, be it by a host from before alarms or before tightenings were kept; false where the file is none. */
bool table_read(int file, uint8_t table[SERIFLADDER_TABLE_SIZE]);
bool table_is_formed(uint8_t table[SERIFLADDER_TABLE_SIZE]);

/* ---- calls.c: the library's calls. Each is settled in this order: number kept, call journaled, output sent */

void call_start(uint8_t settings[SETTINGS_RECORD], uint32_t last);
void call_open(unsigned session);
void call_hang_up(unsigned session);
size_t call_bytes(unsigned session, const uint8_t *bytes, size_t length); /* answers how many were consumed */
void call_tick(void);
struct answer call_record(const uint8_t *serial, const uint8_t *record, size_t length); /* serial: its name, or NULL */

/* The last tightening number that was given. */
uint32_t last_number(void);

/* What a number that a call answers means. */
const char *meaning(uint64_t number);

/* ---- links.c: the TCP connections of the line servers; link s is session s */
void links_listen(const struct sockaddr_in *address); /* takes the address; fails where it is taken */
void links_ready(void);                               /* says it; who has connected meanwhile is let in from now on */
void links_poll(struct pollfd set[LINKS_POLLED]);
int64_t links_heard_again(void); /* when a link is polled again that has brought its share; INT64_MAX where none has */
void links_serve(const struct pollfd set[LINKS_POLLED]);
void links_send(unsigned session, const uint8_t *frame, size_t length);
void links_close(unsigned session);  /* the library has closed the session */
void links_hang_up_failed(void);     /* ends the links that could not be sent to */
void links_end(void);

/* The peer of a link, for the log. */
const char *links_peer(unsigned session);

/* A network that may connect, ADDRESS/BITS; without any, everybody may. False where the text is none, or there are too many. */
bool links_allow(const char *text);
void links_limit(unsigned links_of_an_address);
uint64_t links_refused(void); /* so many were closed at once */
size_t links_waiting(unsigned session); /* so many bytes wait to be sent */

/* ---- sessions.c: what each session is, and the results and alarms that it holds, told from what came and went */

/* What a session is told of and may lose: a result, which its number names, or an alarm, which its code and its time do. */
enum event_kind { RESULT, ALARM, EVENT_KINDS };
struct event {
    enum event_kind kind;
    uint32_t number;
    char code[CODE_LENGTH], time[TIME_LENGTH];
};

/* The alarm that a tool's record brings, from its payload, or that a 0071 tells of. */
struct event alarm_brought(const uint8_t *payload);
struct event alarm_told(const uint8_t *frame);

/* How the log names an event: result 17, or alarm "E404" of 2026-01-31:12:34:56. */
enum { EVENT_TEXT = 40 };
void write_event(char text[EVENT_TEXT], const struct event *event);

/* A session's results, or its alarms. */
enum { HELD_GREATEST = 8 };
struct lane {
    bool subscribed;
    bool acknowledges; /* they are held until they are acknowledged */
    unsigned held;
    struct event events[HELD_GREATEST]; /* that are held, the one that is sent first */
};

struct session_state {
    bool open, started, identifiers; /* the last: subscribed to them */
    struct lane lanes[EVENT_KINDS];
};

struct losses {
    uint64_t not_taken, given_up, dropped;
};

void session_opened(unsigned session);
void session_said(unsigned session, const uint8_t *message, size_t length); /* a message has come; `message` is its beginning */
void session_sent(unsigned session, const uint8_t *frame, size_t length, bool waits); /* waits to be sent, or can't be */
void session_ended(unsigned session, size_t waiting, const char *why); /* so many bytes were not given to the system yet */
void sessions_event(struct event event, uint64_t taken);               /* the tool brought it, and these sessions took it */
void sessions_ticked(void);
void sessions_end(void); /* the host ends, in order or not */
const struct session_state *session_state(unsigned session);
const struct losses *session_losses(enum event_kind kind);

/* The number of a result, from its 0061, of whichever revision. */
unsigned long result_number(const uint8_t *frame);

/* ---- tool.c: house records from a FIFO or over a Unix socket */
void tool_open(const char *path, const struct socket_access *access);
void tool_poll(struct pollfd set[TOOL_POLLED]);
void tool_serve(const struct pollfd set[TOOL_POLLED]);
void tool_tick(void); /* a tick has passed: tools may be silent for too long, and a FIFO may be gone */

/* Gives a record, with its serial or NULL, to the library, says what came of it in the log and in `line`. */
enum { ANSWER_LINE = 80 };
void tool_record(const uint8_t *serial, const uint8_t *record, size_t length, char line[ANSWER_LINE]);
uint64_t tool_refused(void); /* so many records */

/* ---- status.c: a Unix socket that answers with a line of JSON */
void status_open(const char *path, const struct socket_access *access); /* no path: none */
void status_poll(struct pollfd set[STATUS_POLLED]);
void status_serve(const struct pollfd set[STATUS_POLLED]);

/* ---- demo.c: a simulated tool; does one thing each time it is asked */
void demo_step(void);

#endif
