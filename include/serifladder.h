/* Serifladder: Open Protocol sessions with line servers, proved. Six calls over bytes that the host lends.

   The library holds no memory, no socket and no clock of its own. The host lends a table, which keeps the four sessions from call to
   call, and the last 64 tightenings, whoever took them, for which a line server may ask by number (0064); and an output, into which a call
   writes what is to be sent. Each line server is told of tightenings in the revision of 0061 that it subscribed to, 1 to 6, of identifiers
   (0052) and of alarms (0071). docs/HOST.md shows how a host drives the calls.

   Messages understood: 0001, 0003, 0050, 0051, 0053, 0054, 0060, 0062, 0063, 0064, 0070, 0072, 0073, 9999.

   What the caller owes:
   - every run of bytes is given as a pointer and its length, and the pointer is valid for that length (for a length of 0 too it is not
     NULL); the runs given to one call do not overlap;
   - between calls only these calls write the table;
   - one call at a time for a table. */
#ifndef SERIFLADDER_H
#define SERIFLADDER_H

#include <stddef.h>
#include <stdint.h>

#define SERIFLADDER_VERSION "1.0"

#ifdef __cplusplus
extern "C" {
#endif

/* Sizes: what is lent has at least so many bytes. Longer runs are taken, and not touched behind them. */
enum {
    SERIFLADDER_TABLE_SIZE = 32768,
    SERIFLADDER_OUTPUT_SIZE = 4096,
    SERIFLADDER_ANSWER_SIZE = 32
};

/* Sessions are numbered from 0. */
enum { SERIFLADDER_SESSIONS = 4 };

/* The numbers that calls answer; the lowest that applies is given. A refused call alters no byte of table and output. */
enum serifladder_number {
    SERIFLADDER_DONE = 0,
    SERIFLADDER_TABLE_SHORT = 1,           /* the table is shorter than SERIFLADDER_TABLE_SIZE */
    SERIFLADDER_TABLE_NOT_WELL_FORMED = 2, /* never after a start that was done, if only these calls write the table */
    SERIFLADDER_OUTPUT_SHORT = 3,          /* the output is shorter than SERIFLADDER_OUTPUT_SIZE */
    SERIFLADDER_SESSION_TOO_HIGH = 4,      /* the session number is above 3 */
    SERIFLADDER_SESSION_CLOSED = 5,        /* bytes or a hang-up for a closed session */
    SERIFLADDER_SESSION_NOT_CLOSED = 6,    /* an open of a session that is not closed */
    SERIFLADDER_TOOL_RECORD_BAD = 7,
    SERIFLADDER_LAST_NUMBER_REACHED = 8,   /* a tightening when the last number is 4,294,967,295 */
    SERIFLADDER_SETTINGS_BAD = 9,
    SERIFLADDER_ANSWER_SHORT = 10          /* the answer is shorter than SERIFLADDER_ANSWER_SIZE: nothing is done */
};

/* The answer: four numbers of 8 bytes, little-endian, at these places. A refused call answers its number, 0, 0, 0. Every call returns the
   first of them too. */
enum {
    SERIFLADDER_ANSWER_NUMBER = 0,
    SERIFLADDER_ANSWER_CONSUMED = 8, /* how many of the received bytes were consumed; 0 but for serifladder_bytes */
    SERIFLADDER_ANSWER_WRITTEN = 16, /* how many bytes of the output were written */
    SERIFLADDER_ANSWER_TAKEN = 24    /* the sum of 2^s over the sessions s that took the event, be it a tightening, an identifier or an
                                        alarm; 0 but for serifladder_record */
};

/* House records: a 2-byte length of the payload, a 2-byte kind, both little-endian, then the payload. */
enum { SERIFLADDER_RECORD_HEADER = 4 };

/* The kinds that go in. */
enum {
    SERIFLADDER_TIGHTENING = 1, /* 106 bytes, for serifladder_record */
    SERIFLADDER_IDENTIFIER = 2, /* 25 bytes, for serifladder_record */
    SERIFLADDER_SETTINGS = 3,   /* 33 bytes, for serifladder_start */
    SERIFLADDER_ALARM = 5       /* 25 bytes, for serifladder_record */
};

/* A limit of a tightening record that was never set. The limits are six: torque minimum, maximum and target, and those of the angle. The
   line servers are told spaces in their place. Torque and angle themselves may not be missing: such a record is bad. */
#define SERIFLADDER_NEVER_SET 4294967295u

/* The kinds that a call writes to the output, one record behind the other, to be carried out in this order. */
enum {
    SERIFLADDER_FRAME = 256, /* 256 + s: send the payload to session s, its NUL included */
    SERIFLADDER_CLOSE = 512  /* 512 + s, no payload: session s is closed, close its link */
};

/* The six calls. Behind each stand the numbers that it may answer besides 0 and 10. */

/* Begins a history with a settings record: all sessions closed, no identifier in force, no tightening kept. Takes any bytes as a table.
   Answers 1, 9. */
uint64_t serifladder_start(uint8_t *table, size_t table_length, const uint8_t *settings, size_t settings_length,
                           uint8_t *answer, size_t answer_length);

/* A line server has connected: the session is opened, not yet started. Answers 1 to 4, 6. */
uint64_t serifladder_open(uint8_t *table, size_t table_length, uint8_t *output, size_t output_length, uint64_t session,
                          uint8_t *answer, size_t answer_length);

/* The link is gone: the session is closed and its notices with it; nothing is written. The tightenings that are kept stay. Answers 1 to
   5. */
uint64_t serifladder_hang_up(uint8_t *table, size_t table_length, uint8_t *output, size_t output_length, uint64_t session,
                             uint8_t *answer, size_t answer_length);

/* Bytes were received. One call consumes through the first NUL, or all where there is none; the rest is given again from there.
   Answers 1 to 5. */
uint64_t serifladder_bytes(uint8_t *table, size_t table_length, uint8_t *output, size_t output_length, uint64_t session,
                           const uint8_t *bytes, size_t bytes_length, uint8_t *answer, size_t answer_length);

/* A second has passed. Answers 1 to 3. */
uint64_t serifladder_tick(uint8_t *table, size_t table_length, uint8_t *output, size_t output_length,
                          uint8_t *answer, size_t answer_length);

/* The tool says a tightening, an identifier or an alarm: exactly one house record. A tightening that is done has the next number, and is
   kept under it. An alarm has no number and is not kept, nor does it alter the identifier in force. Answers 1 to 3, 7, 8. */
uint64_t serifladder_record(uint8_t *table, size_t table_length, uint8_t *output, size_t output_length,
                            const uint8_t *record, size_t record_length, uint8_t *answer, size_t answer_length);

#ifdef __cplusplus
}
#endif

#endif
