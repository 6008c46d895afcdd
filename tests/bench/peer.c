/* A peer for speed: what the bench holds the product's time against. Each call works in place on the lent table, which is a struct; a frame
   is built once for all sessions; a held result or alarm is kept as the bytes that are sent, a result's in revision 1; an 0061's are made
   where the memory keeps them, and an 0065, or an 0061 of a later revision, is put together out of those; bytes are tested and copied a
   word at a time.

   A table is well formed when its mark stands and every count is within its range. It stands any bytes as a table. */
#include "peer.h"

#include <assert.h>
#include <stdbool.h>
#include <string.h>

enum {
    SESSIONS = 4,
    TABLE_BYTES = 32768,
    OUTPUT_BYTES = 4096,
    ANSWER_BYTES = 32,

    IDLE_LIMIT = 15,
    REPEAT_TICKS = 20,
    GIVE_UP_TICKS = 120,
    RESULTS_HELD = 8,
    IDENTIFIERS_HELD = 2,
    ALARMS_HELD = 4,
    RESULTS_KEPT = 64,

    RUN_KEPT = 45,
    RUN_GREATEST = 9999,
    HEADER = 20,        /* of a frame */
    RECORD_HEADER = 4,
    TEXT = 25,          /* identifiers and the controller's name */
    TIME = 19,
    CONTROLLER = 37,    /* fields 01 to 03 of 0002 and 0061 */
    RESULT = 211,       /* the data field of 0061 revision 1 */
    ALIKE = 64,         /* so much of it, fields 01 to 04, stands in every revision */
    LONGEST = 526,      /* 0061 revision 6 */
    OLD_RESULT = 98,    /* that of 0065 */
    ALARM = 33,         /* that of 0071 */
    DIGITS = 10,        /* of a result's number, there and in 0064 */
    PARTS = 81,         /* parts 2 to 4 of 0052 revision 2 */
    CONTROL = 11        /* of a session, in the table */
};

/* The numbers that a call answers. */
enum {
    DONE, TABLE_SHORT, TABLE_NOT_WELL_FORMED, OUTPUT_SHORT, SESSION_TOO_HIGH, SESSION_CLOSED, SESSION_NOT_CLOSED,
    RECORD_BAD, NUMBERS_USED_UP, SETTINGS_BAD, ANSWER_SHORT
};

#define NEVER_SET UINT32_MAX /* in a tightening record: no such limit was set */

/* ---- the table */

enum phase { CLOSED, OPENED, STARTED };
enum kind { IDENTIFIERS, TIGHTENINGS, ALARMS, KINDS };
enum asked { NOTHING, ACKNOWLEDGES, NO_ACKNOWLEDGE };

/* The table's bytes, wherever they lie. */
#define IN_TABLE __attribute__((packed, may_alias))

/* A subscription and how its notices stand. */
struct IN_TABLE lane {
    uint8_t asked, clock, count;
};

struct IN_TABLE control {
    uint8_t phase, idle;
    struct lane lane[KINDS];
};

struct IN_TABLE session {
    struct control control;
    uint8_t revision[KINDS]; /* of the subscriptions */
    uint8_t first[KINDS];    /* the place of the open result, and of the open alarm: they go round */
    uint16_t run_count;      /* of bytes since the last NUL, at most RUN_GREATEST + 1 */
    uint8_t run[RUN_KEPT];
    uint8_t identifiers[IDENTIFIERS_HELD][TEXT];
    uint8_t results[RESULTS_HELD][RESULT];
    uint8_t alarms[ALARMS_HELD][ALARM];
};

struct IN_TABLE table {
    uint64_t mark;
    uint32_t last;
    uint8_t granted;
    uint8_t controller[CONTROLLER];
    uint8_t in_force[TEXT];
    uint8_t kept_count; /* results that are kept: those of the last numbers, each at its number's place */
    struct session sessions[SESSIONS];
    uint8_t kept[RESULTS_KEPT][RESULT];
};

static_assert(sizeof(struct table) <= TABLE_BYTES, "the table fits what is lent");
static_assert(sizeof(struct control) == CONTROL, "a session's control is read as two words");

static const uint64_t MARK = UINT64_C(0x53454144444c4149);

/* ---- words of eight bytes */

static uint64_t word(const void *bytes)
{
    uint64_t value;
    memcpy(&value, bytes, sizeof value);
    return value;
}

static const uint64_t HIGH = UINT64_C(0x8080808080808080), EACH = UINT64_C(0x0101010101010101);

/* The bits that are set where a byte of the word is above that of the limits, which are below 128. */
static uint64_t above(uint64_t value, uint64_t limits)
{
    return (value | ~((limits | HIGH) - (value & ~HIGH))) & HIGH;
}

/* The same where a byte is no text. */
static uint64_t no_text(uint64_t value)
{
    return (value | ~(value + 0x60 * EACH) | (value + EACH)) & HIGH;
}

static bool is_text(const uint8_t *text)
{
    return (no_text(word(text)) | no_text(word(text + 8)) | no_text(word(text + 16)) | no_text(word(text + TEXT - 8))) == 0;
}

static bool is_spaces(const uint8_t *text)
{
    uint64_t spaces = 0x20 * EACH;
    return ((word(text) ^ spaces) | (word(text + 8) ^ spaces) | (word(text + 16) ^ spaces) | (word(text + TEXT - 8) ^ spaces)) == 0;
}

/* Whether eight bytes of a time are digits, and the pattern's own bytes where it has no zero. */
static uint64_t no_time(const uint8_t *time, const char *pattern, const char *limits)
{
    return above(word(time) ^ word(pattern), word(limits));
}

static bool is_time(const uint8_t *time)
{
    static const char PATTERN[] = "0000-00-00:00:00:00";
    static const char LIMITS[TIME] = { 9, 9, 9, 9, 0, 9, 9, 0, 9, 9, 0, 9, 9, 0, 9, 9, 0, 9, 9 };
    enum { LAST = TIME - 8 };
    return (no_time(time, PATTERN, LIMITS) | no_time(time + 8, PATTERN + 8, LIMITS + 8)
            | no_time(time + LAST, PATTERN + LAST, LIMITS + LAST)) == 0;
}

/* ---- numbers in bytes */

static uint32_t two(const uint8_t *bytes)
{
    uint16_t value;
    memcpy(&value, bytes, sizeof value);
    return value;
}

static uint32_t four(const uint8_t *bytes)
{
    uint32_t value;
    memcpy(&value, bytes, sizeof value);
    return value;
}

static void put_four(uint8_t *bytes, uint32_t value)
{
    memcpy(bytes, &value, sizeof value);
}

static const char PAIRS[] =
    "0001020304050607080910111213141516171819202122232425262728293031323334353637383940414243444546474849"
    "5051525354555657585960616263646566676869707172737475767778798081828384858687888990919293949596979899";

static void put_2(uint8_t *at, uint32_t value)
{
    memcpy(at, PAIRS + 2 * value, 2);
}

static void put_4(uint8_t *at, uint32_t value)
{
    put_2(at, value / 100);
    put_2(at + 2, value % 100);
}

static void put_6(uint8_t *at, uint32_t value)
{
    put_2(at, value / 10000);
    put_4(at + 2, value % 10000);
}

static void put_10(uint8_t *at, uint32_t value)
{
    put_2(at, value / 100000000);
    put_4(at + 2, value / 10000 % 10000);
    put_4(at + 6, value % 10000);
}

static uint8_t digit(uint32_t value)
{
    return (uint8_t)('0' + value);
}

/* ---- frames: each is put behind what was written, and the place behind it answered */

static uint8_t *put_record(uint8_t *at, unsigned length, unsigned record_kind)
{
    put_four(at, length | record_kind << 16);
    return at + RECORD_HEADER;
}

/* A reply: a header that ends in spaces, then the four digits of the message that it answers. */
static uint8_t *put_reply(uint8_t *at, unsigned s, const char *header, unsigned length, const uint8_t *mid)
{
    at = put_record(at, length + 1, 256 + s);
    memcpy(at, header, HEADER);
    memcpy(at + HEADER, mid, 4);
    at[length] = 0;
    return at + length + 1;
}

static uint8_t *accept(uint8_t *at, unsigned s, const uint8_t *mid)
{
    return put_reply(at, s, "00240005001         ", HEADER + 4, mid);
}

static uint8_t *refuse_message(uint8_t *at, unsigned s, const uint8_t *mid, unsigned error)
{
    uint8_t *end = put_reply(at, s, "00260004001         ", HEADER + 6, mid);
    put_2(end - 3, error);
    return end;
}

static uint8_t *put_started(uint8_t *at, unsigned s, const struct table *table)
{
    at = put_record(at, HEADER + CONTROLLER + 1, 256 + s);
    memcpy(at, "00570002001         ", HEADER);
    memcpy(at + HEADER, table->controller, CONTROLLER);
    at[HEADER + CONTROLLER] = 0;
    return at + HEADER + CONTROLLER + 1;
}

static uint8_t *put_mirrored(uint8_t *at, unsigned s, const uint8_t *message)
{
    at = put_record(at, HEADER + 1, 256 + s);
    memcpy(at, message, HEADER);
    at[HEADER] = 0;
    return at + HEADER + 1;
}

static uint8_t byte_12(const struct lane *lane)
{
    return lane->asked == NO_ACKNOWLEDGE ? '1' : '0';
}

/* 0061 from revision 2 on. The field numbers, and the zeros where the tool reports nothing, stand in the bytes that it begins with; of
   these a revision has as many as it is long. It stands apart, so that the compiler treats revision 1 as if it were alone. */
static __attribute__((noinline)) uint8_t *put_later_result(uint8_t *at, unsigned s, const struct session *session, const uint8_t *result)
{
    static const uint16_t LENGTHS[8] = { 385, 385, 385, 419, 500, 506, LONGEST, LONGEST }; /* only 2 to 6 are asked for */
    static const char FRAME[LONGEST + 1] =
        "    006100          01    02  03                         04                         0500  06   07000800000"
        "09    10    11 12 13 14 15016017018019020000000000021      22      23      24      25     26     27     28     "
        "290000030000003100000320003300034000350000003600000037000000380000003900000040000000"
        "41          42000004300000440000000000000045                   46                   4700000000000000000000000004814900"
        "50000000000000000000000000051000000000000000000000000052000000000000000000000000053000054000000550000000000";
    unsigned revision = session->revision[TIGHTENINGS] & 7, length = LENGTHS[revision];
    at = put_record(at, length + 1, 256 + s);
    memcpy(at, FRAME, length);
    put_4(at, length);
    at[10] = digit(revision);
    at[11] = byte_12(&session->control.lane[TIGHTENINGS]);
    memcpy(at + HEADER, result, ALIKE);
    memcpy(at + 88, result + 66, 2);
    memcpy(at + 92, result + 70, 3);
    memcpy(at + 108, result + 75, 4);
    memcpy(at + 114, result + 81, 4);
    at[120] = result[87];
    at[123] = result[198];
    at[126] = result[90];
    at[129] = result[93];
    for (unsigned i = 0; i < 4; i++)
        memcpy(at + 159 + 8 * i, result + 96 + 8 * i, 6);
    for (unsigned i = 0; i < 4; i++)
        memcpy(at + 191 + 7 * i, result + 128 + 7 * i, 5);
    memcpy(at + 303, result + 201, DIGITS);
    memcpy(at + 345, result + 156, TIME);
    memcpy(at + 366, result + 177, TIME);
    at[length] = 0;
    return at + length + 1;
}

static inline uint8_t *put_result(uint8_t *at, unsigned s, const struct session *session, const uint8_t *result)
{
    if (session->revision[TIGHTENINGS] > 1)
        return put_later_result(at, s, session, result);
    at = put_record(at, HEADER + RESULT + 1, 256 + s);
    memcpy(at, "02310061001         ", HEADER);
    at[11] = byte_12(&session->control.lane[TIGHTENINGS]);
    memcpy(at + HEADER, result, RESULT);
    at[HEADER + RESULT] = 0;
    return at + HEADER + RESULT + 1;
}

static uint8_t *put_identifier(uint8_t *at, unsigned s, const struct session *session, const uint8_t *identifier)
{
    static const char REST[PARTS + 1] = "02                         03                         04                         ";
    bool parts = session->revision[IDENTIFIERS] == 2; /* and the fields are numbered */
    unsigned length = parts ? HEADER + 2 + TEXT + PARTS : HEADER + TEXT;
    at = put_record(at, length + 1, 256 + s);
    if (parts) {
        memcpy(at, "01280052002         01", HEADER + 2);
        memcpy(at + HEADER + 2, identifier, TEXT);
        memcpy(at + HEADER + 2 + TEXT, REST, PARTS);
    } else {
        memcpy(at, "00450052001         ", HEADER);
        memcpy(at + HEADER, identifier, TEXT);
    }
    at[11] = byte_12(&session->control.lane[IDENTIFIERS]);
    at[length] = 0;
    return at + length + 1;
}

static uint8_t *put_alarm(uint8_t *at, unsigned s, const struct session *session, const uint8_t *alarm)
{
    at = put_record(at, HEADER + ALARM + 1, 256 + s);
    memcpy(at, "00530071001         ", HEADER);
    at[11] = byte_12(&session->control.lane[ALARMS]);
    memcpy(at + HEADER, alarm, ALARM);
    at[HEADER + ALARM] = 0;
    return at + HEADER + ALARM + 1;
}

/* The data field of 0071, made once when the alarm comes. */
static void make_alarm(uint8_t *alarm, const uint8_t *payload)
{
    memcpy(alarm, "01    02 03 04", 14);
    memcpy(alarm + 2, payload, 4);
    alarm[8] = digit(payload[4]);
    alarm[11] = digit(payload[5]);
    memcpy(alarm + 14, payload + 6, TIME);
}

/* The data field of 0061, made once when the tightening comes. The field numbers stand in the bytes that it begins with, and the spaces of
   a limit that is none. */
static void make_result(uint8_t *result, const struct table *table, const uint8_t *payload, const uint8_t *identifier)
{
    static const char FIELDS[RESULT + 1] =
        "01    02  03                         04                         05  06   07    08    09 10 11 "
        "12      13      14      15      16     17     18     19     20                   21                   22 23          ";
    uint32_t set = two(payload + 26);
    memcpy(result, FIELDS, RESULT);
    memcpy(result, table->controller, CONTROLLER);
    memcpy(result + 39, identifier, TEXT);
    put_2(result + 66, payload[25]);
    result[70] = digit(set / 100);
    put_2(result + 71, set % 100);
    put_4(result + 75, two(payload + 28));
    put_4(result + 81, two(payload + 30));
    result[87] = digit(payload[32]);
    result[90] = digit(payload[33]);
    result[93] = digit(payload[34]);
    for (unsigned i = 0; i < 4; i++) {
        uint32_t torque = four(payload + 35 + 4 * i);
        if (torque != NEVER_SET)
            put_6(result + 96 + 8 * i, torque);
    }
    for (unsigned i = 0; i < 4; i++) {
        uint32_t angle = four(payload + 51 + 4 * i);
        if (angle == NEVER_SET)
            continue;
        result[128 + 7 * i] = digit(angle / 10000);
        put_4(result + 129 + 7 * i, angle % 10000);
    }
    memcpy(result + 156, payload + 67, TIME);
    memcpy(result + 177, payload + 86, TIME);
    result[198] = digit(payload[105]);
    put_10(result + 201, table->last);
}

/* What 0065 tells of a result, where 0061 has it. The field numbers stand in the bytes that it begins with. */
static uint8_t *put_old_result(uint8_t *at, unsigned s, const uint8_t *result)
{
    static const char FRAME[HEADER + OLD_RESULT + 1] =
        "01180065001         01          02                         03   04    05 06 07 08      09     10                   11 ";
    at = put_record(at, HEADER + OLD_RESULT + 1, 256 + s);
    memcpy(at, FRAME, HEADER + OLD_RESULT + 1);
    memcpy(at + 22, result + 201, DIGITS);
    memcpy(at + 34, result + 39, TEXT);
    memcpy(at + 61, result + 70, 3);
    memcpy(at + 66, result + 81, 4);
    at[72] = result[87];
    at[75] = result[90];
    at[78] = result[93];
    memcpy(at + 81, result + 120, 6);
    memcpy(at + 89, result + 149, 5);
    memcpy(at + 96, result + 156, TIME);
    at[117] = result[198];
    return at + HEADER + OLD_RESULT + 1;
}

/* ---- notices */

static const uint8_t HELD[KINDS] = { IDENTIFIERS_HELD, RESULTS_HELD, ALARMS_HELD }, SIZES[KINDS] = { TEXT, RESULT, ALARM };

/* Where a notice is held, so many behind the open one. */
static inline uint8_t *held(struct session *session, enum kind kind, unsigned behind)
{
    unsigned place = (session->first[kind] + behind) % HELD[kind];
    return kind == IDENTIFIERS ? session->identifiers[behind] : kind == TIGHTENINGS ? session->results[place] : session->alarms[place];
}

static inline uint8_t *put_notice(uint8_t *at, unsigned s, const struct session *session, enum kind kind, const uint8_t *notice)
{
    return kind == IDENTIFIERS ? put_identifier(at, s, session, notice)
           : kind == TIGHTENINGS ? put_result(at, s, session, notice)
           : put_alarm(at, s, session, notice);
}

static inline uint8_t *put_open(uint8_t *at, unsigned s, struct session *session, enum kind kind)
{
    return put_notice(at, s, session, kind, held(session, kind, 0));
}

/* Ends the open notice and sends the one behind it, if there is one. */
static uint8_t *next_notice(uint8_t *at, unsigned s, struct session *session, enum kind kind)
{
    struct lane *lane = &session->control.lane[kind];
    lane->clock = 0;
    lane->count -= 1;
    if (kind == IDENTIFIERS)
        memcpy(session->identifiers[0], session->identifiers[1], TEXT);
    else
        session->first[kind] = (session->first[kind] + 1) % HELD[kind];
    return lane->count > 0 ? put_open(at, s, session, kind) : at;
}

static bool gets(const struct session *session, enum kind kind)
{
    return session->control.phase == STARTED && session->control.lane[kind].asked != NOTHING;
}

/* An identifier for one session: the newest takes the waiting one's place. */
static uint8_t *offer_identifier(uint8_t *at, unsigned s, struct session *session, const uint8_t *identifier)
{
    struct lane *lane = &session->control.lane[IDENTIFIERS];
    if (lane->asked == NO_ACKNOWLEDGE)
        return put_identifier(at, s, session, identifier);
    unsigned place = lane->count > 0;
    memcpy(session->identifiers[place], identifier, TEXT);
    lane->count = (uint8_t)(place + 1);
    return place == 0 ? put_identifier(at, s, session, identifier) : at;
}

/* Makes the identifier the one in force and hands it to all who asked. */
static uint8_t *identified(uint8_t *at, struct table *table, const uint8_t *identifier, uint64_t *taken)
{
    memcpy(table->in_force, identifier, TEXT);
    for (unsigned s = 0; s < SESSIONS; s++) {
        if (!gets(&table->sessions[s], IDENTIFIERS))
            continue;
        at = offer_identifier(at, s, &table->sessions[s], identifier);
        *taken |= 1u << s;
    }
    return at;
}

/* Holds a result or an alarm where there is room; it goes out at once where none was open. */
static inline uint8_t *offer(uint8_t *at, unsigned s, struct session *session, enum kind kind, const uint8_t *notice, uint64_t *taken)
{
    struct lane *lane = &session->control.lane[kind];
    if (lane->asked != NO_ACKNOWLEDGE) {
        if (lane->count == HELD[kind])
            return at;
        memcpy(held(session, kind, lane->count), notice, SIZES[kind]);
        lane->count += 1;
    }
    *taken |= 1u << s;
    return lane->count > 1 ? at : put_notice(at, s, session, kind, notice);
}

/* Hands it to all who asked. */
static inline uint8_t *offer_all(uint8_t *at, struct table *table, enum kind kind, const uint8_t *notice, uint64_t *taken)
{
    for (unsigned s = 0; s < SESSIONS; s++)
        if (gets(&table->sessions[s], kind))
            at = offer(at, s, &table->sessions[s], kind, notice, taken);
    return at;
}

/* The result is made in its number's place, which was the oldest's. */
static uint8_t *tightened(uint8_t *at, struct table *table, const uint8_t *payload, uint64_t *taken)
{
    table->last += 1;
    table->kept_count += table->kept_count < RESULTS_KEPT;
    uint8_t *result = table->kept[table->last % RESULTS_KEPT];
    make_result(result, table, payload, is_spaces(payload) ? table->in_force : payload);
    return offer_all(at, table, TIGHTENINGS, result, taken);
}

static uint8_t *alarmed(uint8_t *at, struct table *table, const uint8_t *payload, uint64_t *taken)
{
    uint8_t alarm[ALARM];
    make_alarm(alarm, payload);
    return offer_all(at, table, ALARMS, alarm, taken);
}

/* ---- messages */

struct message {
    const uint8_t *bytes; /* those that are kept of it */
    unsigned length;
    unsigned revision;
};

/* The number of four digits, read from the word that they stand in; the digits' tens are joined to their units first. */
static unsigned decimal(uint32_t digits)
{
    digits = (digits & 0x0f0f0f0f) * 2561 >> 8;
    return (digits & 0x00ff00ff) * 6553601 >> 16;
}

/* The revision of a message, or -1 where bytes 9 to 11 are neither digits nor spaces. */
static int revision_of(const uint8_t *bytes)
{
    uint32_t three = four(bytes) & 0xffffff;
    if (three == 0x202020)
        return 1;
    if (above(three ^ 0x303030, 0x090909) != 0)
        return -1;
    unsigned revision = decimal(three << 8);
    return revision == 0 ? 1 : (int)revision;
}

static bool read_header(struct message *message)
{
    const uint8_t *bytes = message->bytes;
    if (message->length < HEADER || message->length > RUN_GREATEST || above(word(bytes) ^ 0x30 * EACH, 9 * EACH) != 0)
        return false;
    int revision = revision_of(bytes + 8);
    message->revision = (unsigned)revision;
    return revision >= 0 && decimal(four(bytes)) == message->length
           && (bytes[11] == '0' || bytes[11] == '1' || bytes[11] == ' ');
}

static uint8_t *subscribe(uint8_t *at, unsigned s, struct session *session, enum kind kind, const struct message *message)
{
    static const uint8_t REVISIONS[KINDS] = { 2, 6, 1 }, SUBSCRIBED[KINDS] = { 6, 9, 11 };
    struct lane *lane = &session->control.lane[kind];
    if (message->revision > REVISIONS[kind])
        return refuse_message(at, s, message->bytes + 4, 97);
    if (lane->asked != NOTHING)
        return refuse_message(at, s, message->bytes + 4, SUBSCRIBED[kind]);
    lane->asked = message->bytes[11] == '1' ? NO_ACKNOWLEDGE : ACKNOWLEDGES;
    session->revision[kind] = (uint8_t)message->revision;
    return accept(at, s, message->bytes + 4);
}

static uint8_t *unsubscribe(uint8_t *at, unsigned s, struct session *session, enum kind kind, const uint8_t *mid)
{
    static const uint8_t NOT_SUBSCRIBED[KINDS] = { 7, 10, 12 };
    struct lane *lane = &session->control.lane[kind];
    if (lane->asked == NOTHING)
        return refuse_message(at, s, mid, NOT_SUBSCRIBED[kind]);
    *lane = (struct lane){ 0 };
    return accept(at, s, mid);
}

static uint8_t *download(uint8_t *at, unsigned s, struct table *table, const struct message *message)
{
    uint8_t identifier[TEXT];
    uint64_t taken = 0;
    if (message->length < HEADER + 1 || message->length > HEADER + TEXT)
        return refuse_message(at, s, message->bytes + 4, 1);
    if (message->revision != 1)
        return refuse_message(at, s, message->bytes + 4, 97);
    memset(identifier, ' ', TEXT);
    memcpy(identifier, message->bytes + HEADER, message->length - HEADER);
    if (!is_text(identifier))
        return refuse_message(at, s, message->bytes + 4, 1);
    if (!table->granted)
        return refuse_message(at, s, message->bytes + 4, 8);
    return identified(accept(at, s, message->bytes + 4), table, identifier, &taken);
}

/* The number of ten digits, or -1 where one is none. */
static int64_t number_of(const uint8_t *digits)
{
    if ((above(word(digits) ^ 0x30 * EACH, 9 * EACH) | above(word(digits + 2) ^ 0x30 * EACH, 9 * EACH)) != 0)
        return -1;
    return (int64_t)decimal(four(digits)) * 1000000 + (int64_t)decimal(four(digits + 4)) * 100 + (digits[8] - '0') * 10 + (digits[9] - '0');
}

static uint8_t *fetch(uint8_t *at, unsigned s, const struct table *table, const struct message *message)
{
    const uint8_t *mid = message->bytes + 4;
    if (message->length != HEADER + DIGITS)
        return refuse_message(at, s, mid, 1);
    if (message->revision != 1)
        return refuse_message(at, s, mid, 97);
    int64_t number = number_of(message->bytes + HEADER);
    if (number < 0)
        return refuse_message(at, s, mid, 1);
    uint64_t age = number == 0 ? 0 : (uint64_t)table->last - (uint64_t)number; /* of one above the last it is huge */
    if (age >= table->kept_count)
        return refuse_message(at, s, mid, 15);
    return put_old_result(at, s, table->kept[(table->last - age) % RESULTS_KEPT]);
}

static uint8_t *acknowledge(uint8_t *at, unsigned s, struct session *session, enum kind kind, const struct message *message)
{
    return message->length == HEADER && session->control.lane[kind].count > 0 ? next_notice(at, s, session, kind) : at;
}

static uint8_t *stop(uint8_t *at, unsigned s, struct session *session, const uint8_t *mid)
{
    session->control = (struct control){ .phase = OPENED };
    return accept(at, s, mid);
}

/* A message of 20 bytes in a started session, but for the acknowledges and 0001. */
static uint8_t *plain_message(uint8_t *at, unsigned s, struct session *session, unsigned mid, const struct message *message)
{
    switch (mid) {
    case 3:
        return stop(at, s, session, message->bytes + 4);
    case 51:
        return subscribe(at, s, session, IDENTIFIERS, message);
    case 54:
        return unsubscribe(at, s, session, IDENTIFIERS, message->bytes + 4);
    case 60:
        return subscribe(at, s, session, TIGHTENINGS, message);
    case 63:
        return unsubscribe(at, s, session, TIGHTENINGS, message->bytes + 4);
    case 70:
        return subscribe(at, s, session, ALARMS, message);
    case 73:
        return unsubscribe(at, s, session, ALARMS, message->bytes + 4);
    default:
        return put_mirrored(at, s, message->bytes);
    }
}

static uint8_t *message_when_started(uint8_t *at, unsigned s, struct table *table, const struct message *message)
{
    struct session *session = &table->sessions[s];
    const uint8_t *mid = message->bytes + 4;
    unsigned number = decimal(four(mid));
    session->control.idle = 0;
    switch (number) {
    case 1:
        return refuse_message(at, s, mid, 96);
    case 50:
        return download(at, s, table, message);
    case 53:
        return acknowledge(at, s, session, IDENTIFIERS, message);
    case 62:
        return acknowledge(at, s, session, TIGHTENINGS, message);
    case 72:
        return acknowledge(at, s, session, ALARMS, message);
    case 64:
        return fetch(at, s, table, message);
    case 3: case 51: case 54: case 60: case 63: case 70: case 73: case 9999:
        if (message->length != HEADER)
            return refuse_message(at, s, mid, 1);
        return plain_message(at, s, session, number, message);
    default:
        return refuse_message(at, s, mid, 99);
    }
}

/* Before the start only 0001 counts. */
static uint8_t *message_when_opened(uint8_t *at, unsigned s, struct table *table, const struct message *message)
{
    const uint8_t *mid = message->bytes + 4;
    if (decimal(four(mid)) != 1)
        return at;
    if (message->length != HEADER)
        return refuse_message(at, s, mid, 1);
    if (message->revision != 1)
        return refuse_message(at, s, mid, 97);
    table->sessions[s].control.phase = STARTED;
    table->sessions[s].control.idle = 0;
    return put_started(at, s, table);
}

/* ---- runs */

static void lengthen(struct session *session, const uint8_t *bytes, size_t count)
{
    unsigned had = session->run_count, room = RUN_GREATEST + 1 - had;
    if (had < RUN_KEPT && count > 0)
        memcpy(session->run + had, bytes, count < RUN_KEPT - had ? count : RUN_KEPT - had);
    session->run_count = (uint16_t)(had + (count < room ? count : room));
}

/* A run that stands whole in the slice is read there, any other where it is kept. */
static uint8_t *end_run(uint8_t *at, unsigned s, struct table *table, const uint8_t *bytes, size_t count)
{
    struct session *session = &table->sessions[s];
    struct message message = { bytes, count > RUN_GREATEST ? RUN_GREATEST + 1 : (unsigned)count, 0 };
    if (session->run_count > 0) {
        lengthen(session, bytes, count);
        message.bytes = session->run;
        message.length = session->run_count;
        session->run_count = 0;
    }
    if (!read_header(&message))
        return at;
    return (session->control.phase == STARTED ? message_when_started : message_when_opened)(at, s, table, &message);
}

/* ---- the clock */

static inline uint8_t *tick_lane(uint8_t *at, unsigned s, struct session *session, enum kind kind)
{
    struct lane *lane = &session->control.lane[kind];
    if (lane->count == 0)
        return at;
    lane->clock += 1;
    if (lane->clock == GIVE_UP_TICKS)
        return next_notice(at, s, session, kind);
    return lane->clock % REPEAT_TICKS == 0 ? put_open(at, s, session, kind) : at;
}

static void clear_session(struct session *session, enum phase phase)
{
    session->control = (struct control){ .phase = (uint8_t)phase };
    session->run_count = 0;
}

static uint8_t *tick_session(uint8_t *at, unsigned s, struct session *session)
{
    if (session->control.phase == CLOSED)
        return at;
    session->control.idle += 1;
    if (session->control.idle == IDLE_LIMIT) {
        clear_session(session, CLOSED);
        return put_record(at, 0, 512 + s);
    }
    at = tick_lane(at, s, session, IDENTIFIERS);
    at = tick_lane(at, s, session, TIGHTENINGS);
    return tick_lane(at, s, session, ALARMS);
}

/* ---- the calls */

static uint64_t reply(uint8_t *answer, uint64_t number, uint64_t consumed, uint64_t written, uint64_t taken)
{
    memcpy(answer, &number, 8);
    memcpy(answer + 8, &consumed, 8);
    memcpy(answer + 16, &written, 8);
    memcpy(answer + 24, &taken, 8);
    return number;
}

static uint64_t refuse(uint8_t *answer, uint64_t number)
{
    return reply(answer, number, 0, 0, 0);
}

static bool is_formed(const struct table *table)
{
    static const struct control LIMITS = {
        STARTED, IDLE_LIMIT - 1,
        { { NO_ACKNOWLEDGE, GIVE_UP_TICKS - 1, IDENTIFIERS_HELD }, { NO_ACKNOWLEDGE, GIVE_UP_TICKS - 1, RESULTS_HELD },
          { NO_ACKNOWLEDGE, GIVE_UP_TICKS - 1, ALARMS_HELD } }
    };
    const uint8_t *limits = (const uint8_t *)&LIMITS;
    uint64_t bad = (table->mark ^ MARK) | (table->kept_count > RESULTS_KEPT) | (table->kept_count > table->last);
    for (unsigned s = 0; s < SESSIONS; s++) {
        const struct session *session = &table->sessions[s];
        const uint8_t *control = (const uint8_t *)&session->control;
        bad |= above(word(control), word(limits)) | above(word(control + CONTROL - 8), word(limits + CONTROL - 8));
        bad |= session->first[TIGHTENINGS] >= RESULTS_HELD || session->first[ALARMS] >= ALARMS_HELD;
        bad |= session->run_count > RUN_GREATEST + 1;
    }
    return bad == 0;
}

/* Numbers 1 to 3, which all calls but start have in common. */
static uint64_t enter(const struct table *table, size_t table_length, size_t output_length)
{
    if (table_length < TABLE_BYTES)
        return TABLE_SHORT;
    if (!is_formed(table))
        return TABLE_NOT_WELL_FORMED;
    return output_length < OUTPUT_BYTES ? OUTPUT_SHORT : DONE;
}

/* Numbers 1 to 6, for a call that wants the session closed, or not. */
static uint64_t enter_session(const struct table *table, size_t table_length, size_t output_length, uint64_t session, bool closed)
{
    uint64_t number = enter(table, table_length, output_length);
    if (number != DONE)
        return number;
    if (session >= SESSIONS)
        return SESSION_TOO_HIGH;
    if ((table->sessions[session].control.phase == CLOSED) == closed)
        return DONE;
    return closed ? SESSION_NOT_CLOSED : SESSION_CLOSED;
}

uint64_t peer_start(uint8_t *lent, size_t table_length, const uint8_t *settings, size_t settings_length,
                    uint8_t *answer, size_t answer_length)
{
    struct table *table = (struct table *)lent;
    const uint8_t *payload = settings + RECORD_HEADER;
    if (answer_length < ANSWER_BYTES)
        return ANSWER_SHORT;
    if (table_length < TABLE_BYTES)
        return refuse(answer, TABLE_SHORT);
    if (settings_length != RECORD_HEADER + 33 || four(settings) != (33 | 3 << 16) || two(payload) > 9999 || payload[2] > 99
        || payload[3] > 1 || !is_text(payload + 4))
        return refuse(answer, SETTINGS_BAD);
    table->mark = MARK;
    table->last = four(payload + 29);
    table->granted = payload[3];
    memcpy(table->controller, "01    02  03", 12);
    put_4(table->controller + 2, two(payload));
    put_2(table->controller + 8, payload[2]);
    memcpy(table->controller + 12, payload + 4, TEXT);
    memset(table->in_force, ' ', TEXT);
    table->kept_count = 0;
    for (unsigned s = 0; s < SESSIONS; s++) {
        clear_session(&table->sessions[s], CLOSED);
        memset(table->sessions[s].first, 0, KINDS);
    }
    return reply(answer, DONE, 0, 0, 0);
}

uint64_t peer_open(uint8_t *lent, size_t table_length, uint8_t *output, size_t output_length, uint64_t session,
                   uint8_t *answer, size_t answer_length)
{
    struct table *table = (struct table *)lent;
    (void)output;
    if (answer_length < ANSWER_BYTES)
        return ANSWER_SHORT;
    uint64_t number = enter_session(table, table_length, output_length, session, true);
    if (number == DONE)
        clear_session(&table->sessions[session], OPENED);
    return reply(answer, number, 0, 0, 0);
}

uint64_t peer_hang_up(uint8_t *lent, size_t table_length, uint8_t *output, size_t output_length, uint64_t session,
                      uint8_t *answer, size_t answer_length)
{
    struct table *table = (struct table *)lent;
    (void)output;
    if (answer_length < ANSWER_BYTES)
        return ANSWER_SHORT;
    uint64_t number = enter_session(table, table_length, output_length, session, false);
    if (number == DONE)
        clear_session(&table->sessions[session], CLOSED);
    return reply(answer, number, 0, 0, 0);
}

uint64_t peer_bytes(uint8_t *lent, size_t table_length, uint8_t *output, size_t output_length, uint64_t session,
                    const uint8_t *bytes, size_t bytes_length, uint8_t *answer, size_t answer_length)
{
    struct table *table = (struct table *)lent;
    if (answer_length < ANSWER_BYTES)
        return ANSWER_SHORT;
    uint64_t number = enter_session(table, table_length, output_length, session, false);
    if (number != DONE)
        return refuse(answer, number);
    const uint8_t *nul = bytes_length > 0 ? memchr(bytes, 0, bytes_length) : NULL;
    if (nul == NULL) {
        lengthen(&table->sessions[session], bytes, bytes_length);
        return reply(answer, DONE, bytes_length, 0, 0);
    }
    size_t count = (size_t)(nul - bytes);
    uint8_t *end = end_run(output, (unsigned)session, table, bytes, count);
    return reply(answer, DONE, count + 1, (uint64_t)(end - output), 0);
}

uint64_t peer_tick(uint8_t *lent, size_t table_length, uint8_t *output, size_t output_length,
                   uint8_t *answer, size_t answer_length)
{
    struct table *table = (struct table *)lent;
    uint8_t *at = output;
    if (answer_length < ANSWER_BYTES)
        return ANSWER_SHORT;
    uint64_t number = enter(table, table_length, output_length);
    if (number != DONE)
        return refuse(answer, number);
    for (unsigned s = 0; s < SESSIONS; s++)
        at = tick_session(at, s, &table->sessions[s]);
    return reply(answer, DONE, 0, (uint64_t)(at - output), 0);
}

static bool is_tightening(const uint8_t *payload)
{
    bool good = is_text(payload) && payload[25] <= 99 && two(payload + 26) <= 999 && two(payload + 28) <= 9999
                && two(payload + 30) <= 9999 && payload[32] <= 1 && payload[33] <= 2 && payload[34] <= 2 && payload[105] <= 2
                && is_time(payload + 67) && is_time(payload + 86) && four(payload + 47) <= 999999 && four(payload + 63) <= 99999;
    for (unsigned i = 0; i < 3; i++) /* of the limits none, and 1, is 0 */
        good &= four(payload + 35 + 4 * i) + 1 <= 1000000 && four(payload + 51 + 4 * i) + 1 <= 100000;
    return good;
}

static bool is_alarm(const uint8_t *payload)
{
    return no_text(four(payload) | UINT64_C(0x2020202000000000)) == 0 && payload[4] <= 1 && payload[5] <= 1 && is_time(payload + 6);
}

uint64_t peer_record(uint8_t *lent, size_t table_length, uint8_t *output, size_t output_length,
                     const uint8_t *record, size_t record_length, uint8_t *answer, size_t answer_length)
{
    struct table *table = (struct table *)lent;
    const uint8_t *payload = record + RECORD_HEADER;
    uint8_t *end;
    uint64_t taken = 0;
    if (answer_length < ANSWER_BYTES)
        return ANSWER_SHORT;
    uint64_t number = enter(table, table_length, output_length);
    if (number != DONE)
        return refuse(answer, number);
    if (record_length == RECORD_HEADER + TEXT && four(record) == (TEXT | 2 << 16) && is_text(payload)) {
        end = identified(output, table, payload, &taken);
    } else if (record_length == RECORD_HEADER + 25 && four(record) == (25 | 5 << 16) && is_alarm(payload)) {
        end = alarmed(output, table, payload, &taken);
    } else {
        if (record_length != RECORD_HEADER + 106 || four(record) != (106 | 1 << 16) || !is_tightening(payload))
            return refuse(answer, RECORD_BAD);
        if (table->last == UINT32_MAX)
            return refuse(answer, NUMBERS_USED_UP);
        end = tightened(output, table, payload, &taken);
    }
    return reply(answer, DONE, 0, (uint64_t)(end - output), taken);
}
