#include "independent.h"
#include "faults.h"

#include <assert.h>
#include <stdbool.h>
#include <string.h>

/* ---------------------------------------------------------------- limits */

enum {
    TABLE_LEAST = FAULT == TABLE_OF_16384 ? 16384 : INDEPENDENT_TABLE_BYTES,
    OUTPUT_LEAST = FAULT == OUTPUT_OF_2048 ? 2048 : INDEPENDENT_OUTPUT_BYTES,
    SESSIONS = 4,
    IDLE_LIMIT = FAULT == IDLE_CLOSES_AT_14 ? 14 : 15, /* ticks without a message until the close */
    REPEAT_TICKS = 20,                                 /* between the copies of an open notice */
    GIVE_UP_TICKS = 120,                               /* an open notice is given up */
    TIGHTENINGS_HELD =                                 /* a session, the open one included */
        FAULT == NINTH_TAKEN ? 9 : FAULT == SEVEN_NOT_EIGHT ? 7 : 8,
    IDENTIFIERS_HELD = 2,                              /* one open, one waiting */
    ALARMS_HELD =                                      /* a session, the open one included */
        FAULT == FIFTH_ALARM_TAKEN ? 5 : FAULT == THREE_ALARMS_NOT_FOUR ? 3 : 4,
    TIGHTENINGS_KEPT = FAULT == KEEPS_65 ? 65 : 64,    /* by the controller, whoever took them */

    HEADER_BYTES = 20,
    TEXT_BYTES = 25,       /* identifiers and the controller's name */
    TIME_BYTES = 19,
    SETTINGS_BYTES = 33,   /* the payload of their record */
    TIGHTENING_BYTES = 106,
    ALARM_BYTES = 25,
    CODE_BYTES = 4,        /* of an alarm */
    RESULT_BYTES = 211,    /* the data field of 0061 revision 1 */
    RESULT_GREATEST = 506, /* that of revision 6, the longest */
    IDENTIFIER_REVISION_GREATEST = FAULT == IDENTIFIER_REVISION_3 ? 3 : 2,
    RESULT_REVISION_GREATEST =
        FAULT == REVISION_6_REFUSED ? 5 : FAULT == REVISION_7_TAKEN ? 7 : 6,
    ALARM_REVISION_GREATEST = FAULT == ALARM_REVISION_2 ? 2 : 1,
    OLD_RESULT_BYTES = 98, /* that of 0065 revision 1 */
    ALARM_DATA_BYTES =     /* that of 0071 */
        FAULT == ALARM_WITHOUT_NUMBERS ? 25 : 33,
    NUMBER_DIGITS = 10,    /* of a tightening number, in these and in 0064 */
    DOWNLOAD_GREATEST = FAULT == DOWNLOAD_OF_46 ? 46 : 45, /* length of an 0050 */
    RUN_KEPT = DOWNLOAD_GREATEST,                          /* bytes of a run that anyone reads */
    RUN_GREATEST = 9999,
    RUN_COUNTED =                                          /* longer runs count as this long */
        FAULT == RUN_LENGTH_16_BITS ? 65535 : RUN_GREATEST + 1,
    FRAME_GREATEST = HEADER_BYTES + RESULT_GREATEST + 1 + (FAULT == SIX_SPACES_FOR_AN_ANGLE ? 3 : 0),
    TORQUE_LIMIT_GREATEST = FAULT == TORQUE_LIMIT_1000000_TAKEN ? 1000000 : 999999,
    ANGLE_LIMIT_GREATEST = FAULT == ANGLE_LIMIT_100000_TAKEN ? 100000 : 99999
};

#define LAST_NUMBER_GREATEST UINT32_C(4294967295)
#define NEVER_SET UINT32_C(4294967295) /* in a record: no such limit was set */

/* The numbers that a call answers. */
enum {
    DONE = 0,
    TABLE_SHORT = 1,
    TABLE_NOT_WELL_FORMED = 2,
    OUTPUT_SHORT = 3,
    SESSION_ABOVE_3 = 4,
    SESSION_CLOSED = 5,
    SESSION_NOT_CLOSED = 6,
    RECORD_BAD = 7,
    NUMBERS_USED_UP = 8,
    SETTINGS_BAD = 9,
    ANSWER_SHORT = 10
};

/* The error codes of 0004. */
enum {
    NO_ERROR = 0,
    INVALID_DATA = 1,
    IDENTIFIER_SUBSCRIBED = 6,
    IDENTIFIER_NOT_SUBSCRIBED = FAULT == CODES_07_10_SWAPPED ? 10 : 7,
    NOT_GRANTED = 8,
    TIGHTENING_SUBSCRIBED = 9,
    TIGHTENING_NOT_SUBSCRIBED = FAULT == CODES_07_10_SWAPPED ? 7 : 10,
    ALARM_SUBSCRIBED = FAULT == CODES_11_12_SWAPPED ? 12 : 11,
    ALARM_NOT_SUBSCRIBED = FAULT == CODES_11_12_SWAPPED ? 11 : 12,
    NUMBER_NOT_KEPT = 15,
    ALREADY_STARTED = 96,
    REVISION_UNSUPPORTED = 97,
    UNKNOWN_MESSAGE = 99
};

/* The numbers of the messages that are read. */
enum {
    MID_START = 1,
    MID_STOP = 3,
    MID_DOWNLOAD = 50,
    MID_SUBSCRIBE_IDENTIFIER = 51,
    MID_ACKNOWLEDGE_IDENTIFIER = 53,
    MID_UNSUBSCRIBE_IDENTIFIER = 54,
    MID_SUBSCRIBE_TIGHTENING = 60,
    MID_ACKNOWLEDGE_TIGHTENING = 62,
    MID_UNSUBSCRIBE_TIGHTENING = 63,
    MID_FETCH = 64,
    MID_SUBSCRIBE_ALARM = 70,
    MID_ACKNOWLEDGE_ALARM = 72,
    MID_UNSUBSCRIBE_ALARM = 73,
    MID_KEEP_ALIVE = 9999
};

enum { REVISION_NOT_READ = 999 };

/* ---------------------------------------------------------------- kinds of notice */

/* In the order in which a tick serves them. */
enum kind { IDENTIFIER = 0, TIGHTENING = 1, ALARM = 2, KINDS = 3 };

/* Where those that a session holds stand. */
enum {
    IDENTIFIERS_AT = 0,
    RESULTS_AT = IDENTIFIERS_AT + IDENTIFIERS_HELD * TEXT_BYTES,
    ALARMS_AT = RESULTS_AT + TIGHTENINGS_HELD * RESULT_BYTES,
    NOTICES_BYTES = ALARMS_AT + ALARMS_HELD * ALARM_DATA_BYTES
};

/* What a kind has of its own; in all else the kinds are alike. */
struct kind_rule {
    unsigned notice, subscribe, acknowledge, unsubscribe; /* its message numbers */
    unsigned subscribed, not_subscribed;                  /* its errors */
    unsigned greatest_revision;
    unsigned held; /* by a session at most, the open one included */
    bool replaced; /* where there is room for no more: the one that came last, by the newest */
    size_t at;     /* among the notices that a session holds */
    size_t bytes;  /* of one that is held */
};

static const struct kind_rule KIND_RULES[KINDS] = {
    [IDENTIFIER] = {
        52, MID_SUBSCRIBE_IDENTIFIER, MID_ACKNOWLEDGE_IDENTIFIER, MID_UNSUBSCRIBE_IDENTIFIER,
        IDENTIFIER_SUBSCRIBED, IDENTIFIER_NOT_SUBSCRIBED,
        IDENTIFIER_REVISION_GREATEST, IDENTIFIERS_HELD, true, IDENTIFIERS_AT, TEXT_BYTES
    },
    [TIGHTENING] = {
        61, MID_SUBSCRIBE_TIGHTENING, MID_ACKNOWLEDGE_TIGHTENING, MID_UNSUBSCRIBE_TIGHTENING,
        TIGHTENING_SUBSCRIBED, TIGHTENING_NOT_SUBSCRIBED,
        RESULT_REVISION_GREATEST, TIGHTENINGS_HELD, false, RESULTS_AT, RESULT_BYTES
    },
    [ALARM] = {
        71, MID_SUBSCRIBE_ALARM, MID_ACKNOWLEDGE_ALARM, MID_UNSUBSCRIBE_ALARM,
        ALARM_SUBSCRIBED, ALARM_NOT_SUBSCRIBED,
        ALARM_REVISION_GREATEST, ALARMS_HELD, FAULT == FIFTH_ALARM_REPLACES, ALARMS_AT, ALARM_DATA_BYTES
    },
};

/* ---------------------------------------------------------------- state */

enum phase { CLOSED = 0, OPENED = 1, STARTED = 2 };

/* A subscription and the notices that it holds; notice 0 is the open one. */
struct subscription {
    bool subscribed;
    bool free;         /* no acknowledge asked */
    unsigned revision; /* from 1 on while subscribed, else 0 */
    unsigned count;    /* notices held */
    unsigned clock;    /* ticks that the open notice has stood */
};

struct session {
    enum phase phase;
    unsigned idle;
    unsigned run_length; /* bytes since the last NUL, at most RUN_COUNTED */
    uint8_t run[RUN_KEPT];
    struct subscription subscription[KINDS];
    uint8_t notice[NOTICES_BYTES];
};

/* The last tightenings, as the data fields that 0065 tells them by. Their numbers follow on one
   another up to the last number. The places are used in turn from the first; when all are used,
   the next tightening takes the place of the oldest. */
struct memory {
    unsigned count;
    unsigned oldest; /* its place, the first until all are used */
    uint8_t place[TIGHTENINGS_KEPT][OLD_RESULT_BYTES];
};

struct state {
    uint8_t settings[SETTINGS_BYTES]; /* as in their record; the last tightening number counts on */
    uint8_t in_force[TEXT_BYTES];
    struct session session[SESSIONS];
    struct memory memory;
};

/* ---------------------------------------------------------------- bytes and numbers */

static bool is_digit(uint8_t byte)
{
    return byte >= '0' && byte <= '9';
}

static bool all_digits(const uint8_t *bytes, size_t count)
{
    for (size_t i = 0; i < count; i++)
        if (!is_digit(bytes[i]))
            return false;
    return true;
}

static bool all_spaces(const uint8_t *bytes, size_t count)
{
    for (size_t i = 0; i < count; i++)
        if (bytes[i] != ' ')
            return false;
    return true;
}

static bool is_text(const uint8_t *bytes, size_t count)
{
    for (size_t i = 0; i < count; i++)
        if (bytes[i] < 0x20 || bytes[i] > 0x7e)
            return false;
    return true;
}

/* Digits with '-' at places 5 and 8 and ':' at 11, 14 and 17. */
static bool is_time(const uint8_t *bytes)
{
    for (size_t place = 1; place <= TIME_BYTES; place++) {
        uint8_t byte = bytes[place - 1];
        bool right;
        if (place == 5 || place == 8)
            right = byte == '-';
        else if (place == 11 || place == 14 || place == 17)
            right = byte == ':';
        else
            right = is_digit(byte);
        if (!right)
            return false;
    }
    return true;
}

/* Ten digits may say more than four bytes hold. */
static uint64_t decimal(const uint8_t *digits, size_t count)
{
    uint64_t value = 0;
    for (size_t i = 0; i < count; i++)
        value = value * 10 + (unsigned)(digits[i] - '0');
    return value;
}

static uint32_t little_endian(const uint8_t *bytes, size_t count)
{
    uint32_t value = 0;
    for (size_t i = count; i > 0; i--)
        value = value << 8 | bytes[i - 1];
    return value;
}

static void put_little_endian(uint8_t *bytes, size_t count, uint64_t value)
{
    for (size_t i = 0; i < count; i++) {
        bytes[i] = (uint8_t)(value & 0xff);
        value >>= 8;
    }
}

/* Walks through bytes that hold one field after the other. */
struct reader {
    const uint8_t *at;
};

static uint32_t take_number(struct reader *reader, size_t count)
{
    uint32_t value = little_endian(reader->at, count);
    reader->at += count;
    return value;
}

static const uint8_t *take_bytes(struct reader *reader, size_t count)
{
    const uint8_t *bytes = reader->at;
    reader->at += count;
    return bytes;
}

struct writer {
    uint8_t *at;
};

static void put_number(struct writer *writer, size_t count, uint32_t value)
{
    put_little_endian(writer->at, count, value);
    writer->at += count;
}

static void put_bytes(struct writer *writer, const uint8_t *bytes, size_t count)
{
    memcpy(writer->at, bytes, count);
    writer->at += count;
}

/* ---------------------------------------------------------------- fields */

/* The fields of records and frames, in the order in which payloads have them: those of a settings
   record, those of a tightening, of which the first is all that a scanned identifier's record has,
   those of an alarm, and what frames have besides. */
enum field_name {
    CELL, CHANNEL, GRANTED, NAME, LAST,
    IDENTIFIER_TEXT, JOB, PARAMETER_SET, BATCH_SIZE, BATCH_COUNTER,
    TIGHTENING_STATUS, TORQUE_STATUS, ANGLE_STATUS,
    TORQUE_MIN, TORQUE_MAX, TORQUE_TARGET, TORQUE,
    ANGLE_MIN, ANGLE_MAX, ANGLE_TARGET, ANGLE,
    TIGHTENED_AT, SET_CHANGED_AT, BATCH_STATUS,
    ALARM_CODE, CONTROLLER_READY, TOOL_READY, ALARMED_AT,
    RESULT_NUMBER, BLANK, UNREPORTED, UNREPORTED_LIMIT, UNREPORTED_TEXT, TORQUE_UNIT,
    NUMBER_OR_NONE /* planted: a tightening number, as a limit */
};

/* A limit is a number or none, which is written as spaces. Of the last three no value is read: one
   character fills them. */
enum sort { NUMBER, LIMIT, TEXT, TIME, SPACES, ZEROS, ONES };

/* Where the value of a field comes from: the settings, or what an event tells, which is an
   identifier, a tightening with its number behind it, or an alarm. */
enum source { SETTINGS, EVENT, SOURCES };

struct field {
    enum sort sort;
    enum source source;
    unsigned offset;   /* in the source */
    unsigned size;     /* there, in bytes */
    uint32_t greatest; /* of a number that a record brings, and of a limit that is one */
};

static const struct field FIELDS[] = {
    [CELL] = { NUMBER, SETTINGS, 0, 2, 9999 },
    [CHANNEL] = { NUMBER, SETTINGS, 2, 1, 99 },
    [GRANTED] = { NUMBER, SETTINGS, 3, 1, 1 },
    [NAME] = { TEXT, SETTINGS, 4, TEXT_BYTES, 0 },
    [LAST] = { NUMBER, SETTINGS, 29, 4, LAST_NUMBER_GREATEST },
    [IDENTIFIER_TEXT] = { TEXT, EVENT, 0, TEXT_BYTES, 0 },
    [JOB] = { NUMBER, EVENT, 25, 1, 99 },
    [PARAMETER_SET] = { NUMBER, EVENT, 26, 2, 999 },
    [BATCH_SIZE] = { NUMBER, EVENT, 28, 2, 9999 },
    [BATCH_COUNTER] = { NUMBER, EVENT, 30, 2, 9999 },
    [TIGHTENING_STATUS] = { NUMBER, EVENT, 32, 1, 1 },
    [TORQUE_STATUS] = { NUMBER, EVENT, 33, 1, 2 },
    [ANGLE_STATUS] = { NUMBER, EVENT, 34, 1, 2 },
    [TORQUE_MIN] = { LIMIT, EVENT, 35, 4, TORQUE_LIMIT_GREATEST },
    [TORQUE_MAX] = { LIMIT, EVENT, 39, 4, TORQUE_LIMIT_GREATEST },
    [TORQUE_TARGET] = { LIMIT, EVENT, 43, 4, TORQUE_LIMIT_GREATEST },
    [TORQUE] = { FAULT == TORQUE_NONE_TAKEN ? LIMIT : NUMBER, EVENT, 47, 4, 999999 },
    [ANGLE_MIN] = { LIMIT, EVENT, 51, 4, ANGLE_LIMIT_GREATEST },
    [ANGLE_MAX] = { LIMIT, EVENT, 55, 4, ANGLE_LIMIT_GREATEST },
    [ANGLE_TARGET] = { LIMIT, EVENT, 59, 4, ANGLE_LIMIT_GREATEST },
    [ANGLE] = { FAULT == ANGLE_NONE_TAKEN ? LIMIT : NUMBER, EVENT, 63, 4, 99999 },
    [TIGHTENED_AT] = { TIME, EVENT, 67, TIME_BYTES, 0 },
    [SET_CHANGED_AT] = { TIME, EVENT, 86, TIME_BYTES, 0 },
    [BATCH_STATUS] = { NUMBER, EVENT, 105, 1, 2 },
    [ALARM_CODE] = { TEXT, EVENT, 0, FAULT == CODE_UNTESTED ? 0 : CODE_BYTES, 0 },
    [CONTROLLER_READY] = { NUMBER, EVENT, 4, 1, 1 },
    [TOOL_READY] = { NUMBER, EVENT, 5, 1, FAULT == READY_2_TAKEN ? 2 : 1 },
    [ALARMED_AT] = { FAULT == ALARM_TIME_UNTESTED ? TEXT : TIME, EVENT, 6, TIME_BYTES, 0 },
    [RESULT_NUMBER] = { NUMBER, EVENT, TIGHTENING_BYTES, 4, 0 },
    [BLANK] = { SPACES, EVENT, 0, 0, 0 },
    [UNREPORTED] = { ZEROS, EVENT, 0, 0, 0 },
    [UNREPORTED_LIMIT] = { ZEROS, EVENT, 0, 0, 0 },
    [UNREPORTED_TEXT] = { FAULT == UNREPORTED_TEXT_BLANK ? SPACES : ZEROS, EVENT, 0, 0, 0 },
    [TORQUE_UNIT] = { FAULT == UNIT_0 ? ZEROS : ONES, EVENT, 0, 0, 0 }, /* Nm */
    [NUMBER_OR_NONE] = { LIMIT, EVENT, TIGHTENING_BYTES, 4, 0 },
};

static uint32_t number_in(const uint8_t *source, enum field_name name)
{
    return little_endian(source + FIELDS[name].offset, FIELDS[name].size);
}

static void put_number_in(uint8_t *source, enum field_name name, uint32_t value)
{
    put_little_endian(source + FIELDS[name].offset, FIELDS[name].size, value);
}

/* ---------------------------------------------------------------- house records */

enum {
    RECORD_HEADER_BYTES = 4,
    RECORD_KIND_TIGHTENING = 1,
    RECORD_KIND_SCANNED = 2,
    RECORD_KIND_SETTINGS = 3,
    RECORD_KIND_ALARM = 5,
    RECORD_KIND_FRAME = 256,
    RECORD_KIND_CLOSE = 512
};

/* Is the slice exactly one record of this kind with a payload of this size? */
static bool is_record(const uint8_t *slice, size_t length, uint32_t record_kind, size_t payload)
{
    return length == RECORD_HEADER_BYTES + payload
        && little_endian(slice, 2) == payload
        && little_endian(slice + 2, 2) == record_kind;
}

/* Does this value of a field say that there is none? Only a limit can. */
static bool is_none(enum field_name name, uint32_t value)
{
    if (FIELDS[name].sort != LIMIT)
        return false;
    switch (FAULT) {
    case TORQUE_LIMIT_999999_BLANK:
        return value == NEVER_SET || value == 999999;
    case ANGLE_LIMIT_99999_BLANK:
        return value == NEVER_SET || (value == 99999 && name >= ANGLE_MIN);
    case BELOW_NONE_IS_NONE:
        return value >= NEVER_SET - 1;
    case ABOVE_GREATEST_IS_NONE:
        return value > FIELDS[name].greatest;
    case NONE_BY_16_BITS:
        return (uint16_t)value == (uint16_t)NEVER_SET;
    case NONE_REFUSED:
        return false;
    case ANGLE_LIMIT_NONE_REFUSED:
        return value == NEVER_SET && name < ANGLE_MIN;
    case TARGET_NONE_REFUSED:
        return value == NEVER_SET && name != TORQUE_TARGET && name != ANGLE_TARGET;
    default:
        return value == NEVER_SET;
    }
}

static bool number_good(enum field_name name, uint32_t value)
{
    return value <= FIELDS[name].greatest || is_none(name, value)
        || (FAULT == BELOW_NONE_TAKEN && FIELDS[name].sort == LIMIT && value == NEVER_SET - 1);
}

/* Are the fields of a payload good, from the first to the last? */
static bool fields_good(const uint8_t *payload, enum field_name first, enum field_name last)
{
    for (unsigned name = first; name <= last; name++) {
        const struct field *field = &FIELDS[name];
        const uint8_t *bytes = payload + field->offset;
        bool good = field->sort == TEXT ? is_text(bytes, field->size)
            : field->sort == TIME ? is_time(bytes)
            : number_good(name, little_endian(bytes, field->size));
        if (!good)
            return false;
    }
    return true;
}

/* ---------------------------------------------------------------- the table */

/* Layout: a mark, the settings as in their record, the identifier in force, then
   the sessions one after the other, each with room for all that it can hold, then the
   memory: how many it keeps, the place of the oldest, and the places. Of the notices and
   of the memory only those held are written; the places behind them mean nothing. */
static const uint8_t MARK[8] = { 'o', 'p', '-', 'i', 'n', 'd', 'e', 'p' };

enum {
    SUBSCRIPTION_TABLE_BYTES = 5,
    SESSION_TABLE_BYTES = 4 + RUN_KEPT + KINDS * SUBSCRIPTION_TABLE_BYTES + NOTICES_BYTES,
    SESSIONS_AT = sizeof MARK + SETTINGS_BYTES + TEXT_BYTES,
    MEMORY_AT = SESSIONS_AT + SESSIONS * SESSION_TABLE_BYTES,
    MEMORY_TABLE_BYTES = 2 + TIGHTENINGS_KEPT * OLD_RESULT_BYTES
};

static_assert(MEMORY_AT + MEMORY_TABLE_BYTES <= INDEPENDENT_TABLE_BYTES,
              "the state fits the table");

/* The notices of a kind that a session holds, the open one first. */
static uint8_t *notices(struct session *session, enum kind kind)
{
    return session->notice + KIND_RULES[kind].at;
}

static unsigned revision_at_most(enum kind kind)
{
    return FAULT == REVISION_OF_ALL_KINDS ? RESULT_REVISION_GREATEST : KIND_RULES[kind].greatest_revision;
}

static unsigned run_kept(const struct session *session)
{
    return session->run_length < RUN_KEPT ? session->run_length : RUN_KEPT;
}

static bool read_flag(struct reader *reader, bool *flag)
{
    uint32_t value = take_number(reader, 1);
    *flag = value == 1;
    return value <= 1;
}

/* What every subscription of a correct program keeps to: nothing is held where
   nothing is subscribed or no acknowledge is asked, and only an open notice has
   a clock. The faulty programs break it; they are not to be caught here. */
static bool subscription_consistent(const struct subscription *part, enum phase phase)
{
    if (FAULT != NO_FAULT)
        return true;
    if (!part->subscribed)
        return !part->free && part->revision == 0 && part->count == 0 && part->clock == 0;
    return phase == STARTED && part->revision >= 1
        && !(part->free && part->count > 0)
        && !(part->count == 0 && part->clock > 0);
}

static bool load_subscription(struct reader *reader, struct subscription *part,
                              enum kind kind, enum phase phase)
{
    bool flags = read_flag(reader, &part->subscribed);
    flags = read_flag(reader, &part->free) && flags;
    part->revision = take_number(reader, 1);
    part->count = take_number(reader, 1);
    part->clock = take_number(reader, 1);
    return flags && part->revision <= revision_at_most(kind)
        && part->count <= KIND_RULES[kind].held && part->clock < GIVE_UP_TICKS
        && subscription_consistent(part, phase);
}

static bool load_run(struct reader *reader, struct session *session)
{
    session->run_length = take_number(reader, 2);
    memcpy(session->run, take_bytes(reader, RUN_KEPT), RUN_KEPT);
    if (session->run_length > RUN_COUNTED)
        return false;
    return memchr(session->run, 0, run_kept(session)) == NULL;
}

/* Of a kind's places only the first `count` are read; the counts are tested before. */
static bool load_notices(const uint8_t *bytes, struct session *session, enum kind kind)
{
    size_t held = session->subscription[kind].count * KIND_RULES[kind].bytes;
    memcpy(notices(session, kind), bytes + KIND_RULES[kind].at, held);
    return is_text(notices(session, kind), held);
}

static bool load_session(const uint8_t *bytes, struct session *session)
{
    struct reader reader = { bytes };
    uint32_t phase = take_number(&reader, 1);
    session->idle = take_number(&reader, 1);
    if (phase > STARTED || session->idle >= IDLE_LIMIT)
        return false;
    session->phase = (enum phase)phase;
    if (!load_run(&reader, session))
        return false;
    if (FAULT == NO_FAULT && phase == CLOSED && (session->idle > 0 || session->run_length > 0))
        return false;
    for (unsigned kind = 0; kind < KINDS; kind++)
        if (!load_subscription(&reader, &session->subscription[kind], (enum kind)kind,
                               session->phase))
            return false;
    for (unsigned kind = 0; kind < KINDS; kind++)
        if (!load_notices(reader.at, session, (enum kind)kind))
            return false;
    return true;
}

/* What the memory of a correct program keeps to: each kept tightening had a number of its own,
   and until all places are used the oldest stands in the first. */
static bool memory_consistent(const struct memory *memory, uint32_t last)
{
    if (FAULT != NO_FAULT)
        return true;
    return memory->count <= last && (memory->oldest == 0 || memory->count == TIGHTENINGS_KEPT);
}

/* Of the places only those used are read: they are the first ones. */
static bool load_memory(const uint8_t *bytes, struct memory *memory, uint32_t last)
{
    struct reader reader = { bytes };
    memory->count = take_number(&reader, 1);
    memory->oldest = take_number(&reader, 1);
    if (memory->count > TIGHTENINGS_KEPT || memory->oldest >= TIGHTENINGS_KEPT
        || !memory_consistent(memory, last))
        return false;
    size_t used = memory->count * OLD_RESULT_BYTES;
    memcpy(memory->place, reader.at, used);
    return is_text(reader.at, used);
}

/* Reads the table; false where it is not well formed. */
static bool load(const uint8_t *table, struct state *state)
{
    struct reader reader = { table };
    if (memcmp(take_bytes(&reader, sizeof MARK), MARK, sizeof MARK) != 0)
        return false;
    memcpy(state->settings, take_bytes(&reader, SETTINGS_BYTES), SETTINGS_BYTES);
    if (!fields_good(state->settings, CELL, LAST))
        return false;
    memcpy(state->in_force, take_bytes(&reader, TEXT_BYTES), TEXT_BYTES);
    if (!is_text(state->in_force, TEXT_BYTES))
        return false;
    for (unsigned s = 0; s < SESSIONS; s++)
        if (!load_session(table + SESSIONS_AT + s * SESSION_TABLE_BYTES, &state->session[s]))
            return false;
    return load_memory(table + MEMORY_AT, &state->memory, number_in(state->settings, LAST));
}

static void save_session(uint8_t *bytes, const struct session *session)
{
    struct writer writer = { bytes };
    put_number(&writer, 1, session->phase);
    put_number(&writer, 1, session->idle);
    put_number(&writer, 2, session->run_length);
    put_bytes(&writer, session->run, RUN_KEPT);
    for (unsigned kind = 0; kind < KINDS; kind++) {
        const struct subscription *part = &session->subscription[kind];
        put_number(&writer, 1, part->subscribed);
        put_number(&writer, 1, part->free);
        put_number(&writer, 1, part->revision);
        put_number(&writer, 1, part->count);
        put_number(&writer, 1, part->clock);
    }
    for (unsigned kind = 0; kind < KINDS; kind++) {
        const struct kind_rule *rule = &KIND_RULES[kind];
        memcpy(writer.at + rule->at, session->notice + rule->at, session->subscription[kind].count * rule->bytes);
    }
}

static void save_memory(uint8_t *bytes, const struct memory *memory)
{
    struct writer writer = { bytes };
    put_number(&writer, 1, memory->count);
    put_number(&writer, 1, memory->oldest);
    memcpy(writer.at, memory->place, memory->count * OLD_RESULT_BYTES);
}

static void save(uint8_t *table, const struct state *state)
{
    struct writer writer = { table };
    put_bytes(&writer, MARK, sizeof MARK);
    put_bytes(&writer, state->settings, SETTINGS_BYTES);
    put_bytes(&writer, state->in_force, TEXT_BYTES);
    for (unsigned s = 0; s < SESSIONS; s++)
        save_session(table + SESSIONS_AT + s * SESSION_TABLE_BYTES, &state->session[s]);
    save_memory(table + MEMORY_AT, &state->memory);
}

/* ---------------------------------------------------------------- output and frames */

/* The records that a call puts out, gathered here and lent on when it is done. */
struct output {
    uint8_t bytes[FAULT == GATHERED_IN_2048 ? 2048 : INDEPENDENT_OUTPUT_BYTES];
    size_t written;
};

/* By the rules a call writes at most 4 x (133 + 531 + 58) bytes; what would not fit is
   left out rather than written past the end. */
static void put_record(struct output *output, unsigned record_kind, const uint8_t *payload, size_t length)
{
    if (RECORD_HEADER_BYTES + length > sizeof output->bytes - output->written)
        return;
    struct writer writer = { output->bytes + output->written };
    put_number(&writer, 2, (uint32_t)length);
    put_number(&writer, 2, record_kind);
    if (length > 0)
        put_bytes(&writer, payload, length);
    output->written += RECORD_HEADER_BYTES + length;
}

struct frame {
    uint8_t bytes[FRAME_GREATEST];
    size_t length;
};

static void add_bytes(struct frame *frame, const uint8_t *bytes, size_t count)
{
    memcpy(frame->bytes + frame->length, bytes, count);
    frame->length += count;
}

static void add_filling(struct frame *frame, char byte, size_t count)
{
    memset(frame->bytes + frame->length, byte, count);
    frame->length += count;
}

static void write_digits(uint8_t *bytes, size_t width, uint32_t value)
{
    for (size_t i = width; i > 0; i--) {
        bytes[i - 1] = (uint8_t)('0' + value % 10);
        value /= 10;
    }
}

static void add_digits(struct frame *frame, size_t width, uint32_t value)
{
    write_digits(frame->bytes + frame->length, width, value);
    frame->length += width;
}

/* Begins with the header; the length is put in when the frame is sent. */
static struct frame begin_frame(unsigned mid, unsigned revision, char acknowledge)
{
    struct frame frame = { .length = 0 };
    add_digits(&frame, 4, 0);
    add_digits(&frame, 4, mid);
    add_digits(&frame, 3, revision);
    add_filling(&frame, acknowledge, 1);
    add_filling(&frame, ' ', 8);
    return frame;
}

static void send_frame(struct output *output, unsigned s, struct frame *frame)
{
    bool revision_1_of_0052 = frame->length == HEADER_BYTES + TEXT_BYTES;
    write_digits(frame->bytes, 4, (uint32_t)frame->length);
    if (FAULT == LENGTH_47_IN_REVISION_1 && revision_1_of_0052)
        write_digits(frame->bytes, 4, 47);
    if (FAULT == OLD_BYTE_BEHIND_REVISION_1 && revision_1_of_0052)
        add_bytes(frame, frame->bytes + frame->length - 1, 1);
    if (FAULT == LENGTH_506_IN_REVISION_4 && frame->length == 500)
        write_digits(frame->bytes, 4, 506);
    add_filling(frame, 0, 1);
    put_record(output, RECORD_KIND_FRAME + s, frame->bytes, frame->length);
}

static void send_accepted(struct output *output, unsigned s, unsigned mid)
{
    struct frame frame = begin_frame(5, 1, ' ');
    add_digits(&frame, 4, mid);
    send_frame(output, s, &frame);
}

static void send_error(struct output *output, unsigned s, unsigned mid, unsigned error)
{
    struct frame frame = begin_frame(4, 1, ' ');
    add_digits(&frame, 4, mid);
    add_digits(&frame, 2, error);
    send_frame(output, s, &frame);
}

/* A row is a field and the width in which it is written; a layout is so many rows of a frame,
   and whether each field has its two-digit number before it. */
struct row {
    enum field_name name;
    unsigned width;
};

struct layout {
    bool numbered;
    const struct row *rows;
    unsigned count;
};

/* Whether limits that are none have too few spaces, or too many. */
enum { SPACES_PLANTED = FAULT == FIVE_SPACES_FOR_A_TORQUE || FAULT == SIX_SPACES_FOR_AN_ANGLE };

static const struct row IDENTIFIER_ROWS[] = {
    { IDENTIFIER_TEXT, 25 }, { BLANK, 25 }, { BLANK, 25 }, { BLANK, 25 }
};

static const struct row RESULT_ROWS[] = {
    { CELL, 4 }, { CHANNEL, 2 }, { NAME, 25 }, { IDENTIFIER_TEXT, 25 },
    { JOB, 2 }, { PARAMETER_SET, 3 }, { BATCH_SIZE, 4 }, { BATCH_COUNTER, 4 },
    { TIGHTENING_STATUS, 1 }, { TORQUE_STATUS, 1 }, { ANGLE_STATUS, 1 },
    { TORQUE_MIN, 6 }, { TORQUE_MAX, 6 }, { TORQUE_TARGET, 6 }, { TORQUE, 6 },
    { ANGLE_MIN, 5 }, { ANGLE_MAX, 5 }, { ANGLE_TARGET, 5 }, { ANGLE, 5 },
    { TIGHTENED_AT, 19 }, { SET_CHANGED_AT, 19 }, { BATCH_STATUS, 1 },
    { FAULT == NUMBER_BLANK_IN_0061 ? NUMBER_OR_NONE : RESULT_NUMBER, 10 }
};

/* 0061 from revision 2 on, which rearranges the fields: 000, Tables 22 to 26. */
static const struct row LATER_RESULT_ROWS[] = {
    { CELL, 4 }, { CHANNEL, 2 }, { NAME, 25 }, { IDENTIFIER_TEXT, 25 },
    { JOB, FAULT == JOB_OF_TWO_DIGITS ? 2 : 4 }, { PARAMETER_SET, 3 },
    { UNREPORTED, 2 }, { UNREPORTED, 5 }, /* 07: strategy and its options */
    { BATCH_SIZE, 4 }, { BATCH_COUNTER, 4 }, { TIGHTENING_STATUS, 1 },
    { FAULT == BATCH_STATUS_NOT_MOVED ? TORQUE_STATUS : BATCH_STATUS, 1 },
    { FAULT == BATCH_STATUS_NOT_MOVED ? ANGLE_STATUS : TORQUE_STATUS, 1 },
    { FAULT == BATCH_STATUS_NOT_MOVED ? BATCH_STATUS : ANGLE_STATUS, 1 },
    { UNREPORTED, 1 }, { UNREPORTED, 1 }, { UNREPORTED, 1 }, /* 15: statuses of rundown angle, current, selftap */
    { UNREPORTED, 1 }, { UNREPORTED, 1 },                    /* 18: of prevail torque, and of its compensation */
    { UNREPORTED, 10 },                                      /* 20: what went wrong */
    { TORQUE_MIN, 6 }, { TORQUE_MAX, 6 }, { TORQUE_TARGET, 6 }, { TORQUE, 6 },
    { ANGLE_MIN, 5 }, { ANGLE_MAX, 5 }, { ANGLE_TARGET, 5 }, { ANGLE, 5 },
    { UNREPORTED_LIMIT, 5 }, { UNREPORTED_LIMIT, 5 }, { UNREPORTED, 5 }, /* 29: rundown angle, min and max before it */
    { UNREPORTED_LIMIT, 3 }, { UNREPORTED_LIMIT, 3 }, { UNREPORTED, 3 }, /* 32: current */
    { UNREPORTED_LIMIT, 6 }, { UNREPORTED_LIMIT, 6 }, { UNREPORTED, 6 }, /* 35: selftap torque */
    { UNREPORTED_LIMIT, 6 }, { UNREPORTED_LIMIT, 6 }, { UNREPORTED, 6 }, /* 38: prevail torque */
    { FAULT == NUMBER_BLANK_IN_0061 ? NUMBER_OR_NONE : RESULT_NUMBER, 10 },
    { UNREPORTED, 5 }, { UNREPORTED, 5 }, /* 42: numbers of the job's sequence and of synchronous tightenings */
    { UNREPORTED_TEXT, 14 },              /* 44: the tool's serial number */
    { TIGHTENED_AT, 19 }, { SET_CHANGED_AT, 19 },
    { UNREPORTED_TEXT, 25 }, { TORQUE_UNIT, 1 }, { UNREPORTED, 2 }, /* 47, revision 3: the set's name, the unit, the sort of result */
    { UNREPORTED_TEXT, 25 }, { UNREPORTED_TEXT, 25 }, { UNREPORTED_TEXT, 25 }, /* 50, revision 4: parts 2 to 4 of the identifier */
    { UNREPORTED_TEXT, 4 },                 /* 53, revision 5: the customer's code of what went wrong */
    { UNREPORTED, 6 }, { UNREPORTED, 10 }   /* 54, revision 6: compensation of the prevail torque, what else went wrong */
};

/* So many of these rows has a revision. */
static const unsigned LATER_RESULT_COUNTS[] = {
    [1] = 23, /* planted */
    [2] = FAULT == REVISION_2_OF_49_FIELDS ? 49 : 46, [3] = 49,
    [4] = FAULT == REVISION_4_OF_53_FIELDS ? 53 : 52, [5] = 53, [6] = 55,
    [7] = 55 /* planted */
};

static_assert(sizeof LATER_RESULT_ROWS / sizeof LATER_RESULT_ROWS[0] == 55, "revision 6 has all of them");

static const struct row OLD_RESULT_ROWS[] = {
    { FAULT == NUMBER_BLANK_IN_0065 ? NUMBER_OR_NONE : RESULT_NUMBER, 10 }, { IDENTIFIER_TEXT, 25 }, { PARAMETER_SET, 3 },
    { FAULT == BATCH_SIZE_FOR_COUNTER ? BATCH_SIZE : BATCH_COUNTER, 4 },
    { TIGHTENING_STATUS, 1 }, { TORQUE_STATUS, 1 }, { ANGLE_STATUS, 1 },
    { TORQUE, 6 }, { ANGLE, 5 }, { TIGHTENED_AT, 19 }, { BATCH_STATUS, 1 }
};

/* 000, Table 35. */
static const struct row ALARM_ROWS[] = {
    { ALARM_CODE, CODE_BYTES },
    { FAULT == TOOL_BEFORE_CONTROLLER ? TOOL_READY : CONTROLLER_READY, 1 },
    { FAULT == TOOL_BEFORE_CONTROLLER ? CONTROLLER_READY : TOOL_READY, 1 },
    { ALARMED_AT, 19 }
};

static const struct layout STARTED_1 = { true, RESULT_ROWS, 3 }; /* cell, channel, name */
static const struct layout IDENTIFIER_1 = {
    FAULT == NUMBER_KEPT_IN_REVISION_1, IDENTIFIER_ROWS, 1
};
static const struct layout IDENTIFIER_2 = {
    FAULT != REVISION_2_WITHOUT_NUMBERS, IDENTIFIER_ROWS, 4
};
static const struct layout RESULT_1 = { true, RESULT_ROWS, 23 };
static const struct layout OLD_RESULT_1 = { true, OLD_RESULT_ROWS, 11 };
static const struct layout ALARM_1 = { FAULT != ALARM_WITHOUT_NUMBERS, ALARM_ROWS, 4 };

/* The character that fills a field of which no value is read, or 0. */
static char filling(enum sort sort)
{
    return sort == SPACES ? ' ' : sort == ZEROS ? '0' : sort == ONES ? '1' : 0;
}

static void add_number(struct frame *frame, const struct row *row, uint32_t value)
{
    if (is_none(row->name, value) && FAULT != NONE_AS_ITS_DIGITS)
        add_filling(frame, FAULT == UNDERSCORES_FOR_NONE ? '_' : ' ', row->width);
    else
        add_digits(frame, row->width, value);
}

static void add_field(struct frame *frame, const struct row *row, const uint8_t *const *sources)
{
    const struct field *field = &FIELDS[row->name];
    const uint8_t *bytes = sources[field->source] + field->offset;
    if (filling(field->sort) != 0)
        add_filling(frame, FAULT == PARTS_ZERO_FILLED ? '0' : filling(field->sort), row->width);
    else if (field->sort == TEXT || field->sort == TIME)
        add_bytes(frame, bytes, row->width);
    else
        add_number(frame, row, little_endian(bytes, field->size));
}

static void add_fields(struct frame *frame, const struct layout *layout,
                       const uint8_t *settings, const uint8_t *event)
{
    const uint8_t *const sources[SOURCES] = { [SETTINGS] = settings, [EVENT] = event };
    unsigned first = FAULT == NUMBERED_AS_IN_0076 && layout == &ALARM_1 ? 2 : 1;
    for (unsigned i = 0; i < layout->count; i++) {
        if (layout->numbered)
            add_digits(frame, 2, first + i);
        add_field(frame, &layout->rows[i], sources);
    }
}

/* Where the data field of revision 1 has a field, and how wide it is there. */
struct told {
    size_t at;
    unsigned width;
};

static struct told told_in_1(enum field_name name)
{
    const struct row *row = RESULT_ROWS;
    size_t at = 2; /* behind the first field's number */
    for (; row->name != name; row++)
        at += row->width + 2;
    return (struct told){ at, row->width };
}

/* Planted: is this field of a result, which is held as that data field, a limit that is none? */
static bool none_in(const uint8_t *result, enum field_name name)
{
    struct told told = told_in_1(name);
    return FIELDS[name].sort == LIMIT && all_spaces(result + told.at, told.width);
}

static bool some_none_in(const uint8_t *result)
{
    for (unsigned name = TORQUE_MIN; name <= ANGLE_TARGET; name++)
        if (none_in(result, name))
            return true;
    return false;
}

/* Planted: a result's limits that are none become zeros. */
static void put_zeros(uint8_t *result)
{
    for (unsigned name = TORQUE_MIN; name <= ANGLE_TARGET; name++)
        if (none_in(result, name))
            memset(result + told_in_1(name).at, '0', told_in_1(name).width);
}

/* Planted: the torque becomes spaces where its three limits are. */
static void blank_torque(uint8_t *result)
{
    if (none_in(result, TORQUE_MIN) && none_in(result, TORQUE_MAX) && none_in(result, TORQUE_TARGET))
        memset(result + told_in_1(TORQUE).at, ' ', told_in_1(TORQUE).width);
}

/* A field of a later revision out of the data field of revision 1: as it stands there, with
   zeros before it where it is wider now. */
static void add_again(struct frame *frame, const struct row *row, const uint8_t *result)
{
    struct told told = told_in_1(row->name);
    if (SPACES_PLANTED && none_in(result, row->name)) {
        add_filling(frame, ' ', FAULT == FIVE_SPACES_FOR_A_TORQUE ? 5 : 6);
        return;
    }
    if (FAULT != JOB_FILLED_BEHIND)
        add_filling(frame, '0', row->width - told.width);
    add_bytes(frame, result + told.at, told.width);
    if (FAULT == JOB_FILLED_BEHIND)
        add_filling(frame, '0', row->width - told.width);
}

/* Planted: the tightening number, field 41, comes behind the two times, as in revision 1. */
static unsigned in_place(unsigned i)
{
    return FAULT != NUMBER_LEFT_LAST || i < 40 || i > 45 ? i : i == 45 ? 40 : i + 1;
}

/* What a revision of 0061 tells of a result, which is held as the data field of revision 1. */
static void add_result(struct frame *frame, unsigned revision, const uint8_t *result)
{
    if (revision == 1 && !SPACES_PLANTED) {
        add_bytes(frame, result, RESULT_BYTES);
        return;
    }
    for (unsigned i = 0; i < LATER_RESULT_COUNTS[revision]; i++) {
        const struct row *row = revision == 1 ? &RESULT_ROWS[i] : &LATER_RESULT_ROWS[in_place(i)];
        char filled = filling(FIELDS[row->name].sort);
        if (FAULT == UNREPORTED_LIMITS_BLANK && row->name == UNREPORTED_LIMIT && some_none_in(result))
            filled = ' ';
        add_digits(frame, 2, i + 1);
        if (filled != 0)
            add_filling(frame, filled, row->width);
        else
            add_again(frame, row, result);
    }
}

static void send_started(struct output *output, unsigned s, const uint8_t *settings)
{
    struct frame frame = begin_frame(2, 1, ' ');
    add_fields(&frame, &STARTED_1, settings, NULL);
    send_frame(output, s, &frame);
}

/* The keep-alive goes back as it came. */
static void send_mirrored(struct output *output, unsigned s, const uint8_t *message)
{
    struct frame frame = { .length = 0 };
    add_bytes(&frame, message, HEADER_BYTES);
    add_filling(&frame, 0, 1);
    put_record(output, RECORD_KIND_FRAME + s, frame.bytes, frame.length);
}

/* ---------------------------------------------------------------- the memory */

static void keep(struct memory *memory, const uint8_t *old_result)
{
    if (memory->count < TIGHTENINGS_KEPT) {
        memcpy(memory->place[memory->count], old_result, OLD_RESULT_BYTES);
        memory->count += 1;
        return;
    }
    unsigned place = memory->oldest;
    if (FAULT == NEWEST_OVERWRITTEN)
        place = (memory->oldest + memory->count - 1) % TIGHTENINGS_KEPT;
    memcpy(memory->place[place], old_result, OLD_RESULT_BYTES);
    memory->oldest = (memory->oldest + 1) % TIGHTENINGS_KEPT;
}

/* The kept tightening that has this number, or where that is 0 the newest; NULL where none has it. */
static const uint8_t *find_kept(const struct state *state, uint64_t number)
{
    const struct memory *memory = &state->memory;
    uint64_t last = number_in(state->settings, LAST);
    if (FAULT == NUMBER_CUT_TO_32_BITS)
        number = (uint32_t)number;
    if (number == 0)
        number = FAULT == ZERO_IS_OLDEST ? last + 1 - memory->count : last;
    if (number > last || last - number >= memory->count)
        return NULL;
    unsigned from_oldest = memory->count - 1 - (unsigned)(last - number);
    return memory->place[(memory->oldest + from_oldest) % TIGHTENINGS_KEPT];
}

/* Planted: all that is kept goes, where only a start may empty the memory. */
static void forget_kept(struct memory *memory, enum fault here)
{
    if (FAULT != NO_FAULT && FAULT == (int)here)
        memset(memory, 0, sizeof *memory);
}

static void send_old_result(const struct state *state, unsigned s, const uint8_t *old_result,
                            struct output *output)
{
    struct frame frame = begin_frame(65, 1, FAULT == ZERO_AT_BYTE_12_OF_0065 ? '0' : ' ');
    add_bytes(&frame, old_result, OLD_RESULT_BYTES);
    if (FAULT == STAMPED_WHEN_FETCHED) { /* only now, where it is blank */
        uint8_t *identifier = frame.bytes + HEADER_BYTES + 14;
        if (all_spaces(identifier, TEXT_BYTES))
            memcpy(identifier, state->in_force, TEXT_BYTES);
    }
    send_frame(output, s, &frame);
}

/* ---------------------------------------------------------------- planted: places */

/* The product keeps one copy of each result that waits, at one of 32 places. Here each session has copies of its own; what a library
   that shares them may do wrong is planted by the places at which they would stand. */
enum {
    PLACES = FAULT == THIRTY_ONE_PLACES ? 31 : 32,
    PLACES_PLANTED = FAULT >= PLACE_STILL_HELD && FAULT <= PLACE_LEAKED_AT_TIME_OUT
};

struct place {
    uint64_t number; /* of the result that stands there */
    bool left;       /* by the first session that acknowledged it */
    bool leaked;
};

static struct place places[PLACES];

static uint64_t number_of(const uint8_t *result)
{
    return decimal(result + RESULT_BYTES - NUMBER_DIGITS, NUMBER_DIGITS);
}

static struct place *place_of(uint64_t number)
{
    for (unsigned p = 0; p < PLACES; p++)
        if (places[p].number == number)
            return &places[p];
    return NULL;
}

/* A session's copy of the result with that number; NULL where it holds none. */
static uint8_t *held_copy(struct session *session, uint64_t number)
{
    uint8_t *result = notices(session, TIGHTENING);
    for (unsigned i = 0; i < session->subscription[TIGHTENING].count; i++)
        if (number_of(result + i * RESULT_BYTES) == number)
            return result + i * RESULT_BYTES;
    return NULL;
}

static bool is_free(struct state *state, const struct place *place)
{
    for (unsigned s = 0; s < (FAULT == PLACE_STILL_HELD ? SESSIONS - 1 : SESSIONS); s++)
        if (held_copy(&state->session[s], place->number) != NULL)
            return place->left;
    return !place->leaked;
}

/* Puts a result at a place, over what stands there, unless it has one; false where none is free. */
static bool find_place(struct state *state, const uint8_t *result)
{
    struct place *place = places;
    if (place_of(number_of(result)) != NULL)
        return true;
    while (place < places + PLACES && !is_free(state, place))
        place++;
    if (place == places + PLACES)
        return false;
    for (unsigned s = 0; s < SESSIONS; s++) {
        uint8_t *copy;
        while ((copy = held_copy(&state->session[s], place->number)) != NULL)
            memcpy(copy, result, RESULT_BYTES);
    }
    *place = (struct place){ .number = number_of(result) };
    return true;
}

/* Those that wait stand in the order of their places: the last goes before those of later ones. */
static void order_by_place(struct session *session)
{
    uint8_t *result = notices(session, TIGHTENING), moved[RESULT_BYTES];
    for (unsigned i = session->subscription[TIGHTENING].count - 1; i > 1; i--) {
        uint8_t *last = result + i * RESULT_BYTES, *before = last - RESULT_BYTES;
        if (place_of(number_of(before)) < place_of(number_of(last)))
            return;
        memcpy(moved, before, RESULT_BYTES);
        memcpy(before, last, RESULT_BYTES);
        memcpy(last, moved, RESULT_BYTES);
    }
}

/* A session that was told of an identifier, and has not acknowledged it, puts it into the result for all. */
static void stamp_for_all(struct state *state, unsigned s, uint64_t number)
{
    struct session *session = &state->session[s];
    for (unsigned other = 0; session->subscription[IDENTIFIER].count > 0 && other < SESSIONS; other++) {
        uint8_t *copy = held_copy(&state->session[other], number);
        if (copy != NULL)
            memcpy(copy + 39, notices(session, IDENTIFIER), TEXT_BYTES);
    }
}

/* What becomes of the places when a result has come to wait, when one is acknowledged, and when a session is closed by a time-out. */
static void plant_in_held(struct state *state, unsigned s, const uint8_t *result)
{
    if (FAULT == SENT_BY_PLACE)
        order_by_place(&state->session[s]);
    if (FAULT == OWN_IDENTIFIER_FOR_ALL)
        stamp_for_all(state, s, number_of(result));
}

static void plant_in_acknowledged(struct session *session)
{
    struct place *place = place_of(number_of(notices(session, TIGHTENING)));
    if (FAULT == PLACE_LEFT_BY_THE_FIRST && place != NULL)
        place->left = true;
}

static void plant_in_time_out(struct session *session)
{
    for (unsigned p = 0; FAULT == PLACE_LEAKED_AT_TIME_OUT && p < PLACES; p++)
        places[p].leaked |= held_copy(session, places[p].number) != NULL;
}

/* ---------------------------------------------------------------- notices */

static unsigned in_turn(unsigned i)
{
    return FAULT == SESSIONS_REVERSED ? SESSIONS - 1 - i : i;
}

static bool gets(const struct session *session, enum kind kind)
{
    return session->phase == STARTED && session->subscription[kind].subscribed;
}

/* The revision in which a subscription's notices are told; only an open notice that is sent again
   has a clock. */
static unsigned told_in(const struct subscription *part, enum kind kind)
{
    bool in_1 = (FAULT == REPEATED_IN_REVISION_1 && part->clock > 0)
        || (FAULT == FREE_IN_REVISION_1 && part->free);
    return in_1 && kind == TIGHTENING ? 1 : part->revision;
}

/* Planted: are limits that are none told as zeros here? */
static bool zeros_for_none(const struct subscription *part, unsigned revision)
{
    return (FAULT == NONE_AS_ZEROS_IN_REVISION_1 && revision == 1)
        || (FAULT == NONE_AS_ZEROS_IN_REVISION_5 && revision == 5)
        || (FAULT == NONE_AS_ZEROS_IN_COPIES && part->clock > 0);
}

/* Puts out a copy of a notice: an identifier, a result, or an alarm. */
static void send_notice(const struct state *state, unsigned s, enum kind kind,
                        const uint8_t *notice, struct output *output)
{
    const struct subscription *part = &state->session[s].subscription[kind];
    unsigned revision = told_in(part, kind);
    uint8_t altered[RESULT_BYTES];
    if (kind == TIGHTENING && zeros_for_none(part, revision)) {
        memcpy(altered, notice, RESULT_BYTES);
        put_zeros(altered);
        notice = altered;
    }
    bool header_of_1 = FAULT == REVISION_1_IN_THE_HEADER && kind == TIGHTENING;
    struct frame frame = begin_frame(KIND_RULES[kind].notice, header_of_1 ? 1 : revision,
                                     part->free ? '1' : '0');
    if (kind == IDENTIFIER)
        add_fields(&frame, revision >= 2 ? &IDENTIFIER_2 : &IDENTIFIER_1, state->settings, notice);
    else if (kind == TIGHTENING)
        add_result(&frame, revision, notice);
    else
        add_bytes(&frame, notice, ALARM_DATA_BYTES);
    if (FAULT == STAMPED_WHEN_SENT && kind == TIGHTENING) { /* only now, where it is blank */
        uint8_t *identifier = frame.bytes + HEADER_BYTES + 39;
        if (all_spaces(identifier, TEXT_BYTES))
            memcpy(identifier, state->in_force, TEXT_BYTES);
    }
    send_frame(output, s, &frame);
}

static void send_open(struct state *state, unsigned s, enum kind kind, struct output *output)
{
    send_notice(state, s, kind, notices(&state->session[s], kind), output);
}

static void drop_open(struct session *session, enum kind kind)
{
    struct subscription *part = &session->subscription[kind];
    part->count -= 1;
    if (FAULT != CLOCK_NOT_RESET || part->count == 0)
        part->clock = 0;
    memmove(notices(session, kind), notices(session, kind) + KIND_RULES[kind].bytes,
            part->count * KIND_RULES[kind].bytes);
}

/* Planted: results that wait are looked for in the memory, so that those too old for it are lost. */
static bool lost(const struct state *state, unsigned s)
{
    const struct session *session = &state->session[s];
    const uint8_t *digits = session->notice + RESULTS_AT + RESULT_BYTES - NUMBER_DIGITS;
    return session->subscription[TIGHTENING].count > 0
        && find_kept(state, decimal(digits, NUMBER_DIGITS)) == NULL;
}

/* Planted: the open result goes out in the revision of the last other session that is subscribed. */
static void send_as_another(struct state *state, unsigned s, struct output *output)
{
    unsigned *revision = &state->session[s].subscription[TIGHTENING].revision, own = *revision;
    for (unsigned other = 0; other < SESSIONS; other++)
        if (other != s && gets(&state->session[other], TIGHTENING))
            *revision = state->session[other].subscription[TIGHTENING].revision;
    send_open(state, s, TIGHTENING, output);
    *revision = own;
}

/* Ends the open notice and sends the one behind it, if there is one. */
static void next_notice(struct state *state, unsigned s, enum kind kind, struct output *output)
{
    struct session *session = &state->session[s];
    drop_open(session, kind);
    while (FAULT == WAITING_LOST_BEHIND_64 && kind == TIGHTENING && lost(state, s))
        drop_open(session, kind);
    if (session->subscription[kind].count == 0)
        return;
    if (FAULT == WAITED_IN_ANOTHERS_REVISION && kind == TIGHTENING)
        send_as_another(state, s, output);
    else
        send_open(state, s, kind, output);
}

static void acknowledge(struct state *state, unsigned s, enum kind kind, struct output *output)
{
    struct session *session = &state->session[s];
    struct subscription *part = &session->subscription[kind];
    if (part->count == 0)
        return;
    if (PLACES_PLANTED && kind == TIGHTENING)
        plant_in_acknowledged(session);
    if (FAULT == NEXT_WAITS_FOR_REPEAT) {
        drop_open(session, kind);
        return;
    }
    if (FAULT == ACKNOWLEDGE_CLOSES_TWO && part->count > 1)
        drop_open(session, kind);
    next_notice(state, s, kind, output);
}

/* Puts the newest notice at its place in the queue; it goes out at once if it is alone. */
static void hold(struct state *state, unsigned s, enum kind kind, const uint8_t *notice,
                 struct output *output)
{
    struct session *session = &state->session[s];
    struct subscription *part = &session->subscription[kind];
    memcpy(notices(session, kind) + part->count * KIND_RULES[kind].bytes, notice, KIND_RULES[kind].bytes);
    if (FAULT == NONE_AS_ZEROS_WHEN_WAITED && kind == TIGHTENING && part->count > 0)
        put_zeros(notices(session, kind) + part->count * RESULT_BYTES);
    part->count += 1;
    if (PLACES_PLANTED && kind == TIGHTENING)
        plant_in_held(state, s, notice);
    if (FAULT == ARRIVAL_RESETS_CLOCK)
        part->clock = 0;
    if (part->count == 1) {
        part->clock = 0;
        send_open(state, s, kind, output);
    }
}

/* A notice for one session; is it taken? A newer identifier replaces the waiting one. */
static bool offer(struct state *state, unsigned s, enum kind kind, const uint8_t *notice,
                  struct output *output)
{
    struct subscription *part = &state->session[s].subscription[kind];
    if (part->free && part->count == 0) {
        send_notice(state, s, kind, notice, output);
        return FAULT != FREE_SESSION_NOT_TAKEN;
    }
    if (part->count == KIND_RULES[kind].held) {
        if (!KIND_RULES[kind].replaced)
            return false;
        if (FAULT == WAITING_NOT_REPLACED)
            return true;
        part->count -= 1;
    }
    if (PLACES_PLANTED && kind == TIGHTENING && !find_place(state, notice))
        return false;
    hold(state, s, kind, notice, output);
    return true;
}

/* Hands a notice to all who asked for its kind; answers who took it. */
static uint64_t offer_all(struct state *state, enum kind kind, const uint8_t *notice,
                          unsigned left_out, struct output *output)
{
    uint64_t taken = 0;
    for (unsigned i = 0; i < SESSIONS; i++) {
        unsigned s = in_turn(i);
        if (s == left_out || !gets(&state->session[s], kind))
            continue;
        if (offer(state, s, kind, notice, output))
            taken |= UINT64_C(1) << s;
    }
    return taken;
}

/* An identifier, scanned or downloaded: it becomes the one in force. */
static uint64_t identifier_event(struct state *state, const uint8_t *identifier,
                                 unsigned left_out, struct output *output)
{
    memcpy(state->in_force, identifier, TEXT_BYTES);
    return offer_all(state, IDENTIFIER, identifier, left_out, output);
}

/* Planted: where one of the six limits is none, all are. */
static void spread_none(uint8_t *tightening)
{
    bool some = false;
    for (unsigned name = TORQUE_MIN; name <= ANGLE_TARGET; name++)
        some |= is_none(name, number_in(tightening, name));
    for (unsigned name = TORQUE_MIN; some && name <= ANGLE_TARGET; name++)
        if (FIELDS[name].sort == LIMIT)
            put_number_in(tightening, name, NEVER_SET);
}

/* A tightening that has come, told by the data field of a layout: with the next number, and the
   tool's own identifier or, where that is all spaces, the one in force. `late` is the planted
   fault that puts in the latter only when the field is sent. */
static struct frame tell(const struct layout *layout, const struct state *state,
                         const uint8_t *tightening, enum fault late)
{
    uint8_t told[TIGHTENING_BYTES + 4];
    struct frame data = { .length = 0 };
    memcpy(told, tightening, TIGHTENING_BYTES);
    if (all_spaces(told, TEXT_BYTES) && FAULT != (int)late)
        memcpy(told, state->in_force, TEXT_BYTES);
    put_number_in(told, RESULT_NUMBER, number_in(state->settings, LAST) + 1);
    if (FAULT == ONE_NONE_FOR_ALL)
        spread_none(told);
    add_fields(&data, layout, state->settings, told);
    return data;
}

/* What is told of a tightening is made once, when it comes: for the notices, and for the memory,
   which keeps it whether or not a session takes it. */
static uint64_t tightening_event(struct state *state, const uint8_t *tightening,
                                 struct output *output)
{
    struct frame result = tell(&RESULT_1, state, tightening, STAMPED_WHEN_SENT);
    struct frame old_result = tell(&OLD_RESULT_1, state, tightening, STAMPED_WHEN_FETCHED);
    uint32_t number = number_in(state->settings, LAST) + 1;
    assert(result.length == RESULT_BYTES);
    if (FAULT == TORQUE_BLANK_WITH_ITS_LIMITS)
        blank_torque(result.bytes);
    uint64_t taken = offer_all(state, TIGHTENING, result.bytes, SESSIONS, output);
    if (FAULT != NUMBER_ONLY_WHEN_TAKEN || taken != 0)
        put_number_in(state->settings, LAST, number);
    if ((FAULT != UNTAKEN_NOT_KEPT || taken != 0) && !(FAULT == NONE_NOT_KEPT && some_none_in(result.bytes)))
        keep(&state->memory, old_result.bytes);
    return taken;
}

/* Planted: an alarm is counted or kept as a tightening, or becomes the identifier in force. */
static void leave_its_mark(struct state *state, const uint8_t *alarm)
{
    uint8_t place[OLD_RESULT_BYTES];
    uint32_t last = number_in(state->settings, LAST);
    if (FAULT == ALARM_COUNTED && last < LAST_NUMBER_GREATEST)
        put_number_in(state->settings, LAST, last + 1);
    memset(place, ' ', sizeof place);
    memcpy(place, alarm, CODE_BYTES);
    if (FAULT == ALARM_KEPT)
        keep(&state->memory, place);
    if (FAULT == ALARM_IN_FORCE)
        memcpy(state->in_force, place, TEXT_BYTES);
}

/* What is told of an alarm is made when it comes, too; there is nothing else that it changes. */
static uint64_t alarm_event(struct state *state, const uint8_t *alarm, struct output *output)
{
    struct frame data = { .length = 0 };
    add_fields(&data, &ALARM_1, state->settings, alarm);
    assert(data.length == ALARM_DATA_BYTES);
    leave_its_mark(state, alarm);
    uint64_t taken = offer_all(state, ALARM, data.bytes, SESSIONS, output);
    return FAULT == ALARM_NOT_IN_TAKEN ? 0 : taken;
}

/* ---------------------------------------------------------------- sessions */

/* Planted: notices live on, where `keeping` is the fault that keeps those of every kind. */
static bool lives_on(enum kind kind, enum fault keeping)
{
    enum fault alone = keeping == KEPT_THROUGH_HANG_UP ? ALARMS_KEPT_THROUGH_HANG_UP
        : keeping == KEPT_THROUGH_STOP ? ALARMS_KEPT_THROUGH_STOP
        : ALARMS_KEPT_THROUGH_TIME_OUT;
    return FAULT == (int)keeping || (FAULT == (int)alone && kind == ALARM);
}

/* Ends what a session had. Nothing lives on: no subscription, no notice, open or
   waiting, no part of a run. `keeping` is the planted fault that keeps the notices here. */
static void clear_session(struct session *session, enum phase next, enum fault keeping)
{
    struct session before = *session;
    memset(session, 0, sizeof *session);
    session->phase = next;
    if (FAULT == NO_FAULT)
        return;
    memcpy(session->notice, before.notice, sizeof before.notice);
    for (unsigned kind = 0; kind < KINDS; kind++) {
        if (!lives_on((enum kind)kind, keeping))
            continue;
        session->subscription[kind].count = before.subscription[kind].count;
        session->subscription[kind].clock = before.subscription[kind].clock;
        session->subscription[kind].revision = before.subscription[kind].revision;
    }
    if (FAULT == CLOSE_CLEARS_NOTHING && next == CLOSED) {
        *session = before;
        session->phase = CLOSED;
        session->idle = 0;
    }
    if (FAULT == RUN_KEPT_THROUGH_HANG_UP && next == CLOSED) {
        session->run_length = before.run_length;
        memcpy(session->run, before.run, sizeof before.run);
    }
}

/* One tick of the open notice of a kind. */
static void tick_notice(struct state *state, unsigned s, enum kind kind, struct output *output)
{
    struct subscription *part = &state->session[s].subscription[kind];
    if (part->count == 0 || (FAULT == ALARM_CLOCK_STANDS && kind == ALARM))
        return;
    part->clock += 1;
    if (part->clock >= GIVE_UP_TICKS) {
        if (FAULT == COPY_AT_120)
            send_open(state, s, kind, output);
        if (FAULT == CLOCK_NOT_RESET)
            part->clock = 0;
        next_notice(state, s, kind, output);
    } else if (part->clock % REPEAT_TICKS == 0) {
        if (FAULT == FOUR_REPEATS && part->clock == 100)
            return;
        send_open(state, s, kind, output);
    }
}

/* The kinds of one session, one after the other. */
static void tick_notices(struct state *state, unsigned s, struct output *output)
{
    static const enum kind PLANTED[KINDS] = { IDENTIFIER, ALARM, TIGHTENING };
    for (unsigned kind = 0; kind < KINDS; kind++)
        if (FAULT != ALARMS_BEHIND_ALL_SESSIONS || kind != ALARM)
            tick_notice(state, s, FAULT == ALARMS_BEFORE_RESULTS ? PLANTED[kind] : (enum kind)kind, output);
}

static void tick_session(struct state *state, unsigned s, struct output *output)
{
    struct session *session = &state->session[s];
    if (session->phase == CLOSED)
        return;
    session->idle += 1;
    bool over = session->idle == IDLE_LIMIT;
    if (!over || FAULT == RESENT_ON_TIME_OUT)
        tick_notices(state, s, output);
    if (over) {
        put_record(output, RECORD_KIND_CLOSE + s, NULL, 0);
        if (PLACES_PLANTED)
            plant_in_time_out(session);
        clear_session(session, CLOSED, KEPT_THROUGH_TIME_OUT);
        forget_kept(&state->memory, MEMORY_GONE_AT_TIME_OUT);
    }
}

/* ---------------------------------------------------------------- messages */

/* The lengths and the greatest revision of each message; the least revision is 1. */
struct rule {
    unsigned mid;
    unsigned least_length;
    unsigned greatest_length;
    unsigned greatest_revision;
};

static const struct rule RULES[] = {
    { MID_START, 20, 20, 1 },
    { MID_STOP, 20, 20, REVISION_NOT_READ },
    { MID_DOWNLOAD, 21, DOWNLOAD_GREATEST, 1 },
    { MID_SUBSCRIBE_IDENTIFIER, 20, 20, IDENTIFIER_REVISION_GREATEST },
    { MID_ACKNOWLEDGE_IDENTIFIER, 20, 20, REVISION_NOT_READ },
    { MID_UNSUBSCRIBE_IDENTIFIER, 20, 20, REVISION_NOT_READ },
    { MID_SUBSCRIBE_TIGHTENING, 20, 20, RESULT_REVISION_GREATEST },
    { MID_ACKNOWLEDGE_TIGHTENING, 20, 20, REVISION_NOT_READ },
    { MID_UNSUBSCRIBE_TIGHTENING, 20, 20, REVISION_NOT_READ },
    { MID_FETCH, HEADER_BYTES + NUMBER_DIGITS, HEADER_BYTES + NUMBER_DIGITS,
      FAULT == FETCH_REVISION_NOT_READ ? REVISION_NOT_READ : 1 },
    { MID_SUBSCRIBE_ALARM, 20, 20, ALARM_REVISION_GREATEST },
    { MID_ACKNOWLEDGE_ALARM, 20, 20, REVISION_NOT_READ },
    { MID_UNSUBSCRIBE_ALARM, 20, 20, FAULT == REVISION_OF_0073_READ ? 1 : REVISION_NOT_READ },
    { MID_KEEP_ALIVE, 20, 20, REVISION_NOT_READ },
};

static const struct rule *find_rule(unsigned mid)
{
    for (size_t i = 0; i < sizeof RULES / sizeof RULES[0]; i++)
        if (RULES[i].mid == mid)
            return &RULES[i];
    return NULL;
}

/* A run that passed the header rule. */
struct message {
    const uint8_t *bytes; /* the kept bytes: all of it up to the 45th */
    unsigned length;
    unsigned mid;
    unsigned revision;
    bool free; /* byte 12 is '1' */
};

static bool read_revision(const uint8_t *bytes, unsigned *revision)
{
    bool spaces = all_spaces(bytes, 3);
    if (FAULT == MIXED_REVISION) {
        uint8_t filled[3];
        for (unsigned i = 0; i < 3; i++)
            filled[i] = bytes[i] == ' ' ? '0' : bytes[i];
        if (!all_digits(filled, 3))
            return false;
        *revision = decimal(filled, 3) == 0 ? 1 : decimal(filled, 3);
        return true;
    }
    if (!spaces && !all_digits(bytes, 3))
        return false;
    *revision = spaces ? 1 : decimal(bytes, 3);
    if (*revision == 0 && FAULT != REVISION_000_REFUSED)
        *revision = 1;
    return true;
}

/* Is the run a message? Bytes 13 to 20 are not read. */
static bool read_header(const uint8_t *run, unsigned length, struct message *message)
{
    if (FAULT == RUN_LENGTH_BY_DIGITS && length > RUN_GREATEST)
        length = decimal(run, 4); /* trusts the digits once the count is past them */
    if (length < HEADER_BYTES || length > RUN_GREATEST)
        return false;
    if (!all_digits(run, 8))
        return false;
    if (decimal(run, 4) != (FAULT == NUL_COUNTED ? length + 1 : length))
        return false;
    if (!read_revision(run + 8, &message->revision))
        return false;
    if (FAULT == REVISION_CUT_TO_8_BITS)
        message->revision &= 0xff;
    uint8_t byte_12 = run[11];
    if (byte_12 != '0' && byte_12 != '1' && byte_12 != ' ' && FAULT != BYTE_12_NOT_READ)
        return false;
    message->bytes = run;
    message->length = length;
    message->mid = decimal(run + 4, 4);
    message->free = byte_12 == '1';
    return true;
}

static bool length_wrong(const struct rule *rule, const struct message *message)
{
    return message->length < rule->least_length || message->length > rule->greatest_length;
}

static bool revision_wrong(const struct rule *rule, const struct message *message)
{
    if (rule->greatest_revision == REVISION_NOT_READ)
        return false;
    return message->revision < 1 || message->revision > rule->greatest_revision;
}

/* The tests of length and revision, which every message meets in this order. */
static unsigned test_form(const struct rule *rule, const struct message *message)
{
    if (FAULT == REVISION_BEFORE_LENGTH && revision_wrong(rule, message))
        return REVISION_UNSUPPORTED;
    if (length_wrong(rule, message))
        return INVALID_DATA;
    if (revision_wrong(rule, message))
        return REVISION_UNSUPPORTED;
    return NO_ERROR;
}

static bool data_good(const uint8_t *data, size_t count)
{
    for (size_t i = 0; i < count; i++)
        if (data[i] < 0x20 || data[i] > (FAULT == DATA_7F ? 0x7f : 0x7e))
            return false;
    return true;
}

static void download(struct state *state, unsigned s, const struct message *message,
                     struct output *output)
{
    const uint8_t *data = message->bytes + HEADER_BYTES;
    size_t count = message->length - HEADER_BYTES;
    bool granted = number_in(state->settings, GRANTED) == 1;
    if (FAULT == GRANT_BEFORE_DATA && !granted) {
        send_error(output, s, MID_DOWNLOAD, NOT_GRANTED);
        return;
    }
    if (!data_good(data, count)) {
        send_error(output, s, MID_DOWNLOAD, INVALID_DATA);
        return;
    }
    if (!granted) {
        send_error(output, s, MID_DOWNLOAD, NOT_GRANTED);
        return;
    }
    uint8_t identifier[TEXT_BYTES];
    memset(identifier, ' ', sizeof identifier);
    if (FAULT == IDENTIFIER_NOT_PADDED)
        memcpy(identifier, state->in_force, sizeof identifier);
    memcpy(identifier, data, count < TEXT_BYTES ? count : TEXT_BYTES);
    if (FAULT != REPLY_AFTER_NOTICES)
        send_accepted(output, s, MID_DOWNLOAD);
    identifier_event(state, identifier, FAULT == SENDER_LEFT_OUT ? s : SESSIONS, output);
    if (FAULT == REPLY_AFTER_NOTICES)
        send_accepted(output, s, MID_DOWNLOAD);
}

static void subscribe(struct session *session, unsigned s, enum kind kind,
                      const struct message *message, struct output *output)
{
    struct subscription *part = &session->subscription[kind];
    if (part->subscribed) {
        send_error(output, s, message->mid, KIND_RULES[kind].subscribed);
        return;
    }
    part->subscribed = true;
    if (FAULT != REVISION_STICKS || part->revision == 0)
        part->revision = message->revision;
    if (FAULT == REVISION_OF_ALL_KINDS)
        for (unsigned each = 0; each < KINDS; each++)
            session->subscription[each].revision = message->revision;
    part->free = message->free || (FAULT == FREE_FLAG_STICKS && part->free);
    if (FAULT == BYTE_12_OF_0070_NOT_READ && kind == ALARM)
        part->free = false;
    send_accepted(output, s, message->mid);
}

static void forget(struct subscription *part)
{
    struct subscription before = *part;
    memset(part, 0, sizeof *part);
    if (FAULT == KEPT_THROUGH_UNSUBSCRIBE) {
        *part = before;
        part->subscribed = false;
        part->free = false;
    }
    if (FAULT == FREE_FLAG_STICKS)
        part->free = before.free;
    if (FAULT == REVISION_STICKS)
        part->revision = before.revision;
}

/* Planted: 0073 leaves the open alarm, or those that wait. */
static void leave_alarms(struct session *session, const struct subscription *before)
{
    struct subscription *part = &session->subscription[ALARM];
    if (before->count == 0)
        return;
    part->revision = before->revision;
    part->clock = before->clock;
    part->count = FAULT == OPEN_ALARM_LEFT ? 1 : before->count;
    if (FAULT == WAITING_ALARMS_LEFT)
        drop_open(session, ALARM);
}

static void unsubscribe(struct session *session, unsigned s, enum kind kind,
                        const struct message *message, struct output *output)
{
    struct subscription before = session->subscription[kind];
    if (!before.subscribed) {
        send_error(output, s, message->mid, KIND_RULES[kind].not_subscribed);
        return;
    }
    forget(&session->subscription[kind]);
    if (kind == ALARM && (FAULT == OPEN_ALARM_LEFT || FAULT == WAITING_ALARMS_LEFT))
        leave_alarms(session, &before);
    for (unsigned each = 0; FAULT == UNSUBSCRIBE_CLEARS_ALL && each < KINDS; each++)
        forget(&session->subscription[each]);
    send_accepted(output, s, message->mid);
}

/* An old result by its number, in ten digits; 0 asks for the newest. */
static void fetch(const struct state *state, unsigned s, const struct message *message,
                  struct output *output)
{
    uint8_t digits[NUMBER_DIGITS];
    memcpy(digits, message->bytes + HEADER_BYTES, sizeof digits);
    if (FAULT == SPACE_FOR_DIGIT)
        for (unsigned i = 0; i < NUMBER_DIGITS; i++)
            digits[i] = digits[i] == ' ' ? '0' : digits[i];
    const uint8_t *kept = find_kept(state, decimal(digits, NUMBER_DIGITS));
    unsigned error = !all_digits(digits, NUMBER_DIGITS) ? INVALID_DATA
        : kept == NULL ? NUMBER_NOT_KEPT
        : NO_ERROR;
    if (FAULT == NOT_KEPT_BEFORE_DATA && kept == NULL)
        error = NUMBER_NOT_KEPT;
    if (FAULT == FETCH_NEEDS_SUBSCRIPTION && !state->session[s].subscription[TIGHTENING].subscribed)
        error = TIGHTENING_NOT_SUBSCRIBED;
    if (error != NO_ERROR)
        send_error(output, s, MID_FETCH, error);
    else
        send_old_result(state, s, kept, output);
}

static void stop(struct state *state, unsigned s, struct output *output)
{
    clear_session(&state->session[s], OPENED, KEPT_THROUGH_STOP);
    forget_kept(&state->memory, MEMORY_GONE_AT_STOP);
    if (FAULT == STOP_FORGETS_IDENTIFIER)
        memset(state->in_force, ' ', TEXT_BYTES);
    send_accepted(output, s, MID_STOP);
}

/* The kind of notice that a message subscribes to, acknowledges or unsubscribes. */
static enum kind kind_of(unsigned mid)
{
    unsigned kind = 0;
    while (mid < KIND_RULES[kind].subscribe || mid > KIND_RULES[kind].unsubscribe)
        kind++;
    return (enum kind)kind;
}

static bool is_acknowledge(unsigned mid)
{
    for (unsigned kind = 0; kind < KINDS; kind++)
        if (mid == KIND_RULES[kind].acknowledge)
            return true;
    return false;
}

/* What a message does that has passed the tests of length and revision. */
static void perform(struct state *state, unsigned s, const struct message *message,
                    struct output *output)
{
    struct session *session = &state->session[s];
    switch (message->mid) {
    case MID_STOP:
        stop(state, s, output);
        break;
    case MID_DOWNLOAD:
        download(state, s, message, output);
        break;
    case MID_SUBSCRIBE_IDENTIFIER:
    case MID_SUBSCRIBE_TIGHTENING:
    case MID_SUBSCRIBE_ALARM:
        subscribe(session, s, kind_of(message->mid), message, output);
        break;
    case MID_UNSUBSCRIBE_IDENTIFIER:
    case MID_UNSUBSCRIBE_TIGHTENING:
    case MID_UNSUBSCRIBE_ALARM:
        unsubscribe(session, s, kind_of(message->mid), message, output);
        break;
    case MID_FETCH:
        fetch(state, s, message, output);
        break;
    case MID_KEEP_ALIVE:
        send_mirrored(output, s, message->bytes);
        break;
    default:
        break;
    }
}

/* 0053, 0062 and 0072: never a reply, and nothing at all where the length is wrong. */
static void perform_acknowledge(struct state *state, unsigned s, const struct rule *rule,
                                const struct message *message, struct output *output)
{
    enum kind kind = kind_of(message->mid);
    if (length_wrong(rule, message) && FAULT != LONG_ACKNOWLEDGE_TAKEN) {
        if (FAULT == LONG_0072_REFUSED && kind == ALARM)
            send_error(output, s, message->mid, INVALID_DATA);
        return;
    }
    if (FAULT == REPLY_TO_0072 && kind == ALARM)
        send_accepted(output, s, message->mid);
    acknowledge(state, s, FAULT == RESULT_CLOSED_BY_0072 && kind == ALARM ? TIGHTENING : kind, output);
    if (FAULT == ALARM_CLOSED_BY_0062 && kind == TIGHTENING)
        acknowledge(state, s, ALARM, output);
}

/* Planted: an acknowledge that finds nothing open, or an 0064, is taken for no sign of life. */
static bool overlooked(const struct session *session, unsigned mid)
{
    if (FAULT == FETCH_KEEPS_IDLE && mid == MID_FETCH)
        return true;
    return FAULT == EMPTY_ACKNOWLEDGE_KEEPS_IDLE && is_acknowledge(mid)
        && session->subscription[kind_of(mid)].count == 0;
}

/* Planted: what only the controller sends, or what would acknowledge a message that is not built, gets no reply. */
static bool unanswered(unsigned mid)
{
    return (FAULT == SILENCE_FOR_0071 && mid == 71)
        || (FAULT == SILENCE_FOR_0075_AND_0077 && (mid == 75 || mid == 77));
}

/* The tests of length and revision; planted: 11 before the latter. */
static unsigned test_of(const struct session *session, const struct rule *rule, const struct message *message)
{
    if (FAULT == SUBSCRIBED_BEFORE_REVISION && message->mid == MID_SUBSCRIBE_ALARM
        && !length_wrong(rule, message) && session->subscription[ALARM].subscribed)
        return ALARM_SUBSCRIBED;
    return test_form(rule, message);
}

/* 96 for a second 0001, which comes before the test of its length. */
static unsigned second_start(const struct rule *rule, const struct message *message)
{
    if (FAULT == LENGTH_BEFORE_96 && length_wrong(rule, message))
        return INVALID_DATA;
    return ALREADY_STARTED;
}

static void message_when_started(struct state *state, unsigned s, const struct message *message,
                                 struct output *output)
{
    struct session *session = &state->session[s];
    const struct rule *rule = find_rule(message->mid);
    if (!overlooked(session, message->mid))
        session->idle = 0;
    if (rule == NULL) {
        if (!unanswered(message->mid))
            send_error(output, s, message->mid, UNKNOWN_MESSAGE);
        return;
    }
    if (message->mid == MID_START) {
        send_error(output, s, MID_START, second_start(rule, message));
        return;
    }
    if (is_acknowledge(message->mid)) {
        perform_acknowledge(state, s, rule, message, output);
        return;
    }
    unsigned error = test_of(session, rule, message);
    if (error != NO_ERROR) {
        send_error(output, s, message->mid, error);
        return;
    }
    perform(state, s, message, output);
}

/* Before the start only 0001 counts. */
static void message_when_opened(struct state *state, unsigned s, const struct message *message,
                                struct output *output)
{
    struct session *session = &state->session[s];
    if (FAULT == UNSTARTED_CHATTER_RESETS_IDLE)
        session->idle = 0;
    if (message->mid != MID_START)
        return;
    unsigned error = test_form(find_rule(MID_START), message);
    if (error != NO_ERROR) {
        if (FAULT == REFUSED_START_RESETS_IDLE)
            session->idle = 0;
        send_error(output, s, MID_START, error);
        return;
    }
    session->phase = STARTED;
    session->idle = 0;
    send_started(output, s, state->settings);
}

/* ---------------------------------------------------------------- runs */

static void extend_run(struct session *session, const uint8_t *bytes, size_t count)
{
    size_t kept = run_kept(session);
    size_t more = count < RUN_KEPT - kept ? count : RUN_KEPT - kept;
    if (FAULT == PARTIAL_RUN_RESETS_IDLE && session->phase == STARTED && count > 0)
        session->idle = 0;
    if (more > 0)
        memcpy(session->run + kept, bytes, more);
    if (FAULT == RUN_LENGTH_16_BITS)
        session->run_length = (session->run_length + count) & 0xffff;
    else if (count > RUN_COUNTED - session->run_length)
        session->run_length = RUN_COUNTED;
    else
        session->run_length += (unsigned)count;
}

static void end_run(struct state *state, unsigned s, struct output *output)
{
    struct session *session = &state->session[s];
    struct message message;
    uint8_t run[RUN_KEPT];
    unsigned length = session->run_length;
    memcpy(run, session->run, sizeof run);
    session->run_length = 0;
    memset(session->run, 0, sizeof session->run);
    if (!read_header(run, length, &message)) {
        if (FAULT == DROPPED_RUN_RESETS_IDLE && session->phase == STARTED)
            session->idle = 0;
        return;
    }
    if (session->phase == STARTED)
        message_when_started(state, s, &message, output);
    else
        message_when_opened(state, s, &message, output);
}

/* Reads through the first NUL, or everything if there is none; answers how much that was. */
static size_t consume(struct state *state, unsigned s, const uint8_t *bytes, size_t count,
                      struct output *output)
{
    const uint8_t *nul = count > 0 ? memchr(bytes, 0, count) : NULL;
    size_t before = nul != NULL ? (size_t)(nul - bytes) : count;
    extend_run(&state->session[s], bytes, before);
    if (nul == NULL)
        return before;
    end_run(state, s, output);
    return FAULT == NUL_NOT_CONSUMED ? before : before + 1;
}

/* ---------------------------------------------------------------- the calls */

static uint64_t reply(uint8_t *answer, uint64_t number, uint64_t consumed, uint64_t written,
                      uint64_t taken)
{
    put_little_endian(answer, 8, number);
    put_little_endian(answer + 8, 8, consumed);
    put_little_endian(answer + 16, 8, written);
    put_little_endian(answer + 24, 8, taken);
    return number;
}

static uint64_t refuse(uint8_t *answer, uint64_t number)
{
    return reply(answer, number, 0, 0, 0);
}

/* The end of a call that is done: only now are the table and the output written. */
static uint64_t finish(uint8_t *table, const struct state *state,
                       uint8_t *lent, const struct output *output,
                       uint8_t *answer, uint64_t consumed, uint64_t taken)
{
    save(table, state);
    if (FAULT == WHOLE_OUTPUT_WRITTEN)
        memcpy(lent, output->bytes, sizeof output->bytes);
    if (output->written > 0)
        memcpy(lent, output->bytes, output->written);
    return reply(answer, DONE, consumed, output->written, taken);
}

/* Numbers 1 to 3, which all calls but start have in common. */
static uint64_t enter(const uint8_t *table, size_t table_len, size_t output_len,
                      struct state *state)
{
    if (table_len < TABLE_LEAST)
        return TABLE_SHORT;
    if (FAULT == OUTPUT_BEFORE_TABLE && output_len < OUTPUT_LEAST)
        return OUTPUT_SHORT;
    if (!load(table, state))
        return TABLE_NOT_WELL_FORMED;
    if (output_len < OUTPUT_LEAST)
        return OUTPUT_SHORT;
    return DONE;
}

/* Numbers 1 to 4, for the calls that name a session. */
static uint64_t enter_session(const uint8_t *table, size_t table_len, size_t output_len,
                              uint64_t session, struct state *state)
{
    uint64_t number = enter(table, table_len, output_len, state);
    if (FAULT == SESSION_BEFORE_OUTPUT && number == OUTPUT_SHORT && session >= SESSIONS)
        return SESSION_ABOVE_3;
    if (number != DONE)
        return number;
    if (FAULT == SESSION_CUT_TO_32_BITS)
        session = (uint32_t)session;
    return session >= SESSIONS ? SESSION_ABOVE_3 : DONE;
}

uint64_t independent_start(uint8_t *table, size_t table_len,
                           const uint8_t *settings, size_t settings_len,
                           uint8_t *answer, size_t answer_len)
{
    struct state state = { 0 };
    if (answer_len < INDEPENDENT_ANSWER_BYTES)
        return ANSWER_SHORT;
    if (table_len < TABLE_LEAST)
        return refuse(answer, TABLE_SHORT);
    if (!is_record(settings, settings_len, RECORD_KIND_SETTINGS, SETTINGS_BYTES)
        || !fields_good(settings + RECORD_HEADER_BYTES, CELL, LAST))
        return refuse(answer, SETTINGS_BAD);
    memcpy(state.settings, settings + RECORD_HEADER_BYTES, SETTINGS_BYTES);
    if (FAULT == FULL_SETTINGS_REFUSED && number_in(state.settings, LAST) == LAST_NUMBER_GREATEST)
        return refuse(answer, SETTINGS_BAD);
    memset(state.in_force, ' ', TEXT_BYTES);
    if (FAULT == START_KEEPS_IDENTIFIER) {
        static struct state before;
        if (load(table, &before))
            memcpy(state.in_force, before.in_force, TEXT_BYTES);
    }
    if (FAULT == MEMORY_KEPT_THROUGH_START) {
        static struct state before;
        if (load(table, &before))
            state.memory = before.memory;
    }
    if (PLACES_PLANTED)
        memset(places, 0, sizeof places);
    save(table, &state);
    return reply(answer, DONE, 0, 0, 0);
}

uint64_t independent_open(uint8_t *table, size_t table_len,
                          uint8_t *output, size_t output_len,
                          uint64_t session,
                          uint8_t *answer, size_t answer_len)
{
    struct state state = { 0 };
    struct output gathered = { .written = 0 };
    if (answer_len < INDEPENDENT_ANSWER_BYTES)
        return ANSWER_SHORT;
    if (FAULT == OPEN_NEEDS_NO_OUTPUT)
        output_len = INDEPENDENT_OUTPUT_BYTES;
    uint64_t number = enter_session(table, table_len, output_len, session, &state);
    if (number != DONE)
        return refuse(answer, number);
    unsigned s = (unsigned)session;
    if (state.session[s].phase != CLOSED)
        return refuse(answer, SESSION_NOT_CLOSED);
    state.session[s].phase = OPENED; /* a closed session is clear already */
    return finish(table, &state, output, &gathered, answer, 0, 0);
}

uint64_t independent_hang_up(uint8_t *table, size_t table_len,
                             uint8_t *output, size_t output_len,
                             uint64_t session,
                             uint8_t *answer, size_t answer_len)
{
    struct state state = { 0 };
    struct output gathered = { .written = 0 };
    if (answer_len < INDEPENDENT_ANSWER_BYTES)
        return ANSWER_SHORT;
    if (FAULT == OPEN_NEEDS_NO_OUTPUT)
        output_len = INDEPENDENT_OUTPUT_BYTES;
    uint64_t number = enter_session(table, table_len, output_len, session, &state);
    if (number != DONE)
        return refuse(answer, number);
    unsigned s = (unsigned)session;
    if (state.session[s].phase == CLOSED)
        return refuse(answer, SESSION_CLOSED);
    clear_session(&state.session[s], CLOSED, KEPT_THROUGH_HANG_UP);
    forget_kept(&state.memory, MEMORY_GONE_AT_HANG_UP);
    return finish(table, &state, output, &gathered, answer, 0, 0);
}

uint64_t independent_bytes(uint8_t *table, size_t table_len,
                           uint8_t *output, size_t output_len,
                           uint64_t session,
                           const uint8_t *bytes, size_t bytes_len,
                           uint8_t *answer, size_t answer_len)
{
    struct state state = { 0 };
    struct output gathered = { .written = 0 };
    if (answer_len < INDEPENDENT_ANSWER_BYTES)
        return ANSWER_SHORT;
    uint64_t number = enter_session(table, table_len, output_len, session, &state);
    if (number != DONE)
        return refuse(answer, number);
    unsigned s = (unsigned)session;
    if (state.session[s].phase == CLOSED)
        return refuse(answer, SESSION_CLOSED);
    size_t consumed = consume(&state, s, bytes, bytes_len, &gathered);
    return finish(table, &state, output, &gathered, answer, consumed, 0);
}

uint64_t independent_tick(uint8_t *table, size_t table_len,
                          uint8_t *output, size_t output_len,
                          uint8_t *answer, size_t answer_len)
{
    struct state state = { 0 };
    struct output gathered = { .written = 0 };
    if (FAULT == SHORT_ANSWER_BUT_DONE && answer_len < INDEPENDENT_ANSWER_BYTES) {
        uint8_t spare[INDEPENDENT_ANSWER_BYTES];
        independent_tick(table, table_len, output, output_len, spare, sizeof spare);
        return ANSWER_SHORT;
    }
    if (answer_len < INDEPENDENT_ANSWER_BYTES)
        return ANSWER_SHORT;
    uint64_t number = enter(table, table_len, output_len, &state);
    if (number != DONE)
        return refuse(answer, number);
    for (unsigned i = 0; i < SESSIONS; i++)
        tick_session(&state, in_turn(i), &gathered);
    for (unsigned s = 0; FAULT == ALARMS_BEHIND_ALL_SESSIONS && s < SESSIONS; s++)
        tick_notice(&state, s, ALARM, &gathered);
    return finish(table, &state, output, &gathered, answer, 0, 0);
}

/* Numbers 7 and 8 for a tightening record. */
static uint64_t judge_tightening(const struct state *state, const uint8_t *record, size_t length)
{
    bool used_up = number_in(state->settings, LAST) == LAST_NUMBER_GREATEST;
    if (!is_record(record, length, RECORD_KIND_TIGHTENING, TIGHTENING_BYTES))
        return RECORD_BAD;
    if (FAULT == EIGHT_BEFORE_SEVEN && used_up)
        return NUMBERS_USED_UP;
    if (!fields_good(record + RECORD_HEADER_BYTES, IDENTIFIER_TEXT, BATCH_STATUS))
        return RECORD_BAD;
    return used_up ? NUMBERS_USED_UP : DONE;
}

static bool is_scanned(const uint8_t *record, size_t length)
{
    return (is_record(record, length, RECORD_KIND_SCANNED, TEXT_BYTES)
            || (FAULT == TEXT_OF_KIND_5_SCANNED && is_record(record, length, RECORD_KIND_ALARM, TEXT_BYTES)))
        && fields_good(record + RECORD_HEADER_BYTES, IDENTIFIER_TEXT, IDENTIFIER_TEXT);
}

/* Reads an alarm; false where the record is none. */
static bool read_alarm(const uint8_t *record, size_t length, uint8_t *alarm)
{
    if (!is_record(record, length, RECORD_KIND_ALARM, ALARM_BYTES)
        && !(FAULT == ALARM_OF_KIND_2 && is_record(record, length, RECORD_KIND_SCANNED, ALARM_BYTES)))
        return false;
    memcpy(alarm, record + RECORD_HEADER_BYTES, ALARM_BYTES);
    for (unsigned ready = CODE_BYTES; FAULT == READY_DIGITS_TAKEN && ready < CODE_BYTES + 2; ready++)
        if (alarm[ready] == '0' || alarm[ready] == '1')
            alarm[ready] -= '0';
    return fields_good(alarm, ALARM_CODE, ALARMED_AT);
}

uint64_t independent_record(uint8_t *table, size_t table_len,
                            uint8_t *output, size_t output_len,
                            const uint8_t *record, size_t record_len,
                            uint8_t *answer, size_t answer_len)
{
    struct state state = { 0 };
    struct output gathered = { .written = 0 };
    uint8_t alarm[ALARM_BYTES];
    uint64_t taken;
    if (answer_len < INDEPENDENT_ANSWER_BYTES)
        return ANSWER_SHORT;
    uint64_t number = enter(table, table_len, output_len, &state);
    if (number != DONE)
        return refuse(answer, number);
    if (is_scanned(record, record_len)) {
        taken = identifier_event(&state, record + RECORD_HEADER_BYTES, SESSIONS, &gathered);
    } else if (read_alarm(record, record_len, alarm)) {
        if (FAULT == ALARM_GETS_8 && number_in(state.settings, LAST) == LAST_NUMBER_GREATEST)
            return refuse(answer, NUMBERS_USED_UP);
        taken = alarm_event(&state, alarm, &gathered);
    } else {
        number = judge_tightening(&state, record, record_len);
        if (FAULT == REFUSED_8_KEPT && number == NUMBERS_USED_UP) {
            struct frame told = tell(&OLD_RESULT_1, &state, record + RECORD_HEADER_BYTES,
                                     STAMPED_WHEN_FETCHED);
            keep(&state.memory, told.bytes);
            save(table, &state);
        }
        if (number != DONE)
            return refuse(answer, number);
        taken = tightening_event(&state, record + RECORD_HEADER_BYTES, &gathered);
    }
    return finish(table, &state, output, &gathered, answer, 0, taken);
}
