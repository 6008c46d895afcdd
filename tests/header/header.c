/* Whether the header says what the library does. One source, compiled as C and as C++: it makes all six calls, gets every number by its
   name, and finds every size and every place of the answer where the header says. */
#include "../../include/serifladder.h"

#include <stdio.h>
#include <string.h>

enum { MARK = 0xA5, TIGHTENING_PAYLOAD = 106, IDENTIFIER_PAYLOAD = 25, SETTINGS_PAYLOAD = 33, ALARM_PAYLOAD = 25 };

/* Each one byte longer than it has to be; that byte must stay. */
static uint8_t table[SERIFLADDER_TABLE_SIZE + 1], output[SERIFLADDER_OUTPUT_SIZE + 1], answer[SERIFLADDER_ANSWER_SIZE + 1];
static unsigned right, wrong;

static uint64_t little(const uint8_t *bytes, size_t size)
{
    uint64_t number = 0;
    while (size > 0)
        number = number << 8 | bytes[--size];
    return number;
}

static void expect(const char *what, uint64_t is, uint64_t should)
{
    if (is == should) {
        right += 1;
        return;
    }
    wrong += 1;
    printf("%s: %llu, not %llu\n", what, (unsigned long long)is, (unsigned long long)should);
}

/* The answer's four numbers, and the number that was returned. */
static void expect_answer(const char *what, uint64_t returned, uint64_t number, uint64_t consumed, uint64_t written, uint64_t taken)
{
    expect(what, returned, number);
    expect(what, little(answer + SERIFLADDER_ANSWER_NUMBER, 8), number);
    expect(what, little(answer + SERIFLADDER_ANSWER_CONSUMED, 8), consumed);
    expect(what, little(answer + SERIFLADDER_ANSWER_WRITTEN, 8), written);
    expect(what, little(answer + SERIFLADDER_ANSWER_TAKEN, 8), taken);
    expect(what, answer[SERIFLADDER_ANSWER_SIZE], MARK);
}

/* The record at the front of the output. */
static void expect_record(const char *what, uint64_t record_kind, uint64_t payload)
{
    expect(what, little(output, 2), payload);
    expect(what, little(output + 2, 2), record_kind);
}

#define TABLE table, SERIFLADDER_TABLE_SIZE
#define OUTPUT output, SERIFLADDER_OUTPUT_SIZE
#define ANSWER answer, SERIFLADDER_ANSWER_SIZE

static void write_header(uint8_t *record, unsigned payload, unsigned record_kind)
{
    memset(record, 0, SERIFLADDER_RECORD_HEADER + payload);
    record[0] = (uint8_t)payload;
    record[2] = (uint8_t)record_kind;
}

static uint64_t start(unsigned cell, uint32_t last)
{
    uint8_t record[SERIFLADDER_RECORD_HEADER + SETTINGS_PAYLOAD];
    write_header(record, SETTINGS_PAYLOAD, SERIFLADDER_SETTINGS);
    record[4] = (uint8_t)cell;
    record[5] = (uint8_t)(cell >> 8);
    memset(record + 8, ' ', 25);
    for (unsigned i = 0; i < 4; i++)
        record[33 + i] = (uint8_t)(last >> 8 * i);
    return serifladder_start(TABLE, record, sizeof record, ANSWER);
}

static uint64_t bytes(uint64_t session, const char *text, size_t length)
{
    return serifladder_bytes(TABLE, OUTPUT, session, (const uint8_t *)text, length, ANSWER);
}

static uint64_t scan(void)
{
    uint8_t record[SERIFLADDER_RECORD_HEADER + IDENTIFIER_PAYLOAD];
    write_header(record, IDENTIFIER_PAYLOAD, SERIFLADDER_IDENTIFIER);
    memset(record + 4, 'x', IDENTIFIER_PAYLOAD);
    return serifladder_record(TABLE, OUTPUT, record, sizeof record, ANSWER);
}

/* A tightening with a number of four bytes at that place of its record, and zeros in the others of them. */
static uint64_t tighten_with(unsigned place, uint32_t number, size_t length)
{
    uint8_t record[SERIFLADDER_RECORD_HEADER + TIGHTENING_PAYLOAD];
    write_header(record, TIGHTENING_PAYLOAD, SERIFLADDER_TIGHTENING);
    memset(record + 4, ' ', 25);
    for (unsigned i = 0; i < 4; i++)
        record[place + i] = (uint8_t)(number >> 8 * i);
    memcpy(record + 71, "2026-11-15:10:20:30", 19);
    memcpy(record + 90, "2026-11-14:08:00:00", 19);
    return serifladder_record(TABLE, OUTPUT, record, length, ANSWER);
}

static uint64_t tighten(size_t length)
{
    return tighten_with(39, 0, length);
}

static uint64_t alarmed(unsigned record_kind)
{
    uint8_t record[SERIFLADDER_RECORD_HEADER + ALARM_PAYLOAD];
    write_header(record, ALARM_PAYLOAD, record_kind);
    memcpy(record + 4, "E404", 4);
    record[8] = 1;
    memcpy(record + 10, "2008-06-02:10:14:26", 19);
    return serifladder_record(TABLE, OUTPUT, record, sizeof record, ANSWER);
}

/* A byte less than the header's size is refused with the number that is named there. */
static void sizes(void)
{
    expect("the table's size", SERIFLADDER_TABLE_SIZE, 32768);
    expect("the output's size", SERIFLADDER_OUTPUT_SIZE, 4096);
    uint8_t settings[SERIFLADDER_RECORD_HEADER + SETTINGS_PAYLOAD];
    write_header(settings, SETTINGS_PAYLOAD, SERIFLADDER_SETTINGS);
    memset(settings + 8, ' ', 25);
    expect_answer("a start with a short table",
                  serifladder_start(table, SERIFLADDER_TABLE_SIZE - 1, settings, sizeof settings, ANSWER), SERIFLADDER_TABLE_SHORT,
                  0, 0, 0);
    expect("a start with a short answer", serifladder_start(TABLE, settings, sizeof settings, answer, SERIFLADDER_ANSWER_SIZE - 1),
           SERIFLADDER_ANSWER_SHORT);
    expect_answer("a start with a short record", serifladder_start(TABLE, settings, sizeof settings - 1, ANSWER), SERIFLADDER_SETTINGS_BAD,
                  0, 0, 0);
    expect_answer("a tick before a start", serifladder_tick(TABLE, OUTPUT, ANSWER), SERIFLADDER_TABLE_NOT_WELL_FORMED, 0, 0, 0);
    expect_answer("a start", serifladder_start(TABLE, settings, sizeof settings, ANSWER), SERIFLADDER_DONE, 0, 0, 0);

    expect("open, table", serifladder_open(table, SERIFLADDER_TABLE_SIZE - 1, OUTPUT, 0, ANSWER), SERIFLADDER_TABLE_SHORT);
    expect("open, output", serifladder_open(TABLE, output, SERIFLADDER_OUTPUT_SIZE - 1, 0, ANSWER), SERIFLADDER_OUTPUT_SHORT);
    expect("open, answer", serifladder_open(TABLE, OUTPUT, 0, answer, SERIFLADDER_ANSWER_SIZE - 1), SERIFLADDER_ANSWER_SHORT);
    expect("hang-up, output", serifladder_hang_up(TABLE, output, SERIFLADDER_OUTPUT_SIZE - 1, 0, ANSWER), SERIFLADDER_OUTPUT_SHORT);
    expect("bytes, output", serifladder_bytes(TABLE, output, SERIFLADDER_OUTPUT_SIZE - 1, 0, settings, 1, ANSWER),
           SERIFLADDER_OUTPUT_SHORT);
    expect("tick, output", serifladder_tick(TABLE, output, SERIFLADDER_OUTPUT_SIZE - 1, ANSWER), SERIFLADDER_OUTPUT_SHORT);
    expect("record, output", serifladder_record(TABLE, output, SERIFLADDER_OUTPUT_SIZE - 1, settings, 1, ANSWER), SERIFLADDER_OUTPUT_SHORT);
}

/* A server that subscribes to results in the greatest revision there is, and one that asks for a greater. */
static void revisions(void)
{
    static const char STARTED[] = "00200001001         ", LAST[] = "00200060006         ", NONE[] = "00200060007         ";
    const uint64_t frame = 526 + 1; /* with its NUL */
    expect("the start", start(0, 0), SERIFLADDER_DONE);
    expect("an open", serifladder_open(TABLE, OUTPUT, 0, ANSWER), SERIFLADDER_DONE);
    expect("0001", bytes(0, STARTED, sizeof STARTED), SERIFLADDER_DONE);
    expect_answer("0060 in revision 7", bytes(0, NONE, sizeof NONE), SERIFLADDER_DONE, sizeof NONE, SERIFLADDER_RECORD_HEADER + 27, 0);
    expect("its answer", memcmp(output + SERIFLADDER_RECORD_HEADER, "00260004001         006097", 27), 0);
    expect_answer("0060 in revision 6", bytes(0, LAST, sizeof LAST), SERIFLADDER_DONE, sizeof LAST, SERIFLADDER_RECORD_HEADER + 25, 0);
    expect_answer("a tightening", tighten(SERIFLADDER_RECORD_HEADER + TIGHTENING_PAYLOAD), SERIFLADDER_DONE, 0,
                  SERIFLADDER_RECORD_HEADER + frame, 1);
    expect_record("0061 in revision 6", SERIFLADDER_FRAME, frame);
}

/* A limit that was never set goes out as spaces, between the numbers of its field and of the next; torque and angle may not be missing. */
static void limits(void)
{
    static const char STARTED[] = "00200001001         ", RESULTS[] = "002000600011        ";
    static const struct { unsigned in_record, in_frame; const char *field; } LIMITS[] = {
        { 39, 114, "12      13" }, { 43, 122, "13      14" }, { 47, 130, "14      15" },
        { 55, 146, "16     17" }, { 59, 153, "17     18" }, { 63, 160, "18     19" }
    };
    static const unsigned MEASURED[] = { 51, 67 }; /* torque and angle, in the record */
    const size_t record = SERIFLADDER_RECORD_HEADER + TIGHTENING_PAYLOAD;
    const uint64_t frame = 231 + 1; /* with its NUL */
    expect("the start", start(0, 0), SERIFLADDER_DONE);
    expect("an open", serifladder_open(TABLE, OUTPUT, 0, ANSWER), SERIFLADDER_DONE);
    expect("0001", bytes(0, STARTED, sizeof STARTED), SERIFLADDER_DONE);
    expect("0060", bytes(0, RESULTS, sizeof RESULTS), SERIFLADDER_DONE);
    for (unsigned i = 0; i < sizeof LIMITS / sizeof *LIMITS; i++) {
        unsigned place = LIMITS[i].in_record;
        expect_answer("a limit never set", tighten_with(place, SERIFLADDER_NEVER_SET, record), SERIFLADDER_DONE, 0,
                      SERIFLADDER_RECORD_HEADER + frame, 1);
        expect("its spaces", memcmp(output + SERIFLADDER_RECORD_HEADER + LIMITS[i].in_frame, LIMITS[i].field, strlen(LIMITS[i].field)), 0);
        expect_answer("a limit one below that", tighten_with(place, SERIFLADDER_NEVER_SET - 1, record), SERIFLADDER_TOOL_RECORD_BAD,
                      0, 0, 0);
    }
    for (unsigned i = 0; i < sizeof MEASURED / sizeof *MEASURED; i++)
        expect_answer("no torque, or no angle", tighten_with(MEASURED[i], SERIFLADDER_NEVER_SET, record), SERIFLADDER_TOOL_RECORD_BAD,
                      0, 0, 0);
}

/* Four alarms are taken and one is sent, a fifth is not taken; an acknowledge sends the next. */
static void alarms(void)
{
    static const char STARTED[] = "00200001001         ", ALARMS[] = "00200070001         ", ACKNOWLEDGE[] = "00200072001         ";
    const uint64_t frame = 53 + 1; /* with its NUL */
    expect("the start", start(0, UINT32_MAX), SERIFLADDER_DONE);
    expect("an open", serifladder_open(TABLE, OUTPUT, 1, ANSWER), SERIFLADDER_DONE);
    expect("0001", bytes(1, STARTED, sizeof STARTED), SERIFLADDER_DONE);
    expect_answer("an alarm to nobody", alarmed(SERIFLADDER_ALARM), SERIFLADDER_DONE, 0, 0, 0);
    expect_answer("0070", bytes(1, ALARMS, sizeof ALARMS), SERIFLADDER_DONE, sizeof ALARMS, SERIFLADDER_RECORD_HEADER + 25, 0);
    expect_answer("an alarm", alarmed(SERIFLADDER_ALARM), SERIFLADDER_DONE, 0, SERIFLADDER_RECORD_HEADER + frame, 2);
    expect_record("0071", SERIFLADDER_FRAME + 1, frame);
    expect("its bytes", memcmp(output + SERIFLADDER_RECORD_HEADER, "005300710010        01E404021030042008-06-02:10:14:26", frame), 0);
    for (unsigned more = 2; more <= 4; more++)
        expect_answer("an alarm that waits", alarmed(SERIFLADDER_ALARM), SERIFLADDER_DONE, 0, 0, 2);
    expect_answer("a fifth", alarmed(SERIFLADDER_ALARM), SERIFLADDER_DONE, 0, 0, 0);
    expect_answer("an alarm as an identifier", alarmed(SERIFLADDER_IDENTIFIER), SERIFLADDER_TOOL_RECORD_BAD, 0, 0, 0);
    expect_answer("0072", bytes(1, ACKNOWLEDGE, sizeof ACKNOWLEDGE), SERIFLADDER_DONE, sizeof ACKNOWLEDGE,
                  SERIFLADDER_RECORD_HEADER + frame, 0);
}

/* The calls in a short history, on the highest session. */
static void history(void)
{
    static const char STARTED[] = "00200001001         ", IDENTIFIERS[] = "00200051001         ";
    static const char NEWEST[] = "00300064001         0000000000";
    const uint64_t s = SERIFLADDER_SESSIONS - 1;
    expect_answer("settings with cell 10000", start(10000, 0), SERIFLADDER_SETTINGS_BAD, 0, 0, 0);
    expect_answer("the start", start(9999, UINT32_MAX - 1), SERIFLADDER_DONE, 0, 0, 0);
    expect_answer("a hang-up of a closed session", serifladder_hang_up(TABLE, OUTPUT, s, ANSWER), SERIFLADDER_SESSION_CLOSED, 0, 0, 0);
    expect_answer("bytes for a closed session", bytes(s, STARTED, sizeof STARTED), SERIFLADDER_SESSION_CLOSED, 0, 0, 0);
    expect_answer("an open too high", serifladder_open(TABLE, OUTPUT, s + 1, ANSWER), SERIFLADDER_SESSION_TOO_HIGH, 0, 0, 0);
    expect_answer("an open", serifladder_open(TABLE, OUTPUT, s, ANSWER), SERIFLADDER_DONE, 0, 0, 0);
    expect_answer("an open again", serifladder_open(TABLE, OUTPUT, s, ANSWER), SERIFLADDER_SESSION_NOT_CLOSED, 0, 0, 0);

    /* the NUL is consumed, what follows it is not */
    char two[2 * sizeof STARTED];
    memcpy(two, STARTED, sizeof STARTED);
    memcpy(two + sizeof STARTED, IDENTIFIERS, sizeof IDENTIFIERS);
    expect_answer("0001", bytes(s, two, sizeof two), SERIFLADDER_DONE, sizeof STARTED, SERIFLADDER_RECORD_HEADER + 58, 0);
    expect_record("0002", SERIFLADDER_FRAME + s, 58);
    expect_answer("0051", bytes(s, two + sizeof STARTED, sizeof IDENTIFIERS), SERIFLADDER_DONE, sizeof IDENTIFIERS,
                  SERIFLADDER_RECORD_HEADER + 25, 0);
    expect_answer("an identifier", scan(), SERIFLADDER_DONE, 0, SERIFLADDER_RECORD_HEADER + 46, 1u << s);
    expect_record("0052", SERIFLADDER_FRAME + s, 46);

    expect_answer("a record cut", tighten(SERIFLADDER_RECORD_HEADER + TIGHTENING_PAYLOAD - 1), SERIFLADDER_TOOL_RECORD_BAD, 0, 0, 0);
    expect_answer("the last tightening", tighten(SERIFLADDER_RECORD_HEADER + TIGHTENING_PAYLOAD), SERIFLADDER_DONE, 0, 0, 0);
    expect_answer("one more", tighten(SERIFLADDER_RECORD_HEADER + TIGHTENING_PAYLOAD), SERIFLADDER_LAST_NUMBER_REACHED, 0, 0, 0);
    expect_answer("0064", bytes(s, NEWEST, sizeof NEWEST), SERIFLADDER_DONE, sizeof NEWEST, SERIFLADDER_RECORD_HEADER + 119, 0);
    expect_record("0065", SERIFLADDER_FRAME + s, 119);

    for (unsigned tick = 1; tick < 15; tick++)
        expect_answer("a tick", serifladder_tick(TABLE, OUTPUT, ANSWER), SERIFLADDER_DONE, 0, 0, 0);
    expect_answer("the 15th tick", serifladder_tick(TABLE, OUTPUT, ANSWER), SERIFLADDER_DONE, 0, SERIFLADDER_RECORD_HEADER, 0);
    expect_record("a close", SERIFLADDER_CLOSE + s, 0);
    expect_answer("an open after it", serifladder_open(TABLE, OUTPUT, s, ANSWER), SERIFLADDER_DONE, 0, 0, 0);
    expect_answer("a hang-up", serifladder_hang_up(TABLE, OUTPUT, s, ANSWER), SERIFLADDER_DONE, 0, 0, 0);
}

int main(void)
{
    table[SERIFLADDER_TABLE_SIZE] = output[SERIFLADDER_OUTPUT_SIZE] = answer[SERIFLADDER_ANSWER_SIZE] = MARK;
    sizes();
    history();
    revisions();
    limits();
    alarms();
    expect("behind the table", table[SERIFLADDER_TABLE_SIZE], MARK);
    expect("behind the output", output[SERIFLADDER_OUTPUT_SIZE], MARK);
#ifdef __cplusplus
    printf("header in C++: %u right, %u wrong\n", right, wrong);
#else
    printf("header in C: %u right, %u wrong\n", right, wrong);
#endif
    return wrong != 0;
}
