/* The library's calls, over the table and the output that the host lends. */
#include "host.h"

static uint8_t table[SERIFLADDER_TABLE_SIZE], output[SERIFLADDER_OUTPUT_SIZE], answer_bytes[SERIFLADDER_ANSWER_SIZE];
static uint32_t last; /* the last tightening number, as the library counts it too */

#define LENT table, sizeof table, output, sizeof output
#define ANSWER answer_bytes, sizeof answer_bytes

static const char *const MEANINGS[] = {
    [SERIFLADDER_DONE] = "done",
    [SERIFLADDER_TABLE_SHORT] = "table too short",
    [SERIFLADDER_TABLE_NOT_WELL_FORMED] = "table not well formed",
    [SERIFLADDER_OUTPUT_SHORT] = "output too short",
    [SERIFLADDER_SESSION_TOO_HIGH] = "session number above 3",
    [SERIFLADDER_SESSION_CLOSED] = "session closed",
    [SERIFLADDER_SESSION_NOT_CLOSED] = "session not closed",
    [SERIFLADDER_TOOL_RECORD_BAD] = "tool record bad",
    [SERIFLADDER_LAST_NUMBER_REACHED] = "last tightening number reached",
    [SERIFLADDER_SETTINGS_BAD] = "settings bad",
    [SERIFLADDER_ANSWER_SHORT] = "answer too short",
};

const char *meaning(uint64_t number)
{
    return number <= SERIFLADDER_ANSWER_SHORT ? MEANINGS[number] : "unknown number";
}

uint32_t last_number(void)
{
    return last;
}

/* Carries the records of the output out, in their order. */
static void carry_out(uint64_t written)
{
    size_t at = 0;
    while (at < written) {
        size_t length = (size_t)little(output + at, 2);
        unsigned record_kind = (unsigned)little(output + at + 2, 2);
        at += SERIFLADDER_RECORD_HEADER;
        if (record_kind >= SERIFLADDER_CLOSE)
            links_close(record_kind - SERIFLADDER_CLOSE);
        else
            links_send(record_kind - SERIFLADDER_FRAME, output + at, length);
        at += length;
    }
    links_hang_up_failed();
}

/* A call that the host makes of itself is never refused: where it is, the host is at fault and does not go on. */
static void settle_done(const char *call, uint64_t number, unsigned record_kind, const uint8_t *payload, size_t length)
{
    struct answer answer = read_answer(answer_bytes);
    if (number != SERIFLADDER_DONE)
        fail("%s was refused: %u %s", call, (unsigned)number, meaning(number));
    journal_record(record_kind, payload, length);
    carry_out(answer.written);
}

void call_start(uint8_t settings[SETTINGS_RECORD], uint32_t number)
{
    last = number;
    put_little(settings + SETTINGS_RECORD - 4, 4, number);
    uint64_t answer = serifladder_start(table, sizeof table, settings, SETTINGS_RECORD, ANSWER);
    settle_done("the start", answer, SERIFLADDER_SETTINGS, settings + SERIFLADDER_RECORD_HEADER,
                SETTINGS_RECORD - SERIFLADDER_RECORD_HEADER);
}

void call_open(unsigned session)
{
    journal_prepare(table);
    settle_done("an open", serifladder_open(LENT, session, ANSWER), JOURNAL_OPEN + session, NULL, 0);
}

void call_hang_up(unsigned session)
{
    journal_prepare(table);
    settle_done("a hang-up", serifladder_hang_up(LENT, session, ANSWER), JOURNAL_HANG_UP + session, NULL, 0);
}

size_t call_bytes(unsigned session, const uint8_t *bytes, size_t length)
{
    journal_prepare(table);
    uint64_t number = serifladder_bytes(LENT, session, bytes, length, ANSWER);
    size_t consumed = (size_t)read_answer(answer_bytes).consumed;
    settle_done("received bytes", number, JOURNAL_BYTES + session, bytes, consumed);
    return consumed;
}

void call_tick(void)
{
    journal_prepare(table);
    settle_done("a tick", serifladder_tick(LENT, ANSWER), JOURNAL_TICK, NULL, 0);
    sessions_ticked();
}

/* In the journal a record of a kind that stands for another call there gets kind 0, which is as bad a tool record. */
static unsigned journal_record_kind(unsigned record_kind)
{
    return record_kind == SERIFLADDER_SETTINGS || (record_kind >= JOURNAL_OPEN && record_kind <= JOURNAL_TICK) ? 0 : record_kind;
}

struct answer call_record(const uint8_t *serial, const uint8_t *record, size_t length)
{
    unsigned record_kind = (unsigned)little(record + 2, 2);
    journal_prepare(table);
    uint64_t number = serifladder_record(LENT, record, length, ANSWER);
    struct answer answer = read_answer(answer_bytes);
    bool numbered = number == SERIFLADDER_DONE && record_kind == SERIFLADDER_TIGHTENING;
    if (number == SERIFLADDER_DONE && serial != NULL)
        serial_keep(serial, numbered ? last + 1 : 0, answer.taken);
    if (numbered)
        state_keep(++last);
    journal_record(journal_record_kind(record_kind), record + SERIFLADDER_RECORD_HEADER, length - SERIFLADDER_RECORD_HEADER);
    if (numbered)
        sessions_event((struct event){ .kind = RESULT, .number = last }, answer.taken);
    else if (number == SERIFLADDER_DONE && record_kind == SERIFLADDER_ALARM)
        sessions_event(alarm_brought(record + SERIFLADDER_RECORD_HEADER), answer.taken);
    carry_out(answer.written);
    return answer;
}
