/* The test program of document 01, over the independent implementation: house
   records on standard input, a line for each output record and each refusal on
   standard output. */
#include "independent.h"

#include <stdbool.h>
#include <stdio.h>

enum {
    HEADER = 4,
    PAYLOAD_GREATEST = 8192,
    RECORD_KIND_SETTINGS = 3,
    RECORD_KIND_OPEN = 16,
    RECORD_KIND_HANG_UP = 32,
    RECORD_KIND_BYTES = 48,
    RECORD_KIND_TICK = 64,
    RECORD_KIND_FRAME = 256,
    RECORD_KIND_CLOSE = 512,
    STREAM_BUFFER = 1 << 16
};

static uint8_t table[INDEPENDENT_TABLE_BYTES]; /* zeros, which are not well formed */
static uint8_t output[INDEPENDENT_OUTPUT_BYTES];
static uint8_t answer[INDEPENDENT_ANSWER_BYTES];
static uint8_t record[HEADER + PAYLOAD_GREATEST];

static unsigned two_bytes(const uint8_t *bytes)
{
    return bytes[0] | (unsigned)bytes[1] << 8;
}

static uint64_t answered(unsigned which)
{
    uint64_t value = 0;
    for (unsigned i = 8; i > 0; i--)
        value = value << 8 | answer[8 * which + i - 1];
    return value;
}

/* Reads one record; false at the end, at a cut record and at too long a payload. */
static bool read_record(size_t *length)
{
    if (fread(record, 1, HEADER, stdin) != HEADER)
        return false;
    size_t payload = two_bytes(record);
    if (payload > PAYLOAD_GREATEST)
        return false;
    *length = HEADER + payload;
    return fread(record + HEADER, 1, payload, stdin) == payload;
}

/* A frame without its NUL, spaces shown as '_'; all other bytes as they are. */
static void print_frame(unsigned session, const uint8_t *frame, size_t length)
{
    printf("%u S ", session);
    for (size_t i = 0; i + 1 < length; i++)
        putchar(frame[i] == ' ' ? '_' : frame[i]);
    putchar('\n');
}

static void print_output(size_t written)
{
    size_t at = 0;
    while (at + HEADER <= written) {
        size_t length = two_bytes(output + at);
        unsigned record_kind = two_bytes(output + at + 2);
        if (record_kind >= RECORD_KIND_CLOSE)
            printf("%u C\n", record_kind - RECORD_KIND_CLOSE);
        else
            print_frame(record_kind - RECORD_KIND_FRAME, output + at + HEADER, length);
        at += HEADER + length;
    }
}

/* Prints what a call did; was it done? */
static bool report(uint64_t number)
{
    if (number != 0) {
        printf("R %u\n", (unsigned)number);
        return false;
    }
    print_output((size_t)answered(2));
    return true;
}

/* One call at least, then until all is consumed or a call is refused. */
static void receive(unsigned session, const uint8_t *bytes, size_t length)
{
    size_t at = 0;
    do {
        uint64_t number = independent_bytes(table, sizeof table, output, sizeof output, session,
                                            bytes + at, length - at, answer, sizeof answer);
        if (!report(number))
            return;
        at += (size_t)answered(1);
    } while (at < length);
}

static void serve(unsigned record_kind, size_t length)
{
    unsigned session = record_kind % 16;
    if (record_kind == RECORD_KIND_SETTINGS)
        report(independent_start(table, sizeof table, record, length, answer, sizeof answer));
    else if (record_kind >= RECORD_KIND_OPEN && record_kind < RECORD_KIND_HANG_UP)
        report(independent_open(table, sizeof table, output, sizeof output, session,
                                answer, sizeof answer));
    else if (record_kind >= RECORD_KIND_HANG_UP && record_kind < RECORD_KIND_BYTES)
        report(independent_hang_up(table, sizeof table, output, sizeof output, session,
                                   answer, sizeof answer));
    else if (record_kind >= RECORD_KIND_BYTES && record_kind < RECORD_KIND_TICK)
        receive(session, record + HEADER, length - HEADER);
    else if (record_kind == RECORD_KIND_TICK)
        report(independent_tick(table, sizeof table, output, sizeof output,
                                answer, sizeof answer));
    else
        report(independent_record(table, sizeof table, output, sizeof output, record, length,
                                  answer, sizeof answer));
}

int main(void)
{
    size_t length = 0;
    setvbuf(stdin, NULL, _IOFBF, STREAM_BUFFER);
    setvbuf(stdout, NULL, _IOFBF, STREAM_BUFFER);
    while (read_record(&length))
        serve(two_bytes(record + 2), length);
    return fflush(stdout) == 0 ? 0 : 1;
}
