/* Histories on standard input, for programs that make their calls: each stands behind its length and its seed, 4 bytes
   each, little-endian. */
#ifndef COMPARE_HISTORIES_H
#define COMPARE_HISTORIES_H

#include <stdbool.h>
#include <stdint.h>
#include <stdio.h>
#include <stdlib.h>

enum { HEADER = 4, PAYLOAD_GREATEST = 8192 };

enum what { START, OPEN, HANG_UP, BYTES, TICK, RECORD, CALLS };

/* What a record of a history asks for: the call, the session, and the slice that it is given. */
struct asked {
    enum what what;
    uint64_t session;
    const uint8_t *given;
    size_t given_length;
};

static struct asked read_asked(const uint8_t *record, size_t length)
{
    unsigned record_kind = record[2] | (unsigned)record[3] << 8;
    if (record_kind == 3)
        return (struct asked){ START, 0, record, length };
    if (record_kind >= 16 && record_kind < 32)
        return (struct asked){ OPEN, record_kind - 16, NULL, 0 };
    if (record_kind >= 32 && record_kind < 48)
        return (struct asked){ HANG_UP, record_kind - 32, NULL, 0 };
    if (record_kind >= 48 && record_kind < 64)
        return (struct asked){ BYTES, record_kind - 48, record + HEADER, length - HEADER };
    if (record_kind == 64)
        return (struct asked){ TICK, 0, NULL, 0 };
    return (struct asked){ RECORD, 0, record, length };
}

/* The next record of a history; false at its end, at a cut record and at too long a payload. */
static bool next_asked(const uint8_t *data, size_t size, size_t *at, struct asked *asked)
{
    if (size - *at < HEADER)
        return false;
    size_t payload = data[*at] | (size_t)data[*at + 1] << 8;
    if (payload > PAYLOAD_GREATEST || payload > size - *at - HEADER)
        return false;
    *asked = read_asked(data + *at, HEADER + payload);
    *at += HEADER + payload;
    return true;
}

static uint32_t four_bytes(const uint8_t *bytes)
{
    return bytes[0] | (uint32_t)bytes[1] << 8 | (uint32_t)bytes[2] << 16 | (uint32_t)bytes[3] << 24;
}

/* Each history of standard input to `serve`. */
static void serve_input(void (*serve)(const uint8_t *data, size_t size, uint32_t seed))
{
    uint8_t head[8];
    while (fread(head, 1, sizeof head, stdin) == sizeof head) {
        size_t wanted = four_bytes(head);
        uint8_t *data = malloc(wanted + 1);
        if (data == NULL || fread(data, 1, wanted, stdin) != wanted) {
            fprintf(stderr, "no memory, or a cut history\n");
            exit(2);
        }
        serve(data, wanted, four_bytes(head + 4));
        free(data);
    }
}

#endif
