/* The rules of document 01, and of the change requests that were landed, written a
   second time so that the product can be compared with them. Six calls over a table and an output that the caller lends.

   Every slice is a pointer and then its length. `answer` takes four 8-byte
   little-endian numbers (32 bytes): the number, the bytes consumed, the bytes
   written to the output, and the sessions that took an event (the sum of 2^s).
   Each call returns the first of them; if `answer` is shorter than 32 bytes
   nothing is done and 10 is returned. */
#ifndef INDEPENDENT_H
#define INDEPENDENT_H

#include <stddef.h>
#include <stdint.h>

enum {
    INDEPENDENT_TABLE_BYTES = 32768,
    INDEPENDENT_OUTPUT_BYTES = 4096,
    INDEPENDENT_ANSWER_BYTES = 32
};

uint64_t independent_start(uint8_t *table, size_t table_len,
                           const uint8_t *settings, size_t settings_len,
                           uint8_t *answer, size_t answer_len);

uint64_t independent_open(uint8_t *table, size_t table_len,
                          uint8_t *output, size_t output_len,
                          uint64_t session,
                          uint8_t *answer, size_t answer_len);

uint64_t independent_hang_up(uint8_t *table, size_t table_len,
                             uint8_t *output, size_t output_len,
                             uint64_t session,
                             uint8_t *answer, size_t answer_len);

uint64_t independent_bytes(uint8_t *table, size_t table_len,
                           uint8_t *output, size_t output_len,
                           uint64_t session,
                           const uint8_t *bytes, size_t bytes_len,
                           uint8_t *answer, size_t answer_len);

uint64_t independent_tick(uint8_t *table, size_t table_len,
                          uint8_t *output, size_t output_len,
                          uint8_t *answer, size_t answer_len);

uint64_t independent_record(uint8_t *table, size_t table_len,
                            uint8_t *output, size_t output_len,
                            const uint8_t *record, size_t record_len,
                            uint8_t *answer, size_t answer_len);

#endif
