/* The rules of documents 01 and 02 a third time, written for speed: the same six calls as independent.h, over a table of its own making. */
#ifndef PEER_H
#define PEER_H

#include <stddef.h>
#include <stdint.h>

uint64_t peer_start(uint8_t *table, size_t table_length, const uint8_t *settings, size_t settings_length,
                    uint8_t *answer, size_t answer_length);
uint64_t peer_open(uint8_t *table, size_t table_length, uint8_t *output, size_t output_length, uint64_t session,
                   uint8_t *answer, size_t answer_length);
uint64_t peer_hang_up(uint8_t *table, size_t table_length, uint8_t *output, size_t output_length, uint64_t session,
                      uint8_t *answer, size_t answer_length);
uint64_t peer_bytes(uint8_t *table, size_t table_length, uint8_t *output, size_t output_length, uint64_t session,
                    const uint8_t *bytes, size_t bytes_length, uint8_t *answer, size_t answer_length);
uint64_t peer_tick(uint8_t *table, size_t table_length, uint8_t *output, size_t output_length,
                   uint8_t *answer, size_t answer_length);
uint64_t peer_record(uint8_t *table, size_t table_length, uint8_t *output, size_t output_length,
                     const uint8_t *record, size_t record_length, uint8_t *answer, size_t answer_length);

#endif
