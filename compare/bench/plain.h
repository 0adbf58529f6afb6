/*
 * The calls that the bench times, under the names that a side has: `plain_` for plain.c, `rust_` for plain.rs. They take and answer what
 * the calls of the same name in awdl.h do.
 */
#ifndef PLAIN_H
#define PLAIN_H

#include "awdl.h"

#define SEARCH(side, type)                                                                                       \
    uint32_t side##_first_##type(const uint8_t *tail, size_t tail_length, size_t *item, uint32_t *record);       \
    uint32_t side##_next_##type(const uint8_t *tail, size_t tail_length, size_t at, size_t *item, uint32_t *record);

#define WRITER(side, type) uint32_t side##_##type##_write(const uint32_t *record, uint8_t *buffer, size_t buffer_length, size_t *size);

#define CALLS(side)                                                                                                                           \
    uint32_t side##_frame_read(const uint8_t *bytes, size_t bytes_length, size_t *offset, size_t *size, uint32_t *frame);                     \
    uint32_t side##_step(const uint8_t *tail, size_t tail_length, size_t at, size_t *step);                                                   \
    SEARCH(side, data_path)                                                                                                                   \
    SEARCH(side, synchronization)                                                                                                             \
    SEARCH(side, channel_sequence)                                                                                                            \
    uint32_t side##_data_path_read(const uint8_t *bytes, size_t bytes_length, size_t *offset, size_t *size, uint32_t *record);                \
    uint32_t side##_synchronization_read(const uint8_t *bytes, size_t bytes_length, size_t *offset, size_t *size, uint32_t *record);          \
    uint32_t side##_channel_sequence_read(const uint8_t *bytes, size_t bytes_length, size_t at, size_t *offset, size_t *size,                 \
                                          uint32_t *record);                                                                                  \
    uint32_t side##_sequence_read(const uint8_t *bytes, size_t bytes_length, size_t at, uint32_t encoding, size_t *offset, size_t *size,      \
                                  uint32_t *sequence);                                                                                        \
    WRITER(side, data_path)                                                                                                                   \
    WRITER(side, synchronization)                                                                                                             \
    WRITER(side, channel_sequence)                                                                                                            \
    WRITER(side, sequence)                                                                                                                    \
    uint32_t side##_judge(const uint8_t *sequences, size_t sequences_length, const uint8_t *permitted, size_t permitted_length,               \
                          uint32_t proposal, size_t *offset, uint32_t *own);

CALLS(plain)
CALLS(rust)

#endif
