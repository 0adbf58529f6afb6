/*
 * The calls of Tystiebro's library for C. Each is proved in Rattle against its contract (crates/exports/src); nothing checks that this file
 * declares them as they are there, so tests of board/rust and of compare/ call every one of them.
 *
 * Numbers. A call answers 0, or the number of its refusal (AWDL_SHORT and so on), unless it is told otherwise beside it. What else it answers it
 * puts into what is lent to it. Every place that is lent for an answer is set whatever the answer is: after a refusal the record is the zero record
 * and every other number is 0, but for `offset` beside AWDL_SHORT, and for `own` beside AWDL_SMALLER_LOAD. A buffer that is lent to a writer then
 * stays as it was. `size` is how many bytes a record takes or a writer filled, wherever in the bytes a reader was told to begin.
 *
 * Records. A record is an array of 32-bit numbers, in the order of the names below. An address is six numbers and the bytes of a sequence are
 * 32. A presence flag is 0 or 1. The zero record is all zeros. Beside the answer 0 `offset` and `own` are 0. A number that its field cannot hold is refused with AWDL_INCONSISTENT before anything
 * else is looked at, and so is such a number that stands alone (a type, an encoding, a channel, a proposal).
 *
 * Bytes. They are lent as a pointer and a length. The pointer must not be NULL, even where the length is 0, and what is lent for an answer
 * must not overlap with anything else that is lent to the same call. Nothing is kept behind a call, and none of them allocates.
 */
#ifndef AWDL_H
#define AWDL_H

#include <stddef.h>
#include <stdint.h>

#ifdef __cplusplus
extern "C" {
#endif

/* The refusals. Beside AWDL_SHORT `offset` is that of the first byte of the field that did not fit, counted from the start of the bytes lent. */
enum {
    AWDL_SHORT = 1,
    AWDL_NOT_ACTION = 2,
    AWDL_NOT_VERSION = 3,
    AWDL_UNICAST_LENGTH = 4,
    AWDL_ENCODING = 5,
    AWDL_NO_ROOM = 6,
    AWDL_INCONSISTENT = 7,
    AWDL_TOO_LONG = 8,
    AWDL_CHANNEL_COUNT = 10,
    AWDL_LEGACY_SEQUENCE = 18,
    AWDL_CORRECTED_CHANNEL = 19,
    AWDL_TOO_MANY = 27,
    AWDL_NONE_PERMITTED = 28,
    AWDL_NOT_PERMITTED = 29,
    AWDL_SMALLER_LOAD = 30
};

/* What `awdl_step` answers. */
enum { AWDL_WHOLE = 0, AWDL_ITEM = 1, AWDL_CUT = 2 };

/* The bytes of a header; the tail of a frame starts behind them. */
#define AWDL_HEADER_SIZE 12

/* The types of items that are read. */
enum { AWDL_TYPE_SYNCHRONIZATION = 4, AWDL_TYPE_DATA_PATH = 12, AWDL_TYPE_CHANNEL_SEQUENCE = 18 };

/* A frame's header. */
enum { AWDL_FRAME_SUBTYPE, AWDL_FRAME_RESERVED, AWDL_FRAME_PHY_TX_TIME, AWDL_FRAME_TARGET_TX_TIME, AWDL_FRAME_NUMBERS };

/* An entry of a sequence: its encoding (0 simple, 1 legacy, 3 operating class) and its two bytes. */
enum { AWDL_CHANNEL_ENCODING, AWDL_CHANNEL_FIRST, AWDL_CHANNEL_SECOND, AWDL_CHANNEL_NUMBERS };

/* A sequence: its encoding and 32 bytes. */
enum { AWDL_SEQUENCE_ENCODING, AWDL_SEQUENCE_BYTES, AWDL_SEQUENCE_NUMBERS = AWDL_SEQUENCE_BYTES + 32 };

/* A channel sequence (type 0x12). From its encoding on it is a sequence, so that `record + AWDL_CHANNEL_SEQUENCE_ENCODING` is one. */
enum {
    AWDL_CHANNEL_SEQUENCE_DUPLICATE_COUNT,
    AWDL_CHANNEL_SEQUENCE_STEP_COUNT,
    AWDL_CHANNEL_SEQUENCE_FILL_CHANNEL,
    AWDL_CHANNEL_SEQUENCE_ENCODING,
    AWDL_CHANNEL_SEQUENCE_BYTES,
    AWDL_CHANNEL_SEQUENCE_NUMBERS = AWDL_CHANNEL_SEQUENCE_BYTES + 32
};

/* A synchronization record (type 0x04). From its duplicate count on it is a channel sequence. */
enum {
    AWDL_SYNCHRONIZATION_NEXT_CHANNEL,
    AWDL_SYNCHRONIZATION_TX_COUNTER,
    AWDL_SYNCHRONIZATION_MASTER_CHANNEL,
    AWDL_SYNCHRONIZATION_GUARD_TIME,
    AWDL_SYNCHRONIZATION_AW_PERIOD,
    AWDL_SYNCHRONIZATION_AF_PERIOD,
    AWDL_SYNCHRONIZATION_AWDL_FLAGS,
    AWDL_SYNCHRONIZATION_AW_EXT_LENGTH,
    AWDL_SYNCHRONIZATION_AW_COMMON_LENGTH,
    AWDL_SYNCHRONIZATION_REMAINING_AW_LENGTH,
    AWDL_SYNCHRONIZATION_MIN_EXT_COUNT,
    AWDL_SYNCHRONIZATION_MAX_MULTICAST_EXT_COUNT,
    AWDL_SYNCHRONIZATION_MAX_UNICAST_EXT_COUNT,
    AWDL_SYNCHRONIZATION_MAX_AF_EXT_COUNT,
    AWDL_SYNCHRONIZATION_MASTER_ADDRESS,
    AWDL_SYNCHRONIZATION_PRESENCE_MODE = AWDL_SYNCHRONIZATION_MASTER_ADDRESS + 6,
    AWDL_SYNCHRONIZATION_RESERVED,
    AWDL_SYNCHRONIZATION_AW_SEQ_NUMBER,
    AWDL_SYNCHRONIZATION_AP_BEACON_ALIGNMENT_DELTA,
    AWDL_SYNCHRONIZATION_DUPLICATE_COUNT,
    AWDL_SYNCHRONIZATION_STEP_COUNT,
    AWDL_SYNCHRONIZATION_FILL_CHANNEL,
    AWDL_SYNCHRONIZATION_ENCODING,
    AWDL_SYNCHRONIZATION_BYTES,
    AWDL_SYNCHRONIZATION_NUMBERS = AWDL_SYNCHRONIZATION_BYTES + 32
};

/* A data path record (type 0x0C). Each optional field has its presence flag in front of it. */
enum {
    AWDL_DATA_PATH_FLAGS,
    AWDL_DATA_PATH_COUNTRY_CODE,
    AWDL_DATA_PATH_COUNTRY_FIRST,
    AWDL_DATA_PATH_COUNTRY_SECOND,
    AWDL_DATA_PATH_COUNTRY_PAD,
    AWDL_DATA_PATH_CHANNEL_MAP,
    /* AWDL_SINGLE, with a channel behind it, or AWDL_MAP, with a word of bits */
    AWDL_DATA_PATH_CHANNEL_KIND,
    AWDL_DATA_PATH_CHANNEL,
    AWDL_DATA_PATH_INFRA_BSSID_CHANNEL,
    AWDL_DATA_PATH_INFRA_BSSID,
    AWDL_DATA_PATH_INFRA_CHANNEL = AWDL_DATA_PATH_INFRA_BSSID + 6,
    AWDL_DATA_PATH_INFRA_ADDRESS,
    AWDL_DATA_PATH_INFRA,
    AWDL_DATA_PATH_AWDL_ADDRESS = AWDL_DATA_PATH_INFRA + 6,
    AWDL_DATA_PATH_AWDL,
    AWDL_DATA_PATH_UNICAST_OPTIONS = AWDL_DATA_PATH_AWDL + 6,
    AWDL_DATA_PATH_OPTIONS,
    AWDL_DATA_PATH_UNICAST_OPTIONS_EXT,
    AWDL_DATA_PATH_EXT,
    AWDL_DATA_PATH_EXTENDED_FLAGS,
    AWDL_DATA_PATH_EXTENDED,
    AWDL_DATA_PATH_RLFC,
    AWDL_DATA_PATH_RLFC_WORD,
    AWDL_DATA_PATH_LOG_TRIGGER_ID,
    AWDL_DATA_PATH_TRIGGER_ID,
    AWDL_DATA_PATH_STATS,
    AWDL_DATA_PATH_MSEC_SINCE_ACTIVATION,
    AWDL_DATA_PATH_AW_SEQ_COUNTER,
    AWDL_DATA_PATH_PAY_UPDATE_COUTNER,
    AWDL_DATA_PATH_NUMBERS
};
enum { AWDL_SINGLE = 0, AWDL_MAP = 1 };

/* What `awdl_step` tells of an item: its place in the tail, its type, the length of its value, the place of the value, and the place behind it.
 * Where the tail is cut, the first number is the place of the cut, and the others are 0. Where it is used up, all five are 0. */
enum { AWDL_STEP_AT, AWDL_STEP_TYPE, AWDL_STEP_LENGTH, AWDL_STEP_VALUE, AWDL_STEP_NEXT, AWDL_STEP_NUMBERS };

/* What a search tells of the item in which it found a record. */
enum { AWDL_FOUND_AT, AWDL_FOUND_TYPE, AWDL_FOUND_LENGTH, AWDL_FOUND_NEXT, AWDL_FOUND_NUMBERS };

/* The header. `size` is 12. The tail is what stands behind it. */
uint32_t awdl_frame_read(const uint8_t *bytes, size_t bytes_length, size_t *offset, size_t *size, uint32_t frame[AWDL_FRAME_NUMBERS]);

/* A header and a tail. `size` is how many bytes of the buffer were filled. */
uint32_t awdl_frame_write(const uint32_t frame[AWDL_FRAME_NUMBERS], const uint8_t *tail, size_t tail_length,
    uint8_t *buffer, size_t buffer_length, size_t *size);

/* How long the frame waited in the radio, in microseconds, on a clock that rolls over. It answers the gap itself: nothing is refused. */
uint32_t awdl_tx_delta(uint32_t phy_tx_time, uint32_t target_tx_time);

/* An item of a tail: its type, the length of its value, and the value. */
uint32_t awdl_write_item(uint32_t tlv_type, const uint8_t *value, size_t value_length, uint8_t *buffer, size_t buffer_length, size_t *size);

/* What stands at a place of a tail. It answers AWDL_WHOLE, AWDL_ITEM or AWDL_CUT. */
uint32_t awdl_step(const uint8_t *tail, size_t tail_length, size_t at, size_t step[AWDL_STEP_NUMBERS]);

/* The next record of a type that is accepted, from a place on, and the first. They answer 1, or 0 where there is none. */
uint32_t awdl_first_data_path(const uint8_t *tail, size_t tail_length, size_t item[AWDL_FOUND_NUMBERS], uint32_t record[AWDL_DATA_PATH_NUMBERS]);
uint32_t awdl_next_data_path(const uint8_t *tail, size_t tail_length, size_t at,
    size_t item[AWDL_FOUND_NUMBERS], uint32_t record[AWDL_DATA_PATH_NUMBERS]);
uint32_t awdl_first_synchronization(const uint8_t *tail, size_t tail_length, size_t item[AWDL_FOUND_NUMBERS],
    uint32_t record[AWDL_SYNCHRONIZATION_NUMBERS]);
uint32_t awdl_next_synchronization(const uint8_t *tail, size_t tail_length, size_t at,
    size_t item[AWDL_FOUND_NUMBERS], uint32_t record[AWDL_SYNCHRONIZATION_NUMBERS]);
uint32_t awdl_first_channel_sequence(const uint8_t *tail, size_t tail_length, size_t item[AWDL_FOUND_NUMBERS],
    uint32_t record[AWDL_CHANNEL_SEQUENCE_NUMBERS]);
uint32_t awdl_next_channel_sequence(const uint8_t *tail, size_t tail_length, size_t at,
    size_t item[AWDL_FOUND_NUMBERS], uint32_t record[AWDL_CHANNEL_SEQUENCE_NUMBERS]);

/* A data path record: read from a value, asked whether it can be written, put right, its size, written. */
uint32_t awdl_data_path_read(const uint8_t *bytes, size_t bytes_length, size_t *offset, size_t *size, uint32_t record[AWDL_DATA_PATH_NUMBERS]);
uint32_t awdl_data_path_consistent(const uint32_t record[AWDL_DATA_PATH_NUMBERS], uint32_t *consistent);
uint32_t awdl_data_path_mend(const uint32_t record[AWDL_DATA_PATH_NUMBERS], uint32_t mended[AWDL_DATA_PATH_NUMBERS]);
uint32_t awdl_data_path_size(const uint32_t record[AWDL_DATA_PATH_NUMBERS], size_t *size);
uint32_t awdl_data_path_write(const uint32_t record[AWDL_DATA_PATH_NUMBERS], uint8_t *buffer, size_t buffer_length, size_t *size);

/* A synchronization record. One with a legacy sequence has a size, and is not written (AWDL_LEGACY_SEQUENCE). */
uint32_t awdl_synchronization_read(const uint8_t *bytes, size_t bytes_length, size_t *offset, size_t *size,
    uint32_t record[AWDL_SYNCHRONIZATION_NUMBERS]);
uint32_t awdl_synchronization_consistent(const uint32_t record[AWDL_SYNCHRONIZATION_NUMBERS], uint32_t *consistent);
uint32_t awdl_synchronization_size(const uint32_t record[AWDL_SYNCHRONIZATION_NUMBERS], size_t *size);
uint32_t awdl_synchronization_write(const uint32_t record[AWDL_SYNCHRONIZATION_NUMBERS], uint8_t *buffer, size_t buffer_length, size_t *size);

/* A channel sequence, read from a place of the bytes on. `size` is how many bytes were taken, 22 or 38, and not the place behind them, which is
 * `at + size`. `offset` counts from the start of the bytes here too. */
uint32_t awdl_channel_sequence_read(const uint8_t *bytes, size_t bytes_length, size_t at, size_t *offset, size_t *size,
    uint32_t record[AWDL_CHANNEL_SEQUENCE_NUMBERS]);
uint32_t awdl_channel_sequence_consistent(const uint32_t record[AWDL_CHANNEL_SEQUENCE_NUMBERS], uint32_t *consistent);
uint32_t awdl_channel_sequence_size(const uint32_t record[AWDL_CHANNEL_SEQUENCE_NUMBERS], size_t *size);
uint32_t awdl_channel_sequence_write(const uint32_t record[AWDL_CHANNEL_SEQUENCE_NUMBERS], uint8_t *buffer, size_t buffer_length, size_t *size);

/* The sixteen entries alone, in an encoding that is told. `size` is again how many bytes were taken, 16 or 32. */
uint32_t awdl_sequence_read(const uint8_t *bytes, size_t bytes_length, size_t at, uint32_t encoding,
    size_t *offset, size_t *size, uint32_t sequence[AWDL_SEQUENCE_NUMBERS]);
uint32_t awdl_sequence_consistent(const uint32_t sequence[AWDL_SEQUENCE_NUMBERS], uint32_t *consistent);
uint32_t awdl_sequence_size(const uint32_t sequence[AWDL_SEQUENCE_NUMBERS], size_t *size);
uint32_t awdl_sequence_write(const uint32_t sequence[AWDL_SEQUENCE_NUMBERS], uint8_t *buffer, size_t buffer_length, size_t *size);

/* The hop with a number, from 0 to 15. `found` is 1, or 0 from 16 on. */
uint32_t awdl_sequence_entry(const uint32_t sequence[AWDL_SEQUENCE_NUMBERS], size_t entry, uint32_t *found, uint32_t channel[AWDL_CHANNEL_NUMBERS]);

/* A legacy sequence as the simple one of its corrected channels. */
uint32_t awdl_sequence_to_simple(const uint32_t sequence[AWDL_SEQUENCE_NUMBERS], uint32_t simple[AWDL_SEQUENCE_NUMBERS]);

/* The channel that an entry stands for, corrected where its flags say that it lies beside it. */
uint32_t awdl_channel(const uint32_t channel[AWDL_CHANNEL_NUMBERS], uint32_t *corrected);

/* Which channel to move to. Sequences are lent one behind the other, 33 bytes each: the encoding and the 32 bytes. `permitted` has a byte for each
 * channel, in the list's order. `own` is our own proposal beside AWDL_SMALLER_LOAD. */
uint32_t awdl_judge(const uint8_t *sequences, size_t sequences_length, const uint8_t *permitted, size_t permitted_length,
    uint32_t proposal, size_t *offset, uint32_t *own);
uint32_t awdl_own_proposal(const uint8_t *sequences, size_t sequences_length, const uint8_t *permitted, size_t permitted_length,
    size_t *offset, uint32_t *channel);
uint32_t awdl_channel_load(const uint8_t *sequences, size_t sequences_length, uint32_t channel, size_t *offset, uint32_t *load);

#ifdef __cplusplus
}
#endif

#endif
