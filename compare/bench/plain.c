/* Plain C that does what awdl.h's calls do. It proves nothing: it is what ours is measured against. */
#include "plain.h"

#include <stdbool.h>
#include <string.h>

/* Nothing that is lent for an answer overlaps with anything else (awdl.h), which is what `restrict` says. */
#define R restrict

enum { SIMPLE = 0, LEGACY = 1, OPERATING_CLASS = 3, ENTRIES = 16, LENT_SIZE = 33 };
enum { FIXED_SIZE = 33, SEQUENCE_HEAD = 6 };

static uint32_t u16_at(const uint8_t *p) { return p[0] | p[1] << 8; }

static uint32_t u32_at(const uint8_t *p) { return p[0] | p[1] << 8 | p[2] << 16 | (uint32_t)p[3] << 24; }

static uint8_t *put_u16(uint8_t *p, uint32_t v)
{
    p[0] = v;
    p[1] = v >> 8;
    return p + 2;
}

static uint8_t *put_u32(uint8_t *p, uint32_t v) { return put_u16(put_u16(p, v), v >> 16); }

static void widen(uint32_t *R numbers, const uint8_t *R bytes, size_t n)
{
    for (size_t i = 0; i < n; i++)
        numbers[i] = bytes[i];
}

static uint8_t *narrow(uint8_t *R bytes, const uint32_t *R numbers, size_t n)
{
    for (size_t i = 0; i < n; i++)
        bytes[i] = numbers[i];
    return bytes + n;
}

/* All bits of some numbers: they are bytes where this is one, and 0 where this is. */
static uint32_t all_bits(const uint32_t *numbers, size_t n)
{
    uint32_t bits = 0;
    for (size_t i = 0; i < n; i++)
        bits |= numbers[i];
    return bits;
}

struct reader {
    const uint8_t *bytes;
    size_t length, at;
};

/* The next field, or NULL where it is not there as a whole. */
static const uint8_t *take(struct reader *r, size_t n)
{
    if (r->length - r->at < n)
        return NULL;
    r->at += n;
    return r->bytes + r->at - n;
}

/* Among fields in a row, the start of the one that does not fit: the last that is not past the end of the bytes. */
static size_t short_at(const uint8_t *starts, size_t length)
{
    while (starts[1] <= length)
        starts++;
    return *starts;
}

/* What a reader answers, which began at one place and stopped or ended at another. */
static uint32_t answer(uint32_t refusal, size_t from, size_t at, size_t *R offset, size_t *R size, uint32_t *R record, size_t numbers)
{
    *offset = refusal == AWDL_SHORT ? at : 0;
    *size = refusal ? 0 : at - from;
    if (refusal)
        memset(record, 0, numbers * sizeof *record);
    return refusal;
}

uint32_t plain_frame_read(const uint8_t *R bytes, size_t length, size_t *R offset, size_t *R size, uint32_t *R frame)
{
    static const uint8_t starts[] = {0, 1, 2, 4, 8, AWDL_HEADER_SIZE};
    uint32_t refusal = 0;
    size_t at = AWDL_HEADER_SIZE;
    if (length >= 1 && bytes[0] != 0x08) {
        refusal = AWDL_NOT_ACTION;
    } else if (length >= 2 && bytes[1] != 0x10) {
        refusal = AWDL_NOT_VERSION;
    } else if (length < AWDL_HEADER_SIZE) {
        refusal = AWDL_SHORT;
        at = short_at(starts, length);
    } else {
        frame[AWDL_FRAME_SUBTYPE] = bytes[2];
        frame[AWDL_FRAME_RESERVED] = bytes[3];
        frame[AWDL_FRAME_PHY_TX_TIME] = u32_at(bytes + 4);
        frame[AWDL_FRAME_TARGET_TX_TIME] = u32_at(bytes + 8);
    }
    return answer(refusal, 0, at, offset, size, frame, AWDL_FRAME_NUMBERS);
}

uint32_t plain_step(const uint8_t *R tail, size_t length, size_t at, size_t *R step)
{
    memset(step, 0, AWDL_STEP_NUMBERS * sizeof *step);
    if (at == length)
        return AWDL_WHOLE;
    step[AWDL_STEP_AT] = at;
    if (at > length || length - at < 3)
        return AWDL_CUT;
    size_t n = u16_at(tail + at + 1);
    if (length - at - 3 < n)
        return AWDL_CUT;
    step[AWDL_STEP_TYPE] = tail[at];
    step[AWDL_STEP_LENGTH] = n;
    step[AWDL_STEP_VALUE] = at + 3;
    step[AWDL_STEP_NEXT] = at + 3 + n;
    return AWDL_ITEM;
}

/* The data path record. */

enum { INFRA_BSSID_CHANNEL = 1, INFRA_ADDRESS = 2, AWDL_ADDRESS = 4, COUNTRY = 0x100, CHANNEL = 0x200, UNICAST = 0x1000, EXTENDED = 0x8000 };
enum { TRIGGER = 1, RLFC = 4, STATS = 0x20, EXTENDED_KEEP = 0xFF7F };
#define FLAGS_PRESENCE (INFRA_BSSID_CHANNEL | INFRA_ADDRESS | AWDL_ADDRESS | COUNTRY | CHANNEL | UNICAST | EXTENDED)
#define EXTENDED_PRESENCE (TRIGGER | RLFC | STATS)
#define OPTIONS_KEEP 0xFFFFFE6A

static uint32_t read_data_path(struct reader *r, uint32_t *R record)
{
    const uint8_t *p;
    memset(record, 0, AWDL_DATA_PATH_NUMBERS * sizeof *record);
    if (!(p = take(r, 2)))
        return AWDL_SHORT;
    uint32_t flags = record[AWDL_DATA_PATH_FLAGS] = u16_at(p);
    if (flags & COUNTRY) {
        if (!(p = take(r, 3)))
            return AWDL_SHORT;
        record[AWDL_DATA_PATH_COUNTRY_CODE] = 1;
        widen(record + AWDL_DATA_PATH_COUNTRY_FIRST, p, 3);
    }
    if (flags & CHANNEL) {
        if (!(p = take(r, 2)))
            return AWDL_SHORT;
        record[AWDL_DATA_PATH_CHANNEL_MAP] = 1;
        record[AWDL_DATA_PATH_CHANNEL_KIND] = p[0] & 1 ? AWDL_MAP : AWDL_SINGLE;
        record[AWDL_DATA_PATH_CHANNEL] = p[0] & 1 ? p[0] & 7 : p[0];
    }
    if (flags & INFRA_BSSID_CHANNEL) {
        if (!(p = take(r, 6)))
            return AWDL_SHORT;
        record[AWDL_DATA_PATH_INFRA_BSSID_CHANNEL] = 1;
        widen(record + AWDL_DATA_PATH_INFRA_BSSID, p, 6);
        if (!(p = take(r, 2)))
            return AWDL_SHORT;
        record[AWDL_DATA_PATH_INFRA_CHANNEL] = u16_at(p);
    }
    if (flags & INFRA_ADDRESS) {
        if (!(p = take(r, 6)))
            return AWDL_SHORT;
        record[AWDL_DATA_PATH_INFRA_ADDRESS] = 1;
        widen(record + AWDL_DATA_PATH_INFRA, p, 6);
    }
    if (flags & AWDL_ADDRESS) {
        if (!(p = take(r, 6)))
            return AWDL_SHORT;
        record[AWDL_DATA_PATH_AWDL_ADDRESS] = 1;
        widen(record + AWDL_DATA_PATH_AWDL, p, 6);
    }
    if (flags & UNICAST) {
        if (!(p = take(r, 2)))
            return AWDL_SHORT;
        uint32_t length = u16_at(p);
        if (length != 4 && length != 8)
            return AWDL_UNICAST_LENGTH;
        if (!(p = take(r, 4)))
            return AWDL_SHORT;
        record[AWDL_DATA_PATH_UNICAST_OPTIONS] = 1;
        record[AWDL_DATA_PATH_OPTIONS] = u32_at(p) & OPTIONS_KEEP;
        if (length == 8) {
            if (!(p = take(r, 4)))
                return AWDL_SHORT;
            record[AWDL_DATA_PATH_UNICAST_OPTIONS_EXT] = 1;
            record[AWDL_DATA_PATH_EXT] = u32_at(p);
        }
    }
    if (flags & EXTENDED) {
        if (!(p = take(r, 2)))
            return AWDL_SHORT;
        uint32_t extended = u16_at(p);
        record[AWDL_DATA_PATH_EXTENDED_FLAGS] = 1;
        record[AWDL_DATA_PATH_EXTENDED] = extended & EXTENDED_KEEP;
        if (extended & TRIGGER) {
            if (!(p = take(r, 2)))
                return AWDL_SHORT;
            record[AWDL_DATA_PATH_LOG_TRIGGER_ID] = 1;
            record[AWDL_DATA_PATH_TRIGGER_ID] = u16_at(p);
        }
        if (extended & RLFC) {
            if (!(p = take(r, 4)))
                return AWDL_SHORT;
            record[AWDL_DATA_PATH_RLFC] = 1;
            record[AWDL_DATA_PATH_RLFC_WORD] = u32_at(p);
        }
        if (extended & STATS) {
            record[AWDL_DATA_PATH_STATS] = 1;
            for (size_t i = 0; i < 3; i++) {
                if (!(p = take(r, 4)))
                    return AWDL_SHORT;
                record[AWDL_DATA_PATH_MSEC_SINCE_ACTIVATION + i] = u32_at(p);
            }
        }
    }
    return 0;
}

uint32_t plain_data_path_read(const uint8_t *R bytes, size_t length, size_t *R offset, size_t *R size, uint32_t *R record)
{
    struct reader r = {bytes, length, 0};
    uint32_t refusal = read_data_path(&r, record);
    return answer(refusal, 0, r.at, offset, size, record, AWDL_DATA_PATH_NUMBERS);
}

/* Whether numbers have no bit but those that are kept, and none at all where they are not there. */
static bool kept(uint32_t present, uint32_t bits, uint32_t keep) { return !(bits & ~(present ? keep : 0)); }

static bool channel_is_right(uint32_t present, uint32_t kind, uint32_t channel)
{
    if (kind == AWDL_SINGLE)
        return kept(present, channel, 0xFE);
    return kind == AWDL_MAP && present && channel & 1 && channel <= 7;
}

/* Numbers that do not fit and records that are not consistent have the same refusal, so that one test tells both. */
static bool consistent(const uint32_t *r)
{
    uint32_t country = r[AWDL_DATA_PATH_COUNTRY_CODE], channel = r[AWDL_DATA_PATH_CHANNEL_MAP];
    uint32_t bssid = r[AWDL_DATA_PATH_INFRA_BSSID_CHANNEL], infra = r[AWDL_DATA_PATH_INFRA_ADDRESS], awdl = r[AWDL_DATA_PATH_AWDL_ADDRESS];
    uint32_t options = r[AWDL_DATA_PATH_UNICAST_OPTIONS], ext = r[AWDL_DATA_PATH_UNICAST_OPTIONS_EXT];
    uint32_t extended = r[AWDL_DATA_PATH_EXTENDED_FLAGS], rlfc = r[AWDL_DATA_PATH_RLFC];
    uint32_t trigger = r[AWDL_DATA_PATH_LOG_TRIGGER_ID], stats = r[AWDL_DATA_PATH_STATS];
    if ((country | channel | bssid | infra | awdl | options | ext | extended | rlfc | trigger | stats) > 1 || ext > options)
        return false;
    uint32_t flags = r[AWDL_DATA_PATH_FLAGS], extended_flags = r[AWDL_DATA_PATH_EXTENDED];
    uint32_t presence = country << 8 | channel << 9 | bssid | infra << 1 | awdl << 2 | options << 12 | extended << 15;
    /* Where there is no extended word it is 0, and so the fields that it tells of are not there either. */
    return flags <= 0xFFFF && (flags & FLAGS_PRESENCE) == presence
        && (extended_flags & EXTENDED_PRESENCE) == (trigger | rlfc << 2 | stats << 5)
        && kept(country, all_bits(r + AWDL_DATA_PATH_COUNTRY_FIRST, 3), 0xFF)
        && channel_is_right(channel, r[AWDL_DATA_PATH_CHANNEL_KIND], r[AWDL_DATA_PATH_CHANNEL])
        && kept(bssid, all_bits(r + AWDL_DATA_PATH_INFRA_BSSID, 6), 0xFF)
        && kept(bssid, r[AWDL_DATA_PATH_INFRA_CHANNEL], 0xFFFF)
        && kept(infra, all_bits(r + AWDL_DATA_PATH_INFRA, 6), 0xFF)
        && kept(awdl, all_bits(r + AWDL_DATA_PATH_AWDL, 6), 0xFF)
        && kept(options, r[AWDL_DATA_PATH_OPTIONS], OPTIONS_KEEP)
        && kept(ext, r[AWDL_DATA_PATH_EXT], 0xFFFFFFFF)
        && kept(extended, extended_flags, EXTENDED_KEEP)
        && kept(rlfc, r[AWDL_DATA_PATH_RLFC_WORD], 0xFFFFFFFF)
        && kept(trigger, r[AWDL_DATA_PATH_TRIGGER_ID], 0xFFFF)
        && kept(stats, all_bits(r + AWDL_DATA_PATH_MSEC_SINCE_ACTIVATION, 3), 0xFFFFFFFF);
}

static size_t data_path_size(const uint32_t *r)
{
    return 2 + 3 * r[AWDL_DATA_PATH_COUNTRY_CODE] + 2 * r[AWDL_DATA_PATH_CHANNEL_MAP] + 8 * r[AWDL_DATA_PATH_INFRA_BSSID_CHANNEL]
         + 6 * r[AWDL_DATA_PATH_INFRA_ADDRESS] + 6 * r[AWDL_DATA_PATH_AWDL_ADDRESS] + 6 * r[AWDL_DATA_PATH_UNICAST_OPTIONS]
         + 4 * r[AWDL_DATA_PATH_UNICAST_OPTIONS_EXT] + 2 * r[AWDL_DATA_PATH_EXTENDED_FLAGS] + 4 * r[AWDL_DATA_PATH_RLFC]
         + 2 * r[AWDL_DATA_PATH_LOG_TRIGGER_ID] + 12 * r[AWDL_DATA_PATH_STATS];
}

uint32_t plain_data_path_write(const uint32_t *R r, uint8_t *R buffer, size_t length, size_t *R size)
{
    *size = 0;
    if (!consistent(r))
        return AWDL_INCONSISTENT;
    size_t n = data_path_size(r);
    if (length < n)
        return AWDL_NO_ROOM;
    uint8_t *p = put_u16(buffer, r[AWDL_DATA_PATH_FLAGS]);
    if (r[AWDL_DATA_PATH_COUNTRY_CODE])
        p = narrow(p, r + AWDL_DATA_PATH_COUNTRY_FIRST, 3);
    if (r[AWDL_DATA_PATH_CHANNEL_MAP])
        p = put_u16(p, r[AWDL_DATA_PATH_CHANNEL]);
    if (r[AWDL_DATA_PATH_INFRA_BSSID_CHANNEL]) {
        p = narrow(p, r + AWDL_DATA_PATH_INFRA_BSSID, 6);
        p = put_u16(p, r[AWDL_DATA_PATH_INFRA_CHANNEL]);
    }
    if (r[AWDL_DATA_PATH_INFRA_ADDRESS])
        p = narrow(p, r + AWDL_DATA_PATH_INFRA, 6);
    if (r[AWDL_DATA_PATH_AWDL_ADDRESS])
        p = narrow(p, r + AWDL_DATA_PATH_AWDL, 6);
    if (r[AWDL_DATA_PATH_UNICAST_OPTIONS]) {
        p = put_u16(p, r[AWDL_DATA_PATH_UNICAST_OPTIONS_EXT] ? 8 : 4);
        p = put_u32(p, r[AWDL_DATA_PATH_OPTIONS]);
    }
    if (r[AWDL_DATA_PATH_UNICAST_OPTIONS_EXT])
        p = put_u32(p, r[AWDL_DATA_PATH_EXT]);
    if (r[AWDL_DATA_PATH_EXTENDED_FLAGS])
        p = put_u16(p, r[AWDL_DATA_PATH_EXTENDED]);
    if (r[AWDL_DATA_PATH_LOG_TRIGGER_ID])
        p = put_u16(p, r[AWDL_DATA_PATH_TRIGGER_ID]);
    if (r[AWDL_DATA_PATH_RLFC])
        p = put_u32(p, r[AWDL_DATA_PATH_RLFC_WORD]);
    if (r[AWDL_DATA_PATH_STATS]) {
        p = put_u32(p, r[AWDL_DATA_PATH_MSEC_SINCE_ACTIVATION]);
        p = put_u32(p, r[AWDL_DATA_PATH_AW_SEQ_COUNTER]);
        put_u32(p, r[AWDL_DATA_PATH_PAY_UPDATE_COUTNER]);
    }
    *size = n;
    return 0;
}

/* Sequences. */

/* The bytes of sixteen entries, or 0 for an encoding that is not listed. */
static size_t entries_size(uint32_t encoding)
{
    return encoding == SIMPLE ? ENTRIES : encoding == LEGACY || encoding == OPERATING_CLASS ? 2 * ENTRIES : 0;
}

static uint32_t read_sequence(struct reader *r, uint32_t encoding, uint32_t *R sequence)
{
    size_t n = entries_size(encoding);
    if (n == 0)
        return AWDL_ENCODING;
    const uint8_t *p = r->at <= r->length ? take(r, n) : NULL;
    if (!p)
        return AWDL_SHORT;
    uint32_t *entries = sequence + AWDL_SEQUENCE_BYTES;
    sequence[AWDL_SEQUENCE_ENCODING] = encoding;
    if (encoding == SIMPLE) {
        widen(entries, p, ENTRIES);
        memset(entries + ENTRIES, 0, ENTRIES * sizeof *entries);
    } else {
        widen(entries, p, 2 * ENTRIES);
    }
    if (encoding == LEGACY)
        for (size_t i = 0; i < 2 * ENTRIES; i += 2)
            entries[i] &= 0x3F;
    return 0;
}

uint32_t plain_sequence_read(const uint8_t *R bytes, size_t length, size_t at, uint32_t encoding, size_t *R offset, size_t *R size,
                             uint32_t *R sequence)
{
    struct reader r = {bytes, length, at};
    uint32_t refusal = encoding > 0xFF ? AWDL_INCONSISTENT : read_sequence(&r, encoding, sequence);
    return answer(refusal, at, r.at, offset, size, sequence, AWDL_SEQUENCE_NUMBERS);
}

static uint32_t read_channel_sequence(struct reader *r, uint32_t *R record)
{
    static const uint8_t starts[] = {0, 1, 2, 3, 4, SEQUENCE_HEAD};
    if (r->at > r->length)
        return AWDL_SHORT;
    const uint8_t *p = take(r, SEQUENCE_HEAD);
    if (!p) {
        r->at += short_at(starts, r->length - r->at);
        return AWDL_SHORT;
    }
    if (p[0] != ENTRIES - 1)
        return AWDL_CHANNEL_COUNT;
    record[AWDL_CHANNEL_SEQUENCE_DUPLICATE_COUNT] = p[2];
    record[AWDL_CHANNEL_SEQUENCE_STEP_COUNT] = p[3];
    record[AWDL_CHANNEL_SEQUENCE_FILL_CHANNEL] = u16_at(p + 4);
    return read_sequence(r, p[1], record + AWDL_CHANNEL_SEQUENCE_ENCODING);
}

uint32_t plain_channel_sequence_read(const uint8_t *R bytes, size_t length, size_t at, size_t *R offset, size_t *R size, uint32_t *R record)
{
    struct reader r = {bytes, length, at};
    uint32_t refusal = read_channel_sequence(&r, record);
    return answer(refusal, at, r.at, offset, size, record, AWDL_CHANNEL_SEQUENCE_NUMBERS);
}

static uint32_t read_synchronization(struct reader *r, uint32_t *R record)
{
    static const uint8_t starts[] = {0, 1, 3, 4, 5, 7, 9, 11, 13, 15, 17, 18, 19, 20, 21, 27, 29, 31, FIXED_SIZE};
    const uint8_t *p = take(r, FIXED_SIZE);
    if (!p) {
        r->at = short_at(starts, r->length);
        return AWDL_SHORT;
    }
    record[AWDL_SYNCHRONIZATION_NEXT_CHANNEL] = p[0];
    record[AWDL_SYNCHRONIZATION_TX_COUNTER] = u16_at(p + 1);
    record[AWDL_SYNCHRONIZATION_MASTER_CHANNEL] = p[3];
    record[AWDL_SYNCHRONIZATION_GUARD_TIME] = p[4];
    record[AWDL_SYNCHRONIZATION_AW_PERIOD] = u16_at(p + 5);
    record[AWDL_SYNCHRONIZATION_AF_PERIOD] = u16_at(p + 7);
    record[AWDL_SYNCHRONIZATION_AWDL_FLAGS] = u16_at(p + 9);
    record[AWDL_SYNCHRONIZATION_AW_EXT_LENGTH] = u16_at(p + 11);
    record[AWDL_SYNCHRONIZATION_AW_COMMON_LENGTH] = u16_at(p + 13);
    record[AWDL_SYNCHRONIZATION_REMAINING_AW_LENGTH] = u16_at(p + 15);
    /* Four counts, the address, the presence mode and the reserved byte. */
    widen(record + AWDL_SYNCHRONIZATION_MIN_EXT_COUNT, p + 17, 12);
    record[AWDL_SYNCHRONIZATION_AW_SEQ_NUMBER] = u16_at(p + 29);
    record[AWDL_SYNCHRONIZATION_AP_BEACON_ALIGNMENT_DELTA] = u16_at(p + 31);
    return read_channel_sequence(r, record + AWDL_SYNCHRONIZATION_DUPLICATE_COUNT);
}

uint32_t plain_synchronization_read(const uint8_t *R bytes, size_t length, size_t *R offset, size_t *R size, uint32_t *R record)
{
    struct reader r = {bytes, length, 0};
    uint32_t refusal = read_synchronization(&r, record);
    return answer(refusal, 0, r.at, offset, size, record, AWDL_SYNCHRONIZATION_NUMBERS);
}

/* Why a sequence is not written, or 0. */
static uint32_t unwritten(const uint32_t *sequence)
{
    uint32_t encoding = sequence[AWDL_SEQUENCE_ENCODING];
    uint32_t used = all_bits(sequence + AWDL_SEQUENCE_BYTES, ENTRIES), unused = all_bits(sequence + AWDL_SEQUENCE_BYTES + ENTRIES, ENTRIES);
    if ((encoding | used | unused) > 0xFF)
        return AWDL_INCONSISTENT;
    if (entries_size(encoding) == 0)
        return AWDL_ENCODING;
    if (encoding == LEGACY)
        return AWDL_LEGACY_SEQUENCE;
    return encoding == SIMPLE && unused ? AWDL_INCONSISTENT : 0;
}

static void put_sequence(uint8_t *R buffer, const uint32_t *R sequence)
{
    narrow(buffer, sequence + AWDL_SEQUENCE_BYTES, sequence[AWDL_SEQUENCE_ENCODING] == SIMPLE ? ENTRIES : 2 * ENTRIES);
}

uint32_t plain_sequence_write(const uint32_t *R sequence, uint8_t *R buffer, size_t length, size_t *R size)
{
    uint32_t refusal = unwritten(sequence);
    size_t n = entries_size(sequence[AWDL_SEQUENCE_ENCODING]);
    if (!refusal && length < n)
        refusal = AWDL_NO_ROOM;
    *size = refusal ? 0 : n;
    if (!refusal)
        put_sequence(buffer, sequence);
    return refusal;
}

static bool channel_sequence_fits(const uint32_t *r)
{
    return (r[AWDL_CHANNEL_SEQUENCE_DUPLICATE_COUNT] | r[AWDL_CHANNEL_SEQUENCE_STEP_COUNT]) <= 0xFF
        && r[AWDL_CHANNEL_SEQUENCE_FILL_CHANNEL] <= 0xFFFF;
}

static void put_channel_sequence(uint8_t *R buffer, const uint32_t *R r)
{
    buffer[0] = ENTRIES - 1;
    buffer[1] = r[AWDL_CHANNEL_SEQUENCE_ENCODING];
    buffer[2] = r[AWDL_CHANNEL_SEQUENCE_DUPLICATE_COUNT];
    buffer[3] = r[AWDL_CHANNEL_SEQUENCE_STEP_COUNT];
    put_u16(buffer + 4, r[AWDL_CHANNEL_SEQUENCE_FILL_CHANNEL]);
    put_sequence(buffer + SEQUENCE_HEAD, r + AWDL_CHANNEL_SEQUENCE_ENCODING);
}

uint32_t plain_channel_sequence_write(const uint32_t *R r, uint8_t *R buffer, size_t length, size_t *R size)
{
    uint32_t refusal = channel_sequence_fits(r) ? unwritten(r + AWDL_CHANNEL_SEQUENCE_ENCODING) : AWDL_INCONSISTENT;
    size_t n = SEQUENCE_HEAD + entries_size(r[AWDL_CHANNEL_SEQUENCE_ENCODING]);
    if (!refusal && length < n)
        refusal = AWDL_NO_ROOM;
    *size = refusal ? 0 : n;
    if (!refusal)
        put_channel_sequence(buffer, r);
    return refusal;
}

static bool synchronization_fits(const uint32_t *r)
{
    uint32_t bytes = r[AWDL_SYNCHRONIZATION_NEXT_CHANNEL] | r[AWDL_SYNCHRONIZATION_MASTER_CHANNEL] | r[AWDL_SYNCHRONIZATION_GUARD_TIME]
                   | all_bits(r + AWDL_SYNCHRONIZATION_MIN_EXT_COUNT, 12);
    uint32_t words = r[AWDL_SYNCHRONIZATION_TX_COUNTER] | all_bits(r + AWDL_SYNCHRONIZATION_AW_PERIOD, 6)
                   | r[AWDL_SYNCHRONIZATION_AW_SEQ_NUMBER] | r[AWDL_SYNCHRONIZATION_AP_BEACON_ALIGNMENT_DELTA];
    return bytes <= 0xFF && words <= 0xFFFF && channel_sequence_fits(r + AWDL_SYNCHRONIZATION_DUPLICATE_COUNT);
}

uint32_t plain_synchronization_write(const uint32_t *R r, uint8_t *R buffer, size_t length, size_t *R size)
{
    uint32_t refusal = synchronization_fits(r) ? unwritten(r + AWDL_SYNCHRONIZATION_ENCODING) : AWDL_INCONSISTENT;
    size_t n = FIXED_SIZE + SEQUENCE_HEAD + entries_size(r[AWDL_SYNCHRONIZATION_ENCODING]);
    if (!refusal && length < n)
        refusal = AWDL_NO_ROOM;
    *size = refusal ? 0 : n;
    if (refusal)
        return refusal;
    buffer[0] = r[AWDL_SYNCHRONIZATION_NEXT_CHANNEL];
    put_u16(buffer + 1, r[AWDL_SYNCHRONIZATION_TX_COUNTER]);
    buffer[3] = r[AWDL_SYNCHRONIZATION_MASTER_CHANNEL];
    buffer[4] = r[AWDL_SYNCHRONIZATION_GUARD_TIME];
    for (size_t i = 0; i < 6; i++)
        put_u16(buffer + 5 + 2 * i, r[AWDL_SYNCHRONIZATION_AW_PERIOD + i]);
    narrow(buffer + 17, r + AWDL_SYNCHRONIZATION_MIN_EXT_COUNT, 12);
    put_u16(buffer + 29, r[AWDL_SYNCHRONIZATION_AW_SEQ_NUMBER]);
    put_u16(buffer + 31, r[AWDL_SYNCHRONIZATION_AP_BEACON_ALIGNMENT_DELTA]);
    put_channel_sequence(buffer + FIXED_SIZE, r + AWDL_SYNCHRONIZATION_DUPLICATE_COUNT);
    return 0;
}

/* The search: a value that is refused is passed over. */

typedef uint32_t read_record(struct reader *r, uint32_t *R record);

static inline uint32_t next(const uint8_t *R tail, size_t length, size_t at, size_t *R item, uint32_t *R record,
                            uint32_t type, read_record *read, size_t numbers)
{
    while (at < length && length - at >= 3) {
        size_t n = u16_at(tail + at + 1), behind = at + 3 + n;
        if (length - at - 3 < n)
            break;
        if (tail[at] == type) {
            struct reader r = {tail + at + 3, n, 0};
            if (read(&r, record) == 0) {
                item[AWDL_FOUND_AT] = at;
                item[AWDL_FOUND_TYPE] = type;
                item[AWDL_FOUND_LENGTH] = n;
                item[AWDL_FOUND_NEXT] = behind;
                return 1;
            }
        }
        at = behind;
    }
    memset(record, 0, numbers * sizeof *record);
    memset(item, 0, AWDL_FOUND_NUMBERS * sizeof *item);
    return 0;
}

#define SEARCHES(type, TYPE)                                                                                                         \
    uint32_t plain_next_##type(const uint8_t *R tail, size_t length, size_t at, size_t *R item, uint32_t *R record)                  \
    {                                                                                                                                \
        return next(tail, length, at, item, record, AWDL_TYPE_##TYPE, read_##type, AWDL_##TYPE##_NUMBERS);                           \
    }                                                                                                                                \
    uint32_t plain_first_##type(const uint8_t *R tail, size_t length, size_t *R item, uint32_t *R record)                            \
    {                                                                                                                                \
        return plain_next_##type(tail, length, 0, item, record);                                                                     \
    }

SEARCHES(data_path, DATA_PATH)
SEARCHES(synchronization, SYNCHRONIZATION)
SEARCHES(channel_sequence, CHANNEL_SEQUENCE)

/* The judge. */

static uint8_t corrected(uint8_t flags, uint8_t channel)
{
    switch (flags & 3) {
    case 1: return channel - 2;
    case 2: return channel + 2;
    default: return channel;
    }
}

static bool count_sequence(uint16_t *counts, const uint8_t *sequence)
{
    const uint8_t *entries = sequence + 1;
    switch (sequence[0]) {
    case SIMPLE:
        for (size_t i = 0; i < ENTRIES; i++)
            counts[entries[i]]++;
        return true;
    case LEGACY:
        for (size_t i = 0; i < ENTRIES; i++)
            counts[corrected(entries[2 * i], entries[2 * i + 1])]++;
        return true;
    case OPERATING_CLASS:
        for (size_t i = 0; i < ENTRIES; i++)
            counts[entries[2 * i]]++;
        return true;
    default:
        return false;
    }
}

uint32_t plain_judge(const uint8_t *R sequences, size_t length, const uint8_t *R permitted, size_t count, uint32_t proposal, size_t *R offset,
                     uint32_t *R own)
{
    uint16_t counts[256] = {0};
    *offset = 0;
    *own = 0;
    if (proposal > 0xFF)
        return AWDL_INCONSISTENT;
    if (length % LENT_SIZE != 0) {
        *offset = length - length % LENT_SIZE;
        return AWDL_SHORT;
    }
    if (length > 64 * LENT_SIZE || count > 16)
        return AWDL_TOO_MANY;
    for (size_t at = 0; at < length; at += LENT_SIZE)
        if (!count_sequence(counts, sequences + at))
            return AWDL_ENCODING;
    if (count == 0)
        return AWDL_NONE_PERMITTED;
    if (!memchr(permitted, proposal, count))
        return AWDL_NOT_PERMITTED;
    uint8_t best = permitted[0];
    for (size_t i = 1; i < count; i++)
        if (counts[permitted[i]] < counts[best])
            best = permitted[i];
    if (counts[best] == counts[proposal])
        return 0;
    *own = best;
    return AWDL_SMALLER_LOAD;
}
