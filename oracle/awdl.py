"""One reading of docs/01-scope.md (01), in its order and words, with No. 1,
No. 2, No. 4, No. 5, No. 7, No. 10 and No. 13 of docs/02-change-requests.md (02).
No. 14, which is taken up too, reads and writes as they do.

It is written from these alone; only the names of bits, and the numbers of types
and subtypes that 01 does not list, are the Rust's. A reader gives its size
and its record, a writer its size and the buffer as it is afterwards, and a
call that is refused raises `Refused` with 01's number, with 1 also the offset
of the field that did not fit, and with 30 also our own proposal.
"""

from collections import namedtuple


# Numbers a call can answer with; 9 is no longer given (02, No. 1), and 11 to 17
# and 20 to 26 belong to requests that are not taken up.

SHORT = 1                   # the input ends before a needed byte
NOT_ACTION = 2              # first frame byte present and not 0x08
NOT_VERSION = 3             # second frame byte present and not 0x10
UNICAST_LENGTH = 4          # unicast length neither 4 nor 8
ENCODING = 5                # channel encoding not 0, 1 or 3; to be converted, not 1 (02)
NO_ROOM = 6                 # the buffer is shorter than the size to write
INCONSISTENT = 7            # the record is not consistent
TOO_LONG = 8                # an item value is longer than 65,535 bytes
CHANNEL_COUNT = 10          # the count byte of a channel sequence is not 15 (02)
LEGACY_SEQUENCE = 18        # a legacy sequence is to be written (02)
CORRECTED_CHANNEL = 19      # a corrected channel would be none of 0 to 255 (02)
TOO_MANY = 27               # more than 64 sequences or 16 permitted channels (02)
NONE_PERMITTED = 28         # there is no permitted channel (02)
NOT_PERMITTED = 29          # the proposal is not permitted (02)
SMALLER_LOAD = 30           # a permitted channel has a smaller load (02)


class Refused(Exception):
    """A number and, with 1, the offset of the first byte of the field that did
    not fit; all other answers give 0 there (02, No. 4). With 30 it carries a
    channel, our own proposal, and is the one refusal that does (02, No. 13)."""

    def __init__(self, number, offset=0, channel=0):
        super().__init__(number, offset, channel)
        self.number = number
        self.offset = offset
        self.channel = channel


class Source:
    """Fields that are read in order: the first fault met wins. A field is taken
    as a whole, with the reserved byte behind it, and its offset counts from the
    start of the data, wherever reading begins (02, No. 4)."""

    def __init__(self, data, at=0):
        self.data = data
        self.at = at

    def take(self, width):
        start = self.at
        self.at = start + width
        if self.at > len(self.data):
            raise Refused(SHORT, start)
        return self.data[start:self.at]

    def number(self, width):
        return int.from_bytes(self.take(width), "little")


def little(number, width):
    """All numbers are little-endian on every board."""
    return number.to_bytes(width, "little")


def put(data, buffer):
    """A buffer longer than needed keeps its bytes past the size."""
    if len(buffer) < len(data):
        raise Refused(NO_ROOM)
    return len(data), data + buffer[len(data):]


# The frame and its items.

HEADER_SIZE = 12
ITEM_HEADER_SIZE = 3

Frame = namedtuple("Frame", "subtype reserved phy_tx_time target_tx_time")
Item = namedtuple("Item", "at type length")

WHOLE = "whole"
CUT = "cut"


def read_frame(data):
    """08 10; subtype, one reserved byte, two stamps of 4 bytes; then the tail.
    The record has gained the reserved byte (02, No. 7); where it does not fit,
    it belongs to the subtype (02, No. 4)."""
    source = Source(data)
    if source.number(1) != 0x08:
        raise Refused(NOT_ACTION)
    if source.number(1) != 0x10:
        raise Refused(NOT_VERSION)
    subtype, reserved = source.take(2)
    frame = Frame(subtype, reserved, source.number(4), source.number(4))
    return source.at, frame


def frame_tail(data):
    """Nothing where the frame ends before it."""
    return data[HEADER_SIZE:]


def write_frame(frame, tail, buffer):
    """The reserved byte is written again (02, No. 7)."""
    head = bytes([0x08, 0x10, frame.subtype, frame.reserved])
    stamps = little(frame.phy_tx_time, 4) + little(frame.target_tx_time, 4)
    return put(head + stamps + tail, buffer)


def tx_delta(phy_tx_time, target_tx_time):
    """The gap on a clock that rolls over: sending less hand-over, modulo 2 to
    the 32nd (02, No. 1)."""
    return (phy_tx_time - target_tx_time) % 2 ** 32


def step(tail, at):
    """At its end: whole. With fewer than 3 bytes left, or a length above what
    follows: cut at that place. Otherwise an item."""
    left = len(tail) - at
    if left == 0:
        return WHOLE
    if left < ITEM_HEADER_SIZE:
        return CUT
    length = int.from_bytes(tail[at + 1:at + 3], "little")
    if length > left - ITEM_HEADER_SIZE:
        return CUT
    return Item(at, tail[at], length)


def behind(item):
    """The walk goes on behind the value."""
    return item.at + ITEM_HEADER_SIZE + item.length


def value(tail, item):
    """Of an item that the tail does not hold, nothing."""
    if behind(item) > len(tail):
        return b""
    return tail[item.at + ITEM_HEADER_SIZE:behind(item)]


def offset_in_frame(data, item, offset):
    """An offset of an item's value as one of the frame (02, No. 4); None
    where the tail does not hold the item, or the offset is above its length."""
    if behind(item) > len(frame_tail(data)) or offset > item.length:
        return None
    return HEADER_SIZE + item.at + ITEM_HEADER_SIZE + offset


def walk(tail, at=0):
    """The items from a place on, one by one."""
    item = step(tail, at)
    while isinstance(item, Item):
        yield item
        item = step(tail, behind(item))


def end(tail):
    """Whole or cut, at which place, and how many items there are."""
    at = items = 0
    for item in walk(tail):
        at = behind(item)
        items += 1
    return step(tail, at), at, items


def accepted(tail, at, kind, read):
    """The records of a type from a place on: a refused value is passed over
    and the search continues."""
    for item in walk(tail, at):
        if item.type == kind:
            try:
                yield item, read(value(tail, item))[1]
            except Refused:
                pass


def write_item(kind, data, buffer):
    """Type (1), length (2), value."""
    if len(data) > 65535:
        raise Refused(TOO_LONG)
    return put(bytes([kind]) + little(len(data), 2) + data, buffer)


# Data path record. Each field but the flags has its presence first. The country
# is two letters and the pad byte, which the record has gained (02, No. 7).

DATA_PATH_TYPE = 0x0C
DATA_PATH_SIZES = 2, 57
FLAGS_KEEP = 0xFFFF
EXTENDED_KEEP = 0xFF7F
OPTIONS_KEEP = 0xFFFFFE6A
MAP_KEEP = 7
NO_ADDRESS = bytes(6)

DataPath = namedtuple(
    "DataPath",
    "flags country channel infra_bssid infra awdl options ext extended rlfc trigger stats",
)
ZERO_DATA_PATH = DataPath(
    flags=0,
    country=(0, 0, 0, 0),
    channel=(0, "single", 0),
    infra_bssid=(0, NO_ADDRESS, 0),
    infra=(0, NO_ADDRESS),
    awdl=(0, NO_ADDRESS),
    options=(0, 0),
    ext=(0, 0),
    extended=(0, 0),
    rlfc=(0, 0),
    trigger=(0, 0),
    stats=(0, 0, 0, 0),
)


def channel_of(word):
    """With bit 0 clear a single channel, its low byte; with bit 0 set a map,
    its low three bits."""
    if word & 1 == 0:
        return "single", word & 0xFF
    return "map", word & MAP_KEEP


def read_data_path(data):
    """The country's two letters and pad are one field (02, No. 4)."""
    source = Source(data)
    fields = {}
    flags = source.number(2)
    if flags >> 8 & 1:
        fields["country"] = 1, *source.take(3)
    if flags >> 9 & 1:
        fields["channel"] = 1, *channel_of(source.number(2))
    if flags >> 0 & 1:
        fields["infra_bssid"] = 1, source.take(6), source.number(2)
    if flags >> 1 & 1:
        fields["infra"] = 1, source.take(6)
    if flags >> 2 & 1:
        fields["awdl"] = 1, source.take(6)
    if flags >> 12 & 1:
        length = source.number(2)
        if length != 4 and length != 8:
            raise Refused(UNICAST_LENGTH)
        fields["options"] = 1, source.number(4) & OPTIONS_KEEP
        if length == 8:
            fields["ext"] = 1, source.number(4)
    if flags >> 15 & 1:
        extended = source.number(2)
        fields["extended"] = 1, extended & EXTENDED_KEEP
        if extended >> 0 & 1:
            fields["trigger"] = 1, source.number(2)
        if extended >> 2 & 1:
            fields["rlfc"] = 1, source.number(4)
        if extended >> 5 & 1:
            fields["stats"] = 1, source.number(4), source.number(4), source.number(4)
    return source.at, ZERO_DATA_PATH._replace(flags=flags, **fields)


def presence_bits(record):
    """The flags with their presence bits set from presence."""
    flags = record.flags & ~0x9307
    flags |= record.country[0] << 8 | record.channel[0] << 9
    flags |= record.infra_bssid[0] << 0 | record.infra[0] << 1 | record.awdl[0] << 2
    return flags | record.options[0] << 12 | record.extended[0] << 15


def extended_presence_bits(record):
    """The extended flags with theirs."""
    word = record.extended[1] & ~0x0025
    return word | record.trigger[0] << 0 | record.rlfc[0] << 2 | record.stats[0] << 5


def has_extended_field(record):
    return record.trigger[0] or record.rlfc[0] or record.stats[0]


def channel_is_right(present, kind, number):
    """Single channel even, at most 254; map odd and at most 7."""
    if not present:
        return True
    if kind == "single":
        return number % 2 == 0 and number <= 254
    return number % 2 == 1 and number <= 7


def is_consistent(record):
    """Absent fields are zero, the pad of an absent country too (02, No. 7)."""
    if record.flags != presence_bits(record):
        return False
    if record.ext[0] and not record.options[0]:
        return False
    if has_extended_field(record) and not record.extended[0]:
        return False
    if record.extended[0] and record.extended[1] != extended_presence_bits(record):
        return False
    if not channel_is_right(*record.channel):
        return False
    if record.options[1] & ~OPTIONS_KEEP or record.extended[1] & ~EXTENDED_KEEP:
        return False
    return all(
        field[0] or field == zero for field, zero in zip(record[1:], ZERO_DATA_PATH[1:])
    )


def mend(record):
    """What the Rust writer does, departure (g) apart. It zeroes absent fields,
    the pad of an absent country with its letters (02, No. 7)."""
    fields = [
        field if field[0] else zero for field, zero in zip(record[1:], ZERO_DATA_PATH[1:])
    ]
    record = DataPath(record.flags, *fields)
    if has_extended_field(record) or record.extended[0]:
        extended = extended_presence_bits(record) & EXTENDED_KEEP
        record = record._replace(extended=(1, extended))
    if record.ext[0] or record.options[0]:
        record = record._replace(options=(1, record.options[1] & OPTIONS_KEEP))
    return record._replace(flags=presence_bits(record))


def data_path_bytes(record):
    """The country's pad is written again (02, No. 7)."""
    if not is_consistent(record):
        raise Refused(INCONSISTENT)
    data = little(record.flags, 2)
    if record.country[0]:
        data += bytes(record.country[1:])
    if record.channel[0]:
        data += little(record.channel[2], 2)
    if record.infra_bssid[0]:
        data += record.infra_bssid[1] + little(record.infra_bssid[2], 2)
    if record.infra[0]:
        data += record.infra[1]
    if record.awdl[0]:
        data += record.awdl[1]
    if record.options[0]:
        words = little(record.options[1], 4)
        if record.ext[0]:
            words += little(record.ext[1], 4)
        data += little(len(words), 2) + words
    if record.extended[0]:
        data += little(record.extended[1], 2)
    if record.trigger[0]:
        data += little(record.trigger[1], 2)
    if record.rlfc[0]:
        data += little(record.rlfc[1], 4)
    if record.stats[0]:
        data += b"".join(little(number, 4) for number in record.stats[1:])
    return data


def data_path_size(record):
    """A size asked of an inconsistent record is refused with 7."""
    return len(data_path_bytes(record))


def write_data_path(record, buffer):
    return put(data_path_bytes(record), buffer)


# Synchronization and channels.

FIXED_SIZE = 33

# Name, offset and width; byte 28 is reserved, and a field of the record (02, No. 7).
FIXED_FIELDS = [
    ("next_channel", 0, 1),
    ("tx_counter", 1, 2),
    ("master_channel", 3, 1),
    ("guard_time", 4, 1),
    ("aw_period", 5, 2),
    ("af_period", 7, 2),
    ("awdl_flags", 9, 2),
    ("aw_ext_length", 11, 2),
    ("aw_common_length", 13, 2),
    ("remaining_aw_length", 15, 2),
    ("min_ext_count", 17, 1),
    ("max_multicast_ext_count", 18, 1),
    ("max_unicast_ext_count", 19, 1),
    ("max_af_ext_count", 20, 1),
    ("master_address", 21, 6),
    ("presence_mode", 27, 1),
    ("reserved", 28, 1),
    ("aw_seq_number", 29, 2),
    ("ap_beacon_alignment_delta", 31, 2),
]


def fixed_fields(data):
    """An address is its bytes, every other field a number. Where byte 28 is not
    there, the presence mode before it does not fit (02, No. 4)."""
    fields = []
    for name, offset, width in FIXED_FIELDS:
        reserved = 1 if name == "presence_mode" else 0
        part = Source(data, offset).take(width + reserved)[:width]
        fields.append(part if name == "master_address" else int.from_bytes(part, "little"))
    return fields


def fixed_bytes(fields):
    """All 33, the reserved byte 28 among them (02, No. 7)."""
    data = bytearray(FIXED_SIZE)
    for field, (name, offset, width) in zip(fields, FIXED_FIELDS):
        part = field if name == "master_address" else little(field, width)
        data[offset:offset + width] = part
    return bytes(data)


SIMPLE = 0
LEGACY = 1
OPCLASS = 3
ENTRIES = 16
LEGACY_KEEP = 0x3F

Channel = namedtuple("Channel", "encoding first second")
Sequence = namedtuple("Sequence", "encoding bytes")
ZERO_SEQUENCE = Sequence(0, bytes(32))


def known_encoding(encoding):
    if encoding not in (SIMPLE, LEGACY, OPCLASS):
        raise Refused(ENCODING)
    return encoding


def entry_size(encoding):
    """One byte each (0), flags and channel (1), channel and opclass (3)."""
    return 1 if known_encoding(encoding) == SIMPLE else 2


def read_sequence(data, at, encoding):
    """The place behind the sequence, and it; 5 is checked before 1. The 16
    entries are one field (02, No. 4)."""
    source = Source(data, at)
    used = bytearray(source.take(ENTRIES * entry_size(encoding)))
    if encoding == LEGACY:
        used[0::2] = bytes(flags & LEGACY_KEEP for flags in used[0::2])
    return source.at, Sequence(encoding, bytes(used.ljust(32, b"\0")))


def sequence_is_consistent(sequence):
    """Its unused bytes are 0 and its legacy flags at most 0x3F."""
    used = ENTRIES * entry_size(sequence.encoding)
    if any(sequence.bytes[used:]):
        return False
    return sequence.encoding != LEGACY or max(sequence.bytes[0::2]) <= LEGACY_KEEP


def sequence_bytes(sequence):
    if not sequence_is_consistent(sequence):
        raise Refused(INCONSISTENT)
    return sequence.bytes[:ENTRIES * entry_size(sequence.encoding)]


def sequence_size(sequence):
    """A legacy sequence has its size as before (02, No. 10)."""
    return len(sequence_bytes(sequence))


def check_written(sequence):
    """A legacy sequence is not written, alone or in a record, consistent or
    not: 18 is checked after 5 and before 7 (02, No. 10)."""
    if known_encoding(sequence.encoding) == LEGACY:
        raise Refused(LEGACY_SEQUENCE)


def sequence_written_size(sequence):
    """What its writer puts, given the room."""
    check_written(sequence)
    return sequence_size(sequence)


def write_sequence(sequence, buffer):
    check_written(sequence)
    return put(sequence_bytes(sequence), buffer)


def fixed_sequence(channel):
    """One channel 16 times; it checks 5, then 7 for legacy flags above 0x3F or
    a simple channel's second byte not 0."""
    encoding = known_encoding(channel.encoding)
    if encoding == LEGACY and channel.first > LEGACY_KEEP:
        raise Refused(INCONSISTENT)
    if encoding == SIMPLE and channel.second != 0:
        raise Refused(INCONSISTENT)
    entry = bytes([channel.first, channel.second])[:entry_size(encoding)]
    return Sequence(encoding, (entry * ENTRIES).ljust(32, b"\0"))


def sequence_entry(sequence, entry):
    """An entry, from 0 on, as a channel of the bytes as they stand (02); None
    where there is no such entry. 5 is checked first."""
    size = entry_size(sequence.encoding)
    if entry >= ENTRIES:
        return None
    used = sequence.bytes[size * entry:size * (entry + 1)]
    return Channel(sequence.encoding, *used.ljust(2, b"\0"))


def support_channel(flags):
    """The low two flag bits; bandwidth and band are the next two pairs."""
    return flags & 3


def channel_bandwidth(flags):
    return flags >> 2 & 3


def band(flags):
    return flags >> 4 & 3


def correction(flags):
    """Two below for support channel 1, two above for 2, else none."""
    return {1: -2, 2: 2}.get(support_channel(flags), 0)


def corrected_channel(channel):
    """Counted modulo 256; only a legacy channel is corrected."""
    if known_encoding(channel.encoding) != LEGACY:
        return channel.first
    return (channel.second + correction(channel.first)) % 256


def sequence_to_simple(sequence):
    """A legacy sequence as a simple one: its 16 channels as corrected, without
    their flags (02, No. 10). Refused with 5 where it is no legacy sequence, then
    with 7, then with 19: a correction is a whole number here and does not wrap."""
    if sequence.encoding != LEGACY:
        raise Refused(ENCODING)
    if not sequence_is_consistent(sequence):
        raise Refused(INCONSISTENT)
    flags_and_channels = zip(sequence.bytes[0::2], sequence.bytes[1::2])
    corrected = [channel + correction(flags) for flags, channel in flags_and_channels]
    if min(corrected) < 0 or max(corrected) > 255:
        raise Refused(CORRECTED_CHANNEL)
    return Sequence(SIMPLE, bytes(corrected).ljust(32, b"\0"))


# The channel sequence behind the synchronization fields (02, No. 2), which is
# also the value of an item of its own.

CHANNEL_SEQUENCE_TYPE = 0x12
CHANNEL_SEQUENCE_SIZES = 22, 38
SYNCHRONIZATION_TYPE = 0x04
SYNCHRONIZATION_SIZES = 55, 71
COUNT_LESS_ONE = 15

ChannelSequence = namedtuple(
    "ChannelSequence", "duplicate_count step_count fill_channel sequence"
)
Synchronization = namedtuple(
    "Synchronization", [name for name, _, _ in FIXED_FIELDS] + ["channel_sequence"]
)
ZERO_CHANNEL_SEQUENCE = ChannelSequence(0, 0, 0, ZERO_SEQUENCE)
ZERO_SYNCHRONIZATION = Synchronization(
    *fixed_fields(bytes(FIXED_SIZE)), ZERO_CHANNEL_SEQUENCE
)


def read_channel_sequence(data, at=0):
    """The place behind it, and it: six bytes, which are five fields, then 16
    entries in the encoding named. 10 is checked after 1 for the six bytes and
    before 5."""
    source = Source(data, at)
    count, encoding = source.number(1), source.number(1)
    duplicate_count, step_count = source.number(1), source.number(1)
    fill_channel = source.number(2)
    if count != COUNT_LESS_ONE:
        raise Refused(CHANNEL_COUNT)
    following, sequence = read_sequence(data, source.at, encoding)
    return following, ChannelSequence(duplicate_count, step_count, fill_channel, sequence)


def channel_sequence_head(record):
    """The six bytes before the entries, the first of them always 15."""
    head = COUNT_LESS_ONE, record.sequence.encoding, record.duplicate_count, record.step_count
    return bytes(head) + little(record.fill_channel, 2)


def channel_sequence_is_consistent(record):
    return sequence_is_consistent(record.sequence)


def channel_sequence_bytes(record):
    return channel_sequence_head(record) + sequence_bytes(record.sequence)


def channel_sequence_size(record):
    return len(channel_sequence_bytes(record))


def channel_sequence_written_size(record):
    check_written(record.sequence)
    return channel_sequence_size(record)


def write_channel_sequence(record, buffer):
    check_written(record.sequence)
    return put(channel_sequence_bytes(record), buffer)


def read_synchronization(data):
    """The 33 bytes, accepted only with the sequence; what follows the entries
    is ignored."""
    fields = fixed_fields(data)
    size, sequence = read_channel_sequence(data, FIXED_SIZE)
    return size, Synchronization(*fields, sequence)


def synchronization_is_consistent(record):
    return channel_sequence_is_consistent(record.channel_sequence)


def synchronization_bytes(record):
    return fixed_bytes(record[:-1]) + channel_sequence_bytes(record.channel_sequence)


def synchronization_size(record):
    return len(synchronization_bytes(record))


def synchronization_written_size(record):
    check_written(record.channel_sequence.sequence)
    return synchronization_size(record)


def write_synchronization(record, buffer):
    check_written(record.channel_sequence.sequence)
    return put(synchronization_bytes(record), buffer)


# Which channel to move to (02, No. 13). The sequences are lent as bytes: each is
# one field of 33, its encoding and then its 32 bytes, one behind the other. The
# permitted channels are a list, and its order counts.

LENT_SIZE = 33
MOST_SEQUENCES = 64
MOST_PERMITTED = 16


def lent_sequences(data):
    """The sequences as they stand, consistent or not. One that is cut does not
    fit, and its offset is the place at which it starts."""
    source = Source(data)
    sequences = []
    while source.at < len(data):
        lent = source.take(LENT_SIZE)
        sequences.append(Sequence(lent[0], lent[1:]))
    return sequences


def corrected_channels(data, permitted):
    """The corrected channel of each entry of each sequence. Refused with 1 for
    one that is cut; then with 27, more than 64 sequences or 16 permitted channels;
    then with 5, an encoding not 0, 1 or 3 in any of them."""
    sequences = lent_sequences(data)
    if len(sequences) > MOST_SEQUENCES or len(permitted) > MOST_PERMITTED:
        raise Refused(TOO_MANY)
    return [
        corrected_channel(sequence_entry(sequence, entry))
        for sequence in sequences for entry in range(ENTRIES)
    ]


def loads(data, permitted):
    """Each permitted channel with its load: how often it is among the corrected
    channels. Refused with 28 where no channel is permitted, after all that the
    sequences are refused with."""
    corrected = corrected_channels(data, permitted)
    if not permitted:
        raise Refused(NONE_PERMITTED)
    return {channel: corrected.count(channel) for channel in permitted}


def channel_load(data, channel):
    """The load of one channel, permitted or not: no list is given."""
    return corrected_channels(data, []).count(channel)


def own_proposal(data, permitted):
    """Of the channels on the list that would pass, the one that is listed first."""
    load = loads(data, permitted)
    return next(channel for channel in permitted if load[channel] == min(load.values()))


def judge(data, permitted, proposal):
    """A proposal passes where the list holds it, else 29, and nothing on the list
    is less loaded, else 30, which carries our own proposal."""
    load = loads(data, permitted)
    if proposal not in permitted:
        raise Refused(NOT_PERMITTED)
    if any(load[channel] < load[proposal] for channel in permitted):
        raise Refused(SMALLER_LOAD, channel=own_proposal(data, permitted))


# The report of a frame, line by line, and the dump. A value of type 0x12 adds no
# line to that of its item (02).
#
# A mark says which line comes next: ("too_long",), ("frame",),
# ("item", at, items), ("data_path", item, next, items), the same for
# ("synchronization", ...), and ("end",). The places in a mark are the walk's;
# in a line places count from the frame's start.

DUMP_LIMIT = 4096


def dump_start(data):
    return ("too_long",) if len(data) > DUMP_LIMIT else ("frame",)


def frame_line(data):
    try:
        frame = read_frame(data)[1]
    except Refused as refusal:
        return f"refused {refusal.number}", ("end",)
    delta = tx_delta(frame.phy_tx_time, frame.target_tx_time)
    stamps = f"phy={frame.phy_tx_time} target={frame.target_tx_time} delta={delta}"
    return f"frame subtype={frame.subtype} {stamps}", ("item", 0, 0)


def item_line(data, at, items):
    """A place outside the tail, or with more items than bytes before it, is none of its walk and has no line."""
    tail = frame_tail(data)
    if at > len(tail) or items > at:
        return None
    item = step(tail, at)
    if item == WHOLE:
        return f"end whole items={items}", ("end",)
    if item == CUT:
        return f"end cut at={HEADER_SIZE + at} items={items}", ("end",)
    line = f"item at={HEADER_SIZE + at} type={item.type} length={item.length}"
    if item.type == DATA_PATH_TYPE:
        return line, ("data_path", item, behind(item), items + 1)
    if item.type == SYNCHRONIZATION_TYPE:
        return line, ("synchronization", item, behind(item), items + 1)
    return line, ("item", behind(item), items + 1)


def value_line(data, kind, item):
    part = value(frame_tail(data), item)
    try:
        if kind == "data_path":
            size, record = read_data_path(part)
            return f"data flags={record.flags} size={size}"
        return f"sync seq={read_synchronization(part)[1].aw_seq_number}"
    except Refused as refusal:
        return f"value refused {refusal.number}"


def next_line(data, mark):
    """The line at a mark and the mark behind it, or None at the end."""
    kind = mark[0]
    if kind == "too_long":
        return "input too long", ("end",)
    if kind == "frame":
        return frame_line(data)
    if kind == "item":
        return item_line(data, *mark[1:])
    if kind == "end":
        return None
    _, item, following, items = mark
    return value_line(data, kind, item), ("item", following, items)


def lines(data, mark=("frame",)):
    """All lines from a mark on."""
    found = next_line(data, mark)
    while found is not None:
        yield found[0]
        found = next_line(data, found[1])


def dump(data):
    return lines(data, dump_start(data))


# Names from the Rust, each with its number or its bits.

TYPES = {
    "NULL": 0x00,
    "SERVICE_RESPONSE": 0x02,
    "SYNCHRONIZATION_PARAMETERS": 0x04,
    "ELECTION_PARAMETERS": 0x05,
    "HT_CAPABILITIES": 0x07,
    "DATA_PATH_STATE": 0x0C,
    "ARPA": 0x10,
    "IEEE80211_CONTAINER": 0x11,
    "CHANNEL_SEQUENCE": 0x12,
    "SYNCHRONIZATION_TREE": 0x14,
    "VERSION": 0x15,
    "ELECTION_PARAMETERS_V2": 0x18,
}
SUBTYPES = {"PSF": 0x00, "MIF": 0x03}


def bits(names):
    """Each name with its bit, from bit 0 on; a number in parentheses says how
    many bits a name has, and a dash stands for a bit without a name."""
    named = {}
    first = 0
    for word in names.split():
        name, _, width = word.rstrip(")").partition("(")
        count = int(width or 1)
        if name != "-":
            named[name.upper()] = (2 ** count - 1) << first
        first += count
    return named


DATA_PATH_FLAGS = bits("""
    infra_bssid_channel_present infra_address_present awdl_address_present
    rsdb_support is_umi dualband_support airplay_sink follow_channel_sequence
    country_code_present channel_map_present airplay_solo_mode_support
    umi_support unicast_options_present is_realtime rangeable extended_flags
""")
EXTENDED_FLAGS = bits("""
    log_trigger_id_present ranging_discovery_supported rlfc_present
    is_social_channel_map_supported dynamic_sdb_active stats_present
    dfs_proxy_support - high_efficiency_support is_sidekick_hub
    fast_discovery_active wifi_six_e_support ultra_low_latency_infra_support
    pro_mode_active unknown(2)
""")
UNICAST_OPTIONS = bits("""
    - start_airplay - cache_request - jumpstart_dfs_proxy
    airplay_on_dfs_channel - - start_sidecar sidecar_bg_request
    sidecar_fg_request stop_sidecar start_multi_peer_steering
    start_real_time_mode stop_real_time_mode start_airplay_recovery
    start_ht_mode stop_ht_mode stop_airplay failed_multi_peer_steering
    unknown(3) start_rtg_ensemble stop_rtg_ensemble start_airplay_in_rtg_mode
    stop_airplay_in_rtg_mode start_sidecar_in_rtg_mode
    stop_sidecar_in_rtg_mode start_remote_camera stop_remote_camera
""")
CHANNEL_MAP = bits("channel_6 channel_44 channel_149")


def check_names(names, keep):
    """The named bits of a word sum to the mask of what it keeps (02, No. 5);
    `bits` lays them side by side, so that no two share one."""
    total = sum(names.values())
    if total != keep:
        raise ValueError(f"the names sum to 0x{total:X}, but 0x{keep:X} is kept")


check_names(DATA_PATH_FLAGS, FLAGS_KEEP)
check_names(EXTENDED_FLAGS, EXTENDED_KEEP)
check_names(UNICAST_OPTIONS, OPTIONS_KEEP)
check_names(CHANNEL_MAP, MAP_KEEP)
