"""Answers the questions of docs/ASK.md by the reading of 01 and 02 in awdl.py.

    python3 oracle/ask.py < QUESTIONS
"""

import sys
from binascii import Error as NotHex, unhexlify

sys.dont_write_bytecode = True

import awdl
from awdl import Refused

LINE_LIMIT = 16384
BYTES_LIMIT = 66000
BAD_QUESTION = "bad question"


class Bad(Exception):
    """What is no question."""


# Words of a question. A line is bytes, so that a character is a byte.

def number(limit):
    def parse(word):
        if not word.isdigit() or len(word) > 20:
            raise Bad
        result = int(word)
        if result > limit:
            raise Bad
        return result
    return parse


flag = number(1)
u8 = number(2 ** 8 - 1)
u16 = number(2 ** 16 - 1)
u32 = number(2 ** 32 - 1)
usize = number(2 ** 64 - 1)


def from_hex(digits):
    if not digits:
        raise Bad
    try:
        return unhexlify(digits)
    except NotHex:
        raise Bad from None


def part_of_bytes(part, room):
    """Hex digits, or one byte many times."""
    byte, star, count = part.partition(b"*")
    data = from_hex(byte)
    if star:
        if len(data) != 1:
            raise Bad
        data *= number(room)(count)
    if len(data) > room:
        raise Bad
    return data


def any_bytes(word):
    if word == b"-":
        return b""
    if len(word) <= BYTES_LIMIT and b"*" not in word and b"+" not in word:
        return from_hex(word)
    data = b""
    for part in word.split(b"+"):
        data += part_of_bytes(part, BYTES_LIMIT - len(data))
    return data


def bytes_of_size(size):
    def parse(word):
        data = any_bytes(word)
        if len(data) != size:
            raise Bad
        return data
    return parse


def address(word):
    if len(word) != 12:
        raise Bad
    return from_hex(word)


def one_of(table):
    """A word of a table, as its entry."""
    entries = {name.encode(): entry for name, entry in table.items()}

    def parse(word):
        if word not in entries:
            raise Bad
        return entries[word]
    return parse


channel_kind = one_of({"single": "single", "map": "map"})


# Arguments, each taking its words from those that are left.

def one(parse):
    return lambda words: parse(next(words))


def fields(record, *names_and_parsers):
    """The words of a record, each alone or with its name before it."""
    expected = [(name.encode(), parse) for name, parse in names_and_parsers]

    def take(words):
        found = []
        for name, parse in expected:
            word = next(words)
            if b"=" in word:
                before, _, word = word.partition(b"=")
                if before != name:
                    raise Bad
            found.append(parse(word))
        return record(*found)
    return take


def channel_fits(kind, value):
    if kind == "single" and value > 255:
        raise Bad


def channel_and_kind(words):
    kind, value = channel_kind(next(words)), u16(next(words))
    channel_fits(kind, value)
    return kind, value


DATA_PATH_WORDS = [
    ("flags", u16),
    ("country_code", flag), ("country_first", u8), ("country_second", u8),
    ("country_pad", u8),
    ("channel_map", flag), ("channel_kind", channel_kind), ("channel", u16),
    ("infra_bssid_channel", flag), ("infra_bssid", address), ("infra_channel", u16),
    ("infra_address", flag), ("infra", address),
    ("awdl_address", flag), ("awdl", address),
    ("unicast_options", flag), ("options", u32),
    ("unicast_options_ext", flag), ("ext", u32),
    ("extended_flags", flag), ("extended", u16),
    ("rlfc", flag), ("rlfc_word", u32),
    ("log_trigger_id", flag), ("trigger_id", u16),
    ("stats", flag), ("msec_since_activation", u32), ("aw_seq_counter", u32),
    ("pay_update_coutner", u32),
]


def data_path_of(*w):
    channel_fits(w[6], w[7])
    return awdl.DataPath(
        w[0], w[1:5], w[5:8], w[8:11], w[11:13], w[13:15], w[15:17], w[17:19],
        w[19:21], w[21:23], w[23:25], w[25:29],
    )


SEQUENCE_WORDS = [("encoding", u8), ("bytes", bytes_of_size(32))]
CHANNEL_SEQUENCE_WORDS = [
    ("duplicate_count", u8), ("step_count", u8), ("fill_channel", u16), *SEQUENCE_WORDS,
]
SYNCHRONIZATION_WORDS = [
    *((name, {1: u8, 2: u16, 6: address}[width]) for name, _, width in awdl.FIXED_FIELDS),
    *CHANNEL_SEQUENCE_WORDS,
]


def channel_sequence_of(*w):
    return awdl.ChannelSequence(*w[:3], awdl.Sequence(*w[3:]))


def synchronization_of(*w):
    fixed = len(awdl.FIXED_FIELDS)
    return awdl.Synchronization(*w[:fixed], channel_sequence_of(*w[fixed:]))


BYTES = one(any_bytes)
BUFFER = one(any_bytes)
FRAME = fields(
    awdl.Frame,
    ("subtype", u8), ("reserved", u8), ("phy_tx_time", u32), ("target_tx_time", u32),
)
ITEM = fields(awdl.Item, ("at", usize), ("type", u8), ("length", usize))
CHANNEL = fields(awdl.Channel, ("encoding", u8), ("first", u8), ("second", u8))
SEQUENCE = fields(awdl.Sequence, *SEQUENCE_WORDS)
CHANNEL_SEQUENCE = fields(channel_sequence_of, *CHANNEL_SEQUENCE_WORDS)
SYNCHRONIZATION = fields(synchronization_of, *SYNCHRONIZATION_WORDS)
DATA_PATH = fields(data_path_of, *DATA_PATH_WORDS)

MARK_WORD = fields(bytes, ("mark", bytes))
AT_AND_ITEMS = fields(lambda *found: found, ("at", usize), ("items", usize))
NEXT_AND_ITEMS = fields(lambda *found: found, ("next", usize), ("items", usize))


def MARK(words):
    kind = MARK_WORD(words)
    if kind in (b"too_long", b"frame", b"end"):
        return (kind.decode(),)
    if kind == b"item":
        return ("item", *AT_AND_ITEMS(words))
    if kind in (b"data_path", b"synchronization"):
        return (kind.decode(), ITEM(words), *NEXT_AND_ITEMS(words))
    raise Bad


# Words of an answer.

def show_bytes(data):
    return data.hex().upper() or "-"


def show_value(data):
    return f"value={show_bytes(data)}"


def show_frame(frame):
    return "subtype=%d reserved=%d phy_tx_time=%d target_tx_time=%d" % frame


def show_item(item):
    return "at=%d type=%d length=%d" % item


def show_channel(channel):
    return "encoding=%d first=%d second=%d" % channel


def show_sequence(sequence):
    return f"encoding={sequence.encoding} bytes={show_bytes(sequence.bytes)}"


def show_channel_sequence(record):
    head = "duplicate_count=%d step_count=%d fill_channel=%d" % record[:-1]
    return f"{head} {show_sequence(record.sequence)}"


FIXED_FORM = " ".join(f"{name}=%s" for name, _, _ in awdl.FIXED_FIELDS)
DATA_PATH_FORM = " ".join(f"{name}=%s" for name, _ in DATA_PATH_WORDS)


def show_synchronization(record):
    shown = record._replace(master_address=show_bytes(record.master_address))
    return f"{FIXED_FORM % shown[:-1]} {show_channel_sequence(record.channel_sequence)}"


def show_data_path(record):
    flags, country, channel, infra_bssid, infra, awdl_address, *others = record
    words = [flags, *country, *channel]
    words += infra_bssid[0], show_bytes(infra_bssid[1]), infra_bssid[2]
    words += infra[0], show_bytes(infra[1])
    words += awdl_address[0], show_bytes(awdl_address[1])
    for field in others:
        words += field
    return DATA_PATH_FORM % tuple(words)


def show_mark(mark):
    if len(mark) == 1:
        return "mark=%s" % mark
    if mark[0] == "item":
        return "mark=item at=%d items=%d" % mark[1:]
    kind, item, following, items = mark
    return f"mark={kind} {show_item(item)} next={following} items={items}"


# Answers, from the refusal's number and its offset on.

ACCEPTED = "0 offset=0"


def show_refusal(refusal):
    return f"{refusal.number} offset={refusal.offset}"


def refusal_answer(number, offset, channel):
    """The refusal itself; the offset is looked at with 1 alone, and the channel
    with 30 alone."""
    offset = offset if number == awdl.SHORT else 0
    channel = channel if number == awdl.SMALLER_LOAD else 0
    return f"{show_refusal(Refused(number, offset))} channel={channel}"


def number_answer(name, call):
    """A number alone."""
    def answer(*arguments):
        try:
            return f"{ACCEPTED} {name}={call(*arguments):d}"
        except Refused as refusal:
            return f"{show_refusal(refusal)} {name}=0"
    return answer


def reading_answer(name, read, show, zero):
    """A size or place, and a record."""
    def answer(*arguments):
        try:
            size, record = read(*arguments)
        except Refused as refusal:
            return f"{show_refusal(refusal)} {name}=0 {show(zero)}"
        return f"{ACCEPTED} {name}={size} {show(record)}"
    return answer


def writing_answer(write):
    """A size, and the buffer, which is the last argument."""
    def answer(*arguments):
        try:
            size, buffer = write(*arguments)
        except Refused as refusal:
            return f"{show_refusal(refusal)} size=0 buffer={show_bytes(arguments[-1])}"
        return f"{ACCEPTED} size={size} buffer={show_bytes(buffer)}"
    return answer


def sequence_answer(make):
    """A sequence alone."""
    def answer(argument):
        try:
            return f"{ACCEPTED} {show_sequence(make(argument))}"
        except Refused as refusal:
            return f"{show_refusal(refusal)} {show_sequence(awdl.ZERO_SEQUENCE)}"
    return answer


def entry_answer(sequence, entry):
    try:
        channel = awdl.sequence_entry(sequence, entry)
    except Refused as refusal:
        return f"{show_refusal(refusal)} {show_channel(awdl.Channel(0, 0, 0))}"
    return f"{ACCEPTED} nothing" if channel is None else f"{ACCEPTED} {show_channel(channel)}"


def judge_answer(sequences, permitted, proposal):
    """Our own proposal is shown where the refusal carries it."""
    try:
        awdl.judge(sequences, permitted, proposal)
    except Refused as refusal:
        return f"{show_refusal(refusal)} own={refusal.channel}"
    return f"{ACCEPTED} own=0"


def tail_answer(data):
    return f"{ACCEPTED} tail={show_bytes(awdl.frame_tail(data))}"


def item_words(item):
    return f"item {show_item(item)} next={awdl.behind(item)}"


def item_and_value_words(tail, item):
    return f"{item_words(item)} {show_value(awdl.value(tail, item))}"


def end_words(how, at):
    return "whole" if how == awdl.WHOLE else f"cut at={at}"


def step_answer(tail, at):
    item = awdl.step(tail, at)
    return f"{ACCEPTED} {item_words(item) if isinstance(item, awdl.Item) else end_words(item, at)}"


def step_with_value_answer(tail, at):
    item = awdl.step(tail, at)
    if isinstance(item, awdl.Item):
        return f"{ACCEPTED} {item_and_value_words(tail, item)}"
    return f"{ACCEPTED} {end_words(item, at)} {show_value(b'')}"


def value_answer(tail, item):
    return f"{ACCEPTED} {show_value(awdl.value(tail, item))}"


def offset_answer(data, item, offset):
    found = awdl.offset_in_frame(data, item, offset)
    return f"{ACCEPTED} nothing" if found is None else f"{ACCEPTED} in_frame={found}"


def end_answer(tail):
    how, at, items = awdl.end(tail)
    return f"{ACCEPTED} {end_words(how, at)} items={items}"


def walk_answer(tail):
    words = [item_and_value_words(tail, item) for item in awdl.walk(tail)]
    how, at, items = awdl.end(tail)
    return " ".join([ACCEPTED, *words, end_words(how, at), f"items={items}"])


def found_words(item, shown):
    return f"found {show_item(item)} next={awdl.behind(item)} {shown}"


def data_paths(tail, at=0):
    return awdl.accepted(tail, at, awdl.DATA_PATH_TYPE, awdl.read_data_path)


def synchronizations(tail, at=0):
    return awdl.accepted(tail, at, awdl.SYNCHRONIZATION_TYPE, awdl.read_synchronization)


def channel_sequences(tail, at=0):
    return awdl.accepted(tail, at, awdl.CHANNEL_SEQUENCE_TYPE, awdl.read_channel_sequence)


def first_answer(search, show, nothing):
    def answer(tail, at=0):
        for item, record in search(tail, at):
            return f"{ACCEPTED} {found_words(item, show(record))}"
        return nothing
    return answer


def all_answer(search, show):
    def answer(tail):
        words = [found_words(item, show(record)) for item, record in search(tail)]
        return " ".join([ACCEPTED, *words, f"records={len(words)}"])
    return answer


first_data_path = first_answer(data_paths, show_data_path, f"{ACCEPTED} nothing")
first_synchronization = first_answer(
    synchronizations, show_synchronization,
    f"{ACCEPTED} nothing {show_synchronization(awdl.ZERO_SYNCHRONIZATION)}",
)
first_channel_sequence = first_answer(
    channel_sequences, show_channel_sequence,
    f"{ACCEPTED} nothing {show_channel_sequence(awdl.ZERO_CHANNEL_SEQUENCE)}",
)


def next_line_answer(data, mark, buffer):
    found = awdl.next_line(data, mark)
    if found is None:
        return f"{ACCEPTED} nothing buffer={show_bytes(buffer)}"
    line, mark = found
    line += "\n"
    _, buffer = awdl.put(line.encode(), buffer)
    return f"{ACCEPTED} line length={len(line)} {show_mark(mark)} buffer={show_bytes(buffer)}"


def lines_answer(report):
    def answer(data):
        lines = list(report(data))
        return " | ".join([ACCEPTED, *lines, f"lines={len(lines)}"])
    return answer


def word_answer(word):
    kind, channel = awdl.channel_of(word)
    return f"{ACCEPTED} channel_kind={kind} channel={channel}"


def constants_answer(group):
    return " ".join([ACCEPTED, *(f"{name}={bits}" for name, bits in group.items())])


# The calls: their arguments and their answers.

REFUSALS = one_of({
    "Short": awdl.SHORT,
    "NotAction": awdl.NOT_ACTION,
    "NotVersion": awdl.NOT_VERSION,
    "UnicastLength": awdl.UNICAST_LENGTH,
    "Encoding": awdl.ENCODING,
    "NoRoom": awdl.NO_ROOM,
    "Inconsistent": awdl.INCONSISTENT,
    "TooLong": awdl.TOO_LONG,
    "ChannelCount": awdl.CHANNEL_COUNT,
    "LegacySequence": awdl.LEGACY_SEQUENCE,
    "CorrectedChannel": awdl.CORRECTED_CHANNEL,
    "TooMany": awdl.TOO_MANY,
    "NonePermitted": awdl.NONE_PERMITTED,
    "NotPermitted": awdl.NOT_PERMITTED,
    "SmallerLoad": awdl.SMALLER_LOAD,
})
ENTRY_KINDS = one_of({
    "simple": awdl.SIMPLE, "legacy": awdl.LEGACY, "opclass": awdl.OPCLASS,
})
GROUPS = one_of({
    "types": {
        **awdl.TYPES,
        "DATA_PATH_TLV_TYPE": awdl.DATA_PATH_TYPE,
        "SYNCHRONIZATION_TLV_TYPE": awdl.SYNCHRONIZATION_TYPE,
        "CHANNEL_SEQUENCE_TLV_TYPE": awdl.CHANNEL_SEQUENCE_TYPE,
    },
    "sizes": {
        "HEADER_SIZE": awdl.HEADER_SIZE,
        "DATA_PATH_MIN_SIZE": awdl.DATA_PATH_SIZES[0],
        "DATA_PATH_MAX_SIZE": awdl.DATA_PATH_SIZES[1],
        "SYNCHRONIZATION_MIN_SIZE": awdl.SYNCHRONIZATION_SIZES[0],
        "SYNCHRONIZATION_MAX_SIZE": awdl.SYNCHRONIZATION_SIZES[1],
        "CHANNEL_SEQUENCE_MIN_SIZE": awdl.CHANNEL_SEQUENCE_SIZES[0],
        "CHANNEL_SEQUENCE_MAX_SIZE": awdl.CHANNEL_SEQUENCE_SIZES[1],
    },
    "subtypes": awdl.SUBTYPES,
    "data_path_flags": awdl.DATA_PATH_FLAGS,
    "extended_flags": {**awdl.EXTENDED_FLAGS, "KEEP": awdl.EXTENDED_KEEP},
    "unicast_options": {**awdl.UNICAST_OPTIONS, "KEEP": awdl.OPTIONS_KEEP},
    "channel_map": {**awdl.CHANNEL_MAP, "KEEP": awdl.MAP_KEEP},
    "legacy_flags": {"KEEP": awdl.LEGACY_KEEP},
})

U8 = one(u8)
U16 = one(u16)
U32 = one(u32)
AT = one(usize)
OFFSET = one(usize)


def kept(keep):
    return number_answer("bits", lambda word: word & keep)


CALLS = {
    "refusal": ([one(REFUSALS), OFFSET, U8], refusal_answer),
    "frame_read": ([BYTES], reading_answer(
        "size", awdl.read_frame, show_frame, awdl.Frame(0, 0, 0, 0))),
    "frame_tail": ([BYTES], tail_answer),
    "frame_write": ([FRAME, BYTES, BUFFER], writing_answer(awdl.write_frame)),
    "offset_in_frame": ([BYTES, ITEM, OFFSET], offset_answer),
    "tx_delta": ([U32, U32], number_answer("micros", awdl.tx_delta)),
    "step": ([BYTES, AT], step_answer),
    "step_with_value": ([BYTES, AT], step_with_value_answer),
    "value": ([BYTES, ITEM], value_answer),
    "end": ([BYTES], end_answer),
    "walk": ([BYTES], walk_answer),
    "reader_next": ([BYTES, AT], step_with_value_answer),
    "first_data_path": ([BYTES], first_data_path),
    "next_data_path": ([BYTES, AT], first_data_path),
    "reader_first_data_path": ([BYTES, AT], first_data_path),
    "all_data_paths": ([BYTES], all_answer(data_paths, show_data_path)),
    "first_synchronization": ([BYTES], first_synchronization),
    "next_synchronization": ([BYTES, AT], first_synchronization),
    "reader_first_synchronization": ([BYTES, AT], first_synchronization),
    "all_synchronizations": ([BYTES], all_answer(synchronizations, show_synchronization)),
    "first_channel_sequence": ([BYTES], first_channel_sequence),
    "next_channel_sequence": ([BYTES, AT], first_channel_sequence),
    "reader_first_channel_sequence": ([BYTES, AT], first_channel_sequence),
    "all_channel_sequences": (
        [BYTES], all_answer(channel_sequences, show_channel_sequence)),
    "write_item": ([U8, BYTES, BUFFER], writing_answer(awdl.write_item)),
    "data_path_read": ([BYTES], reading_answer(
        "size", awdl.read_data_path, show_data_path, awdl.ZERO_DATA_PATH)),
    "data_path_consistent": ([DATA_PATH], number_answer("consistent", awdl.is_consistent)),
    "data_path_mend": (
        [DATA_PATH], lambda record: f"{ACCEPTED} {show_data_path(awdl.mend(record))}"),
    "data_path_size": ([DATA_PATH], number_answer("size", awdl.data_path_size)),
    "data_path_write": ([DATA_PATH, BUFFER], writing_answer(awdl.write_data_path)),
    "synchronization_read": ([BYTES], reading_answer(
        "size", awdl.read_synchronization, show_synchronization, awdl.ZERO_SYNCHRONIZATION)),
    "synchronization_consistent": (
        [SYNCHRONIZATION], number_answer("consistent", awdl.synchronization_is_consistent)),
    "synchronization_size": (
        [SYNCHRONIZATION], number_answer("size", awdl.synchronization_size)),
    "synchronization_written_size": (
        [SYNCHRONIZATION], number_answer("size", awdl.synchronization_written_size)),
    "synchronization_write": (
        [SYNCHRONIZATION, BUFFER], writing_answer(awdl.write_synchronization)),
    "channel_sequence_read": ([BYTES, AT], reading_answer(
        "next", awdl.read_channel_sequence, show_channel_sequence,
        awdl.ZERO_CHANNEL_SEQUENCE)),
    "channel_sequence_consistent": (
        [CHANNEL_SEQUENCE],
        number_answer("consistent", awdl.channel_sequence_is_consistent)),
    "channel_sequence_size": (
        [CHANNEL_SEQUENCE], number_answer("size", awdl.channel_sequence_size)),
    "channel_sequence_written_size": (
        [CHANNEL_SEQUENCE], number_answer("size", awdl.channel_sequence_written_size)),
    "channel_sequence_head": (
        [CHANNEL_SEQUENCE],
        lambda record: f"{ACCEPTED} head={show_bytes(awdl.channel_sequence_head(record))}"),
    "channel_sequence_write": (
        [CHANNEL_SEQUENCE, BUFFER], writing_answer(awdl.write_channel_sequence)),
    "sequence_read": ([BYTES, AT, U8], reading_answer(
        "next", awdl.read_sequence, show_sequence, awdl.ZERO_SEQUENCE)),
    "sequence_consistent": (
        [SEQUENCE], number_answer("consistent", awdl.sequence_is_consistent)),
    "sequence_size": ([SEQUENCE], number_answer("size", awdl.sequence_size)),
    "sequence_written_size": (
        [SEQUENCE], number_answer("size", awdl.sequence_written_size)),
    "sequence_write": ([SEQUENCE, BUFFER], writing_answer(awdl.write_sequence)),
    "sequence_entry": ([SEQUENCE, AT], entry_answer),
    "sequence_fixed": ([CHANNEL], sequence_answer(awdl.fixed_sequence)),
    "sequence_to_simple": ([SEQUENCE], sequence_answer(awdl.sequence_to_simple)),
    "channel": ([CHANNEL], number_answer("channel", awdl.corrected_channel)),
    "judge": ([BYTES, BYTES, U8], judge_answer),
    "own_proposal": ([BYTES, BYTES], number_answer("channel", awdl.own_proposal)),
    "channel_load": ([BYTES, U8], number_answer("load", awdl.channel_load)),
    "encoding": ([U8], number_answer("encoding", awdl.known_encoding)),
    "encoding_size": ([U8], number_answer("size", awdl.entry_size)),
    "entry_size": ([one(ENTRY_KINDS)], number_answer("size", awdl.entry_size)),
    "legacy_flags": ([U8], kept(awdl.LEGACY_KEEP)),
    "support_channel": ([U8], number_answer("bits", awdl.support_channel)),
    "channel_bandwidth": ([U8], number_answer("bits", awdl.channel_bandwidth)),
    "band": ([U8], number_answer("bits", awdl.band)),
    "channel_word": ([U16], word_answer),
    "word_of_channel": ([channel_and_kind], lambda channel: f"{ACCEPTED} word={channel[1]}"),
    "unicast_options": ([U32], kept(awdl.OPTIONS_KEEP)),
    "extended_flags": ([U16], kept(awdl.EXTENDED_KEEP)),
    "has": ([U16, U16], number_answer("has", lambda word, mask: word & mask != 0)),
    "dump_start": ([BYTES], lambda data: f"{ACCEPTED} {show_mark(awdl.dump_start(data))}"),
    "next_line": ([BYTES, MARK, one(bytes_of_size(128))], next_line_answer),
    "lines": ([BYTES], lines_answer(awdl.lines)),
    "dump": ([BYTES], lines_answer(awdl.dump)),
    "constants": ([one(GROUPS)], constants_answer),
}
CALLS = {name.encode(): call for name, call in CALLS.items()}


def answer(line):
    """The answer to a line without its line end; None where it has none."""
    if len(line) > LINE_LIMIT:
        return BAD_QUESTION
    words = [word for word in line.split(b" ") if word]
    if not words or line.startswith(b"#"):
        return None
    if words[0] not in CALLS:
        return BAD_QUESTION
    arguments, call = CALLS[words[0]]
    rest = iter(words[1:])
    try:
        found = [take(rest) for take in arguments]
    except (Bad, StopIteration):
        return BAD_QUESTION
    if next(rest, None) is not None:
        return BAD_QUESTION
    return call(*found)


def main():
    out = sys.stdout
    for line in sys.stdin.buffer:
        text = answer(line[:-1] if line.endswith(b"\n") else line)
        if text is not None:
            out.write(text)
            out.write("\n")


if __name__ == "__main__":
    main()
