"""Makes questions for docs/ASK.md: random and damaged frames and values, every
cut of good ones, cuts around the first byte of each field, offsets of short
values in their frames, places behind the start and past the end, channel
sequences with wrong counts and encodings, legacy sequences whose corrections
come near 0 and 255 and what they are converted to, sets of sequences with equal
and unequal loads, as many as may be and one more, and proposals of every kind, the
same sets in another order and with a sequence more, records of every presence,
reserved bytes and pads of any value, records that were read and are written
again, archives of records laid end to end, buffers short, exact and long,
numbers at the limits of their fields, words with one bit set or one clear,
stamps between which the clock has rolled over, bytes in every form, bad
questions, and lines around the longest one.
"""

import re
from random import Random

import ask
import awdl

R = Random()

LARGEST = 2 ** 64 - 1


def chance(one_in):
    return R.random() * one_in < 1


# Numbers and bytes as words.

def some(limit):
    """A number for a field, often at its limits."""
    pick = R.getrandbits(3)
    if pick == 0:
        return R.getrandbits(1)
    if pick == 1:
        return limit - R.getrandbits(1)
    if pick == 2:
        return min(limit, R.getrandbits(8))
    return R.randrange(limit + 1)


def number(limit):
    """The same as a word, seldom with zeros before it or one too large."""
    if chance(400):
        return str(limit + 1)
    word = str(some(limit))
    return word.zfill(R.randrange(19, 22)) if chance(200) else word


def one_bit(limit):
    """A word with one bit set, or with one clear (02, No. 5)."""
    bit = 1 << R.randrange(limit.bit_length())
    return R.choice((bit, limit ^ bit))


ROUND = 2 ** 32
HALF = ROUND // 2


def moment():
    """A few microseconds, often none or one."""
    return R.choice((0, 1, R.getrandbits(4), R.getrandbits(9), R.getrandbits(17)))


def stamps():
    """A sending and a hand-over stamp. In one pair of three the clock has just
    rolled over; the others are equal, neighbours, a moment or half the range
    apart, or any two, the sending the lower or the higher."""
    if chance(3):
        return moment(), ROUND - 1 - moment()
    target = some(ROUND - 1)
    if chance(4):
        target = 2 ** R.choice((8, 16, 24, 31)) - R.getrandbits(1)
    half = HALF + R.choice((-1, 0, 1))
    other = some(ROUND - 1)
    gap = R.choice((0, 1, -1, moment(), -moment(), half, other, other))
    return (target + gap) % ROUND, target


RUN = re.compile(rb"(.)\1{3,}", re.S)


def spell_parts(data):
    """Runs in the short form, the rest cut where it happens."""
    parts = []
    at = 0
    for run in RUN.finditer(data):
        parts += data[at:run.start()].hex(), f"{data[run.start()]:02X}*{len(run[0])}"
        at = run.end()
    rest = data[at:].hex().upper()
    cut = 2 * R.randrange(len(rest) // 2 + 1)
    parts += rest[:cut], rest[cut:]
    return "+".join(filter(None, parts)) or "-"


def spell(data):
    form = R.random()
    if form < 0.25:
        return spell_parts(data)
    if not data:
        return "-" if form < 0.98 else "AA*0"
    return data.hex() if form < 0.4 else data.hex().upper()


def buffer(size):
    """Short, exact or long."""
    room = size + R.choice((-1, 0, 0, 1, 3)) if chance(1.2) else R.randrange(size + 8)
    if room <= 0:
        return "-"
    return f"EE*{room}" if chance(1.3) else spell(R.randbytes(room))


# Values, tails and frames.

def data_path_value():
    """Any presence; seldom every field, so that the last ones are there too."""
    flags = R.getrandbits(16) & (R.getrandbits(16) | R.getrandbits(16))
    flags |= 0x9307 if chance(6) else 0
    data = awdl.little(flags, 2)
    for bit, width in ((8, 3), (9, 2), (0, 8), (1, 6), (2, 6)):
        if flags >> bit & 1:
            data += R.randbytes(width)
    if flags >> 12 & 1:
        length = R.choice((4, 8)) if chance(1.1) else some(65535)
        words = R.randbytes(min(length, 12))
        if length in (4, 8) and chance(4):
            words = awdl.little(one_bit(2 ** 32 - 1), 4) + words[4:]
        data += awdl.little(length, 2) + words
    if flags >> 15 & 1:
        extended = R.getrandbits(16) | (0x0025 if chance(4) else 0)
        extended = one_bit(65535) if chance(6) else extended
        data += awdl.little(extended, 2)
        for bit, width in ((0, 2), (2, 4), (5, 12)):
            if extended >> bit & 1:
                data += R.randbytes(width)
    return data


def encoding():
    return R.choice((0, 1, 1, 3)) if chance(1.2) else some(255)


def channel_sequence_value():
    """Six bytes and the entries; the count byte is seldom another."""
    count = R.choice((0, 14, 16, 255, some(255))) if chance(10) else 15
    kind = encoding()
    entries = R.randbytes(16 if kind == 0 else 32)
    return bytes([count, kind]) + R.randbytes(4) + entries


def synchronization_value():
    """With its sequence mostly, else with a part of it or with none."""
    fixed = R.randbytes(27) + bytes([some(255), some(255)]) + R.randbytes(4)
    data = fixed + channel_sequence_value()
    if chance(1.15):
        return data
    return data[:R.choice((32, 33, 34, 38, 39, 40, 54, 55, 56, 70))]


def damaged(data):
    """Cut, longer, or with a byte changed, dropped or added."""
    how = R.randrange(5)
    at = R.randrange(len(data) + 1)
    if how == 0:
        return data[:at]
    if how == 1:
        return data + R.randbytes(1 + R.getrandbits(2))
    if how == 2:
        return data[:at] + bytes([some(255)]) + data[at + 1:]
    if how == 3:
        return data[:at] + data[at + 1:]
    return data[:at] + R.randbytes(1) + data[at:]


def seldom_damaged(data):
    return damaged(data) if chance(3) else data


def value_of(kind):
    if kind == awdl.DATA_PATH_TYPE:
        return seldom_damaged(data_path_value())
    if kind == awdl.SYNCHRONIZATION_TYPE:
        return seldom_damaged(synchronization_value())
    if kind == awdl.CHANNEL_SEQUENCE_TYPE:
        return seldom_damaged(channel_sequence_value())
    length = R.getrandbits(3)
    if chance(40):
        length = R.choice((255, 256, 257))
    return bytes([some(255)]) * length if chance(2) else R.randbytes(length)


READ = awdl.DATA_PATH_TYPE, awdl.SYNCHRONIZATION_TYPE, awdl.CHANNEL_SEQUENCE_TYPE


def good_tail():
    """One type that is read stands out; a value has seldom another type than its own."""
    tail = b""
    often = R.choice(READ)
    for _ in range(R.getrandbits(2)):
        kind = often if chance(2) else R.choice((*READ, 0, 5, 11, 13, 17, 255))
        data = value_of(R.choice(READ) if chance(12) else kind)
        tail += bytes([kind]) + awdl.little(len(data), 2) + data
    return tail


def tail():
    pick = R.randrange(12)
    if pick == 0:
        return R.randbytes(R.getrandbits(4))
    if pick == 1:
        return bytes(R.getrandbits(5))
    return seldom_damaged(good_tail())


def good_frame():
    """Good as a rule: one of its first two bytes is seldom another."""
    first = bytes([some(255) if chance(40) else 0x08, some(255) if chance(40) else 0x10])
    subtype_and_reserved = bytes([some(255), some(255)])
    phy, target = stamps()
    return first + subtype_and_reserved + awdl.little(phy, 4) + awdl.little(target, 4) + good_tail()


def frame():
    return damaged(good_frame()) if chance(2) else good_frame()


def somewhere(data):
    """Any place in the bytes, at their end or past it."""
    return some(LARGEST) if chance(2) else R.randrange(len(data) + 3)


def place(data, most=LARGEST):
    """A place of the walk mostly, else one near it or any."""
    places = [0]
    for item in awdl.walk(data):
        places.append(awdl.behind(item))
    pick = R.random()
    if pick < 0.7:
        return R.choice(places)
    if pick < 0.9:
        return R.randrange(len(data) + 4)
    return some(most)


# Records as words.

def words_of(shown):
    """With the names, without them, or with some."""
    form = R.random()
    if form < 0.35:
        return shown
    words = shown.split(" ")
    if form < 0.7:
        return " ".join([word.partition("=")[2] for word in words])
    if chance(60):
        at = R.randrange(len(words))
        wrong = R.choice((
            "flags", "at", "", "type", "Flags", "reserved", "reserve", "country_pad", "pad"))
        words[at] = f"{wrong}={words[at].partition('=')[2]}"
    return " ".join([word.partition("=")[2] if chance(2) else word for word in words])


def channel():
    if chance(2):
        return "single", 2 * R.getrandbits(7) if chance(1.5) else R.getrandbits(8)
    return "map", R.choice((2 * R.getrandbits(2) + 1, R.getrandbits(4), some(65535)))


def field(name, present):
    """A field of a data path record, its value not 0 as a rule."""
    if name == "country":
        return present, some(255), some(255), some(255)
    if name == "channel":
        return present, *channel()
    if name == "infra_bssid":
        return present, R.randbytes(6), some(65535)
    if name in ("infra", "awdl"):
        return present, R.randbytes(6)
    if name in ("options", "extended") and chance(4):
        return present, one_bit(65535 if name == "extended" else 2 ** 32 - 1)
    if name in ("extended", "trigger"):
        return present, some(65535)
    if name == "stats":
        return present, some(2 ** 32 - 1), some(2 ** 32 - 1), some(2 ** 32 - 1)
    return present, some(2 ** 32 - 1)


def pad_changed(record):
    """The country's pad alone, also that of a country that is absent (02, No. 7)."""
    return record._replace(country=(*record.country[:3], some(255)))


def spoiled(record):
    """One field changed: its presence, its value or both; often a pad alone."""
    if chance(4):
        return pad_changed(record)
    name = R.choice(awdl.DataPath._fields)
    if name == "flags":
        return record._replace(flags=record.flags ^ 1 << R.getrandbits(4))
    present, *old = getattr(record, name)
    if chance(3):
        return record._replace(**{name: (1 - present, *old)})
    return record._replace(**{name: field(name, R.getrandbits(1) if chance(4) else present)})


def data_path():
    """Any presence; consistent, wrong in one or two places, or any record."""
    presence = R.getrandbits(11)
    if chance(4):
        presence &= R.getrandbits(11)
    fields = [
        field(name, presence >> at & 1)
        for at, name in enumerate(awdl.DataPath._fields[1:])
    ]
    record = awdl.DataPath(some(65535), *fields)
    pick = R.random()
    if pick < 0.8:
        record = awdl.mend(record)
    if 0.4 < pick:
        record = spoiled(record)
    if 0.7 < pick:
        record = spoiled(record)
    return record


def data_path_words(record):
    return words_of(ask.show_data_path(record))


def legacy():
    """A legacy sequence, consistent as a rule. Up to three of its entries are
    corrected to 0 or 255, or nearly so; one in two of these leaves (02, No. 10)."""
    data = bytearray(R.randbytes(32))
    data[0::2] = bytes(flags & awdl.LEGACY_KEEP for flags in data[0::2])
    for _ in range(R.getrandbits(2)):
        at = 2 * R.getrandbits(4)
        support, lowest = R.choice(((1, 0), (2, 252)))
        data[at] = data[at] & ~3 | support
        data[at + 1] = lowest + R.getrandbits(2)
    if chance(6):
        data[2 * R.getrandbits(4)] |= R.choice((0x40, 0x80, 0xC0))
    return awdl.Sequence(awdl.LEGACY, bytes(data))


def sequence():
    kind = R.choice((0, 1, 3)) if chance(1.2) else some(255)
    if kind == awdl.LEGACY:
        return legacy()
    data = R.randbytes(32)
    if kind == 0 and chance(1.3):
        data = data[:16] + bytes(16)
    if chance(5):
        data = data[:-1] + b"\0"
    return awdl.Sequence(kind, data)


def show_sequence(record):
    """As an answer shows it, the bytes in any form."""
    return f"encoding={record.encoding} bytes={spell(record.bytes)}"


def sequence_words(record):
    return words_of(show_sequence(record))


def channel_sequence():
    return awdl.ChannelSequence(some(255), some(255), some(65535), sequence())


def show_channel_sequence(record):
    head = "duplicate_count=%d step_count=%d fill_channel=%d" % record[:-1]
    return f"{head} {show_sequence(record.sequence)}"


def channel_sequence_words(record):
    return words_of(show_channel_sequence(record))


def synchronization():
    fields = bytes([some(255)]) * 33 if chance(5) else R.randbytes(33)
    record = awdl.Synchronization(*awdl.fixed_fields(fields), channel_sequence())
    if chance(3):
        record = record._replace(aw_seq_number=some(65535), tx_counter=some(65535))
    return record


def synchronization_words(record):
    fixed = ask.show_synchronization(record).partition(" duplicate_count=")[0]
    return words_of(f"{fixed} {show_channel_sequence(record.channel_sequence)}")


def channel_words():
    second = 0 if chance(3) else some(255)
    return words_of(f"encoding={encoding()} first={some(255)} second={second}")


def some_item(data):
    """An item of the walk mostly, else any."""
    items = list(awdl.walk(data))
    item = R.choice(items) if items else awdl.Item(0, 0, 0)
    if chance(4):
        item = item._replace(length=some(LARGEST) if chance(3) else R.getrandbits(5))
    if chance(4):
        item = item._replace(at=some(LARGEST) if chance(3) else R.getrandbits(5))
    return item


def item_words(data):
    return words_of(ask.show_item(some_item(data)))


def mark_words(data):
    """A mark that the report of the frame comes to mostly, else any whose line
    can be shown: a place and the 12 bytes before the tail are one number."""
    marks = [("too_long",), ("frame",)]
    while marks[-1] != ("end",):
        marks.append(awdl.next_line(data, marks[-1])[1])
    if chance(1.5):
        return words_of(ask.show_mark(R.choice(marks)))
    part = awdl.frame_tail(data)
    items = some(LARGEST - 1)
    if chance(2):
        at = place(part, LARGEST - awdl.HEADER_SIZE)
        return words_of(f"mark=item at={at} items={items}")
    kind = R.choice(("data_path", "synchronization"))
    following = words_of(f"next={some(LARGEST)} items={items}")
    return f"{kind} {item_words(part)} {following}"


# Questions. Each maker gives some lines that belong together.

READERS = {
    "frame_read": good_frame,
    "frame_tail": good_frame,
    "dump_start": good_frame,
    "lines": good_frame,
    "dump": good_frame,
    "end": good_tail,
    "walk": good_tail,
    "first_data_path": good_tail,
    "all_data_paths": good_tail,
    "first_synchronization": good_tail,
    "all_synchronizations": good_tail,
    "first_channel_sequence": good_tail,
    "all_channel_sequences": good_tail,
    "data_path_read": data_path_value,
    "synchronization_read": synchronization_value,
}
READER_NAMES = [*READERS, "frame_read", *["data_path_read"] * 5, "synchronization_read"]
STEPS = (
    "step", "step_with_value", "reader_next", "next_data_path",
    "reader_first_data_path", "next_synchronization", "reader_first_synchronization",
    "next_channel_sequence", "reader_first_channel_sequence",
)
SMALL = {
    "encoding": 255, "encoding_size": 255, "legacy_flags": 255,
    "support_channel": 255, "channel_bandwidth": 255, "band": 255,
    "channel_word": 65535, "unicast_options": 2 ** 32 - 1, "extended_flags": 65535,
}
SMALL_NAMES = list(SMALL)
LISTED = [
    *(f"constants {group}" for group in (
        "types", "sizes", "subtypes", "data_path_flags", "extended_flags",
        "unicast_options", "channel_map", "legacy_flags", "flags")),
    *(f"entry_size {kind}" for kind in ("simple", "legacy", "opclass", "Simple")),
    "refusal_number Short",
]
REFUSALS = (
    "Short", "NotAction", "NotVersion", "UnicastLength", "Encoding", "NoRoom",
    "Inconsistent", "TooLong", "ChannelCount", "LegacySequence", "CorrectedChannel",
    "TooMany", "NonePermitted", "NotPermitted", *["SmallerLoad"] * 3,
    "SentBeforeHandOver", "short", "None",
)
TYPED = {
    awdl.DATA_PATH_TYPE: ("data_path_read", awdl.read_data_path, data_path_value),
    awdl.SYNCHRONIZATION_TYPE: (
        "synchronization_read", awdl.read_synchronization, synchronization_value),
    awdl.CHANNEL_SEQUENCE_TYPE: (
        "channel_sequence_read", awdl.read_channel_sequence, channel_sequence_value),
}


def read():
    name = R.choice(READER_NAMES)
    return [f"{name} {spell(seldom_damaged(READERS[name]()))}"]


def every_cut():
    name = R.choice(READER_NAMES)
    data = READERS[name]()
    return [f"{name} {spell(data[:length])}" for length in range(len(data) + 1)]


def short_at(read, data):
    """The offset of the field that does not fit; None where nothing is short."""
    try:
        read(data)
    except awdl.Refused as refusal:
        return refusal.offset if refusal.number == awdl.SHORT else None
    return None


def cut_at_field(read, data):
    """Cut before the first byte of a field or at the end, or one byte beside it."""
    offsets = {short_at(read, data[:length]) for length in range(len(data))}
    place_of_cut = R.choice([*sorted(offsets - {None}), len(data)])
    return data[:max(place_of_cut + R.choice((-1, 0, 0, 1)), 0)]


def header_cut():
    return [f"frame_read {spell(cut_at_field(awdl.read_frame, good_frame()[:13]))}"]


def field_cut():
    name, read, make = TYPED[R.choice((*READ, awdl.DATA_PATH_TYPE))]
    if name != "channel_sequence_read":
        return [f"{name} {spell(cut_at_field(read, make()))}"]
    at = R.choice((0, 0, 1, 2, 12, 33))
    data = cut_at_field(lambda part: read(part, at), R.randbytes(at) + make())
    return [f"{name} {spell(data)} {at}"]


def short_in_frame():
    """The value of a frame's last item, and where in the frame it was short."""
    kind = R.choice(READ)
    name, read, make = TYPED[kind]
    data = cut_at_field(read, make())
    before = good_tail()
    item = awdl.Item(len(before), kind, len(data))
    header = good_frame()[:awdl.HEADER_SIZE]
    whole = header + before + bytes([kind]) + awdl.little(len(data), 2) + data
    offset = short_at(read, data) or 0
    at = " 0" if name == "channel_sequence_read" else ""
    return [
        f"{name} {spell(data)}{at}",
        f"offset_in_frame {spell(whole)} {words_of(ask.show_item(item))} {offset}",
    ]


def offset_in_frame():
    """An offset in the item's value, at its end, above it or any."""
    data = frame()
    item = some_item(awdl.frame_tail(data))
    if chance(4):
        item = item._replace(type=some(255))
    middle = R.randrange(item.length + 1)
    near = item.length + R.choice((-1, 0, 0, 1))
    offset = R.choice((0, middle, near, near, some(LARGEST)))
    offset = min(max(offset, 0), LARGEST)
    return [f"offset_in_frame {spell(data)} {words_of(ask.show_item(item))} {offset}"]


def refusal():
    return [f"refusal {R.choice(REFUSALS)} {number(LARGEST)} {number(255)}"]


def step():
    data = tail()
    return [f"{R.choice(STEPS)} {spell(data)} {place(data)}"]


def every_place():
    name = R.choice(STEPS)
    data = tail()
    return [f"{name} {spell(data)} {at}" for at in range(len(data) + 2)]


def value():
    data = tail()
    return [f"value {spell(data)} {item_words(data)}"]


def frame_write():
    data = tail()
    times = f"phy_tx_time={number(2 ** 32 - 1)} target_tx_time={number(2 ** 32 - 1)}"
    words = words_of(f"subtype={number(255)} reserved={number(255)} {times}")
    return [f"frame_write {words} {spell(data)} {buffer(12 + len(data))}"]


def write_item():
    data = R.randbytes(R.getrandbits(4))
    return [f"write_item {number(255)} {spell(data)} {buffer(3 + len(data))}"]


def tx_delta():
    """Seldom one that its field cannot hold, as if the clock went on."""
    phy, target = stamps()
    if chance(100):
        phy += ROUND
    return [f"tx_delta {phy} {target}"]


def data_path_ask():
    record = data_path()
    name = R.choice(("consistent", "size", "mend"))
    return [f"data_path_{name} {data_path_words(record)}"]


def data_path_write():
    record = data_path()
    size = len(awdl.data_path_bytes(record)) if awdl.is_consistent(record) else R.getrandbits(6)
    return [f"data_path_write {data_path_words(record)} {buffer(size)}"]


def written_again():
    """A header or a value that is read, and its record in a writer: what was
    reserved or a pad is kept (02, No. 7)."""
    name, read, make, write, show = R.choice((
        ("frame_read", awdl.read_frame, good_frame, "frame_write", ask.show_frame),
        ("data_path_read", awdl.read_data_path, data_path_value,
         "data_path_write", ask.show_data_path),
        ("synchronization_read", awdl.read_synchronization, synchronization_value,
         "synchronization_write", ask.show_synchronization),
    ))
    data = seldom_damaged(make())
    lines = [f"{name} {spell(data)}"]
    try:
        size, record = read(data)
    except awdl.Refused:
        return lines
    behind_it = f" {spell(data[size:])}" if name == "frame_read" else ""
    room = buffer(len(data) if name == "frame_read" else size)
    return [*lines, f"{write} {words_of(show(record))}{behind_it} {room}"]


def laid():
    """The bytes of a consistent record, seldom of one that is its flags alone."""
    record = awdl.mend(data_path())
    if chance(6):
        record = awdl.ZERO_DATA_PATH._replace(flags=some(65535) & ~0x9307)
    return awdl.data_path_bytes(record) if awdl.is_consistent(record) else laid()


def archive():
    """One to five records laid end to end (02, No. 14), read from each place in
    turn to the empty rest; at times cut inside the last one, or read one byte
    beside a place as well."""
    parts = [laid() for _ in range(R.randrange(1, 6))]
    data = b"".join(parts)
    places = [sum(map(len, parts[:count])) for count in range(len(parts) + 1)]
    if chance(3):
        data = data[:-R.randrange(1, len(parts[-1]))]
    if chance(3):
        places.append(max(R.choice(places) + R.choice((-1, 1)), 0))
    return [f"data_path_read {spell(data[at:])}" for at in places]


def every_buffer():
    """A record that is mended into every buffer up to its size and two more."""
    record = awdl.mend(data_path())
    words = data_path_words(record)
    size = len(awdl.data_path_bytes(record)) if awdl.is_consistent(record) else 5
    return [f"data_path_write {words} {spell(bytes(room))}" for room in range(size + 3)]


def synchronization_ask():
    name = R.choice(("consistent", "size", "written_size"))
    return [f"synchronization_{name} {synchronization_words(synchronization())}"]


def synchronization_write():
    record = synchronization()
    size = 55 if record.channel_sequence.sequence.encoding == 0 else 71
    return [f"synchronization_write {synchronization_words(record)} {buffer(size)}"]


def channel_sequence_read():
    at = R.choice((0, 0, 1, 5, 33))
    data = R.randbytes(at) + seldom_damaged(channel_sequence_value())
    if chance(8):
        at = somewhere(data)
    return [f"channel_sequence_read {spell(data)} {at}"]


def every_channel_sequence_cut():
    at = R.choice((0, 0, 3))
    data = R.randbytes(at) + channel_sequence_value() + R.randbytes(2)
    return [
        f"channel_sequence_read {spell(data[:length])} {at}"
        for length in range(len(data) + 1)
    ]


def channel_sequence_ask():
    name = R.choice(("consistent", "size", "written_size", "head"))
    return [f"channel_sequence_{name} {channel_sequence_words(channel_sequence())}"]


def channel_sequence_write():
    record = channel_sequence()
    size = 22 if record.sequence.encoding == 0 else 38
    return [f"channel_sequence_write {channel_sequence_words(record)} {buffer(size)}"]


def every_channel_sequence_buffer():
    """A channel sequence into every buffer up to its size and two more."""
    words = channel_sequence_words(channel_sequence())
    return [f"channel_sequence_write {words} {spell(bytes(room))}" for room in range(41)]


def sequence_read():
    at = R.choice((0, 0, 1, 5))
    data = R.randbytes(at + R.choice((0, 1, 15, 16, 17, 31, 32, 33, 40)))
    if chance(6):
        at = somewhere(data)
    return [f"sequence_read {spell(data)} {at} {encoding()}"]


def sequence_ask():
    name = R.choice(("consistent", "size", "written_size"))
    return [f"sequence_{name} {sequence_words(sequence())}"]


def sequence_write():
    record = sequence()
    size = 16 if record.encoding == 0 else 32
    return [f"sequence_write {sequence_words(record)} {buffer(size)}"]


def sequence_entry():
    entry = R.randrange(18) if chance(1.2) else some(LARGEST)
    return [f"sequence_entry {sequence_words(sequence())} {entry}"]


def to_simple():
    """A conversion. Where it gives a sequence, this is written, and one entry is
    asked of both (02, No. 10)."""
    record = sequence() if chance(5) else legacy()
    lines = [f"sequence_to_simple {sequence_words(record)}"]
    try:
        simple = awdl.sequence_to_simple(record)
    except awdl.Refused:
        return lines
    entry = R.getrandbits(4)
    lines.append(f"sequence_write {sequence_words(simple)} {buffer(16)}")
    lines.append(f"sequence_entry {sequence_words(simple)} {entry}")
    lines.append(f"channel {words_of(ask.show_channel(awdl.sequence_entry(record, entry)))}")
    return lines


def converted():
    """A value that is read with a legacy sequence, its flags with dropped bits;
    its record in a writer; the conversion; and the record with what that gave
    in the same writer (02, No. 10)."""
    sent = bytearray(legacy().bytes)
    sent[0::2] = bytes(flags | R.getrandbits(2) << 6 for flags in sent[0::2])
    data = bytes([15, awdl.LEGACY]) + R.randbytes(4) + sent
    part = awdl.read_channel_sequence(data)[1]
    name, at, words, whole = "channel_sequence", " 0", channel_sequence_words, lambda record: record
    if chance(2):
        fixed = R.randbytes(33)
        data = fixed + data
        fields = awdl.fixed_fields(fixed)
        name, at, words = "synchronization", "", synchronization_words
        whole = lambda record: awdl.Synchronization(*fields, record)
    lines = [
        f"{name}_read {spell(data)}{at}",
        f"{name}_write {words(whole(part))} {buffer(len(data))}",
        f"sequence_to_simple {sequence_words(part.sequence)}",
    ]
    try:
        part = part._replace(sequence=awdl.sequence_to_simple(part.sequence))
    except awdl.Refused:
        return lines
    return [*lines, f"{name}_write {words(whole(part))} {buffer(len(data) - 16)}"]


# Which channel to move to (02, No. 13). A set of sequences is about a few
# channels, so that loads are equal or nearly so; many are near 0 and 255.

BAND = 0, 1, 2, 6, 36, 38, 40, 42, 44, 149, 253, 254, 255


def entry_on(kind, channel_number):
    """An entry of an encoding that counts for a channel. What does not count is
    any byte: flag bits above the lowest two, an operating class."""
    if kind == awdl.SIMPLE:
        return bytes([channel_number])
    if kind == awdl.OPCLASS:
        return bytes([channel_number, R.choice(BAND)])
    flags = R.getrandbits(8)
    return bytes([flags, (channel_number - awdl.correction(flags)) % 256])


def lent_sequence(channels):
    """A sequence of 33 bytes on these channels in turn, or on any of them."""
    kind = R.choice((awdl.SIMPLE, awdl.LEGACY, awdl.LEGACY, awdl.OPCLASS))
    hops = channels * awdl.ENTRIES if chance(2) else R.choices(channels, k=awdl.ENTRIES)
    entries = b"".join(entry_on(kind, hop) for hop in hops[:awdl.ENTRIES])
    unused = bytes(32) if chance(2) else bytes(R.choices(BAND, k=32))
    return bytes([kind]) + (entries + unused)[:32]


def lent_set(channels):
    """Up to five sequences; seldom about 64, each of them many times. One in six
    sets has an encoding that is not listed, in its first, its last or any one."""
    sequences = [lent_sequence(channels) for _ in range(R.choice((0, 1, 1, 2, 2, 3, 4, 5)))]
    if chance(12):
        sequences = [lent_sequence(channels) for _ in range(R.choice((1, 1, 2, 3)))] * 65
        sequences = sequences[:R.choice((63, 64, 64, 65, 65, 66))]
    if sequences and chance(6):
        at = R.choice((0, -1, R.randrange(len(sequences))))
        sequences[at] = bytes([R.choice((2, 4, 255, 2 + R.getrandbits(7)))]) + sequences[at][1:]
    return sequences


def lent(sequences):
    """As bytes; one set in twelve is cut inside its last sequence, or goes on."""
    data = b"".join(sequences)
    if chance(12):
        data = data[:-R.choice((1, 1, 32, R.randrange(1, 33)))] or b"\0"
    elif chance(40):
        data += R.randbytes(R.choice((1, 32)))
    return data


def permitted_list(channels):
    """Some of the channels, often all in any order, at times one twice; seldom
    none, 16 or 17."""
    count = R.choice((1, 2, 3, len(channels), len(channels)))
    listed_ones = R.sample(channels, min(count, len(channels)))
    if chance(6):
        listed_ones.insert(R.randrange(len(listed_ones) + 1), R.choice(listed_ones))
    if chance(6):
        listed_ones.append(some(255))
    if chance(12):
        listed_ones = []
    elif chance(8):
        listed_ones = (listed_ones * 17)[:R.choice((15, 16, 16, 17, 17, 18))]
    return bytes(listed_ones)


def proposal_of(data, permitted):
    """A permitted channel mostly, often one that is accepted, else any."""
    if chance(5) or not permitted:
        return R.choice(BAND) if chance(2) else some(255)
    if chance(2):
        return R.choice(permitted)
    try:
        load = awdl.loads(data, permitted)
    except awdl.Refused:
        return R.choice(permitted)
    return R.choice([one for one in permitted if load[one] == min(load.values())])


def choice_of_channel():
    """A set, and what is asked of it: the judge's answer, ours, and a load."""
    channels = R.sample(BAND, R.randrange(1, 6))
    data, permitted = lent(lent_set(channels)), permitted_list(channels)
    lines = [f"judge {spell(data)} {spell(permitted)} {proposal_of(data, permitted)}"]
    if chance(2):
        lines.append(f"own_proposal {spell(data)} {spell(permitted)}")
    if chance(2):
        one = R.choice(channels) if chance(1.2) else number(255)
        lines.append(f"channel_load {spell(data)} {one}")
    return lines


def every_proposal():
    """Every permitted channel of a set is proposed, one that is not, and our own
    is asked, with the load of each."""
    channels = R.sample(BAND, R.randrange(1, 6))
    data, permitted = lent(lent_set(channels)), permitted_list(channels)
    words = f"{spell(data)} {spell(permitted)}"
    return [
        f"own_proposal {words}",
        *(f"judge {words} {one}" for one in (*permitted, some(255))),
        *(f"channel_load {spell(data)} {one}" for one in permitted),
    ]


def other_places():
    """A set, the same sequences in other places, and with one that touches a
    single channel: the first two answers are the same."""
    channels = R.sample(BAND, R.randrange(2, 6))
    sequences, permitted = lent_set(channels), permitted_list(channels)
    proposal = proposal_of(b"".join(sequences), permitted)
    moved = R.sample(sequences, len(sequences))
    added = [*sequences, lent_sequence(channels[:1])]
    return [
        f"judge {spell(b''.join(lent_ones))} {spell(permitted)} {proposal}"
        for lent_ones in (sequences, moved, added)
    ]


def of_channel():
    return [f"{R.choice(('channel', 'sequence_fixed'))} {channel_words()}"]


def small():
    name = R.choice(SMALL_NAMES)
    return [f"{name} {number(SMALL[name])}"]


def one_bit_kept():
    name = R.choice(("unicast_options", "extended_flags"))
    return [f"{name} {one_bit(SMALL[name])}"]


def two_words():
    if chance(2):
        return [f"has {number(65535)} {1 << R.getrandbits(4) if chance(2) else number(65535)}"]
    kind, channel_number = channel()
    return [f"word_of_channel {kind} {channel_number}"]


def listed():
    return [R.choice(LISTED)]


def next_line():
    data = frame()
    room = 128 if chance(1.02) else R.choice((0, 127, 129))
    filler = spell(R.randbytes(room)) if chance(4) else f"EE*{room}"
    return [f"next_line {spell(data)} {mark_words(data)} {filler}"]


def around_the_dump():
    """Frames of about 4,096 bytes, and where their dump starts."""
    length = 4096 - 15 + R.randrange(-1, 2)
    there = length + R.randrange(-1, 2)
    data = f"081003+00*9+07{length & 255:02X}{length >> 8:02X}+55*{there}"
    return [f"{R.choice(('dump', 'lines', 'dump_start', 'frame_read'))} {data}"]


def large():
    """Bytes up to the most an argument may have, and one more."""
    length = R.choice((65534, 65535, 65536, 65999, 66000, 66001))
    data = f"{R.getrandbits(8):02X}*{length}"
    return [R.choice((
        f"end {data}", f"dump_start {data}", f"frame_read {data}", f"dump {data}",
        f"write_item 7 {data} EE*{R.choice((0, 3, 65537, 65538, 65539))}",
        f"end 0C{length & 255:02X}{length >> 8 & 255:02X}+00*{min(length, 65990)}",
        f"step 0CFFFF+{data} 0", f"first_data_path 0CFFFF+{data}",
        f"channel_sequence_read {data} {R.choice((0, 65513, 65514, 65978, 65979))}",
        f"all_data_paths 0CFFFF+00*65535+0C0200{R.getrandbits(16):04X}",
        f"offset_in_frame 0810+00*10+0CFFFF+00*65535 0 12 65535 {R.randrange(65533, 65537)}",
    ))]


CHARACTERS = "0123456789abcdefABCDEFgxX*+-=_# \t\r\0\x7f\x80\xff"
WRONG_WORDS = (
    "0", "-", "1", "00", "single", "x", "-1", "0x1", "2", "256", "65536", "4294967296",
    "18446744073709551615", "18446744073709551616", "000000000000000000000",
    "000", "0G", "0*3", "000*3", "0000*3", "00*", "*3", "00**3", "00*3*3", "00*x",
    "+00", "00+", "00++00", "+", "-+00", "00+-", "--", "0000000000", "00*6", "=0", "flags=",
)


def bad():
    """A question with a character or a word changed, dropped or added."""
    line = R.choice(MAKERS)()[0]
    how = R.randrange(6)
    at = R.randrange(len(line))
    if how == 0:
        return [line[:at] + R.choice(CHARACTERS) + line[at + 1:]]
    if how == 1:
        return [line[:at] + line[at + 1:]]
    if how == 2:
        return [line[:at] + R.choice(CHARACTERS) + line[at:]]
    words = line.split(" ")
    at = R.randrange(len(words))
    if how == 3:
        words.pop(at)
    elif how == 4:
        words.insert(at, R.choice(words))
    else:
        words[at] = R.choice(words if chance(4) else WRONG_WORDS)
    return [" ".join(words)]


def long_line():
    """A line of about 16,384 characters, of digits or of spaces."""
    length = ask.LINE_LIMIT + R.randrange(-1, 3)
    if chance(3):
        line = f"{R.choice(('end', 'frame_read', 'first_data_path'))} "
        line += R.choice(("0", "00+", "0C")) * length
        return [line[:length]]
    line = R.choice(MAKERS)()[0]
    if len(line) >= length:
        return [line]
    at = R.choice((0, len(line), line.find(" ")))
    return [line[:at] + " " * (length - len(line)) + line[at:]]


def passed_over():
    return [R.choice(("", " ", "   ", "#", "# frame_read 09", "#x", " #", "\r", "\t"))]


MAKERS = [
    *[read] * 10, *[step] * 6, *[value] * 2, *[frame_write] * 3, *[write_item] * 2,
    *[tx_delta] * 3, *[data_path_ask] * 8, *[data_path_write] * 6, *[synchronization_ask] * 2,
    *[synchronization_write] * 3, *[channel_sequence_read] * 3, *[channel_sequence_ask] * 3,
    *[channel_sequence_write] * 3, *[sequence_read] * 2, *[sequence_ask] * 2,
    *[sequence_write] * 2, *[sequence_entry] * 2, *[of_channel] * 2, *[small] * 2,
    one_bit_kept, two_words, listed, *[next_line] * 3, *[field_cut] * 6, header_cut,
    *[short_in_frame] * 2, *[offset_in_frame] * 3, refusal, *[written_again] * 4,
    *[archive] * 2, *[to_simple] * 4, *[converted] * 2, *[choice_of_channel] * 6,
    *[other_places] * 2,
]
EVERY = [
    *[every_cut] * 3, *[every_place] * 2, every_buffer, every_channel_sequence_cut,
    every_channel_sequence_buffer, every_proposal,
]


def group():
    """Lines that one maker gives."""
    pick = R.random()
    if pick < 0.93:
        return R.choice(MAKERS)()
    if pick < 0.98:
        return bad()
    if pick < 0.99:
        return R.choice(EVERY)()
    if pick < 0.9990:
        return passed_over()
    if pick < 0.9996:
        return long_line()
    return R.choice((around_the_dump, large))()


def batch(seed, count):
    """So many lines; the same seed gives the same ones."""
    R.seed(seed)
    lines = []
    while len(lines) < count:
        lines += group()
    return [line.encode("latin-1") for line in lines[:count]]
