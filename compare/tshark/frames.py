"""Makes up frames for the comparison: first a fixed list, which holds every field and every expected difference, then
frames from a seed, most of them good, the others cut or damaged."""

from random import Random

R = Random()

DATA_PATH, SYNCHRONIZATION, SEQUENCE = 0x0C, 0x04, 0x12
READ = DATA_PATH, SYNCHRONIZATION, SEQUENCE


def little(number, width):
    return number.to_bytes(width, "little")


def chance(part):
    return R.random() < part


def item(kind, value):
    return bytes([kind]) + little(len(value), 2) + value


# The values of the types that both read.

def country():
    return R.choice((b"DE", b"US", b"X0")) + b"\0" if chance(0.6) else R.randbytes(3)


def channel_word():
    """A single channel, a map, or any word, whose upper bits may be set."""
    return little(R.choice((2 * R.getrandbits(7), 2 * R.getrandbits(2) + 1, R.getrandbits(16))), 2)


def options():
    """A word that 01 keeps, or any."""
    return little(R.getrandbits(32) & (0xFFFFFE6A if chance(0.5) else 0xFFFFFFFF), 4)


def data_path():
    """Any presence. Behind flag bit 4 there are mostly the two bytes, and behind extended bit 0 the fourteen, that tshark
    looks for, since it shows nothing more where they are missing."""
    flags = R.getrandbits(16) & (R.getrandbits(16) | R.getrandbits(16))
    flags |= 0x9307 if chance(0.2) else 0
    data = little(flags, 2)
    data += country() if flags >> 8 & 1 else b""
    data += channel_word() if flags >> 9 & 1 else b""
    for bit, width in ((0, 8), (1, 6), (2, 6)):
        data += R.randbytes(width) if flags >> bit & 1 else b""
    data += R.randbytes(2) if flags >> 4 & 1 and chance(0.9) else b""
    if flags >> 12 & 1:
        length = R.choice((4, 8)) if chance(0.9) else R.choice((0, 3, 5, 9, 12, 260))
        data += little(length, 2) + (options() + R.randbytes(8))[:length]
    if flags >> 15 & 1:
        extended = R.getrandbits(16)
        data += little(extended, 2)
        for bit, width in ((0, 2), (2, 4), (5, 12)):
            data += R.randbytes(width) if extended >> bit & 1 else b""
        data += R.randbytes(14) if chance(0.8) else b""
    return data


def sequence():
    count = 15 if chance(0.95) else R.choice((0, 7, 14, 16, 255))
    encoding = R.choice((0, 1, 3)) if chance(0.95) else R.choice((2, 4, 255))
    entries = bytearray(R.randbytes(32 if encoding in (1, 3) else 16))
    if encoding == 1 and chance(0.7):
        entries[0::2] = (flags & 0x3F for flags in entries[0::2])
    return bytes([count, encoding]) + R.randbytes(4) + entries


def synchronization():
    return R.randbytes(33) + sequence()


# Values that tshark can read of the types that it reads and 01 does not, so that it goes on behind most of them.

THEIRS = {
    0x02: lambda: bytes(R.randrange(7, 12)),
    0x05: lambda: R.randbytes(R.randrange(37, 44)),
    0x06: lambda: bytes(R.randrange(9, 30)),
    0x07: lambda: R.randbytes(R.randrange(9, 20)),
    0x10: lambda: bytes([R.getrandbits(8), 3]) + b"abc\xC0\x0C",
    0x11: lambda: bytes.fromhex("BF0CB259820FEAFF0000EAFF0000"),
    0x14: lambda: R.randbytes(6 * R.randrange(4)),
    0x15: lambda: R.randbytes(2),
    0x18: lambda: R.randbytes(R.randrange(40, 44)),
}
VALUES = {DATA_PATH: data_path, SYNCHRONIZATION: synchronization, SEQUENCE: sequence, **THEIRS}


def damaged(data):
    """Cut, longer, or with a byte changed, dropped or added."""
    at = R.randrange(len(data) + 1)
    return R.choice((
        data[:at],
        data + R.randbytes(R.randrange(1, 5)),
        data[:at] + R.randbytes(1) + data[at + 1:],
        data[:at] + data[at + 1:],
        data[:at] + R.randbytes(1) + data[at:],
    ))


def any_item():
    """Of a type that both read mostly, else of any other; a value has seldom another type than its own."""
    kind = R.choice(READ) if chance(0.6) else R.choice((*THEIRS, R.randrange(256), R.randrange(256)))
    value = VALUES.get(kind, lambda: R.randbytes(R.randrange(9)))()
    value = damaged(value) if chance(0.15) else value
    value += R.randbytes(R.choice((200, 256, 600))) if chance(0.03) else b""
    return item(R.randrange(256) if chance(0.02) else kind, value)


def stamps():
    """Any two, and often two between which the clock has rolled over."""
    target = R.getrandbits(32) if chance(0.7) else 2 ** 32 - 1 - R.getrandbits(9)
    phy = R.getrandbits(32) if chance(0.3) else (target + R.getrandbits(10)) % 2 ** 32
    return little(phy, 4) + little(target, 4)


def head():
    first = b"\x08\x10" if chance(0.97) else R.choice((b"\x08", b"\x09")) + R.randbytes(1)
    return first + bytes([R.choice((0, 3, R.getrandbits(8))), R.getrandbits(8)]) + stamps()


def any_frame():
    data = head() + b"".join(any_item() for _ in range(R.choice((0, 1, 1, 2, 2, 2, 3, 3, 4, 5))))
    if chance(0.1):
        return data[:R.randrange(len(data) + 1)]
    return damaged(data) if chance(0.1) else data


# The fixed list.

HEAD = bytes.fromhex("08100381 05000000 FAFFFFFF")
MARK = item(0xF0, b"mark")
SIMPLE = bytes.fromhex("0F0001033412") + bytes(range(0x20, 0x30))
LEGACY = bytes.fromhex("0F0102040600") + bytes(range(0x70, 0x90))
OPCLASS = bytes.fromhex("0F0300002400") + bytes(range(0x60, 0x80))
FIXED = bytes(range(1, 34))
ADDRESSES = bytes.fromhex("A0A1A2A3A4A5 9500 B0B1B2B3B4B5 C0C1C2C3C4C5")
STATS = bytes.fromhex("11223344 55667788 99AABBCC")

# Every field of a data path record; its single channel has no upper byte, and no dropped bit is set.
WHOLE = bytes.fromhex("0793 444500 2400") + ADDRESSES + bytes.fromhex("0800 0A020000 78563412 2500 3412 01020304") + STATS
def data_path_edges():
    """Hex of values: no country, a pad, channel words with upper bits, a unicast part of each length, extended parts, the
    word behind flag bit 4, and each of these cut."""
    return map(bytes.fromhex, (
        "", "00", "0000", "00014445", "0001444500", "0001444578", "0001FF0045", "00022400", "00022401", "00020300", "0002FFFF",
        "001004000A020000", "00100400FFFFFFFF", "001008000A02000001020304", "001008000A020000", "00100500", "001003000A0200",
        "0010050001020304050080", "009003000A02000400112233445566", "009003000A02000400112233", "0010040001",
        "00800000", "0080FFFF" + "55" * 20, "0080040001020304", "00800400010203", "008001001122", "0080050011220102030405",
        "008001001122" + "33" * 12, "008020001122334455667788AABBCCDD", "0080200011223344", "00802000", "00802400AABBCCDD1122",
        "1000AABB", "1000AA", "1000", "1090AABB04000A02000004001122334455", "1010AABB0400FFFFFFFF", "100204", "1010AABB0500",
    ))


def synchronization_edges():
    """A value cut around each field, with a remaining length below 0, another count, and another encoding."""
    whole = FIXED + LEGACY
    yield from (whole[:at] for at in (0, 1, 2, 21, 26, 27, 28, 29, 33, 34, 35, 36, 37, 38, 39, 40, 42, 70))
    for start in (b"\x0E\x00", b"\x10\x00", b"\x0F\x02", b"\x00\x03", b"\x0E\xFF", b"\x14\x03"):
        yield FIXED + start + whole[35:]


def fixed_list():
    yield HEAD + item(SYNCHRONIZATION, FIXED + SIMPLE) + MARK + item(SEQUENCE, LEGACY) + item(DATA_PATH, WHOLE) + MARK
    yield HEAD + item(SEQUENCE, OPCLASS + b"behind") + item(SYNCHRONIZATION, bytes([0x91] * 33) + LEGACY) + MARK
    yield HEAD + b"".join(item(kind, value()) for kind, value in THEIRS.items()) + MARK
    yield from (HEAD, HEAD[:0], HEAD[:1], HEAD[:3], HEAD[:11], b"\x09" + HEAD[1:] + MARK, b"\x08\x11" + HEAD[2:] + MARK)
    yield from (HEAD + MARK + b"\xF0", HEAD + MARK + MARK[:4], HEAD + item(0x05, b"short") + MARK, HEAD + item(0xF0, b""))
    for value in data_path_edges():
        yield HEAD + item(DATA_PATH, value) + MARK
    for value in synchronization_edges():
        yield HEAD + item(SYNCHRONIZATION, value) + MARK
        yield HEAD + item(SEQUENCE, value[33:]) + MARK


def made_up(count, seed):
    """The fixed list, and as many more as make the count."""
    R.seed(seed)
    fixed = list(fixed_list())
    return fixed + [any_frame() for _ in range(count - len(fixed))]
