"""Compares what tshark shows of a frame with what we answer, field by field. tshark is a peer: where it shows something else
that is a difference with a name, and the comparison says exactly what each side shows there, or it is not expected."""

from collections import Counter

import frames
from frames import DATA_PATH, SYNCHRONIZATION
from ours import bit_4_clear, data_path_without

# The names under which a difference is counted; docs/DIFFERENCES.md tells each of them.
EXPECTED = """
    first bytes, reserved byte, empty tail, cut item, behind a malformed value, other type, remaining length, legacy flags,
    other count, other encoding, cut entries, country, single channel, channel map, bit 4, bit 4 cut, unicast bits,
    unicast length, second unicast word, extended flags, extended bit 0, fourteen bytes, stats
""".replace("\n", " ").split(",")
EXPECTED = [name.strip() for name in EXPECTED]

# Types that tshark reads and 01 does not.
THEIR_TYPES = set(frames.THEIRS)

# Fields that are numbers on both sides: tshark's name and ours.
FIRST = {2: ("type", 0x08), 3: ("version", 0x10)}
HEADER = [("subtype", "subtype"), ("reserved", "reserved"), ("phytime", "phy_tx_time"), ("targettime", "target_tx_time")]
FIXED = [(f"syncparams.{theirs}", ours) for theirs, ours in (
    ("txchannel", "next_channel"), ("txcounter", "tx_counter"), ("masterchan", "master_channel"), ("guardtime", "guard_time"),
    ("awperiod", "aw_period"), ("afperiod", "af_period"), ("awdlflags", "awdl_flags"), ("aw.ext_len", "aw_ext_length"),
    ("aw.common_len", "aw_common_length"), ("ext.min", "min_ext_count"), ("ext.max_multicast", "max_multicast_ext_count"),
    ("ext.max_unicast", "max_unicast_ext_count"), ("ext.max_af", "max_af_ext_count"), ("presencemode", "presence_mode"),
    ("awseqcounter", "aw_seq_number"), ("apbeaconalignment", "ap_beacon_alignment_delta"))]
SEQUENCE_HEAD = [(f"channelseq.{theirs}", ours) for theirs, ours in (
    ("encoding", "encoding"), ("duplicate", "duplicate_count"), ("step_count", "step_count"), ("fill_channel", "fill_channel"))]
LEGACY_NAMES = [("control_channel", "support_channel"), ("bandwidth", "channel_bandwidth"), ("band", "band")]
ENTRY_SIZE = {0: 1, 1: 2, 3: 2}

# Fields of a data path value as tshark names them, and the flag of ours that says whether they are there.
PRESENCE = [(f"datastate.{theirs}", ours) for theirs, ours in (
    ("countrycode", "country_code"), ("infra_bssid", "infra_bssid_channel"), ("infra_channel", "infra_bssid_channel"),
    ("infra_addr", "infra_address"), ("own_awdladdr", "awdl_address"), ("unicast_options_length", "unicast_options"),
    ("unicast_options", "unicast_options"), ("extflags", "extended_flags"))]
# The names of our presence flags, from bit 0 on, and of the channels of a map.
FLAGS = ["infra_bssid_channel", "infra_address", "awdl_address", *[""] * 5, "country_code", "channel_map", "", "", "unicast_options"]
FLAGS += ["", "", "extended_flags"]
EXTENDED = ["log_trigger_id", "rlfc", "stats"]
MAP = ["ch6", "ch44", "ch149"]
# How tshark writes each byte of a text in PDML, as an XML reader gives it.
MARKS = [f"\\x{byte:x}" for byte in range(128)] + ["\uFFFD"] * 128
MARKS[32:127] = map(chr, range(32, 127))
MARKS[9] = MARKS[10] = MARKS[13] = " "
OPTIONS_KEEP, EXTENDED_KEEP, MAP_KEEP, LEGACY_KEEP = 0xFFFFFE6A, 0xFF7F, 7, 0x3F


class Tally:
    def __init__(self):
        self.compared = Counter()
        self.expected = Counter()
        self.others = []


class Comparison:
    """One frame. A method that compares a value answers whether tshark gives up in it."""

    def __init__(self, frame, ours, shown, tally):
        self.frame, self.ours, self.shown, self.tally = frame, ours, shown, tally

    def differ(self, name, holds, text=""):
        """A difference that is expected under a name, if what tells it exactly holds."""
        if holds and name in EXPECTED:
            self.tally.expected[name] += 1
        else:
            self.tally.others.append(f"{name}: {text}\n    frame {self.frame.hex()}")

    def hold(self, field, ours, theirs, *expected):
        """A field of ours against theirs; `expected` has pairs of a name and of what tells the difference exactly."""
        self.tally.compared[field] += 1
        if ours != theirs:
            names = [name for name, holds in expected if holds]
            self.differ(names[0] if names else field, names, f"ours {ours}, tshark {theirs}")

    # The frame.

    def compare(self):
        """Where a field is needed that tshark does not show, or ours is no such number, that is not expected either."""
        try:
            self.header()
        except (ArithmeticError, LookupError, TypeError, ValueError) as error:
            self.differ("cannot be compared", False, repr(error))

    def header(self):
        head, shown = self.ours.frame(self.frame), self.shown.head
        if head.number in (2, 3):
            name, due = FIRST[head.number]
            self.differ("first bytes", number(shown, name) != due, f"ours {head.number}, tshark shows {due}")
            return
        if head.number:
            reserved = head.fields["offset"] == 2 and self.shown.stop == 3
            self.hold("header short at", head.fields["offset"], self.shown.stop, ("reserved byte", reserved))
            self.hold("header is whole", False, not self.shown.malformed)
            return
        for theirs, name in HEADER:
            self.hold(f"header {name}", head.fields[name], number(shown, theirs))
        delta = self.ours("tx_delta {phy_tx_time} {target_tx_time}".format(**head.fields)).fields["micros"]
        self.hold("header tx_delta", delta, number(shown, "txdelay"))
        self.items()

    def items(self):
        items, end = self.ours.items(self.frame)
        tags, malformed = self.shown.tags, self.shown.malformed
        stub = end.word == "cut" and len(self.frame) - 12 - end.fields["at"] < 3
        for place, item in enumerate(items):
            if place >= len(tags):
                self.differ("no item", False, f"ours {item}")
                return
            tag = tags[place]
            self.hold("item place", item.at, tag.at)
            self.hold("item type", item.type, number(tag.fields, "tag.number"))
            self.hold("item length", item.length, number(tag.fields, "tag.length"))
            ended = malformed and place + 1 == len(tags)
            # With one or two bytes behind the last item tshark gives up there too, and shows no more of either.
            unclear = stub and place + 1 == len(items)
            gave_up = self.value(item, tag, ended)
            if not unclear:
                self.hold("value is whole", not gave_up, not ended)
            if gave_up:
                for _ in range(len(items) - place - 1 + (end.word == "cut")):
                    self.differ("behind a malformed value", ended, f"{len(tags)} tags are shown")
                return
        self.end(len(items), end)

    def end(self, count, end):
        """Where the walk ends, when tshark has shown all items. It has one tag more for an item that is cut."""
        tags, tail = self.shown.tags, self.frame[12:]
        at = end.fields.get("at", len(tail))
        last = tags[-1] if tags else None
        if len(tags) > count:
            cut = number(last.fields, "tag.number"), number(last.fields, "tag.length")
            same = cut == (*tail[at:at + 1], little(tail[at + 1:at + 3])) and len(tail) - at >= 3
            self.differ("cut item", same and last.cut and len(tags) == count + 1, f"tshark shows {cut}")
            place = last.at
        else:
            place = last.at + 3 + number(last.fields, "tag.length") if last else 0
        whole = not self.shown.malformed and not (last and last.cut)
        self.hold("end is whole", end.word == "whole", whole, ("empty tail", not tail))
        self.hold("end place", at, place)

    # Values.

    def value(self, item, tag, ended):
        if item.answer is None:
            if "tag.data" in tag.fields:
                self.hold("other value", item.value.hex(), tag.fields["tag.data"].show.replace(":", ""))
                return False
            self.differ("other type", item.type in THEIR_TYPES, f"type {item.type} has no data")
            return ended
        if (item.record is None) != (item.answer.number != 0):
            self.differ("search and reader", False, item)
        if item.type == DATA_PATH:
            return self.data_path(item, tag)
        start = 33 if item.type == SYNCHRONIZATION else 0
        if item.record is None:
            return self.refused_sequence(item, tag, start)
        if start:
            self.fixed(item.record, tag.fields)
        self.sequence(item.record, tag)
        size = item.answer.fields["size" if start else "next"]
        self.hold("bytes behind a sequence", item.value[size:], shown_bytes(tag, "tag.padding"))
        return False

    def fixed(self, record, shown):
        for theirs, name in FIXED:
            self.hold(f"synchronization {name}", record[name], number(shown, theirs))
        signed = number(shown, "syncparams.aw.remaining")
        self.hold("synchronization remaining_aw_length", record["remaining_aw_length"], signed,
                  ("remaining length", signed < 0 and signed + 65536 == record["remaining_aw_length"]))
        self.hold("synchronization reserved", f"{record['reserved']:02x}", shown["unknown"].show)
        self.hold("synchronization master_address", record["master_address"].hex(":"), shown["syncparams.master"].show)

    def sequence(self, record, tag):
        """A record of ours has no count, since that of every one that is accepted is 15."""
        self.hold("sequence count", 15, number(tag.fields, "channelseq.channels"))
        for theirs, name in SEQUENCE_HEAD:
            self.hold(f"sequence {name}", record[name], number(tag.fields, theirs))
        self.hold("sequence entries", 16, len(tag.entries))
        for place, entry in enumerate(tag.entries[:16]):
            first, second = record["bytes"][place], None
            if record["encoding"]:
                first, second = record["bytes"][2 * place:2 * place + 2]
            if record["encoding"] == 1:
                flags = int(entry["flags"], 0)
                self.hold("legacy flags", first, flags, ("legacy flags", flags > LEGACY_KEEP and flags & LEGACY_KEEP == first))
                for theirs, name in LEGACY_NAMES:
                    self.hold(f"legacy {name}", self.ours(f"{name} {first}").fields["bits"], int(entry[theirs]))
                self.hold("legacy channel", second, int(entry["number"]))
            elif record["encoding"] == 3:
                self.hold("opclass channel", first, int(entry["number"]))
                self.hold("opclass class", second, int(entry["operating_class"], 0))
            else:
                self.hold("simple channel", first, int(entry["number"]))

    def refused_sequence(self, item, tag, start):
        """Of a value that we refuse tshark shows what is there, entry by entry, and as many as the count says."""
        refusal, offset = item.answer.number, item.answer.fields["offset"]
        if refusal == 1 and offset < start + 6:
            reserved = start == 33 and offset == 27 and tag.stop == 28
            self.hold("value short at", offset, tag.stop, ("reserved byte", reserved))
            return True
        count, encoding = number(tag.fields, "channelseq.channels"), number(tag.fields, "channelseq.encoding")
        room = (item.length - start - 6) // ENTRY_SIZE.get(encoding, 1)
        wanted = count + 1 if encoding in ENTRY_SIZE else 0
        shown = len(tag.entries) == min(wanted, room)
        if refusal == 1:
            self.hold("value short at", offset, tag.stop)
            self.differ("cut entries", shown and count == 15 and room < 16, f"{len(tag.entries)} entries are shown")
        elif refusal == 10:
            self.differ("other count", shown and count != 15, f"count {count}, {len(tag.entries)} entries")
        else:
            self.differ("other encoding", shown and refusal == 5 and encoding not in ENTRY_SIZE, f"encoding {encoding}")
        return room < wanted

    # The data path value.

    def data_path(self, item, tag):
        """Where tshark reads bytes that 01 does not, or a unicast part that 01 refuses, we are asked about the value
        without them too: what tshark shows behind them is what we read of that."""
        without, taken = data_path_without(item.value)
        plain = self.ours.data_path(without) if taken else item.answer
        record = item.record or (None if plain.number else plain.fields)
        if "umi" in taken:
            place, width = taken["umi"]
            if place + width > item.length:
                self.differ("bit 4 cut", tag.stop == place, f"tshark stops at {tag.stop}")
                return True
            same = number(tag.fields, "datastate.umi") == little(item.value[place:place + width])
            self.differ("bit 4", same and self.bit_4_is_free(item), "the word that tshark shows, or what we read of the value")
        if "unicast" in taken:
            place, width = taken["unicast"]
            length = number(tag.fields, "datastate.unicast_options_length")
            cut = place + width > item.length
            # Behind the bytes of bit 4 tshark and we read the length at different places, so that ours may be good.
            refused = item.answer.number == 4 or "umi" in taken
            same = length == width - 2 and (not cut or tag.stop == place + 2)
            self.differ("unicast length", refused and same, f"length {length}, tshark stops at {tag.stop}")
            if cut:
                return True
        if record:
            self.before(record, taken, tag)
        if plain.number:
            return self.refused_data_path(item, tag, plain, taken)
        behind = item.record if item.record and not taken else plain.fields
        self.present(behind, taken, tag.fields)
        self.unicast(behind, tag.fields)
        rest = without[plain.fields["size"]:]
        if behind["extended_flags"]:
            return self.extended(behind, item, tag, rest)
        self.hold("bytes behind a data path", rest, shown_bytes(tag, "tag.padding"))
        return False

    def bit_4_is_free(self, item):
        """With bit 4 or without, we read the same."""
        clear = self.ours.data_path(bit_4_clear(item.value))
        clear.fields["flags"] |= 0 if clear.number else 0x10
        return clear == item.answer

    def before(self, record, taken, tag):
        """The flags and the fields up to the AWDL address."""
        shown = tag.fields
        flags = record["flags"] | (0x1000 if "unicast" in taken else 0)
        self.hold("data path flags", flags, number(shown, "datastate.flags"))
        for bit, name in enumerate(FLAGS):
            if name and not (name == "unicast_options" and "unicast" in taken):
                self.hold(f"data path {name} is there", record[name], int(tag.bits[f"datastate.flags.{bit}"]))
        if record["country_code"]:
            letters = bytes(record[f"country_{part}"] for part in ("first", "second", "pad"))
            country = shown["datastate.countrycode"]
            self.hold("data path country bytes", letters.hex(), country.bytes)
            self.hold("data path country", letters[:2].decode("latin-1"), country.show, ("country", country.show == text(letters)))
        if record["channel_map"]:
            self.channel(record, tag)
        if record["infra_bssid_channel"]:
            self.hold("data path infra_bssid", record["infra_bssid"].hex(":"), shown["datastate.infra_bssid"].show)
            self.hold("data path infra_channel", record["infra_channel"], number(shown, "datastate.infra_channel"))
        if record["infra_address"]:
            self.hold("data path infra address", record["infra"].hex(":"), shown["datastate.infra_addr"].show)
        if record["awdl_address"]:
            self.hold("data path awdl address", record["awdl"].hex(":"), shown["datastate.own_awdladdr"].show)

    def channel(self, record, tag):
        shown = tag.fields
        if record["channel_kind"] == "single":
            word = number(shown, "datastate.social_channel")
            self.hold("data path channel", record["channel"], word, ("single channel", word > 255 and word & 0xFF == record["channel"]))
        else:
            word = number(shown, "datastate.social_channel_map")
            self.hold("data path map", record["channel"], word, ("channel map", word > MAP_KEEP and word & MAP_KEEP == record["channel"]))
            for bit, name in enumerate(MAP):
                self.hold(f"data path map {name}", record["channel"] >> bit & 1, int(tag.bits[f"datastate.social_channel_map.{name}"]))

    def present(self, record, taken, shown):
        ours = {theirs for theirs, flag in PRESENCE if record[flag] or "unicast" in taken and flag == "unicast_options"}
        if record["channel_map"]:
            ours.add("datastate.social_channel" + ("" if record["channel_kind"] == "single" else "_map"))
        theirs = {name for name in shown if name.startswith("datastate.")}
        theirs -= {f"datastate.{name}" for name in ("flags", "umi", "logtrigger", "undecoded")}
        self.hold("data path fields present", sorted(ours), sorted(theirs))

    def unicast(self, record, shown):
        if record["unicast_options"]:
            words = bytes.fromhex(shown["datastate.unicast_options"].show.replace(":", ""))
            theirs = little(words[:4])
            length = number(shown, "datastate.unicast_options_length")
            self.hold("data path unicast length", 8 if record["unicast_options_ext"] else 4, length)
            self.hold("data path options", record["options"], theirs, ("unicast bits", theirs & OPTIONS_KEEP == record["options"]))
            if record["unicast_options_ext"]:
                self.hold("data path second word", record["ext"], little(words[4:]))

    def extended(self, record, item, tag, rest):
        """tshark has four bytes for bit 2, then fourteen for bit 0; the fields of 01 are the same bytes."""
        flags = number(tag.fields, "datastate.extflags")
        self.hold("data path extended", record["extended"], flags, ("extended flags", flags & EXTENDED_KEEP == record["extended"]))
        # tshark's names for the three bits differ, and of those above bit 2 it shows one number.
        above = int(tag.bits["datastate.extflags.3to15"], 0)
        bits = int(tag.bits["datastate.extflags.0"]), int(tag.bits["datastate.extflags.2"]), above >> 2 & 1
        for name, bit in zip(EXTENDED, bits):
            self.hold(f"data path {name} is there", record[name], bit)
        room, wanted, stop = self.extended_stop(item, tag)
        if room < wanted:
            self.differ("fourteen bytes", flags & 1 and tag.stop == stop, f"tshark stops at {tag.stop}")
            return True
        shown = shown_bytes(tag, "datastate.logtrigger", "datastate.undecoded", "tag.padding")
        if record["rlfc"] and not flags & 1:
            self.hold("data path rlfc", record["rlfc_word"], number(tag.fields, "datastate.logtrigger"))
        ours = b""
        for present, name, width in (
                ("log_trigger_id", "trigger_id", 2), ("rlfc", "rlfc_word", 4), ("stats", "msec_since_activation", 4),
                ("stats", "aw_seq_counter", 4), ("stats", "pay_update_coutner", 4)):
            if record[present]:
                self.hold(f"data path {name} as bytes", record[name], little(shown[len(ours):len(ours) + width]))
                ours += record[name].to_bytes(width, "little")
        self.hold("bytes behind a data path", rest, shown[len(ours):])
        if flags & 1:
            self.differ("extended bit 0", shown.startswith(ours), f"ours {ours.hex()}, tshark {shown.hex()}")
        if record["stats"]:
            self.differ("stats", shown.startswith(ours), f"ours {ours.hex()}, tshark {shown.hex()}")
        return False

    def extended_stop(self, item, tag):
        """The bytes behind the extended flags, how many of them tshark reads, and where it stops if there are fewer."""
        flags, start = number(tag.fields, "datastate.extflags"), tag.fields["datastate.extflags"].end - 12 - tag.at - 3
        room, four = item.length - start, 4 * (flags >> 2 & 1)
        return room, four + 14 * (flags & 1), start + (four if room >= four else 0)

    def refused_data_path(self, item, tag, plain, taken):
        """We refuse with 1: a unicast part with another length is taken out."""
        offset = plain.fields["offset"]
        for place, width in taken.values():
            offset += width if offset >= place else 0
        if plain.number != 1:
            self.differ("refusal", False, f"ours {plain.number}")
        if "datastate.extflags" in tag.fields:
            flags = number(tag.fields, "datastate.extflags")
            room, wanted, stop = self.extended_stop(item, tag)
            if room >= wanted:
                self.differ("stats", flags & 0x21 == 0x20 and tag.stop == stop <= offset, f"ours {offset}, tshark {tag.stop}")
                return False
            self.hold("value short at", offset, tag.stop, ("fourteen bytes", flags & 1 and tag.stop == stop))
            return True
        length = tag.fields.get("datastate.unicast_options_length")
        second = length and length.show == "8" and offset == tag.stop + 4
        self.hold("value short at", offset, tag.stop, ("second unicast word", second))
        return True


def number(shown, name):
    return int(shown[name].show, 0)


def little(data):
    return int.from_bytes(data, "little")


def shown_bytes(tag, *names):
    return b"".join(bytes.fromhex(tag.fields[name].bytes) for name in names if name in tag.fields)


def text(letters):
    """The country as tshark shows it: up to the first 0, with marks for what is not printable."""
    return "".join(MARKS[byte] for byte in letters.split(b"\0")[0].replace(b"\r\n", b"\n"))


FIELDS = (
    [f"header {name}" for _, name in HEADER] + ["header tx_delta", "header short at", "header is whole"]
    + ["item place", "item type", "item length", "other value", "value is whole", "value short at", "end is whole", "end place"]
    + [f"synchronization {name}" for _, name in FIXED]
    + [f"synchronization {name}" for name in ("remaining_aw_length", "reserved", "master_address")]
    + ["sequence count"] + [f"sequence {name}" for _, name in SEQUENCE_HEAD] + ["sequence entries", "bytes behind a sequence"]
    + ["simple channel", "legacy flags", *(f"legacy {name}" for _, name in LEGACY_NAMES), "legacy channel"]
    + ["opclass channel", "opclass class"]
    + [f"data path {name} is there" for name in FLAGS + EXTENDED if name] + [f"data path map {name}" for name in MAP]
    + [f"data path {name}" for name in (
        "flags", "country bytes", "country", "channel", "map", "infra_bssid", "infra_channel", "infra address", "awdl address",
        "fields present", "unicast length", "options", "second word", "extended", "rlfc", "trigger_id as bytes",
        "rlfc_word as bytes", "msec_since_activation as bytes", "aw_seq_counter as bytes", "pay_update_coutner as bytes")]
    + ["bytes behind a data path"]
)
