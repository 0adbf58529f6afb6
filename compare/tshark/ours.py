"""What our reader answers. The program is bin/awdl-ask; the variable AWDL_ASK names another command. docs/ASK.md lists
the questions."""

import os
import shlex
import subprocess
from collections import namedtuple
from pathlib import Path

from frames import DATA_PATH, SEQUENCE, SYNCHRONIZATION

ROOT = Path(__file__).resolve().parent.parent.parent
COMMAND = shlex.split(os.environ.get("AWDL_ASK", "")) or [str(ROOT / "bin" / "awdl-ask")]

SEARCH = {DATA_PATH: "all_data_paths", SYNCHRONIZATION: "all_synchronizations", SEQUENCE: "all_channel_sequences"}
READER = {DATA_PATH: "data_path_read {}", SYNCHRONIZATION: "synchronization_read {}", SEQUENCE: "channel_sequence_read {} 0"}
IN_HEX = {"value", "bytes", "master_address", "infra_bssid", "infra", "awdl"}

# An answer is the refusal's number, the fields behind it, and then the parts that a word without `=` starts.
Answer = namedtuple("Answer", "number fields parts")
Part = namedtuple("Part", "word fields")
# An item has its value, the record that the search gives there if any, and the answer of the reader of its type.
Item = namedtuple("Item", "at type length value record answer")


def parsed(line):
    number, *words = line.split()
    parts = [Part("", {})]
    for word in words:
        name, equals, text = word.partition("=")
        if not equals:
            parts.append(Part(word, {}))
        elif name in IN_HEX:
            parts[-1].fields[name] = bytes.fromhex(text.strip("-"))
        else:
            parts[-1].fields[name] = int(text) if text.isdigit() else text
    return Answer(int(number), parts[0].fields, parts[1:])


def spelled(data):
    return data.hex().upper() or "-"


def ask(questions):
    """The answer to each question, as a line. The program is run once."""
    questions = list(dict.fromkeys(questions))
    run = subprocess.run(COMMAND, input="\n".join(questions) + "\n", stdout=subprocess.PIPE, text=True, check=True)
    answers = run.stdout.splitlines()
    if len(answers) != len(questions) or "bad question" in answers:
        raise OSError(f"{COMMAND[0]} does not answer each of {len(questions)} questions")
    return dict(zip(questions, answers))


def about_frame(frame):
    tail = spelled(frame[12:])
    return [f"frame_read {spelled(frame)}", f"walk {tail}", *(f"{search} {tail}" for search in SEARCH.values())]


def data_path_without(value):
    """A data path value as 01 would have it of what tshark reads, and the parts that are taken out, each with its place in
    the value and its width: the two bytes that tshark reads behind the AWDL address under flag bit 4, and a unicast part
    whose length is neither 4 nor 8, with its flag. A part that is missing or cut has no bytes behind it."""
    flags = int.from_bytes(value[:2], "little")
    at = 2 + sum(width for bit, width in ((8, 3), (9, 2), (0, 8), (1, 6), (2, 6)) if flags >> bit & 1)
    taken = {}
    if flags >> 4 & 1 and at <= len(value):
        taken["umi"] = at, 2
        at += 2
    length = int.from_bytes(value[at:at + 2], "little")
    if flags >> 12 & 1 and at + 2 <= len(value) and length not in (4, 8):
        taken["unicast"] = at, 2 + length
        flags &= ~0x1000
    rest = value
    for at, width in reversed(taken.values()):
        rest = rest[:at] + rest[at + width:]
    return (flags.to_bytes(2, "little") + rest[2:] if "unicast" in taken else rest), taken


def bit_4_clear(value):
    return bytes([value[0] & ~0x10]) + value[1:]


def about_values(frame, answers):
    """What is asked of a frame when its items are known."""
    head = parsed(answers[f"frame_read {spelled(frame)}"])
    if head.number:
        return
    yield "tx_delta {phy_tx_time} {target_tx_time}".format(**head.fields)
    for part in parsed(answers[f"walk {spelled(frame[12:])}"]).parts[:-1]:
        kind, value = part.fields["type"], part.fields["value"]
        if kind in READER:
            yield READER[kind].format(spelled(value))
        if kind == DATA_PATH and value:
            yield READER[kind].format(spelled(data_path_without(value)[0]))
            yield READER[kind].format(spelled(bit_4_clear(value)))


def about_flags():
    """What the names of the legacy flags say of each byte that they can be."""
    return [f"{name} {flags}" for name in ("support_channel", "channel_bandwidth", "band") for flags in range(256)]


class Ours:
    """Answers by question; `fault` may change a line, which shows that the comparison finds it."""

    def __init__(self, frames):
        self.lines = ask([question for frame in frames for question in about_frame(frame)] + about_flags())
        self.lines |= ask([question for frame in frames for question in about_values(frame, self.lines)])
        self.fault = lambda question, line: line

    def __call__(self, question):
        if question not in self.lines:
            self.lines |= ask([question])
        return parsed(self.fault(question, self.lines[question]))

    def frame(self, frame):
        return self(f"frame_read {spelled(frame)}")

    def items(self, frame):
        """The items of a frame, and the end of its walk."""
        tail = spelled(frame[12:])
        *parts, end = self(f"walk {tail}").parts
        records = {
            part.fields["at"]: part.fields
            for search in SEARCH.values() for part in self(f"{search} {tail}").parts
        }
        items = []
        for part in parts:
            at, kind, length, value = (part.fields[name] for name in ("at", "type", "length", "value"))
            answer = self(READER[kind].format(spelled(value))) if kind in READER else None
            items.append(Item(at, kind, length, value, records.get(at), answer))
        return items, end

    def data_path(self, value):
        return self(READER[DATA_PATH].format(spelled(value)))
