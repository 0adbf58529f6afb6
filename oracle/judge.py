"""Answers what the program `judge` is asked, by the reading of 02, No. 13, in awdl.py.

    python3 oracle/judge.py < QUESTIONS

The input is lines: `permitted LIST` begins a question, `proposal N` and `value TEXT`
stand in it, and any other line is one of the office's file as it stands. The output
of a question is its judgement and, unless that is bad or refused with 27 or 28, the
load of each permitted channel.
"""

import sys

sys.dont_write_bytecode = True

import ask
import awdl
from awdl import Refused

LINE_LIMIT = 8198
PERMITTED = b"permitted "
PROPOSAL = b"proposal "
VALUE = b"value "
NONE = b"-"


class Bad(Exception):
    """What is bad in the input, in the words of its judgement."""


BAD_LIST = "bad list: permitted channels are numbers from 0 to 255 with commas between, or - for none"
BAD_PROPOSAL = "bad proposal: a number from 0 to 255, or - for none"
REFUSED = {
    awdl.TOO_MANY: "more than 64 sequences or more than 16 permitted channels",
    awdl.NONE_PERMITTED: "no permitted channel",
    awdl.NOT_PERMITTED: "{proposal} is not permitted",
    awdl.SMALLER_LOAD: "{proposal} has a larger load than {own}, our own proposal",
}
BAD_VALUE = {
    awdl.SHORT: "cut in the field that starts at byte {offset}",
    awdl.ENCODING: "the encoding is not 0, 1 or 3",
    awdl.CHANNEL_COUNT: "the count is not 15",
}


# Lines. A line is bytes, so that a character is a byte.

def numbers(words, bad):
    try:
        return [ask.u8(word) for word in words]
    except ask.Bad:
        raise Bad(bad) from None


def without_end(line):
    """Without the one carriage return that does not count."""
    return line[:-1] if line.endswith(b"\r") else line


def permitted_of(line):
    """The channels in the list's order."""
    if len(line) > LINE_LIMIT:
        raise Bad(BAD_LIST)
    text = without_end(line)[len(PERMITTED):]
    return [] if text == NONE else numbers(text.split(b","), BAD_LIST)


def proposal_of(line):
    """A channel, or None where our own proposal is wanted."""
    if len(line) > LINE_LIMIT:
        raise Bad(BAD_PROPOSAL)
    text = without_end(line)[len(PROPOSAL):]
    return None if text == NONE else numbers([text], BAD_PROPOSAL)[0]


def sequence_of(line):
    """The sequence of a line of the file, lent as 33 bytes; none of a line that is
    passed over. The value is one of type 0x12, and bytes behind it are ignored."""
    if len(line) > LINE_LIMIT:
        raise Bad("too long")
    text = without_end(line)
    if text.startswith(VALUE):
        text = text[len(VALUE):]
    if not text.strip(b" ") or text.startswith(b"#"):
        return b""
    try:
        sequence = awdl.read_channel_sequence(ask.from_hex(text))[1].sequence
    except ask.Bad:
        raise Bad("not hexadecimal digits in pairs") from None
    except Refused as refusal:
        raise Bad(BAD_VALUE[refusal.number].format(offset=refusal.offset)) from None
    return bytes([sequence.encoding]) + sequence.bytes


# Questions. The first thing that is bad, in the order of the input, is answered.

def understood(lines):
    """The permitted channels, the proposal and the sequences of a question."""
    permitted, proposal, sequences = [], None, b""
    place = 0
    for line in lines:
        if line.startswith(PERMITTED):
            permitted = permitted_of(line)
        elif line.startswith(PROPOSAL):
            proposal = proposal_of(line)
        else:
            place += 1
            try:
                sequences += sequence_of(line)
            except Bad as bad:
                raise Bad(f"bad file, line {place}: {bad}") from None
    return sequences, permitted, proposal


def judgement(sequences, permitted, proposal):
    """The line of it, and the number that it is refused with, or 0."""
    try:
        if proposal is None:
            return f"proposed {awdl.own_proposal(sequences, permitted)}", 0
        awdl.judge(sequences, permitted, proposal)
        return f"accepted {proposal}", 0
    except Refused as refusal:
        words = REFUSED[refusal.number].format(proposal=proposal, own=refusal.channel)
        return f"refused {refusal.number}: {words}", refusal.number


def answer(lines):
    """The lines of the answer to a question."""
    try:
        sequences, permitted, proposal = understood(lines)
    except Bad as bad:
        return [str(bad)]
    line, refused = judgement(sequences, permitted, proposal)
    if refused in (awdl.TOO_MANY, awdl.NONE_PERMITTED):
        return [line]
    return [line, *(
        f"channel {channel} load {awdl.channel_load(sequences, channel)}"
        for channel in permitted
    )]


def questions(data):
    """The lines of each question. The last line may lack its line feed, and lines
    before the first `permitted` one are a question of their own."""
    lines = data.split(b"\n")
    asked = []
    for line in lines if lines[-1] else lines[:-1]:
        if line.startswith(PERMITTED) or not asked:
            asked.append([])
        asked[-1].append(line)
    return asked


def main():
    for lines in questions(sys.stdin.buffer.read()):
        for line in answer(lines):
            print(line)


if __name__ == "__main__":
    main()
