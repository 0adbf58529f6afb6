"""Faults for `run --faults`: each takes a question and its answer, and gives the answer with one thing wrong, or as it is
where it does not fit."""

import re


def at(call, name, change):
    """The first field of a name in the answers to a call."""
    def fault(question, line):
        if question.split()[0] != call:
            return line
        return re.sub(rf"\b{name}=(\w+)", lambda found: f"{name}={change(found[1])}", line, count=1)
    return fault


def exchanged(call, one, other):
    def fault(question, line):
        found = [re.search(rf"\b{name}=(\w+)", line) for name in (one, other)]
        if question.split()[0] != call or None in found:
            return line
        line = line.replace(found[0][0], f"{one}={found[1][1]}", 1)
        return line.replace(f" {found[1][0]}", f" {other}={found[0][1]}", 1)
    return fault


def plus(amount):
    return lambda text: str(int(text) + amount)


def swapped(width):
    """The other byte order."""
    return lambda text: str(int.from_bytes(int(text).to_bytes(width, "big"), "little"))


def reversed_bytes(text):
    return bytes.fromhex(text)[::-1].hex().upper()


def bit(mask):
    return lambda text: str(int(text) ^ mask)


def item_left_out(question, line):
    if not question.startswith("walk "):
        return line
    return re.sub(r" item at=\d+ type=\d+ length=\d+ next=\d+ value=\S+", "", line, count=1)


def end(pattern, change):
    """The end of the walk."""
    return lambda question, line: re.sub(pattern, change, line) if question.startswith("walk ") else line


FAULTS = [
    ("phy stamp in the other byte order", at("frame_read", "phy_tx_time", swapped(4))),
    ("stamps exchanged", exchanged("frame_read", "phy_tx_time", "target_tx_time")),
    ("gap between the stamps", at("tx_delta", "micros", plus(1))),
    ("header short one byte later", at("frame_read", "offset", lambda text: str(int(text) + 1) if text != "0" else text)),
    ("an item of another type", at("walk", "type", plus(1))),
    ("an item longer by one", at("walk", "length", plus(1))),
    ("an item left out", item_left_out),
    ("synchronization tx_counter in the other byte order", at("all_synchronizations", "tx_counter", swapped(2))),
    ("synchronization master_address backwards", at("all_synchronizations", "master_address", reversed_bytes)),
    ("synchronization aw_period and af_period exchanged", exchanged("all_synchronizations", "aw_period", "af_period")),
    ("hops backwards", at("all_channel_sequences", "bytes", reversed_bytes)),
    ("step count one more", at("all_channel_sequences", "step_count", plus(1))),
    ("fill channel in the other byte order", at("all_synchronizations", "fill_channel", swapped(2))),
    ("letters of the country exchanged", exchanged("all_data_paths", "country_first", "country_second")),
    ("infra channel in the other byte order", at("all_data_paths", "infra_channel", swapped(2))),
    ("infra and AWDL address exchanged", exchanged("all_data_paths", "infra", "awdl")),
    ("a kept bit of the unicast options", at("all_data_paths", "options", bit(2))),
    ("the second unicast word in the other byte order", at("all_data_paths", "ext", swapped(4))),
    ("a kept bit of the extended flags", at("all_data_paths", "extended", bit(2))),
    ("the rlfc word said not to be there", at("all_data_paths", "rlfc", bit(1))),
    ("the trigger id in the other byte order", at("all_data_paths", "trigger_id", swapped(2))),
    ("a value short one byte later", at("data_path_read", "offset", lambda text: str(int(text) + 1) if text != "0" else text)),
    ("a cut tail called whole", end(r" cut at=\d+", " whole")),
    ("a tail cut one byte later", end(r" cut at=(\d+)", lambda found: f" cut at={int(found[1]) + 1}")),
]
