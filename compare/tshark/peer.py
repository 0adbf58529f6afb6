"""What tshark shows of frames. Each is wrapped as AWDL is sent, as the body of a vendor specific action frame of 802.11
behind Apple's OUI, and all of them are one capture file, which tshark reads once."""

import os
import struct
import subprocess
import tempfile
import xml.etree.ElementTree as ElementTree
from collections import namedtuple
from pathlib import Path

# Frame control, duration, receiver, sender, AWDL's BSSID and the sequence control; then category 127 and the OUI.
WRAP = bytes.fromhex("D0000000 FFFFFFFFFFFF 025000000001 002500FF9473 0000 7F 0017F2")
LINKTYPE_IEEE802_11 = 105

# A field has the value that is shown, its bytes in hex, and where it starts and ends in the frame.
Field = namedtuple("Field", "show bytes at end")
# A tag is an item as tshark shows it: its place in the tail, its fields by name, those below them by name, its whole
# channel entries, each with its fields by name, the place in the value at which its fields end, and whether its length
# has the note that it is longer than what follows.
Tag = namedtuple("Tag", "at fields bits entries stop cut")
Shown = namedtuple("Shown", "head stop tags malformed")


def capture(frames):
    data = struct.pack("<IHHiIII", 0xA1B2C3D4, 2, 4, 0, 0, 262144, LINKTYPE_IEEE802_11)
    for frame in frames:
        size = len(WRAP + frame)
        data += struct.pack("<IIII", 0, 0, size, size) + WRAP + frame
    return data


def name(element):
    return element.get("name").removeprefix("awdl.")


def field(element):
    at = int(element.get("pos")) - len(WRAP)
    return Field(element.get("show"), element.get("value", ""), at, at + int(element.get("size")))


def fields(element):
    """The fields directly below one; notes that tshark adds to a field have names of their own and are passed over."""
    return {name(child): field(child) for child in element}


def entry(element):
    return {name(part).removeprefix("channelseq.channel."): part.get("show") for part in element.iter()}


def tag(element):
    shown = fields(element)
    ends = [shown[key].end for key in shown if key not in ("channelseq.channel_list", "tag.padding")]
    entries = [entry(child) for child in element.iterfind("field[@name='awdl.channelseq.channel_list']/field")]
    # Of an entry of an operating class the channel is shown alone where its second byte is missing.
    needed = "operating_class" if "channelseq.encoding" in shown and shown["channelseq.encoding"].show == "3" else "number"
    bits = {name(bit): bit.get("show") for bit in element.iterfind("field/field")}
    cut = element.find("field[@name='awdl.tag.length']/*[@name='_ws.malformed']") is not None
    start = int(element.get("pos")) - len(WRAP)
    return Tag(start - 12, shown, bits, [one for one in entries if needed in one], max(ends) - start - 3, cut)


def packet(element):
    """The header, the tags, and whether tshark gave up: only then does a packet itself hold the mark `_ws.malformed`."""
    head = fields(element.find(".//field[@name='awdl.fixed.all']"))
    tags = [tag(one) for one in element.iterfind(".//field[@name='awdl.tagged.all']/field[@name='awdl.tag']")]
    stop = max((one.end for one in head.values()), default=0)
    return Shown(head, stop, tags, element.find("proto[@name='_ws.malformed']") is not None)


def show(frames):
    """The version of tshark, and what it shows of each frame. Settings of the user's own are kept out."""
    with tempfile.TemporaryDirectory() as folder:
        file = Path(folder) / "frames.pcap"
        file.write_bytes(capture(frames))
        command = ["tshark", "-n", "-r", str(file), "-T", "pdml", "-J", "awdl"]
        settings = {**os.environ, "WIRESHARK_CONFIG_DIR": folder, "LC_ALL": "C.UTF-8"}
        # tshark cuts long labels within a character, so that what it writes is not all UTF-8.
        pipes = {"stdout": subprocess.PIPE, "stderr": subprocess.PIPE, "encoding": "utf-8", "errors": "replace"}
        with subprocess.Popen(command, env=settings, **pipes) as run:
            version, shown = "", []
            try:
                for event, element in ElementTree.iterparse(run.stdout, ("start", "end")):
                    if event == "start" and element.tag == "pdml":
                        version = element.get("creator").removeprefix("wireshark/")
                    if event == "end" and element.tag == "packet":
                        shown.append(packet(element))
                        element.clear()
            except ElementTree.ParseError as error:
                print(error)
            said = run.stderr.read()
    if run.returncode or len(shown) != len(frames):
        raise OSError(f"tshark ended with {run.returncode} after {len(shown)} of {len(frames)} frames: {said}")
    return version, shown
