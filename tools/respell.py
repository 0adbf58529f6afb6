#!/usr/bin/env python3
"""Respells the repository's own definitions and lemmas as today's Rattle spells them: a word in snake case, a type or a fact in camel case.

usage: tools/respell.py [TOP]

It was run once, right after the kit's port.py, on every .rt, .antt and .edit file under crates/. A name is respelled if it is declared in
specs/ or proofs/, or is a field of a record declared there, begins with a small letter and has a capital behind a small letter or a digit:
littleBytes becomes little_bytes. Functions of src/, strings, inputs and outputs have no such names. A function of src/ may have the new
spelling of a name: the two are told apart by where they stand. With --dry it changes nothing and prints the new spellings.
"""
import pathlib
import re
import sys

# A name whose plain respelling would fall together with that of a field, and one that is declared in a module within a file.
OTHERWISE = {"channelSequence": "channel_sequence_record", "leastFrom": "least_from"}
# Lemmas that port.py respelled as a definition is spelled now: they get a hyphen back.
LEMMAS = {
    "data_path_state/proofs/FromBytes.antt": {"no_address": "no-address"},
    "exports/proofs/DataPathLays.antt": {"record_of": "made-record"},
    "promises/proofs/Archives.antt": {"end_to_end": "end-to-end"},
    "promises/proofs/Demand2.antt": {"end_to_end": "end-to-end"},
    "promises/proofs/EndToEnd.antt": {"end_to_end": "end-to-end"},
    "promises/proofs/EveryCall.antt": {"first_short": "first-short"},
    "promises/proofs/WhichChannel.antt": {"none_below": "none-below"},
}
NAME = r"[^\s:(){}\[\],;.λ]+"
DECLARED = re.compile(rf"(?:abbrev |unfoldable )?(?:pub )?({NAME}) :(?: |$)")
FIELD = re.compile(rf"\s+(?:pub )?({NAME}) :(?: |$)")
CAMEL = re.compile(r"[a-z][\w'-]*?[a-z0-9][A-Z]")
TOKEN = re.compile(r"(?<![\w'-])[A-Za-z][\w'-]*")
UNDOTTED = re.compile(r"(?<![\w'.-])[A-Za-z][\w'-]*")


def files(top):
    for ending in ("rt", "antt", "edit"):
        for file in sorted((top / "crates").rglob(f"*.{ending}")):
            if "out" not in file.relative_to(top).parts:
                yield file


def snake(name):
    return re.sub(r"(?<=[a-z0-9])(?=[A-Z])", "_", name).lower()


def declared(top):
    """Gives the names to respell: those that a file of specs/ or proofs/ declares."""
    for file in files(top):
        if file.suffix != ".antt":
            continue
        inside = False
        for line in file.read_text().splitlines():
            if line and not line[0].isspace():
                inside = bool(re.match(r"(?:pub )?(?:record|data) ", line))
            found = DECLARED.match(line) or (inside and FIELD.match(line))
            if found and CAMEL.match(found[1]):
                yield found[1]


def main():
    top = pathlib.Path(sys.argv[1] if len(sys.argv) > 1 else ".")
    texts = {file: file.read_text() for file in files(top)}
    new = {name: OTHERWISE.get(name, snake(name)) for name in {*declared(top), *OTHERWISE}}
    for to in sorted(set(new.values())):
        if (names := [name for name in new if new[name] == to])[1:]:
            sys.exit(f"fall together: {' '.join(names)} -> {to}")
    if "--dry" in sys.argv:
        print("\n".join(f"{name} -> {new[name]}" for name in sorted(new)))
        return
    for name, lemmas in LEMMAS.items():
        file = top / "crates" / name
        if file in texts:
            texts[file] = UNDOTTED.sub(lambda m: lemmas.get(m[0], m[0]), texts[file])
    for file, text in texts.items():
        file.write_text(TOKEN.sub(lambda m: new.get(m[0], m[0]), text))
    print(f"respelled {len(new)} names")


main()
