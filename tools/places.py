#!/usr/bin/env python3
"""places.py [ROOT]: lists, point by point, the places under crates/*/src that docs/DESIGN-PASS.md counts, and how many there are.

With --count it prints the counts alone. A row is a place to look at, not a verdict: the page says of each what became of it.

1a  an enum with a case that holds a refusal, or that says no more than that there is nothing (the shape of Option or Result)
1b  a field that is a flag and stands in a struct beside others
1c  a function that answers a number for a kind or for a refusal
2   functions whose texts are the same but for names, types and numbers, in groups
3   a `while`, a `loop`, and a `for` over a range of numbers
4   a cast by `as`, a function of `std::num`, and a function that converts or compares by hand, by its name
5a  a clause of a `requires` that stands in three or more functions of a crate
5b  parameters that stand together, by name and type, in three or more functions of a crate
6   an array that is made of zeros in a function, and a field that is an array
7   a `match` of eight arms or more
8   a file of proofs, of functions and of laws
"""
import collections
import pathlib
import re
import sys

words = [w for w in sys.argv[1:] if not w.startswith("--")]
root = pathlib.Path(words[0] if words else ".")
rows = collections.defaultdict(list)
EMPTY = {"No", "None", "Nothing", "Bad", "Not", "Failed"}
TYPES = r"u8|u16|u32|u64|usize|bool|MACAddress|[A-Z]\w*"


def place(file, number):
    return f"{file.relative_to(root / 'crates')}:{number}"


def functions(text):
    """Gives line, name, signature with clauses, and body of each function."""
    for found in re.finditer(r'^( *)(?:pub(?:\(crate\))? )?(?:extern "C" )?fn (\w+)(.*?)^\1\{\n(.*?)^\1\}$', text, re.M | re.S):
        yield text.count("\n", 0, found.start()) + 1, found[2], found[3], found[4]
    for found in re.finditer(r'^( *)(?:pub(?:\(crate\))? )?fn (\w+)([^\n;]*) \{\n(.*?)^\1\}$', text, re.M | re.S):
        yield text.count("\n", 0, found.start()) + 1, found[2], found[3], found[4]


for crate in sorted((root / "crates").iterdir()):
    shapes, needs, pairs = collections.defaultdict(list), collections.defaultdict(list), collections.defaultdict(list)
    for file in sorted(crate.glob("src/**/*.rt")):
        text = file.read_text()
        for enum in re.finditer(r"^(?:pub(?:\(crate\))? )?enum (\w+)(?:<[^>]*>)? \{\n(.*?)^\}", text, re.M | re.S):
            cases = re.findall(r"^    (\w+)(\([^)]*\))?,", enum[2], re.M)
            if enum[1] != "Refusal" and any("Refus" in c + h or c in EMPTY for c, h in cases) and len(cases) <= 4:
                rows["1a"].append(f"{place(file, text.count(chr(10), 0, enum.start()) + 1)} {enum[1]}")
        for struct in re.finditer(r"^(?:pub(?:\(crate\))? )?struct (\w+)(?:<[^>]*>)? \{\n(.*?)^\}", text, re.M | re.S):
            fields = re.findall(r"^    (?:pub(?:\(crate\))? )?(\w+): ([^\n]*),$", struct[2], re.M)
            rows["1b"] += [f"{place(file, text.count(chr(10), 0, struct.start()) + 1)} {struct[1]}.{n}" for n, t in fields if t == "bool" and len(fields) > 1]
            rows["6"] += [f"{place(file, text.count(chr(10), 0, struct.start()) + 1)} {struct[1]}.{n}: {t}" for n, t in fields if t.startswith("[")]
        seen = set()
        for line, name, head, body in functions(text):
            if line in seen:
                continue
            seen.add(line)
            where = f"{place(file, line)} {name}"
            if re.search(r"\) -> u(?:8|32)\b", head) and re.search(r"\.number\(\)|^\s+\d,?$|=> \d+,", body, re.M):
                rows["1c"].append(where)
            shape = re.sub(r"\s+", " ", re.sub(r"//[^\n]*", "", head + body))
            shape = re.sub(r"\b\w*[a-z_]\w*\b", "n", re.sub(rf"\b(?:{TYPES})\b", "T", re.sub(r"\b\d\w*\b", "0", shape)))
            if len(shape) > 60:
                shapes[shape].append(where)
            for clause in re.findall(r"requires(?: \w+)? \{(.*)\}$", head, re.M):
                needs[re.sub(r"\s+", " ", re.sub(r"\b\d+\b", "0", clause)).strip()].append(where)
            given = re.findall(r"\b(\w+): (&?(?:mut )?[\w\[\];<>' ]+?)(?=,|\)|\n)", head.split(" -> ")[0].split("requires")[0].split("ensures")[0])
            for i, a in enumerate(given):
                for b in given[i + 1 :]:
                    pairs[(a, b)].append(where)
            if re.match(r"(?:from_|as_|to_|into_|of_u|wide|same|is_zero|is_same|eq_|low|high)", name):
                rows["4"].append(f"{where} (by its name)")
        for number, line in enumerate(text.split("\n"), 1):
            code = re.sub(r"//.*", "", line)
            if re.match(r"\s*(?:'\w+: )?(?:while\b|loop\b|for \w+ in \(?[\w.()]*\.\.)", code):
                rows["3"].append(f"{place(file, number)} {code.strip()}")
            rows["4"] += [f"{place(file, number)} {m}" for m in re.findall(r"[\w\])]+ as u\w+|std::num::\w+", code)]
            rows["6"] += [f"{place(file, number)} {m}" for m in re.findall(r"let mut \w+ = \[0\w*; \d+\]", code)]
        for found in re.finditer(r"^( *)(?:[\w .=]*)match [^\n]*\{\n(.*?)^\1\}", text, re.M | re.S):
            arms = len(re.findall(rf"^{found[1]}    \S.*=>", found[2], re.M))
            if arms >= 8:
                rows["7"].append(f"{place(file, text.count(chr(10), 0, found.start()) + 1)} {arms} arms")
    rows["2"] += [" = ".join(w) for w in shapes.values() if len(w) > 1]
    rows["5a"] += [f"{crate.name}: {len(set(w))} times {c}" for c, w in needs.items() if len(set(w)) > 2]
    rows["5b"] += [f"{crate.name}: {len(set(w))} times {a[0]}: {a[1]}, {b[0]}: {b[1]}" for (a, b), w in pairs.items() if len(set(w)) > 2]
    proofs = sorted(crate.glob("proofs/**/*.antt"))
    rows["8"] += [f"{crate.name}: {len([p for p in proofs if p.name in ('Answers.antt', 'Invariants.antt', 'Proof.antt')])} of functions, "
                  f"{len([p for p in proofs if p.parent.name == 'proofs' and p.name != 'Lib.antt'])} of laws, {sum(len(p.read_text().splitlines()) for p in proofs)} lines"]
for point in ("1a", "1b", "1c", "2", "3", "4", "5a", "5b", "6", "7", "8"):
    print(f"{point}: {len(rows[point])}")
    if "--count" not in sys.argv:
        for row in rows[point]:
            print(f"    {row}")
