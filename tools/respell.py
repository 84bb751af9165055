#!/usr/bin/env python3
"""Brings the names of this repository's definitions and lemmas to snake case, by the table respell.tsv beside this file.

usage: python3 tools/respell.py      at the top of the repository, once, after the toolchain's port/port.py

It turns whole words: in .antt, .rt and .edit files below crates/, and in the code spans of README.md, docs/, oracle/ and samples/. A name with a
dash turns in antt's code and in code spans alone, since it may be two English words elsewhere. A dash stays between two names of functions, as in
put-take. Functions of src/, exported names and strings have no such names. OWN has the few names that would fall together with another: they turn
first, in the files named. Where nothing of crates/ has an old name any more, it changes nothing.
"""

import os
import re

HERE = os.path.dirname(os.path.realpath(__file__))
WORD = re.compile(r"[^\s(){}\[\];.,:\"`]+")
SPAN = re.compile(r"`[^`\n]+`")

OWN = {
    "crates/record/proofs/RoundTrip.antt": {"body_reads": "body_reads_lem"},
    "crates/index/proofs/Places.antt": {"in_use": "in_use_lem"},
    "crates/index/proofs/Looking.antt": {"in_use": "in_use_lem"},
    "crates/index/proofs/Inserting.antt": {"in_use": "in_use_lem"},
    "crates/journal/proofs/OpenScans.antt": {"in_use": "in_use_lem"},
    "crates/report/proofs/WrittenPrinted.antt": {"in_use": "in_use_lem"},
    "crates/index/proofs/Search.antt": {"in_use": "is_used"},
    "crates/index/proofs/inside/find/Proof.antt": {"in_use": "is_used"},
    "crates/promises/proofs/MatchOrNot.antt": {"in_head": "in_head_case"},
}


# The names of crate `outcomes`, of which some are names of lemmas elsewhere too: there they turn in its files alone.
OUTCOMES = {
    name: name.replace("-", "_")
    for name in """
    answers-and-leaves bulvreden-crc32 bulvreden-crc32-resume bulvreden-fresh-slots bulvreden-prefix bulvreden-reread bulvreden-scan bulvreden-seal
    bulvreden-slot bulvreden-write decode-body decode-header decode-slot dropped-of encode-frame-record encode-header encode-prefix encode-slot
    find-newest frame-of frame-of-elsewhere fresh-next fresh-slots insert-answer is-good newest-number newest-place newest-position newest-slot
    newest-slot-elsewhere not-longer not-moved one-law or-zero-u16 or-zero-u32 or-zero-u64 or-zero-u8 put-at put-run put-u16 put-u32 put-u64 put-u8
    reader-new reader-rest reader-take reader-u16 reader-u32 reader-u64 reader-u8 rest-elsewhere run-elsewhere scan-answer seal-frame-record seen-at
    take-run take-u16 take-u32 take-u64 take-u8 writer-new writer-put writer-put-u16 writer-put-u32 writer-put-u64 writer-put-u8 writer-written
    written-elsewhere
    """.split()
}


def table():
    with open(os.path.join(HERE, "respell.tsv"), encoding="utf-8") as f:
        return dict(line.rstrip("\n").split("\t") for line in f)


def words(text, rows):
    return WORD.sub(lambda m: rows.get(m.group(), m.group()), text)


def spans(text, rows):
    return SPAN.sub(lambda m: words(m.group(), rows), text)


def turned(path, text, rows, plain):
    """Plain: the rows with no dash."""
    if path.endswith(".md"):
        return spans(text, rows)
    if path.startswith("crates/outcomes/"):
        rows = {**rows, **OUTCOMES}
    if path.endswith(".antt"):
        lines = []
        for line in words(text, OWN.get(path, {})).split("\n"):
            code, dashes, comment = re.match(r"(.*?)((?<!\S)--(?!\S)|$)(.*)", line).groups()
            lines.append(words(code, rows) + dashes + words(spans(comment, rows), plain))
        return "\n".join(lines)
    if path.endswith(".edit") and ".antt" in text.split("\n")[0]:
        return words(text, rows)
    return words(text, plain)


def files():
    for top in ("crates", "docs", "oracle", "samples"):
        for folder, below, names in os.walk(top):
            below[:] = sorted(d for d in below if d not in ("out", "target", "src") or (top == "crates" and d == "src"))
            yield from (os.path.join(folder, n) for n in sorted(names) if n.endswith((".antt", ".rt", ".edit", ".md")))
    yield "README.md"


def main():
    rows = table()
    plain = {old: new for old, new in rows.items() if "-" not in old}
    texts = {}
    for path in files():
        with open(path, encoding="utf-8") as f:
            texts[path] = f.read()
    if not any(word in plain for path, text in texts.items() if path.endswith((".antt", ".rt")) for word in WORD.findall(text)):
        print("respell: no old name is left")
        return
    changed = 0
    for path, old in texts.items():
        new = turned(path, old, rows, plain)
        if new != old:
            changed += 1
            with open(path, "w", encoding="utf-8") as f:
                f.write(new)
    print(f"respell: {changed} files changed")


main()
