#!/usr/bin/env python3
"""Brings the repository's own definitions and lemmas to the spelling of today's library: words, lemmas
and fields in snake case, types in upper camel case. Run once, at the top, after port.py of the kit.

It reads which names specs/ and proofs/ declare, and respells them wherever they stand, in .antt and in
.rt files outside of strings. Names of src/ keep their spelling. The crate log becomes bus_log."""
import glob
import os
import re
import sys

NAME = r"[^\s(){}\[\].,;:«»\"⌜⌝]+"
HEAD = re.compile(r"^\s*(?:(?:abbrev|unfoldable|pub|record|data)\s+)*(" + NAME + r")(?:\s+[({].*?)?\s*:\s")
TYPE = re.compile(r"^\s*(?:(?:abbrev|unfoldable|pub)\s+)*(?:record|data)\s+(?:pub\s+)?(" + NAME + ")")
# names that would fall together, or with a word of the library
APART = {
    # a lemma beside the word that it is about
    "at-record": "at_record_lem",
    "copied-by": "copied_by_lem",
    "how-many": "how_many_lem",
    "identified-by": "identified_by_lem",
    "last-by": "last_by_lem",
    "loaded-by": "loaded_by_lem",
    "next-by": "next_by_lem",
    "next-column": "next_column_lem",
    "once-ready": "once_ready_lem",
    "out-of-place": "out_of_place_lem",
    "page-in": "page_in_lem",
    "program-cycles": "program_cycles_lem",
    "read-by": "read_by_lem",
    "reset_by": "reset_by_lem",
    "row-at": "row_at_lem",
    "settled-by": "settled_by_lem",
    "slip-out": "slip_out_lem",
    "stands_after": "stands_after_lem",
    "timed-out": "timed_out_lem",
    "while-busy": "while_busy_lem",
}


def antt_files():
    return sorted(glob.glob("crates/*/specs/**/*.antt", recursive=True) + glob.glob("crates/*/proofs/**/*.antt", recursive=True))


def declared():
    names = set()
    for path in antt_files():
        for line in open(path):
            if line.lstrip().startswith("--") or line.startswith(("use ", "module ", "mod ", "pub mod ")):
                continue
            found = HEAD.match(line) or TYPE.match(line)
            if found and not line[found.end():].startswith("goal."):
                names.add(found.group(1))
    return names


def respelled(name):
    if name in APART:
        return APART[name]
    if name[0].isupper():
        return "".join(part[0].upper() + part[1:] for part in name.split("-")) if "-" in name else name
    return re.sub(r"(?<=[a-z0-9])([A-Z])", lambda m: "_" + m.group(1).lower(), name).replace("-", "_").replace("′", "'")


def table():
    return {name: respelled(name) for name in declared() if re.fullmatch(r"[A-Za-z][A-Za-z0-9_'′-]*", name) and respelled(name) != name}


TOKEN = re.compile(r"\"(?:[^\"\\]|\\.)*\"|" + NAME)


def turn(text, names, quoted):
    def one(found):
        word = found.group(0)
        return word if quoted and word.startswith('"') else names.get(word, word)
    return TOKEN.sub(one, text)


# today's library has a crate named log
def rename_log():
    if not os.path.isdir("crates/log"):
        return
    os.rename("crates/log", "crates/bus_log")
    for path in antt_files() + sorted(glob.glob("crates/*/src/**/*.rt", recursive=True)) + ["crates.txt"]:
        old = open(path).read()
        new = re.sub(r"\bRattle\.log\.", "Rattle.bus_log.", old)
        new = re.sub(r"(?m)^(\s*(?:pub )?use )log::", r"\1bus_log::", new)
        if path == "crates.txt":
            new = re.sub(r"(?m)^(?!#)(.*)$", lambda m: re.sub(r"\blog\b", "bus_log", m.group(0)), new)
        if new != old:
            open(path, "w").write(new)


def main():
    names = table()
    if "--list" in sys.argv:
        for old in sorted(names):
            print(old, names[old])
        return
    rename_log()
    for path in antt_files():
        old = open(path).read()
        new = turn(old, names, False)
        if new != old:
            open(path, "w").write(new)
    for path in sorted(glob.glob("crates/*/src/**/*.rt", recursive=True)):
        old = open(path).read()
        new = turn(old, names, True)
        if new != old:
            open(path, "w").write(new)


main()
