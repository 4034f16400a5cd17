#!/usr/bin/env python3
"""Spells this repository's own definitions and lemmas as today's Rattle does: words in snake case, whatever a dash or a capital joined, and
one prime, the apostrophe. Run once at the top, right after /opt/rattle/port/port.py, whose parts it uses; types and modules stay in camel case.

usage: python3 tools/respell.py [--list]        --list writes no file and prints each old name with its new one

A name is this repository's own if a file of specs/ or proofs/ declares it. Names of functions of src/, of exported C names, of strings, and
those that a check makes (what stands behind `tie.`) stay as they are. A lemma that would have the name of a definition or of another word of a
file that cites it, as `slot-in` beside `slotIn`, gets `_lem` behind it. A definition may have a function's name: no clause can name a function.
"""

import collections
import glob
import os
import re
import sys

sys.dont_write_bytecode = True
sys.path.insert(0, "/opt/rattle/port/notes/2026-11-18-names-are-in-snake-case")
import snake

DECLARED = re.compile(r"(?m)^ *(?:(?:pub|abbrev|unfoldable|pattern) )*([^\s(){}.;,@\"«»:]+)(?: \{[^{}\n]*\})* :(?=\s)(.*)")
# Lemmas that port.py gave the name of a definition, of which this makes one word.
LEMMAS = {"in_use", "entry_row", "first_some", "goes_on", "in_place"}


def spelled(name):
    words = re.sub(r"(?<=[a-z0-9₀-₉])([A-Z])", lambda m: "_" + m[1].lower(), name)
    return words.replace("-", "_").replace("′", "'")


def texts():
    for f in sorted(glob.glob("crates/*/**/*", recursive=True)):
        if f.endswith((".antt", ".rt")) and "/out/" not in f:
            yield f


def main(args):
    own, words = {}, {}
    for f in texts():
        with open(f, encoding="utf-8") as it:
            code = snake.QUIET.sub(" ", it.read())
        words[f] = set(snake.WORD.findall(code)) if f.endswith(".antt") else set()
        for name, kind in DECLARED.findall(code) if f.endswith(".antt") else ():
            if not name[0].isupper() and not kind.strip().startswith("tie.") and not name.endswith("-spec") and spelled(name) != name:
                own[name] = spelled(name)
    # names that fall together in a file: the lemma gives way, which has a dash, or had one until port.py
    for _ in range(2):
        for found in words.values():
            meet = collections.defaultdict(set)
            for w in found:
                meet[own.get(w, w)].add(w)
            for new, olds in meet.items():
                gives_way = [it for it in sorted(olds) if len(olds) > 1 and ("-" in it or it in LEMMAS)]
                for old in gives_way if len(gives_way) < len(olds) else gives_way[1:]:
                    own[old] = spelled(old) + "_lem"
    for f, found in words.items():
        news = collections.defaultdict(set)
        for w in found:
            news[own.get(w, w)].add(w)
        for new, olds in sorted(news.items()):
            if len(olds) > 1:
                print(f"together: {f}: {new}: {' '.join(sorted(olds))}")
    if "--list" in args:
        for old, new in sorted(own.items()):
            print(f"{old}\t{new}")
        return 0
    table = "/tmp/respell.tsv"
    with open(table, "w", encoding="utf-8") as out:
        out.writelines(f"{old}\t{new}\n" for old, new in sorted(own.items()))
    return snake.main(["--table", table, "--only", "antt,rt", "--skip-behind", "tie", "crates"])


if __name__ == "__main__":
    raise SystemExit(main(sys.argv[1:]))
