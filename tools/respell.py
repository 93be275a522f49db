#!/usr/bin/env python3
"""Brings the names of this repository's own definitions and lemmas to one spelling: words in snake case.

usage: tools/respell.py            in the repository, once, right after the kit's port.py
       tools/respell.py --list     prints the old and the new spelling of each name, and changes nothing

`allAre` becomes `all_are`, `length-bytesOf` becomes `length_bytes_of`; types, modules, functions of src/ and names of the
kit's library stay. Names are those that specs/ and the lemma files of proofs/ declare, with the fields, arguments and
variables there in camel case. A lemma that has the words of a definition gets `_law` behind them. It stops, with nothing written, where two names of one file would fall together.
"""

import os
import re
import sys

TOKEN = re.compile(r"(?<![\w'-])[^\W\d][\w'-]*\??")
ODD = re.compile(r"[a-z0-9][A-Z]|-")
DECLARED = re.compile(r"^\s*(?:(?:abbrev|unfoldable|foldable|opaque|pub|data|record)\s+)*([^\W\d][\w'-]*\??)\s*:")
# Lemmas that the kit's script has spelled like the definition that each speaks of.
SPELLED = "head_bytes in_order is_same no_name same_entries same_head same_key same_place".split()
USE = re.compile(r"^\s*(?:pub )?use ([^\s{]+?)(?:\.\{([^}]*)\})?(?: as .*)?;?$", re.M)


def snake(name):
    return re.sub(r"(?<=[a-z0-9])([A-Z])", lambda m: "_" + m.group(1).lower(), name).replace("-", "_")


def texts(*endings):
    for folder, dirs, files in os.walk("crates"):
        dirs[:] = sorted(d for d in dirs if d != "out")
        for f in sorted(files):
            if f.endswith(endings):
                yield os.path.join(folder, f)


def is_words(path):
    """A file of definitions or lemmas, and not the proof of one function."""
    return "/specs/" in path or path.count("/") == 3


def read(path):
    with open(path, encoding="utf-8") as f:
        return f.read()


def code(text):
    return re.sub(r"--.*", "", text)


def turned(line, turn):
    """The line with each name turned; of a comment all but the English word `well-formed`."""
    comment = re.search(r"--|//", line)
    start = comment.start() if comment else len(line)

    def one(m):
        n = m.group(0)
        return n if m.start() > start and n == "well-formed" else turn.get(n, n)

    return TOKEN.sub(one, line)


def main():
    own = set(os.listdir("crates"))
    names, declared, library = set(), set(), set()
    for path in texts(".antt"):
        text = read(path)
        for m in USE.finditer(text):
            parts = m.group(1).split(".")
            if not (parts[0] == "Rattle" and parts[1] in own):
                for n in (m.group(2) or "").split(","):
                    library.update(x.strip() for x in n.split(" as "))
        if not is_words(path):
            continue
        for line in text.split("\n"):
            m = DECLARED.match(line)
            if m:
                names.add(m.group(1))
                declared.add(m.group(1))
        body = USE.sub("", code(text))
        names.update(n for n in TOKEN.findall(body) if re.search(r"[a-z0-9][A-Z]", n))
    names = {n for n in names if n[0].islower() and ODD.search(n) and n not in library}
    # A lemma on a definition of the same words, as `ids-unique` on `idsUnique`, would fall together with it.
    taken = declared | {snake(n) for n in names if "-" not in n}
    turn = {n: snake(n) + ("_law" if "-" in n and snake(n) in taken else "") for n in sorted(names)}
    if "--list" in sys.argv:
        for n, s in turn.items():
            print(n, s)
        return
    new, wrong = {}, 0
    for path in texts(".antt", ".rt", ".edit"):
        text = read(path)
        if path.endswith(".antt"):
            text = re.sub(r"(?<![\w'.-])(" + "|".join(SPELLED) + r")(?![\w'-])", r"\1_law", text)
        seen = {}
        for m in TOKEN.finditer(code(text)):
            n = m.group(0)
            if m.start() == 0 or m.string[m.start() - 1] != ".":
                seen.setdefault(turn.get(n, n), set()).add(n)
        for s, olds in seen.items():
            if len(olds) > 1 and path.endswith(".antt"):
                print(f"{path}: {', '.join(sorted(olds))} would all be {s}")
                wrong += 1
        new[path] = "\n".join(turned(line, turn) for line in text.split("\n"))
    if wrong:
        raise SystemExit(1)
    for path, text in new.items():
        if text != read(path):
            with open(path, "w", encoding="utf-8") as f:
                f.write(text)


main()
