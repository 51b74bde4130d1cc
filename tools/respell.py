#!/usr/bin/env python3
"""Brings the repository's own definitions, fields and lemmas to the spelling of today's Rattle.

usage: python3 tools/respell.py          at the top of the repository, once, after port.py
       python3 tools/respell.py --list   prints what would be respelled, and what falls together

Words are in snake case (`startOf` is `start_of`, `isNone-none` is `is_none-none`), a definition that is a type is in upper camel case
(`isReadable` is `IsReadable`), the proof of a function `f` is `f_spec`. What is declared in specs/ and proofs/ is respelled wherever it stands in an .antt file, in a clause of a
.rt file and in a must-fail edit; so are variables. Names of the code are in snake case already and keep theirs.
"""

import os
import re
import sys

WORD = re.compile(r"[^\s(){}\[\].,;\"⌜⌝]+")
CAMEL = re.compile(r"[a-z0-9][A-Z]")
# Lemmas and variables that would fall together with a definition once that is respelled.
APART = {"body_bytes": "body_bytes_lem", "head_bytes": "head_bytes_lem", "length_to": "length_to_lem", "none_in": "none_in_lem"}
TYPED = re.compile(r"^\s*(?:(?:pub|abbrev|unfoldable)\s+)*([^\s(){}\[\].,;\":]+)\s*:.*→ Type 0\s*$")


def files():
    for folder, dirs, names in os.walk("crates"):
        dirs[:] = sorted(d for d in dirs if d != "out")
        for name in sorted(names):
            if name.endswith((".rt", ".antt", ".edit")):
                yield os.path.join(folder, name)


def snake(word):
    word = re.sub(r"([a-z0-9])([A-Z])", r"\1_\2", word)
    return word.lower()


def respelled(word, types):
    parts = word.split("-")
    if word in types:
        return word[0].upper() + word[1:]
    return "-".join(p if p[:1].isupper() else snake(p) for p in parts)


def texts():
    return {path: open(path, encoding="utf-8").read() for path in files()}


def mapping(all_texts):
    words, types = set(), set()
    for path, text in all_texts.items():
        for line in text.split("\n"):
            if path.endswith(".antt") and (m := TYPED.match(line)) and m.group(1)[0].islower():
                types.add(m.group(1))
            for word in WORD.findall(line):
                if CAMEL.search(word) and word[0].islower() and "Rattle" not in word and "::" not in word:
                    words.add(word)
    return {w: respelled(w, types) for w in sorted(words)}


def apart(text):
    return re.sub(r"(?<![\w.'-])(" + "|".join(APART) + r")(?![\w'-])", lambda m: APART[m.group(1)], text)


def spec(text):
    """The name of a function's proof, in its Proof.antt."""
    return re.sub(r"(?<![\w.'-])([a-z][\w'-]*)-spec(?![\w'-])", lambda m: m.group(1).replace("-", "_") + "_spec", text)


def main(argv):
    all_texts = texts()
    names = mapping(all_texts)
    if argv == ["--list"]:
        there = set()
        for text in all_texts.values():
            there |= set(WORD.findall(text))
        for old, new in names.items():
            print(old, new, "FALLS TOGETHER" if new in there or list(names.values()).count(new) > 1 else "")
        return 0
    for path, text in all_texts.items():
        if path.endswith(".antt"):
            text = apart(text)
        if path.endswith("/Proof.antt"):
            text = spec(text)
        to = WORD.sub(lambda m: names.get(m.group(0), m.group(0)), text)
        if to != all_texts[path]:
            with open(path, "w", encoding="utf-8") as out:
                out.write(to)
    return 0


if __name__ == "__main__":
    raise SystemExit(main(sys.argv[1:]))
