#!/usr/bin/env python3
"""Respells the words of definitions and lemmas: `ownEdge` becomes `own_edge`, a record's label `one-a-node` becomes `one_a_node`.

It was run once, at the top, after the toolchain's own script: `python3 tools/spelling.py`. It reads crates/ alone: the files of specs/
and proofs/, the clauses and the ghost lines of sources, and the edits of must-fail/. Types, modules and text in quotes stay.
With --list it writes nothing and prints the words, and where two words would fall together in one file.
"""
import os
import re
import sys

# words of the library that have a capital after an underscore, and a unit in comments: they stay
OF_THE_LIBRARY = {"dB", "mut_slice_Tells", "shr_slice_Tells", "uint_Lawful", "uint_Makes", "uint_Tells", "scaled_Fits", "walk_Meets"}
# a word of the library that has another name today, in names of lemmas about it; and a word that would fall together with a label
OTHER_WORDS = {"getD": "get_or", "rowsIn": "rows_held"}
# labels that would fall together with a definition
OTHER_LABELS = {"above-links": "above_links_long", "below-links": "below_links_long", "in-row": "stands_in_row", "key-at": "keyed"}
# lemmas that would fall together with the definition that they are about
LEMMAS = {
    "crates/passes/proofs/PassLaws.antt": ("ends_above", "ends-below"),
    "crates/listing/proofs/page/lay_merged/Proof.antt": ("owners_of",),
}
PART = re.compile(r"(?<![A-Za-z0-9_'])([a-z][A-Za-z0-9_']*[A-Z][A-Za-z0-9_']*)(?![A-Za-z0-9_'])")
LABEL = re.compile(r"^  (?:pub )?([a-z][^\s:]*-[^\s:]*)\s*:")
HEAD = re.compile(r"^(?:pub |abbrev |unfoldable |pattern )*record ")


def snake(word):
    if word in OF_THE_LIBRARY:
        return word
    if word in OTHER_WORDS:
        return OTHER_WORDS[word]
    return re.sub(r"(?<=[a-z0-9])([A-Z])", lambda m: "_" + m.group(1).lower(), word)


def files():
    for folder, _, names in os.walk("crates"):
        if "/out/" in folder + "/":
            continue
        for name in sorted(names):
            if name.endswith((".rt", ".antt", ".edit")):
                yield os.path.join(folder, name)


def read(path):
    with open(path, encoding="utf-8") as file:
        return file.read()


def labels():
    found = set()
    for path in files():
        if not path.endswith(".antt"):
            continue
        inside = False
        for line in read(path).split("\n"):
            if HEAD.match(line):
                inside = True
                continue
            if line and not line.startswith(" "):
                inside = False
            label = LABEL.match(line)
            if inside and label:
                found.add(label.group(1))
    return found


def respell(text, source, dashed):
    if source:
        pieces = re.split(r'("(?:[^"\\\n]|\\.)*")', text)
        return "".join(p if p.startswith('"') else respell(p, False, dashed) for p in pieces)
    text = PART.sub(lambda m: snake(m.group(1)), text)
    return dashed.sub(lambda m: OTHER_LABELS.get(m.group(0), m.group(0).replace("-", "_")), text) if dashed else text


def main():
    words = labels()
    dashed = None
    if words:
        one = "|".join(re.escape(w) for w in sorted(words, key=len, reverse=True))
        dashed = re.compile(r"(?<![A-Za-z0-9_'-])(?:" + one + r")(?![A-Za-z0-9_'-])")
    for path in files():
        text = read(path)
        lemmas = text
        for word in LEMMAS.get(path, ()):
            lemmas = re.sub(r"(?<![A-Za-z0-9_'-])" + word + r"(?![A-Za-z0-9_'-])", word.replace("-", "_") + "_lem", lemmas)
        new = respell(lemmas, path.endswith(".rt"), dashed)
        if "--list" in sys.argv:
            for word in sorted({m.group(1) for m in PART.finditer(text)}):
                if snake(word) != word and re.search(r"(?<![A-Za-z0-9_'])" + snake(word) + r"(?![A-Za-z0-9_'])", text):
                    print(f"{path}: {word} and {snake(word)}")
        elif new != text:
            with open(path, "w", encoding="utf-8") as file:
                file.write(new)
    if "--list" in sys.argv:
        print(len(words), "labels:", " ".join(sorted(words)))


if __name__ == "__main__":
    main()
