#!/usr/bin/env python3
"""Brings the repository's own definitions, lemmas and fields to snake case, as Rattle's library spells them.

usage: python3 tools/respell.py [CHECK]      at the top of the repository; run once, behind port.py

Words like `floorDiv` become `floor_div`, wherever they stand: in specs/, proofs/, clauses, must-fail edits and pages. Types, modules, functions of src/ and strings keep
their names. Fields of records in specs/ lose their dashes. With CHECK nothing is written: names that fall together are listed.
"""
import os
import re
import sys

FIELDS = """figure-small high-made high-most long-is low-least low-made of-card places-fit planned-whole through-c told-header told-long unplanned-cells
unplanned-limit value-small values-fit""".split()
# Lemmas that would have their function's name, and one test that would have another's: file or module that declares it, old name, new name.
APART = [
    ("crates/packing/proofs/HeldWords.antt", "count_at", "count_at_lem"),
    ("crates/figure/proofs/FigureCall.antt", "bound_of", "bound_of_lem"),
    ("crates/text/proofs/Search.antt", "has_end", "has_end_lem"),
    ("crates/text/proofs/Search.antt", "no_end", "no_end_lem"),
    ("crates/guarantee/proofs/Refused.antt", "not_written", "not_written_lem"),
    ("crates/guarantee/proofs/Refused.antt", "read_as", "read_as_lem"),
    ("crates/guarantee/proofs/Rolls.antt", "ended_by", "ended_by_lem"),
    ("crates/display/proofs/LongShown.antt", "not_opened", "not_opened_lem"),
    ("crates/sheet/proofs/LinePoints.antt", "on_row", "row_test"),
]
CAMEL = re.compile(r"(?<![A-Za-z0-9_])[a-z][a-z0-9]*(?:[A-Z][A-Za-z0-9]*)+(?![A-Za-z0-9_])")
USE = re.compile(r"^\s*(?:ghost )?(?:pub )?use ([^\s;{]+)")


def files(*ends):
    for top in ("crates", "docs", "README.md"):
        if os.path.isfile(top):
            yield top
        for folder, dirs, names in os.walk(top):
            dirs[:] = sorted(d for d in dirs if d not in ("out", "target"))
            for n in sorted(names):
                if n.endswith(ends):
                    yield os.path.join(folder, n)


def text_of(path):
    with open(path, encoding="utf-8") as f:
        return f.read()


def own_words():
    """The words in lower camel case that antt files of the repository declare or pass on; not those of the library."""
    own, foreign = set(), set()
    for path in files(".antt"):
        for line in text_of(path).split("\n"):
            words = CAMEL.findall(line)
            m = USE.match(line)
            library = m and not (m.group(1).startswith("Rattle.") and os.path.isdir("crates/" + m.group(1).split(".")[1]))
            (foreign if library else own).update(words)
    return own - foreign, foreign


def snake(word):
    return re.sub(r"(?<!^)([A-Z])", lambda m: "_" + m.group(1), word).lower()


def main():
    own, foreign = own_words()
    new = {w: snake(w) for w in sorted(own)}
    new_fields = {f: f.replace("-", "_") for f in FIELDS}
    if len(sys.argv) > 1:
        print(len(new), "words; of the library:", " ".join(sorted(foreign)))
        every = {}
        for path in files(".antt", ".rt"):
            for w in re.findall(r"[A-Za-z_][A-Za-z0-9_'-]*", text_of(path)):
                every.setdefault(w, set()).add(path)
        for old, word in sorted(list(new.items()) + list(new_fields.items())):
            if word in every:
                antt = [p for p in sorted(every[word]) if p.endswith(".antt")]
                print(old, "->", word, len(antt), "antt,", len(every[word]) - len(antt), "rt:", " ".join(sorted(every[word])[:3]))
        return
    for home, old, word in APART:
        module = "Rattle." + home.split("/")[1] + ".proofs." + home.split("/")[-1][: -len(".antt")] + ".{"
        whole = re.compile(r"(?<![\w.'-])" + old + r"(?![\w'-])")
        for path in files(".antt"):
            t = text_of(path)
            uses = [line for line in t.split("\n") if module in line and whole.search(line)]
            if path == home or uses:
                with open(path, "w", encoding="utf-8") as f:
                    f.write(whole.sub(word, t))
    field = re.compile(r"(?<![\w'-])(" + "|".join(map(re.escape, new_fields)) + r")(?![\w'-])")
    for path in files(".antt", ".rt", ".edit", ".md"):
        old = text_of(path)
        t = CAMEL.sub(lambda m: new.get(m.group(0), m.group(0)), old)
        if path.endswith((".antt", ".edit")):
            t = field.sub(lambda m: new_fields[m.group(1)], t)
        if t != old:
            with open(path, "w", encoding="utf-8") as f:
                f.write(t)


if __name__ == "__main__":
    main()
