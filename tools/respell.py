#!/usr/bin/env python3
"""Brings the repository's own names to today's spelling, behind port.py and before any edit by hand; run once, at the top.

Definitions, constructors and fields: whole words in snake case, so humps and dashes become underscores. Lemmas: no humps, and a dash joins
names, so a definition's own name in a lemma's is spelled as the definition is. Files of the name Contracts, which the kit now makes itself,
become Promises, and the crate json, which the kit has too, becomes json_text. Functions of src/, exported names, strings, inputs and outputs stay.
"""
import collections
import os
import re
import sys

ROOT = "crates"
# letters that a name of antt may have
LETTER = r"[^\s(){}\[\].,;λ:«»`\"]"
TOKEN = re.compile(LETTER + "+")
# two old names that would fall together in one file get these instead
APART = {
    "blockIn": "block_inside",  # beside block_in of spec
    "recordIn": "record_inside",  # beside record-in of spec
    "totalsOf": "totals_from",  # beside totals-of of spec
    "turn-of": "turn_for",  # beside turn_of of parents
    "way-of": "way_for",  # beside way_of of json
    "item-of": "item_for",  # beside item_of of reader
    "wrongFrom": "wrong_since",  # beside wrong-from of spec
    "sameMet": "equal_met",  # beside the lemma same_met
}

# types have humps and no dash; two fields of a record that begin with a capital
TYPES = {
    "Deep-runs": "DeepRuns",
    "Deep-enough": "DeepEnough",
    "Leads-anyhow": "LeadsAnyhow",
    "Onward-in": "OnwardIn",
    "Going-on": "GoingOn",
    "Inside-both": "InsideBoth",
    "E-low": "e_low",
    "W-low": "w_low",
    # a local name that port.py gave a capital
    "None-more": "none-more",
}


def files(*ends):
    for folder, dirs, names in os.walk(ROOT):
        dirs[:] = sorted(d for d in dirs if d != "out")
        for name in sorted(names):
            if name.endswith(ends):
                yield os.path.join(folder, name)


def read(path):
    with open(path, encoding="utf-8") as f:
        return f.read()


def write(path, text):
    with open(path, "w", encoding="utf-8") as f:
        f.write(text)


def answers(path):
    return re.search(r"/proofs/.+/(Proof|Answers|Invariants)\.antt$", path)


def declared():
    """The names that the .antt files declare: definitions of specs/ with their constructors and fields, and lemmas."""
    words, lemmas, places = set(), set(), collections.defaultdict(set)
    for path in files(".antt"):
        in_specs, inside = "/specs/" in path, False
        for line in read(path).splitlines():
            head = re.match(r"(?:(?:unfoldable|abbrev|pub) )*(?:record|data) (\S+)", line)
            if head:
                inside = True
                continue
            top = re.match(r"(?:(?:unfoldable|abbrev|pub) )*(\S+) :(?: |$)", line)
            if top:
                inside = False
                if in_specs:
                    words.add(top.group(1))
                elif not answers(path):
                    lemmas.add(top.group(1))
                places[top.group(1)].add(path)
                continue
            deep = re.match(r"\s+(?:(?:unfoldable|abbrev|pub) )+(\S+) :(?: |$)", line)
            if deep and not inside:
                (words if in_specs else lemmas).add(deep.group(1))
                continue
            row = re.match(r"\s+(?:pub )?(\S+)((?: \S+)*) : ", line)
            if row and inside and line[0] == " ":
                for name in [row.group(1)] + row.group(2).split():
                    words.add(name)
                    places[name].add(path)
            elif line.strip() and not line[0].isspace() and not line.startswith("--"):
                inside = False
    return words, lemmas, places


def snake(name):
    return re.sub(r"(?<=[a-z0-9'])[A-Z]", lambda m: "_" + m.group(0).lower(), name)


def table():
    words, lemmas, places = declared()
    turned = {}
    for name in sorted(words):
        if name[0].islower() and name.isascii() and (re.search("[a-z0-9][A-Z]", name) or "-" in name):
            turned[name] = snake(name).replace("-", "_")
    many = sorted((n for n in turned if "-" in n), key=lambda n: -len(n))
    for name in sorted(lemmas - words):
        if not (name[0].islower() and name.isascii()):
            continue
        parts, new, i = snake(name).split("-"), [], 0
        while i < len(parts):
            for j in range(len(parts), i + 1, -1):
                if "-".join(parts[i:j]) in turned and (i, j) != (0, len(parts)):
                    new.append("_".join(parts[i:j]))
                    i = j
                    break
            else:
                new.append(parts[i])
                i += 1
        if "-".join(new) != name:
            turned[name] = "-".join(new)
    turned.update(APART)
    turned.update(TYPES)
    return turned, places


def code_and_comments(path, text):
    """The text in pieces, each with whether it may be turned: comments stay, but for names in backticks."""
    mark = r"//" if path.endswith(".rt") else r"(?<!\S)--(?!\S)"
    for line in text.splitlines(keepends=True):
        at = re.search(mark, line)
        cut = at.start() if at else len(line)
        yield True, line[:cut]
        if cut < len(line):
            yield False, line[cut:]


def turn(piece, turned):
    return TOKEN.sub(lambda m: turned.get(m.group(0), m.group(0)), piece)


def move_contracts():
    for path in list(files("Contracts.antt")):
        os.rename(path, path.replace("Contracts.antt", "Promises.antt"))
    for path in list(files(".antt", ".rt")):
        text = read(path)
        new = re.sub(r"(?<=specs\.)Contracts(?=\.| as |$)|(?<=mod )Contracts$", "Promises", text, flags=re.M)
        if new != text:
            write(path, new)


def move_json():
    """The kit has a library named json, so the crate is json_text."""
    os.rename(os.path.join(ROOT, "json"), os.path.join(ROOT, "json_text"))
    for path in list(files(".antt", ".rt")):
        text = read(path)
        new = re.sub(r"(?<=Rattle\.)json(?=\.)", "json_text", text)
        if path.endswith(".rt"):
            new = re.sub(r"^use json(?=::)", "use json_text", new, flags=re.M)
        if new != text:
            write(path, new)
    write("crates.txt", re.sub(r"\bjson\b", "json_text", read("crates.txt")))


def main():
    move_contracts()
    move_json()
    turned, places = table()
    for path in list(files(".antt", ".rt")):
        text = read(path)
        new = []
        for code, piece in code_and_comments(path, text):
            if code:
                new.append(turn(piece, turned))
            else:
                new.append(re.sub(r"`[^`]*`", lambda m: turn(m.group(0), turned), piece))
        new = "".join(new)
        if new != text:
            write(path, new)
    for name, to in sorted(turned.items()):
        print(name, to)


if __name__ == "__main__":
    if "--table" in sys.argv:
        for a, b in sorted(table()[0].items()):
            print(a, b)
    else:
        main()
