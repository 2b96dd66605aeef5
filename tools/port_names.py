#!/usr/bin/env python3
"""Spells this repository's own definitions and lemmas as today's Rattle does: words in snake case, types and modules in camel case.

usage: tools/port_names.py            at the top, once, after /opt/rattle/port/port.py

Names are those that files of specs/ and lemma files of proofs/ declare. Constructors that are names of published rules (While-1, Due-18) keep their
capital, since in snake case some would fall together with the commands' own (if, while, seq); their dash becomes a low line.
What is turned: all code of .antt files, clauses, ghost items and comments of .rt files, code spans in comments and in pages.
Where two names fall together, the lemma gets `_law` behind it: LAWS.
"""

import os
import re

NAME = r'[^\s(){}.;,@"«»]+'
COMMENT = re.compile(r'(?<![^\s(){}.;,@"«»])--[^\n]*')
DECLARED = re.compile(
    r"(?m)^ *(?:(?:pub|abbrev|unfoldable|data|record|axiom|infix) +)*(" + NAME + r"(?: +" + NAME + r")*)((?: +[({][^\n]*?[)}])*) +:(?= |$)"
)

# Lemmas whose new spelling is that of a definition, or of another lemma in reach.
LAWS = """bit-and body-length number-bytes can-finish rows-bytes play-all step-at journal-of payload-of child-in in-region got-value operation-byte expr-by
body-by takes-up value-good expr-too-deep steps-at may-hold values-at slot-checked sheet-checked table-ok output-good unused-at block-read row-at
position-of meet-of""".split()
# Lemmas that are spelled so already and would meet a definition's new name, each with the files that mean the lemma.
TAKEN = {
    "refused_as": ["runner/proofs/WholeRunReady.antt"],
    "header_of": ["machine/proofs/BlockRuns.antt", "machine/proofs/BlockRunsLoop.antt"],
    "opening_of": ["pausing/proofs/WrittenGood.antt", "pausing/proofs/WrittenGoodSteps.antt", "pausing/proofs/WrittenGoodAtTheHalt.antt"],
    "top_mask": ["lattice/proofs/Masks.antt", "lattice/proofs/Order.antt"],
    "due_in": ["pausing/proofs/PathsNextStep.antt"],
}


def files(*ends):
    for top, folders, names in os.walk("."):
        folders[:] = sorted(d for d in folders if d not in (".git", "out", "target"))
        for name in sorted(names):
            if name.endswith(ends):
                yield os.path.relpath(os.path.join(top, name), ".")


def is_lemma_file(path):
    parts = path.split("/")
    return parts[0] == "crates" and (parts[2] == "specs" or parts[2] == "proofs" and len(parts) == 4)


def spelled(name):
    if name in LAWS:
        return name.replace("-", "_") + "_law"
    if name[0].isupper():
        return name.replace("-", "_")
    words = re.sub(r"(?<=[a-z0-9₂])[A-Z]", lambda m: "_" + m[0].lower(), name)
    return words.replace("-", "_")


def read(path):
    with open(path, encoding="utf-8") as f:
        return f.read()


def table():
    names = set()
    for path in files(".antt"):
        if is_lemma_file(path):
            names |= {it for m in DECLARED.finditer(COMMENT.sub("", read(path))) for it in m[1].split() if "let" not in m[1].split()}
    plain = re.compile(r"[^\W\d][\w'-]*")
    turned = {it: spelled(it) for it in names if plain.fullmatch(it)}
    return {old: new for old, new in turned.items() if old != new}


def spans(text, words):
    """Turns the words of code spans alone."""
    return re.sub(r"`[^`\n]+`", lambda m: code(m[0], words), text)


def code(text, words):
    return re.sub(r"[^\s(){}.;,@\"«»`]+", lambda m: words.get(m[0], m[0]), text)


def antt(text, words):
    out, at = [], 0
    for m in COMMENT.finditer(text):
        out += [code(text[at : m.start()], words), spans(m[0], words)]
        at = m.end()
    return "".join(out) + code(text[at:], words)


def rust(text, words):
    """Of a .rt file: clauses and ghost items hold these names, and no Rust name is in camel case with a small first letter."""
    camel = {old: new for old, new in words.items() if re.search("[A-Z]", old[1:]) and "-" not in old}
    dashed = {old: new for old, new in words.items() if "-" in old}
    out = []
    for line in text.splitlines(keepends=True):
        if line.lstrip().startswith("//"):
            out.append(spans(line, words))
        else:
            line = re.sub(r"(?<![\w-])[a-z][A-Za-z0-9]*(?![\w-])", lambda m: camel.get(m[0], m[0]), line)
            if re.match(r"\s*(ghost|requires|ensures)\b", line):
                line = re.sub(r"(?<![\w-])[a-z][\w'-]*", lambda m: dashed.get(m[0], m[0]), line)
            out.append(line)
    return "".join(out)


def main():
    words = table()
    for path in files(".antt", ".rt", ".md"):
        if path.endswith("docs/PORT.md"):
            continue
        text = read(path)
        mine = dict(words)
        for name, where in TAKEN.items():
            if any(path == "crates/" + it for it in where):
                mine[name] = name + "_law"
        turn = antt if path.endswith(".antt") else rust if path.endswith(".rt") else spans
        new = turn(text, mine)
        if new != text:
            with open(path, "w", encoding="utf-8") as f:
                f.write(new)
    for path in list(files("Contracts.antt")):  # Rattle makes a module `specs.contracts` itself
        if path.endswith("specs/Contracts.antt"):
            os.rename(path, path.replace("Contracts.antt", "MachineContracts.antt"))
    for path in files(".antt", ".rt"):
        text = read(path)
        new = re.sub(r"\bspecs\.Contracts\b", "specs.MachineContracts", text)
        if path.endswith("specs/Lib.antt"):
            new = re.sub(r"(?m)^pub mod Contracts$", "pub mod MachineContracts", new)
        if new != text:
            with open(path, "w", encoding="utf-8") as f:
                f.write(new)
    print(len(words), "names")


if __name__ == "__main__":
    main()
