#!/usr/bin/env python3
"""Counts, in crates/*/src, the places that a design pass looks at (docs/DESIGN-PASS.md).

    tools/places.py            a line for each search, with its number of places
    tools/places.py --list     each place too
    tools/places.py --at REV   the same of another commit
"""
import re
import subprocess
import sys
from pathlib import Path

ROOT = Path(__file__).resolve().parent.parent

# point, what is searched for, and the search: a pattern over the whole file, or a function of its text
SEARCHES = [
    ("1", "own enums of two variants, in the shape of Option or Result", "enums"),
    ("1", "fields that are a flag or a refusal's number beside a value", r"^    pub (?:refusal|known|failure|answer): (?!Refusal).*"),
    ("1", "functions that answer a refusal's number, 0 for none", r"fn \w*check\w*\([^)]*\) -> u32"),
    ("1", "constants that number refusals and kinds", r"^    (?:pub )?const (?!FINISHED|ENDORSED|MORE|LEAST_COUNT|KINDS|TRUE|LENT)[A-Z_]+: (?:u8|u32|u64|u16) = (?:0x)?[0-9A-Fa-f]+;"),
    ("1", "uses of such constants as an answer's number", r"Answer::(?!FINISHED)[A-Z_]+"),
    ("1", "tests of a number for a refusal", r"(?:refusal|number|barred|answer\.number|refusal_of) != (?:0|Answer::FINISHED)"),
    ("1", "matches that only hand a refusal on", r"Refused \{ number, at(?:: \w+)? \} =>"),
    ("2", "functions of one name and one text", "twins"),
    ("3", "loops that are no `for`", r"^\s*(?:'\w+: )?(?:while|loop)\b.*"),
    ("4", "calls of conversions written by hand", r"\b(?:wide|wide8|wide16)\("),
    ("4", "an if and else that say a truth value", r"\{\s*(?:return )?false;?\s*\}(?!\s*,)"),
    ("5", "functions of more than seven parameters", "long"),
    ("5", "functions that take rows, operands and payloads apart", r"operands: &(?:mut )?Operands,\s*payloads"),
    ("6", "types that are arrays of numbers in place of a struct", r"(?:type|pub type|pub\(crate\) type) \w+ = \[.*"),
    ("7", "tables of functions, and switches on which step to run", r"\[fn\(|: fn\("),
]


def sources(rev):
    if rev is None:
        for path in sorted(ROOT.glob("crates/*/src/**/*.rt")):
            yield str(path.relative_to(ROOT)), path.read_text()
        return
    names = subprocess.run(["git", "-C", ROOT, "ls-tree", "-r", "--name-only", rev, "crates"], check=True, capture_output=True, text=True)
    for name in names.stdout.split():
        if re.match(r"crates/[^/]+/src/.*\.rt$", name):
            yield name, subprocess.run(["git", "-C", ROOT, "show", f"{rev}:{name}"], check=True, capture_output=True, text=True).stdout


FN = re.compile(r"^((?:pub(?:\(crate\))? )?(?:extern \"C\" )?fn (\w+)(?:<[^>]*>)?\(([^)]*)\).*?\n\})", re.M | re.S)


def enums(files):
    for name, text in files:
        for m in re.finditer(r"^(?:pub )?enum (\w+) \{(.*?)\n\}", text, re.M | re.S):
            variants = re.findall(r"^    (\w+)\b", m.group(2), re.M)
            if len(variants) == 2 and re.search(r"number: u32|usize|u64|Extent", m.group(2)):
                yield name, text.count("\n", 0, m.start()) + 1, f"{m.group(1)}: {', '.join(variants)}"


def twins(files):
    seen = {}
    for name, text in files:
        for m in FN.finditer(text):
            body = re.sub(r"\b\w+::", "", re.sub(r"//.*", "", text[m.start(3):m.end()]))
            body = re.sub(r"\s+", " ", body)
            key = (m.group(2), body)
            if key in seen:
                yield name, text.count("\n", 0, m.start()) + 1, f"{m.group(2)}, as in {seen[key]}"
            seen[key] = name


def long(files):
    for name, text in files:
        for m in FN.finditer(text):
            parameters = [p for p in re.sub(r"<[^<>]*>", "", m.group(3)).split(",") if p.strip()]
            if len(parameters) > 7:
                yield name, text.count("\n", 0, m.start()) + 1, f"{m.group(2)}: {len(parameters)}"


def found(search, files):
    if search in ("enums", "twins", "long"):
        yield from {"enums": enums, "twins": twins, "long": long}[search](files)
        return
    for name, text in files:
        bare = re.sub(r"//.*", lambda m: " " * len(m.group()), text)
        for m in re.finditer(search, bare, re.M):
            yield name, bare.count("\n", 0, m.start()) + 1, m.group().strip().split("\n")[0]


def main(arguments):
    rev = arguments[arguments.index("--at") + 1] if "--at" in arguments else None
    files = list(sources(rev))
    for point, what, search in SEARCHES:
        places = list(found(search, files))
        print(f"{point}  {len(places):4}  {what}")
        if "--list" in arguments:
            for name, line, text in places:
                print(f"           {name}:{line}: {text}")


if __name__ == "__main__":
    main(sys.argv[1:])
