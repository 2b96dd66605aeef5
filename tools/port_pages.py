#!/usr/bin/env python3
"""Brings the names of definitions, lemmas and files in the pages to the spelling that the crates have since the port.

usage: tools/port_pages.py                 turns them, at the top of the repository
       tools/port_pages.py --check         lists what README, PROMISES and DECISIONS name and the crates don't have; status 1 if there is such a name

/opt/rattle/port/port.py and tools/port_names.py turned the crates; the second turned pages too, but only by the names that it turned itself. What a name
became is read from the two commits beside which the crates were turned: their files declare the same things in the same order. In README.md and docs/
(but for docs/PORT.md) the words of code spans are turned, in other files those of code spans in comments and strings, and only where they can be no
other language's: in kebab case, or in camel case with a small first letter.
"""

import collections
import glob
import os
import re
import subprocess
import sys

BEFORE, AFTER = "821f040", "7dad52a"
PAGES = ["README.md", *sorted(glob.glob("docs/**/*.md", recursive=True))]
OTHERS = [".ci", "Makefile", "examples", "include", "packaging", "python", "rust"]
CHECKED = ["README.md", "docs/PROMISES.md", "docs/DECISIONS.md"]

NAME = r'[^\s(){}.;,@"«»:`]+'
COMMENT = re.compile(r'(?<![^\s(){}.;,@"«»])--[^\n]*')
DECLARED = re.compile(
    r"(?m)^ *(?:(?:pub|abbrev|unfoldable|opaque|data|record|axiom|infix) +)*(" + NAME + r"(?: +" + NAME + r")*)((?: +[({][^\n]*?[)}])*) +:(?= |$)"
)
# What a .rt file declares, a field or a variant too.
OF_CODE = re.compile(r"(?m)^\s*(?:pub(?:\([a-z]+\))? )?(?:unsafe )?(?:extern \"C\" )?(?:fn|struct|enum|trait|const|mod|static|type) (\w+)|^\s*(?:pub )?(?:ghost )?(\w+):|^\s*(\w+)[,(]")
SPAN = re.compile(r"`[^`\n]+`")
WORD = re.compile(NAME)
FILE = re.compile(r"[\w/+-]*\w\.(?:antt|rt|edit)")


def git(*words):
    return subprocess.run(["git", *words], stdout=subprocess.PIPE, encoding="utf-8", check=True).stdout


def read(path):
    with open(path, encoding="utf-8") as it:
        return it.read()


def declared(text):
    return [it for m in DECLARED.finditer(COMMENT.sub("", text)) for it in m[1].split()]


def sources(commit):
    """The .antt files of a commit, by path."""
    paths = [it for it in git("ls-tree", "-r", "--name-only", commit, "crates/").split("\n") if it.endswith(".antt")]
    asked = "".join(f"{commit}:{it}\n" for it in paths)
    given = subprocess.run(["git", "cat-file", "--batch"], input=asked.encode(), stdout=subprocess.PIPE, check=True).stdout
    texts = {}
    for path in paths:
        head, _, given = given.partition(b"\n")
        size = int(head.split()[2])
        texts[path], given = given[:size].decode(), given[size + 1 :]
    return texts


def renamed(path):
    """What a file of BEFORE is called in AFTER."""
    return re.sub(r"/\+([^/]+)/", lambda m: "/+" + m[1].replace("+", "_") + "/", path)


def table():
    """The names that changed, old to new."""
    before, after = sources(BEFORE), sources(AFTER)
    became = collections.defaultdict(set)
    for path, text in before.items():
        old, new = declared(text), declared(after[renamed(path)])
        if len(old) != len(new):
            sys.exit(f"{path} declares {len(old)} names before and {len(new)} after")
        for one, other in zip(old, new):
            became[one].add(other)
    both = [it for it, names in became.items() if len(names) > 1]
    if both:
        sys.exit(f"what became of {' '.join(both)} is not one name")
    return {one: other for one, (other,) in became.items() if one != other}


def turned(span, names):
    # Rattle makes a module `specs.contracts` itself, so a file of `machine` has another name.
    span = FILE.sub(lambda m: re.sub(r"(^|machine/specs/)Contracts\.antt$", r"\1MachineContracts.antt", m[0]), span)
    return span if FILE.search(span) else WORD.sub(lambda m: names.get(m[0], m[0]), span)


def files_of(places):
    for place in places:
        for at, folders, found in os.walk(place) if os.path.isdir(place) else [(os.path.dirname(place) or ".", [], [os.path.basename(place)])]:
            folders[:] = sorted(it for it in folders if it not in ("target", "out", "__pycache__"))
            yield from (os.path.join(at, it) for it in sorted(found) if not it.endswith((".bin", ".lock")))


def turn():
    names = table()
    alone = {old: new for old, new in names.items() if re.fullmatch(r"[a-z][a-z0-9]*(?:-[a-z0-9]+)+|[a-z][a-z0-9]*(?:[A-Z][a-z0-9]*)+", old)}
    for path in [*PAGES, *files_of(OTHERS)]:
        if path == "docs/PORT.md":
            continue
        words = names if path in PAGES else alone
        text = read(path)
        new = SPAN.sub(lambda m: turned(m[0], words), text)
        if new != text:
            for old_line, new_line in zip(text.split("\n"), new.split("\n")):
                if old_line != new_line:
                    changed = [f"{one} -> {other}" for one, other in zip(SPAN.findall(old_line), SPAN.findall(new_line)) if one != other]
                    print(f"{path}: {', '.join(changed)}")
            with open(path, "w", encoding="utf-8") as it:
                it.write(new)


def tree():
    """What the crates have now: names by file, and all of them."""
    by_file, every = {}, set()
    for path in [*glob.glob("crates/*/src/**/*.rt", recursive=True), *glob.glob("crates/*/s*/**/*.antt", recursive=True), *glob.glob("crates/*/proofs/**/*.antt", recursive=True)]:
        text = read(path)
        names = set(declared(text)) if path.endswith(".antt") else {it for m in OF_CODE.finditer(text) for it in m.groups() if it}
        names |= set(re.findall(r"\bas (\w+)", text))
        if path.endswith(".antt"):  # constructors and fields that stand in a line of several
            names |= {it for m in re.finditer(r"(?m)^ +((?:" + NAME + r" +)*" + NAME + r") +:", text) for it in m[1].split()}
        by_file[path] = names
        every |= names
    edits = {os.path.basename(it)[: -len(".edit")] for it in glob.glob("crates/*/must-fail/*.edit")}
    return by_file, every | edits


def check():
    names = table()
    by_file, every = tree()
    ever = {*names, *names.values()} | {it for text in sources(AFTER).values() for it in declared(text)}
    elsewhere = set()
    for path in files_of([it for it in OTHERS if it != "Makefile"]):
        with open(path, encoding="utf-8", errors="replace") as it:
            elsewhere |= set(re.findall(r"[A-Za-z_][\w]*", it.read()))
    lacking = 0

    def tell(path, number, what):
        nonlocal lacking
        lacking += 1
        print(f"{path}:{number}: {what}")

    for page in CHECKED:
        for number, line in enumerate(read(page).split("\n"), 1):
            for span in SPAN.findall(line):
                for file in FILE.findall(span):
                    tail = file.removeprefix("crates/")
                    if re.search(r"\b(?:X|MODULE|CRATE)\b", tail) or "/" not in tail and tail in ("Invariants.antt", "Answers.antt", "Proof.antt"):
                        continue
                    if not any(it == f"crates/{tail}" or it.endswith("/" + tail) for it in [*by_file, *glob.glob("crates/*/must-fail/*.edit"), *glob.glob("crates/*/proofs/*/*.antt")]):
                        tell(page, number, f"no file {file}")
                if FILE.search(span):
                    continue
                for word in WORD.findall(span[1:-1]):
                    if word in every:
                        continue
                    if word in names:
                        tell(page, number, f"{word} is {names[word]} now")
                    elif word in ever:
                        tell(page, number, f"{word} is gone")
                    elif re.fullmatch(r"[a-z]\w*[_A-Z]\w*", word) and word not in elsewhere:
                        tell(page, number, f"{word} is nowhere in the crates")
            # `name`, `name` (`file`): the file declares them
            for m in re.finditer(r"((?:`[^`]+`(?:, | and ))*`[^`]+`) \(`([\w/]+\.antt)`", line):
                found = [it for it in by_file if it == f"crates/{m[2]}" or it.endswith("/" + m[2])]
                for word in re.findall(r"`([\w'-]+)`", m[1]):
                    if found and not any(word in by_file[it] for it in found) and word in every:
                        tell(page, number, f"{word} does not stand in {m[2]}")
    return 1 if lacking else 0


if __name__ == "__main__":
    if sys.argv[1:] == ["--check"]:
        sys.exit(check())
    if sys.argv[1:]:
        sys.exit(__doc__)
    turn()
