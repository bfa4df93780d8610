#!/usr/bin/env python3
"""Gives this repository's definitions the newer kit's spelling: words in snake case.

usage: python3 tools/respell.py        at the top of a repository that the kit's port.py has just gone over

What is renamed is every definition of specs/ and proofs/ whose name is in camel case, in the crates and in the pages. Functions of src/,
types, modules, strings, inputs and outputs keep their names (lemmas had dashes before, and have them now). Six definitions would have had
the name of a function, a method or a module of src/, so they have a name of their own. It also adds `#![tactic(auto)]` to each crate's
head, where the newer kit looks for it. Run twice, it changes nothing.
"""

import pathlib
import re

# A definition's name where it is declared.
DECLARED = re.compile(r"^(?:abbrev |unfoldable )?(?:pub )?([a-z]+(?:[A-Z][a-z0-9]*)+)\s*:", re.M)
CAMEL = re.compile(r"(?<=[a-z0-9])(?=[A-Z])")

# In snake case these would be the names of functions, methods or modules of src/.
OTHERWISE = {
    "acceptedLine": "accepted_text",
    "arrowLine": "arrow_text",
    "markText": "text_of_mark",
    "nodeLine": "node_line_text",
    "questionText": "text_of_question",
    "waitText": "text_of_wait",
}


def text_files(root):
    for folder in ("src", "specs", "proofs", "must-fail"):
        for path in sorted(root.glob(f"crates/*/{folder}/**/*")):
            if path.is_file():
                yield path
    yield from sorted(root.glob("docs/*.md"))


def definitions(root):
    found = set()
    for path in [*root.glob("crates/*/specs/**/*.antt"), *root.glob("crates/*/proofs/**/*.antt")]:
        found.update(DECLARED.findall(path.read_text()))
    return found


def new_name(old):
    return OTHERWISE.get(old) or CAMEL.sub("_", old).lower()


def respell(root):
    names = {old: new_name(old) for old in definitions(root)}
    if len(set(names.values())) < len(names):
        raise SystemExit("respell: two definitions fall together")
    word = re.compile(r"(?<![\w'-])(" + "|".join(sorted(names, key=len, reverse=True)) + r")(?![\w'-])") if names else None
    for path in text_files(root):
        old = path.read_text()
        new = word.sub(lambda found: names[found[1]], old) if word else old
        if new != old:
            path.write_text(new)
    return names


def ask_for_tactics(root):
    for head in sorted([*root.glob("crates/*/src/lib.rt"), *root.glob("crates/*/src/main.rt")]):
        text = head.read_text()
        if "#![tactic(auto)]" not in text:
            head.write_text(insert_behind_comment(text))


def insert_behind_comment(text):
    """The attribute comes behind the crate's own comment, if it has one."""
    lines = text.splitlines(keepends=True)
    at = 0
    while at < len(lines) and lines[at].startswith("//!"):
        at += 1
    return "".join([*lines[:at], "#![tactic(auto)]\n\n", *lines[at:]])


if __name__ == "__main__":
    here = pathlib.Path(".")
    for old, new in sorted(respell(here).items()):
        print(f"{old} -> {new}")
    ask_for_tactics(here)
