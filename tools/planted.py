#!/usr/bin/env python3
"""Plants bugs, one at a time, and writes down what refuses each.

usage: python3 tools/planted.py [--copy FOLDER] [CRATE..]        at the top of the repository; without names, every crate that has bugs

A bug is a file tools/planted/CRATE/NAME.edit: a line `bug:` that says what is wrong, and then lines `file:`, `old:` and `new:` as a
must-fail edit has them. A must-fail edit with a line `bug:` is one too, and one with a line `weak:` stands for a weak version that a
contract might allow. The repository is copied; in the copy a crate has these in the place of its must-fail edits, and `rt must-fail` applies each by itself and
proves the crate. What refused it goes into the tables in docs/PLANTED.md, in place of that crate's rows.

A bug counts as refused by a need where something is owed at a place of src/ and no longer holds, and by an answer where what is written
down as the proof of such a need no longer proves it. Where only a name that a proof file cites is gone, or the prover met a limit of its
own, the refusal shows nothing. The script ends with 1 if there is such a bug, or one that passed or could not be tried.

--copy FOLDER keeps the copy there, with what was proved, for the next time.
"""

import pathlib
import re
import shutil
import subprocess
import sys
import tempfile
from dataclasses import dataclass

BUGS = pathlib.Path("tools/planted")
PAGE = pathlib.Path("docs/PLANTED.md")
# What the two tables begin with.
WEAK = ["| weak version | crate | refused at | by |", "|---|---|---|---|"]
BUG = ["| crate | bug | refused at | by | in the gate |", "|---|---|---|---|---|"]

LINE = re.compile(r"^rt: must-fail (?P<crate>\w+)/(?P<name>\S+)\.edit: (?P<what>refused, as it must be|NOT REFUSED|BAD EDIT|NOT TRIED)(?P<why>.*)")
PLACE = re.compile(r"(?:note: )?(?:\./)?(?P<file>(?:src|proofs)/\S+?):(?P<line>\d+):\d+: (?P<said>.*)")
FUNCTION = re.compile(r"\s*(?:pub(?:\(crate\))? )?(?:const )?(?:extern \"C\" )?fn (\w+)")
OWNER = re.compile(r"(?:pub(?:\(crate\))? )?(?:impl|trait)\b(?:<[^>]*>)? ?(.*)")


@dataclass(frozen=True)
class Bug:
    crate: str
    path: pathlib.Path
    # the weak version that it stands for, if it is a must-fail edit
    weak: str | None

    def cells(self, place, by):
        if self.weak:
            return [self.weak, self.crate, place, by]
        return [self.crate, field(self.path, "bug"), place, by, "" if BUGS in self.path.parents else "yes"]


def field(edit, key):
    return next((line[len(key) + 2 :] for line in edit.read_text().splitlines() if line.startswith(key + ": ")), None)


def crates():
    """All crates, from below to above."""
    lines = pathlib.Path("crates.txt").read_text().splitlines()
    return [line.split(":")[0].split()[0] for line in lines if ":" in line]


def bugs_of(crate):
    edits = [*(BUGS / crate).glob("*.edit"), *pathlib.Path("crates", crate, "must-fail").glob("*.edit")]
    named = [edit for edit in edits if field(edit, "bug") or field(edit, "weak")]
    return [Bug(crate, edit, field(edit, "weak")) for edit in sorted(named, key=lambda edit: edit.name)]


def copy_to(folder, bugs):
    """The repository's files, with the bugs for must-fail edits. A file that is the same is not touched."""
    told = subprocess.run(["git", "ls-files", "-co", "--exclude-standard"], check=True, capture_output=True, text=True)
    names = [name for name in told.stdout.splitlines() if pathlib.Path(name).is_file()]
    for old in folder.glob("crates/*/[sp]*/**/*.*"):
        if old.relative_to(folder).as_posix() not in names:
            old.unlink()
    for name in names:
        here, there = pathlib.Path(name), folder / name
        if "/must-fail/" in name or there.is_file() and there.read_bytes() == here.read_bytes():
            continue
        there.parent.mkdir(parents=True, exist_ok=True)
        shutil.copy2(here, there)
    for old in folder.glob("crates/*/must-fail"):
        shutil.rmtree(old)
    for bug in bugs:
        there = folder / "crates" / bug.crate / "must-fail"
        there.mkdir(exist_ok=True)
        shutil.copy2(bug.path, there)
    if not (folder / ".git").exists():
        subprocess.run(["git", "init", "-q"], cwd=folder, check=True)


def function_at(text, line):
    """The function of a source text that a line stands in, with the type whose method it is."""
    function, owner = "", ""
    for at in text.splitlines()[:line]:
        if found := FUNCTION.match(at):
            function = found[1]
        if found := OWNER.match(at):
            owner = re.split(r"[<{: ]", found[1].split(" for ")[-1])[0]
        elif at.startswith("}"):
            owner = ""
    return f"{owner}::{function}" if owner else function


def clauses_in(crate):
    """The names of all clauses of a crate."""
    texts = [path.read_text() for path in sorted(pathlib.Path("crates", crate, "src").rglob("*.rt"))]
    return {name for text in texts for name in re.findall(r"(?:ensures|requires) (\w+) \{", text)}


def owed_by(crate, goal):
    """What a goal of the prover is about: a clause by its own name, which the prover's line may have cut off."""
    if clause := re.search(r"clause-(\w+)", goal):
        whole = [name for name in clauses_in(crate) if name.startswith(clause[1])]
        return f"*{(whole[0] if len(whole) == 1 else clause[1]).replace('_', ' ')}*"
    if "loop-" in goal:
        return "what a loop keeps"
    if goal.startswith("invariant"):
        return "what its type keeps"
    if goal.endswith("requires"):
        return "what a call asks for"
    return "what it ensures"


def difference(said):
    """In what way an answer fails."""
    if re.search("the two (types|values)|one side reads", said):
        return "two values differ"
    if "does not follow" in said:
        return "the arithmetic does not follow"
    return "it is no proof any more"


def place_of_answer(file, goal):
    """The function whose answer a file of proofs/ has. Functions that call one another have one file, and their goals begin with their names."""
    *owner, function = file.parts[2:-1]
    return "::".join([*owner, goal.split("-")[0] if function.startswith("+") else function])


def refusal(crate, why):
    """Where a bug was refused, by what, and whether that shows something."""
    if "only because a proof file names" in why:
        return "", "**only a name that a proof file cites and that is gone**", False
    if "only by a limit of the prover" in why:
        return "", "**only a limit of the prover**", False
    found = PLACE.search(why)
    if not found:
        return "", f"**{why.strip(': ')}**", False
    file, said = pathlib.Path(found["file"]), found["said"]
    if file.parts[0] == "proofs":
        goal = re.search(r"`([^`]*)", said)[1]
        return f"`{place_of_answer(file, goal)}`", f"an answer, to {owed_by(crate, goal)}: {difference(said)}", True
    goal = re.search(r"\(`([^`]*)", said)
    text = pathlib.Path("crates", crate, file).read_text()
    return f"`{function_at(text, int(found['line']))}`", f"a need: {owed_by(crate, goal[1] if goal else said)}", True


def try_in(folder, names):
    """What `rt must-fail` says of each bug, by its crate and name."""
    words = ["rt", "must-fail", *names]
    ran = subprocess.run(words, cwd=folder, stdout=subprocess.PIPE, stderr=subprocess.STDOUT, text=True, errors="replace")
    said = {(it["crate"], it["name"]): it for line in ran.stdout.splitlines() if (it := LINE.match(line))}
    return said or sys.exit(ran.stdout[-2000:])


def row_of(bug, said):
    """The bug's row, and whether its refusal shows something."""
    told = said.get((bug.crate, bug.path.stem))
    place, by, shows = "", "**not tried**", False
    if told and told["what"] == "refused, as it must be":
        place, by, shows = refusal(bug.crate, told["why"])
    elif told:
        by = f"**{told['what'].lower()}**"
    if not shows:
        print(f"{bug.path}: {told[0] if told else 'nothing is said of it'}", file=sys.stderr)
    return f"| {' | '.join(bug.cells(place, by))} |", shows


def with_rows(page, head, column, names, rows):
    """The page with these rows in its table of that head, in place of those of the same crates, in the crates' order."""
    before, after = page.split("\n".join(head) + "\n", maxsplit=1)
    table, foot = re.match(r"(?s)((?:\|[^\n]*\n)*)(.*)", after).groups()
    crate = lambda row: row.split(" | ")[column].strip("| ")
    kept = [row for row in table.splitlines() if crate(row) not in names]
    whole = sorted(kept + rows, key=lambda row: crates().index(crate(row)))
    return before + "\n".join([*head, *whole]) + "\n" + foot


def main(words):
    at = words.index("--copy") if "--copy" in words else len(words)
    folder = pathlib.Path(words[at + 1] if at < len(words) else tempfile.mkdtemp(prefix="planted-")).resolve()
    names = words[:at] + words[at + 2 :] or [crate for crate in crates() if bugs_of(crate)]
    bugs = [bug for crate in crates() if crate in names for bug in bugs_of(crate)]
    copy_to(folder, bugs)
    said = try_in(folder, names)
    rows = [(bug, *row_of(bug, said)) for bug in bugs]
    page = with_rows(PAGE.read_text(), WEAK, 1, names, [row for bug, row, _ in rows if bug.weak])
    PAGE.write_text(with_rows(page, BUG, 0, names, [row for bug, row, _ in rows if not bug.weak]))
    if at == len(words):
        shutil.rmtree(folder)
    idle = sum(not shows for _, _, shows in rows)
    print(f"{len(rows)} tried, {idle} of which show nothing")
    return 1 if idle else 0


if __name__ == "__main__":
    sys.exit(main(sys.argv[1:]))
