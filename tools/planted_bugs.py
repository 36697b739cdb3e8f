#!/usr/bin/env python3
"""Plants small bugs in a crate, one at a time, and tells which of them its contracts let through. Run at the top of the repository, once `rt check` passes:

    python3 tools/planted_bugs.py CRATE [--count N] [--seed S] [--report FILE] [--edits FOLDER]

It chooses bugs in src/ (operators, numbers, cases of an enum, swapped arguments, dropped statements), at most two on a line and the files in turn, writes each as a
must-fail edit in a copy of the repository in a temporary folder, and runs `rt must-fail CRATE` there: nothing changes here. Contracts, comments, texts and tests get none,
and neither does a line that stands more than once in its file, since an edit could not name it. With --edits it tries the edits of a folder instead.

A bug that does not compile is not counted, and another takes its place. One that survived is proved still: either it makes no difference, or the contract is too weak, so
read each. RT_JOBS says how many processors are used (2 where it is not set). The status is 0 whatever survived, and 2 where the crate could not be tried.
"""

import argparse
import collections
import itertools
import os
import pathlib
import random
import re
import shutil
import subprocess
import sys
import tempfile

OPERATORS = [
    (" < ", " <= "), (" <= ", " < "), (" > ", " >= "), (" >= ", " > "), (" == ", " != "), (" != ", " == "), (" + ", " - "), (" - ", " + "),
    (" * ", " + "), (" / ", " % "), (" % ", " / "), (" ^ ", " | "), (" & ", " | "), (" | ", " & "), (" << ", " >> "), (" >> ", " << "),
    (" && ", " || "), (" || ", " && "), (" += ", " -= "), (" -= ", " += "), (" ^= ", " |= "), ("..=", ".."), ("true", "false"), ("false", "true"),
    (".min(", ".max("), (".max(", ".min("), (".is_some()", ".is_none()"), (".is_none()", ".is_some()"), ("if !", "if "), ("saturating_add", "wrapping_add"),
]  # fmt: skip
NUMBER = re.compile(r"(?<!\w)(?<![\w)\]]\.)(0x[0-9a-fA-F_]+|\d[\d_]*)((?:u|i)(?:8|16|32|64|128|size))?(?!\w)(?!\.\w)")
CASE = re.compile(r"\b([A-Z]\w*)::([A-Z]\w*)\b(?!\s*\{)")
CALL = re.compile(r"\b(\w+)\(((?:&(?:mut )?)?[a-z_][\w.]*), ((?:&(?:mut )?)?[a-z_][\w.]*)\)")
TYPE = re.compile(r"[ui](8|16|32|64|128|size)|bool|char")
NO_CODE = re.compile(r"(pub(\([a-z]+\))? )?(use|mod|fn|impl|struct|enum|trait|type|ghost|where)\b|#|//|[\]})]+[;,]?$")
KEEPS = re.compile(r"(pub(\([a-z]+\))? )?(let|return|const|static|break|continue)\b|[})]")
TABLE_ROW = re.compile(r"\s*[\w:(), ]+,")
VERDICT = re.compile(r"must-fail [^/]+/(\S+)\.edit: (refused|NOT REFUSED|BAD EDIT|NOT TRIED)(?:, as it must be)?(.*)")
# What is said of a bug for each verdict of rt.
WORDS = {"refused": "refused", "NOT REFUSED": "SURVIVED", "BAD EDIT": "did not compile", "NOT TRIED": "NO ANSWER"}
# Refusals that say less of the contract, by what rt says of them.
LESS = {"only by a limit": "by a limit of the prover", "only because a proof file": "in a proof file alone"}

# A bug: where it is and what it does, the place that two bugs may share, and its edit.
Bug = collections.namedtuple("Bug", "what place edit")


def cases(crates):
    """The cases of each enum of the repository, by the enum's name: those without data and those with one value, apart."""
    found = collections.defaultdict(lambda: (set(), set()))
    for path in crates.glob("*/src/**/*.rt"):
        text = re.sub(r"//.*", "", path.read_text(encoding="utf-8"))
        for name, body in re.findall(r"\benum (\w+)[^{]*\{((?:[^{}]|\{[^{}]*\})*)\}", text):
            for case, data in re.findall(r"^\s*([A-Z]\w*)(\([^,)]*\))?", body, re.M):
                found[name][bool(data)].add(case)
    return found


def blanked(line):
    """The line with texts and its comment as blanks, so that what is found in it stands at the same place in the line."""
    line = re.sub(r'"(?:[^"\\]|\\.)*"', lambda text: '"' + " " * (len(text[0]) - 2) + '"', line)
    return re.sub(r"//.*", lambda text: " " * len(text[0]), line)


def code_lines(text):
    """The numbers and texts of the lines with code that runs: no clauses, ghost items, tests, attributes or heads of items."""
    clause = test = depth = 0
    for number, line in enumerate(text.split("\n"), 1):
        bare = blanked(line)
        word = bare.strip()
        braces = bare.count("{") - bare.count("}")
        if test or re.match(r"#\[(cfg\(test\)|test)\]", word):
            depth += braces
            test = depth > 0 or braces >= 0
        elif clause > 0 or re.match(r"(ensures|requires|ghost|law)\b", word):
            clause += braces
        elif word and not NO_CODE.match(word):
            yield number, line


def changes(line, cases_of):
    """Each change of a line, with what is done."""
    bare = blanked(line).rstrip()

    def put(start, end, new):
        return line[:start] + new + line[end : len(bare)]

    for old, new in OPERATORS:
        for it in re.finditer(re.escape(old), bare):
            yield put(*it.span(), new), f"{old.strip()} to {new.strip()}"
    for it in NUMBER.finditer(bare):
        value = int(it[1].replace("_", ""), 0)
        for other in [value + 1, value - 1] if value else [1]:
            new = (hex(other) if it[1].startswith("0x") else str(other)) + (it[2] or "")
            yield put(*it.span(), new), f"{it[0]} to {new}"
    for it in CASE.finditer(bare):
        for group in cases_of.get(it[1], ()):
            for case in sorted(group - {it[2]}) if it[2] in group else ():
                yield put(*it.span(2), case), f"{it[0]} to {case}"
    for it in CALL.finditer(bare):
        if it[2] != it[3] and not TYPE.fullmatch(it[2]):
            yield put(*it.span(), f"{it[1]}({it[3]}, {it[2]})"), f"the arguments of {it[1]} swapped"
    word = bare.strip()
    if word.endswith(";") and not KEEPS.match(word) and word.count("(") == word.count(")"):
        yield "", "dropped"


def bugs_of(folder, cases_of):
    """The bugs of a crate, a list for each file, and how many lines were left out since no edit could name them."""
    bugs, left_out = [], 0
    for path in sorted(folder.glob("src/**/*.rt")):
        text, rows, name = path.read_text(encoding="utf-8"), 0, path.relative_to(folder)
        bugs.append([])
        for number, line in code_lines(text):
            is_row = bool(TABLE_ROW.fullmatch(line))
            rows += is_row
            if is_row and rows > 7 and rows % 20:
                # one row in twenty stands for a long table
                continue
            place = f"{name}:{number}"
            found = [Bug(f"{place}: {what}", place, f"file: {name}\nold: {line}\nnew: {new}\n") for new, what in changes(line, cases_of)]
            if found and text.count(line) > 1:
                left_out += 1
            else:
                bugs[-1] += found
    return bugs, left_out


def chosen(bugs, seed):
    """The bugs in the order in which they are tried: the files in turn, at most two of a line."""
    chance, used = random.Random(seed), collections.Counter()
    piles = [chance.sample(pile, len(pile)) for pile in bugs if pile]
    chance.shuffle(piles)
    while piles:
        for pile in piles:
            bug = pile.pop()
            used[bug.place] += 1
            if used[bug.place] <= 2:
                yield bug
        piles = [pile for pile in piles if pile]


def tried(room, crate, batch):
    """Tries bugs, by the names of their edits, in the copy: of each the verdict and where it was refused."""
    place = room / "crates" / crate / "must-fail"
    shutil.rmtree(place, ignore_errors=True)
    place.mkdir()
    for name, bug in batch.items():
        (place / f"{name}.edit").write_text(bug.edit, encoding="utf-8")
    jobs = {"RT_JOBS": "2", **os.environ}
    ran = subprocess.run(["rt", "must-fail", crate], cwd=room, stdout=subprocess.PIPE, stderr=subprocess.STDOUT, text=True, env=jobs, check=False)
    said = {it[1]: (it[2], it[3].lstrip(": ")) for it in VERDICT.finditer(ran.stdout)}
    if batch.keys() - said.keys():
        print(ran.stdout, f"rt must-fail told nothing of {', '.join(sorted(batch.keys() - said.keys()))}", file=sys.stderr)
        sys.exit(2)
    return said


def all_tried(crate, planned, count):
    """Tries the planned bugs until so many compiled, some at a time: of each its name, itself, the verdict and where it was refused."""
    rows, judged = [], 0
    with tempfile.TemporaryDirectory(prefix="planted-bugs-") as top:
        room = pathlib.Path(top)
        shutil.copytree("crates", room / "crates", ignore=shutil.ignore_patterns("out", "must-fail"))
        shutil.copy("crates.txt", room)
        while batch := dict(itertools.islice(planned, max(count - judged, 4) if judged < count else 0)):
            said = tried(room, crate, batch)
            rows += [(name, bug, *said[name]) for name, bug in batch.items()]
            judged += sum(verdict in ("refused", "NOT REFUSED") for verdict, _ in said.values())
    return rows


def main():
    ask = argparse.ArgumentParser(description=__doc__, formatter_class=argparse.RawDescriptionHelpFormatter)
    ask.add_argument("crate")
    ask.add_argument("--count", type=int, default=20, help="how many bugs that compile are tried, at least")
    ask.add_argument("--seed", type=int, default=1)
    ask.add_argument("--report", help="a file to which all is written too, with every refusal")
    ask.add_argument("--edits", help="a folder of edits to try instead")
    given = ask.parse_args()
    folder = pathlib.Path("crates") / given.crate
    if not (folder / "src").is_dir():
        ask.error(f"there is no folder {folder}/src here")
    if given.edits:
        planned = [(it.stem, Bug("", "", it.read_text(encoding="utf-8"))) for it in sorted(pathlib.Path(given.edits).glob("*.edit"))]
        head, given.count = f"{given.crate}: {len(planned)} edits", len(planned)
    else:
        bugs, left_out = bugs_of(folder, cases(folder.parent))
        head = f"{given.crate}: {sum(map(len, bugs))} bugs possible, and {left_out} lines left out that stand more than once"
        planned = ((f"planted_{number:03}", bug) for number, bug in enumerate(chosen(bugs, given.seed), 1))
    rows = all_tried(given.crate, iter(planned), given.count)
    counts = collections.Counter(verdict for _, _, verdict, _ in rows)
    less = "".join(f" ({found} {words})" for sign, words in LESS.items() if (found := sum(sign in why for *_, why in rows)))
    last = (
        f"{given.crate}: {counts['refused'] + counts['NOT REFUSED']} tried, {counts['refused']} refused{less}, "
        f"{counts['NOT REFUSED']} survived; {counts['BAD EDIT']} did not compile, {counts['NOT TRIED']} gave no answer"
    )
    told = [(verdict, f"{WORDS[verdict]} {name} {bug.what}".rstrip() + f"\n{bug.edit.rstrip()}".replace("\n", "\n    "), why) for name, bug, verdict, why in rows]
    print("\n".join([head, *(text for verdict, text, _ in told if verdict in ("NOT REFUSED", "NOT TRIED")), last]))
    if given.report:
        pathlib.Path(given.report).write_text("\n".join([head, *(f"{text}\n    {why}" for _, text, why in told), last, ""]), encoding="utf-8")


if __name__ == "__main__":
    main()
