#!/usr/bin/env python3
"""Brings the names of the repository's own definitions and lemmas to the spelling of the Rattle kit: words in snake case, a dash only
between the names of two functions, an apostrophe for a prime. Run once, at the top of the repository, after the kit's own port.py.

Names that another library declares are left in each file that takes them from there. Functions of src/ keep their names.
With --list it prints the renamings and changes nothing.
"""

import os
import re
import sys

CRATES = "crates"
# crates whose names a library of the kit has
CRATE_NAMES = {"hex": "hex_digits"}
# a lemma whose name its function now has
ALONE = {"place_at": "place_at_lem"}

LETTER = r"A-Za-z0-9_'\u2032\u2080-\u2089\u2192\u2190\u2261\u2264"
NAME = re.compile(rf"[A-Za-z_][{LETTER}]*(?:-[{LETTER}<>≤≡+*/%^]+)*")
DECLARED = re.compile(rf"^(?:unfoldable |abbrev )?(?:pub )?(?:unfoldable |abbrev )?({NAME.pattern})(?: \([^)]*\)| \{{[^}}]*\}})* :(?= |$)")
FIELD = re.compile(rf"^\s+(?:pub )?({NAME.pattern}) :(?= |$)")
USE = re.compile(r"^\s*(?:ghost |pub )*use ([\w.'·]+)\.\{([^}]*)\}", re.M)
# words of std that stand for functions in the names of lemmas
WORDS = {"length", "drop", "take", "append", "map", "replicate", "set", "get_or", "slice_index", "cond", "bit_xor", "reverse"}


def files(ends):
    for folder, dirs, names in os.walk(CRATES):
        dirs[:] = sorted(d for d in dirs if d != "out")
        for name in sorted(names):
            if name.endswith(ends):
                yield os.path.join(folder, name)


def is_goal_file(path):
    return os.path.basename(path) in ("Answers.antt", "Invariants.antt", "Choices.antt", "Proof.antt")


def snake(word):
    if word[:1].isupper():
        return word
    word = re.sub(r"(?<=[a-z0-9])([A-Z])(?=[A-Z]*\b)(?![a-z])", lambda m: "_" + m.group(1).lower(), word)
    word = re.sub(r"(?<=[a-z0-9])([A-Z])", lambda m: "_" + m.group(1).lower(), word)
    return word.replace("\u2032", "'")


def spelled(name, functions):
    """The new spelling of a name."""
    if "-" not in name:
        return snake(name)
    parts = [snake(p) for p in name.split("-")]
    out = parts[0]
    for before, part in zip(parts, parts[1:]):
        both = before in functions and part in functions
        fact = before[:1].isupper() or part[:1].isupper()
        out += ("-" if both or fact else "_") + part
    return out


def declared():
    """Names that the repository's own .antt files declare, and among them those of functions in specs/."""
    names, functions = set(), set(WORDS)
    for path in files(".antt"):
        goals = is_goal_file(path)
        with open(path, encoding="utf-8") as f:
            for line in f:
                m = DECLARED.match(line) or FIELD.match(line)
                if not m or m.group(1) in ("mod", "use"):
                    continue
                name = m.group(1)
                if goals and (" : goal." in line or " : given." in line):
                    continue
                names.add(name)
                if "/specs/" in path and DECLARED.match(line):
                    functions.add(snake(name))
    return names, functions


def foreign(text, own_crates):
    """Names that a file takes from other libraries."""
    taken = set()
    for module, items in USE.findall(text):
        head = module.split(".")
        own = head[0] == "Rattle" and len(head) > 1 and head[1] in own_crates
        if not own:
            taken |= {i.split(" as ")[-1].strip() for i in items.split(",")}
    return taken


def turn_text(text, renaming, skip):
    def new(m):
        name = m.group(0)
        return name if name in skip else renaming.get(name, name)
    return NAME.sub(new, text).replace("\u2032", "'")


def code_parts(text):
    """Pieces of a .rt file: (is_clause, piece). Only ghost uses, clauses and ghost fields hold names of definitions."""
    out, at = [], 0
    opener = re.compile(r"^\s*(?:ghost use [^;]*;|(?:pub )?ghost \w+:|(?:requires|ensures|invariant|decreases)(?: \w+)? \{|#!?\[tactic\()", re.M)
    while True:
        m = opener.search(text, at)
        if not m:
            out.append((False, text[at:]))
            return out
        out.append((False, text[at:m.start()]))
        if text[m.end() - 1] == ";":
            end = m.end()
        else:
            depth, i = 0, m.start()
            while i < len(text):
                c = text[i]
                if c in "{([":
                    depth += 1
                elif c in "})]":
                    depth -= 1
                    if depth == 0:
                        break
                i += 1
            end = i + 1
        out.append((True, text[m.start():end]))
        at = end


TACTIC = "#![tactic(auto)]"


def with_tactic(text):
    """The root file of a crate with the line that lets the check try its tactics, below the comment at its head."""
    lines = text.split("\n")
    at = 0
    while at < len(lines) and lines[at].startswith("//"):
        at += 1
    return "\n".join(lines[:at] + [TACTIC, ""] + [l for l in lines[at:]])


LEGEND = re.compile(r"^--   (\S.*?\S|\S)(\s{2,})(\S.*)$")


def aligned(text):
    """The legends at the heads of specs, in columns again."""
    out, block = [], []

    def flush():
        heads = [m for m in (LEGEND.match(l) for l in block) if m]
        if heads and all(LEGEND.match(l) or re.match(r"^-- {10,}\S", l) for l in block):
            column = max(len(m.group(1)) for m in heads) + 2
            for l in block:
                m = LEGEND.match(l)
                out.append(f"--   {m.group(1).ljust(column)}{m.group(3)}" if m else "--   " + " " * column + l[2:].lstrip())
        else:
            out.extend(block)
        block.clear()

    for line in text.split("\n"):
        if line.startswith("--   "):
            block.append(line)
        else:
            flush()
            out.append(line)
    flush()
    return "\n".join(out)


def main():
    own_crates = set(os.listdir(CRATES)) | set(CRATE_NAMES.values())
    names, functions = declared()
    renaming = {n: spelled(n, functions) for n in sorted(names)}
    # a lemma that would have its function's name
    for n in sorted(names):
        if "-" in n and any(o != n and renaming[o] == renaming[n] for o in names):
            renaming[n] += "_lem"
    renaming.update(ALONE)
    renaming = {a: b for a, b in renaming.items() if a != b}
    clash = {}
    for a, b in renaming.items():
        clash.setdefault(b, []).append(a)
    for b, olds in sorted(clash.items()):
        if len(olds) > 1 or b in names:
            print(f"look: {', '.join(olds)} and {b if b in names else ''} fall together as {b}")
    if sys.argv[1:] == ["--list"]:
        for a, b in sorted(renaming.items()):
            print(f"{a} -> {b}")
        return
    for path in files((".antt", ".rt")):
        with open(path, encoding="utf-8") as f:
            text = f.read()
        for old, crate in CRATE_NAMES.items():
            text = text.replace(f"Rattle.{old}.", f"Rattle.{crate}.").replace(f"use {old}::", f"use {crate}::")
        skip = foreign(text, own_crates)
        if path.endswith(".antt"):
            new = aligned(turn_text(text, renaming, skip))
        else:
            new = "".join(turn_text(piece, renaming, skip) if clause else piece for clause, piece in code_parts(text))
            if path.endswith(("src/lib.rt", "src/main.rt")) and TACTIC not in new:
                new = with_tactic(new)
        with open(path, "w", encoding="utf-8") as f:
            f.write(new)
    with open("crates.txt", encoding="utf-8") as f:
        listed = f.read()
    for old, crate in CRATE_NAMES.items():
        if os.path.isdir(os.path.join(CRATES, old)):
            os.rename(os.path.join(CRATES, old), os.path.join(CRATES, crate))
        listed = re.sub(rf"\b{old}\b", crate, listed)
    with open("crates.txt", "w", encoding="utf-8") as f:
        f.write(listed)


if __name__ == "__main__":
    main()
