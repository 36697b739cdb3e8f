#!/usr/bin/env python3
"""Lists the places of src/ that docs/DESIGN-PASS.md counts, point by point: forms of an older language for which Rattle has better ones.

    python3 tools/design_pass.py [POINT ..] [--at COMMIT]

Each line is a place to look at, not a verdict. With --at it reads the files of a commit, else those of the work tree.
"""

import collections
import re
import subprocess
import sys

NOTHING = {"Nothing", "Quiet", "Empty", "Malformed", "Done", "Hunt", "Closed"}
TRAIT_METHODS = {"new", "fmt", "put", "look", "take", "count", "main", "run", "from", "try_from", "from_str", "default", "eq", "len", "is_empty", "state", "phase", "number"}
BY_HAND = re.compile(r"^(of|number|numbers|name|named|words|\w+_words|\w+_word|same|same_\w+|nothing|blank|record|from_bits|to_bits|\w+_of|check)$")
CALL = re.compile(r"^(?:self\.)?[\w:.]+\((.*)\)$", re.S)


def files(commit):
    if commit:
        names = subprocess.run(["git", "ls-tree", "-r", "--name-only", commit, "crates"], capture_output=True, text=True, check=True).stdout.split("\n")
    else:
        names = subprocess.run(["git", "ls-files", "crates"], capture_output=True, text=True, check=True).stdout.split("\n")
    for name in names:
        if re.match(r"crates/[^/]+/src/.*\.rt$", name):
            if commit:
                yield name[7:], subprocess.run(["git", "show", f"{commit}:{name}"], capture_output=True, text=True, check=True).stdout
            else:
                try:
                    with open(name) as f:
                        yield name[7:], f.read()
                except FileNotFoundError:
                    pass


def block(text, start):
    """The text between the braces that open at or after start."""
    i = text.index("{", start)
    depth = 0
    for j in range(i, len(text)):
        depth += {"{": 1, "}": -1}.get(text[j], 0)
        if depth == 0:
            return text[i + 1 : j]
    return ""


def bare(text):
    return re.sub(r"//[^\n]*", "", text)


def line_of(text, at):
    return text.count("\n", 0, at) + 1


def functions(text):
    """Each function: its place, name, parameters, result, clauses and body."""
    for m in re.finditer(r"^( *)(?:pub(?:\([^)]*\))? )?fn (\w+)", text, re.M):
        end = re.compile(rf"^{m.group(1)}(\{{.*\}}|\{{\}}|\{{|.*;|.*\{{)$", re.M).search(text, m.end() - 1)
        depth, i = 0, text.index("(", m.end())
        for j in range(i, len(text)):
            depth += {"(": 1, ")": -1}.get(text[j], 0)
            if depth == 0:
                break
        params = text[i + 1 : j]
        clauses, body, k = [], "", j + 1
        while True:
            c = re.compile(r"\s*(?:-> [^{;]*?)?\s*(requires|ensures)\*?(?: \w+)? \{", re.S).match(text, k)
            if not c:
                break
            inner = block(text, c.end() - 1)
            clauses.append((c.group(1), inner.strip()))
            k = c.end() + len(inner) + 1
        rest = re.compile(r"\s*(?:-> [^{;]*?)?\s*\{", re.S).match(text, k)
        if rest:
            body = block(text, rest.end() - 1)
        yield m.start(), m.group(2), params, clauses, body


def enums(sources):
    for path, text in sources:
        for m in re.finditer(r"^\s*(?:pub(?:\([^)]*\))? )?enum (\w+)[^{]*\{", text, re.M):
            cases = [c.strip() for c in re.split(r",\s*\n", bare(block(text, m.start()))) if re.match(r"\s*\w", c)]
            bare_names = [re.match(r"\w+", c).group(0) for c in cases]
            none = [n for n, c in zip(bare_names, cases) if n in NOTHING and c == n]
            failed = [c for c in cases if re.search(r"\((Refusal|Fault|Complaint)\)$", c)]
            if none or failed:
                yield path, line_of(text, m.start(1)), f"enum {m.group(1)}: {', '.join(none + failed)}"
        for m in re.finditer(r"//[^\n]*(?:, and \d+ where|; 0 while none|, or 0\b|\b16 where)[^\n]*", text):
            yield path, line_of(text, m.start()), m.group(0)
        for at, name, params, clauses, body in functions(text):
            if name in ("number", "numbers"):
                yield path, line_of(text, at), f"fn {name}"


def types_of(params):
    return tuple(re.sub(r"^(mut )?\w+: ", "", re.sub(r"\s+", " ", p.strip())) for p in re.split(r",(?![^<(\[]*[>)\]])", params) if p.strip())


def twins(sources):
    where = collections.defaultdict(list)
    for path, text in sources:
        for m in re.finditer(r"^\s*(?:pub(?:\([^)]*\))? )?(struct|enum|trait) (\w+)[^;{]*\{", text, re.M):
            where[(m.group(2), re.sub(r"\s+", " ", bare(block(text, m.start()))))].append((path, line_of(text, m.start(1))))
        for m in re.finditer(r"^\s*(?:pub(?:\([^)]*\))? )?struct (\w+)((?:\([^)]*\))?);", text, re.M):
            where[m.groups()].append((path, line_of(text, m.start(1))))
        for at, name, params, clauses, body in functions(text):
            if name not in TRAIT_METHODS and params.strip() not in ("", "self", "&self", "&mut self"):
                where[(name, types_of(params))].append((path, line_of(text, at)))
            shape = re.sub(r"\s+", " ", re.sub(r"\b[A-Z]\w*::[A-Z]\w*", "C", bare(body))).strip()
            if len(shape) > 45 and name != "fmt":
                where[("body", shape)].append((path, line_of(text, at)))
            call = CALL.match(bare(body).strip())
            if call and params and clauses and "\n" not in bare(body).strip():
                names = [re.sub(r"^mut ", "", p.split(":")[0].strip(" &")) for p in re.split(r",(?![^<(]*[>)])", params) if p.strip()]
                given = [a.strip(" &") for a in call.group(1).split(",") if a.strip()]
                if bare(body).strip().startswith("self."):
                    given = ["self"] + given
                if given == names:
                    yield path, line_of(text, at), f"fn {name} only passes on: {bare(body).strip()}"
    for (name, _), places in sorted(where.items(), key=lambda e: e[0][0]):
        if len(places) > 1:
            for path, line in places[1:]:
                what = "the same body as" if name == "body" else f"{name} is also at"
                yield path, line, f"{what} {places[0][0]}:{places[0][1]}"


def loops(sources):
    for path, text in sources:
        for m in re.finditer(r"^\s*(for [^\n{]*\.\.[^\n{]*|loop|while (?!let)[^\n{]*) \{", text, re.M):
            yield path, line_of(text, m.start(1)), m.group(1)


def by_hand(sources):
    for path, text in sources:
        for at, name, params, clauses, body in functions(text):
            if BY_HAND.match(name):
                yield path, line_of(text, at), f"fn {name}({params.strip()})"
            if name in ("new", "nothing") and re.fullmatch(r"[\w\s{}:,\[\];()]*", bare(body)) and not re.search(r"[1-9]", re.sub(r"u\d+|\d+\]|f3", "", bare(body))) and "(" not in params and not params:
                yield path, line_of(text, at), f"fn {name}: all zero"
        for m in re.finditer(r"impl fmt::Display for (\w*(?:Words|Octets|Line)\b)", text):
            yield path, line_of(text, m.start()), m.group(0)
        for m in re.finditer(r"u32::from_be_bytes\(\[[^\]]*\]\)|\w+(?:\.\w+)*\.to_be_bytes\(\)", text):
            yield path, line_of(text, m.start()), m.group(0)


def facts(sources):
    said = collections.defaultdict(list)
    pairs = collections.defaultdict(list)
    for path, text in sources:
        crate = path.split("/")[0]
        for at, name, params, clauses, body in functions(text):
            for _, clause in clauses:
                shape = re.sub(r"\b(?:self|[a-z_]\w*)(?:\.\w+)*\b(?= (?:≡ \d|≤ \d|< ))", "_", clause)
                if re.fullmatch(r"(length )?_ (≡|<|≤) [\d ^]+", shape):
                    said[shape.replace("≤", "<=")].append((path, line_of(text, at), f"fn {name}: {clause}"))
            named = [re.sub(r"\s+", " ", p.strip()) for p in re.split(r",(?![^<(\[]*[>)\]])", params) if ":" in p]
            for i, a in enumerate(named):
                for b in named[i + 1 :]:
                    pairs[(crate, a, b)].append((path, line_of(text, at), f"fn {name}: {a}, {b}"))
    for rows in list(said.values()) + list(pairs.values()):
        if len(rows) > 2:
            yield from rows


def buffers(sources):
    for path, text in sources:
        for m in re.finditer(r"^\s*(?:pub(?:\([^)]*\))? )?struct (\w+)[^;{(]*\{", text, re.M):
            fields = [f.strip() for f in re.split(r",\s*\n", bare(block(text, m.start()))) if f.strip()]
            fields = [f for f in fields if not f.startswith("ghost")]
            held = [f for f in fields if re.search(r"(: (&'?\w* ?(mut )?\[|\[|Vec<)|^(window|word): u64$)", f)]
            counts = [f for f in fields if re.search(r": (usize|u8|u16|u32)$", f)]
            if held and counts:
                yield path, line_of(text, m.start(1)), f"struct {m.group(1)}: {'; '.join(held + counts)}"


def switches(sources):
    for path, text in sources:
        for m in re.finditer(r"\bdyn \w+|\bfn\([^)]*\)(?: ->)?|\bF: Fn\w*", bare(text)):
            yield path, line_of(bare(text), m.start()), m.group(0)
        for at, name, params, clauses, body in functions(text):
            for m in re.finditer(r"match ([^{]*)\{", bare(body)):
                arms = re.findall(r"=> ((?:self\.)?[\w.]*\w)\(([^;]*?)\),", block(bare(body), m.start()))
                calls = [a for a in arms if not re.match(r"(Ok|Err|Some|None|\w+::)", a[0]) and a[0] not in ("write", "write!", "f.write_str")]
                if len(calls) > 1 and len({a[1] for a in calls}) < len(calls):
                    yield path, line_of(text, at), f"fn {name}: match {m.group(1).strip()} calls {', '.join(a[0] for a in calls)}"


POINTS = {1: enums, 2: twins, 3: loops, 4: by_hand, 5: facts, 6: buffers, 7: switches}


def proofs(commit):
    listing = ["git", "ls-tree", "-r", "--name-only", commit, "crates"] if commit else ["git", "ls-files", "crates"]
    names = subprocess.run(listing, capture_output=True, text=True, check=True).stdout.split("\n")
    for kind in ("Answers.antt", "Invariants.antt"):
        yield f"{kind}: {sum(1 for n in names if '/proofs/' in n and n.endswith('/' + kind))}"
    lemmas = [n for n in names if re.match(r"crates/[^/]+/proofs/[^/]+\.antt$", n) and not n.endswith("/Lib.antt")]
    yield f"files of lemmas: {len(lemmas)}"


def main(argv):
    commit = None
    if "--at" in argv:
        commit = argv[argv.index("--at") + 1]
        argv = [a for a in argv if a not in ("--at", commit)]
    wanted = [int(a) for a in argv] or [1, 2, 3, 4, 5, 6, 7, 8]
    sources = list(files(commit))
    for point in wanted:
        if point == 8:
            print("8:", "; ".join(proofs(commit)))
            continue
        rows = sorted({(path, line): (path, line, what) for path, line, what in POINTS[point](sources)}.values())
        print(f"{point}: {len(rows)} places")
        for path, line, what in rows:
            print(f"  {path}:{line}  {what}")


if __name__ == "__main__":
    main(sys.argv[1:])
