#!/usr/bin/env python3
"""Tries the built programs as their users do: send into receive, every command line that they refuse, and the examples of README.md.

    python3 tools/try_programs.py

The gate runs it once the programs are built (crates/NAME/out/NAME). It says how many trials it made, and fails with the first that came otherwise.
"""

import random
import subprocess
import sys
import tempfile
import textwrap
from pathlib import Path
from typing import List, Tuple

ROOT = Path(__file__).resolve().parent.parent
CRATES = ROOT / "crates"
PAYLOAD_OCTETS = 48
LARGEST_HEADER = 0xFFFFFFFF

UNKNOWN = "no such argument"
NO_VALUE = "an argument lacks its value"
NO_NUMBER = "the value is no number from 0 to 4294967295, decimal or behind 0x"
OUT_OF_RANGE = "the value is out of range"
RESERVED = "the header is reserved for idle or F3 cells"
REPEATED = "an argument is given twice"
TWO_HEADERS = "the header is given as a whole and by its fields"
F3_LENGTH = "the F3 payload is not of 48 octets"
NO_TEXT = "an argument is no text in UTF-8"

# The words, the one that is named, and why it is refused.
Refusal = Tuple[List[str], str, str]

SEND_REFUSALS: List[Refusal] = [
    (["--fase", "1"], "--fase", UNKNOWN),
    (["--fase"], "--fase", UNKNOWN),
    (["block"], "block", UNKNOWN),
    ([""], "", UNKNOWN),
    (["--phase"], "--phase", NO_VALUE),
    (["--lead", "3", "--f3"], "--f3", NO_VALUE),
    (["--phase", "one"], "--phase", NO_NUMBER),
    (["--lead", "-1"], "--lead", NO_NUMBER),
    (["--lead", ""], "--lead", NO_NUMBER),
    (["--lead", "0x"], "--lead", NO_NUMBER),
    (["--lead", "4294967296"], "--lead", NO_NUMBER),
    (["--phase", "0"], "--phase", OUT_OF_RANGE),
    (["--phase", "2147483648"], "--phase", OUT_OF_RANGE),
    (["--vpi", "256"], "--vpi", OUT_OF_RANGE),
    (["--vci", "65536"], "--vci", OUT_OF_RANGE),
    (["--header", "1"], "--header", RESERVED),
    (["--header", "0x9"], "--header", RESERVED),
    (["--lead", "1", "--lead", "1"], "--lead", REPEATED),
    (["--vpi", "3", "--header", "0x10"], "--header", TWO_HEADERS),
    (["--header", "0x10", "--vci", "3"], "--vci", TWO_HEADERS),
]

RECEIVE_REFUSALS: List[Refusal] = [
    (["--payload"], "--payload", UNKNOWN),
    (["line"], "line", UNKNOWN),
    (["--events", "--events"], "--events", REPEATED),
    (["--payloads", "--events", "--payloads"], "--payloads", REPEATED),
]


class Otherwise(Exception):
    """A trial came otherwise than it should."""


def run(name: str, words: List[bytes], octets: bytes) -> Tuple[int, bytes, str]:
    done = subprocess.run([str(CRATES / name / "out" / name).encode()] + words, input=octets, stdout=subprocess.PIPE, stderr=subprocess.PIPE, timeout=120)
    return done.returncode, done.stdout, done.stderr.decode()


def expect(what: str, came: object, wanted: object) -> None:
    if came != wanted:
        raise Otherwise(f"{what}: {came!r} came, {wanted!r} was wanted")


def try_refused(name: str, words: List[bytes], said: str) -> None:
    """The usage and the reason on standard error, nothing on standard output, status 1."""
    status, out, err = run(name, words, b"octets")
    what = f"{name} {b' '.join(words).decode(errors='replace')}"
    expect(f"status of {what}", status, 1)
    expect(f"output of {what}", out, b"")
    expect(f"usage of {what}", err.startswith(f"usage: {name} "), True)
    expect(f"reason of {what}", err.split("\n")[-2], f"Error: {said}")


def try_sent(block: bytes, words: List[str]) -> None:
    """A block goes over the line as it was, but for the zeros that fill its last cell."""
    status, line, said = run("send", [word.encode() for word in words], block)
    expect(f"status of send {words}", status, 0)
    cells = -(-len(block) // PAYLOAD_OCTETS)
    expect(f"summary of send {words}", f"octets read {len(block)}; " in said and f", user {cells}; " in said, True)
    for shift in (0, 5):
        # the line begins in the middle of an octet, as where the receiving end is switched on later
        moved = (int.from_bytes(line, "big") << (8 - shift)).to_bytes(len(line) + 1, "big") if shift else line
        status, payloads, said = run("receive", [b"--payloads"], moved)
        expect(f"status of receive behind send {words}", status, 0)
        expect(f"payloads behind send {words}", payloads, block.ljust(PAYLOAD_OCTETS * cells, b"\0"))
        expect(f"cells taken behind send {words}", f"user cells: written {cells}; taken {cells}, full 0, not served 0\n" in said, True)


def example(command: str) -> List[str]:
    """The lines that README.md shows below a command, up to an empty one."""
    lines = (ROOT / "README.md").read_text(encoding="utf-8").split("\n")
    first = lines.index(f"    $ {command}") + 1
    return [line[4:] for line in lines[first : lines.index("", first)]]


def try_examples() -> int:
    """Each example of README.md prints what stands below it; `..` stands for more. The code that it shows is that of the crate."""
    _, line, said = run("send", [], b"hello\n")
    expect("the example of send", said.splitlines(), example("echo hello | crates/send/out/send > line"))
    _, payloads, said = run("receive", [b"--payloads", b"--events"], line)
    expect("the example of receive", said.splitlines(), example("crates/receive/out/receive --payloads --events < line > received"))
    expect("what the example of receive writes", payloads, b"hello\n".ljust(PAYLOAD_OCTETS, b"\0"))
    shown = example("printf 'pass 25\\nturn 5\\nturn 5\\n' | crates/trial/out/trial")
    _, printed, _ = run("trial", [], b"pass 25\nturn 5\nturn 5\n")
    expect("the end of the example of trial", shown[-1], "..")
    expect("the example of trial", printed.decode().splitlines()[: len(shown) - 1], shown[:-1])
    _, printed, _ = run("headers", [], b"0000000152\n00 00 00 00 52\nno header\n")
    expect("the example of headers", printed.decode().splitlines(), example("printf '0000000152\\n00 00 00 00 52\\nno header\\n' | crates/headers/out/headers"))
    code = (ROOT / "README.md").read_text(encoding="utf-8").split("```rust\n")[1].split("```")[0]
    kept = (CRATES / "first_cell" / "src" / "main.rt").read_text(encoding="utf-8")
    expect("the code of README.md in first_cell", textwrap.indent(code, "    ") in kept, True)
    return 5


def main() -> None:
    trials = try_examples()
    draw = random.Random(3)
    headers = [[], ["--vpi", "255", "--vci", "65535"], ["--header", f"0x{LARGEST_HEADER:X}"], ["--header", "0"]]
    with tempfile.TemporaryDirectory() as folder:
        for octets in (0, 47, 48, 49):
            (Path(folder) / str(octets)).write_bytes(bytes([octets]) * octets)
        file = {octets: str(Path(folder) / str(octets)) for octets in (0, 47, 48, 49)}
        for name, refusals in (("send", SEND_REFUSALS), ("receive", RECEIVE_REFUSALS)):
            for words, named, why in refusals:
                try_refused(name, [word.encode() for word in words], f"{why}: {named}")
                trials += 1
            try_refused(name, [b"--\xff"], NO_TEXT)
            trials += 1
        for octets in (0, 47, 49):
            try_refused("send", [b"--f3", file[octets].encode()], f"{F3_LENGTH}: {file[octets]}")
            trials += 1
        missing = f"{folder}/none"
        status, out, err = run("send", [b"--f3", missing.encode()], b"octets")
        expect("a missing file of an F3 payload", (status, out, err.split("\n")[-2].endswith(f": {missing}")), (1, b"", True))
        trials += 1
        for number, length in enumerate((0, 1, 47, 48, 49, 4096, 65_520, 65_521, 150_000)):
            phase = [] if number % 3 == 0 else ["--phase", str(draw.randrange(1, 2 ** 31))]
            f3 = ["--f3", file[48]] if number % 2 else []
            lead = ["--lead", str(draw.randrange(25, 500))] if number % 4 == 1 else []
            try_sent(draw.getrandbits(8 * length).to_bytes(length, "big") if length else b"", phase + f3 + lead + headers[number % 4])
            trials += 1
    print(f"programs: {trials} trials came as they should")


if __name__ == "__main__":
    try:
        main()
    except Otherwise as otherwise:
        sys.exit(f"try_programs: {otherwise}")
