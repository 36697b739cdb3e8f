#!/usr/bin/env python3
"""Compares the programs send and receive with the reference implementation, on many drawn lines and blocks.

    python3 bench/compare.py [--octets 200000000] [--seed 1] [--jobs 4] [--python pypy3] [--line N] [--block N] [--no-build]

Lines of every kind (bench/drawn_lines.py) go through `receive --events`, `receive --payloads` and the reference: cells, events, counters and
the state at the end are the same, octet by octet. Blocks go through `send` and the reference, a twentieth of the octets: so are the line octets
and the summary. Seed and number make a line or a block, so that --line and --block run a single one again. It fails where anything differs,
and, but for single ones, where an event or a change of state never came. --python names the Python that runs it; pypy3 is several times faster.
"""

import argparse
import os
import platform
import subprocess
import sys
import time

# the repository is left as it is
sys.dont_write_bytecode = True

from collections import Counter
from functools import partial
from itertools import zip_longest
from multiprocessing import Pool
from pathlib import Path
from tempfile import TemporaryDirectory
from typing import Callable, Dict, Iterator, List, NamedTuple, Optional, Tuple

TOP = Path(__file__).resolve().parent.parent
sys.path.insert(0, str(TOP / "reference"))

from bits import Bits
from coding import CELL_OCTETS, PAYLOAD_OCTETS
from coding_vectors import Draw
from drawn_lines import KINDS, below, drawn_line, line_length, source
from generator import LAST_PHASE
from receiver import FEED_LIMIT, FULL_CONFIDENCE, HEADER_BITS, HEADERS_TO_SYNC, HUNT, PRESYNC, STEADY_LEAST, SYNC, VERIFICATION_LEAST, WRONG_TO_HUNT
from receiver import Acquisition, Descrambler, Event, Receiver, Steady, Verification
from send import TRAIL, user_cells
from sender import Sender
from sinks import Ring
from words import DESCRAMBLER_WORDS, EVENT_WORDS, event_words, readings_words

CONFIDENCES = {Acquisition: (0, 15), Verification: (VERIFICATION_LEAST, 23), Steady: (STEADY_LEAST, FULL_CONFIDENCE)}

# Blocks that are empty, or end around a cell, around a part that is read at a time, or around two.
BLOCK_LENGTHS = [0, 1, 47, 48, 49, 65_519, 65_520, 65_521, 131_039, 131_040, 131_041]
LEADS = [0, 1, 31, 423, 424, 431, 432, 433]
PHASES = [1, 2, 0x3ECFEDE8, 0x40000000, LAST_PHASE]
RESERVED = [0x00000001, 0x00000009]
USUAL = {"--phase": 1, "--lead": 32, "--vpi": 0, "--vci": 100}

# Blocks have one octet for so many of the lines.
LINE_OCTETS_TO_ONE = 20


class Outcome(NamedTuple):
    """Of one line or block: the first difference, and how often what is counted came."""

    name: str
    difference: Optional[str]
    counts: Dict[Tuple[str, str], int]


def program(name: str) -> str:
    return str(TOP / "crates" / name / "out" / name)


def build() -> None:
    subprocess.run([str(TOP / "tools" / "build.sh"), "send", "receive"], check=True)


def run(words: List[str], octets: bytes) -> Tuple[bytes, str]:
    """Standard output, and standard error with a failing status behind it."""
    done = subprocess.run(words, input=octets, stdout=subprocess.PIPE, stderr=subprocess.PIPE, timeout=600)
    failing = f"status {done.returncode}\n" if done.returncode else ""
    return done.stdout, done.stderr.decode(errors="replace") + failing


def differing_octets(what: str, got: bytes, wanted: bytes, size: int) -> Optional[str]:
    """The first part of this size that differs."""
    if got == wanted:
        return None
    for number, at in enumerate(range(0, max(len(got), len(wanted)), size)):
        part, other = got[at:at + size], wanted[at:at + size]
        if part != other:
            return f"{what} {number}: {part.hex() or 'none'} of the program, {other.hex() or 'none'} of the reference"
    return None


def differing_lines(what: str, got: str, wanted: str) -> Optional[str]:
    for number, (line, other) in enumerate(zip_longest(got.split("\n"), wanted.split("\n")), 1):
        if line != other:
            return f"{what}, line {number}: {line!r} of the program, {other!r} of the reference"
    return None


class Watched(Receiver):
    """The receiving end of the reference, which also counts what its headers bring about."""

    def __init__(self) -> None:
        super().__init__()
        self.counts: Dict[Tuple[str, str], int] = Counter()

    def came(self, table: str, row: str) -> None:
        self.counts[table, row] += 1

    def end_of_header(self, events: Ring) -> None:
        (boundary, headers), descrambler, mode = self.delineation(), self.descrambler, self.mode
        super().end_of_header(events)
        (boundary_after, headers_after), after = self.delineation(), self.descrambler
        if boundary == boundary_after == HUNT:
            return
        if boundary != boundary_after:
            self.came("boundary", f"{boundary} to {boundary_after}")
            if boundary == PRESYNC:
                self.came("PRESYNC left", f"for {boundary_after} with {headers} confirming headers")
            if boundary == SYNC:
                self.came("SYNC left", f"from {DESCRAMBLER_WORDS[type(descrambler)]}")
        if boundary == boundary_after == SYNC and headers > headers_after:
            self.came("wrong headers in a row ended", str(headers))
        self.descrambled(descrambler, after, boundary_after)
        if mode != self.mode:
            self.came("mode", f"{mode} to {self.mode}")

    def descrambled(self, before: Descrambler, after: Descrambler, boundary_after: str) -> None:
        name, name_after = DESCRAMBLER_WORDS[type(before)], DESCRAMBLER_WORDS[type(after)]
        self.came(f"confidence in {name_after}", str(after.confidence))
        if name == name_after:
            if after.confidence > before.confidence:
                self.came("descrambler", f"{name} goes on, confidence rises")
            elif after.confidence < before.confidence:
                self.came("descrambler", f"{name} goes on, confidence falls")
        elif isinstance(after, Acquisition):
            self.came("descrambler", f"{name} to {name_after} {'with the boundary' if boundary_after == HUNT else 'by confidence'}")
        else:
            self.came("descrambler", f"{name} to {name_after}")

    def good_header(self, header: Bits, at: int, events: Ring) -> Optional[Bits]:
        mode = self.mode
        good = super().good_header(header, at, events)
        if good is None:
            self.came("discarded", f"in {mode} mode")
        elif good != header:
            self.came("mended bit", str([one == other for one, other in zip(good, header)].index(False)))
        return good


# All that has to come, by table.
WANTED: Dict[str, List[str]] = {
    "kind": list(KINDS),
    "event": [words for (layer, _), words in EVENT_WORDS.items() if layer < 4],
    # a mended header never brings Acquisition: at the least confidence the header before was wrong, so the mode is detection
    "events of one header": [
        "discarded, back to acquisition",
        "lost from SYNC, back to acquisition",
        "discarded, lost from SYNC, back to acquisition",
    ],
    "boundary": [f"{HUNT} to {PRESYNC}", f"{PRESYNC} to {SYNC}", f"{PRESYNC} to {HUNT}", f"{SYNC} to {HUNT}"],
    "PRESYNC left": [f"for {HUNT} with {headers} confirming headers" for headers in range(HEADERS_TO_SYNC - 1)] + [f"for {SYNC} with 7 confirming headers"],
    "SYNC left": [f"from {name}" for name in DESCRAMBLER_WORDS.values()],
    "wrong headers in a row ended": [str(count) for count in range(1, WRONG_TO_HUNT)],
    "descrambler": [
        "acquisition goes on, confidence rises",
        "acquisition goes on, confidence falls",
        "acquisition to verification",
        "verification goes on, confidence rises",
        "verification goes on, confidence falls",
        "verification to steady state",
        "verification to acquisition by confidence",
        "verification to acquisition with the boundary",
        "steady state goes on, confidence rises",
        "steady state goes on, confidence falls",
        "steady state to acquisition by confidence",
        "steady state to acquisition with the boundary",
    ],
    "mode": ["correction to detection", "detection to correction"],
    "discarded": ["in correction mode", "in detection mode"],
    "mended bit": [str(bit) for bit in range(HEADER_BITS)],
    "SYNC by bit of the octet": [str(bit) for bit in range(8)],
}
WANTED.update((f"confidence in {name}", [str(c) for c in range(CONFIDENCES[kind][0], CONFIDENCES[kind][1] + 1)]) for kind, name in DESCRAMBLER_WORDS.items())

# Tables of many rows, of which the rarest is printed.
LONG_TABLES = ["mended bit"] + [f"confidence in {name}" for name in DESCRAMBLER_WORDS.values()]


def summary(octets: int, receiver: Receiver) -> str:
    """As the program receive writes it: its own two lines, and the readings below the bits and the user cells."""
    taken, full, unserved = (receiver.counters[name] for name in ("taken", "full", "unserved"))
    own = [f"line: octets {octets}, bits {receiver.bit_count}", f"user cells: written {taken}; taken {taken}, full {full}, not served {unserved}"]
    return "\n".join(own + readings_words(receiver)[2:]) + "\n"


def compare_line(seed: int, number: int) -> Outcome:
    octets, bits = drawn_line(seed, number)
    receiver, cells, events = Watched(), [], []
    for at in range(0, len(octets), FEED_LIMIT):
        sink, ring = Ring(78), Ring(1024)
        receiver.feed(octets[at:at + FEED_LIMIT], sink, ring)
        cells += sink.take_all()
        events += ring.take_all()
    listed = "".join(f"{event_words(event)}\n" for event in events)
    cells_got, said = run([program("receive"), "--events"], octets)
    payloads_got, said_of_payloads = run([program("receive"), "--payloads"], octets)
    difference = (
        differing_octets("cell", cells_got, b"".join(cells), CELL_OCTETS)
        or differing_lines("events and summary", said, listed + summary(len(octets), receiver))
        or differing_octets("payload", payloads_got, b"".join(cell[-PAYLOAD_OCTETS:] for cell in cells), PAYLOAD_OCTETS)
        or differing_lines("summary", said_of_payloads, summary(len(octets), receiver))
    )
    return Outcome(f"line {number}", difference, line_counts(len(octets), bits, receiver, events))


def line_counts(octets: int, bits: Dict[str, int], receiver: Watched, events: List[Event]) -> Dict[Tuple[str, str], int]:
    counts = Counter(receiver.counts)
    counts.update({("kind", kind): count for kind, count in bits.items()})
    at_bit: Dict[int, List[str]] = {}
    for event in events:
        words = EVENT_WORDS[event.layer, event.cause]
        counts["event", words] += 1
        at_bit.setdefault(event.bit, []).append(words.split(": ")[1])
        if (event.layer, event.cause) == (2, 2):
            # a header has whole octets, so the number of its last bit tells where the cell begins
            counts["SYNC by bit of the octet", str(event.bit % 8)] += 1
    for together in at_bit.values():
        if len(together) > 1:
            counts["events of one header", ", ".join(together)] += 1
    counts["line", "lines"] += 1
    counts["line", "octets"] += octets
    for name, count in receiver.counters.items():
        counts["line", name] += count
    return counts


def spelled(draw: Draw, number: int) -> str:
    return [f"{number}", f"0x{number:X}", f"0x{number:08x}", f"{number:05}"][draw.bits(2)]


def drawn_value(draw: Draw, usual: List[int], bits: int) -> int:
    return usual[below(draw, len(usual))] if draw.bits(2) == 0 else draw.bits(bits)


def drawn_arguments(draw: Draw) -> Dict[str, int]:
    """Some of the arguments whose values are numbers, in any order."""
    values = {"--phase": drawn_value(draw, PHASES, 31) or 1, "--lead": drawn_value(draw, LEADS, 8)}
    if draw.bits(1):
        header = drawn_value(draw, [0, 3, 0x10000001, 0xFFFFFFFF], 32)
        values["--header"] = 2 if header in RESERVED else header
    else:
        values.update({"--vpi": drawn_value(draw, [0, 255], 8), "--vci": drawn_value(draw, [0, 65_535], 16)})
    return {name: values[name] for name in sorted(values, key=lambda _: draw.bits(32)) if draw.bits(3)}


def header_of(arguments: Dict[str, int]) -> int:
    given = {**USUAL, **arguments}
    return given.get("--header", given["--vpi"] << 20 | given["--vci"] << 4)


def block_line(block: bytes, arguments: Dict[str, int], f3_payload: Optional[bytes]) -> Tuple[bytes, str, int]:
    """What the program send has to write: the line octets, the summary, and the number of cells."""
    given, sender, sent = {**USUAL, **arguments}, Sender(), []
    sender.start(given["--phase"])
    if f3_payload is not None:
        sender.set_f3(f3_payload)
    sent += [sender.send([]) for _ in range(given["--lead"])]
    waiting = user_cells(header_of(arguments), block)
    while waiting:
        sent.append(sender.send(waiting))
    sent += [sender.send([]) for _ in range(TRAIL)]
    kinds = Counter(kind for _, kind in sent)
    said = f"octets read {len(block)}; cells sent: idle {kinds['idle']}, F3 {kinds['F3']}, user {kinds['user']}; phase at the end 0x{sender.phase:08X}\n"
    return b"".join(octets for octets, _ in sent), said, len(sent)


def block_source(seed: int, number: int) -> Draw:
    """Not that of a line."""
    return source(seed, number | 1 << 31)


def block_length(draw: Draw, number: int) -> int:
    """As the first that is drawn for a block."""
    if number < 3 * len(BLOCK_LENGTHS):
        return BLOCK_LENGTHS[number % len(BLOCK_LENGTHS)]
    return draw.bits(8 + below(draw, 12))


def compare_block(seed: int, number: int) -> Outcome:
    draw = block_source(seed, number)
    block = draw.octets(block_length(draw, number))
    arguments = drawn_arguments(draw)
    f3_payload = draw.octets(PAYLOAD_OCTETS) if draw.bits(1) else None
    line, said, cells = block_line(block, arguments, f3_payload)
    words = [word for name, value in arguments.items() for word in (name, spelled(draw, value))]
    with TemporaryDirectory() as folder:
        if f3_payload is not None:
            path = Path(folder) / "f3-payload"
            path.write_bytes(f3_payload)
            at = 2 * below(draw, len(arguments) + 1)
            words[at:at] = ["--f3", str(path)]
        line_got, said_got = run([program("send")] + words, block)
    difference = differing_octets("cell", line_got, line, CELL_OCTETS + 1) or differing_lines("summary", said_got, said)
    counts = {("block", "blocks"): 1, ("block", "with an F3 payload"): f3_payload is not None, ("block", "octets read"): len(block), ("block", "cells"): cells, ("block", "octets"): len(line)}
    return Outcome(f"block {number}", difference and f"{difference} (send {' '.join(words)})", counts)


Task = Callable[[], Outcome]


def tasks_of(arguments: argparse.Namespace) -> List[Task]:
    """The single line or block that is asked for, or as many of both as have the octets."""
    if arguments.line is not None:
        return [partial(compare_line, arguments.seed, arguments.line)]
    if arguments.block is not None:
        return [partial(compare_block, arguments.seed, arguments.block)]
    tasks: List[Task] = []
    octets, number = 0, 0
    while octets < arguments.octets:
        tasks.append(partial(compare_line, arguments.seed, number))
        octets += line_length(arguments.seed, number)
        number += 1
    octets, number = 0, 0
    while octets < arguments.octets // LINE_OCTETS_TO_ONE or number < len(BLOCK_LENGTHS):
        tasks.append(partial(compare_block, arguments.seed, number))
        octets += block_length(block_source(arguments.seed, number), number)
        number += 1
    return tasks


def call(task: Task) -> Outcome:
    return task()


def table(title: str, rows: Dict[str, int]) -> Iterator[str]:
    yield ""
    if title in LONG_TABLES:
        rarest = min(rows, key=lambda row: rows[row])
        yield f"{title}: {len(rows)} rows, {sum(rows.values()):,} in all, the rarest is {rarest} with {rows[rarest]:,}"
        return
    yield f"{title}{', octets' if title == 'kind' else ''}:"
    for row, count in rows.items():
        yield f"  {row:<48} {count // 8 if title == 'kind' else count:>14,}"


def report(counts: Dict[Tuple[str, str], int]) -> Iterator[str]:
    """The tables in which anything was counted, those that have to come with all their rows."""
    tables: Dict[str, Dict[str, int]] = {title: dict.fromkeys(rows, 0) for title, rows in WANTED.items()}
    for (title, row), count in counts.items():
        tables.setdefault(title, {}).setdefault(row, 0)
        tables[title][row] += count
    for title, rows in tables.items():
        if any(rows.values()):
            yield from table(title, rows)


def missing(counts: Dict[Tuple[str, str], int]) -> List[str]:
    return [f"{title}: {row}" for title, rows in WANTED.items() for row in rows if not counts.get((title, row))]


def read_arguments() -> argparse.Namespace:
    reader = argparse.ArgumentParser(description="Compares send and receive with the reference implementation on drawn lines and blocks.", allow_abbrev=False)
    reader.add_argument("--octets", type=int, default=200_000_000, help="line octets that receive gets (200000000)")
    reader.add_argument("--seed", type=int, default=1)
    reader.add_argument("--jobs", type=int, default=4)
    reader.add_argument("--python", help="the Python that runs this, for example pypy3")
    reader.add_argument("--line", type=int, metavar="N", help="only this line")
    reader.add_argument("--block", type=int, metavar="N", help="only this block")
    reader.add_argument("--no-build", action="store_true", help="the programs stand built in crates/NAME/out")
    return reader.parse_args()


def in_python(name: str, words: List[str]) -> None:
    """Goes over to another Python, without the argument that names it."""
    at = next(at for at, word in enumerate(words) if word.startswith("--python"))
    rest = words[:at] + words[at + (1 if "=" in words[at] else 2):]
    os.execvp(name, [name, *rest])


def main() -> int:
    arguments = read_arguments()
    if arguments.python:
        in_python(arguments.python, sys.argv)
    if not arguments.no_build:
        build()
    begun = time.time()
    tasks = tasks_of(arguments)
    single = len(tasks) == 1
    counts: Dict[Tuple[str, str], int] = Counter()
    differences = 0
    with Pool(min(arguments.jobs, len(tasks))) as pool:
        for done, outcome in enumerate(pool.imap_unordered(call, tasks), 1):
            for row, count in outcome.counts.items():
                counts[row] += count
            if outcome.difference:
                differences += 1
                print(f"{outcome.name} differs: {outcome.difference}", flush=True)
            if done % 20 == 0:
                print(f"{done} of {len(tasks)} done, {time.time() - begun:.0f} s", file=sys.stderr, flush=True)
    print(f"seed {arguments.seed}, {time.strftime('%d %B %Y')}, {platform.python_implementation()} {platform.python_version()}, {arguments.jobs} jobs, {time.time() - begun:.0f} s")
    print("\n".join(report(counts)))
    absent = [] if single else missing(counts)
    print()
    for row in absent:
        print(f"never came: {row}")
    print(f"differences: {differences}")
    return 1 if differences or absent else 0


if __name__ == "__main__":
    sys.exit(main())
