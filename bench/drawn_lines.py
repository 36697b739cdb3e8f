"""Lines drawn by a seed and a number, of every kind that a receiving end meets: clean cells, damage, noise, and what is made to lead it astray.

A line is a row of stretches, each of one kind and some thousand octets long, so that each kind finds the end in whatever state another left it."""

import math
from collections import Counter
from functools import partial
from typing import Callable, Dict, Iterable, List, NamedTuple, Tuple

from bits import bits_of
from coding import code_header
from coding_vectors import NEAR_HEADERS, Draw
from generator import CELL_BITS, next_phase
from line_stream import HEADER_BITS, HEC7, HEC8, Line

# VPI 0 and 17, VCI 100, 101 and 1042, with GFC, PT and CLP among them
CONNECTIONS = [0x00000640, 0x00000650, 0x01104120, 0x0110412F, 0xA0000641]
IDLE_HEADER, F3_HEADER = 0x00000001, 0x00000009
FILL = bytes([0x6A]) * 48

# Of the first lines: nothing at all, less than a header, and lines around one feed.
FIRST_LENGTHS = [0, 1, 5, 53, 4095, 4096, 4097, 8192]


class DrawnLine(NamedTuple):
    octets: bytes
    # how many bits are of each kind
    bits: Dict[str, int]


def below(draw: Draw, count: int) -> int:
    return draw.bits(32) % count


def few(draw: Draw) -> int:
    """1 to 128, and small ones more often."""
    return 1 + below(draw, 1 << draw.bits(3))


def cell(line: Line, wrong: Iterable[int] = ()) -> None:
    """An idle cell, an F3 cell, or a user cell of some connection, of any header, or of one that is nearly reserved."""
    draw = line.draw
    kind = draw.bits(4)
    if kind < 3:
        line.cell(wrong=wrong)
    elif kind == 3:
        # a header says what a cell is, whatever its payload
        payload = [draw.octets(48), draw.octets(48), FILL, bytes(48)][draw.bits(2)]
        header = F3_HEADER if draw.bits(2) else IDLE_HEADER
        line.cell(header.to_bytes(4, "big") + payload, wrong)
    elif kind == 4:
        line.user(wrong, header=NEAR_HEADERS[below(draw, len(NEAR_HEADERS))])
    elif kind == 5:
        line.user(wrong, header=draw.bits(32))
    else:
        line.user(wrong, header=CONNECTIONS[below(draw, len(CONNECTIONS))])


def cells(line: Line, count: int) -> None:
    for _ in range(count):
        cell(line)


def bits_apart(draw: Draw, count: int, first: int, end: int) -> List[int]:
    """So many bits of a cell, none twice."""
    drawn: List[int] = []
    while len(drawn) < count:
        bit = first + below(draw, end - first)
        if bit not in drawn:
            drawn.append(bit)
    return drawn


def clean(line: Line) -> None:
    """A stream that begins at any bit behind some noise, at a phase of its own."""
    line.noise(line.draw.bits(8))
    line.phase = line.draw.phase()
    line.user()
    cells(line, 30 + line.draw.bits(6))


def mixture(line: Line) -> None:
    cells(line, 16)


def wrong_header_bits(count: int, line: Line) -> None:
    """One cell, or a few in a row, with so many header bits wrong, and right ones behind them."""
    draw = line.draw
    for _ in range(1 + draw.bits(3) if draw.bits(2) == 0 else 1):
        cell(line, bits_apart(draw, count, 0, HEADER_BITS))
    cells(line, draw.bits(4))


def bursts(line: Line) -> None:
    """One to eight damaged cells in a row, the payloads with them or not."""
    draw = line.draw
    line.damaged(1 + draw.bits(3), True, draw.bits(1) == 1)
    cells(line, draw.bits(6))


def wrong_payload_bits(line: Line) -> None:
    draw = line.draw
    cell(line, bits_apart(draw, few(draw), HEADER_BITS, CELL_BITS))
    cells(line, draw.bits(1))


def slip(draw: Draw) -> int:
    """How many bits are lost or inserted: at times those of a cell, by which the boundary stays and the phase is wrong."""
    return CELL_BITS if draw.bits(3) == 0 else few(draw)


def lost_bits(line: Line) -> None:
    draw = line.draw
    cells(line, 8 + draw.bits(6))
    end = len(line.bits) - below(draw, 4 * CELL_BITS)
    del line.bits[end - slip(draw):end]


def inserted_bits(line: Line) -> None:
    draw = line.draw
    cells(line, 8 + draw.bits(6))
    at = len(line.bits) - below(draw, 4 * CELL_BITS)
    line.bits[at:at] = Line(draw, 1).noise(slip(draw)).bits


def noise(line: Line) -> None:
    line.noise(1 + line.draw.bits(12))


def repetition(line: Line) -> None:
    """The same 424 bits again and again: where 40 of them agree, they do so in each round, with the same samples."""
    line.bits += Line(line.draw, 1).noise(CELL_BITS).bits * (10 + line.draw.bits(6))


def unscrambled(line: Line) -> None:
    line.phase = 0
    cells(line, 20 + line.draw.bits(5))
    wrong_header_bits(1 + line.draw.bits(1), line)
    line.phase = line.draw.phase()


def other_phase(line: Line) -> None:
    """In mid-stream, from one cell to the next."""
    line.phase = line.draw.phase()
    cells(line, 4 + line.draw.bits(6))


def mimicry(line: Line) -> None:
    """Payloads with an agreeing header in each at the same place, which may be taken for the boundary. Either those have the samples of a phase
    too, and lead to the steady state, or each those of some other phase."""
    draw = line.draw
    line.noise(draw.bits(9))
    at = HEADER_BITS + below(draw, CELL_BITS - 2 * HEADER_BITS + 1)
    phase, one_phase = draw.phase(), draw.bits(1) == 1
    for _ in range(12 + draw.bits(6)):
        cell(line)
        start = len(line.bits) - CELL_BITS + at
        line.bits[start:start + HEADER_BITS] = code_header(bits_of(draw.bits(32), 32), phase)
        phase = next_phase(phase) if one_phase else draw.phase()


def wrong_samples(line: Line, count: int, of_four: int) -> None:
    """Cells of which so many in four have one sample wrong, or both."""
    draw = line.draw
    for _ in range(count):
        wrong = [[HEC8], [HEC7], [HEC8, HEC7], [HEC7]][draw.bits(2)]
        cell(line, wrong if draw.bits(2) < of_four else [])


def confidence(line: Line) -> None:
    """Wrong samples, so many that the confidence falls: with the boundary found anew and the phase just so, or with the end as it stands."""
    draw = line.draw
    if draw.bits(1):
        line.disagreeing(7)
        cells(line, 16 + draw.bits(1))
    wrong_samples(line, 1 + draw.bits(5), 1 + draw.bits(2))
    if draw.bits(2) == 0:
        line.disagreeing(1 + draw.bits(2))
    cells(line, draw.bits(5))


def damage(power: int, line: Line) -> None:
    """Any bits wrong, at a rate of this power of ten up to the next."""
    draw = line.draw

    def part() -> float:
        return (draw.bits(53) + 0.5) / 2 ** 53

    rate = 10 ** (power + part())
    at = len(line.bits) - 1
    cells(line, 20 + draw.bits(7))
    while True:
        at += 1 + int(math.log(part()) / math.log1p(-rate))
        if at >= len(line.bits):
            return
        line.bits[at] ^= 1


# Each kind with its share in a hundred, and what it adds to a line, again and again until a stretch is full.
KINDS: Dict[str, Tuple[int, Callable[[Line], None]]] = {
    "clean, at any bit after noise": (10, clean),
    "any headers, idle and F3 cells": (10, mixture),
    "one wrong header bit": (8, partial(wrong_header_bits, 1)),
    "two wrong header bits": (6, partial(wrong_header_bits, 2)),
    "three wrong header bits": (6, partial(wrong_header_bits, 3)),
    "bursts of 1 to 8 cells": (8, bursts),
    "wrong payload bits only": (4, wrong_payload_bits),
    "lost bits": (5, lost_bits),
    "inserted bits": (5, inserted_bits),
    "noise": (4, noise),
    "the same 53 octets repeated": (2, repetition),
    "not scrambled": (4, unscrambled),
    "another phase in mid-stream": (4, other_phase),
    "headers in payloads": (8, mimicry),
    "wrong samples": (8, confidence),
    "damage of 1e-6 to 1e-5": (2, partial(damage, -6)),
    "damage of 1e-5 to 1e-4": (2, partial(damage, -5)),
    "damage of 1e-4 to 1e-3": (2, partial(damage, -4)),
    "damage of 1e-3 to 1e-2": (2, partial(damage, -3)),
}

BY_SHARE = [kind for kind, (share, _) in KINDS.items() for _ in range(share)]


def source(seed: int, number: int) -> Draw:
    return Draw(seed << 32 | number)


def length(draw: Draw, number: int) -> int:
    """In octets, as the first that is drawn for a line: half a million to one and a half, but for some short ones."""
    if number < len(FIRST_LENGTHS):
        return FIRST_LENGTHS[number]
    return draw.bits(14) if number % 8 == 0 else 500_000 + draw.bits(20)


def line_length(seed: int, number: int) -> int:
    return length(source(seed, number), number)


def drawn_line(seed: int, number: int) -> DrawnLine:
    draw = source(seed, number)
    wanted = 8 * length(draw, number)
    line, counted = Line(draw, draw.phase()), Counter()
    while len(line.bits) < wanted:
        kind = BY_SHARE[below(draw, len(BY_SHARE))]
        _, add = KINDS[kind]
        begin = len(line.bits)
        end = begin + 8 * draw.bits(14)
        while len(line.bits) <= end:
            add(line)
        del line.bits[wanted:]
        counted[kind] += len(line.bits) - begin
    return DrawnLine(line.octets(), counted)
