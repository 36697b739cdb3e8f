"""The cases of the program coding_vectors, and what it has to write."""

import random
import re
from typing import Dict, List

from bits import number_of
from check_octet import agrees, syndrome
from coding import CELL_OCTETS, code_cell, decode_cell, line_header, predicted_samples
from finder import find_phase, sample_word
from generator import LAST_PHASE, next_phase
from idle_cells import IDLE_CELL
from refusal import Refused
from self_check import idle_phases

SEED = 424
WORD = rb"([0-9a-f]{8})"
OCTETS = rb"((?:[0-9a-f]{2})*)"

RESERVED_HEADERS = [0x00000001, 0x00000009]
# next to the reserved ones, and the ends of the range
NEAR_HEADERS = [0x00000000, 0x00000003, 0x10000001, 0x80000009, 0xFFFFFFFF]
BAD_PHASES = [0x00000000, 0x80000000, 0x80000001, 0xBECFEDE8, 0xFFFFFFFF]
BAD_LENGTHS = [0, 1, 4, 48, 51, 53, 104]

MALFORMED = [
    b"",
    b" ",
    b"cell",
    b"cell ",
    b"cell 00000001",
    b"cell 0000001 " + b"6a" * 52,
    b"cell 000000001 " + b"6a" * 52,
    b"cell 00000001 " + b"6a" * 51 + b"6",
    b"cell 00000001 " + b"6a" * 51 + b"6g",
    b"cell 00000001 " + b"6A" * 52,
    b"cell 00000001  " + b"6a" * 52,
    b"cell 00000001 " + b"6a" * 52 + b" ",
    b"cell\t00000001 " + b"6a" * 52,
    b"cell 0000000g 6a",
    b"cell 00000001 \xff\xfe",
    b"find",
    b"find ",
    b"find 0000001",
    b"find 000000001",
    b"find 0000000/",
    b"find 0000000:",
    b"find 0000000`",
    b"find 0000000A",
    b"find 00000001 ",
    b" find 00000001",
    b"find 00000001\r",
    b"next 0x000001",
    b"next",
    b"Next 00000001",
    b"lost 00000001",
]


class Draw:
    """Random numbers by their bits alone, so that every Python draws the same."""

    def __init__(self, seed: int) -> None:
        self.source = random.Random(seed)

    def bits(self, count: int) -> int:
        return self.source.getrandbits(count)

    def phase(self) -> int:
        return self.bits(31) or 1

    def octets(self, count: int) -> bytes:
        return bytes(self.bits(8) for _ in range(count))


def cell_case(phase: int, cell: bytes) -> bytes:
    return b"cell %08x %s" % (phase, cell.hex().encode())


def good_cells(draw: Draw) -> List[bytes]:
    cases = [cell_case(phase, IDLE_CELL) for phase in idle_phases()]
    for phase in [1, LAST_PHASE, 0x40000000, 0x3ECFEDE8]:
        for header in RESERVED_HEADERS + NEAR_HEADERS:
            cases.append(cell_case(phase, header.to_bytes(4, "big") + draw.octets(48)))
        cases.append(cell_case(phase, bytes(CELL_OCTETS)))
        cases.append(cell_case(phase, bytes([0xFF]) * CELL_OCTETS))
    for header in RESERVED_HEADERS + NEAR_HEADERS:
        for _ in range(4):
            cases.append(cell_case(draw.phase(), header.to_bytes(4, "big") + draw.octets(48)))
    for place in range(31):
        cases.append(cell_case(1 << place, draw.octets(CELL_OCTETS)))
    for _ in range(400):
        cases.append(cell_case(draw.phase(), draw.octets(CELL_OCTETS)))
    return cases


def refused_cells(draw: Draw) -> List[bytes]:
    cases = [cell_case(phase, draw.octets(CELL_OCTETS)) for phase in BAD_PHASES]
    cases += [cell_case(draw.phase(), draw.octets(length)) for length in BAD_LENGTHS]
    # a wrong length is told before a bad phase
    cases += [cell_case(phase, draw.octets(51)) for phase in BAD_PHASES]
    return cases


def find_cases(draw: Draw) -> List[bytes]:
    words = [0, 1, LAST_PHASE, LAST_PHASE + 1, 0xFFFFFFFF]
    words += [sample_word(phase) for phase in idle_phases() + [1, LAST_PHASE]]
    words += [1 << place for place in range(32)]
    words += [sample_word(draw.phase()) for _ in range(60)]
    words += [draw.bits(31) for _ in range(40)]
    words += [0x80000000 | draw.bits(31) for _ in range(10)]
    return [b"find %08x" % word for word in words]


def next_cases(draw: Draw) -> List[bytes]:
    phases = [0, 1, LAST_PHASE, LAST_PHASE + 1, 0xFFFFFFFF, 0x3ECFEDE8, 0x061979AB]
    phases += [1 << place for place in range(32)]
    phases += [draw.phase() for _ in range(40)]
    return [b"next %08x" % phase for phase in phases]


def cases() -> List[bytes]:
    draw = Draw(SEED)
    return good_cells(draw) + refused_cells(draw) + find_cases(draw) + next_cases(draw) + MALFORMED


def cell_answer(phase: int, cell: bytes) -> str:
    line = code_cell(cell, phase)
    same = decode_cell(line, phase) == cell
    carried = number_of(syndrome(line_header(line))) == number_of(predicted_samples(phase) + [0] * 6)
    header_right = agrees(line_header(line)) and carried
    return " ".join([
        "line",
        line.hex(),
        f"next {next_phase(phase):08x}",
        "same" if same else "differs",
        "agrees" if header_right else "disagrees",
    ])


def answer(case: bytes) -> str:
    """What the program writes for one line of its input."""
    try:
        if read := re.fullmatch(b"cell " + WORD + b" " + OCTETS, case):
            return cell_answer(int(read[1], 16), bytes.fromhex(read[2].decode()))
        if read := re.fullmatch(b"find " + WORD, case):
            return f"phase {find_phase(int(read[1], 16)):08x}"
        if read := re.fullmatch(b"next " + WORD, case):
            return f"next {next_phase(int(read[1], 16)):08x}"
    except Refused as refused:
        return f"refused {refused.number}"
    return "malformed"


def files() -> Dict[str, bytes]:
    """The program's input and what it has to write on it, by file name."""
    lines = cases()
    return {
        "stdin": b"".join(line + b"\n" for line in lines),
        "stdout": b"".join(answer(line).encode() + b"\n" for line in lines),
    }
