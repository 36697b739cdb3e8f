"""The calls of a receiving end as lines of text, and streams on which many cases begin."""

from typing import List, Optional

from coding_vectors import Draw
from generator import CELL_BITS
from line_stream import Line

CELL = CELL_BITS // 8

Calls = List[str]


def end(events: int = 1024, sink: str = "ring 78") -> Calls:
    return [f"end {events} {sink}"]


def feed(octets: bytes) -> str:
    return f"feed {octets.hex()}".rstrip()


def feeds(octets: bytes, size: int) -> Calls:
    return [feed(octets[at:at + size]) for at in range(0, len(octets), size)]


def drawn_feeds(octets: bytes, draw: Draw) -> Calls:
    """In feeds of some hundred octets."""
    calls, at = [], 0
    while at < len(octets):
        size = 200 + draw.bits(10)
        calls.append(feed(octets[at:at + size]))
        at += size
    return calls


def steady(draw: Draw, phase: Optional[int] = None) -> Line:
    """24 cells, with whose last header the steady state begins."""
    return Line(draw, draw.phase() if phase is None else phase).idle(24)


def by_cell(line: Line, lead: int = 0) -> Calls:
    """A fresh end, fed cell by cell after some in one feed, so that the state after each header is seen."""
    octets, at = line.octets(), lead * CELL
    return end() + ([feed(octets[:at])] if lead else []) + feeds(octets[at:], CELL)


def together(*cases: Calls) -> Calls:
    return [call for case in cases for call in case]
