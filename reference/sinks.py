"""Rings, and what user cells are handed up to: a ring of cells, a sink that serves nothing, and a split of two sinks."""

from typing import List

from refusal import NO_SPACE, NOT_SERVED, Refused

RING_LIMIT = 1024


def connection(cell: bytes) -> int:
    """VPI times 65,536, and VCI: without the four bits of GFC above them and the four of PT and CLP below."""
    return int.from_bytes(cell[:4], "big") % 2 ** 28 // 2 ** 4


class Ring:
    """Takes elements as long as a place is free."""

    def __init__(self, places: int) -> None:
        self.places = min(places, RING_LIMIT)
        self.held: List = []

    def put(self, element: object) -> None:
        if len(self.held) == self.places:
            raise Refused(NO_SPACE)
        self.held.append(element)

    def take_all(self) -> List:
        held, self.held = self.held, []
        return held


class Closed:
    """Serves no header."""

    def put(self, cell: bytes) -> None:
        raise Refused(NOT_SERVED)

    def take_all(self) -> List[bytes]:
        return []


class Split:
    """Connections below the border go to one sink, all others to another."""

    def __init__(self, border: int, below, others) -> None:
        self.border, self.below, self.others = border, below, others

    def put(self, cell: bytes) -> None:
        (self.below if connection(cell) < self.border else self.others).put(cell)

    def take_all(self) -> List[bytes]:
        return self.below.take_all() + self.others.take_all()
