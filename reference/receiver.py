"""The receiving end, from its rules, over a list of all the bits since it was made or reset.

Nothing happens but where a header or a kept cell ends, so a feed goes from one such place to the next. The boundary is read off the
list of headers since the hunt ended; the descrambler is a value, and each header turns it into the next one."""

from itertools import takewhile
from typing import Dict, List, NamedTuple, Optional, Tuple, Union

from bits import Bits, bits_of, bits_of_octets, octets_of, xor
from check_octet import agrees, syndrome
from coding import PAYLOAD_OCTETS, header_mask, payload_mask, predicted_samples
from finder import CELLS, find_phase, word_of_samples
from generator import CELL_BITS, next_phase
from idle_cells import IDLE_CELL
from refusal import NO_OCTETS, NO_SPACE, TOO_MANY_OCTETS, Refused
from sender import F3_HEADER
from sinks import Ring

FEED_LIMIT = 4096
HEADER_BITS = 40
PAYLOAD_BITS = 8 * PAYLOAD_OCTETS
LAST_COUNT = 2 ** 32 - 1
LAST_BIT_COUNT = 2 ** 63 - 1

HUNT, PRESYNC, SYNC = "HUNT", "PRESYNC", "SYNC"
CORRECTION, DETECTION = "correction", "detection"

# The header that ends the hunt and the eight that confirm it.
HEADERS_TO_SYNC = 1 + 8
WRONG_TO_HUNT = 7

VERIFICATION_LEAST, STEADY_LEAST, FULL_CONFIDENCE = 8, 16, 24

# What a freed syndrome is where the samples alone are wrong.
SAMPLES_WRONG = [bits_of(0x80, 8), bits_of(0x40, 8), bits_of(0xC0, 8)]

MENDED, DISCARDED = (1, 1), (1, 2)
FULL, UNSERVED = (4, 1), (4, 2)
BOUNDARY_EVENTS = {(HUNT, PRESYNC): (2, 1), (PRESYNC, SYNC): (2, 2), (PRESYNC, HUNT): (2, 3), (SYNC, HUNT): (2, 4)}


class Acquisition(NamedTuple):
    """Gathers the samples of agreeing headers until as many stand in a row as a phase needs."""

    row: Tuple[Tuple[int, ...], ...] = ()
    # none is found yet
    phase: Optional[int] = None

    @property
    def confidence(self) -> int:
        return len(self.row)

    def after(self, header: Bits) -> "Descrambler":
        if not agrees(header):
            return Acquisition()
        row = self.row + (tuple(syndrome(header)[:2]),)
        if len(row) < CELLS:
            return Acquisition(row)
        try:
            return Verification(find_phase(word_of_samples([list(pair) for pair in row])), len(row))
        except Refused:
            return Acquisition()


class Verification(NamedTuple):
    """Has the phase of the last header's cell, and holds the samples that come against the predicted ones."""

    phase: int
    confidence: int

    def after(self, header: Bits) -> "Descrambler":
        phase, confidence = next_phase(self.phase), self.confidence
        if agrees(header):
            confidence += 1 if syndrome(header)[:2] == predicted_samples(phase) else -1
        if confidence < VERIFICATION_LEAST:
            return Acquisition()
        if confidence == FULL_CONFIDENCE:
            return Steady(phase, confidence)
        return Verification(phase, confidence)


class Steady(NamedTuple):
    """Has the phase of the last header's cell, and trusts it."""

    phase: int
    confidence: int

    def freed(self, header: Bits) -> Bits:
        """The syndrome of the next header, without the samples that are predicted of it."""
        return xor(syndrome(header), predicted_samples(next_phase(self.phase)) + [0] * 6)

    def mendings(self, header: Bits) -> List[Bits]:
        """The header with one bit turned, wherever this makes it right."""
        turned = [header[:bit] + [1 - header[bit]] + header[bit + 1:] for bit in range(HEADER_BITS)]
        return [other for other in turned if not any(self.freed(other))]

    def after(self, header: Bits) -> "Descrambler":
        fall = self.freed(header) in SAMPLES_WRONG
        confidence = self.confidence - 1 if fall else min(self.confidence + 1, FULL_CONFIDENCE)
        return Steady(next_phase(self.phase), confidence) if confidence >= STEADY_LEAST else Acquisition()


Descrambler = Union[Acquisition, Verification, Steady]


class Event(NamedTuple):
    bit: int
    layer: int
    cause: int


class Kept(NamedTuple):
    """A cell whose header was right or mended, and whose payload is still to come."""

    header: bytes
    phase: int
    last_bit: int


class Readings(NamedTuple):
    delineation: str
    # agreeing headers after the one that ended the hunt in PRESYNC, wrong headers in a row in SYNC, 0 in HUNT
    headers: int
    descrambler: str
    confidence: int
    # of the last cell whose header came, where one is known
    phase: Optional[int]
    mode: str
    bits: int
    counters: Dict[str, int]
    f3_payload: bytes


def descrambler_event(before: Descrambler, after: Descrambler) -> Optional[Tuple[int, int]]:
    if type(before) is type(after):
        return None
    return 3, {Verification: 1, Steady: 2, Acquisition: 3}[type(after)]


def row_of_wrong(wrong: List[bool]) -> int:
    """How many at the end are wrong."""
    return len(list(takewhile(bool, reversed(wrong))))


class Receiver:
    """Where a sink is asked for, it is anything with `put`, as in `sinks`; events go to a ring."""

    def __init__(self) -> None:
        self.counters: Dict[str, int] = dict.fromkeys(["taken", "mended", "discarded", "full", "unserved", "f3", "lost"], 0)
        self.bit_count = 0
        self.f3_payload = bytes(PAYLOAD_OCTETS)
        self.reset()

    def reset(self) -> None:
        self.bits: Bits = []
        self.wrong: List[bool] = []
        self.descrambler: Descrambler = Acquisition()
        self.mode = CORRECTION
        self.header_end = HEADER_BITS
        self.kept: Optional[Kept] = None
        self.bits_before = self.bit_count

    def delineation(self) -> Tuple[str, int]:
        """With its number of headers."""
        if not self.wrong:
            return HUNT, 0
        if len(self.wrong) < HEADERS_TO_SYNC:
            return PRESYNC, len(self.wrong) - 1
        return SYNC, row_of_wrong(self.wrong)

    def readings(self) -> Readings:
        descrambler = type(self.descrambler).__name__
        confidence, phase = self.descrambler.confidence, self.descrambler.phase
        return Readings(*self.delineation(), descrambler, confidence, phase, self.mode, self.bit_count, dict(self.counters), self.f3_payload)

    def feed(self, octets: bytes, sink, events: Ring) -> int:
        """How many cells the sink took. Refuses no octets, and more than 4,096."""
        if not octets:
            raise Refused(NO_OCTETS)
        if len(octets) > FEED_LIMIT:
            raise Refused(TOO_MANY_OCTETS)
        taken = 0
        self.bits += bits_of_octets(octets)
        self.bit_count = min(self.bits_before + len(self.bits), LAST_BIT_COUNT)
        while True:
            # a kept cell ends before the next header does
            if self.kept and self.kept.last_bit <= len(self.bits):
                taken += self.end_of_cell(self.kept, sink, events)
                self.kept = None
            elif self.header_end <= len(self.bits):
                self.end_of_header(events)
            else:
                return taken

    def end_of_header(self, events: Ring) -> None:
        at = self.header_end
        header = self.bits[at - HEADER_BITS:at]
        descrambler, (boundary, _) = self.descrambler, self.delineation()

        steady = isinstance(descrambler, Steady)
        wrong = not agrees(header) or steady and any(descrambler.freed(header))
        good = self.good_header(header, at, events) if steady else None

        self.descrambler = descrambler.after(header)
        self.wrong.append(wrong)
        if wrong and boundary != SYNC or row_of_wrong(self.wrong) == WRONG_TO_HUNT:
            self.wrong, self.descrambler = [], Acquisition()
        boundary_after, _ = self.delineation()
        self.note(at, BOUNDARY_EVENTS.get((boundary, boundary_after)), events)
        self.note(at, descrambler_event(descrambler, self.descrambler), events)

        if isinstance(self.descrambler, Steady):
            if not steady:
                self.mode = CORRECTION
            elif good and boundary == boundary_after == SYNC:
                phase = self.descrambler.phase
                self.kept = Kept(octets_of(xor(good[:32], header_mask(phase))), phase, at + PAYLOAD_BITS)
        self.header_end += 1 if boundary_after == HUNT else CELL_BITS

    def good_header(self, header: Bits, at: int, events: Ring) -> Optional[Bits]:
        """In the steady state: the header if it is right, or mended; None if it is discarded."""
        if not any(self.descrambler.freed(header)):
            self.mode = CORRECTION
            return header
        mendings = self.descrambler.mendings(header) if self.mode == CORRECTION else []
        self.mode = DETECTION
        self.count("mended" if mendings else "discarded")
        self.note(at, MENDED if mendings else DISCARDED, events)
        return mendings[0] if mendings else None

    def end_of_cell(self, kept: Kept, sink, events: Ring) -> int:
        payload = octets_of(xor(self.bits[kept.last_bit - PAYLOAD_BITS:kept.last_bit], payload_mask(kept.phase)))
        if kept.header == IDLE_CELL[:4]:
            return 0
        if kept.header == F3_HEADER:
            self.f3_payload = payload
            self.count("f3")
            return 0
        try:
            sink.put(kept.header + payload)
        except Refused as refused:
            full = refused.number == NO_SPACE
            self.count("full" if full else "unserved")
            self.note(kept.last_bit, FULL if full else UNSERVED, events)
            return 0
        self.count("taken")
        return 1

    def count(self, what: str) -> None:
        self.counters[what] = min(self.counters[what] + 1, LAST_COUNT)

    def note(self, at: int, what: Optional[Tuple[int, int]], events: Ring) -> None:
        """An event at this bit since the reset, if there is one; lost where the ring is full."""
        if what is None:
            return
        try:
            events.put(Event(min(self.bits_before + at, LAST_BIT_COUNT), *what))
        except Refused:
            self.count("lost")
