"""Cases for the rules of the receiving end: the boundary, the descrambler and the events, each with headers made for it."""

from typing import Callable, List

from bits import Bits
from check_octet import agrees
from coding_vectors import Draw
from line_stream import HEADER_BITS, HEC7, HEC8, Line
from receiver_calls import CELL, Calls, by_cell, end, feed, feeds, steady, together

# Both samples of a header.
BOTH = [HEC8, HEC7]


def first_handed_up(draw: Draw) -> Calls:
    return by_cell(Line(draw, draw.phase()).users(27))


def fullest_moment(draw: Draw) -> Line:
    """Steady at confidence 22, and then seven headers whose samples are wrong: with the last one C falls to 15, and SYNC is lost."""
    line = steady(draw).user().user(BOTH).user(BOTH).user(BOTH).user()
    for _ in range(7):
        line.user(BOTH)
    return line


def event_rings(draw: Draw) -> Calls:
    calls: Calls = []
    for places, sink in [(0, "closed"), (1, "ring 1"), (1, "closed"), (2, "ring 1"), (3, "closed"), (3, "ring 1")]:
        octets = fullest_moment(draw).octets()
        calls += end(places, sink) + feeds(octets[:28 * CELL], 14 * CELL) + feeds(octets[28 * CELL:] + draw.octets(200), 4 * CELL)
    return calls


def steady_and_sync_lost_together(draw: Draw) -> Calls:
    return by_cell(fullest_moment(draw).users(3), 24)


def six_keep(draw: Draw) -> Calls:
    return by_cell(steady(draw).user().disagreeing(6).users(3), 24)


def seventh_loses(draw: Draw) -> Calls:
    return by_cell(steady(draw).user().disagreeing(7).users(3), 24)


def six_keep_one_mended(draw: Draw) -> Calls:
    """A mended header is wrong: it is the first of seven."""
    return together(by_cell(steady(draw).user().user([3]).disagreeing(5).users(2), 24), by_cell(steady(draw).user().user([3]).disagreeing(6).users(2), 24))


def sync_lost_in_acquisition(draw: Draw) -> Calls:
    return by_cell(Line(draw, draw.phase()).idle(10).disagreeing(6).idle(1).disagreeing(7).idle(2), 9)


def sync_lost_in_verification(draw: Draw) -> Calls:
    return by_cell(Line(draw, draw.phase()).idle(18).disagreeing(6).idle(2).disagreeing(7).idle(2), 16)


def sync_lost_on_agreeing(draw: Draw) -> Calls:
    """The seventh wrong header agrees, and the same 40 bits do not end the hunt."""
    return by_cell(steady(draw).user().disagreeing(6).user(BOTH).users(2), 24)


def presync_lost(draw: Draw) -> Calls:
    """After each number of agreeing headers."""
    return together(*(by_cell(Line(draw, draw.phase()).idle(headers).disagreeing(1).noise(96)) for headers in range(1, 10)))


def next_window(line: Line) -> Bits:
    """41 bits: the first 40 disagree, and the last 40 agree."""
    while True:
        bits = [line.draw.bits(1)] + line.agreeing()
        if not agrees(bits[:HEADER_BITS]):
            return bits


def old_bits_count(draw: Draw) -> Calls:
    """PRESYNC and SYNC are lost, and the next bit makes an agreeing header with the 39 before it."""
    early = Line(draw, draw.phase()).idle(3)
    late = Line(draw, draw.phase()).idle(12).disagreeing(6)
    for line in [early, late]:
        line.bits += next_window(line)
        line.noise(383 + 8 * 60)
    return by_cell(early) + by_cell(late, 12)


def too_few_bits(draw: Draw) -> Calls:
    """With zeros before them 32 bits, or 39, would be a header; after making and after a reset."""
    idle_without_zeros = Line(draw, 0).idle(3).bits[8:]
    line = Line(draw, 1)
    while True:
        header = line.agreeing()
        if header[0] == 0 and not agrees(header[1:] + [1]):
            break
    calls: Calls = []
    for bits in [idle_without_zeros, header[1:] + [1]]:
        line.bits = list(bits)
        few = feeds(line.noise(8 * 30).octets(), 4)[:16]
        calls += end() + few + [feed(draw.octets(70)), "reset"] + few
    return calls


def acquisition(draw: Draw) -> Calls:
    """A disagreeing header sets the confidence to 0, in SYNC too."""
    return by_cell(Line(draw, draw.phase()).idle(12).disagreeing(1).idle(15).disagreeing(1).idle(24).users(3), 11)


def first_sample(draw: Draw) -> Calls:
    """The very first sample is left out, and each other one counts."""
    calls: Calls = []
    for cell, bit in [(0, HEC8), (0, HEC7), (1, HEC8), (15, HEC7)]:
        line = Line(draw, draw.phase())
        for number in range(27):
            line.user([bit] if number == cell else [])
        calls += end() + feeds(line.octets(), 3 * CELL)
    return calls


def verification(draw: Draw) -> Calls:
    """Wrong samples lower the confidence, disagreeing headers leave it."""
    line = Line(draw, draw.phase()).idle(16).user([HEC8]).user([HEC7]).user(BOTH).disagreeing(2).idle(10).disagreeing(1).users(3)
    return by_cell(line, 15)


def verification_least(draw: Draw) -> Calls:
    """The confidence falls to 8, at which Verification stays, and then to 7."""
    line = Line(draw, draw.phase()).idle(16)
    for bit in range(8):
        line.user([HEC8 + bit % 2])
    return by_cell(line.idle(1).user(BOTH).user(BOTH).idle(26), 15)


def verification_lost(draw: Draw) -> Calls:
    """The phase jumps after the sixteenth header, and the boundary stays."""
    line = Line(draw, draw.phase()).idle(16)
    line.phase = draw.phase()
    return by_cell(line.idle(40).users(4), 15)


def steady_least(draw: Draw) -> Line:
    """The confidence falls to 16, at which the steady state stays, and then to 15 with the second wrong header in a row."""
    line = steady(draw).user()
    for _ in range(6):
        line.user(BOTH)
    return line.user().user([HEC8]).user([HEC7]).user([HEC8]).user().user([HEC7]).user(BOTH)


def steady_lost(draw: Draw) -> Calls:
    """Once the row goes on to its seventh, and once an agreeing header ends it. Then Steady begins again, in correction mode."""
    going_on = steady_least(draw).disagreeing(5).idle(2)
    ended = steady_least(draw).idle(1).disagreeing(6).idle(24).user([3]).users(2)
    return by_cell(going_on, 24) + by_cell(ended, 24)


def confidence_in_steady(draw: Draw) -> Calls:
    """Falls by wrong samples, mended ones too; rises with every other header, also a discarded one."""
    line = steady(draw).user(BOTH).user(BOTH).user().user([HEC8]).user().user([HEC7]).user(BOTH).user(BOTH)
    return by_cell(line.disagreeing(2).user().user([5]).user([HEC7]).users(3).user([HEC7, 39]).users(3), 24)


CASES: List[Callable[[Draw], Calls]] = [
    first_handed_up,
    event_rings,
    steady_and_sync_lost_together,
    six_keep,
    seventh_loses,
    six_keep_one_mended,
    sync_lost_in_acquisition,
    sync_lost_in_verification,
    sync_lost_on_agreeing,
    presync_lost,
    old_bits_count,
    too_few_bits,
    acquisition,
    first_sample,
    verification,
    verification_least,
    verification_lost,
    steady_lost,
    confidence_in_steady,
]
