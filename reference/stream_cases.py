"""Cases of whole streams at the receiving end: clean, damaged and shifted ones, noise, every sink, resets, and feeds of all lengths."""

from typing import Callable, List

from coding_vectors import NEAR_HEADERS, Draw
from generator import CELL_BITS
from line_stream import HEADER_BITS, HEC7, HEC8, Line
from receiver import FEED_LIMIT
from receiver_calls import CELL, Calls, drawn_feeds, end, feed, feeds, steady, together
from sender import F3_PERIOD, Sender


def offsets(draw: Draw) -> Calls:
    """Clean streams that begin at each bit of an octet, after noise."""
    lines = [Line(draw, draw.phase()).noise(8 * (6 + draw.bits(3)) + offset).idle(12).users(30) for offset in range(8)]
    return together(*(end() + drawn_feeds(line.octets(), draw) for line in lines))


def bursts(draw: Draw) -> Calls:
    """Damaged cells in a row from confidence 24: one to six, which the steady state outlives, and seven and eight. With the payload alone damaged nothing is lost."""
    calls: Calls = []
    for header, payload in [(True, True), (True, False), (False, True)]:
        line = steady(draw)
        for cells in range(1, 7 if header else 9):
            line.users(4).damaged(cells, header, payload)
        calls += end() + drawn_feeds(line.users(2).octets(), draw)
    for cells in [7, 8]:
        line = steady(draw).user().damaged(cells, True, True).idle(27).users(12)
        calls += end() + drawn_feeds(line.octets(), draw) + end() + drawn_feeds(steady(draw).user().damaged(cells, True, False).users(4).octets(), draw)
    return calls


def one_wrong_bit(draw: Draw) -> Calls:
    line = steady(draw)
    for bit in range(HEADER_BITS):
        line.user().user([bit])
    return end() + feeds(line.octets(), 8 * CELL)


def one_wrong_bit_in_detection(draw: Draw) -> Calls:
    line = steady(draw)
    for bit in range(HEADER_BITS):
        line.user().user([(7 * bit + 3) % HEADER_BITS]).user([bit])
    return end() + feeds(line.octets(), 9 * CELL)


def two_wrong_bits(draw: Draw) -> Calls:
    pairs = [[HEC8, HEC7], [0, 39], [31, 32], [38, 39], [0, 1]]
    pairs += [[bit, (bit + 1 + draw.bits(5)) % HEADER_BITS] for bit in range(HEADER_BITS)]
    line = steady(draw)
    for pair in pairs:
        line.user().user(pair)
    return end() + feeds(line.octets(), 8 * CELL)


def three_wrong_bits(draw: Draw) -> Calls:
    """Some of which look like one."""
    line = steady(draw)
    for bit in range(30):
        line.user(header=draw.bits(32) | 16).user([bit, bit + 1 + draw.bits(2), 35 + draw.bits(2)], header=draw.bits(32) | 16)
    return end() + feeds(line.octets(), 8 * CELL)


def lost_bits(draw: Draw) -> Calls:
    """Bits that fall out in a header or a payload, also a whole cell of them, by which the boundary stays and the phase is wrong."""
    calls: Calls = []
    for at, count in [(10, 1), (36, 3), (400, 8), (40, 424)]:
        line = steady(draw).users(4).idle(35).users(10)
        at += 26 * CELL_BITS
        del line.bits[at:at + count]
        calls += end() + drawn_feeds(line.octets(), draw)
    return calls


def inserted_bits(draw: Draw) -> Calls:
    calls: Calls = []
    for at, count in [(39, 1), (41, 7), (300, 9)]:
        line = steady(draw).users(4).idle(35).users(10)
        at += 26 * CELL_BITS
        line.bits[at:at] = Line(draw, 1).noise(count).bits
        calls += end() + drawn_feeds(line.octets(), draw)
    return calls


def noise(draw: Draw) -> Calls:
    return end() + feeds(draw.octets(20_000), 1000)


def phase_zero(draw: Draw) -> Calls:
    """Cells that are not scrambled."""
    line = steady(draw, 0).users(3).f3().user([7]).user([HEC8]).users(2)
    return end() + feeds(line.octets(), 3 * CELL)


def sinks(draw: Draw) -> Calls:
    """Headers of connections around 1042, and with GFC, PT and CLP, which are no part of the number."""
    connections = [1042, 1041, 1043, 0, 2 ** 24 - 1, 1041, 1042, 65536 + 1042, 1040, 1041]
    calls: Calls = []
    for sink in ["closed", "ring 0", "ring 2", "split 1042 2", "split 1042 0", "split 0 78", "split 16777216 3"]:
        line = steady(draw)
        for number, connection in enumerate(connections):
            line.user(header=draw.bits(4) << 28 | connection << 4 | draw.bits(3) << 1, wrong=[number] if number % 3 == 2 else [])
        calls += end(sink=sink) + feeds(line.octets(), 5 * CELL)
    return calls


def f3_cells(draw: Draw) -> Calls:
    """Kept ones are stored, mended ones too; discarded ones and those before the steady state are not."""
    line = Line(draw, draw.phase()).f3().idle(21).f3().f3().f3().f3().user().f3([2]).f3([2]).user().f3([0, 9]).idle(1).f3([28]).user()
    octets = line.octets()
    return end() + feeds(octets, CELL) + ["reset"] + feeds(octets, 6 * CELL)


def near_reserved(draw: Draw) -> Calls:
    """User headers next to the reserved ones, and reserved ones with a wrong bit."""
    line = steady(draw)
    for header in NEAR_HEADERS:
        line.user(header=header).user(header=header, wrong=[31])
    line.idle(1).cell(wrong=[30]).user().f3([30]).idle(1)
    return end() + feeds(line.octets(), 4 * CELL)


def resets(draw: Draw) -> Calls:
    """Within a payload, a header and between two cells; the cell under way is gone, what its header counted stays."""
    calls: Calls = end() + ["reset", "reset"]
    for at in [26 * CELL + 20, 26 * CELL + 3, 27 * CELL - 1, 27 * CELL, 12 * CELL + 30]:
        octets = steady(draw).f3().user().user([11]).users(2).idle(26).users(10).octets()
        calls += end() + drawn_feeds(octets[:at], draw) + ["reset"] + drawn_feeds(octets[at:], draw)
    octets = steady(draw).users(2).octets()
    return calls + drawn_feeds(octets, draw) + ["reset"] + drawn_feeds(octets, draw)


def one_octet_feeds(draw: Draw) -> Calls:
    """Off the octets by three bits."""
    line = Line(draw, draw.phase())
    line.bits = [0, 0, 0]
    return end() + feeds(line.idle(24).users(2).octets(), 1)


def largest_feeds(draw: Draw) -> Calls:
    """The first of them ends as many cells as a feed can: one with its 32nd bit, and 77 more."""
    octets, at = steady(draw).users(156).octets(), 25 * CELL - 4
    return end() + [feed(octets[:at])] + feeds(octets[at:at + 2 * FEED_LIMIT], FEED_LIMIT)


def refused_feeds(draw: Draw) -> Calls:
    octets = steady(draw).users(4).octets()
    too_many, at = draw.octets(FEED_LIMIT + 1), 25 * CELL + 17
    calls = end() + ["feed", feed(too_many), feed(octets[:at]), "feed", feed(octets * 3)]
    return calls + [feed(octets[at:]), "feed", "reset", "feed"]


def long_stream(draw: Draw) -> Calls:
    """A sent stream with a little more than a period of F3 cells, which begins in the steady state."""
    line = steady(draw)
    sender = Sender()
    sender.start(line.phase)
    octets = line.octets()
    for number in range(F3_PERIOD + 4):
        waiting = [bytes([0x00, 0x20, 0x06, 0x40]) + draw.octets(48)] if number % 13 == 2 else []
        octets += sender.send(waiting)[0]
    return end() + feeds(octets, FEED_LIMIT)


def drawn_cells(line: Line, draw: Draw) -> None:
    """One or a few cells, damaged or not, and at times some bits too many."""
    kind = draw.bits(4)
    if kind == 0:
        line.disagreeing(1 + draw.bits(2))
    elif kind == 1:
        line.user([HEC8 + draw.bits(1)])
    elif kind < 4:
        line.user([draw.bits(5)])
    elif kind == 4:
        line.damaged(1 + draw.bits(2), True, True)
    elif kind == 5:
        line.f3()
    else:
        line.user(header=0x00100000 | draw.bits(3) << 4)
    if draw.bits(6) == 0:
        line.noise(1 + draw.bits(5))


def drawn_streams(draw: Draw) -> Calls:
    """Damage, sinks, feeds and resets as they fall."""
    calls: Calls = []
    for events in [0, 2, 5, 30, 1024]:
        line = Line(draw, draw.phase()).noise(draw.bits(7)).idle(9).users(24)
        for _ in range(48):
            drawn_cells(line, draw)
        calls += end(events, ["ring 4", "ring 78", "split 65540 3", "split 65539 0"][draw.bits(2)])
        for call in drawn_feeds(line.octets(), draw):
            calls += [call] if draw.bits(5) else ["reset", call]
    return calls


CASES: List[Callable[[Draw], Calls]] = [
    offsets,
    bursts,
    one_wrong_bit,
    one_wrong_bit_in_detection,
    two_wrong_bits,
    three_wrong_bits,
    lost_bits,
    inserted_bits,
    noise,
    phase_zero,
    sinks,
    f3_cells,
    near_reserved,
    resets,
    one_octet_feeds,
    largest_feeds,
    refused_feeds,
    long_stream,
    drawn_streams,
]
