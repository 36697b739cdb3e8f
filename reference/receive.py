"""The line that the program `receive` is run on, and the cells that it must write."""

from typing import Dict, List, Tuple

from coding_vectors import Draw
from line_stream import Line
from receiver import FEED_LIMIT, Readings, Receiver
from sinks import Ring

SEED = 155
PHASE = 0x2B6E0C47
NOISE_OCTETS, OFFSET = 150, 3

# VPI 0 and 17, VCI 100, 101 and 1042, with GFC, PT and CLP among them
CONNECTIONS = [0x00000640, 0x00000650, 0x01104120, 0x0110412F, 0xA0000641]


def line() -> bytes:
    """Noise, three bits more, a lead of idle cells, and user cells of several connections: among them idle and F3 cells, single wrong
    bits, a burst of six and a damaged payload, and two bits fall out."""
    draw = Draw(SEED)
    line = Line(draw, PHASE).noise(8 * NOISE_OCTETS + OFFSET).idle(40)
    for number in range(240):
        if number in (60, 140):
            line.f3([17] if number == 140 else [])
        elif number % 23 == 7:
            line.user([number % 40], header=CONNECTIONS[number % 5])
        elif number % 17 == 9:
            line.idle(1)
        elif number == 105:
            line.damaged(6, True, True)
        elif number == 120:
            line.user([50, 51, 300])
        else:
            line.user(header=CONNECTIONS[draw.bits(4) % 5])
    at = len(line.bits) - 60 * 424
    del line.bits[at:at + 2]
    return line.idle(4).octets()


def received() -> Tuple[List[bytes], Readings]:
    """The user cells, and what is read at the end, from the largest feeds."""
    octets, receiver, cells = line(), Receiver(), []
    for at in range(0, len(octets), FEED_LIMIT):
        sink = Ring(78)
        receiver.feed(octets[at:at + FEED_LIMIT], sink, Ring(1024))
        cells += sink.take_all()
    return cells, receiver.readings()


def files() -> Dict[str, bytes]:
    return {"stdin": line(), "stdout": b"".join(received()[0])}
