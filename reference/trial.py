"""The commands that the program `trial` is run on, and what it must print: a sending and a receiving end over a line with damage."""

import re
from typing import Dict, List, NamedTuple, Optional

from bits import octets_of, bits_of_octets
from coding import PAYLOAD_OCTETS
from receiver import FEED_LIMIT, Receiver
from refusal import Refused
from sender import F3, USER, Sender
from sinks import RING_LIMIT, Ring
from words import event_words, readings_words

CELL_BITS = 424
HEADER = 100 << 4
FILL, NOISE = 0x55, 0xA5
LAST_NUMBER = 2 ** 32 - 1

class Command(NamedTuple):
    name: str
    numbers: List[int] = []


def number_of(word: str) -> Optional[int]:
    """Decimal, or hexadecimal behind 0x, up to 2^32 - 1."""
    if re.fullmatch("[0-9]+", word):
        number = int(word)
    elif re.fullmatch("0x[0-9A-Fa-f]+", word):
        number = int(word[2:], 16)
    else:
        return None
    return number if number <= LAST_NUMBER else None


def command_of(line: str) -> Optional[Command]:
    """None where the line spells no command."""
    name, *words = line.split(" ")
    numbers = [number_of(word) for word in words]
    if None in numbers:
        return None
    if name in ("pass", "noise", "start"):
        return Command(name, numbers) if len(numbers) == 1 else None
    if name == "f3":
        return Command(name, numbers) if len(numbers) == 1 and numbers[0] < 256 else None
    if name == "reset":
        return Command(name) if not numbers else None
    if name == "turn":
        once = len(set(numbers)) == len(numbers) > 0 and max(numbers) < CELL_BITS
        return Command(name, sorted(numbers)) if once else None
    return None


class Counts:
    """Of cells that were sent, by their kind, and of cells that went up, as they were sent or not."""

    def __init__(self) -> None:
        self.user = self.f3 = self.as_sent = self.changed = 0

    def add(self, other: "Counts") -> None:
        for name, count in vars(other).items():
            setattr(self, name, getattr(self, name) + count)

    def words(self) -> str:
        return f"sent {self.user} user, {self.f3} F3; up {self.as_sent} as sent, {self.changed} changed"


class Trial:
    def __init__(self) -> None:
        self.sender, self.receiver = Sender(), Receiver()
        self.number = 1
        self.total = Counts()

    def user_cell(self) -> bytes:
        return HEADER.to_bytes(4, "big") + self.number.to_bytes(4, "big") + bytes([FILL]) * (PAYLOAD_OCTETS - 4)

    def feed(self, octets: bytes, sent: bytes, counts: Counts, events: Ring) -> None:
        cells = Ring(RING_LIMIT)
        self.receiver.feed(octets, cells, events)
        for cell in cells.take_all():
            if cell == sent:
                counts.as_sent += 1
            else:
                counts.changed += 1

    def cell(self, turned: List[int], counts: Counts, events: Ring) -> None:
        user = self.user_cell()
        octets, kind = self.sender.send([user])
        counts.user += kind == USER
        counts.f3 += kind == F3
        bits = bits_of_octets(octets)
        for at in turned:
            bits[at] ^= 1
        self.feed(octets_of(bits), user if kind == USER else b"", counts, events)
        self.number += kind == USER

    def noise(self, count: int, counts: Counts, events: Ring) -> None:
        for at in range(0, count, FEED_LIMIT):
            self.feed(bytes([NOISE]) * min(FEED_LIMIT, count - at), b"", counts, events)

    def obey(self, command: Command) -> List[str]:
        counts, events = Counts(), Ring(RING_LIMIT)
        words = " ".join([command.name] + [str(number) for number in command.numbers])
        if command.name == "start":
            words = f"start 0x{command.numbers[0]:08X}"
            try:
                self.sender.start(command.numbers[0])
                answer = "accepted"
            except Refused as refused:
                answer = f"refused {refused.number}"
        elif command.name == "f3":
            words = f"f3 0x{command.numbers[0]:02X}"
            self.sender.set_f3(bytes(command.numbers) * PAYLOAD_OCTETS)
            answer = "accepted"
        elif command.name == "reset":
            self.receiver.reset()
            answer = "accepted"
        else:
            if command.name == "pass":
                for _ in range(command.numbers[0]):
                    self.cell([], counts, events)
            elif command.name == "turn":
                self.cell(command.numbers, counts, events)
            else:
                self.noise(command.numbers[0], counts, events)
            answer = counts.words()
        self.total.add(counts)
        return [f"{words}: {answer}"] + [f"  {event_words(event)}" for event in events.take_all()]

    def summary(self) -> List[str]:
        return [f"cells: {self.total.words()}"] + readings_words(self.receiver)


def output(script: str) -> List[str]:
    trial, lines = Trial(), []
    for number, line in enumerate(script.split("\n")[:-1], 1):
        line = line.strip(" \t\r\f")
        if not line or line[0] == "#":
            continue
        command = command_of(line)
        lines += trial.obey(command) if command else [f"line {number}: malformed"]
    return lines + trial.summary()


SCRIPT = """\
# A clean start: PRESYNC with the first header, SYNC with the 9th, the phase with the 16th, and steady with the 24th, which does not go up.
pass 24
# The 25th cell goes up.
pass 1
pass 6

# One wrong header bit is mended; after it a wrong one is discarded, until a right one has come.
turn 5
turn 5
pass 2
# Wrong payload bits are not seen.
turn 40
turn 423 200
# Two wrong header bits: the cell is discarded.
turn 3 17
pass 3

# Six cells in a row that are past mending: the boundary stays, and cells go up again behind them.
turn 3 17
turn 0 39 100
turn 1 2
turn 7 8
turn 30 31
turn 20 29
pass 3
# Seven: it is lost, and 25 cells later they go up again.
turn 3 17
turn 0 39 100
turn 1 2
turn 7 8
turn 30 31
turn 20 29
turn 4 19
pass 40

# A single octet moves the boundary: seven headers at the old place are wrong.
noise 1
pass 50
# Much noise.
noise 5000
pass 60

# The sender starts again at another phase, in mid-stream: the boundary stays, but the phase is wrong. Headers that seem right or mended
# let changed cells up, until the descrambler goes back to acquisition.
start 0x3ECFEDE8
pass 60
# Refused starts change nothing.
start 0
start 2147483648
start 4294967295
pass 2
start 2147483647
pass 480
# Other F3 payloads.
f3 0x55
pass 435
f3 0
# A reset of the receiving end: it hunts again, from the next bit on.
reset
pass 26

# No commands.
pass
pass 4294967296
pass -1
pass 1 2
turn
turn 424
turn 3 3
turn 3  4
noise 0x
start
f3 256
f3
reset now
Pass 1
  pass 0x0A\t
noise 0
"""


def files() -> Dict[str, bytes]:
    return {"stdin": SCRIPT.encode(), "stdout": "".join(line + "\n" for line in output(SCRIPT)).encode()}
