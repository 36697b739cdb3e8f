"""The input of the program receiver_vectors, and what it has to write."""

from functools import lru_cache
from typing import Dict, List, NamedTuple

import rule_cases
import stream_cases
from coding_vectors import Draw
from receiver import Event, Readings, Receiver
from receiver_calls import Calls
from refusal import Refused
from sinks import Closed, Ring, Split

SEED = 432


def cases() -> Dict[str, Calls]:
    """By name. Each draws from a source of its own, so that none moves another."""
    makers = rule_cases.CASES + stream_cases.CASES
    return {case.__name__: case(Draw(SEED + number)) for number, case in enumerate(makers)}


class Outcome(NamedTuple):
    """Of one call, with the cells and the events that it left in the rings."""

    answer: str
    cells: List[bytes]
    events: List[Event]
    readings: Readings

    def lines(self) -> List[str]:
        cells = [f"cell {cell.hex()}" for cell in self.cells]
        events = [f"event {event.bit} {event.layer} {event.cause}" for event in self.events]
        return [self.answer] + cells + events + [state(self.readings)]


def state(readings: Readings) -> str:
    phase = [] if readings.phase is None else ["phase", f"{readings.phase:08x}"]
    words = ["state", readings.delineation, readings.headers, readings.descrambler, readings.confidence, *phase, readings.mode, "bits", readings.bits]
    for name, count in readings.counters.items():
        words += [name, count]
    return " ".join(str(word) for word in words + ["payload", readings.f3_payload.hex()])


def sink_of(words: List[str]):
    kind, numbers = words[0], [int(word) for word in words[1:]]
    if kind == "ring":
        return Ring(*numbers)
    if kind == "closed":
        return Closed()
    border, places = numbers
    return Split(border, Ring(places), Closed())


def play(calls: List[str]) -> List[Outcome]:
    """What comes of calls, the first of which makes an end."""
    outcomes: List[Outcome] = []
    for call in calls:
        answer, *words = call.split()
        if answer == "end":
            receiver, events, sink = Receiver(), Ring(int(words[0])), sink_of(words[1:])
        elif answer == "reset":
            receiver.reset()
        else:
            try:
                answer += f" taken {receiver.feed(bytes.fromhex(''.join(words)), sink, events)}"
            except Refused as refused:
                answer += f" refused {refused.number}"
        outcomes.append(Outcome(answer, sink.take_all(), events.take_all(), receiver.readings()))
    return outcomes


@lru_cache(maxsize=None)
def played() -> Dict[str, List[Outcome]]:
    """What comes of each case."""
    return {name: play(calls) for name, calls in cases().items()}


def files() -> Dict[str, bytes]:
    calls = [call for case in cases().values() for call in case]
    lines = [line for outcomes in played().values() for outcome in outcomes for line in outcome.lines()]
    return {
        "stdin": "".join(call + "\n" for call in calls).encode(),
        "stdout": "".join(line + "\n" for line in lines).encode(),
    }
