"""The words for what a receiving end tells: its events and its readings, as the programs print them."""

from typing import List

from receiver import HUNT, PRESYNC, SYNC, Acquisition, Event, Receiver, Steady, Verification

EVENT_WORDS = {
    (1, 1): "header: mended",
    (1, 2): "header: discarded",
    (2, 1): "boundary: PRESYNC",
    (2, 2): "boundary: SYNC",
    (2, 3): "boundary: lost from PRESYNC",
    (2, 4): "boundary: lost from SYNC",
    (3, 1): "descrambler: verification",
    (3, 2): "descrambler: steady state",
    (3, 3): "descrambler: back to acquisition",
    (4, 1): "sink: full",
    (4, 2): "sink: not served",
}

DESCRAMBLER_WORDS = {Acquisition: "acquisition", Verification: "verification", Steady: "steady state"}


def readings_words(receiver: Receiver) -> List[str]:
    """All that can be read of a receiving end but the last F3 payload."""
    readings, counters, descrambler = receiver.readings(), receiver.counters, receiver.descrambler
    headers = {HUNT: "", PRESYNC: f", confirming headers {readings.headers}", SYNC: f", wrong headers in a row {readings.headers}"}
    phase = "" if isinstance(descrambler, Acquisition) else f", phase of the last cell 0x{descrambler.phase:08X}"
    return [
        f"bits: {readings.bits}",
        f"user cells: taken {counters['taken']}, full {counters['full']}, not served {counters['unserved']}",
        f"F3 cells: {counters['f3']}",
        f"headers: mended {counters['mended']}, discarded {counters['discarded']}",
        f"events: lost {counters['lost']}",
        f"boundary: {readings.delineation}{headers[readings.delineation]}",
        f"descrambler: {DESCRAMBLER_WORDS[type(descrambler)]}, confidence {descrambler.confidence}{phase}",
        f"mode: {readings.mode}",
    ]


def event_words(event: Event) -> str:
    return f"bit {event.bit}: {EVENT_WORDS[event.layer, event.cause]}"
