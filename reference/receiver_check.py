"""The receiving end of the reference held to what the cases are for: each meets the moment that it was made for."""

from typing import Dict, List

import receive
from coding import CELL_OCTETS
from line_stream import HEADER_BITS
from receiver import CORRECTION, DETECTION, HUNT, PRESYNC, SYNC, Event
from receiver_calls import CELL
from receiver_vectors import Outcome, cases, played
from self_check import expect

ACQUISITION, VERIFICATION, STEADY = "Acquisition", "Verification", "Steady"

FRESH = {"taken": 0, "mended": 0, "discarded": 0, "full": 0, "unserved": 0, "f3": 0, "lost": 0}


def ends(case: str) -> List[List[Outcome]]:
    """What came of a case, apart for each end that it made."""
    parts: List[List[Outcome]] = []
    for outcome in played()[case]:
        if outcome.answer == "end":
            parts.append([])
        parts[-1].append(outcome)
    return parts


def states(outcomes: List[Outcome]) -> List[tuple]:
    return [outcome.readings[:4] for outcome in outcomes]


def events(outcomes: List[Outcome]) -> List[Event]:
    return [event for outcome in outcomes for event in outcome.events]


def moments(outcomes: List[Outcome]) -> Dict[int, List[tuple]]:
    """Layer and cause of the events at each bit."""
    found: Dict[int, List[tuple]] = {}
    for event in events(outcomes):
        found.setdefault(event.bit, []).append((event.layer, event.cause))
    return found


def causes(outcomes: List[Outcome]) -> List[tuple]:
    return [(event.layer, event.cause) for event in events(outcomes)]


def counts(outcomes: List[Outcome]) -> Dict[str, int]:
    return outcomes[-1].readings.counters


def header_bit(cell: int) -> int:
    """The number of the last header bit of a cell, of a stream that begins with the first bit."""
    return 424 * cell + HEADER_BITS


def lead_to_steady() -> None:
    (outcomes,) = ends("first_handed_up")
    expect("fresh", outcomes[0].readings, (HUNT, 0, ACQUISITION, 0, None, CORRECTION, 0, FRESH, bytes(48)))
    wanted = [(PRESYNC, n, ACQUISITION, n + 1) for n in range(8)]
    wanted += [(SYNC, 0, ACQUISITION, c) for c in range(9, 16)] + [(SYNC, 0, VERIFICATION, c) for c in range(16, 24)] + [(SYNC, 0, STEADY, 24)] * 4
    expect("states of a clean stream", states(outcomes)[1:], wanted)
    expect("cells of a clean stream", [len(outcome.cells) for outcome in outcomes], [0] * 25 + [1] * 3)
    expect("events of a clean stream", events(outcomes), [(header_bit(0), 2, 1), (header_bit(8), 2, 2), (header_bit(15), 3, 1), (header_bit(23), 3, 2)])


def row_of_seven() -> None:
    (kept,) = ends("six_keep")
    expect("six wrong headers", states(kept)[3:10], [(SYNC, n, STEADY, 24) for n in range(1, 7)] + [(SYNC, 0, STEADY, 24)])
    expect("cells after six", [len(outcome.cells) for outcome in kept][-3:], [1, 1, 1])
    (lost,) = ends("seventh_loses")
    expect("seven wrong headers", moments(lost)[header_bit(31)], [(1, 2), (2, 4), (3, 3)])
    mended_kept, mended_lost = ends("six_keep_one_mended")
    expect("a mended one of six", (states(mended_kept)[8], counts(mended_kept)["mended"]), ((SYNC, 6, STEADY, 24), 1))
    expect("a mended one of seven", moments(mended_lost)[header_bit(31)], [(1, 2), (2, 4), (3, 3)])
    (acquiring,) = ends("sync_lost_in_acquisition")
    expect("SYNC lost in Acquisition", (states(acquiring)[8][:2], moments(acquiring)[header_bit(23)]), ((SYNC, 6), [(2, 4)]))
    (verifying,) = ends("sync_lost_in_verification")
    expect("SYNC lost in Verification", (states(verifying)[9], moments(verifying)[header_bit(32)]), ((SYNC, 6, VERIFICATION, 18), [(2, 4), (3, 3)]))
    (agreeing,) = ends("sync_lost_on_agreeing")
    expect("SYNC lost on an agreeing header", moments(agreeing)[header_bit(31)], [(1, 2), (2, 4), (3, 3)])
    expect("its bits end no hunt", header_bit(31) + 1 in moments(agreeing), False)
    (together,) = ends("steady_and_sync_lost_together")
    expect("confidence before", states(together)[12], (SYNC, 6, STEADY, 16))
    expect("Steady and SYNC lost at once", moments(together)[header_bit(35)], [(1, 2), (2, 4), (3, 3)])


def hunting() -> None:
    for agreeing, outcomes in enumerate(ends("presync_lost"), start=1):
        wanted = (2, 3) if agreeing < 9 else (2, 2)
        bit = header_bit(agreeing) if agreeing < 9 else header_bit(8)
        expect(f"PRESYNC after {agreeing}", moments(outcomes)[bit], [wanted])
    early, late = ends("old_bits_count")
    expect("PRESYNC lost and found", [moments(early)[header_bit(3) + step] for step in (0, 1)], [[(2, 3)], [(2, 1)]])
    expect("SYNC lost and found", [moments(late)[header_bit(18) + step] for step in (0, 1)], [[(2, 4)], [(2, 1)]])
    for outcomes in ends("too_few_bits"):
        resets = [0] + [outcome.readings.bits for outcome in outcomes if outcome.answer == "reset"]
        expect("ends tried with few bits", len(resets), 2)
        for before in resets:
            few = [event for event in events(outcomes) if 0 < event.bit - before < HEADER_BITS]
            expect("events before 40 bits", few, [])


def descrambling() -> None:
    (acquiring,) = ends("acquisition")
    expect("C after a disagreeing header", states(acquiring)[3], (SYNC, 1, ACQUISITION, 0))
    expect("C after fifteen and one", states(acquiring)[18:20], [(SYNC, 0, ACQUISITION, 15), (SYNC, 1, ACQUISITION, 0)])
    left_out, *counted = ends("first_sample")
    expect("first sample left out", counts(left_out)["taken"], 3)
    expect("other samples count", [counts(outcomes)["taken"] for outcomes in counted], [0, 0, 0])
    (verifying,) = ends("verification")
    wanted = [16, 15, 14, 13, 13, 13] + list(range(14, 24)) + [23, 24, 24, 24]
    expect("C in Verification", [outcome.readings.confidence for outcome in verifying][2:], wanted)
    expect("cells after Verification", counts(verifying)["taken"], 2)
    (least,) = ends("verification_least")
    expect("least C of Verification", states(least)[10:14], [(SYNC, 0, VERIFICATION, 8), (SYNC, 0, VERIFICATION, 9), (SYNC, 0, VERIFICATION, 8), (SYNC, 0, ACQUISITION, 0)])
    (jump,) = ends("verification_lost")
    expect("Verification lost and won", causes(jump), [(2, 1), (2, 2), (3, 1), (3, 3), (3, 1), (3, 2)])
    expect("cells after the jump", counts(jump)["taken"], 4)


def steady_state() -> None:
    going_on, ended = ends("steady_lost")
    for outcomes in (going_on, ended):
        expect("least C of Steady", [state[2:] for state in states(outcomes)[12:16]], [(STEADY, 16), (STEADY, 17), (STEADY, 16), (ACQUISITION, 0)])
        expect("Steady lost", moments(outcomes)[header_bit(37)], [(1, 2), (3, 3)])
    expect("the row goes on", (states(going_on)[19][:2], moments(going_on)[header_bit(42)]), ((SYNC, 6), [(2, 4)]))
    expect("an agreeing header ends the row", [state[:2] for state in states(ended)[16:24]], [(SYNC, n) for n in range(7)] + [(SYNC, 0)])
    acquiring = ended[20].readings
    expect("mode that stays", acquiring.mode, DETECTION)
    expect("handed up again", [counts(ended)[name] - acquiring.counters[name] for name in ("taken", "mended")], [3, 1])
    (outcomes,) = ends("confidence_in_steady")
    wanted = [23, 22, 23, 22, 23, 22, 21, 20, 21, 22, 23, 24, 23, 24, 24, 24, 24, 24, 24, 24]
    expect("C in Steady", [outcome.readings.confidence for outcome in outcomes][2:], wanted)


def mending() -> None:
    (outcomes,) = ends("one_wrong_bit")
    expect("single errors", (counts(outcomes)["mended"], counts(outcomes)["taken"]), (40, 80))
    (outcomes,) = ends("one_wrong_bit_in_detection")
    expect("single errors in detection", [counts(outcomes)[name] for name in ("mended", "discarded", "taken")], [40, 40, 80])
    (outcomes,) = ends("two_wrong_bits")
    expect("double errors", [counts(outcomes)[name] for name in ("mended", "discarded", "taken")], [0, 45, 45])
    (outcomes,) = ends("three_wrong_bits")
    expect("triple errors that look like one", 0 < counts(outcomes)["mended"] < 30, True)
    for outcomes in ends("bursts")[:2]:
        expect("bursts of one to six", [cause for cause in causes(outcomes) if cause[0] in (2, 3)], [(2, 1), (2, 2), (3, 1), (3, 2)])
    expect("damaged payloads", counts(ends("bursts")[2]), dict(FRESH, taken=8 * 4 + 36 + 2))
    for outcomes in ends("bursts")[3:]:
        expect("bursts of seven and eight", causes(outcomes).count((2, 4)), 1)
    expect("Steady after bursts", [causes(ends("bursts")[number]).count((3, 2)) for number in (3, 5)], [2, 2])


def streams() -> None:
    for offset, outcomes in enumerate(ends("offsets")):
        expect(f"offset {offset}", (states(outcomes)[-1], counts(outcomes)["taken"] > 0), ((SYNC, 0, STEADY, 24), True))
    for case in ("lost_bits", "inserted_bits"):
        for outcomes in ends(case):
            expect(f"{case}: found again", (causes(outcomes).count((3, 2)), counts(outcomes)["taken"] > 4), (2, True))
    expect("a lost cell keeps SYNC", (2, 4) in causes(ends("lost_bits")[-1]), False)
    (outcomes,) = ends("noise")
    expect("noise hands up nothing", (counts(outcomes)["taken"], causes(outcomes).count((2, 3)) > 100), (0, True))
    (outcomes,) = ends("phase_zero")
    expect("phase 0", [counts(outcomes)[name] for name in ("taken", "f3", "mended")], [6, 1, 1])
    (outcomes,) = ends("long_stream")
    expect("F3 cells of a long stream", (counts(outcomes)["f3"], counts(outcomes)["taken"]), (2, 34))
    (outcomes,) = ends("f3_cells")
    expect("F3 cells", (counts(outcomes)["f3"], counts(outcomes)["taken"]), (8, 6))
    (outcomes,) = ends("near_reserved")
    expect("near the reserved headers", [counts(outcomes)[name] for name in ("taken", "f3", "mended")], [11, 1, 7])
    expect("drawn streams hand up", sum(counts(outcomes)["taken"] for outcomes in ends("drawn_streams")) > 30, True)


def rings_and_sinks() -> None:
    refused = [(counts(outcomes)["taken"], counts(outcomes)["full"], counts(outcomes)["unserved"]) for outcomes in ends("sinks")]
    expect("taken, full, not served", refused, [(0, 0, 10), (0, 10, 0), (5, 5, 0), (4, 1, 5), (0, 5, 5), (0, 0, 10), (7, 3, 0)])
    for outcomes in ends("event_rings")[:1]:
        expect("a ring of no places", (events(outcomes), counts(outcomes)["lost"] > 10), ([], True))
    expect("events in rings", [max(len(outcome.events) for outcome in outcomes) for outcomes in ends("event_rings")], [0, 1, 1, 2, 3, 3])
    (outcomes,) = ends("largest_feeds")
    expect("cells of the largest feeds", [len(outcome.cells) for outcome in outcomes], [0, 0, 78, 77])


def feeds_and_resets() -> None:
    (outcomes,) = ends("refused_feeds")
    answers = [outcome.answer for outcome in outcomes]
    expect("refusals", answers[1:3] + answers[4:6] + answers[7:8] + answers[9:], ["feed refused 1", "feed refused 2", "feed refused 1", "feed refused 2", "feed refused 1", "feed refused 1"])
    for number in (1, 2, 4, 5, 7, 9):
        expect("a refused feed changes nothing", outcomes[number][1:], ([], [], outcomes[number - 1].readings))
    expect("cells around refused feeds", counts(outcomes)["taken"], 4)
    (outcomes,) = ends("one_octet_feeds")
    expect("feeds of one octet", (len(outcomes), counts(outcomes)["taken"]), (1 + 26 * CELL + 1, 2))
    for outcomes in ends("resets"):
        for before, after in zip(outcomes, outcomes[1:]):
            if after.answer == "reset":
                readings = before.readings
                expect("a reset", after, ("reset", [], [], (HUNT, 0, ACQUISITION, 0, None, CORRECTION) + readings[6:]))
    under_way = [outcomes[-1] for outcomes in ends("resets")[1:2]]
    expect("the cell under way at a reset", [outcome.readings.counters["mended"] for outcome in under_way], [1])
    modes = [before.readings.mode for outcomes in ends("resets") for before, after in zip(outcomes, outcomes[1:]) if after.answer == "reset"]
    expect("resets in both modes", set(modes), {CORRECTION, DETECTION})


def program_receive() -> None:
    octets, (cells, readings) = receive.line(), receive.received()
    expect("length of the line", len(octets) > 3 * 4096, True)
    expect("cells received", (len(cells), {len(cell) for cell in cells}), (readings.counters["taken"], {CELL_OCTETS}))
    expect("connections received", len({cell[:4] for cell in cells}) >= 5, True)
    expect("mended and discarded", (readings.counters["mended"] > 4, readings.counters["discarded"] > 10), (True, True))
    expect("the end of the line", readings[:4], (SYNC, 0, STEADY, 24))


def run() -> None:
    expect("longest feed of the cases", max(len(call) for calls in cases().values() for call in calls), len("feed ") + 2 * 28 * CELL * 3)
    lead_to_steady()
    row_of_seven()
    hunting()
    descrambling()
    steady_state()
    mending()
    streams()
    rings_and_sinks()
    feeds_and_resets()
    program_receive()
