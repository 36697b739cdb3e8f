"""The reference held to the worked values, to 17 idle cells from a line, and to what a sent stream is."""

from typing import Callable, List, Tuple

from bits import bits_of, number_of
from check_octet import agrees, check_octet
from coding import PAYLOAD_OCTETS, code_cell, decode_cell, line_header, samples
from finder import CELLS, find_phase, sample_word, word_of_samples
from generator import CELL_BITS, PHASE_BITS, forward, next_phase, phase_before, phase_bits
from idle_cells import IDLE_CELL, line_cells
from refusal import Refused
from sender import Sender

CHECK_OCTETS = {
    0x00000000: 0x55,
    0x00000001: 0x52,
    0x00000009: 0x6A,
    0xBECFEDE9: 0xF8,
    0x7786A112: 0x00,
}

SIXTEEN_CELLS = "10 10 00 11 11 00 11 10 01 10 01 01 00 11 01 11"


class Differs(Exception):
    """A value of the reference is not the known one."""


def expect(what: str, got: object, known: object) -> None:
    if got != known:
        raise Differs(f"{what}: {got!r} in place of {known!r}")


def worked_values() -> None:
    for header, known in CHECK_OCTETS.items():
        expect(f"check octet of {header:08x}", number_of(check_octet(bits_of(header, 32))), known)
    expect("phase after 3ecfede8", next_phase(0x3ECFEDE8), 0x7786A113)
    expect("phase before 7786a113", phase_before(0x7786A113), 0x3ECFEDE8)
    expect("idle cell", code_cell(IDLE_CELL, 0x3ECFEDE8)[:6], bytes.fromhex("becfede9780b"))
    word = word_of_samples([[int(bit) for bit in pair] for pair in SIXTEEN_CELLS.split()])
    expect("phase of the sixteenth", find_phase(word), 0x061979AB)
    expect("its sample word", sample_word(0x061979AB), word)
    expect("phase after it", next_phase(0x061979AB), 0x1BD3A17C)
    expect("phase of word 0", find_phase(0), 0)


def finder_undoes_sampling() -> None:
    """At each bit of a phase alone: sampling and finding go through exclusive or."""
    for place in range(PHASE_BITS):
        expect(f"phase of bit {place} alone", find_phase(sample_word(1 << place)), 1 << place)


def idle_phases() -> List[int]:
    """The phase of each of the 17 cells, from the samples of the first 16."""
    found = find_phase(word_of_samples([samples(line) for line in line_cells()[:CELLS]]))
    phases = [found]
    for _ in range(CELLS - 1):
        phases.insert(0, phase_before(phases[0]))
    return phases + [next_phase(found)]


def idle_cells() -> None:
    lines = line_cells()
    expect("idle cells", len(lines), 17)
    for number, (line, phase) in enumerate(zip(lines, idle_phases()), start=1):
        expect(f"idle cell {number} agrees", agrees(line_header(line)), True)
        expect(f"idle cell {number}", code_cell(IDLE_CELL, phase), line)
        expect(f"idle cell {number} decoded", decode_cell(line, phase), IDLE_CELL)


def expected_cells(lent: List[bool], users: List[bytes]) -> List[Tuple[str, bytes]]:
    """Kind and cell of each send from a start on, where users wait and a source with all of them is lent to some sends: by places, not by steps."""
    fill = bytes([0x6A]) * PAYLOAD_OCTETS
    others = [k for k in range(len(lent)) if k % 432 != 0]
    takers = [k for k in others if lent[k]][:len(users)]
    cells = {k: ("F3", bytes.fromhex("00000009") + fill) for k in range(0, len(lent), 432)}
    cells.update((k, ("idle", bytes.fromhex("00000001") + fill)) for k in others)
    cells.update((k, ("user", user)) for k, user in zip(takers, users))
    return [cells[k] for k in range(len(lent))]


def sends_as_expected(sender: Sender, what: str, start: int, lent: List[bool], users: List[bytes]) -> None:
    """Cell number k is coded at the start's phase, moved on by 424 steps k times, and is the one expected there."""
    generated = forward(phase_bits(start), CELL_BITS * len(lent))
    waiting = list(users)
    expected = expected_cells(lent, users)
    for k, (kind, cell) in enumerate(expected):
        phase = number_of(generated[CELL_BITS * k:CELL_BITS * k + PHASE_BITS])
        line, sent_kind = sender.send(waiting if lent[k] else [])
        expect(f"{what}, cell {k}", (line, sent_kind), (code_cell(cell, phase), kind))
        expect(f"{what}, cell {k} decoded", decode_cell(line, phase), cell)
    sent = sum(kind == "user" for kind, _ in expected)
    expect(f"{what}, users left", waiting, users[sent:])


def sent_streams() -> None:
    """From its making, from a start, and from another one in the middle of a period; refused phases change nothing."""
    users = [bytes([0x01, 0x10, 0x41, 0x20]) + bytes([k % 256]) * PAYLOAD_OCTETS for k in range(432)]
    sender = Sender()
    sends_as_expected(sender, "a fresh sender", 1, [k % 3 == 1 for k in range(50)], users[:5])
    sender.start(0x3ECFEDE8)
    # users wait to the end of the second period, and some sends are lent nothing
    sends_as_expected(sender, "a started sender", 0x3ECFEDE8, [k % 7 != 0 for k in range(2 * 432 + 40)], users)
    before = (sender.phase, sender.number)
    for phase in (0, 1 << 31, (1 << 32) - 1):
        expect(f"start at {phase}", refusal_of(lambda: sender.start(phase)), 3)
        expect(f"the sender after a refused start at {phase}", (sender.phase, sender.number), before)
    for phase in (0x7FFFFFFF, 1):
        sender.start(phase)
        sends_as_expected(sender, f"started again at {phase}", phase, [True] * 435, users[:431])


def refusal_of(call: Callable[[], None]) -> int:
    """The number with which a call is refused, and 0 where it is not."""
    try:
        call()
    except Refused as refused:
        return refused.number
    return 0


def run() -> None:
    worked_values()
    finder_undoes_sampling()
    idle_cells()
    sent_streams()
