"""Coding a cell of 52 octets at a phase into the 53 octets that the line carries, and decoding it again."""

from bits import Bits, bits_of_octets, octets_of, xor
from check_octet import check_octet, syndrome
from generator import LAST_PHASE, around
from refusal import BAD_PHASE, WRONG_LENGTH, Refused

HEADER_OCTETS = 4
PAYLOAD_OCTETS = 48
CELL_OCTETS = 52
LINE_OCTETS = 53


def header_mask(phase: int) -> Bits:
    u = around(phase)
    return [u(k) for k in range(-32, 0)]


def payload_mask(phase: int) -> Bits:
    u = around(phase)
    return [u(8 + k) for k in range(8 * PAYLOAD_OCTETS)]


def predicted_samples(phase: int) -> Bits:
    """What HEC8 and HEC7 carry."""
    u = around(phase)
    return [u(-211), u(1)]


def code_header(header: Bits, phase: int) -> Bits:
    """40 bits: the check octet is that of the scrambled header, with the two samples added."""
    scrambled = xor(header, header_mask(phase))
    return scrambled + xor(check_octet(scrambled), predicted_samples(phase) + [0] * 6)


def code_cell(cell: bytes, phase: int) -> bytes:
    """Refuses a wrong length, then a phase of 0 or above 2^31 - 1."""
    if len(cell) != CELL_OCTETS:
        raise Refused(WRONG_LENGTH)
    if not 0 < phase <= LAST_PHASE:
        raise Refused(BAD_PHASE)
    header = bits_of_octets(cell[:HEADER_OCTETS])
    payload = bits_of_octets(cell[HEADER_OCTETS:])
    return octets_of(code_header(header, phase) + xor(payload, payload_mask(phase)))


def decode_cell(line: bytes, phase: int) -> bytes:
    """The 52 octets of 53; the HEC octet is left out."""
    header = bits_of_octets(line[:HEADER_OCTETS])
    payload = bits_of_octets(line[HEADER_OCTETS + 1:])
    return octets_of(xor(header, header_mask(phase)) + xor(payload, payload_mask(phase)))


def line_header(line: bytes) -> Bits:
    """The 40 header bits of a cell on the line."""
    return bits_of_octets(line[:HEADER_OCTETS + 1])


def samples(line: bytes) -> Bits:
    """HEC8 and HEC7 of the syndrome of a cell on the line."""
    return syndrome(line_header(line))[:2]
