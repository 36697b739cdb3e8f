"""The check octet of a header by long division, and the syndrome of the 40 bits that a line carries."""

from bits import Bits, bits_of, xor

# x^8 + x^2 + x + 1: where its ones stand, the highest power in front
DIVISOR = [0, 6, 7, 8]

# Added to the remainder, so that a run of zeros is not a header.
COSET = bits_of(0x55, 8)


def remainder(dividend: Bits) -> Bits:
    """Long division of polynomials over GF(2), the highest power in front."""
    rest = list(dividend)
    for at in range(len(rest) - 8):
        if rest[at]:
            for place in DIVISOR:
                rest[at + place] ^= 1
    return rest[-8:]


def check_octet(header: Bits) -> Bits:
    return xor(remainder(header + [0] * 8), COSET)


def syndrome(line_header: Bits) -> Bits:
    """Of 32 header bits and the eight that came in the place of the check octet."""
    return xor(check_octet(line_header[:32]), line_header[32:])


def agrees(line_header: Bits) -> bool:
    """HEC6 to HEC1 of the syndrome are zero."""
    return not any(syndrome(line_header)[2:])
