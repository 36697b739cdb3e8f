"""The scrambler's generator: bits that obey U(n) = U(n - 28) xor U(n - 31), reached from any 31 in a row."""

from functools import lru_cache
from typing import Callable, List

from bits import bits_of, number_of

PHASE_BITS = 31
LAST_PHASE = 2 ** PHASE_BITS - 1
CELL_BITS = 424

# What a cell uses of the generator, counted from the moment t of HEC8: U(t - 211) to U(t + 391).
FIRST_USED = -211
LAST_USED = 8 + 383


def forward(bits: List[int], count: int) -> List[int]:
    """The bits, and as many more after them. Elements may be any numbers to be xored bit by bit."""
    bits = list(bits)
    for _ in range(count):
        bits.append(bits[-28] ^ bits[-31])
    return bits


def backward(bits: List[int], count: int) -> List[int]:
    """As many more before the bits, and the bits: U(n - 31) = U(n) xor U(n - 28)."""
    newest_first = list(reversed(bits))
    for _ in range(count):
        newest_first.append(newest_first[-31] ^ newest_first[-3])
    return list(reversed(newest_first))


def phase_bits(phase: int) -> List[int]:
    """U(t - 31) to U(t - 1). Of a larger number the low 31 bits count."""
    return bits_of(phase, PHASE_BITS)


@lru_cache(maxsize=64)
def around(phase: int) -> Callable[[int], int]:
    """U(t + k) by k, for all that a cell at the phase uses."""
    bits = backward(phase_bits(phase), -FIRST_USED - PHASE_BITS)
    bits = forward(bits, LAST_USED + 1)

    def at(k: int) -> int:
        if not FIRST_USED <= k <= LAST_USED:
            raise IndexError(k)
        return bits[k - FIRST_USED]

    return at


@lru_cache(maxsize=64)
def next_phase(phase: int) -> int:
    """The phase of the next cell, 424 steps on."""
    return number_of(forward(phase_bits(phase), CELL_BITS)[-PHASE_BITS:])


def phase_before(phase: int) -> int:
    """The phase of the cell before, 424 steps back."""
    return number_of(backward(phase_bits(phase), CELL_BITS)[:PHASE_BITS])
