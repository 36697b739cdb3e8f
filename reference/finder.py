"""Finding the phase from samples, by Gaussian elimination over GF(2)."""

from functools import lru_cache
from typing import List, Optional

from bits import Bits, bits_of, number_of
from coding import predicted_samples
from generator import CELL_BITS, LAST_PHASE, PHASE_BITS, backward, forward, phase_before
from refusal import BAD_SAMPLE_WORD, NO_ONE_PHASE, Refused

# 31 samples are those of 16 cells, without the very first.
CELLS = 16


@lru_cache(maxsize=None)
def sample_forms() -> List[Bits]:
    """For each sample of the word, the bits of the last cell's phase whose sum it is."""
    # each bit of the phase is an unknown of its own, so that the recurrence runs on sums of unknowns
    unknowns = [1 << place for place in reversed(range(PHASE_BITS))]
    oldest = (CELLS - 1) * CELL_BITS + 211
    sums = forward(backward(unknowns, oldest - PHASE_BITS), 2)
    forms: List[Bits] = []
    for cells_back in reversed(range(CELLS)):
        t = oldest - cells_back * CELL_BITS
        forms += [bits_of(sums[t - 211], PHASE_BITS), bits_of(sums[t + 1], PHASE_BITS)]
    return forms[1:]


def solve(forms: List[Bits], values: Bits) -> Optional[Bits]:
    """The one row of bits at which each form has its value; None where there is none, or several."""
    rows = [form + [value] for form, value in zip(forms, values)]
    unknowns = len(forms[0])
    for column in range(unknowns):
        pivots = [row for row in range(column, len(rows)) if rows[row][column]]
        if not pivots:
            return None
        rows[column], rows[pivots[0]] = rows[pivots[0]], rows[column]
        for row in range(len(rows)):
            if row != column and rows[row][column]:
                rows[row] = [a ^ b for a, b in zip(rows[row], rows[column])]
    if any(row[unknowns] for row in rows[unknowns:]):
        return None
    return [row[unknowns] for row in rows[:unknowns]]


def find_phase(word: int) -> int:
    """The phase of the cell that the last sample came from."""
    if word > LAST_PHASE:
        raise Refused(BAD_SAMPLE_WORD)
    found = solve(sample_forms(), bits_of(word, PHASE_BITS))
    if found is None:
        raise Refused(NO_ONE_PHASE)
    return number_of(found)


def word_of_samples(samples: List[Bits]) -> int:
    """The sample word of 16 cells' samples, the first cell's in front."""
    joined = [bit for pair in samples for bit in pair]
    return number_of(joined[-PHASE_BITS:])


def sample_word(phase: int) -> int:
    """The samples that lead to a phase: those of its cell and of the 15 before."""
    samples: List[Bits] = []
    for _ in range(CELLS):
        samples.insert(0, predicted_samples(phase))
        phase = phase_before(phase)
    return word_of_samples(samples)
