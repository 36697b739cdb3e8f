"""Bits as lists of 0 and 1, the first sent in front, and the numbers and octets that they write."""

from typing import List

Bits = List[int]


def bits_of(number: int, count: int) -> Bits:
    return [(number >> place) & 1 for place in reversed(range(count))]


def number_of(bits: Bits) -> int:
    number = 0
    for bit in bits:
        number = 2 * number + bit
    return number


def bits_of_octets(octets: bytes) -> Bits:
    bits: Bits = []
    for octet in octets:
        bits += bits_of(octet, 8)
    return bits


def octets_of(bits: Bits) -> bytes:
    return bytes(number_of(bits[at:at + 8]) for at in range(0, len(bits), 8))


def xor(left: Bits, right: Bits) -> Bits:
    if len(left) != len(right):
        raise ValueError("rows of bits of two lengths")
    return [a ^ b for a, b in zip(left, right)]
