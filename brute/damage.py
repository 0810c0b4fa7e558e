"""Damaged job files: cut, changed, lengthened."""

from __future__ import annotations

from typing import Iterator

from brute.dice import Dice
from brute.reader import LETTERS

NAMED_HEADER_BITS = 7


def truncations(job: bytes) -> Iterator[bytes]:
    """Every file cut from the end, the empty one first."""
    for length in range(len(job)):
        yield job[:length]


def changed(job: bytes, place: int, value: int) -> bytes:
    """The file with another byte at a place."""
    return job[:place] + bytes([value]) + job[place + 1 :]


def header_length(job: bytes) -> int:
    """How many bytes stand before the first record, going by the header map."""
    bits = job[len(LETTERS)] & NAMED_HEADER_BITS
    return len(LETTERS) + 1 + sum((4, 6, 2)[bit] for bit in range(3) if bits >> bit & 1) + 2


def header_changes(job: bytes) -> Iterator[bytes]:
    """Every single-byte change of the header by several values."""
    for place in range(header_length(job)):
        old = job[place]
        for value in (0, 255, old ^ 1, old ^ 128, (old + 8) % 256):
            if value != old:
                yield changed(job, place, value)


def random_damage(dice: Dice, job: bytes) -> bytes:
    """One change of some kind, mostly of a single byte."""
    kind = dice.below(8)
    place = dice.below(len(job))
    if kind == 0:
        return job[:place]
    if kind == 1:
        return job + dice.some_bytes(dice.between(1, 4))
    if kind == 2:
        return job[:place] + job[place + 1 :]
    if kind == 3:
        return job[:place] + dice.some_bytes(1) + job[place:]
    if kind == 4:
        return changed(job, place, job[place] ^ 1 << dice.below(8))
    return changed(job, place, dice.pick((0, 1, 4, 8, 15, 16, 17, 128, 255, dice.below(256))))
