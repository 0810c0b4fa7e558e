"""Random choices that come out alike on every version of Python.

Only Random.random is promised to repeat its sequence for a seed, so everything
here is drawn from it.
"""

from __future__ import annotations

import random
from typing import Sequence, TypeVar

Item = TypeVar("Item")


class Dice:
    """A sequence of choices fixed by its seed."""

    def __init__(self, seed: str) -> None:
        self._random = random.Random(seed)

    def below(self, end: int) -> int:
        """A number from 0 to end - 1."""
        return int(self._random.random() * end)

    def between(self, low: int, high: int) -> int:
        """A number from low to high, both counted in."""
        return low + self.below(high - low + 1)

    def one_in(self, count: int) -> bool:
        """Yes, once in so many times."""
        return self.below(count) == 0

    def pick(self, items: Sequence[Item]) -> Item:
        """One of the items."""
        return items[self.below(len(items))]

    def shuffled(self, items: Sequence[Item]) -> list[Item]:
        """The items in some order."""
        left = list(items)
        return [left.pop(self.below(len(left))) for _ in range(len(left))]

    def some_bytes(self, count: int) -> bytes:
        """So many bytes."""
        return bytes(self.below(256) for _ in range(count))
