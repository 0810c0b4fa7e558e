"""The costs of a track: Travel, Worst step and the Pair of two costs.

A cost has a letter, a zero, a price for a move, a joining of a cost with a
price, and a comparison that answers below zero, zero or above zero.
"""

from __future__ import annotations

from typing import Any, NamedTuple, Protocol

LARGEST_TRAVEL = 4_294_967_295


class Turns(NamedTuple):
    """How far each joint turns in one move."""

    shoulder: int
    elbow: int


class Cost(Protocol):
    """What every cost offers. Values and prices may be of any type."""

    letter: str

    def zero(self) -> Any:
        """The cost of a track of one rung."""

    def price(self, turns: Turns) -> Any:
        """The price of one move."""

    def join(self, cost: Any, price: Any) -> Any:
        """The cost of a track made longer by a move of this price."""

    def compare(self, first: Any, second: Any) -> int:
        """Below zero, zero or above zero, as first is below, same or above."""


def compare_numbers(first: int, second: int) -> int:
    """-1, 0 or 1, as first is below, same as or above second."""
    return (first > second) - (first < second)


class Travel:
    """The sum of all turns of both joints; the sum stops at its largest value."""

    letter = "T"

    def zero(self) -> int:
        return 0

    def price(self, turns: Turns) -> int:
        return turns.shoulder + turns.elbow

    def join(self, cost: int, price: int) -> int:
        return min(cost + price, LARGEST_TRAVEL)

    def compare(self, first: int, second: int) -> int:
        return compare_numbers(first, second)


class WorstStep:
    """The largest single turn of either joint."""

    letter = "W"

    def zero(self) -> int:
        return 0

    def price(self, turns: Turns) -> int:
        return max(turns.shoulder, turns.elbow)

    def join(self, cost: int, price: int) -> int:
        return max(cost, price)

    def compare(self, first: int, second: int) -> int:
        return compare_numbers(first, second)


class Pair:
    """Two costs side by side: the first is compared, and the second breaks ties."""

    letter = "P"

    def __init__(self, first: Cost, second: Cost) -> None:
        self.first = first
        self.second = second

    def zero(self) -> tuple[Any, Any]:
        return self.first.zero(), self.second.zero()

    def price(self, turns: Turns) -> tuple[Any, Any]:
        return self.first.price(turns), self.second.price(turns)

    def join(self, cost: tuple[Any, Any], price: tuple[Any, Any]) -> tuple[Any, Any]:
        return self.first.join(cost[0], price[0]), self.second.join(cost[1], price[1])

    def compare(self, first: tuple[Any, Any], second: tuple[Any, Any]) -> int:
        by_first = self.first.compare(first[0], second[0])
        if by_first != 0:
            return by_first
        return self.second.compare(first[1], second[1])
