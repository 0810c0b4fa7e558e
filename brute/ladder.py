"""Ladders: moves, tracks, the peel order and the list of a ladder."""

from __future__ import annotations

import functools
from dataclasses import dataclass
from typing import Any, NamedTuple, Sequence

from brute.costs import Cost, Turns

LARGEST_ROW_COUNT = 200_000


class Pose(NamedTuple):
    """The detent counts of the two joints."""

    shoulder: int
    elbow: int


class Limits(NamedTuple):
    """How far each joint may turn in one move."""

    shoulder: int
    elbow: int


Rung = Sequence[Pose]
Row = tuple[int, ...]


class TooManyRows(Exception):
    """The ladder has too many tracks to be listed by brute force."""


@dataclass(frozen=True)
class Track:
    """One pose number per rung, and the cost of the track cut after each rung."""

    numbers: Row
    costs: tuple[Any, ...]

    @property
    def cost(self) -> Any:
        """The cost of the whole track."""
        return self.costs[-1]


def turns_between(start: Pose, end: Pose) -> Turns:
    """The turn of each joint in a move: counts do not wrap."""
    return Turns(abs(end.shoulder - start.shoulder), abs(end.elbow - start.elbow))


def is_admissible(limits: Limits, turns: Turns) -> bool:
    """Whether each joint turns no further than its limit."""
    return turns.shoulder <= limits.shoulder and turns.elbow <= limits.elbow


def admissible_rows(limits: Limits, rungs: Sequence[Rung]) -> list[Row]:
    """Every row of pose numbers, one per rung, whose moves are all admissible.

    A ladder without rungs has none.
    """
    if not rungs:
        return []
    rows: list[Row] = [(number,) for number in range(len(rungs[0]))]
    for before, rung in zip(rungs, rungs[1:]):
        longer: list[Row] = []
        for row in rows:
            start = before[row[-1]]
            for number, end in enumerate(rung):
                if is_admissible(limits, turns_between(start, end)):
                    longer.append(row + (number,))
            if len(longer) > LARGEST_ROW_COUNT:
                raise TooManyRows(f"more than {LARGEST_ROW_COUNT} rows")
        rows = longer
    return rows


def track_of(cost: Cost, rungs: Sequence[Rung], row: Row) -> Track:
    """The track of a row: zero joined with the prices of its moves, in order."""
    poses = [rung[number] for rung, number in zip(rungs, row)]
    running = [cost.zero()]
    for start, end in zip(poses, poses[1:]):
        price = cost.price(turns_between(start, end))
        running.append(cost.join(running[-1], price))
    return Track(row, tuple(running))


def compare_by_peeling(cost: Cost, first: Track, second: Track) -> int:
    """The peel order: below zero when first comes before second.

    By cost; if the same, by last pose number; if the same, drop the last rung
    from both and compare again, from the cost of what is left.
    """
    for last in reversed(range(len(first.numbers))):
        by_cost = cost.compare(first.costs[last], second.costs[last])
        if by_cost != 0:
            return by_cost
        if first.numbers[last] != second.numbers[last]:
            return first.numbers[last] - second.numbers[last]
    return 0


def list_of_ladder(cost: Cost, limits: Limits, rungs: Sequence[Rung]) -> list[Track]:
    """All admissible tracks of a ladder in peel order."""
    tracks = [track_of(cost, rungs, row) for row in admissible_rows(limits, rungs)]
    in_peel_order = functools.cmp_to_key(
        lambda first, second: compare_by_peeling(cost, first, second)
    )
    return sorted(tracks, key=in_peel_order)
