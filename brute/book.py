"""The plain book: what each call answers, told by the rules alone.

The book holds the rungs, closed or not, and the count of tracks taken. Every
call puts its questions in order; the first no gives the refusal's number.
"""

from __future__ import annotations

from dataclasses import dataclass
from typing import Any, Optional, Sequence, Union

from brute.costs import Cost
from brute.filters import Filter, Step
from brute.ladder import Limits, Pose, Track, list_of_ladder

BAD_SIZES = 1
SMALL_TABLES = 2
NOT_OPEN = 3
TOO_MANY_RUNGS = 4
NO_POSE = 5
TOO_MANY_POSES = 6
NOT_CLOSED = 7
SMALL_OUTPUT = 8
RATION_TAKEN = 9
NO_TRACK = 10

LARGEST_RUNG_LIMIT = 128
LARGEST_RATION = 4_096
LARGEST_RUNG = 16


@dataclass(frozen=True)
class Refused:
    """A call's refusal."""

    number: int


@dataclass(frozen=True)
class Taken:
    """A track's number in the list, from 1, and its cost."""

    number: int
    cost: Any


def sizes(rung_limit: int, ration: int, places: tuple[int, int, int]) -> Optional[Refused]:
    """Whether numbers and tables serve; places for poses, ranks and candidates."""
    if not (1 <= rung_limit <= LARGEST_RUNG_LIMIT and 1 <= ration <= LARGEST_RATION):
        return Refused(BAD_SIZES)
    wanted = (16 * rung_limit, 16 * rung_limit + ration * rung_limit, 256 * rung_limit)
    if any(given < least for given, least in zip(places, wanted)):
        return Refused(SMALL_TABLES)
    return None


class Book:
    """A ladder under way. Opening never fails; see opened for numbers as given."""

    def __init__(self, cost: Cost, limits: Limits, rung_limit: int, ration: int) -> None:
        self.cost = cost
        self.limits = limits
        self.rung_limit = rung_limit
        self.ration = ration
        self.rungs: list[Sequence[Pose]] = []
        self.closed = False
        self.taken = 0
        self._list: list[Track] = []

    @classmethod
    def opened(
        cls, cost: Cost, limits: Limits, rung_limit: int, ration: int, places: tuple[int, int, int]
    ) -> Book:
        """A book with the rung limit and ration as opening leaves them."""
        if sizes(rung_limit, ration, places) is not None:
            return cls(cost, limits, 0, 1)
        return cls(cost, limits, rung_limit, ration)

    def add(self, poses: Sequence[Pose]) -> Union[int, Refused]:
        """One rung more, from a source's list: the new rung count."""
        if self.closed:
            return Refused(NOT_OPEN)
        if len(self.rungs) >= self.rung_limit:
            return Refused(TOO_MANY_RUNGS)
        if len(poses) < 1:
            return Refused(NO_POSE)
        if len(poses) > LARGEST_RUNG:
            return Refused(TOO_MANY_POSES)
        self.rungs.append(tuple(poses))
        return len(self.rungs)

    def close(self) -> Union[int, Refused]:
        """No rung more: the rung count."""
        if self.closed:
            return Refused(NOT_OPEN)
        self.closed = True
        self._list = list_of_ladder(self.cost, self.limits, self.rungs)
        return len(self.rungs)

    def next(self, output: list[Step]) -> Union[Taken, Refused]:
        """Takes the first untaken track and writes its steps into the output."""
        return self.seek(output, lambda steps: True)

    def seek(self, output: list[Step], passes: Filter) -> Union[Taken, Refused]:
        """Takes untaken tracks in order until one passes; writes each judged one."""
        if not self.closed:
            return Refused(NOT_CLOSED)
        if len(output) < len(self.rungs):
            return Refused(SMALL_OUTPUT)
        while True:
            if self.taken >= self.ration:
                return Refused(RATION_TAKEN)
            if self.taken >= len(self._list):
                return Refused(NO_TRACK)
            track = self._list[self.taken]
            self.taken += 1
            steps = self._steps(track)
            output[: len(steps)] = steps
            if passes(steps):
                return Taken(self.taken, track.cost)

    def _steps(self, track: Track) -> list[Step]:
        """The track's pose numbers with their poses."""
        return [Step(number, rung[number]) for rung, number in zip(self.rungs, track.numbers)]
