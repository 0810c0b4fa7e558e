"""Filters: a yes or no for each list of steps."""

from __future__ import annotations

from typing import Callable, NamedTuple, Sequence

from brute.ladder import Pose


class Step(NamedTuple):
    """A pose number with its pose."""

    number: int
    pose: Pose


Filter = Callable[[Sequence[Step]], bool]


def reversals(shoulders: Sequence[int]) -> int:
    """How often the shoulder turns back, standing still left out."""
    differences = [end - start for start, end in zip(shoulders, shoulders[1:])]
    moving = [difference for difference in differences if difference != 0]
    return sum(1 for one, two in zip(moving, moving[1:]) if (one < 0) != (two < 0))


def turn_count(limit: int) -> Filter:
    """Passes a list of steps with at most this many reversals."""
    return lambda steps: reversals([step.pose.shoulder for step in steps]) <= limit


def envelope(low: Pose, high: Pose) -> Filter:
    """Passes a list of steps within both ends; there is none with low above high."""
    if low.shoulder > high.shoulder or low.elbow > high.elbow:
        raise ValueError("refusal 16: a low end lies above its high end")
    return lambda steps: all(
        low.shoulder <= step.pose.shoulder <= high.shoulder
        and low.elbow <= step.pose.elbow <= high.elbow
        for step in steps
    )
