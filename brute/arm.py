"""The two-link arm: which poses reach a position.

The arm turns in 64 directions. Sines are whole numbers, ten thousand times the
true ones; the seventeen of the first quarter give all the others.
"""

from __future__ import annotations

import functools
from dataclasses import dataclass

from brute.ladder import Pose

DIRECTIONS = 64
SCALE = 10_000
FIRST_QUARTER = (
    0, 980, 1951, 2903, 3827, 4714, 5556, 6344, 7071,
    7730, 8315, 8819, 9239, 9569, 9808, 9952, 10000,
)  # fmt: skip


@dataclass(frozen=True)
class Arm:
    """Two link lengths, and half the side of the window around a position."""

    first_link: int
    second_link: int
    half_side: int


def sine(direction: int) -> int:
    """The sine of a direction, taken modulo 64."""
    direction %= DIRECTIONS
    if direction >= 32:
        return -sine(direction - 32)
    if direction > 16:
        return FIRST_QUARTER[32 - direction]
    return FIRST_QUARTER[direction]


def cosine(direction: int) -> int:
    """The cosine of a direction: the sine a quarter turn further."""
    return sine(direction + 16)


def reaches(arm: Arm, pose: Pose, x: int, y: int) -> bool:
    """Whether the pose puts the tool into the window around (x, y)."""
    upper = pose.shoulder
    lower = pose.shoulder + pose.elbow
    across = arm.first_link * cosine(upper) + arm.second_link * cosine(lower)
    up = arm.first_link * sine(upper) + arm.second_link * sine(lower)
    window = SCALE * arm.half_side
    return abs(across - SCALE * x) <= window and abs(up - SCALE * y) <= window


@functools.lru_cache(maxsize=None)
def reaching_poses(arm: Arm, x: int, y: int) -> tuple[Pose, ...]:
    """Every pose of 64 by 64 that reaches (x, y), by shoulder, then by elbow."""
    return tuple(
        Pose(shoulder, elbow)
        for shoulder in range(DIRECTIONS)
        for elbow in range(DIRECTIONS)
        if reaches(arm, Pose(shoulder, elbow), x, y)
    )
