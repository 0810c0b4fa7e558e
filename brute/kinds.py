"""Kinds of random jobs, all small enough for a brute listing."""

from __future__ import annotations

from typing import Optional, Sequence

from brute.arm import SCALE, Arm, cosine, reaching_poses, sine
from brute.costs import Turns
from brute.dice import Dice
from brute.ladder import Limits, Pose, turns_between
from brute.writer import Parts, job_bytes, ladder_bytes

Rungs = list[list[Pose]]
Position = tuple[int, int]

LOWEST_COUNT = -32_768
HIGHEST_COUNT = 32_767
LARGEST_RUNG = 16
RATIONS = (1, 2, 3, 5, 63, 64, 65, 4096)


def rung_sizes(dice: Dice, rungs: int, largest: int, rows: int) -> list[int]:
    """So many rung sizes whose product is at most rows, in some order."""
    sizes: list[int] = []
    left = rows
    for _ in range(rungs):
        sizes.append(dice.between(1, min(largest, left)))
        left //= sizes[-1]
    return dice.shuffled(sizes)


def random_rungs(dice: Dice, sizes: Sequence[int], counts: Sequence[int]) -> Rungs:
    """Rungs of these sizes with both joints at any of these counts."""
    return [[Pose(dice.pick(counts), dice.pick(counts)) for _ in range(size)] for size in sizes]


def moves(rungs: Rungs) -> list[Turns]:
    """The turns of every move of a ladder."""
    return [
        turns_between(start, end)
        for before, rung in zip(rungs, rungs[1:])
        for start in before
        for end in rung
    ]


def limits_of_a_move(dice: Dice, rungs: Rungs) -> Optional[Limits]:
    """For each joint the exact turn of some move, so that some moves just fit."""
    turns = moves(rungs)
    if not turns:
        return None
    return Limits(dice.pick(turns).shoulder, dice.pick(turns).elbow)


def maybe_ration(dice: Dice) -> Optional[int]:
    """Mostly none, else one of the telling ones."""
    return dice.pick(RATIONS) if dice.one_in(4) else None


def small_ladder(dice: Dice) -> bytes:
    """A few rungs of a few poses at scattered counts."""
    sizes = rung_sizes(dice, dice.between(1, 6), dice.pick((2, 3, 4, 16)), 300)
    rungs = random_rungs(dice, sizes, range(-40, 41))
    limits = limits_of_a_move(dice, rungs) if dice.one_in(2) else None
    return ladder_bytes(rungs, limits, maybe_ration(dice))


def tie_ladder(dice: Dice) -> bytes:
    """Few distinct counts, so that many tracks cost the same."""
    sizes = rung_sizes(dice, dice.between(2, 8), dice.pick((2, 3, 5)), 400)
    counts = dice.pick(((0, 1), (0, 3, 3), (-1, 0, 1), (7,), (0, 2, 4, 5)))
    rungs = random_rungs(dice, sizes, counts)
    limits = limits_of_a_move(dice, rungs) if dice.one_in(4) else None
    return ladder_bytes(rungs, limits, maybe_ration(dice))


def extreme_ladder(dice: Dice) -> bytes:
    """Counts at both ends of their range, turns up to 65,535."""
    counts = (LOWEST_COUNT, LOWEST_COUNT + 1, -1, 0, 1, HIGHEST_COUNT - 1, HIGHEST_COUNT)
    sizes = rung_sizes(dice, dice.between(2, 8), 3, 200)
    rungs = random_rungs(dice, sizes, dice.pick((counts, (LOWEST_COUNT, HIGHEST_COUNT))))
    telling = (0, 1, 32_767, 32_768, 65_533, 65_534, 65_535)
    limits = Limits(dice.pick(telling), dice.pick(telling))
    return ladder_bytes(rungs, None if dice.one_in(2) else limits, maybe_ration(dice))


def lanes(dice: Dice) -> bytes:
    """Eight full rungs; a move stays within its lane, or the limits refuse it."""
    wide = dice.pick((16, 12, 8))
    rungs = []
    for _ in range(8):
        places = [(number % wide) * 1000 for number in range(LARGEST_RUNG)]
        rung = [Pose(place + dice.between(0, 9), dice.between(0, 9)) for place in places]
        rungs.append(dice.shuffled(rung))
    return ladder_bytes(rungs, Limits(dice.between(5, 9), dice.between(7, 9)), maybe_ration(dice))


def tip(arm: Arm, pose: Pose) -> Position:
    """Where a pose puts the tool, in ten thousandths."""
    upper = pose.shoulder
    lower = pose.shoulder + pose.elbow
    across = arm.first_link * cosine(upper) + arm.second_link * cosine(lower)
    up = arm.first_link * sine(upper) + arm.second_link * sine(lower)
    return across, up


def nearest(value: int) -> int:
    """The whole length nearest to a number of ten thousandths."""
    return (value + SCALE // 2) // SCALE


def random_arm(dice: Dice) -> Arm:
    """An arm with a window that few poses reach."""
    longest = dice.pick((20, 200, 2000))
    links = dice.between(longest // 2, longest), dice.between(longest // 2, longest)
    return Arm(links[0], links[1], dice.between(1, max(1, longest // 25)))


def positions(dice: Dice, arm: Arm, waypoints: int) -> list[Position]:
    """Up to so many positions that 1 to 16 poses reach and that make a small ladder."""
    chosen: list[Position] = []
    rows = 1
    for _ in range(4 * waypoints):
        across, up = tip(arm, Pose(dice.below(64), dice.below(64)))
        position = nearest(across), nearest(up)
        found = len(reaching_poses(arm, *position))
        if found <= LARGEST_RUNG and rows * found <= 600:
            chosen.append(position)
            rows *= found
        if len(chosen) == waypoints:
            break
    return chosen


def inherited(chosen: Sequence[Position]) -> list[Parts]:
    """Records that leave out each x and y equal to the one in force."""
    records: list[Parts] = []
    before = (0, 0)
    for position in chosen:
        x = None if position[0] == before[0] else position[0]
        y = None if position[1] == before[1] else position[1]
        records.append(Parts(x=x, y=y))
        before = position
    return records


def arm_job(dice: Dice) -> bytes:
    """Positions that a few poses reach, some repeated and then left out."""
    arm = random_arm(dice)
    chosen = positions(dice, arm, dice.between(1, 3))
    if dice.one_in(3):
        chosen += chosen[-1:]
    limits = Limits(dice.between(0, 63), dice.between(0, 63)) if dice.one_in(2) else None
    return job_bytes(inherited(chosen), limits, arm, maybe_ration(dice))


def edge_at(dice: Dice, shoulder: int, side: int) -> bytes:
    """A position whose window has a pose with this shoulder on one edge, or all but.

    A side of 1 puts the pose at the window's low edge, -1 at the high one.
    """
    links = (250, 500, 1000, 1250, 2000)
    while True:
        arm = Arm(dice.pick(links), dice.pick(links), dice.between(1, 40))
        across, up = tip(arm, Pose(shoulder, dice.below(64)))
        if dice.one_in(2) and across % SCALE <= 500:
            x, y = across // SCALE + side * arm.half_side, nearest(up)
        elif up % SCALE <= 500:
            x, y = nearest(across), up // SCALE + side * arm.half_side
        else:
            continue
        if len(reaching_poses(arm, x, y)) <= LARGEST_RUNG:
            return job_bytes([Parts(x=x, y=y)], arm=arm)


def edge_job(dice: Dice) -> bytes:
    """A pose on the edge of the window, or just inside or outside of it."""
    return edge_at(dice, dice.below(64), dice.pick((-1, 1)))


def mixed_job(dice: Dice) -> bytes:
    """Any fields present or absent; unread ones must change nothing."""
    arm = random_arm(dice) if dice.one_in(3) else None
    chosen = positions(dice, arm, 2) if arm is not None else [(dice.between(-9, 9), 0)] * 3
    records = []
    for parts in inherited(chosen):
        poses = random_rungs(dice, [dice.between(1, 3)], range(-5, 6))[0]
        if dice.one_in(6 if arm is None else 2):
            poses = None
        note = dice.some_bytes(dice.pick((0, 1, 2, 7, 20))) if dice.one_in(2) else None
        records.append(Parts(poses, parts.x, parts.y, note))
    limits = Limits(dice.between(0, 70), dice.between(0, 70)) if dice.one_in(2) else None
    return job_bytes(records, limits, arm, maybe_ration(dice))


EVERY_KIND = (
    small_ladder,
    tie_ladder,
    extreme_ladder,
    lanes,
    arm_job,
    edge_job,
    mixed_job,
)
