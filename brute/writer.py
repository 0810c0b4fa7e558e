"""A job file from its parts. Nothing is checked, so unlawful files come too."""

from __future__ import annotations

from dataclasses import dataclass
from typing import Optional, Sequence

from brute.arm import Arm
from brute.ladder import Limits, Pose
from brute.reader import LETTERS


@dataclass(frozen=True)
class Parts:
    """A record by the fields that it gives; None stands for an absent one."""

    poses: Optional[Sequence[Pose]] = None
    x: Optional[int] = None
    y: Optional[int] = None
    note: Optional[bytes] = None


def unsigned(value: int) -> bytes:
    """An unsigned number of 16 bits."""
    return value.to_bytes(2, "little")


def signed(value: int) -> bytes:
    """A signed number of 16 bits."""
    return value.to_bytes(2, "little", signed=True)


def map_byte(fields: Sequence[object]) -> bytes:
    """A map with the bit of each field that is not None."""
    return bytes([sum(1 << bit for bit, field in enumerate(fields) if field is not None)])


def record_bytes(parts: Parts) -> bytes:
    """One record, its map first."""
    data = map_byte([parts.x, parts.y, parts.poses, parts.note])
    if parts.x is not None:
        data += signed(parts.x)
    if parts.y is not None:
        data += signed(parts.y)
    if parts.poses is not None:
        data += bytes([len(parts.poses)])
        for pose in parts.poses:
            data += signed(pose.shoulder) + signed(pose.elbow)
    if parts.note is not None:
        data += bytes([len(parts.note)]) + parts.note
    return data


def job_bytes(
    records: Sequence[Parts],
    limits: Optional[Limits] = None,
    arm: Optional[Arm] = None,
    ration: Optional[int] = None,
    count: Optional[int] = None,
) -> bytes:
    """A job file; its record count is the true one unless another is given."""
    data = LETTERS + map_byte([limits, arm, ration])
    if limits is not None:
        data += unsigned(limits.shoulder) + unsigned(limits.elbow)
    if arm is not None:
        data += unsigned(arm.first_link) + unsigned(arm.second_link) + unsigned(arm.half_side)
    if ration is not None:
        data += unsigned(ration)
    data += unsigned(len(records) if count is None else count)
    for parts in records:
        data += record_bytes(parts)
    return data


def ladder_bytes(
    rungs: Sequence[Sequence[Pose]],
    limits: Optional[Limits] = None,
    ration: Optional[int] = None,
) -> bytes:
    """A job file whose records give pose lists and nothing else."""
    return job_bytes([Parts(poses=rung) for rung in rungs], limits=limits, ration=ration)
