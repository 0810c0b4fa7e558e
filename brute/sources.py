"""The poses of a waypoint: given in the job, or found for the arm."""

from __future__ import annotations

from typing import Optional, Sequence

from brute.arm import reaching_poses
from brute.ladder import Pose
from brute.reader import Job


def tabled_poses(job: Optional[Job], waypoint: int) -> Sequence[Pose]:
    """The pose list of the waypoint's record; empty where there is none."""
    if job is None or waypoint >= len(job.records):
        return ()
    return job.records[waypoint].poses or ()


def arm_poses(job: Optional[Job], waypoint: int) -> Sequence[Pose]:
    """The poses that reach the waypoint's position; empty without arm or record."""
    if job is None or job.arm is None or waypoint >= len(job.records):
        return ()
    record = job.records[waypoint]
    return reaching_poses(job.arm, record.x, record.y)


def job_poses(job: Job, waypoint: int) -> Sequence[Pose]:
    """By the arm source if the job describes an arm, else by the tabled one."""
    if job.arm is None:
        return tabled_poses(job, waypoint)
    return arm_poses(job, waypoint)
