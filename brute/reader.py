"""The job file reader: a job, or the first fault with its number and place."""

from __future__ import annotations

from dataclasses import dataclass
from typing import Optional

from brute.arm import Arm
from brute.ladder import Limits, Pose

LETTERS = b"TLAD"
LARGEST_LIMIT = 65_535
LARGEST_LENGTH = 2_000
LARGEST_RATION = 4_096
LARGEST_RECORD_COUNT = 128
LARGEST_POSE_COUNT = 16

NOT_A_JOB = 11
UNKNOWN_BIT = 12
CUT_SHORT = 13
OUT_OF_RANGE = 14
LEFT_OVER = 15


class Fault(Exception):
    """Why a file is no job: the number of the refusal and the byte place."""

    def __init__(self, number: int, place: int) -> None:
        super().__init__(f"{number} at {place}")
        self.number = number
        self.place = place


@dataclass(frozen=True)
class Record:
    """A waypoint; x and y are those in force, given here or further up."""

    x: int
    y: int
    poses: Optional[tuple[Pose, ...]]
    note: Optional[bytes]


@dataclass(frozen=True)
class Job:
    """What a job file says."""

    limits: Limits
    arm: Optional[Arm]
    ration: int
    records: tuple[Record, ...]


class Cursor:
    """The file and the place of the next byte."""

    def __init__(self, data: bytes) -> None:
        self.data = data
        self.place = 0

    def take(self, size: int) -> bytes:
        """The whole field of this size."""
        if self.place + size > len(self.data):
            raise Fault(CUT_SHORT, self.place)
        field = self.data[self.place : self.place + size]
        self.place += size
        return field

    def number(self, size: int, low: int, high: int, signed: bool = False) -> int:
        """A little-endian number within its range."""
        place = self.place
        value = int.from_bytes(self.take(size), "little", signed=signed)
        if not low <= value <= high:
            raise Fault(OUT_OF_RANGE, place)
        return value

    def unsigned(self, low: int, high: int) -> int:
        """An unsigned number of 16 bits."""
        return self.number(2, low, high)

    def signed(self) -> int:
        """A signed number of 16 bits."""
        return self.number(2, -32_768, 32_767, signed=True)

    def map(self, highest_bit: int) -> int:
        """A map byte with no bit above its highest named one."""
        place = self.place
        bits = self.take(1)[0]
        if bits >> (highest_bit + 1) != 0:
            raise Fault(UNKNOWN_BIT, place)
        return bits


def has_bit(bits: int, number: int) -> bool:
    """Whether the numbered bit of a map stands."""
    return bits >> number & 1 == 1


def read_poses(cursor: Cursor) -> tuple[Pose, ...]:
    """A count byte and that many poses, which together are one field."""
    count = cursor.number(1, 1, LARGEST_POSE_COUNT)
    field = Cursor(cursor.take(4 * count))
    return tuple(Pose(field.signed(), field.signed()) for _ in range(count))


def read_note(cursor: Cursor) -> bytes:
    """A length byte and that many bytes."""
    length = cursor.number(1, 0, 255)
    return cursor.take(length)


def read_record(cursor: Cursor, x: int, y: int) -> Record:
    """One record; x and y are those of the record before, and 0 for the first."""
    bits = cursor.map(highest_bit=3)
    if has_bit(bits, 0):
        x = cursor.signed()
    if has_bit(bits, 1):
        y = cursor.signed()
    poses = read_poses(cursor) if has_bit(bits, 2) else None
    note = read_note(cursor) if has_bit(bits, 3) else None
    return Record(x, y, poses, note)


def read_arm(cursor: Cursor) -> Arm:
    """The two link lengths and the half-side."""
    first_link = cursor.unsigned(1, LARGEST_LENGTH)
    second_link = cursor.unsigned(1, LARGEST_LENGTH)
    half_side = cursor.unsigned(0, LARGEST_LENGTH)
    return Arm(first_link, second_link, half_side)


def read_limits(cursor: Cursor) -> Limits:
    """The two step limits."""
    shoulder = cursor.unsigned(0, LARGEST_LIMIT)
    elbow = cursor.unsigned(0, LARGEST_LIMIT)
    return Limits(shoulder, elbow)


def read_records(cursor: Cursor) -> tuple[Record, ...]:
    """The record count and the records."""
    count = cursor.unsigned(0, LARGEST_RECORD_COUNT)
    records: list[Record] = []
    x, y = 0, 0
    for _ in range(count):
        record = read_record(cursor, x, y)
        x, y = record.x, record.y
        records.append(record)
    return tuple(records)


def read_job(data: bytes) -> Job:
    """The job in a file; raises the first Fault in file order."""
    if not data.startswith(LETTERS):
        raise Fault(NOT_A_JOB, 0)
    cursor = Cursor(data)
    cursor.take(len(LETTERS))
    bits = cursor.map(highest_bit=2)
    limits = Limits(LARGEST_LIMIT, LARGEST_LIMIT)
    if has_bit(bits, 0):
        limits = read_limits(cursor)
    arm = read_arm(cursor) if has_bit(bits, 1) else None
    ration = LARGEST_RATION
    if has_bit(bits, 2):
        ration = cursor.unsigned(1, LARGEST_RATION)
    records = read_records(cursor)
    if cursor.place != len(data):
        raise Fault(LEFT_OVER, cursor.place)
    return Job(limits, arm, ration, records)
