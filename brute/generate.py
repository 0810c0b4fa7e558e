"""The jobs of the stored comparison, and fresh random ones.

Every family draws from dice of its own, so that a change in one leaves the
others as they were.
"""

from __future__ import annotations

from typing import Callable, Iterator

from brute import damage, kinds
from brute.arm import Arm
from brute.dice import Dice
from brute.ladder import Limits, Pose
from brute.reader import LETTERS
from brute.writer import Parts, job_bytes, ladder_bytes, record_bytes, unsigned

SEED = "ladder"

WORKED_JOB = bytes.fromhex(
    "54 4C 41 44 00 03 00 04 02 00 00 00 00 04 00 00 00"
    "04 01 04 00 00 00 04 01 0E 00 00 00"
)
WORKED_RUNGS = [[Pose(0, 0), Pose(4, 0)], [Pose(4, 0)], [Pose(14, 0)]]
SMALL_ARM = Arm(100, 100, 0)


def worked_jobs(dice: Dice) -> Iterator[bytes]:
    """Ladders small enough to be worked by hand."""
    yield WORKED_JOB
    yield ladder_bytes(WORKED_RUNGS, Limits(9, 65_535))
    yield ladder_bytes(WORKED_RUNGS, Limits(10, 0))
    yield ladder_bytes(WORKED_RUNGS, ration=1)
    yield ladder_bytes(WORKED_RUNGS, ration=2)
    yield ladder_bytes(WORKED_RUNGS, ration=3)
    yield ladder_bytes([[Pose(5, 5), Pose(5, 5)]])
    # The same cost and the same last pose: the cost of the shortened tracks decides,
    # before the pose numbers do.
    yield ladder_bytes([[Pose(0, 0)], [Pose(5, 0), Pose(1, 0)], [Pose(6, 0)]])
    yield ladder_bytes([[Pose(0, 0)], [Pose(1, 0), Pose(5, 0)], [Pose(6, 0)]])
    # The same cost everywhere: later rungs decide before earlier ones.
    yield ladder_bytes([[Pose(0, 0)] * 2, [Pose(0, 0)] * 3, [Pose(0, 0)] * 2])
    # A limit for each joint alone.
    yield ladder_bytes([[Pose(0, 0)], [Pose(3, 9), Pose(9, 3), Pose(3, 3)]], Limits(3, 9))
    yield ladder_bytes([[Pose(0, 0)], [Pose(3, 9), Pose(9, 3), Pose(3, 3)]], Limits(9, 3))


def random_jobs_of(kind: Callable[[Dice], bytes], count: int) -> Callable[[Dice], Iterator[bytes]]:
    """A family of so many random jobs of a kind."""
    return lambda dice: (kind(dice) for _ in range(count))


def limit_ladders(dice: Dice) -> Iterator[bytes]:
    """Limits of nothing, of exactly what the widest move needs, of one less, of all."""
    for _ in range(9):
        sizes = kinds.rung_sizes(dice, dice.between(2, 4), 4, 40)
        rungs = kinds.random_rungs(dice, sizes, dice.pick((range(-9, 10), range(0, 3))))
        shoulder = max(turns.shoulder for turns in kinds.moves(rungs))
        elbow = max(turns.elbow for turns in kinds.moves(rungs))
        yield ladder_bytes(rungs, Limits(0, 0))
        yield ladder_bytes(rungs, Limits(0, 65_535))
        yield ladder_bytes(rungs, Limits(65_535, 0))
        yield ladder_bytes(rungs, Limits(shoulder, elbow))
        yield ladder_bytes(rungs, Limits(max(shoulder, 1) - 1, elbow))
        yield ladder_bytes(rungs, Limits(shoulder, max(elbow, 1) - 1))
        yield ladder_bytes(rungs, Limits(65_535, 65_535))


def dearest_ladders(dice: Dice) -> Iterator[bytes]:
    """The dearest tracks of eight rungs, and the longest listing there is."""
    lowest, highest = kinds.LOWEST_COUNT, kinds.HIGHEST_COUNT
    ends = Pose(lowest, lowest), Pose(highest, highest)
    yield ladder_bytes([[ends[rung % 2]] for rung in range(8)])
    yield ladder_bytes([[ends[rung % 2]] * 2 for rung in range(8)])
    yield ladder_bytes([[ends[rung % 2], ends[0]] for rung in range(8)])
    # Only the last two poses of a rung lie within reach of those of the next.
    near = Pose(-30_000, -30_000), Pose(30_000, 30_000)
    rungs = [[ends[rung % 2]] * 14 + [near[rung % 2]] * 2 for rung in range(8)]
    yield ladder_bytes(rungs, Limits(60_000, 60_000))


def rations(dice: Dice) -> Iterator[bytes]:
    """Every telling ration over ladders with fewer, as many and more tracks."""
    for sizes in ([1], [2], [3, 1], [7, 9], [2] * 6, [4, 16], [16, 4], [5, 13], [8, 2, 8]):
        rungs = kinds.random_rungs(dice, sizes, range(-20, 21))
        for ration in (1, 2, 63, 64, 65, 4096):
            yield ladder_bytes(rungs, ration=ration)
        yield ladder_bytes(rungs)


def record_counts(dice: Dice) -> Iterator[bytes]:
    """From no record at all to the most there may be; the ninth rung is refused."""
    for count in (0, 1, 2, 7, 8, 9, 10, 17, 128):
        sizes = [dice.between(1, 2) for _ in range(min(count, 8))] + [1] * (count - 8)
        rungs = kinds.random_rungs(dice, sizes, range(-5, 6))
        yield ladder_bytes(rungs)
        yield ladder_bytes(rungs, Limits(6, 7), 5)
        yield job_bytes([Parts()] * count)
        yield job_bytes([Parts(x=100, y=100)] * count, arm=SMALL_ARM)


def missing_lists(dice: Dice) -> Iterator[bytes]:
    """Waypoints without a pose list, before and after the ninth."""
    for count in (1, 2, 3, 8, 9, 10):
        for missing in range(count):
            rungs = kinds.random_rungs(dice, [1] * count, range(-5, 6))
            records = [Parts(poses=rung) for rung in rungs]
            records[missing] = dice.pick((Parts(), Parts(x=1, y=2), Parts(note=b"\x04\x01")))
            yield job_bytes(records)


def small_arm_jobs(dice: Dice) -> Iterator[bytes]:
    """One position each, with the poses known by hand."""
    places = [(100, 100), (100, -100), (-100, 100), (-100, -100), (0, 0), (200, 0), (201, 0)]
    places += [(0, 200), (-200, 0), (0, -200), (0, 201), (1, 0), (-32_768, 32_767)]
    for x, y in places:
        for half_side in (0, 1):
            arm = Arm(SMALL_ARM.first_link, SMALL_ARM.second_link, half_side)
            yield job_bytes([Parts(x=x, y=y)], arm=arm)
    for arm in (Arm(1, 1, 0), Arm(1, 2000, 0), Arm(2000, 1, 0), Arm(2000, 2000, 2000)):
        yield job_bytes([Parts(x=arm.first_link + arm.second_link)], arm=arm)
        yield job_bytes([Parts(y=arm.second_link - arm.first_link)], arm=arm)
        yield job_bytes([Parts(x=-1, y=-arm.first_link)], arm=arm)
    yield job_bytes([Parts(x=100, y=100)] * 8, arm=SMALL_ARM)
    yield job_bytes([Parts(x=100, y=100)] * 8 + [Parts(x=0, y=0)], arm=SMALL_ARM)
    yield job_bytes([Parts(x=100, y=100), Parts(x=201), Parts(x=0, y=0)], arm=SMALL_ARM)
    yield job_bytes([Parts(x=100, y=100), Parts(x=0, y=0), Parts(x=201)], arm=SMALL_ARM)


# Arms with positions that 15, 16, 17 and 18 poses reach, two of each.
FULL_ARMS = (
    (Arm(13, 13, 1), -24, -8),
    (Arm(12, 20, 1), 4, -7),
    (Arm(14, 10, 1), 0, 7),
    (Arm(20, 12, 1), -8, 3),
    (Arm(12, 10, 1), 0, -21),
    (Arm(10, 19, 1), 8, 6),
    (Arm(19, 14, 1), -3, -5),
    (Arm(1515, 1182, 68), 358, -13),
)


def full_arm_rungs(dice: Dice) -> Iterator[bytes]:
    """Positions that 15, 16, 17 and 18 poses reach, two of each."""
    for arm, x, y in FULL_ARMS:
        yield job_bytes([Parts(x=x, y=y)], arm=arm)


def window_edges(dice: Dice) -> Iterator[bytes]:
    """For each shoulder a pose on either edge of the window, or all but."""
    for shoulder in range(64):
        yield kinds.edge_at(dice, shoulder, -1)
        yield kinds.edge_at(dice, shoulder, 1)


def every_field_combination(dice: Dice) -> Iterator[bytes]:
    """Each header map with each record map, the record between two plain ones."""
    for header in range(8):
        limits = Limits(dice.between(0, 70), dice.between(0, 70)) if header & 1 else None
        arm = Arm(100, 100, dice.between(0, 1)) if header & 2 else None
        ration = dice.between(1, 3) if header & 4 else None
        for record in range(16):
            rungs = kinds.random_rungs(dice, [2, 2, 1], range(-9, 10))
            middle = Parts(
                poses=rungs[1] if record & 4 else None,
                x=-100 if record & 1 else None,
                y=-100 if record & 2 else None,
                note=dice.some_bytes(dice.pick((0, 1, 4))) if record & 8 else None,
            )
            records = [Parts(rungs[0], 100, 100), middle, Parts(rungs[2])]
            yield job_bytes(records, limits, arm, ration)


def position_chains(dice: Dice) -> Iterator[bytes]:
    """Each x and y given once in a while, else passed on from record to record."""
    for _ in range(24):
        records = []
        for _ in range(dice.between(1, 5)):
            x = dice.pick((100, -100)) if dice.one_in(3) else None
            y = dice.pick((100, -100)) if dice.one_in(3) else None
            records.append(Parts(x=x, y=y))
        records[0] = Parts(x=dice.pick((100, -100)), y=dice.pick((100, -100)))
        yield job_bytes(records, arm=SMALL_ARM)
    # The first record has x = 0 and y = 0 unless it says otherwise.
    for first in (Parts(), Parts(x=200), Parts(y=200), Parts(y=-200)):
        yield job_bytes([first, Parts(), Parts()], arm=SMALL_ARM)
        yield job_bytes([first, Parts()], arm=Arm(100, 99, 1))


def notes(dice: Dice) -> Iterator[bytes]:
    """The shortest and the longest notes; what they hold is nobody's business."""
    rung = [Pose(1, 2), Pose(3, 4)]
    for length in (0, 1, 254, 255):
        yield job_bytes([Parts(rung, note=dice.some_bytes(length))])
        yield job_bytes([Parts(rung, note=b"\x04" * length), Parts(rung, note=b"")])
    yield job_bytes([Parts(rung, note=WORKED_JOB)])
    for cut in (1, 2, 255, 256, 257):
        yield job_bytes([Parts(rung, note=dice.some_bytes(255))])[:-cut]


def longest_jobs(dice: Dice) -> Iterator[bytes]:
    """The longest lawful job, the same with a byte left over, and the same cut by one."""
    rung = kinds.random_rungs(dice, [16], range(-300, 301))[0]
    record = Parts(rung, 100, 100, dice.some_bytes(255))
    job = job_bytes([record] * 128, Limits(500, 600), SMALL_ARM, 7)
    yield job
    yield job + b"\x00"
    yield job[:-1]


def changed_everywhere(dice: Dice) -> Iterator[bytes]:
    """Some jobs with each byte changed, one at a time, by one more, by its highest bit and by all bits."""
    for job in (WORKED_JOB, full_job(dice), tabled_job(dice)):
        for place, value in enumerate(job):
            for other in ((value + 1) % 256, value ^ 128, value ^ 255):
                yield damage.changed(job, place, other)


def full_job(dice: Dice) -> bytes:
    """A short job with every field of header and record."""
    rungs = kinds.random_rungs(dice, [2, 1, 2], range(-300, 301))
    records = [Parts(rung, 100, -100, b"note"[: 2 + place]) for place, rung in enumerate(rungs)]
    return job_bytes(records, Limits(500, 600), Arm(100, 100, 1), 7)


def tabled_job(dice: Dice) -> bytes:
    """A short job with limits and a ration, without an arm."""
    rungs = kinds.random_rungs(dice, [2, 3], range(-300, 301))
    return job_bytes([Parts(rung, note=b"ab") for rung in rungs], Limits(700, 650), None, 300)


def cut_jobs(dice: Dice) -> Iterator[bytes]:
    """Every truncation of some jobs."""
    for job in (WORKED_JOB, full_job(dice), tabled_job(dice), job_bytes([])):
        yield job
        yield from damage.truncations(job)


def changed_headers(dice: Dice) -> Iterator[bytes]:
    """Every single-byte change of some headers by several values."""
    for job in (WORKED_JOB, full_job(dice), tabled_job(dice)):
        yield from damage.header_changes(job)


def changed_records(dice: Dice) -> Iterator[bytes]:
    """Every map, count and length byte of a record by telling values, cut and whole."""
    rung = [Pose(1, -2), Pose(-3, 4)]
    first = Parts(rung, note=b"xyz")
    header = len(job_bytes([]))
    count_place = header + 1
    length_place = header + len(record_bytes(Parts(rung)))
    job = job_bytes([first, Parts(rung)])
    for place in (header, count_place, length_place, header + len(record_bytes(first))):
        for value in (0, 1, 2, 3, 4, 5, 8, 12, 15, 16, 17, 32, 64, 128, 255):
            yield damage.changed(job, place, value)
            yield damage.changed(job, place, value)[: place + 1]


def out_of_range(dice: Dice) -> Iterator[bytes]:
    """Each number just inside and just outside of both ends, whole and cut."""
    arm, ration = b"\x02", b"\x04"
    lengths = (0, 1, 2000, 2001, 65_535)
    one_record = unsigned(1) + record_bytes(Parts([Pose(1, 2)], 3, 4))
    # What stands before the number, the values to try, and what stands after it.
    for before, values, after in (
        (arm, lengths, unsigned(1) * 2 + one_record),
        (arm + unsigned(100), lengths, unsigned(1) + one_record),
        (arm + unsigned(100) * 2, lengths, one_record),
        (ration, (0, 1, 4096, 4097, 65_535), one_record),
        (b"\x00", (0, 1, 2, 127, 128, 129, 256, 65_535), one_record[2:]),
    ):
        for value in values:
            given = LETTERS + before + unsigned(value)
            yield given
            yield given + after
            yield given[:-1]


def left_over(dice: Dice) -> Iterator[bytes]:
    """Bytes after the last record, and counts that tell other than the truth."""
    for job in (job_bytes([]), WORKED_JOB, full_job(dice)):
        for tail in (b"\x00", b"\xff", b"TLAD", WORKED_JOB):
            yield job + tail
    for count in (0, 1, 2, 4, 5, 128):
        yield job_bytes([Parts(poses=rung) for rung in WORKED_RUNGS], count=count)


def wrong_letters(dice: Dice) -> Iterator[bytes]:
    """Files that do not start with the four letters, and the letters alone."""
    for start in (b"", b"T", b"TL", b"TLA", b"TLAD", b"tlad", b"DALT", b"\x00TLAD", b"TLA\x00"):
        yield start
        yield start + WORKED_JOB[4:]
    yield LETTERS + b"\x08"
    yield LETTERS + b"\xff\xff"
    yield LETTERS * 3


def later_faults(dice: Dice) -> Iterator[bytes]:
    """A fault of the file is told before any refused adding; the first fault wins."""
    good = Parts([Pose(1, 1)])
    job = job_bytes([Parts(), good, good])
    yield job
    yield job[:-1]
    yield job + b"\x00"
    yield damage.changed(job, len(job) - 6, 16)
    yield damage.changed(job, len(job) - 5, 17)
    yield damage.changed(damage.changed(job, len(job) - 6, 20), len(job) - 5, 17)
    nine = job_bytes([good] * 9)
    yield nine
    yield nine[:-1]
    yield nine + b"\x00"
    crowded = job_bytes([Parts(x=0, y=0)] * 2, arm=SMALL_ARM)
    yield crowded
    yield crowded[:-1]
    yield crowded + b"\x04"


def randomly_damaged(dice: Dice) -> Iterator[bytes]:
    """One change somewhere in jobs of some kinds."""
    for _ in range(130):
        kind = dice.pick((tabled_job, full_job, kinds.mixed_job, lambda dice: WORKED_JOB))
        yield damage.random_damage(dice, kind(dice))


FAMILIES: dict[str, Callable[[Dice], Iterator[bytes]]] = {
    "worked": worked_jobs,
    "small": random_jobs_of(kinds.small_ladder, 60),
    "ties": random_jobs_of(kinds.tie_ladder, 80),
    "limits": limit_ladders,
    "extremes": random_jobs_of(kinds.extreme_ladder, 40),
    "dearest": dearest_ladders,
    "rations": rations,
    "record counts": record_counts,
    "missing lists": missing_lists,
    "lanes": random_jobs_of(kinds.lanes, 12),
    "small arm": small_arm_jobs,
    "full arm rungs": full_arm_rungs,
    "arm": random_jobs_of(kinds.arm_job, 40),
    "window edges": window_edges,
    "combinations": every_field_combination,
    "chains": position_chains,
    "mixed": random_jobs_of(kinds.mixed_job, 30),
    "notes": notes,
    "cut": cut_jobs,
    "changed headers": changed_headers,
    "changed records": changed_records,
    "out of range": out_of_range,
    "left over": left_over,
    "letters": wrong_letters,
    "later faults": later_faults,
    "damaged": randomly_damaged,
    "longest": longest_jobs,
    "changed everywhere": changed_everywhere,
}


def fixture_jobs() -> list[bytes]:
    """The jobs of the stored comparison, each once."""
    jobs: dict[bytes, None] = {}
    for name, family in FAMILIES.items():
        jobs.update(dict.fromkeys(family(Dice(f"{SEED} {name}"))))
    return list(jobs)


def random_job(dice: Dice) -> bytes:
    """A fresh job of any kind, one in four of them damaged."""
    job = dice.pick(kinds.EVERY_KIND)(dice)
    return damage.random_damage(dice, job) if dice.one_in(4) else job
