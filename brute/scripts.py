"""Scripts of calls: their text, what each call answers, and random ones.

A script opens a resolver, gives a job file and filters, and then makes calls.
Its text is one line each, words with single spaces between:

    open LETTER S E R K A B C     step limits, rung limit, ration, table lengths
    job HEX                       the job file; `job -` for an empty one
    envelope SL SH EL EH          a filter: the ends of shoulder and of elbow
    turns N                       a filter: a turn count with its limit
    add tabled W, add arm W, close, next P, seek F P
    end

Filters are numbered from 0. P is how many places the output has; every call has
an output of its own.
"""

from __future__ import annotations

from dataclasses import dataclass
from typing import Any, Callable, Optional, Sequence, Union

from brute import damage, kinds
from brute.arm import Arm
from brute.book import Book, Refused, Taken
from brute.costs import Cost, Pair, Travel, WorstStep
from brute.dice import Dice
from brute.filters import Filter, Step, envelope, reversals, turn_count
from brute.generate import FULL_ARMS
from brute.kinds import HIGHEST_COUNT, LOWEST_COUNT, Rungs
from brute.ladder import Limits, Pose, Track, list_of_ladder
from brute.reader import Fault, Job, read_job
from brute.sources import arm_poses, tabled_poses
from brute.writer import Parts, job_bytes, ladder_bytes

COSTS: dict[str, Cost] = {"T": Travel(), "W": WorstStep(), "P": Pair(Travel(), WorstStep())}
SOURCES: dict[str, Callable[[Optional[Job], int], Sequence[Pose]]] = {
    "tabled": tabled_poses,
    "arm": arm_poses,
}
BLANK = Step(7, Pose(99, -99))
NO_LIMITS = Limits(65_535, 65_535)
NO_FILE = "-"
LARGEST_GIVEN_RATION = 40
LARGEST_GIVEN_RUNG_LIMIT = 6
MOST_TAKES = 14
# Of an arm with two links of 100; all its shoulders reach (0, 0).
SMALL_ARM_POSITIONS = ((100, 100), (-100, 100), (0, 0), (0, 0), (200, 0), (0, -200), (201, 0))


@dataclass(frozen=True)
class Opening:
    """What a resolver is opened with; places for poses, ranks and candidates."""

    letter: str
    limits: Limits
    rung_limit: int
    ration: int
    places: tuple[int, int, int]


@dataclass(frozen=True)
class Envelope:
    """The lowest and the highest counts that pass."""

    low: Pose
    high: Pose


@dataclass(frozen=True)
class TurnCount:
    """The most reversals that pass."""

    limit: int


@dataclass(frozen=True)
class Add:
    """Adding the list that a source has for a waypoint."""

    source: str
    waypoint: int


@dataclass(frozen=True)
class Close:
    """Closing."""


@dataclass(frozen=True)
class Next:
    """Next, with an output of so many places."""

    places: int


@dataclass(frozen=True)
class Seek:
    """Seeking with a filter, by its number, and an output of so many places."""

    filter: int
    places: int


FilterLine = Union[Envelope, TurnCount]
Call = Union[Add, Close, Next, Seek]


@dataclass(frozen=True)
class Script:
    """A resolver's opening, the job file, the filters, and the calls in order."""

    opening: Opening
    job: bytes
    filters: tuple[FilterLine, ...]
    calls: tuple[Call, ...]


# The text of a script.


def opening_line(opening: Opening) -> str:
    """The first line of a script."""
    numbers = (*opening.limits, opening.rung_limit, opening.ration, *opening.places)
    return " ".join(["open", opening.letter, *map(str, numbers)])


def filter_line(given: FilterLine) -> str:
    """The line of a filter."""
    if isinstance(given, TurnCount):
        return f"turns {given.limit}"
    low, high = given.low, given.high
    return f"envelope {low.shoulder} {high.shoulder} {low.elbow} {high.elbow}"


def call_line(call: Call) -> str:
    """The line of a call."""
    if isinstance(call, Add):
        return f"add {call.source} {call.waypoint}"
    if isinstance(call, Next):
        return f"next {call.places}"
    if isinstance(call, Seek):
        return f"seek {call.filter} {call.places}"
    return "close"


def script_text(script: Script) -> bytes:
    """All lines of a script, the last one `end`."""
    lines = [opening_line(script.opening), f"job {script.job.hex() or NO_FILE}"]
    lines += map(filter_line, script.filters)
    lines += map(call_line, script.calls)
    return joined(lines + ["end"])


def joined(lines: Sequence[str]) -> bytes:
    """The lines, each with its line end."""
    return "".join(line + "\n" for line in lines).encode("ascii")


def read_filter(words: Sequence[str]) -> FilterLine:
    """The filter that the words of a line give."""
    numbers = [int(word) for word in words[1:]]
    if words[0] == "turns":
        return TurnCount(numbers[0])
    low_shoulder, high_shoulder, low_elbow, high_elbow = numbers
    return Envelope(Pose(low_shoulder, low_elbow), Pose(high_shoulder, high_elbow))


def read_call(words: Sequence[str]) -> Call:
    """The call that the words of a line give."""
    if words[0] == "add":
        return Add(words[1], int(words[2]))
    if words[0] == "next":
        return Next(int(words[1]))
    if words[0] == "seek":
        return Seek(int(words[1]), int(words[2]))
    if words[0] != "close":
        raise ValueError(f"no such call: {words[0]}")
    return Close()


def read_script(lines: Sequence[str]) -> Script:
    """The script in its lines, those before `end`."""
    first, second, *others = [line.split(" ") for line in lines]
    if first[0] != "open" or second[0] != "job":
        raise ValueError("a script starts with open and job")
    shoulder, elbow, rung_limit, ration, poses, ranks, candidates = map(int, first[2:])
    limits, places = Limits(shoulder, elbow), (poses, ranks, candidates)
    opening = Opening(first[1], limits, rung_limit, ration, places)
    job = b"" if second[1] == NO_FILE else bytes.fromhex(second[1])
    filters = [words for words in others if words[0] in ("envelope", "turns")]
    calls = others[len(filters) :]
    return Script(opening, job, tuple(map(read_filter, filters)), tuple(map(read_call, calls)))


def read_scripts(text: bytes) -> list[Script]:
    """All scripts of a text, one after another."""
    scripts: list[Script] = []
    lines: list[str] = []
    for line in text.decode("ascii").splitlines():
        if line == "end":
            scripts.append(read_script(lines))
            lines = []
        else:
            lines.append(line)
    if lines:
        raise ValueError("the last script has no end")
    return scripts


# What a script's calls answer.


def job_in(data: bytes) -> Optional[Job]:
    """The job in a file, or none if the file is refused."""
    try:
        return read_job(data)
    except Fault:
        return None


def meaning(given: FilterLine) -> Filter:
    """The filter itself."""
    if isinstance(given, TurnCount):
        return turn_count(given.limit)
    return envelope(given.low, given.high)


def cost_text(cost: Any) -> str:
    """A number, or both numbers of a pair."""
    return ",".join(map(str, cost)) if isinstance(cost, tuple) else str(cost)


def answer_text(answer: Union[int, Refused, Taken]) -> str:
    """What a call answers, without its output."""
    if isinstance(answer, Refused):
        return f"refused {answer.number}"
    if isinstance(answer, Taken):
        return f"given {answer.number} {cost_text(answer.cost)}"
    return f"counted {answer}"


def step_text(step: Step) -> str:
    """One place of an output."""
    return f" : {step.number} {step.pose.shoulder} {step.pose.elbow}"


def answer_line(book: Book, job: Optional[Job], filters: Sequence[Filter], call: Call) -> str:
    """Makes one call: its answer, and each place of its output if it has one."""
    if isinstance(call, Add):
        return answer_text(book.add(SOURCES[call.source](job, call.waypoint)))
    if isinstance(call, Close):
        return answer_text(book.close())
    output = [BLANK] * call.places
    if isinstance(call, Next):
        answer = book.next(output)
    else:
        answer = book.seek(output, filters[call.filter])
    return answer_text(answer) + "".join(map(step_text, output))


def answers(script: Script) -> bytes:
    """The answer of each call in order, one line each, and a line `end`."""
    given = script.opening
    cost = COSTS[given.letter]
    book = Book.opened(cost, given.limits, given.rung_limit, given.ration, given.places)
    job = job_in(script.job)
    filters = [meaning(each) for each in script.filters]
    return joined([answer_line(book, job, filters, call) for call in script.calls] + ["end"])


# Parts of random scripts.


def wanted_places(rung_limit: int, ration: int) -> tuple[int, int, int]:
    """The shortest tables that serve."""
    return 16 * rung_limit, 16 * rung_limit + ration * rung_limit, 256 * rung_limit


def some_places(dice: Dice, rung_limit: int, ration: int) -> tuple[int, int, int]:
    """Mostly just what is needed, sometimes longer, now and then too short."""
    if dice.one_in(60):
        return short_places(dice, rung_limit, ration)
    poses, ranks, candidates = wanted_places(rung_limit, ration)
    if not dice.one_in(4):
        return poses, ranks, candidates
    return poses + dice.below(20), ranks + dice.below(50), candidates + dice.below(300)


def short_places(dice: Dice, rung_limit: int, ration: int) -> tuple[int, int, int]:
    """One table one short, or empty."""
    places = list(wanted_places(rung_limit, ration))
    which = dice.below(3)
    places[which] = 0 if dice.one_in(6) else places[which] - 1
    return places[0], places[1], places[2]


def some_opening(
    dice: Dice,
    limits: Limits,
    rungs: int,
    letter: Optional[str] = None,
    ration: Optional[int] = None,
    most: int = LARGEST_GIVEN_RUNG_LIMIT,
) -> Opening:
    """Lawful numbers that let in all rungs, and more up to the most; tables for them."""
    if letter is None:
        letter = some_letter(dice)
    if ration is None:
        ration = dice.pick((1, 2, 3, 5, 8, 13, LARGEST_GIVEN_RATION))
    rung_limit = dice.between(max(rungs, 1), max(rungs, most))
    return Opening(letter, limits, rung_limit, ration, some_places(dice, rung_limit, ration))


def some_letter(dice: Dice) -> str:
    """One of the three costs."""
    return dice.pick(tuple(COSTS))


def around(poses: Sequence[Pose]) -> Envelope:
    """The smallest envelope around some poses."""
    shoulders = [pose.shoulder for pose in poses]
    elbows = [pose.elbow for pose in poses]
    return Envelope(Pose(min(shoulders), min(elbows)), Pose(max(shoulders), max(elbows)))


def track_poses(rungs: Sequence[Sequence[Pose]], track: Track) -> list[Pose]:
    """The poses of a track."""
    return [rung[number] for rung, number in zip(rungs, track.numbers)]


def some_turn_count(dice: Dice) -> TurnCount:
    """Mostly a small limit."""
    return TurnCount(dice.pick((0, 0, 1, 1, 2, 3, 65_535)))


def some_filter(
    dice: Dice, rungs: Sequence[Sequence[Pose]], tracks: Sequence[Track]
) -> FilterLine:
    """A filter that the first track passes, or some later one, or none."""
    every = [pose for rung in rungs for pose in rung] or [Pose(0, 0)]
    kind = dice.below(8)
    if kind < 2:
        return some_turn_count(dice)
    if kind == 2:
        return around(every)
    if kind == 3:
        lowest = around(every).low
        below = Pose(max(lowest.shoulder - 1, LOWEST_COUNT), lowest.elbow)
        return Envelope(Pose(LOWEST_COUNT, LOWEST_COUNT), below)
    if kind == 4:
        return around([dice.pick(every), dice.pick(every)])
    if kind == 5 or not tracks:
        return Envelope(Pose(LOWEST_COUNT, LOWEST_COUNT), Pose(HIGHEST_COUNT, HIGHEST_COUNT))
    late = dice.between(len(tracks) // 2, len(tracks) - 1)
    return around(track_poses(rungs, tracks[late]))


def some_take(dice: Dice, rungs: int, filters: int) -> Call:
    """Next or seeking with an output that is long enough, or sometimes too short."""
    places = rungs + dice.pick((0, 0, 0, 1, 2, 3))
    if dice.one_in(9):
        places = dice.below(max(rungs, 1))
    if filters == 0 or dice.one_in(3):
        return Next(places)
    return Seek(dice.below(filters), places)


def some_takes(dice: Dice, rungs: int, filters: int, count: int) -> list[Call]:
    """So many calls that take tracks."""
    return [some_take(dice, rungs, filters) for _ in range(count)]


def some_call(dice: Dice, waypoints: int, filters: int) -> Call:
    """Any call, mostly adding and taking, lawful or not."""
    kind = dice.below(10)
    if kind < 4:
        return Add(dice.pick(("tabled", "tabled", "tabled", "arm")), dice.between(0, waypoints))
    if kind == 4:
        return Close()
    return some_take(dice, dice.between(0, 4), filters)


def disturbed(dice: Dice, calls: Sequence[Call], waypoints: int, filters: int) -> list[Call]:
    """The calls, some of the time with a few others among them."""
    mixed = list(calls)
    if dice.one_in(3):
        for _ in range(dice.between(1, 4)):
            mixed.insert(dice.below(len(mixed) + 1), some_call(dice, waypoints, filters))
    return mixed


def telling_ration(dice: Dice, tracks: int) -> int:
    """One less than the list is long, as many, one more, or just some."""
    ration = dice.pick((tracks - 1, tracks, tracks + 1, dice.between(1, 6), LARGEST_GIVEN_RATION))
    return min(max(ration, 1), LARGEST_GIVEN_RATION)


def takes_past_end(dice: Dice, ration: int, tracks: int) -> int:
    """A few takes, or two more than there are tracks to be had."""
    return min(dice.pick((3, 5, min(ration, tracks) + 2)), MOST_TAKES)


def unread_fields(dice: Dice) -> tuple[Optional[Limits], Optional[int]]:
    """Limits and a ration in the job file, which no call of a script reads."""
    if not dice.one_in(5):
        return None, None
    return Limits(dice.below(9), dice.below(9)), dice.between(1, 3)


def whole_script(
    dice: Dice,
    job: bytes,
    adds: Sequence[Add],
    limits: Limits,
    filters: Optional[Sequence[FilterLine]] = None,
    most: int = LARGEST_GIVEN_RUNG_LIMIT,
) -> Script:
    """All waypoints added, the ladder closed, and tracks taken, mostly past the end."""
    letter = some_letter(dice)
    found = job_in(job)
    lists = [SOURCES[add.source](found, add.waypoint) for add in adds]
    rungs = [poses for poses in lists if 1 <= len(poses) <= kinds.LARGEST_RUNG]
    tracks = list_of_ladder(COSTS[letter], limits, rungs)
    if filters is None:
        filters = [some_filter(dice, rungs, tracks) for _ in range(dice.between(0, 3))]
    ration = telling_ration(dice, len(tracks))
    opening = some_opening(dice, limits, len(rungs), letter, ration, most)
    takes = takes_past_end(dice, ration, len(tracks))
    calls = [*adds, Close(), *some_takes(dice, len(rungs), len(filters), takes)]
    calls = disturbed(dice, calls, len(adds), len(filters))
    return Script(opening, job, tuple(filters), tuple(calls))


def in_order(count: int, source: str = "tabled") -> list[Add]:
    """Adding of so many waypoints, from 0."""
    return [Add(source, waypoint) for waypoint in range(count)]


def rungs_script(dice: Dice, rungs: Rungs, limits: Limits) -> Script:
    """The rungs in order, from a job file that lists them."""
    job = ladder_bytes(rungs, *unread_fields(dice))
    return whole_script(dice, job, in_order(len(rungs)), limits)


# Kinds of random scripts.


def small_rungs(dice: Dice, counts: Sequence[int], least: int = 0) -> Rungs:
    """Up to five rungs of up to five poses, not all of one pose if there are two rungs."""
    rungs = dice.between(least, 5)
    sizes = kinds.rung_sizes(dice, rungs, dice.pick((2, 3, 5)), 80)
    if rungs >= 2 and max(sizes) == 1:
        sizes[dice.below(rungs)] = dice.between(2, 5)
    return kinds.random_rungs(dice, sizes, counts)


def scattered(dice: Dice) -> Script:
    """Poses at scattered counts."""
    return rungs_script(dice, small_rungs(dice, range(-40, 41)), NO_LIMITS)


def ties(dice: Dice) -> Script:
    """Few distinct counts, so that many tracks cost the same."""
    counts = dice.pick(((0, 1), (0, 3, 3), (-1, 0, 1), (7,), (0, 2, 4, 5)))
    return rungs_script(dice, small_rungs(dice, counts, 2), NO_LIMITS)


def tight_limits(dice: Dice) -> Script:
    """Limits of just what some move needs, or one less, or nothing."""
    rungs = small_rungs(dice, dice.pick((range(-9, 10), range(0, 3))), 2)
    limits = kinds.limits_of_a_move(dice, rungs) or NO_LIMITS
    kind = dice.below(6)
    if kind == 0:
        limits = Limits(max(limits.shoulder, 1) - 1, 65_535)
    elif kind == 1:
        limits = Limits(65_535, max(limits.elbow, 1) - 1)
    elif kind == 2:
        limits = dice.pick((Limits(0, 0), Limits(0, 65_535), Limits(65_535, 0)))
    return rungs_script(dice, rungs, limits)


def extremes(dice: Dice) -> Script:
    """Counts at both ends of their range, turns up to 65,535."""
    ends = (LOWEST_COUNT, LOWEST_COUNT + 1, -1, 0, HIGHEST_COUNT - 1, HIGHEST_COUNT)
    rungs = small_rungs(dice, dice.pick((ends, (LOWEST_COUNT, HIGHEST_COUNT))), 1)
    telling = (0, 32_767, 32_768, 65_533, 65_534, 65_535)
    limits = Limits(dice.pick(telling), dice.pick(telling)) if dice.one_in(2) else NO_LIMITS
    return rungs_script(dice, rungs, limits)


def turning(dice: Dice) -> Script:
    """Four or five rungs whose tracks turn back now and then, sought by turn counts."""
    sizes = [dice.between(1, 2), *dice.shuffled((1, 2, 3, 3))][dice.below(2) :]
    first = dice.below(2)
    rungs = [
        [Pose((rung + first) % 2 * 3 + dice.between(-2, 2), dice.below(4)) for _ in range(size)]
        for rung, size in enumerate(sizes)
    ]
    tracks = list_of_ladder(COSTS["T"], NO_LIMITS, rungs)
    counts = [reversals([pose.shoulder for pose in track_poses(rungs, track)]) for track in tracks]
    fewest = min(counts)
    filters: list[FilterLine] = [TurnCount(fewest), TurnCount(dice.pick(counts))]
    if fewest > 0:
        filters.append(TurnCount(dice.below(fewest)))
    job = ladder_bytes(rungs)
    return whole_script(dice, job, in_order(len(rungs)), NO_LIMITS, filters)


def sought(dice: Dice) -> Script:
    """Tracks taken by seeking alone, a track in the middle of the list among the sought."""
    rungs = small_rungs(dice, range(-9, 10), 2)
    letter = some_letter(dice)
    tracks = list_of_ladder(COSTS[letter], NO_LIMITS, rungs)
    late = dice.pick(tracks[len(tracks) // 2 :])
    filters = [some_filter(dice, rungs, tracks), around(track_poses(rungs, late))]
    ration = telling_ration(dice, len(tracks))
    opening = some_opening(dice, NO_LIMITS, len(rungs), letter, ration)
    calls: list[Call] = [*in_order(len(rungs)), Close()]
    for _ in range(dice.between(2, 8)):
        calls.append(Seek(dice.below(2), len(rungs) + dice.below(3)))
    return Script(opening, ladder_bytes(rungs), tuple(filters), tuple(calls))


def rations(dice: Dice) -> Script:
    """Short lists taken to their ends, the ration about as large as the list is long."""
    sizes = dice.pick(([1], [2], [5], [2, 2], [3, 1], [1, 4], [2, 1, 3]))
    rungs = kinds.random_rungs(dice, sizes, range(-20, 21))
    length = len(list_of_ladder(COSTS["T"], NO_LIMITS, rungs))
    ration = max(length + dice.pick((-1, 0, 0, 1)), 1)
    opening = some_opening(dice, NO_LIMITS, len(rungs), None, ration)
    filters = (around([rungs[0][-1], *(rung[0] for rung in rungs)]), TurnCount(65_535))
    calls: list[Call] = [*in_order(len(rungs)), Close()]
    calls += [Next(len(rungs)) for _ in range(dice.below(length + 2))]
    calls += some_takes(dice, len(rungs), len(filters), dice.between(2, length + 2))
    return Script(opening, ladder_bytes(rungs), filters, tuple(calls))


def unlawful_openings(dice: Dice) -> Script:
    """A rung limit, a ration or a table that does not do, and the ends of those that do."""
    rungs = small_rungs(dice, range(-9, 10), 1)
    limits = NO_LIMITS if dice.one_in(2) else Limits(5, 5)
    rung_limit, ration = dice.between(1, 6), dice.between(1, LARGEST_GIVEN_RATION)
    kind = dice.below(8)
    if kind == 0:
        rung_limit = dice.pick((0, 129, 129, 65_536, 99_999))
    elif kind == 1:
        ration = dice.pick((0, 4097, 4097, 65_537, 99_999))
    elif kind == 2:
        rung_limit, ration = dice.pick(((0, 0), (0, 4097), (129, 0), (129, 4097), (99_999, 99_999)))
    places = wanted_places(rung_limit, ration)
    if kind < 3:
        places = dice.pick(((0, 0, 0), *[(2064, 600_000, 33_024)] * 3))
    elif kind < 6:
        places = short_places(dice, rung_limit, ration)
    opening = Opening(some_letter(dice), limits, rung_limit, ration, places)
    filters = (some_turn_count(dice),)
    calls: list[Call] = [*in_order(len(rungs)), Close()]
    calls += some_takes(dice, dice.below(len(rungs) + 1), 1, dice.between(1, 5))
    calls = disturbed(dice, calls, len(rungs), 1)
    return Script(opening, ladder_bytes(rungs), filters, tuple(calls))


def any_order(dice: Dice) -> Script:
    """Calls in any order, waypoints there or not, outputs long enough or not."""
    rungs = kinds.random_rungs(dice, [dice.between(1, 2) for _ in range(4)], range(-5, 6))
    filters = (some_turn_count(dice), some_filter(dice, rungs, ()))
    opening = some_opening(dice, NO_LIMITS, dice.between(0, 3))
    places = ((100, 100), (0, 0), (-200, 0), (201, 0))
    records = [Parts(rung, *place) for rung, place in zip(rungs, places)]
    job = job_bytes(records, arm=Arm(100, 100, 0))
    calls = [some_call(dice, len(rungs), len(filters)) for _ in range(dice.between(5, 20))]
    return Script(opening, job, filters, tuple(calls))


def outputs(dice: Dice) -> Script:
    """Outputs from no place at all to many more than there are rungs."""
    rungs = small_rungs(dice, range(-9, 10), 1)
    opening = some_opening(dice, NO_LIMITS, len(rungs))
    filters = (some_turn_count(dice), around(rungs[0]))
    lengths = (0, len(rungs) - 1, len(rungs), len(rungs) + 1, 2 * len(rungs), 9, 17)
    calls: list[Call] = [*in_order(len(rungs))]
    if dice.one_in(2):
        calls.append(Next(dice.pick(lengths)))
    calls.append(Close())
    for _ in range(dice.between(3, 8)):
        places = dice.pick(lengths)
        calls.append(Next(places) if dice.one_in(2) else Seek(dice.below(2), places))
    if dice.one_in(6):
        calls.append(Next(dice.pick((127, 128, 129, 140))))
    return Script(opening, ladder_bytes(rungs), filters, tuple(calls))


def full_ladders(dice: Dice) -> Script:
    """More waypoints added than the rung limit lets in."""
    rungs = small_rungs(dice, range(-9, 10), 2)
    rung_limit, ration = dice.between(1, len(rungs)), dice.between(1, 8)
    places = some_places(dice, rung_limit, ration)
    opening = Opening(some_letter(dice), NO_LIMITS, rung_limit, ration, places)
    filters = (some_turn_count(dice),)
    calls: list[Call] = [*in_order(len(rungs)), Add("tabled", dice.pick((0, 65_535))), Close()]
    calls += some_takes(dice, rung_limit, 1, dice.between(1, 5))
    calls = disturbed(dice, calls, len(rungs), 1)
    return Script(opening, ladder_bytes(rungs), filters, tuple(calls))


def small_arm(dice: Dice) -> Script:
    """Positions that no pose, one, a few or 64 reach, with pose lists beside them."""
    arm = Arm(100, 100, dice.pick((0, 0, 1)))
    records = []
    for _ in range(dice.between(1, 4)):
        x, y = dice.pick(SMALL_ARM_POSITIONS)
        poses = kinds.random_rungs(dice, [dice.between(1, 2)], range(0, 64))[0]
        records.append(Parts(None if dice.one_in(2) else poses, x, y))
    adds = [add for add in in_order(len(records), "arm") if not dice.one_in(6)]
    if dice.one_in(2):
        adds.append(Add("tabled", dice.below(len(records))))
    return whole_script(dice, job_bytes(records, arm=arm), adds, NO_LIMITS)


def full_arm_rungs(dice: Dice) -> Script:
    """A position that 15, 16, 17 or 18 poses reach, and a short pose list."""
    arm, x, y = dice.pick(FULL_ARMS)
    poses = kinds.random_rungs(dice, [2], range(0, 64))[0]
    adds = dice.shuffled([Add("arm", 0), Add("tabled", 0)])
    limits = Limits(dice.between(5, 40), dice.between(5, 40)) if dice.one_in(3) else NO_LIMITS
    job = job_bytes([Parts(poses, x, y)], arm=arm)
    return whole_script(dice, job, adds, limits, most=len(adds))


def arm_jobs(dice: Dice) -> Script:
    """Positions that a few poses of a random arm reach, some added twice."""
    arm = kinds.random_arm(dice)
    chosen = kinds.positions(dice, arm, dice.between(1, 2))
    adds = in_order(len(chosen), "arm")
    if len(chosen) == 1:
        adds += adds
    limits = Limits(dice.between(0, 63), dice.between(0, 63)) if dice.one_in(2) else NO_LIMITS
    job = job_bytes(kinds.inherited(chosen), arm=arm)
    return whole_script(dice, job, adds, limits, most=len(adds))


def damaged_jobs(dice: Dice) -> Script:
    """Files that are refused, or all but, and empty ones: their sources have no poses."""
    rungs = kinds.random_rungs(dice, [dice.between(1, 3) for _ in range(3)], range(-9, 10))
    records = [Parts(rung, 100, 100) for rung in rungs]
    job = job_bytes(records, arm=Arm(100, 100, 0) if dice.one_in(2) else None)
    job = b"" if dice.one_in(3) else damage.random_damage(dice, job)
    adds = in_order(3) if dice.one_in(2) else [Add("tabled", 0), Add("arm", 1), Add("tabled", 2)]
    return whole_script(dice, job, adds, NO_LIMITS)


def missing_lists(dice: Dice) -> Script:
    """Waypoints without a record, records without a pose list, files without an arm."""
    rungs = kinds.random_rungs(dice, [dice.between(1, 3) for _ in range(3)], range(-9, 10))
    records = [dice.pick((Parts(rung), Parts(rung, note=b"ab"), Parts(x=1))) for rung in rungs]
    waypoints = dice.shuffled([0, 1, 2, dice.pick((3, 4, 127, 128, 256, 65_535))])
    adds = [Add("arm" if dice.one_in(8) else "tabled", waypoint) for waypoint in waypoints]
    return whole_script(dice, job_bytes(records[: dice.between(0, 3)]), adds, NO_LIMITS)


def repeated_waypoints(dice: Dice) -> Script:
    """The same few waypoints added again and again."""
    rungs = kinds.random_rungs(dice, [1, dice.between(1, 2), 2], range(-6, 7))
    adds = [Add("tabled", dice.below(3)) for _ in range(dice.between(3, 5))]
    limits = kinds.limits_of_a_move(dice, rungs) if dice.one_in(3) else None
    return whole_script(dice, ladder_bytes(rungs), adds, limits or NO_LIMITS)


def largest_openings(dice: Dice) -> Script:
    """The largest rung limit or ration, long tables, and at times a rung for each place."""
    pairs = ((128, 1), (128, 3), (127, 2), (1, 4096), (2, 4095), (5, 4096), (128, 4096))
    rung_limit, ration = dice.pick(pairs)
    places = some_places(dice, rung_limit, ration)
    if dice.one_in(6):
        places = (2_000_000, 2_000_000, 2_000_000)
    if rung_limit > 100 and dice.one_in(2):
        rungs = kinds.random_rungs(dice, [1, 1], (LOWEST_COUNT, HIGHEST_COUNT))
        adds = [Add("tabled", place % 2) for place in range(rung_limit + 1)]
        outputs = (rung_limit - 1, rung_limit, dice.pick((128, 129, 140)))
    else:
        rungs = kinds.random_rungs(dice, [dice.between(1, 4)], range(-9, 10))
        adds = in_order(1)
        outputs = (0, 1, 1, 2, 1, 1)
    opening = Opening(some_letter(dice), NO_LIMITS, rung_limit, ration, places)
    calls: list[Call] = [*adds, Close(), *map(Next, outputs)]
    return Script(opening, ladder_bytes(rungs), (), tuple(calls))


KINDS: tuple[Callable[[Dice], Script], ...] = (
    scattered,
    ties,
    tight_limits,
    extremes,
    turning,
    turning,
    sought,
    sought,
    rations,
    unlawful_openings,
    unlawful_openings,
    any_order,
    outputs,
    full_ladders,
    small_arm,
    full_arm_rungs,
    arm_jobs,
    damaged_jobs,
    missing_lists,
    repeated_waypoints,
    largest_openings,
)


def generate(seed: int) -> Script:
    """The random script of a seed; the kinds take turns."""
    return KINDS[seed % len(KINDS)](Dice(f"scripts {seed}"))
