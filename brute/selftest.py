"""Ladders, positions and files worked by hand, and matters easily read otherwise."""

from __future__ import annotations

import unittest
from typing import Sequence, Union

from brute.arm import DIRECTIONS, Arm, cosine, reaching_poses, sine
from brute.book import Book, Refused, Taken, sizes
from brute.costs import Cost, Pair, Travel, Turns, WorstStep
from brute.filters import Step, envelope, reversals, turn_count
from brute.generate import WORKED_JOB, WORKED_RUNGS
from brute.ladder import Limits, Pose, TooManyRows, list_of_ladder
from brute.listing import listing
from brute.make_scripts import worked_script
from brute.reader import Fault, Job, read_job
from brute.scripts import KINDS, answers, generate, read_scripts, script_text
from brute.sources import arm_poses, tabled_poses
from brute.writer import Parts, job_bytes, ladder_bytes

NO_LIMITS = Limits(65_535, 65_535)
BLANK = Step(99, Pose(99, 99))
SMALL_ARM = Arm(100, 100, 0)


def listed(cost: Cost, rungs: Sequence[Sequence[Pose]], limits: Limits = NO_LIMITS) -> list[tuple]:
    """The list of a ladder as pose numbers and costs."""
    return [(track.numbers, track.cost) for track in list_of_ladder(cost, limits, rungs)]


def closed_book(rungs: Sequence[Sequence[Pose]], ration: int) -> Book:
    """A closed book for Travel."""
    book = Book(Travel(), NO_LIMITS, 128, ration)
    for rung in rungs:
        book.add(rung)
    book.close()
    return book


def outcome(data: bytes) -> Union[Job, tuple[int, int]]:
    """What the reader makes of a file: the job, or number and place."""
    try:
        return read_job(data)
    except Fault as fault:
        return fault.number, fault.place


class WorkedCases(unittest.TestCase):
    """Small cases whose answers are known by hand."""

    def test_travel(self) -> None:
        self.assertEqual(listed(Travel(), WORKED_RUNGS), [((1, 0, 0), 10), ((0, 0, 0), 14)])

    def test_worst_step(self) -> None:
        self.assertEqual(listed(WorstStep(), WORKED_RUNGS), [((1, 0, 0), 10), ((0, 0, 0), 10)])

    def test_pair(self) -> None:
        pair = Pair(Travel(), WorstStep())
        self.assertEqual(
            listed(pair, WORKED_RUNGS), [((1, 0, 0), (10, 10)), ((0, 0, 0), (14, 10))]
        )

    def test_step_limits(self) -> None:
        self.assertEqual(listed(Travel(), WORKED_RUNGS, Limits(9, 65_535)), [])
        self.assertEqual(len(listed(Travel(), WORKED_RUNGS, Limits(10, 65_535))), 2)

    def test_equal_poses_are_two_tracks(self) -> None:
        self.assertEqual(listed(Travel(), [[Pose(5, 5), Pose(5, 5)]]), [((0,), 0), ((1,), 0)])

    def test_no_rung_has_no_track(self) -> None:
        self.assertEqual(closed_book([], 1).next([]), Refused(10))

    def test_position_with_two_poses(self) -> None:
        self.assertEqual(reaching_poses(SMALL_ARM, 100, 100), (Pose(0, 16), Pose(16, 48)))

    def test_position_with_too_many_poses(self) -> None:
        poses = reaching_poses(SMALL_ARM, 0, 0)
        self.assertEqual(len(poses), 64)
        self.assertEqual(Book(Travel(), NO_LIMITS, 8, 64).add(poses), Refused(6))

    def test_position_out_of_reach(self) -> None:
        poses = reaching_poses(SMALL_ARM, 201, 0)
        self.assertEqual(Book(Travel(), NO_LIMITS, 8, 64).add(poses), Refused(5))
        self.assertEqual(reaching_poses(Arm(100, 100, 1), 201, 0), (Pose(0, 0),))

    def test_reversals(self) -> None:
        self.assertEqual(reversals([0, 3, 3, 1, 4]), 2)

    def test_seeking_what_no_track_passes(self) -> None:
        low_shoulders = envelope(Pose(0, -32_768), Pose(13, 32_767))
        self.assertEqual(closed_book(WORKED_RUNGS, 3).seek([BLANK] * 3, low_shoulders), Refused(10))
        self.assertEqual(closed_book(WORKED_RUNGS, 2).seek([BLANK] * 3, low_shoulders), Refused(9))

    def test_listing(self) -> None:
        expected = b"L T 3\n1 10 1 0 0\n2 14 0 0 0\nR 10\n"
        self.assertEqual(ladder_bytes(WORKED_RUNGS), WORKED_JOB)
        self.assertEqual(listing(WORKED_JOB), expected)


class Order(unittest.TestCase):
    """The peel order and the costs behind it."""

    def test_shortened_tracks_are_compared_from_the_cost(self) -> None:
        worst = [[Pose(0, 0)], [Pose(5, 0), Pose(1, 0)], [Pose(3, 10)]]
        self.assertEqual(listed(WorstStep(), worst), [((0, 1, 0), 10), ((0, 0, 0), 10)])
        travel = [[Pose(0, 0)], [Pose(5, 0), Pose(1, 0)], [Pose(6, 0)]]
        self.assertEqual(listed(Travel(), travel), [((0, 1, 0), 6), ((0, 0, 0), 6)])

    def test_later_rungs_decide_first(self) -> None:
        rungs = [[Pose(0, 0)] * 2, [Pose(0, 0)] * 2]
        rows = [row for row, _ in listed(Travel(), rungs)]
        self.assertEqual(rows, [(0, 0), (1, 0), (0, 1), (1, 1)])

    def test_laws_of_the_costs(self) -> None:
        ends = (0, 1, 2, 65_534, 65_535)
        moves = [Turns(shoulder, elbow) for shoulder in ends for elbow in ends]
        for cost in (Travel(), WorstStep(), Pair(Travel(), WorstStep())):
            prices = [cost.price(turns) for turns in moves]
            costs = [cost.zero()] + [cost.join(cost.zero(), price) for price in prices]
            for first in costs:
                for second in costs:
                    compared = cost.compare(first, second)
                    self.assertEqual(compared == 0, first == second)
                    self.assertEqual(compared, -cost.compare(second, first))
                    if compared < 0:
                        self.check_monotone(cost, first, second, prices)

    def check_monotone(self, cost: Cost, below: object, above: object, prices: list) -> None:
        """Joining the same price keeps the order, and under Travel keeps it strictly."""
        for price in prices:
            compared = cost.compare(cost.join(below, price), cost.join(above, price))
            self.assertLessEqual(compared, -1 if isinstance(cost, Travel) else 0)

    def test_travel_stops_at_its_largest_value(self) -> None:
        self.assertEqual(Travel().join(4_294_967_290, 131_070), 4_294_967_295)

    def test_turns_do_not_wrap(self) -> None:
        rungs = [[Pose(-32_768, 32_767)], [Pose(32_767, -32_768)]]
        self.assertEqual(listed(Travel(), rungs), [((0, 0), 131_070)])
        self.assertEqual(listed(Travel(), rungs, Limits(65_534, 65_535)), [])

    def test_large_ladders_are_left_alone(self) -> None:
        with self.assertRaises(TooManyRows):
            list_of_ladder(Travel(), NO_LIMITS, [[Pose(0, 0)] * 16] * 8)


class Directions(unittest.TestCase):
    """The sines beyond the first quarter."""

    def test_quarters(self) -> None:
        for place in range(17):
            self.assertEqual(sine(32 - place), sine(place))
            self.assertEqual(sine(32 + place), -sine(place))
            self.assertEqual(sine(DIRECTIONS - place), -sine(place))
        for direction in range(DIRECTIONS):
            self.assertEqual(cosine(direction), sine(direction + 16))
            self.assertEqual(sine(direction + DIRECTIONS), sine(direction))

    def test_full_circle(self) -> None:
        self.assertEqual([sine(place) for place in (0, 16, 32, 48)], [0, 10_000, 0, -10_000])


class Reading(unittest.TestCase):
    """Faults of a file and their places."""

    def test_letters(self) -> None:
        for short in (b"", b"T", b"TLA", b"tlad", b"TLAX\x00\x00\x00"):
            self.assertEqual(outcome(short), (11, 0))
        self.assertEqual(outcome(b"TLAD"), (13, 4))

    def test_maps(self) -> None:
        self.assertEqual(outcome(b"TLAD\x08"), (12, 4))
        self.assertEqual(outcome(b"TLAD\x00\x01\x00\x10"), (12, 7))
        self.assertEqual(outcome(b"TLAD\x00\x01\x00\x1f"), (12, 7))
        self.assertEqual(outcome(b"TLAD\x00\x01\x00"), (13, 7))

    def test_each_number_is_a_field(self) -> None:
        self.assertEqual(outcome(b"TLAD\x01\x00"), (13, 5))
        self.assertEqual(outcome(b"TLAD\x01\x00\x00\x00"), (13, 7))
        self.assertEqual(outcome(b"TLAD\x02\x00\x00"), (14, 5))
        self.assertEqual(outcome(b"TLAD\x02\x01\x00\x00\x00"), (14, 7))
        self.assertEqual(outcome(b"TLAD\x02\x01\x00\x01\x00\xd1\x07"), (14, 9))
        self.assertEqual(outcome(b"TLAD\x04\x00\x00"), (14, 5))
        self.assertEqual(outcome(b"TLAD\x04\x01\x10"), (14, 5))
        self.assertEqual(outcome(b"TLAD\x00\x81\x00"), (14, 5))
        self.assertEqual(outcome(b"TLAD\x00\x01\x00\x03\x01\x00\x02"), (13, 10))

    def test_pose_lists(self) -> None:
        start = b"TLAD\x00\x01\x00\x04"
        self.assertEqual(outcome(start), (13, 8))
        self.assertEqual(outcome(start + b"\x00"), (14, 8))
        self.assertEqual(outcome(start + b"\x11"), (14, 8))
        self.assertEqual(outcome(start + b"\x02\x00\x00\x00\x00\x01"), (13, 9))

    def test_notes(self) -> None:
        start = b"TLAD\x00\x01\x00\x08"
        self.assertEqual(outcome(start), (13, 8))
        self.assertEqual(outcome(start + b"\x02a"), (13, 9))
        self.assertEqual(read_job(start + b"\x00").records[0].note, b"")

    def test_bytes_left_over(self) -> None:
        self.assertEqual(outcome(WORKED_JOB + b"\x00\x00"), (15, len(WORKED_JOB)))

    def test_absent_fields(self) -> None:
        job = read_job(b"TLAD\x00\x00\x00")
        self.assertEqual(job, Job(NO_LIMITS, None, 4_096, ()))

    def test_positions_pass_through_chains(self) -> None:
        records = [Parts(), Parts(x=7), Parts(), Parts(y=-3), Parts(), Parts(x=1), Parts()]
        job = read_job(job_bytes(records))
        found = [(record.x, record.y) for record in job.records]
        self.assertEqual(found, [(0, 0), (7, 0), (7, 0), (7, -3), (7, -3), (1, -3), (1, -3)])

    def test_the_whole_file_is_read_before_the_first_adding(self) -> None:
        job = job_bytes([Parts(), Parts()])
        self.assertEqual(listing(job), b"R 5\n")
        self.assertEqual(listing(job[:-1]), b"R 13 8\n")


class Sources(unittest.TestCase):
    """What the two sources answer where there is little to say."""

    def test_without_file_record_or_list(self) -> None:
        job = read_job(job_bytes([Parts(), Parts([Pose(1, 2)])]))
        self.assertEqual([list(tabled_poses(job, place)) for place in range(3)], [[], [(1, 2)], []])
        self.assertEqual(list(arm_poses(job, 1)), [])
        self.assertEqual(list(tabled_poses(None, 0)), [])
        self.assertEqual(list(arm_poses(None, 0)), [])

    def test_arm_takes_no_pose_list(self) -> None:
        job = read_job(job_bytes([Parts([Pose(1, 2)], x=200)], arm=SMALL_ARM))
        self.assertEqual(list(arm_poses(job, 0)), [Pose(0, 0)])
        self.assertEqual(list(arm_poses(job, 1)), [])


class Calls(unittest.TestCase):
    """The questions of each call, in order."""

    def test_sizes(self) -> None:
        self.assertIsNone(sizes(1, 1, (16, 17, 256)))
        self.assertIsNone(sizes(128, 4_096, (2_048, 526_336, 32_768)))
        for rungs, ration in ((0, 1), (129, 1), (1, 0), (1, 4_097)):
            self.assertEqual(sizes(rungs, ration, (0, 0, 0)), Refused(1))
        for places in ((15, 17, 256), (16, 16, 256), (16, 17, 255)):
            self.assertEqual(sizes(1, 1, places), Refused(2))

    def test_refused_sizes_open_without_rungs(self) -> None:
        book = Book.opened(Travel(), Limits(1, 2), 8, 64, (0, 0, 0))
        self.assertEqual((book.rung_limit, book.ration, book.limits), (0, 1, Limits(1, 2)))
        self.assertEqual(book.add([Pose(0, 0)]), Refused(4))
        self.assertEqual(book.close(), 0)
        self.assertEqual(book.next([]), Refused(10))

    def test_adding_and_closing(self) -> None:
        book = Book(Travel(), NO_LIMITS, 1, 64)
        self.assertEqual(book.add([]), Refused(5))
        self.assertEqual(book.add([Pose(0, 0)] * 17), Refused(6))
        self.assertEqual(book.add([Pose(0, 0)] * 16), 1)
        self.assertEqual(book.add([]), Refused(4))
        self.assertEqual(book.next([]), Refused(7))
        self.assertEqual(book.close(), 1)
        self.assertEqual(book.close(), Refused(3))
        self.assertEqual(book.add([]), Refused(3))
        self.assertEqual(book.next([]), Refused(8))

    def test_next_spares_later_places(self) -> None:
        output = [BLANK] * 4
        self.assertEqual(closed_book(WORKED_RUNGS, 2).next(output), Taken(1, 10))
        steps = [Step(1, Pose(4, 0)), Step(0, Pose(4, 0)), Step(0, Pose(14, 0))]
        self.assertEqual(output, steps + [BLANK])

    def test_as_many_tracks_as_the_ration_end_with_nine(self) -> None:
        book = closed_book(WORKED_RUNGS, 2)
        answers = [book.next([BLANK] * 3) for _ in range(3)]
        self.assertEqual(answers, [Taken(1, 10), Taken(2, 14), Refused(9)])
        sixty_four = ladder_bytes([[Pose(0, 0)] * 16, [Pose(0, 0)] * 4])
        self.assertTrue(listing(sixty_four).endswith(b"\nR 9\n"))

    def test_judged_tracks_remain_taken(self) -> None:
        starts_at_zero = envelope(Pose(0, 0), Pose(0, 0))
        book = closed_book([[Pose(1, 0), Pose(2, 0), Pose(0, 0), Pose(0, 0)]], 64)
        output = [BLANK]
        self.assertEqual(book.seek(output, starts_at_zero), Taken(3, 0))
        self.assertEqual(output, [Step(2, Pose(0, 0))])
        self.assertEqual(book.next(output), Taken(4, 0))
        self.assertEqual(book.next(output), Refused(10))

    def test_refused_seeking_leaves_the_last_judged_track(self) -> None:
        book = closed_book([[Pose(1, 0), Pose(2, 0)]], 64)
        output = [BLANK] * 2
        self.assertEqual(book.seek(output, envelope(Pose(0, 0), Pose(0, 0))), Refused(10))
        self.assertEqual(output, [Step(1, Pose(2, 0)), BLANK])
        self.assertEqual(book.seek(output, turn_count(0)), Refused(10))
        self.assertEqual(output, [Step(1, Pose(2, 0)), BLANK])


class Filters(unittest.TestCase):
    """The ends of the two filters."""

    def test_envelope_counts_its_ends_in(self) -> None:
        passes = envelope(Pose(-1, 5), Pose(1, 5))
        self.assertTrue(passes([Step(0, Pose(-1, 5)), Step(0, Pose(1, 5))]))
        self.assertFalse(passes([Step(0, Pose(-2, 5))]))
        self.assertFalse(passes([Step(0, Pose(0, 6))]))
        self.assertTrue(passes([]))

    def test_envelope_without_room(self) -> None:
        for low, high in ((Pose(1, 0), Pose(0, 0)), (Pose(0, 1), Pose(0, 0))):
            with self.assertRaises(ValueError):
                envelope(low, high)

    def test_many_reversals(self) -> None:
        steps = [Step(0, Pose(place % 2, 0)) for place in range(65_538)]
        self.assertFalse(turn_count(65_535)(steps))
        self.assertTrue(turn_count(65_535)(steps[1:]))

    def test_standing_still_is_left_out(self) -> None:
        self.assertEqual(reversals([]), 0)
        self.assertEqual(reversals([4, 4]), 0)
        self.assertEqual(reversals([0, 1, 1, 1, 2]), 0)
        self.assertEqual(reversals([0, 1, 1, 0, 0, 1]), 2)


class Scripts(unittest.TestCase):
    """Scripts of calls: two by hand, and their text."""

    def test_worked_scripts(self) -> None:
        counted = b"counted 1\ncounted 2\ncounted 3\ncounted 3\n"
        output = b" : 0 0 0 : 0 4 0 : 0 14 0 : 7 99 -99\nend\n"
        self.assertEqual(answers(worked_script(3)), counted + b"refused 10" + output)
        self.assertEqual(answers(worked_script(2)), counted + b"refused 9" + output)

    def test_text_of_a_worked_script(self) -> None:
        expected = [
            "open T 65535 65535 3 3 48 57 768",
            "job " + WORKED_JOB.hex(),
            "envelope 0 13 0 0",
            "add tabled 0",
            "add tabled 1",
            "add tabled 2",
            "close",
            "seek 0 4",
            "end",
        ]
        self.assertEqual(script_text(worked_script(3)).decode("ascii").split("\n"), expected + [""])

    def test_text_goes_round(self) -> None:
        scripts = [worked_script(3), *map(generate, range(2 * len(KINDS)))]
        text = b"".join(map(script_text, scripts))
        self.assertEqual(read_scripts(text), scripts)

    def test_each_call_has_a_line(self) -> None:
        for seed in range(len(KINDS)):
            script = generate(seed)
            self.assertEqual(answers(script).count(b"\n"), len(script.calls) + 1)


if __name__ == "__main__":
    unittest.main()
