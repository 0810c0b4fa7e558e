"""The listing of a job: its tracks under Travel, cheapest first."""

from __future__ import annotations

import sys

from brute.book import Book, Refused
from brute.costs import Travel
from brute.filters import Step
from brute.ladder import Pose
from brute.reader import Fault, Job, read_job
from brute.sources import job_poses

RUNG_LIMIT = 8
LARGEST_LISTED = 64


def list_job(job: Job) -> list[str]:
    """The lines of a lawful job."""
    book = Book(Travel(), job.limits, RUNG_LIMIT, min(job.ration, LARGEST_LISTED))
    for waypoint in range(len(job.records)):
        answer = book.add(job_poses(job, waypoint))
        if isinstance(answer, Refused):
            return [f"R {answer.number}"]
    lines = [f"L {book.cost.letter} {book.close()}"]
    output = [Step(0, Pose(0, 0))] * RUNG_LIMIT
    while True:
        answer = book.next(output)
        if isinstance(answer, Refused):
            return lines + [f"R {answer.number}"]
        numbers = " ".join(str(step.number) for step in output[: len(book.rungs)])
        lines.append(f"{answer.number} {answer.cost} {numbers}")


def listing(data: bytes) -> bytes:
    """The listing of a job file, lawful or not."""
    try:
        lines = list_job(read_job(data))
    except Fault as fault:
        lines = [f"R {fault.number} {fault.place}"]
    return "".join(line + "\n" for line in lines).encode("ascii")


if __name__ == "__main__":
    sys.stdout.buffer.write(listing(sys.stdin.buffer.read()))
