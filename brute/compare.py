"""Compares the built program with the brute listing on fresh random jobs.

The program reads one job from standard input and prints its listing.
"""

from __future__ import annotations

import argparse
import subprocess
import sys

from brute.dice import Dice
from brute.generate import random_job
from brute.ladder import TooManyRows
from brute.listing import listing

LONGEST_RUN_IN_SECONDS = 10


def is_same(program: str, job: bytes, expected: bytes) -> bool:
    """Runs the program on a job; tells the job and both listings where they differ."""
    run = subprocess.run(
        [program], input=job, capture_output=True, timeout=LONGEST_RUN_IN_SECONDS, check=False
    )
    if run.stdout == expected and run.returncode == 0:
        return True
    print(f"job {job.hex(' ')}")
    print(f"  expected, with status 0: {expected!r}")
    print(f"  printed, with status {run.returncode}: {run.stdout!r}")
    return False


def main() -> int:
    """The exit status: 1 on any difference."""
    parser = argparse.ArgumentParser(description="the program beside the brute listing")
    parser.add_argument("program", help="the path of the built program")
    parser.add_argument("--seed", default="1", help="fixes the jobs")
    parser.add_argument("--count", type=int, default=200, help="how many jobs")
    options = parser.parse_args()
    dice = Dice(f"compare {options.seed}")
    compared = different = too_large = 0
    for _ in range(options.count):
        job = random_job(dice)
        try:
            expected = listing(job)
        except TooManyRows:
            too_large += 1
            continue
        compared += 1
        if not is_same(options.program, job, expected):
            different += 1
    print(
        f"seed {options.seed}: {compared} jobs compared, {different} different, "
        f"{too_large} left out as too large"
    )
    return 1 if different else 0


if __name__ == "__main__":
    sys.exit(main())
