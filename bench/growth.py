#!/usr/bin/env python3
"""Counts the instructions of `timing` by callgrind, at several rations and rung counts, and prints what one track more costs.

usage: python3 -m bench.growth crates/timing/out/timing     (build it first: cd crates/timing && rt run < stdin)

A job of each kind has 16 poses at each rung: `random` ones anywhere, `ties` at few different counts, so that most tracks cost the same as others.
The cost of a track at k is the difference of two runs, with a ration of k + 64 and of k, divided by 64; what does not depend on the ration, such as reading the
job and adding its rungs, falls out, and so does what taking the tracks before costs.
"""

from __future__ import annotations

import random
import re
import subprocess
import sys
import tempfile
import time
from pathlib import Path

from brute.ladder import Pose
from brute.writer import Parts, job_bytes


def job(kind: str, rungs: int, ration: int) -> bytes:
    """A job of a kind, the same poses whatever the ration."""
    dice = random.Random(f"{kind} {rungs}")
    top = 32767 if kind == "random" else 2
    records = [Parts(poses=[Pose(dice.randint(-top, top), dice.randint(-top, top)) for _ in range(16)]) for _ in range(rungs)]
    return job_bytes(records, ration=ration)


def instructions(program: str, data: bytes) -> int:
    """How many instructions the program takes on this input, by callgrind."""
    with tempfile.NamedTemporaryFile() as out:
        run = subprocess.run(
            ["valgrind", "--tool=callgrind", f"--callgrind-out-file={out.name}", program], input=data, capture_output=True, check=True
        )
    found = re.search(rb"Collected : (\d+)", run.stderr)
    if not found:
        raise SystemExit(run.stderr.decode())
    return int(found.group(1))


def seconds(program: str, data: bytes) -> float:
    """The least of five wall times."""
    times = []
    for _ in range(5):
        start = time.perf_counter()
        subprocess.run([program], input=data, capture_output=True, check=True)
        times.append(time.perf_counter() - start)
    return min(times)


def track_at(program: str, kind: str, rungs: int, k: int) -> float:
    """The instructions of one track, on average over the 64 from k on."""
    return (instructions(program, job(kind, rungs, k + 64)) - instructions(program, job(kind, rungs, k))) / 64


def main() -> None:
    if len(sys.argv) != 2 or not Path(sys.argv[1]).exists():
        raise SystemExit(__doc__)
    program = str(Path(sys.argv[1]).resolve())
    print("| job | rungs | instructions of a track at k = 64 | at k = 4,032 | 4,096 tracks in seconds |")
    print("|---|---:|---:|---:|---:|")
    for kind in ("random", "ties"):
        for rungs in (8, 32, 128):
            early, late = track_at(program, kind, rungs, 64), track_at(program, kind, rungs, 4032)
            print(f"| {kind} | {rungs} | {early:,.0f} | {late:,.0f} | {seconds(program, job(kind, rungs, 4096)):.3f} |", flush=True)


if __name__ == "__main__":
    main()
