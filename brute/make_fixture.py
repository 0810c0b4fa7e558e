"""Writes or checks the stored comparison of a program crate.

The program lists one job after another from standard input. There, each job is
its length in two bytes, low byte first, and then its bytes; the end of the input
ends the run. The output is the listings one after another, with nothing between:
the R line is each listing's last.
"""

from __future__ import annotations

import argparse
import sys
from pathlib import Path
from typing import Sequence

from brute.generate import fixture_jobs
from brute.listing import listing


def packed(jobs: Sequence[bytes]) -> bytes:
    """The jobs as the program reads them."""
    return b"".join(len(job).to_bytes(2, "little") + job for job in jobs)


def first_difference(stored: bytes, made: bytes) -> int:
    """The place of the first byte that differs, or where the shorter one ends."""
    shorter = min(len(stored), len(made))
    return next((place for place in range(shorter) if stored[place] != made[place]), shorter)


def is_same(path: Path, made: bytes) -> bool:
    """Compares a stored file with what was made; tells the first difference."""
    if not path.is_file():
        print(f"{path}: there is no such file")
        return False
    stored = path.read_bytes()
    if stored == made:
        return True
    place = first_difference(stored, made)
    print(f"{path}: differs from byte {place}")
    print(f"  stored: {stored[place : place + 40]!r}")
    print(f"  made:   {made[place : place + 40]!r}")
    return False


def settle(crate: Path, files: dict[str, bytes], check: bool) -> bool:
    """Writes the stored files, or compares them: whether there is no difference."""
    if check:
        return all([is_same(crate / name, made) for name, made in files.items()])
    crate.mkdir(parents=True, exist_ok=True)
    for name, made in files.items():
        (crate / name).write_bytes(made)
    return True


def main() -> int:
    """The exit status: 1 if the check finds any difference."""
    parser = argparse.ArgumentParser(description="the stored comparison of a program crate")
    parser.add_argument("crate", type=Path, help="the crate's folder")
    parser.add_argument("--check", action="store_true", help="compare, write nothing")
    options = parser.parse_args()
    jobs = fixture_jobs()
    files = {"stdin": packed(jobs), "stdout": b"".join(listing(job) for job in jobs)}
    if not settle(options.crate, files, options.check):
        return 1
    print(f"{len(jobs)} jobs, {len(files['stdin'])} bytes in, {len(files['stdout'])} bytes out")
    return 0


if __name__ == "__main__":
    sys.exit(main())
