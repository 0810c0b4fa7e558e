"""Writes or checks the stored comparison of the program that replays scripts.

The program reads scripts one after another from standard input; their text is
told in brute/scripts.py. It writes the answers of each, one after another.
"""

from __future__ import annotations

import argparse
import sys
from collections import Counter
from pathlib import Path

from brute.generate import WORKED_JOB
from brute.ladder import Pose
from brute.make_fixture import settle
from brute.scripts import (
    KINDS,
    NO_LIMITS,
    Close,
    Envelope,
    Opening,
    Script,
    Seek,
    answers,
    generate,
    in_order,
    script_text,
)

SEEDS = range(19 * len(KINDS))


def worked_script(ration: int) -> Script:
    """Seeking what no track passes; the list is as long as a ration of 2."""
    opening = Opening("T", NO_LIMITS, 3, ration, (48, 57, 768))
    low_shoulders = Envelope(Pose(0, 0), Pose(13, 0))
    return Script(opening, WORKED_JOB, (low_shoulders,), (*in_order(3), Close(), Seek(0, 4)))


def fixture_scripts() -> list[Script]:
    """The scripts of the stored comparison, those by hand first."""
    return [worked_script(3), worked_script(2)] + [generate(seed) for seed in SEEDS]


def answer_kinds(text: bytes) -> Counter[str]:
    """How often each kind of answer comes, refusals told apart by number."""
    kinds: Counter[str] = Counter()
    for line in text.decode("ascii").splitlines():
        words = line.split(" ")
        if words[0] != "end":
            kinds[" ".join(words[:2]) if words[0] == "refused" else words[0]] += 1
    return kinds


def told(kinds: Counter[str]) -> str:
    """The counts of the answer kinds, the least number first."""
    names = sorted(kinds, key=lambda name: (len(name), name))
    return ", ".join(f"{name}: {kinds[name]}" for name in names)


def main() -> int:
    """The exit status: 1 if the check finds any difference."""
    parser = argparse.ArgumentParser(description="the stored comparison of scripts of calls")
    parser.add_argument("crate", type=Path, help="the crate's folder")
    parser.add_argument("--check", action="store_true", help="compare, write nothing")
    options = parser.parse_args()
    scripts = fixture_scripts()
    files = {
        "stdin": b"".join(script_text(script) for script in scripts),
        "stdout": b"".join(answers(script) for script in scripts),
    }
    if not settle(options.crate, files, options.check):
        return 1
    print(
        f"{len(scripts)} scripts, {len(files['stdin'])} bytes in, {len(files['stdout'])} bytes out"
    )
    print(told(answer_kinds(files["stdout"])))
    return 0


if __name__ == "__main__":
    sys.exit(main())
