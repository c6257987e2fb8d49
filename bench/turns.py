#!/usr/bin/env python3
"""Times threads that take turns at one value: in the hall, and under a lock of the standard library.

usage: bench/turns.py [--rounds N] [--turns N]     (run by hand, with `rt` in the path and no other work on the machine)

The program is the crate hall_tests, which is proved and built first. A turn adds one number to a list. The value is a
list and two numbers, 48 bytes, as it stands; the same in a box; or one of 4 KB in a box. For 1, 2, 4, 8 and 32 threads
a line has the medians of all rounds, in millions of turns a second, and how many times as long the hall takes as the
lock at the first value. The rounds take the lines one after another, so that what slows the machine slows all alike.
The status is 1 where the hall takes more than 2 times as long as the lock at 1 or at 8 threads, or where, at 1 thread,
a value of 4 KB in a box takes more than 1.1 times as long as one of 48 bytes in a box, or as one as it stands.
"""
import argparse
import pathlib
import statistics
import subprocess
import sys

CRATE = pathlib.Path(__file__).resolve().parent.parent / "crates" / "hall_tests"
PROGRAM = CRATE / "out" / "hall_tests"
THREADS = (1, 2, 4, 8, 32)
SIZES = ("small", "boxed", "wide")
KEEPERS = ("hall", "lock")


def build():
    """Proves and builds the program, and runs it once."""
    subprocess.run(["rt", "run", "--", "crowd"], cwd=CRATE, stdout=subprocess.DEVNULL, check=True)


def rate(keeper, size, threads, turns):
    """Turns a microsecond, of a run of its own."""
    each = turns // threads
    words = [PROGRAM, keeper, size, str(threads), str(each)]
    micros = int(subprocess.run(words, stdout=subprocess.PIPE, check=True).stdout)
    return each * threads / max(micros, 1)


def medians(rounds, turns):
    rates = {(k, s, t): [] for t in THREADS for s in SIZES for k in KEEPERS}
    for _ in range(rounds):
        for (keeper, size, threads), seen in rates.items():
            seen.append(rate(keeper, size, threads, turns))
    return {key: statistics.median(seen) for key, seen in rates.items()}


def main():
    parser = argparse.ArgumentParser(description=__doc__, formatter_class=argparse.RawDescriptionHelpFormatter)
    parser.add_argument("--rounds", type=int, default=9)
    parser.add_argument("--turns", type=int, default=4_000_000, help="turns of all threads together")
    words = parser.parse_args()
    build()
    found = medians(words.rounds, words.turns)
    print("threads  " + "  ".join(f"{keeper} {size}".rjust(10) for size in SIZES for keeper in KEEPERS) + "  lock/hall")
    for threads in THREADS:
        rates = "  ".join(f"{found[keeper, size, threads]:10.2f}" for size in SIZES for keeper in KEEPERS)
        print(f"{threads:7}  {rates}  {found['lock', 'small', threads] / found['hall', 'small', threads]:9.2f}")
    slow = max(found["lock", "small", threads] / found["hall", "small", threads] for threads in (1, 8))
    wide = max(found["hall", size, 1] / found["hall", "wide", 1] for size in ("small", "boxed"))
    print(f"the hall takes {slow:.2f} times as long as the lock, and 4 KB in a box {wide:.2f} times as long as 48 bytes")
    sys.exit(slow > 2 or wide > 1.1)


if __name__ == "__main__":
    main()
