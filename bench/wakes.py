#!/usr/bin/env python3
"""Has 32 threads take 1,000 turns each in the hall, again and again: no wake is lost where all of them end.

usage: bench/wakes.py [RUNS]     (run by hand, with `rt` in the path; 100 runs where no number is given)

The program is the crate hall_tests, which is proved and built first. Each thread sleeps inside every hundredth of its
turns, so that the others sleep before the door. A run that takes more than 60 seconds has lost a wake: then, and where a
turn isn't counted, the status is 1.
"""
import subprocess
import sys
import time

import turns

SECONDS = 60
WANTED = (turns.CRATE / "stdout").read_bytes()


def seconds():
    """How long a run takes, or None where it doesn't end."""
    began = time.monotonic()
    try:
        told = subprocess.run([turns.PROGRAM, "crowd"], stdout=subprocess.PIPE, timeout=SECONDS, check=True).stdout
    except subprocess.TimeoutExpired:
        return None
    if told != WANTED:
        sys.exit(f"a run has said: {told.decode()}")
    return time.monotonic() - began


def main():
    runs = int(sys.argv[1]) if len(sys.argv) > 1 else 100
    turns.build()
    spent = [seconds() for _ in range(runs)]
    lost = spent.count(None)
    if lost:
        sys.exit(f"{lost} of {runs} runs didn't end within {SECONDS} s")
    print(f"all of {runs} runs ended, the longest within {max(spent):.1f} s")


if __name__ == "__main__":
    main()
