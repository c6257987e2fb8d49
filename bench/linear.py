#!/usr/bin/env python3
"""Times the program on scripts of 10,000 and of 100,000 statements, and prints how the times compare.

usage: bench/linear.py        (run by hand, after the gate)

Reading, answering and printing are to be linear: ten times the statements take about ten times the time.
"""
import os, pathlib, subprocess, tempfile, time

PROGRAM = pathlib.Path(__file__).resolve().parent.parent / "ddrun"
RUNS = 5

SCRIPTS = {
    "new schemas": lambda n: "".join(f"CREATE DATABASE d{i};\n" for i in range(n)),
    "one schema": lambda n: "CREATE DATABASE d;\n" * n,
    "listings of one schema": lambda n: "CREATE DATABASE d;\n" + "SHOW DATABASES;\n" * (n - 1),
}


def seconds(script):
    with tempfile.NamedTemporaryFile() as source:
        source.write(b"session a\n" + script.encode())
        source.flush()
        best = None
        for _ in range(RUNS):
            with open(source.name) as given:
                begun = time.perf_counter()
                subprocess.run([PROGRAM, "run"], stdin=given, stdout=subprocess.DEVNULL, check=True)
                taken = time.perf_counter() - begun
            best = taken if best is None else min(best, taken)
        return best


def main():
    subprocess.run([PROGRAM, "run"], stdin=subprocess.DEVNULL, check=True)
    for name, script in SCRIPTS.items():
        few, many = seconds(script(10_000)), seconds(script(100_000))
        print(f"{name}: {few:.3f} s for 10,000, {many:.3f} s for 100,000: {many / few:.1f} times")


if __name__ == "__main__":
    main()
