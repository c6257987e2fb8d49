#!/usr/bin/env python3
"""Times 8,000 tables that one session makes and shows, and prints how the last 1,000 compare with the first 1,000.

usage: bench/tables.py        (run by hand, after the gate, with no other work on the machine)

The time of a thousand is what a run with them takes longer than the run without them, in seconds of the processor, each run the fastest of
100, which take turns. The last thousand are to take at most 1.3 times as long as the first.
"""
import os, pathlib, subprocess, tempfile

PROGRAM = pathlib.Path(__file__).resolve().parent.parent / "ddrun"
RUNS = 100
SIZES = range(0, 8_001, 1_000)
TABLE = "CREATE TABLE t{0} (id INT PRIMARY KEY, name VARCHAR(20) DEFAULT 'x', n BIGINT NOT NULL, KEY n (n));\nSHOW CREATE TABLE t{0};\n"


def script(tables):
    return "session a\nCREATE DATABASE d;\nUSE d;\n" + "".join(TABLE.format(number) for number in range(tables))


def seconds(program, source):
    with open(source) as given:
        child = subprocess.Popen([program, "run"], stdin=given, stdout=subprocess.DEVNULL)
        _, status, used = os.wait4(child.pid, 0)
    assert status == 0
    return used.ru_utime + used.ru_stime


def check(source, tables):
    """All tables are made and shown."""
    with open(source) as given:
        told = subprocess.run([PROGRAM, "run"], stdin=given, stdout=subprocess.PIPE, check=True).stdout.decode().splitlines()
    assert told.count("OK") == tables + 2 and told.count("Table\tCreate Table") == tables


def main():
    with tempfile.TemporaryDirectory() as folder:
        sources = {tables: pathlib.Path(folder) / str(tables) for tables in SIZES}
        for tables, source in sources.items():
            source.write_text(script(tables))
        check(sources[8_000], 8_000)
        built = PROGRAM.parent / "crates" / "ddrun" / "out" / "ddrun"
        best = dict.fromkeys(sources, float("inf"))
        for _ in range(RUNS):
            for tables, source in sources.items():
                best[tables] = min(best[tables], seconds(built, source))
    thousands = [best[tables] - best[tables - 1_000] for tables in SIZES[1:]]
    print("each thousand:", *[f"{it:.4f}" for it in thousands], f"s; the last to the first: {thousands[-1] / thousands[0]:.2f} times")


if __name__ == "__main__":
    main()
