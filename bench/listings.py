#!/usr/bin/env python3
"""Times TABLE INFORMATION_SCHEMA.x over 800 and 8,000 tables of 8 columns, and prints how the times compare.

usage: bench/listings.py [--program PATH]        (run by hand, after the gate)

The time of a listing is that of a script with it less that of the script without it. COLUMNS, which has a row a column, may
take 12 times as long over ten times the tables; the status is 1 where it takes more. The others look at each object too, and
have few rows or none: what they take is mostly the copying of definitions, which grows more where these outgrow the caches.
"""
import argparse, pathlib, subprocess, sys, tempfile, time

PROGRAM = pathlib.Path(__file__).resolve().parent.parent / "ddrun"
RUNS = 9
TIMES = 20
LISTED = ("schemata", "tables", "columns", "statistics", "key_column_usage", "referential_constraints", "views")


def tables(count):
    columns = ", ".join(f"c{place} INT" for place in range(8))
    made = "".join(f"CREATE TABLE t{number} ({columns}, KEY (c1), KEY (c2));\n" for number in range(count))
    return "session a\nCREATE DATABASE d; USE d;\n" + made


def seconds(program, script):
    with tempfile.NamedTemporaryFile() as source:
        source.write(script.encode())
        source.flush()
        best = None
        for _ in range(RUNS):
            with open(source.name) as given:
                begun = time.perf_counter()
                subprocess.run([program, "run"], stdin=given, stdout=subprocess.DEVNULL, check=True)
                taken = time.perf_counter() - begun
            best = taken if best is None else min(best, taken)
        return best


def listing(program, table, count, times):
    made = tables(count)
    listed = seconds(program, made + f"TABLE information_schema.{table};\n" * times)
    return (listed - seconds(program, made)) / times


def main():
    parser = argparse.ArgumentParser()
    parser.add_argument("--program", default=PROGRAM)
    program = parser.parse_args().program
    subprocess.run([program, "run"], stdin=subprocess.DEVNULL, check=True)
    slow = False
    for table in LISTED:
        few, many = listing(program, table, 800, TIMES), listing(program, table, 8_000, 2)
        slow = slow or table == "columns" and many > 12 * few
        print(f"{table}: {1000 * few:.2f} ms at 800 tables, {1000 * many:.2f} ms at 8,000: {many / max(few, 1e-9):.1f} times")
    return 1 if slow else 0


if __name__ == "__main__":
    sys.exit(main())
