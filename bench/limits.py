#!/usr/bin/env python3
"""Times statements at the limits and at half of them, and prints what they take of time and memory.

usage: bench/limits.py [--only WORD] [--program PATH]      (by hand, with no other work on the machine)

Each row is a script of one session that ends in the statement, at half its size and at its size; a script without the
statement is timed too, and taken off. A row's line says the processor's seconds at both sizes, how many times as long the
whole takes as the half, and the greatest memory of a run in MB (10^6 bytes). A row fails where the whole takes more than
2.5 times as long as the half (times below 0.2 s aren't judged so), where it takes more than 10 s, where a run takes more
than 2,000 MB, and where a run ends badly. The exit status is 1 if a row fails. A run may take 60 s and 8 GB.

With --program that file is timed in place of the one that ./ddrun builds.
"""
import argparse
import os
import pathlib
import resource
import subprocess
import sys
import tempfile
import time

TOP = pathlib.Path(__file__).resolve().parent.parent
SECONDS, BYTES = 60, 8 * 2**30
MOST_TIMES, MOST_SECONDS, MOST_MB, LEAST_JUDGED = 2.5, 10, 2_000, 0.2
STATEMENT, INPUT = 1_048_576, 67_108_864


def session(statements, name="a"):
    return f"session {name}\n" + "".join(statement + ";\n" for statement in statements)


BEGIN = ["CREATE DATABASE d", "USE d"]


def tables(n, more=""):
    return [f"CREATE TABLE t{i} (i INT PRIMARY KEY{more})" for i in range(n)]


def children(n):
    """A parent, and n tables with a foreign key to it."""
    return ["CREATE TABLE p (i INT PRIMARY KEY)"] + [
        f"CREATE TABLE t{i} (i INT, FOREIGN KEY (i) REFERENCES p (i))" for i in range(n)
    ]


def created(items):
    return f"CREATE TABLE c ({', '.join(items)})"


def filled(front, item, size):
    """A list of the item, as long as a statement of so many bytes can have it."""
    return front + ",".join([item] * ((size - len(front) - 1) // (len(item) + 1)))


def long(front, number):
    """A name of 64 characters."""
    return f"{front}{number:0{64 - len(front)}}"


def long_tables(n):
    """Tables whose names, and whose parts' names, are of 64 characters."""
    return [f"CREATE TABLE {long('t', i)} ({long('c', i)} INT PRIMARY KEY, n INT, KEY {long('k', i)} (n))" for i in range(n)]


def repeated(statement, size):
    """The statement again and again, in so many bytes, at most as often as a session may have it."""
    return [statement] * min(size // (len(statement) + 2), 99_990)


def wide(size):
    """Statements that make tables of 70 columns, in so many bytes."""
    columns = ",".join(f"c{i:05} INT" for i in range(70))
    made = f"CREATE TABLE t000000({columns})"
    return [f"CREATE TABLE t{i:06}({columns})" for i in range(size // (len(made) + 2))]


ROWS = {
    # name: (the limit, statements before, the statements that are timed)
    "DROP TABLE IF EXISTS of absent names": (
        65_536,
        lambda n: BEGIN,
        lambda n: ["DROP TABLE IF EXISTS " + ", ".join(f"t{i}" for i in range(n))],
    ),
    "DROP TABLE of tables that are there": (
        65_536,
        lambda n: BEGIN + tables(n),
        lambda n: ["DROP TABLE " + ", ".join(f"t{i}" for i in range(n))],
    ),
    "DROP TABLE of a parent with its children": (
        4_000,
        lambda n: BEGIN + children(n),
        lambda n: ["DROP TABLE p, " + ", ".join(f"t{i}" for i in range(n))],
    ),
    "DROP DATABASE": (65_536, lambda n: BEGIN + tables(n), lambda n: ["DROP DATABASE d"]),
    "CREATE TABLE with unnamed foreign keys": (
        1_024,
        lambda n: BEGIN + ["CREATE TABLE p (i INT PRIMARY KEY)"],
        lambda n: [created(["i INT"] + ["FOREIGN KEY (i) REFERENCES p (i)"] * n)],
    ),
    "CREATE TABLE with named foreign keys": (
        1_024,
        lambda n: BEGIN + ["CREATE TABLE p (i INT PRIMARY KEY)"],
        lambda n: [created(["i INT"] + [f"CONSTRAINT k{i} FOREIGN KEY (i) REFERENCES p (i)" for i in range(n)])],
    ),
    "CREATE TABLE with too many foreign keys": (
        20_000,
        lambda n: BEGIN + ["CREATE TABLE p (i INT PRIMARY KEY)"],
        lambda n: [created(["i INT"] + ["FOREIGN KEY (i) REFERENCES p (i)"] * n)],
    ),
    "CREATE TABLE of 1 MiB of keys": (STATEMENT, lambda n: BEGIN, lambda n: [filled("CREATE TABLE c (a INT,", "KEY (a)", n) + ")"]),
    "CREATE TABLE with too many columns": (
        80_000,
        lambda n: BEGIN,
        lambda n: [created(f"c{i} INT" for i in range(n))],
    ),
    "CREATE TABLE with the most columns": (1_017, lambda n: BEGIN, lambda n: [created(f"c{i} INT" for i in range(n))]),
    "RENAME TABLE": (
        4_096,
        lambda n: BEGIN + tables(n),
        lambda n: ["RENAME TABLE " + ", ".join(f"t{i} TO u{i}" for i in range(n))],
    ),
    "RENAME TABLE of a parent": (4_096, lambda n: BEGIN + children(n), lambda n: ["RENAME TABLE p TO q"]),
    "one foreign key in a large catalog": (
        4_000,
        lambda n: BEGIN + children(n),
        lambda n: ["CREATE TABLE c (i INT, FOREIGN KEY (i) REFERENCES p (i))"],
    ),
    "tables with a foreign key each": (4_000, lambda n: BEGIN, children),
    "statements": (100_000, lambda n: BEGIN, lambda n: ["SHOW DATABASES"] * (n - 2)),
    "tables with the longest names": (
        99_990,
        lambda n: [f"CREATE DATABASE {long('d', 0)}", f"USE {long('d', 0)}"],
        long_tables,
    ),
    "64 MiB of tables with 70 columns": (INPUT - 100, lambda n: BEGIN, wide),
    "64 MiB of columns": (
        INPUT - 100,
        lambda n: BEGIN,
        lambda n: repeated(filled("CREATE TABLE c(", "a INT", STATEMENT - 1) + ")", n),
    ),
    "64 MiB of keys": (
        INPUT - 100,
        lambda n: BEGIN,
        lambda n: repeated(filled("CREATE TABLE c(a INT,", "KEY(a)", STATEMENT - 1) + ")", n),
    ),
    "64 MiB of names": (INPUT - 100, lambda n: BEGIN, lambda n: repeated(filled("DROP TABLE ", "a", STATEMENT), n)),
    "64 MiB of pairs": (INPUT - 100, lambda n: BEGIN, lambda n: repeated(filled("RENAME TABLE ", "a TO b", STATEMENT), n)),
    "listings of all names again and again": (
        90_000,
        lambda n: BEGIN,
        lambda n: tables(n // 2) + ["SHOW TABLES"] * (n // 2),
    ),
    "a table of the most columns shown again and again": (
        90_000,
        lambda n: BEGIN + [created(f"c{i} INT" for i in range(1_017))],
        lambda n: ["SHOW CREATE TABLE c"] * n,
    ),
}


def built_program():
    """The program that ./ddrun runs, which it builds first where it must."""
    child = subprocess.Popen([TOP / "ddrun", "run"], stdin=subprocess.PIPE, stdout=subprocess.PIPE)
    # It becomes the program, which then waits for its input.
    while (program := pathlib.Path(f"/proc/{child.pid}/exe").resolve()).name != "ddrun":
        if child.poll() is not None:
            sys.exit("./ddrun has ended before it ran the program")
        time.sleep(0.05)
    child.communicate(b"")
    return program


class Bad(Exception):
    """How a run has ended badly."""


def bounded():
    resource.setrlimit(resource.RLIMIT_CPU, (SECONDS, SECONDS))
    resource.setrlimit(resource.RLIMIT_AS, (BYTES, BYTES))


def run_here(program, source):
    """Runs the program on a file, and prints its status, the processor's seconds and its memory in bytes."""
    with open(source, "rb") as given:
        child = subprocess.Popen([program, "run"], stdin=given, stdout=subprocess.DEVNULL, preexec_fn=bounded)
        _, status, used = os.wait4(child.pid, 0)
    child.returncode = status
    print(status, used.ru_utime + used.ru_stime, used.ru_maxrss * 1024)


def run(program, script):
    """The processor's seconds of a run, and its memory in MB. It is started by a process that is small itself, since the
    memory of that one counts too."""
    with tempfile.NamedTemporaryFile() as source:
        source.write(script.encode())
        source.flush()
        told = subprocess.run([sys.executable, __file__, "--run", program, source.name], capture_output=True, text=True, check=True)
    status, seconds, memory = (float(word) for word in told.stdout.split())
    if os.WIFSIGNALED(int(status)):
        raise Bad(f"ended by signal {os.WTERMSIG(int(status))} after {seconds:.0f} s")
    if status:
        raise Bad(f"status {os.WEXITSTATUS(int(status))}: {told.stderr.strip()}")
    return seconds, memory / 1e6


def timed(program, n, before, statements):
    name = "a" * 64
    base, _ = run(program, session(before(n), name))
    whole, memory = run(program, session(before(n) + statements(n), name))
    return max(whole - base, 0.001), memory


def judged(program, limit, before, statements):
    """A row's line, and whether it passes."""
    try:
        half, memory = timed(program, limit // 2, before, statements)
        whole, more = timed(program, limit, before, statements)
    except Bad as bad:
        return f"{limit // 2} and {limit}: {bad}", False
    memory = max(memory, more)
    passes = whole <= MOST_SECONDS and memory <= MOST_MB and (whole < LEAST_JUDGED or whole <= MOST_TIMES * half)
    return f"{limit // 2} and {limit}: {half:.3f} s and {whole:.3f} s, {whole / half:.1f} times, {memory:.0f} MB", passes


def main():
    parser = argparse.ArgumentParser(description=__doc__, formatter_class=argparse.RawDescriptionHelpFormatter)
    parser.add_argument("--only", default="", metavar="WORD")
    parser.add_argument("--program", metavar="PATH")
    parser.add_argument("--run", nargs=2, help=argparse.SUPPRESS)
    words = parser.parse_args()
    if words.run:
        return run_here(*words.run)
    program = words.program or built_program()
    bad = 0
    for name, row in ROWS.items():
        if words.only in name:
            line, passes = judged(program, *row)
            print(f"{'passes' if passes else 'FAILS '}  {name}, {line}", flush=True)
            bad += not passes
    sys.exit(1 if bad else 0)


if __name__ == "__main__":
    main()
