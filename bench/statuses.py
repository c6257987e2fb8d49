#!/usr/bin/env python3
"""Runs the program so that it ends with each status of README.md's table, and compares status and standard error.

usage: bench/statuses.py
"""
import os
import pathlib
import resource
import subprocess
import sys
import tempfile

TOP = pathlib.Path(__file__).resolve().parent.parent
GOOD = b"session a\nCREATE DATABASE d; SHOW DATABASES;"


def little_memory():
    resource.setrlimit(resource.RLIMIT_AS, (24 << 20, 24 << 20))


def run(words=("run",), stdin=GOOD, **more):
    """The status and standard error of a run; where `source` or `sink` is given, it stands in place of a pipe."""
    source, sink = more.pop("source", None), more.pop("sink", subprocess.PIPE)
    given = {"stdin": source} if source is not None else {"input": stdin}
    done = subprocess.run([TOP / "ddrun", *words], stdout=sink, stderr=subprocess.PIPE, **given, **more)
    return done.returncode, done.stderr.decode().strip()


def cases():
    yield run(), (0, "")
    yield run(("grow", "1")), (2, "usage: ddrun run")
    yield run(stdin=b"SHOW DATABASES;"), (3, "ddrun: bad script at byte 0: no session")
    program = next(iter(sorted(pathlib.Path.home().glob(".cache/ddrun/*/crates/ddrun/out/ddrun"))), None)
    large = b"session a\n" + b"CREATE DATABASE d;" * 100_000
    done = subprocess.run([program, "run"], input=large, capture_output=True, preexec_fn=little_memory)
    yield (done.returncode, done.stderr.decode().strip()), (4, "ddrun: no memory")
    folder = os.open(tempfile.gettempdir(), os.O_RDONLY)
    yield run(source=folder), (5, "ddrun: read fault")
    with open("/dev/full", "w") as full:
        yield run(sink=full), (6, "ddrun: write fault")
    yield run(stdin=b"session a\nALTER TABLE t ADD COLUMN a INT;"), (90, "ddrun: not built: session 0, statement 0")


def main():
    wrong = 0
    for found, wanted in cases():
        good = found == wanted
        wrong += not good
        print(f"{'as wanted' if good else 'WRONG'}: status {found[0]}, {found[1] or 'nothing said'}")
    sys.exit(1 if wrong else 0)


if __name__ == "__main__":
    main()
