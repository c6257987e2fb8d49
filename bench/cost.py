#!/usr/bin/env python3
"""Lists what the proofs of the crates cost: processor seconds a function by crate, and the largest functions.

usage: bench/cost.py [--crates NAME..] [--least MB]

The sizes are those of the part of a function's proof that grows with the values that own memory and are alive at an exit;
they are read from what `rt check` kept in crates/*/out/incremental. For the seconds each crate is checked once more from
nothing in a copy, one after another with one job, which takes as long as all the proofs: with --crates only those.
"""
import argparse
import pathlib
import resource
import shutil
import subprocess
import tempfile

TOP = pathlib.Path(__file__).resolve().parent.parent


def sizes(least):
    """The functions whose part is above so many MB, the largest first, as (MB, crate, function)."""
    rows = []
    for crate in sorted((TOP / "crates").iterdir()):
        newest = {}
        for file in (crate / "out" / "incremental").rglob(f"Rattle-{crate.name}-proofs.*.Lts.oantt"):
            known = newest.get(file.name)
            if known is None or file.stat().st_mtime > known.stat().st_mtime:
                newest[file.name] = file
        for name, file in newest.items():
            function = name.split("-proofs.", 1)[1].removesuffix(".Lts.oantt")
            rows.append((file.stat().st_size / 2**20, crate.name, function))
    return sorted((row for row in rows if row[0] >= least), reverse=True)


def functions(crate):
    """The number of functions of a crate's sources."""
    lines = (line.strip() for file in (TOP / "crates" / crate / "src").rglob("*.rt") for line in file.open())
    return sum(line.startswith(("fn ", "pub fn ", "pub(crate) fn ")) for line in lines)


def seconds(folder, crate):
    """The processor seconds of a check of one crate from nothing, over libraries that are there."""
    shutil.rmtree(folder / "crates" / crate / "out", ignore_errors=True)
    before = resource.getrusage(resource.RUSAGE_CHILDREN)
    done = subprocess.run(["rt", "check", "--jobs", "1"], cwd=folder / "crates" / crate, capture_output=True, text=True)
    after = resource.getrusage(resource.RUSAGE_CHILDREN)
    if done.returncode:
        raise SystemExit(f"{crate} isn't proved:\n{done.stdout[-2000:]}{done.stderr[-2000:]}")
    return (after.ru_utime - before.ru_utime) + (after.ru_stime - before.ru_stime)


def names():
    """The crates, lowest first."""
    lines = (line.split("#")[0] for line in (TOP / "crates.txt").read_text().splitlines())
    return [line.split(":")[0].split()[0] for line in lines if ":" in line]


def main():
    parser = argparse.ArgumentParser(description=__doc__, formatter_class=argparse.RawDescriptionHelpFormatter)
    parser.add_argument("--crates", nargs="*", default=None, metavar="NAME")
    parser.add_argument("--least", type=float, default=1.0, metavar="MB")
    words = parser.parse_args()
    for size, crate, function in sizes(words.least):
        print(f"{size:6.1f} MB  {crate}  {function}")
    if words.crates is None:
        return
    with tempfile.TemporaryDirectory() as scratch:
        folder = pathlib.Path(scratch)
        shutil.copytree(TOP, folder, dirs_exist_ok=True, ignore=shutil.ignore_patterns("out", ".git"))
        wanted = words.crates or names()
        for crate in names():
            if crate in wanted:
                spent = seconds(folder, crate)
                count = functions(crate)
                print(f"{spent:7.1f} s  {spent / max(count, 1):5.1f} s a function of {count:3}  {crate}")


if __name__ == "__main__":
    main()
