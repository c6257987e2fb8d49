#!/usr/bin/env python3
"""Times the parser on CREATE TABLE with 100 and with 1,000 columns, and prints how the times compare.

usage: bench/parsing.py        (run by hand, with `rt` in the path and no other work on the machine)

Parsing is to be linear in the tokens: ten times the columns take at most twelve times the time. The program is made in a folder
of its own, which is removed at the end, and is run without its proof.
"""
import pathlib, shutil, subprocess, tempfile

TOP = pathlib.Path(__file__).resolve().parent.parent

PROGRAM = r"""//! The time that the parser takes.
#![tactic(auto)]

use ddl_parser::parse;
use std::alloc::{AllocError, Global};
use std::io;
use std::time::Instant;

const RUNS: u64 = 2;
const TRIES: u64 = 5;

fn table_of(alloc: Global, columns: u64) -> Result<String, AllocError> {
    let mut text = String::from_str(alloc, "CREATE TABLE t (id INT PRIMARY KEY")?;
    for number in 1..columns {
        let column = format!(in alloc; ", column_{number} VARCHAR(20) NOT NULL DEFAULT 'some text'")?;
        text.push_str(column.as_str())?;
    }
    text.push_str(")")?;
    Ok(text)
}

/// The least time of a few, or 0 where a text isn't read.
fn micros(rt: &HostRuntime, columns: u64) -> io::Result<u64> {
    let text = table_of(rt.alloc(), columns)?;
    let mut least = u64::MAX;
    for _ in 0..TRIES {
        let begun = Instant::now(rt)?;
        for _ in 0..RUNS {
            if parse(rt.alloc(), text.as_str()).is_err() {
                return Ok(0);
            }
        }
        least = least.min(begun.elapsed(rt)?.as_micros() as u64);
    }
    Ok(least)
}

fn main(rt: HostRuntime) -> io::Result<()> {
    let few = micros(&rt, 100)?;
    let many = micros(&rt, 1000)?;
    println!(rt; "{few} microseconds for 100 columns, {many} for 1,000, {} runs of each: {} percent of ten times", RUNS, many * 10 / few.max(1))
}
"""


def libraries():
    """The crates below the parser, each with its line of crates.txt."""
    lines = {}
    for line in (TOP / "crates.txt").read_text().splitlines():
        name, colon, below = line.partition(":")
        if colon and not line.startswith("#"):
            lines[name.split()[0]] = (line, below.split())
    found, ahead = {}, ["ddl_parser"]
    while ahead:
        name = ahead.pop()
        if name in lines and name not in found:
            found[name], below = lines[name]
            ahead += below
    return found


def main():
    with tempfile.TemporaryDirectory() as folder:
        top = pathlib.Path(folder)
        below = libraries()
        for crate in below:
            shutil.copytree(TOP / "crates" / crate, top / "crates" / crate, ignore=shutil.ignore_patterns("out"))
        shutil.copy(TOP / "HANDLES", top)
        (top / "crates.txt").write_text("\n".join(below.values()) + "\nparsing: ddl_parser\n")
        source = top / "crates" / "parsing" / "src"
        source.mkdir(parents=True)
        (source / "main.rt").write_text(PROGRAM)
        subprocess.run(["rt", "try"], cwd=source.parent, check=True)


if __name__ == "__main__":
    main()
