#!/usr/bin/env python3
"""Counts the batches a second that are appended to a journal in a real folder, beside the rows a second that the kit's sqlite commits.

usage: bench/appends.py        (run by hand, with `rt` and `strace` in the path and no other work on the machine)

Each batch puts one row of a key of eight bytes and a value of forty; sqlite inserts the same, each row in a transaction of its own. Both
work in one temporary folder. It prints both for 1,000 rows, and then how many syncs the system saw for 100 rows of each: of the file, and of
its folder. The file of the journal is synced as it is made, as its closed gate is written, and twice a batch; where the
system saw fewer, the program ends with an error. The program is made in a folder of its own, which is removed at the end, and is run without
its proof.
"""
import pathlib, re, shutil, subprocess, sys, tempfile

TOP = pathlib.Path(__file__).resolve().parent.parent
CRATES = ["disk_trait", "disk_host", "row_batch", "row_journal"]
TRACED = 100

PROGRAM = r"""//! Appends a second, by the journal and by sqlite.
#![tactic(auto)]

use disk_trait::Disk;
use disk_host::HostDisk;
use row_batch::Batch;
use row_journal::{Appended, open_journal};
use sqlite::{Connection, params};
use std::io;
use std::time::Instant;

const ROWS: u64 = @ROWS@;
const VALUE: [u8; 40] = [7; 40];

fn journal_micros(rt: &HostRuntime) -> io::Result<u64> {
    let alloc = rt.alloc();
    let mut disk = HostDisk::new(alloc, rt.clone()?, "journal")?;
    let path = "dict";
    let _made = disk.create(path);
    let _gate = disk.write_at(path, 0, &[0]);
    let _synced = disk.sync(path);
    let Ok(mut opened) = open_journal(alloc, &mut disk, path, 0) else {
        return Ok(0);
    };
    let begun = Instant::now(rt)?;
    for row in 0..ROWS {
        let mut batch = Batch::new(alloc);
        batch.put(&row.to_be_bytes(), &VALUE)?;
        batch.frame()?;
        if opened.journal.append(&mut disk, batch.framed()) != Appended::Done {
            return Ok(0);
        }
    }
    Ok(begun.elapsed(rt)?.as_micros() as u64)
}

fn sqlite_micros(rt: &HostRuntime) -> io::Result<u64> {
    let Ok(mut conn) = Connection::open(rt, "rows.db") else {
        return Ok(0);
    };
    if conn.execute_batch("CREATE TABLE rows (k INTEGER PRIMARY KEY, v BLOB NOT NULL) STRICT").is_err() {
        return Ok(0);
    }
    let begun = Instant::now(rt)?;
    for row in 0..ROWS {
        if conn.execute("INSERT INTO rows VALUES (?1, ?2)", params![row as i64, VALUE.as_slice()]).is_err() {
            return Ok(0);
        }
    }
    Ok(begun.elapsed(rt)?.as_micros() as u64)
}

fn main(rt: HostRuntime) -> io::Result<()> {
    let journal = journal_micros(&rt)?;
    let sqlite = sqlite_micros(&rt)?;
    println!(rt; "journal {} a second, sqlite {} a second", ROWS * 1_000_000 / journal.max(1), ROWS * 1_000_000 / sqlite.max(1))
}
"""


def make(top, rows):
    """Writes the program, which then stands beside copies of the crates that it uses."""
    for crate in CRATES:
        shutil.copytree(TOP / "crates" / crate, top / "crates" / crate, ignore=shutil.ignore_patterns("out"), dirs_exist_ok=True)
    shutil.copy(TOP / "HANDLES", top)
    (top / "crates.txt").write_text(
        "disk_trait:\ndisk_host: disk_trait\nrow_batch:\nrow_journal: disk_trait row_batch\n"
        "appends: disk_trait disk_host row_batch row_journal sqlite\n"
    )
    source = top / "crates" / "appends" / "src"
    source.mkdir(parents=True, exist_ok=True)
    (source / "main.rt").write_text(PROGRAM.replace("@ROWS@", str(rows)))
    return source.parent


def main():
    with tempfile.TemporaryDirectory() as folder:
        subprocess.run(["rt", "try"], cwd=make(pathlib.Path(folder), 1000), check=True)
    with tempfile.TemporaryDirectory() as folder:
        top = pathlib.Path(folder)
        trace = top / "trace"
        watch = ["strace", "-f", "--seccomp-bpf", "-y", "-o", trace, "-e", "trace=fsync,fdatasync"]
        subprocess.run(watch + ["rt", "try"], cwd=make(top, TRACED), check=True)
        syncs = [line for line in trace.read_text().splitlines() if re.search(r"\bf(data)?sync\(", line)]
        of_file = sum("journal/dict>" in line for line in syncs)
        print("syncs of the journal:", of_file, "of its file,", sum("/journal>" in line for line in syncs), "of its folder")
        print("syncs of sqlite:", sum("rows.db" in line for line in syncs))
        if of_file < 2 + 2 * TRACED:
            sys.exit("a write isn't synced")


if __name__ == "__main__":
    main()
