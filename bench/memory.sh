#!/usr/bin/env bash
# How much memory a file costs: the largest resident memory of a scan of 20,000 files with paths of 212 bytes, less that of a
# scan of an empty folder, for each file. The first scan puts each row, of which it is to take at most 1,600 bytes a file; the
# second one finds them in the store. What an index keeps of such files at rest is told by a program that makes one, of text
# files and of ELF files with an id of their own each, of which it is to take at most 1,000 bytes a file; it is skipped where
# there is no rt. It stands outside the gate, since it takes a minute.
#
# usage: bench/memory.sh [PROGRAM]      PROGRAM is ./dbgd of the repository's top unless given; COUNT: files
source "$(dirname -- "$(readlink -f -- "${BASH_SOURCE[0]}")")/../checks/lib/head.sh" || exit 1

command -v python3 >/dev/null || { say "skipped: there is no python3"; exit 0; }
count=${COUNT:-20000}
# A launcher of the program would be measured in its place.
[ "$program" != "$top/dbgd" ] || program=$top/crates/dbgd/out/dbgd

# The largest resident memory of a command, in bytes.
largest() { # COMMAND..
  python3 -c 'import resource, subprocess, sys
subprocess.run(sys.argv[1:], stdout=subprocess.DEVNULL, check=True)
print(resource.getrusage(resource.RUSAGE_CHILDREN).ru_maxrss * 1024)' "$@" || { say "failed: $*"; exit 1; }
}

mkdir "$work/empty"
python3 - "$work/tree" "$count" <<'PYTHON'
import os, sys
top, count = sys.argv[1], int(sys.argv[2])
for i in range(count):
    folder = f"{top}/{i // 100:04d}"
    if i % 100 == 0:
        folder += "-" + "f" * (200 - 8 - len(folder))
        os.makedirs(folder)
        made = folder
    name = f"{i:06d}"
    path = f"{made}/" + "n" * (212 - len(made) - 1 - len(name)) + name
    with open(path, "w") as file:
        file.write(f"text {i}\n")
PYTHON

none=$(largest "$program" scan -d "$work/none.db" "$work/empty") || exit 1
first=$(largest "$program" scan -d "$work/all.db" "$work/tree") || exit 1
second=$(largest "$program" scan -d "$work/all.db" "$work/tree") || exit 1
first=$(((first - none) / count)) second=$(((second - none) / count))
say "a scan of no file: $none bytes; a file of $count with paths of 212 bytes: $first bytes in a first scan, $second in a second"

failed=0
[ "$first" -le 1600 ] || { say "a file took more than 1600 bytes in a first scan"; failed=1; }
command -v rt >/dev/null || { say "the index at rest is skipped: there is no rt"; exit "$failed"; }

mkdir -p "$work/crates/rest_bench/src"
for crate in file_formats row_types index_rows; do
  cp -r "crates/$crate" "$work/crates/" || exit 1
  grep -E "^$crate[: ]" crates.txt >>"$work/crates.txt" || exit 1
done
echo 'rest_bench: index_rows row_types file_formats' >>"$work/crates.txt"
cat >"$work/crates/rest_bench/src/main.rt" <<'PROGRAM'
//! Makes an index of files: `text` or `elf`, and of one digit for each file to make, 10,000 times as many.
#![tactic(auto)]

use index_rows::Rows;
use row_types::{
    BuildId, CanonPath, EDITION, Ident, Name, OpenWorld, Reading, Row, Sources, Stamp, TrueRow, Why,
};
use std::alloc::Global;
use std::env;
use std::process::{Abort, ExitCode};

fn path_of(rt: &impl Abort, alloc: Global, number: u64) -> CanonPath {
    let long = "a-folder-name-of-which-there-are-some-so-that-a-path-has-two-hundred-bytes-or-more-as-paths-of-debug-files-often-have-them";
    let folder = number % 977;
    let number = 10_000_000_000_000_000 + number;
    let text = format!(in alloc;
        "/usr/lib/x86_64-linux-gnu/a-long-folder-name/{folder}/{long}/file-{number}"
    )
    .expect(rt, "memory");
    match CanonPath::check(text) {
        Ok(path) => path.copy(alloc).expect(rt, "memory"),
        Err(_) => panic!(rt; "no path"),
    }
}

fn reading_of(rt: &impl Abort, alloc: Global, number: u64, elf: bool) -> Reading {
    if !elf {
        return Reading::Plain(Why::NotElf);
    }
    let mut bytes = [0u8; 20];
    bytes[..8].copy_from_slice(&number.wrapping_mul(6_364_136_223_846_793_005).to_be_bytes());
    bytes[8..16].copy_from_slice(&number.to_be_bytes());
    let ident = Ident {
        id: BuildId::new(&bytes).expect(rt, "an id"),
        exec: true,
        debug: false,
    };
    Reading::Elf {
        ident,
        sources: Sources::new(alloc),
    }
}

fn put_one(rt: &impl Abort, alloc: Global, rows: &mut Rows<OpenWorld>, number: u64, elf: bool) {
    let name = Name {
        path: path_of(rt, alloc, number),
        stamp: Stamp {
            size: number,
            secs: 1,
            nanos: 0,
        },
    };
    let row = TrueRow::new(Row::new(name, EDITION, reading_of(rt, alloc, number, elf)));
    rows.reserve(&row).expect(rt, "room");
    rows.put(row);
}

fn fill(rt: &impl Abort, alloc: Global, count: u64, elf: bool) -> u64 {
    let mut rows: Rows<OpenWorld> = Rows::new(alloc);
    for number in 0..count {
        put_one(rt, alloc, &mut rows, number, elf);
    }
    rows.len()
}

fn main(rt: HostRuntime) -> ExitCode {
    let alloc = rt.alloc();
    let words: Vec<String> = env::args(&rt).expect(&rt, "words").collect(alloc).expect(&rt, "memory");
    let elf = words.len() > 1 && words[1].as_str() == "elf";
    let count = (words.len() as u64).saturating_sub(2).saturating_mul(10_000);
    let made = fill(&rt, alloc, count, elf);
    assert!(&rt; made == count);
    ExitCode::SUCCESS
}
PROGRAM
(cd -- "$work/crates/rest_bench" && rt run) >"$work/out" 2>&1 ||
  { tail -n 5 "$work/out" 1>&2; say "the program failed"; exit 1; }
index=$work/crates/rest_bench/out/rest_bench
for kind in text elf; do
  none=$(largest "$index" "$kind") || exit 1
  full=$(largest "$index" "$kind" . .) || exit 1
  rest=$(((full - none) / 20000))
  say "an index of 20000 $kind files: $rest bytes a file"
  [ "$rest" -le 1000 ] || { say "a file took more than 1000 bytes at rest"; failed=1; }
done
exit "$failed"
