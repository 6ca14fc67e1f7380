#!/usr/bin/env bash
# How long a look-up by build-id takes in an index of a hundred thousand rows, as a ratio to one of a thousand, of which it
# must take at most three times: of a hundred ids that are looked up again and again. Beside it are printed the look-ups
# of a thousand ids again and again and of ids that weren't looked up before, which the machine's caches decide, and what
# a put with its room takes. At last two files of one id are put whose sources alternate: the room for the second one's ten
# thousand must take at most twenty times what that for a thousand takes. It stands outside the gate, since the time of a
# busy machine says nothing.
#
# Each figure is the least of groups of a hundred. Rows have paths of some 200 bytes, an id each, and 8 sources. `rt`
# proves and builds the program in a folder of its own, over copies of the crates that it stands on.
#
# usage: bench/lookups.sh
set -u
export LC_ALL=C
say() { printf 'lookups: %s\n' "$*" 1>&2; }
cd -- "$(dirname -- "$(readlink -f -- "${BASH_SOURCE[0]}")")/.." || exit 1
command -v rt >/dev/null || { say "skipped: there is no rt"; exit 0; }
work=$(mktemp -d) || exit 1
trap 'rm -rf "$work"' EXIT

mkdir -p "$work/crates/look_bench/src"
for crate in file_formats row_types index_rows; do
  cp -r "crates/$crate" "$work/crates/" || exit 1
  grep -E "^$crate[: ]" crates.txt >>"$work/crates.txt" || exit 1
done
echo 'look_bench: index_rows row_types file_formats' >>"$work/crates.txt"
cat >"$work/crates/look_bench/src/main.rt" <<'PROGRAM'
//! How long puts and look-ups by id take in an index of a thousand rows and of a hundred thousand.
#![tactic(auto)]

use index_rows::Rows;
use row_types::{
    BuildId, CanonPath, EDITION, Ident, Kind, Name, OpenWorld, Reading, Row, Sources, Stamp,
    TrueRow, Why,
};
use std::alloc::Global;
use std::process::{Abort, ExitCode};
use std::time::{Clock, Instant};

fn id_of(rt: &impl Abort, number: u64) -> BuildId {
    let mut bytes = [0u8; 20];
    let mixed = number
        .wrapping_mul(6_364_136_223_846_793_005)
        .wrapping_add(1_442_695_040_888_963_407);
    bytes[..8].copy_from_slice(&mixed.to_be_bytes());
    bytes[8..16].copy_from_slice(&number.to_be_bytes());
    BuildId::new(&bytes).expect(rt, "an id")
}

fn checked_path(rt: &impl Abort, text: String) -> CanonPath {
    match CanonPath::check(text) {
        Ok(path) => path,
        Err(_) => panic!(rt; "no path"),
    }
}

fn path_of(rt: &impl Abort, alloc: Global, number: u64) -> CanonPath {
    let folder = number % 977;
    let long =
        "a-folder-name-of-which-there-are-some-so-that-a-path-has-two-hundred-bytes-or-more-as-paths-of-debug-files-often-have-them";
    checked_path(
        rt,
        format!(in alloc;
            "/usr/lib/x86_64-linux-gnu/a-long-folder-name/{folder}/{long}/file-{number}"
        ).expect(rt, "memory"),
    )
}

fn source_of(rt: &impl Abort, alloc: Global, number: u64, source: u64) -> CanonPath {
    checked_path(
        rt,
        format!(in alloc; "/build/source-{number}/file-{source}.c").expect(rt, "memory"),
    )
}

fn sources_of(rt: &impl Abort, alloc: Global, number: u64) -> Sources {
    let mut paths = Vec::new(alloc);
    for source in 0..8u64 {
        assert!(rt; paths.push(source_of(rt, alloc, number, source)).is_ok());
    }
    match Sources::check(paths) {
        Ok(sources) => sources,
        Err(_) => panic!(rt; "no sources"),
    }
}

fn reading_of(rt: &impl Abort, alloc: Global, number: u64, elf: bool) -> Reading {
    if !elf {
        return Reading::Plain(Why::NotElf);
    }
    let ident = Ident {
        id: id_of(rt, number),
        exec: true,
        debug: false,
    };
    Reading::Elf {
        ident,
        sources: sources_of(rt, alloc, number),
    }
}

fn row_of(rt: &impl Abort, alloc: Global, number: u64, elf: bool) -> TrueRow<OpenWorld> {
    let name = Name {
        path: path_of(rt, alloc, number),
        stamp: Stamp {
            size: number,
            secs: 1,
            nanos: 0,
        },
    };
    TrueRow::new(Row::new(name, EDITION, reading_of(rt, alloc, number, elf)))
}

fn put(rt: &impl Abort, rows: &mut Rows<OpenWorld>, row: TrueRow<OpenWorld>) {
    rows.reserve(&row).expect(rt, "room");
    rows.put(row);
}

fn since(rt: &(impl Abort + Clock), began: Instant) -> u64 {
    let took = began.elapsed(rt).expect(rt, "a clock").as_nanos();
    u64::try_from(took).unwrap_or(u64::MAX)
}

/// The least time of a put, in nanoseconds, over groups of a hundred puts in the second half.
fn fill(
    rt: &(impl Abort + Clock),
    alloc: Global,
    rows: &mut Rows<OpenWorld>,
    count: u64,
    elf: bool,
) -> u64 {
    let mut least = u64::MAX;
    let mut took = 0u64;
    for number in 0..count {
        let row = row_of(
            rt,
            alloc,
            number.wrapping_mul(7919).checked_rem(count).unwrap_or(0),
            elf,
        );
        let began = Instant::now(rt).expect(rt, "a clock");
        put(rt, rows, row);
        took = took.saturating_add(since(rt, began));
        if number % 100 == 99 {
            if number > count / 2 {
                least = least.min(took / 100);
            }
            took = 0;
        }
    }
    least
}

fn look_group(rt: &(impl Abort + Clock), rows: &Rows<OpenWorld>, count: u64, group: u64) -> u64 {
    let mut found = 0u64;
    let began = Instant::now(rt).expect(rt, "a clock");
    for look in 0..100u64 {
        let id = id_of(
            rt,
            group
                .wrapping_mul(100)
                .wrapping_add(look)
                .wrapping_mul(7907)
                .checked_rem(count)
                .unwrap_or(0),
        );
        for _row in rows.with_class(&id, Kind::Executable) {
            found = found.saturating_add(1);
        }
    }
    let took = since(rt, began);
    assert!(rt; found == 100);
    took / 100
}

/// The least time of a look-up, in nanoseconds, over groups of a hundred ids, each group in turn.
fn look(
    rt: &(impl Abort + Clock),
    rows: &Rows<OpenWorld>,
    count: u64,
    groups: u64,
    turns: u64,
) -> u64 {
    let mut least = u64::MAX;
    for _turn in 0..turns {
        for group in 0..groups {
            least = least.min(look_group(rt, rows, count, group));
        }
    }
    least
}

fn ratio(rt: &(impl Abort + Print), what: &str, few: u64, many: u64) {
    let ratio = many.saturating_mul(100).checked_div(few).unwrap_or(0);
    println!(rt;
        "{what}: {few} ns of 1000 rows, {many} ns of 100000, ratio {ratio} hundredths"
    ).expect(rt, "output");
}

fn filled(
    rt: &(impl Abort + Clock + Print),
    alloc: Global,
    count: u64,
    elf: bool,
) -> Rows<OpenWorld> {
    let mut rows: Rows<OpenWorld> = Rows::new(alloc);
    let put = fill(rt, alloc, &mut rows, count, elf);
    println!(rt; "{count} rows, ELF {elf}: {put} ns a put with its room").expect(rt, "output");
    rows
}

/// A row of one id for all, with so many sources, each second number from the first on.
fn row_of_sources(rt: &impl Abort, alloc: Global, first: u64, count: u64) -> TrueRow<OpenWorld> {
    let mut paths = Vec::new(alloc);
    for source in 0..count {
        let number = source.saturating_mul(2).saturating_add(1_000_000).saturating_add(first);
        let text = format!(in alloc; "/build/source-{number}.c").expect(rt, "memory");
        assert!(rt; paths.push(checked_path(rt, text)).is_ok());
    }
    let Ok(sources) = Sources::check(paths) else {
        panic!(rt; "no sources");
    };
    let reading = Reading::Elf {
        ident: Ident {
            id: id_of(rt, 1),
            exec: false,
            debug: true,
        },
        sources,
    };
    let name = Name {
        path: path_of(rt, alloc, first),
        stamp: Stamp {
            size: count,
            secs: 1,
            nanos: 0,
        },
    };
    TrueRow::new(Row::new(name, EDITION, reading))
}

/// How long the room for a second file's sources takes, which alternate with those of the first.
fn room_for_sources(rt: &(impl Abort + Clock), alloc: Global, count: u64) -> u64 {
    let mut rows: Rows<OpenWorld> = Rows::new(alloc);
    put(rt, &mut rows, row_of_sources(rt, alloc, 0, count));
    let second = row_of_sources(rt, alloc, 1, count);
    let began = Instant::now(rt).expect(rt, "a clock");
    rows.reserve(&second).expect(rt, "room");
    since(rt, began)
}

fn ratio_of_sources(rt: &(impl Abort + Clock + Print), alloc: Global) {
    let few = room_for_sources(rt, alloc, 1_000);
    let many = room_for_sources(rt, alloc, 10_000);
    let ratio = many.saturating_mul(100).checked_div(few).unwrap_or(0);
    println!(rt;
        "alternating sources: {few} ns of 1000 sources, {many} ns of 10000, ratio {ratio} hundredths"
    ).expect(rt, "output");
}

fn main(rt: HostRuntime) -> ExitCode {
    let alloc = rt.alloc();
    let few = filled(&rt, alloc, 1_000, true);
    let many = filled(&rt, alloc, 100_000, true);
    ratio(
        &rt,
        "first look-ups",
        look(&rt, &few, 1_000, 10, 1),
        look(&rt, &many, 100_000, 900, 1),
    );
    ratio(
        &rt,
        "thousand ids again",
        look(&rt, &few, 1_000, 10, 100),
        look(&rt, &many, 100_000, 10, 100),
    );
    ratio(
        &rt,
        "hundred ids again",
        look(&rt, &few, 1_000, 1, 100),
        look(&rt, &many, 100_000, 1, 100),
    );
    let _plain = filled(&rt, alloc, 20_000, false);
    let _elf = filled(&rt, alloc, 20_000, true);
    ratio_of_sources(&rt, alloc);
    ExitCode::SUCCESS
}
PROGRAM

(cd -- "$work/crates/look_bench" && rt run) >"$work/out" 2>&1 ||
  { tail -n 5 "$work/out" 1>&2; say "the program failed"; exit 1; }
grep -E ' ns (a put|of 1000) ' "$work/out" | while read -r line; do say "$line"; done
ratio=$(sed -n 's/^hundred ids again: .* ratio \([0-9]*\) hundredths$/\1/p' "$work/out")
[ -n "$ratio" ] || { say "no ratio was printed"; exit 1; }
[ "$ratio" -le 300 ] || { say "a look-up in 100000 rows took more than three times one in 1000"; exit 1; }
sources=$(sed -n 's/^alternating sources: .* ratio \([0-9]*\) hundredths$/\1/p' "$work/out")
[ -n "$sources" ] || { say "no ratio of sources was printed"; exit 1; }
[ "$sources" -le 2000 ] || { say "ten times as many sources took more than twenty times as long"; exit 1; }
