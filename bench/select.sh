#!/usr/bin/env bash
# What -I and -X cost, in processor time and memory. It stands outside the gate, since the time of a busy machine says little.
#
# - A second scan of 100,000 files by two patterns that select them all takes at most 1.1 times the time of one without patterns, and at
#   most 8 MiB of memory more.
# - One by a pattern that leaves nine of ten out, into a store that was scanned by it before, takes at most a quarter of that time, and
#   at most a tenth of the calls that look at a path, and 100 more, beside the one by which a folder's reading asks for each entry's kind,
#   which is the system library's.
# - Each of five patterns that are hard to match takes at most a millisecond for a path of 4,095 bytes, which is as long as the system
#   takes one, and a scan of 1,000 such paths at most a second. A pattern with large counts takes at most half a second for one.
# - The largest patterns that aren't too big, of some shapes, and those as long as a word of the line may be, take at most 0.2 s before
#   the first path.
#
# Beside the processor time stands the whole one. Stores and files stand in memory (/dev/shm), where it is there, unless TMPDIR is set.
#
# usage: bench/select.sh [PROGRAM]      PROGRAM is ./dbgd of the repository's top unless given; COUNT: files, 100000 unless given;
#                                       RUNS: of each scan, in turns, 5 unless given
[ -n "${TMPDIR:-}" ] || [ ! -w /dev/shm ] || export TMPDIR=/dev/shm
source "$(dirname -- "$(readlink -f -- "${BASH_SOURCE[0]}")")/../checks/lib/head.sh" || exit 1

for tool in python3 strace; do
  command -v "$tool" >/dev/null || { say "skipped: there is no $tool"; exit 0; }
done
count=${COUNT:-100000} runs=${RUNS:-5}
# A launcher of the program would be measured in its place.
[ "$program" != "$top/dbgd" ] || program=$top/crates/dbgd/out/dbgd
[ -x "$program" ] || { say "there is no program $program"; exit 1; }
# The hard patterns are to have no match: this folder's path has no letter that they look for.
hard=${TMPDIR:-/tmp}/select.$$
mkdir "$hard" || exit 1
trap 'rm -rf "$work" "$hard"' EXIT

failed=0
fails() { say "$*"; failed=1; }

# A command's processor time and whole time, in microseconds, and its largest resident memory, in bytes; its output is in `line`.
used() { # COMMAND..
  python3 -c 'import resource, subprocess, sys, time
begun = time.monotonic()
with open(sys.argv[1], "wb") as out:
    subprocess.run(sys.argv[2:], stdout=out, check=True)
took = time.monotonic() - begun
used = resource.getrusage(resource.RUSAGE_CHILDREN)
print(int((used.ru_utime + used.ru_stime) * 1e6), int(took * 1e6), used.ru_maxrss * 1024)' "$work/line" "$@"
}

# A scan into a store, which is to list so many files: its times and its memory.
scan() { # FILES STORE WORDS..
  local files=$1 told
  local words=${*:3}
  told=$(used "$program" scan -d "$work/$2.db" "${@:3}") || { say "failed: scan ${words:0:300}"; return 1; }
  grep -q "^scan: $files files, " "$work/line" || { say "scan ${words:0:300}: $(cat "$work/line")"; return 1; }
  echo "$told"
}
median() { sort -n | awk '{ n[NR] = $1 } END { print n[int((NR + 1) / 2)] }'; }

# How many calls look at a file.
looks() { # STORE WORDS..
  strace -f -qq -e trace=%%stat -o "$work/calls" "$program" scan -d "$work/$1.db" "${@:2}" >/dev/null || return 1
  grep -c -E '^[0-9]+ +[a-z0-9_]*stat[a-z0-9_]*\(' "$work/calls"
}

say "making $count files"
tree=$work/srv
python3 - "$tree" "$count" <<'PYTHON' || exit 1
import os, sys
tree, count = sys.argv[1], int(sys.argv[2])
for i in range(count):
    if i % 5000 == 0:
        folder = f"{tree}/part-{i // 5000:04d}-as-long-as-folders-are-often"
        os.makedirs(folder)
    open(f"{folder}/file-{i:07d}.kind{i % 10}", "w").close()
PYTHON
all=(-I /srv/ -X '\.debug$') tenth=(-X '\.kind[1-9]$')
scan "$count" none "$tree" >/dev/null || exit 1
cp "$work/none.db" "$work/all.db"
[ ! -e "$work/none.db-wal" ] || cp "$work/none.db-wal" "$work/all.db-wal"
scan "$count" all "${all[@]}" "$tree" >/dev/null || exit 1
scan $((count / 10)) tenth "${tenth[@]}" "$tree" >/dev/null || exit 1
: >"$work/alls"
: >"$work/tenths"
for ((run = 0; run < runs; run++)); do
  read -r none_time none_whole none_memory < <(scan "$count" none "$tree") || exit 1
  read -r all_time all_whole all_memory < <(scan "$count" all "${all[@]}" "$tree") || exit 1
  read -r tenth_time tenth_whole tenth_memory < <(scan $((count / 10)) tenth "${tenth[@]}" "$tree") || exit 1
  echo $((all_time * 1000 / none_time)) >>"$work/alls"
  echo $((tenth_time * 1000 / none_time)) >>"$work/tenths"
done
all_ratio=$(median <"$work/alls") tenth_ratio=$(median <"$work/tenths")
say "a second scan of $count files: $none_time us of the processor ($none_whole us in all), $none_memory bytes"
say "by ${all[*]}, which select all: $all_time us ($all_whole us), $all_memory bytes; $all_ratio of 1000 of the processor time"
say "by ${tenth[*]}, a tenth: $tenth_time us ($tenth_whole us), $tenth_memory bytes; $tenth_ratio of 1000 of the processor time"
[ "$all_ratio" -le 1100 ] || fails 'patterns that select all take more than 1.1 times the processor time'
[ $((all_memory - none_memory)) -le $((8 << 20)) ] || fails "patterns that select all take $((all_memory - none_memory)) bytes more"
[ "$tenth_ratio" -le 250 ] || fails 'a pattern that leaves nine of ten out takes more than a quarter of the processor time'
none_looks=$(looks none "$tree") && all_looks=$(looks all "${all[@]}" "$tree") && tenth_looks=$(looks tenth "${tenth[@]}" "$tree") || exit 1
say "calls that look at a file: $none_looks, $all_looks and $tenth_looks"
[ $((tenth_looks - count)) -le $(((none_looks - count) / 10 + 100)) ] || fails 'more than a tenth of the looks and 100'
rm -rf "$tree"

# Paths of 4,095 bytes: folders of one letter, and a name that is a little too short for the fourth pattern.
python3 - "$hard" <<'PYTHON' || exit 1
import os, sys
top = sys.argv[1]
for folder, files in (("one", 1), ("many", 1000)):
    path = f"{top}/{folder}"
    left = 4095 - len(path) - 1 - 99
    letters = "ax"
    while left > 0:
        part = min(left - 1, 255)
        if left - 1 - part == 1:
            part -= 1
        path += "/" + letters[len(path) // 256 % 2] * part
        left -= part + 1
    os.makedirs(path)
    for i in range(files):
        name = f"{path}/" + "a" * 94 + f"{i:05d}"
        assert len(name) == 4095, len(name)
        open(name, "w").close()
PYTHON
scan 1000 hard "$hard/many" >/dev/null && scan 1 one "$hard/one" >/dev/null || exit 1

# The least of some scans, by processor time and in all, in microseconds.
least() { # FILES STORE WORDS..
  local run told
  for ((run = 0; run < runs; run++)); do scan "$@" >>"$work/told" || return 1; done
  told=$(sort -n "$work/told" | head -n 1)
  rm "$work/told"
  echo "${told% *}"
}
read -r own own_whole < <(least 1000 hard "$hard/many") || exit 1
say "1,000 paths of 4,095 bytes: $own us of the processor, $own_whole us in all"
for pattern in '(a*)*b' '(x+x+)+y' '(.*a){12}.*[A-Z]' '(?:[^/]*/)*[^/]{100,200}$' '(a|.a|..a){100,}[A-Z]'; do
  read -r time whole < <(least 1000 hard -X "$pattern" "$hard/many") || exit 1
  say "by -X $pattern: $time us, $whole us in all; so $(((time - own) / 1000)) us a path"
  [ $((time - own)) -le 1000000 ] || fails "$pattern takes more than a millisecond a path"
  [ "$time" -le 1000000 ] || fails "a scan by $pattern takes more than a second"
done
read -r own own_whole < <(least 1 one "$hard/one") || exit 1
for pattern in '(.{2000}|.{3000})[A-Z]' '(.{1000}|.{1500})[A-Z]' '(.{500}|.{700})[A-Z]'; do
  read -r time whole < <(least 1 one -X "$pattern" "$hard/one") || exit 1
  say "one path by -X $pattern: $((time - own)) us of the processor, $((whole - own_whole)) us in all"
  [ $((time - own)) -le 500000 ] || fails "$pattern takes more than half a second"
done

# The largest count with which a pattern is taken.
mkdir "$work/empty"
is_taken() { "$program" scan -d "$work/empty.db" -X "$1" "$work/empty" >/dev/null 2>&1; } # PATTERN
largest() { # FRONT BACK
  local taken=1 refused=16777216 middle
  is_taken "$1$taken$2" && ! is_taken "$1$refused$2" || return 1
  while [ $((refused - taken)) -gt 1 ]; do
    middle=$(((taken + refused) / 2))
    if is_taken "$1$middle$2"; then taken=$middle; else refused=$middle; fi
  done
  echo "$taken"
}
read -r own own_whole < <(least 0 empty "$work/empty") || exit 1
say "no file and no pattern: $own us of the processor, $own_whole us in all"
reads() { # WHAT PATTERN
  local time whole
  read -r time whole < <(least 0 empty -X "$2" "$work/empty") || exit 1
  say "the reading of $1: $((time - own)) us of the processor, $((whole - own_whole)) us in all"
  [ $((time - own)) -le 200000 ] || fails "$1 takes more than 0.2 s"
}
for shape in 'a{ }' '[a-z]{ }' '(?:a|bc){ }' 'a{0, }' '.{ }' '\w{ }' '(?:a{0, }){30}'; do
  most=$(largest "${shape% *}" "${shape#* }") || { fails "no largest pattern $shape"; continue; }
  reads "${shape/ /$most}" "${shape/ /$most}"
done
reads 'a text of 130,000 letters' "$(head -c 130000 /dev/zero | tr '\0' a)"
reads 'an alternative of 20,000 texts' "$(seq -s '|' 30000 49999)"
reads 'a text of 700 classes' "$(printf '\\w%.0s' $(seq 700))"
exit "$failed"
