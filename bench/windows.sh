#!/usr/bin/env bash
# What the reading of a file by its parts costs, as ratios in one run. It stands outside the gate, since the time of a busy
# machine says nothing.
#
# - `ident` of a file of 1 GiB takes at most twice the time of `readelf -n`, and at most 40 system calls, the start's among them.
# - `section` of 9 bytes of a file of 117 MB takes at most 0.3 ms above the start of the process.
# - A first scan of 18,000 paths of files of 183 kB (3.3 GB) takes at most 40 MiB of memory beside the rows, which a scan of as
#   many empty files shows, and of a file without an identity at most 8 system calls beside the store's and the lock's (two wakes
#   of a futex a file, where nobody waits). It takes at most half of the processor time of the program OLD, which reads each file
#   whole: `crates/dbgd/out/dbgd` of a checkout of before, once its launcher has built it. Without OLD that ratio is left out,
#   which is said, and all else is measured.
# - `sources` of a program of 65 MB with DWARF 5 takes at most three times the reading of its six debug sections once into new
#   memory, as any program that holds them reads them. What it takes of the program without them is the start's, and is taken off.
#   bench/sources.sh has a program of many small units.
# - Of four times as many notes, in one section or in one each, `ident` takes at most six times as long: of 16,383 and 65,535
#   sections, whose bytes lie apart, touch, overlap, or touch and descend. Where they lie apart and descend, a picture's list of
#   pieces is moved for each: how long that takes is printed alone.
#
# In the two large files and in the tables of notes the section table stands at the end.
#
# usage: bench/windows.sh [PROGRAM]      PROGRAM is ./dbgd of the repository's top unless given; OLD: a program of before;
#                                        COUNT: paths of the scan, 18000 unless given; UNITS: of the program, 90 unless given
source "$(dirname -- "$(readlink -f -- "${BASH_SOURCE[0]}")")/../checks/lib/head.sh" || exit 1

for tool in readelf objcopy strace g++ python3; do
  command -v "$tool" >/dev/null || { say "skipped: there is no $tool"; exit 0; }
done
count=${COUNT:-18000} units=${UNITS:-90} old=${OLD:-}
[ -z "$old" ] || command -v -- "$old" >/dev/null || { say "there is no program $old"; exit 1; }
# A launcher of the program would be measured in its place.
[ "$program" != "$top/dbgd" ] || program=$top/crates/dbgd/out/dbgd
[ -x "$program" ] || { say "there is no program $program"; exit 1; }

failed=0
fails() { say "$*"; failed=1; }

# The least of seven runs, in microseconds.
least() { # COMMAND..
  local best=0 begun took run
  for run in 1 2 3 4 5 6 7; do
    begun=$(date +%s%N)
    "$@" >/dev/null
    took=$((($(date +%s%N) - begun) / 1000))
    [ "$best" = 0 ] || [ "$took" -lt "$best" ] && best=$took
  done
  echo "$best"
}

# How many system calls a command makes, those of its threads too, but for those that name this file or one whose name begins so,
# and for those of locks.
calls() { # FILE COMMAND..
  local file=$1
  shift
  strace -f -qq -y -s 0 -o "$work/calls" "$@" >/dev/null || { say "failed: $*"; return 1; }
  grep -E '^[0-9]+ +[a-z0-9_]+\(' "$work/calls" | grep -vF -- "$file" | grep -cvE '^[0-9]+ +futex\('
}

# The largest resident memory of a command, in bytes, and its processor time, in milliseconds.
used() { # COMMAND..
  python3 -c 'import resource, subprocess, sys
subprocess.run(sys.argv[1:], stdout=subprocess.DEVNULL, check=True)
used = resource.getrusage(resource.RUSAGE_CHILDREN)
print(used.ru_maxrss * 1024, int((used.ru_utime + used.ru_stime) * 1000))' "$@" || { say "failed: $*"; return 1; }
}

# A file of this size with what a file of 64 bits holds, and its section table at the end.
stretch() { # FILE NEW SIZE
  python3 - "$@" <<'PYTHON'
import struct, sys
old, new, size = sys.argv[1], sys.argv[2], int(sys.argv[3])
with open(old, "rb") as file:
    held = bytearray(file.read())
(begin,), (each, sections) = struct.unpack_from("<Q", held, 40), struct.unpack_from("<HH", held, 58)
table = held[begin : begin + each * sections]
struct.pack_into("<Q", held, 40, size - len(table))
with open(new, "wb") as file:
    file.write(held)
    file.truncate(size)
    file.seek(size - len(table))
    file.write(table)
PYTHON
}

printf '9 bytes..' >"$work/nine"
objcopy --add-section .nine="$work/nine" "$(readlink -f -- "$(command -v ls)")" "$work/sample" || exit 1

stretch "$work/sample" "$work/large" $((1 << 30)) || exit 1
id=$(readelf -n "$work/large" | sed -n 's/.*Build ID: //p')
said=$("$program" ident "$work/large")
[ -n "$id" ] && [ "${said%% *}" = "$id" ] || { say "ident of 1 GiB says $said, readelf $id"; exit 1; }
own=$(least "$program" ident "$work/large")
other=$(least readelf -n "$work/large")
made=$(calls "no file" "$program" ident "$work/large") || exit 1
say "ident of 1 GiB: $own us, $made system calls; readelf -n: $other us"
[ "$own" -le $((other * 2)) ] || fails "more than twice readelf"
[ "$made" -le 40 ] || fails "more than 40 system calls"

stretch "$work/sample" "$work/wide" 117000000 || exit 1
"$program" section "$work/wide" .nine | cmp -s - "$work/nine" || { say "section of 117 MB isn't the nine bytes"; exit 1; }
start=$(least "$program" --version)
own=$(least "$program" section "$work/wide" .nine)
say "section of 9 bytes of 117 MB: $own us; the start: $start us"
[ "$own" -le $((start + 300)) ] || fails "more than 300 us above the start"

cp "$work/sample" "$work/one" && truncate -s 183K "$work/one" || exit 1
python3 - "$work" "$count" <<'PYTHON' || exit 1
import os, sys
top, count = sys.argv[1], int(sys.argv[2])
for name in ("none", "empty", "files", "plain", "some"):
    os.mkdir(f"{top}/{name}")
with open(f"{top}/text", "w") as text:
    text.write("text\n")
for i in range(count):
    os.link(f"{top}/one", f"{top}/files/{i:06d}")
    open(f"{top}/empty/{i:06d}", "w").close()
for i in range(1000):
    os.link(f"{top}/text", f"{top}/plain/{i:06d}")
    os.link(f"{top}/one", f"{top}/some/{i:06d}")
PYTHON
scans() { used "$1" scan -d "$work/$2-$3.db" "$work/$2"; } # PROGRAM FOLDER NAME
none=$(scans "$program" none own) && rows=$(scans "$program" empty own) && all=$(scans "$program" files own) || exit 1
time=${all#* }
beside=$((${all% *} - (${rows% *} - ${none% *})))
say "a first scan of $count files of 183 kB: ${all% *} bytes, $time ms of processor time; of as many empty ones: ${rows% *}" \
  "bytes; of none: ${none% *}; so beside the rows $beside bytes"
[ "$beside" -le $((40 << 20)) ] || fails "more than 40 MiB beside the rows"
if [ -n "$old" ]; then
  before=$(scans "$old" files old) || exit 1
  say "the program of before: ${before#* } ms of processor time, ${before% *} bytes"
  [ $((time * 2)) -le "${before#* }" ] || fails "more than half of its processor time"
else
  say "the processor time is compared with nothing: OLD names no program of before"
fi

# How many system calls a scan of a folder makes that don't name the store and aren't a lock's.
scan_calls() { calls "$work/$1-calls.db" "$program" scan -c 1 -d "$work/$1-calls.db" "$work/$1"; } # FOLDER
none=$(scan_calls none) && plain=$(scan_calls plain) && some=$(scan_calls some) || exit 1
plain=$((plain - none)) some=$((some - none))
say "$(printf 'system calls a file beside the store and the lock: %d.%03d without an identity, %d.%03d with one' \
  $((plain / 1000)) $((plain % 1000)) $((some / 1000)) $((some % 1000)))"
# The folder's own reading is some hundredths of a call a file.
[ "$plain" -lt 8100 ] || fails "more than 8 system calls of a file without an identity"

mkdir "$work/src"
cat >"$work/src/part.cc" <<'SOURCE'
#include <iostream>
#include <map>
#include <regex>
#include <string>
#include <vector>
#define JOINED(a, b) a##b
#define NAMED(a, b) JOINED(a, b)
bool NAMED(part, PART)(const std::string &text) {
  std::map<std::string, std::vector<int>> found;
  found[text].push_back(PART);
  std::cout << found.size();
  return std::regex_match(text, std::regex("a+b"));
}
SOURCE
printf 'int main() { return 0; }\n' >"$work/src/main.cc"
say "compiling $units files"
(cd -- "$work/src" && seq "$units" | xargs -I N -P "$(nproc)" g++ -w -gdwarf-5 -DPART=N -c part.cc -o partN.o &&
  g++ -Wl,--build-id=sha1 -o "$work/program" main.cc ./*.o) || exit 1
for name in info abbrev line str line_str str_offsets; do
  objcopy --dump-section ".debug_$name=$work/$name" "$work/program" /dev/null 2>/dev/null
  [ ! -e "$work/$name" ] || cat "$work/$name" >>"$work/sections"
done
objcopy --strip-debug "$work/program" "$work/bare" || exit 1
paths=$("$program" sources "$work/program" | wc -l)
[ "$paths" -gt 0 ] || { say "sources of the program are none"; exit 1; }
start=$(least "$program" sources "$work/bare")
all=$(least "$program" sources "$work/program")
# The least of seven readings into memory, each by a process of its own, whose start is left out; in microseconds.
read=$(for _ in 1 2 3 4 5 6 7; do
  python3 -c 'import sys, time
begun = time.perf_counter_ns()
with open(sys.argv[1], "rb", buffering=0) as file:
    kept = file.readall()
print((time.perf_counter_ns() - begun) // 1000)' "$work/sections" || exit 1
done | sort -n | head -n 1)
copied=$(least cat "$work/sections")
own=$((all - start))
[ "$own" -gt 0 ] || own=1
say "sources of $(wc -c <"$work/program") bytes, $paths paths: $all us, $own us without the start; its debug sections" \
  "of $(wc -c <"$work/sections") bytes read into memory: $read us (cat, which keeps none of it: $copied us);" \
  "$(printf '%d.%02d times' $((own / read)) $((own * 100 / read % 100)))"
[ "$own" -le $((read * 3)) ] || fails "more than three times the reading of the debug sections"

# ident of a table of so many sections of notes, in microseconds. Without a build-id it looks at each.
notes() { # SHAPE COUNT
  python3 - "$work/notes" "$@" <<'PYTHON' || return 1
import struct, sys
path, shape, count = sys.argv[1], sys.argv[2], int(sys.argv[3]) - 1
note = struct.pack("<III", 0, 0, 0)
if shape == "one section":
    extents, held = [(64, count * len(note))], note * count
else:
    step = 2 if shape.startswith("apart") else 1
    length = 24 if shape == "overlapping" else 1
    extents = [(64 + i * step, length) for i in range(count)]
    held = bytes(count * step + length)
    if shape.endswith("descending"):
        extents.reverse()
# The count stands in section 0, as that of a table with more than 65,279 sections does.
table = bytearray(struct.pack("<IIQQQQIIQQ", 0, 0, 0, 0, 0, len(extents) + 1, 0, 0, 0, 0))
for at, length in extents:
    table += struct.pack("<IIQQQQIIQQ", 0, 7, 0, 0, at, length, 0, 0, 4, 0)
head = b"\x7fELF\x02\x01\x01" + bytes(9)
head += struct.pack("<HHIQQQIHHHHHH", 2, 62, 1, 0, 0, 64 + len(held), 0, 64, 0, 0, 64, 0, 0)
with open(path, "wb") as file:
    file.write(head + held + table)
PYTHON
  [ "$("$program" ident "$work/notes")" = "plain no-build-id" ] || { say "ident of $2 $1 finds a build-id"; return 1; }
  least "$program" ident "$work/notes"
}

for shape in apart touching overlapping "touching descending" "one section" "apart descending"; do
  few=$(notes "$shape" 16383) && many=$(notes "$shape" 65535) || exit 1
  say "notes, $shape: 16383 take $few us, 65535 $many us"
  [ "$shape" = "apart descending" ] || [ "$many" -le $((few * 6)) ] || fails "more than six times as long for four times as many"
done
exit "$failed"
