#!/usr/bin/env bash
# How long `sources` takes of a program of two thousand generated C++ files with DWARF 5, as ratios: to `readelf
# --debug-dump=rawline` of it, of which it must take at most a tenth, and to reading its six debug sections once, of which
# it must take at most three times. Of the same files compiled with DWARF 4 it must take at most 1.2 times as long, and prints the same
# paths. What `sources` takes of a file without debug information is the start's, and is taken
# off. It stands outside the gate, since the time of a busy machine says nothing.
#
# The sections are read by `cat`, over and over into one small buffer. A file's bytes are held in memory before they are
# looked at, for which the system makes each page ready: how long that takes, `dd` shows by one read of all the sections,
# and it is printed beside the others.
#
# usage: bench/sources.sh [PROGRAM]      PROGRAM is ./dbgd of the repository's top unless given
source "$(dirname -- "$(readlink -f -- "${BASH_SOURCE[0]}")")/../checks/lib/head.sh" || exit 1

for tool in g++ readelf objcopy; do
  command -v "$tool" >/dev/null || { say "skipped: there is no $tool"; exit 0; }
done
units=${UNITS:-2000}

# The least of seven runs, in microseconds.
least() { # COMMAND..
  local best=0 begun took run
  for run in 1 2 3 4 5 6 7; do
    begun=$(date +%s%N)
    "$@" >/dev/null || return 1
    took=$((($(date +%s%N) - begun) / 1000))
    [ "$best" = 0 ] || [ "$took" -lt "$best" ] && best=$took
  done
  echo "$best"
}

mkdir "$work/src"
for ((i = 0; i < units; i++)); do
  printf '#include <cstdlib>\n#include <cstring>\n#include "part%d.h"\nint part%d(int n) { return std::abs(n) + own%d(n); }\n' \
    "$i" "$i" "$i" >"$work/src/part$i.cc"
  printf 'inline int own%d(int n) { return n + %d; }\n' "$i" "$i" >"$work/src/part$i.h"
done
printf 'int main() { return 0; }\n' >"$work/src/main.cc"
say "compiling $units files"
(cd -- "$work/src" && printf '%s\0' *.cc | xargs -0 -n 50 -P "$(nproc)" g++ -w -gdwarf-5 -c) || exit 1
(cd -- "$work/src" && g++ -Wl,--build-id=sha1 -o "$work/program" ./*.o) || exit 1
(cd -- "$work/src" && printf '%s\0' *.cc | xargs -0 -n 50 -P "$(nproc)" g++ -w -gdwarf-4 -c &&
  g++ -Wl,--build-id=sha1 -o "$work/older" ./*.o) || exit 1

for name in info abbrev line str line_str str_offsets; do
  objcopy --dump-section ".debug_$name=$work/$name" "$work/program" /dev/null 2>/dev/null
  [ ! -e "$work/$name" ] || cat "$work/$name" >>"$work/sections"
done
objcopy --strip-debug "$work/program" "$work/bare" || exit 1

start=$(least "$program" sources "$work/bare") || { say "sources of a stripped program failed"; exit 1; }
all=$(least "$program" sources "$work/program") || { say "sources of the program failed"; exit 1; }
older=$(least "$program" sources "$work/older") || { say "sources of the program with DWARF 4 failed"; exit 1; }
lines=$(least readelf --debug-dump=rawline "$work/program") || exit 1
read=$(least cat "$work/sections")
held=$(least dd if="$work/sections" of=/dev/null bs="$(wc -c <"$work/sections")" count=1 status=none)
own=$((all - start))
[ "$own" -gt 0 ] || own=1
say "$("$program" sources "$work/program" | wc -l) paths of $units units; sections of $(wc -c <"$work/sections") bytes"
say "sources $all us, $own us without the start; readelf $lines us; the sections read $read us, held $held us"
say "$(printf '%d.%03d of readelf, %d.%02d times the sections read, %d.%02d times the sections held' \
  $((own / lines)) $((own * 1000 / lines % 1000)) $((own / read)) $((own * 100 / read % 100)) \
  $((own / held)) $((own * 100 / held % 100)))"
failed=0
paths() { "$program" sources "$1" | grep -vE '/(<built-in>|<command-line>)$'; } # FILE
cmp -s <(paths "$work/program") <(paths "$work/older") || { say "other paths with DWARF 4"; failed=1; }
say "with DWARF 4 $((older - start)) us without the start: $(printf '%d.%02d times' $(((older - start) / own)) \
  $(((older - start) * 100 / own % 100)))"
[ $(((older - start) * 10)) -le $((own * 12)) ] || { say "more than 1.2 times as long with DWARF 4"; failed=1; }
[ $((own * 10)) -le "$lines" ] || { say "more than a tenth of readelf"; failed=1; }
[ "$own" -le $((read * 3)) ] || { say "more than three times the reading of the sections"; failed=1; }
exit "$failed"
