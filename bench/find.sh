#!/usr/bin/env bash
# What a search in a folder costs, as ratios in one run. It stands outside the gate, since the time of a busy machine says nothing.
#
# - A hit of a file of some 14 KB takes at most 0.5 ms above the start of the process, and at most 12 system calls beside those of the
#   start (`--version`).
# - A hit of a file of 117 MB takes at most twice the time of `cat` of that file into the same pipe, and at most the file and 8 MB of
#   memory.
# - A fetch of that file from a server of this machine, with its put, takes at most twice the time of `curl -o` with a sync of the file
#   that it made, and at most the file and 8 MB of memory.
#
# usage: bench/find.sh [PROGRAM]      PROGRAM is ./dbgd of the repository's top unless given
source "$(dirname -- "$(readlink -f -- "${BASH_SOURCE[0]}")")/../checks/lib/head.sh" || exit 1
source "$top/checks/lib/server.sh" || exit 1

for tool in strace gcc python3 curl objcopy; do
  command -v "$tool" >/dev/null || { say "skipped: there is no $tool"; exit 0; }
done
# A launcher of the program would be measured in its place.
[ "$program" != "$top/dbgd" ] || program=$top/crates/dbgd/out/dbgd
[ -x "$program" ] || { say "there is no program $program"; exit 1; }

failed=0
fails() { say "$*"; failed=1; }

# The time of one run of so many, in microseconds, by the least of seven such rounds.
least() { # COUNT COMMAND..
  local best=0 begun took round turn count=$1
  shift
  for round in 1 2 3 4 5 6 7; do
    begun=$(date +%s%N)
    for ((turn = 0; turn < count; turn++)); do "$@" >/dev/null </dev/null; done
    took=$((($(date +%s%N) - begun) / 1000 / count))
    [ "$best" = 0 ] || [ "$took" -lt "$best" ] && best=$took
  done
  echo "$best"
}

# How many system calls a command makes.
calls() { # COMMAND..
  strace -f -qq -s 0 -o "$work/calls" "$@" >/dev/null </dev/null || { say "failed: $*"; return 1; }
  grep -c -E '^[0-9]+ +[a-z0-9_]+\(' "$work/calls"
}

# The largest resident memory of a command, in bytes.
resident() { # COMMAND..
  python3 -c 'import resource, subprocess, sys
subprocess.run(sys.argv[1:], stdout=subprocess.DEVNULL, check=True)
print(resource.getrusage(resource.RUSAGE_CHILDREN).ru_maxrss * 1024)' "$@"
}

piped() { "$@" | cat >/dev/null; }

tree=$work/tree cache=$work/cache
mkdir "$tree"
printf 'int main(void) { return 0; }\n' >"$work/main.c"
gcc -Wl,--build-id=sha1 -o "$tree/small" "$work/main.c" || exit 1
head -c 117000000 /dev/zero >"$work/zeros"
gcc -Wl,--build-id=0x117117117117 -o "$work/plain" "$work/main.c" || exit 1
objcopy --add-section .filled="$work/zeros" "$work/plain" "$tree/large" || exit 1
small=$("$program" ident "$tree/small" | cut -d ' ' -f 1)
large=$("$program" ident "$tree/large" | cut -d ' ' -f 1)
start bench -c 4 -t 0 "$tree" || exit 1
scanned 1
search=("$program" find --cache "$cache" --upstream "$at")
"${search[@]}" executable "$small" >"$work/got" && cmp -s "$work/got" "$tree/small" || fails 'the small file is another'
"${search[@]}" executable "$large" >"$work/got" && cmp -s "$work/got" "$tree/large" || fails 'the large file is another'

begun=$(least 200 "$program" --version) hit=$(least 200 "${search[@]}" executable "$small")
say "a hit of $(stat -c %s "$tree/small") bytes: $hit us, the start $begun us"
[ $((hit - begun)) -le 500 ] || fails 'a small hit takes more than 0.5 ms above the start'
start_calls=$(calls "$program" --version) hit_calls=$(calls "${search[@]}" executable "$small")
say "system calls of a hit: $hit_calls, of the start $start_calls"
[ $((hit_calls - start_calls)) -le 12 ] || fails 'a small hit makes more than 12 system calls beside the start'

size=$(stat -c %s "$tree/large")
hit=$(least 1 piped "${search[@]}" executable "$large") read=$(least 1 piped cat "$cache/$large-executable")
say "a hit of $size bytes: $hit us, cat $read us"
[ "$hit" -le $((2 * read)) ] || fails 'a large hit takes more than twice the time of cat'
peak=$(resident "${search[@]}" executable "$large")
say "its memory: $peak bytes"
[ "$peak" -le $((size + 8000000)) ] || fails 'a large hit takes more memory than the file and 8 MB'

fetch() { rm -rf "$cache" && "${search[@]}" executable "$large"; }
curled() { rm -f "$work/curled" && curl -s --noproxy '*' -o "$work/curled" "$at/buildid/$large/executable" && sync "$work/curled"; }
fetched=$(least 1 fetch) copied=$(least 1 curled)
say "a fetch of it: $fetched us, curl and sync $copied us"
[ "$fetched" -le $((2 * copied)) ] || fails 'a fetch takes more than twice the time of curl and a sync'
rm -rf "$cache"
peak=$(resident "${search[@]}" executable "$large")
say "its memory: $peak bytes"
[ "$peak" -le $((size + 8000000)) ] || fails 'a fetch takes more memory than the file and 8 MB'
stop "$server"
exit "$failed"
