#!/usr/bin/env bash
# What idle clients cost, beside four workers, as ratios in one run: the median of an answer of 14 KB to one client beside COUNT idle
# ones of each kind (that say nothing, were answered once, have half a head), which is to be at most 150 of 100 of that beside none,
# the first answer on a new connection, at most 5 ms above it, and the memory of an idle one, at most 500 bytes; how long a new client
# waits behind LEAVING ones that leave without a word, each as it comes or all at a time; and the processor time of a head of 16,384
# bytes in as many packets.
#
# Where OLD is a program of another time: requests a second, and processor time of one, with a file of 14 KB, by 1, 4 and 64
# connections, and by a connection for each; and the processor time of a scan of the files of checks/data and of TEXTS texts of 16 KB.
# The two take turns, and the medians of the ratios are told. The clients are of this machine and take processors from the server, so
# that processor time tells more than requests a second. wrk and nginx are asked by bench/serve.sh.
#
# It stands outside the gate, since the time of a busy machine says nothing.
#
# usage: bench/idle.sh [PROGRAM]      PROGRAM is ./dbgd of the repository's top unless given; COUNT: idle clients, 5000 unless set;
#                                     LEAVING: those that leave, 10000 unless set, and no more than descriptors
#                                     RUNS and SECS: runs, and seconds a run, 3 and 2 unless set; TEXTS: 100000 unless set
source "$(dirname -- "$(readlink -f -- "${BASH_SOURCE[0]}")")/../checks/lib/head.sh" || exit 1
source "$top/checks/lib/server.sh" || exit 1

command -v python3 >/dev/null || { say "skipped: there is no python3"; exit 0; }
[ "$program" != "$top/dbgd" ] || program=$top/crates/dbgd/out/dbgd
count=${COUNT:-5000} runs=${RUNS:-3} secs=${SECS:-2} texts=${TEXTS:-100000} leaving=${LEAVING:-10000} failed=0
ulimit -S -n "$(ulimit -H -n)"
[ "$(ulimit -n)" -gt $((leaving + 100)) ] || leaving=$(($(ulimit -n) - 100))

id=c7cf087b5ca1b9c2642186834da2d47b6ff7c585
mkdir "$work/tree"
cp checks/data/*.elf "$work/tree/"
rm "$work/tree/aarch64_little.elf"
cp checks/data/aarch64_little.elf "$work/tree/a.elf"
head -c $((14336 - $(stat -c %s "$work/tree/a.elf"))) /dev/zero >>"$work/tree/a.elf"

run() { python3 bench/idle_load.py "$1" "$port" "/buildid/$id/executable" "$server" "${@:2}"; }
median() { sort -n | awk '{ n[NR] = $1 } END { print n[int((NR + 1) / 2)] }'; }
most() { awk -v number="$1" -v limit="$2" 'BEGIN { exit number > limit }' || { say "more than $2 $3: $1"; failed=1; }; }

start alone -c 4 -t 0 "$work/tree" || exit 1
scanned 1
alone_port=$port alone_server=$server
if [ "$(ulimit -n)" -gt $((count + 100)) ]; then
  for kind in silent answered half; do
    start "$kind" -c 4 -t 0 "$work/tree" || exit 1
    scanned 1
    read -r first alone beside bytes < <(run idle "$count" "$kind" "$alone_port")
    stop "$server"
    say "beside $count $kind ones: p50 $beside ms ($alone ms beside none), the first answer $first ms, $bytes bytes for each"
    most "$(awk -v a="$beside" -v b="$alone" 'BEGIN { print a / b * 100 }')" 150 'of 100'
    most "$(awk -v a="$first" -v b="$beside" 'BEGIN { print a - b }')" 5 'ms above p50'
    most "$bytes" 500 bytes
  done
else
  say "idle clients are skipped: this user has $(ulimit -n) descriptors"
fi
port=$alone_port server=$alone_server
for how in each all; do
  read -r first done each < <(run leave "$leaving" "$how")
  say "behind $leaving that leave without a word, $how at once: the first answer $first ms, all gone $done ms, $each us of the processor for each"
  most "$first" 200 ms
done
read -r taken whole answer < <(run drops 16384)
say "a head of 16,384 bytes in as many packets: $taken s of the processor in $whole s, $answer"
stop "$server"

# The medians of so many runs of both programs in turns.
compare() { # WHAT LEAST MOST WORD..
  local turn new_rate new_time old_rate old_time
  : >"$work/rates" && : >"$work/times"
  for ((turn = 0; turn < runs; turn++)); do
    server=$new port=$new_port && read -r new_rate new_time < <(run load "${@:4}")
    server=$old port=$old_port && read -r old_rate old_time < <(run load "${@:4}")
    awk -v a="$new_rate" -v b="$old_rate" 'BEGIN { print a / b }' >>"$work/rates"
    awk -v a="$new_time" -v b="$old_time" 'BEGIN { print a / b }' >>"$work/times"
  done
  say "$1: requests a second $(median <"$work/rates") (to be at least $2), processor time $(median <"$work/times") (at most $3) of OLD's; $new_rate and $old_rate a second, $new_time and $old_time us"
}

# The processor time of a scan of a folder.
scan_time() { # PROGRAM FOLDER
  rm -f "$work/scan.db"*
  TIMEFORMAT='%U %S'
  { time "$1" scan -d "$work/scan.db" "$2" >/dev/null 2>&1; } 2>&1 | awk '{ print $1 + $2 }'
}

if [ -n "${OLD:-}" ]; then
  start new -c 4 -t 0 "$work/tree" || exit 1
  scanned 1
  new=$server new_port=$port own=$program
  program=$OLD
  start old -c 4 -t 0 "$work/tree" || exit 1
  scanned 1
  old=$server old_port=$port program=$own
  compare '1 connection' 1.4 0.75 1 "$secs" kept
  compare '4 connections' 1.2 0.75 4 "$secs" kept
  compare '64 connections' 1.5 0.75 64 "$secs" kept
  compare '4 at a time, each for one request' 0.9 1.1 4 "$secs" new
  compare '64 at a time, each for one request' 1 1.1 64 "$secs" new
  stop "$new"
  stop "$old"
  mkdir "$work/texts" "$work/elves"
  for ((at = 0; at < 1200; at++)); do cp checks/data/aarch64_little.elf "$work/elves/$at"; done
  yes 'a text without identity' | head -c 16000 >"$work/text"
  python3 -c 'import os, sys
text = open(sys.argv[1], "rb").read()
for at in range(int(sys.argv[3])):
    folder = f"{sys.argv[2]}/{at // 1000}"
    os.makedirs(folder, exist_ok=True)
    open(f"{folder}/{at}", "wb").write(text)' "$work/text" "$work/texts" "$texts"
  for what in elves texts; do
    : >"$work/times"
    for ((turn = 0; turn < runs; turn++)); do
      one=$(scan_time "$program" "$work/$what") two=$(scan_time "$OLD" "$work/$what")
      awk -v a="$one" -v b="$two" 'BEGIN { print a / b }' >>"$work/times"
    done
    say "a scan of $what: $one s and $two s of the processor, $(median <"$work/times") of OLD's"
  done
fi
[ "$failed" = 0 ]
