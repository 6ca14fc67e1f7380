#!/usr/bin/env bash
# How long a put into a store in a file takes, as a ratio to python's sqlite3, which runs the same statement on the same rows
# in WAL mode with synchronous FULL, one commit each. A put of a scan is what a first scan takes beyond a second one, which
# loads and puts nothing; so it has the load of its file, too. A disk's sync varies tenfold from minute to minute: the two
# take turns, and the median of the runs' ratios is told. Then stores of 5,000 and of 20,000 rows: the time of a first scan
# and that of a second one, which reads all rows, must not grow by more than half a row.
# It stands outside the gate, since the time of a busy machine says nothing. TMPDIR is to be a folder on the disk that is meant.
#
# usage: bench/store.sh [PROGRAM]      PROGRAM is ./dbgd of the repository's top unless given; RUNS and COUNT: runs, and files a run
source "$(dirname -- "$(readlink -f -- "${BASH_SOURCE[0]}")")/../checks/lib/head.sh" || exit 1

command -v python3 >/dev/null && python3 -c 'import sqlite3' 2>/dev/null ||
  { say "skipped: there is no python3 with sqlite3"; exit 0; }
runs=${RUNS:-7} count=${COUNT:-2000}

make_tree() { # FOLDER FILES
  local i
  for ((i = 0; i < $2; i++)); do
    [ $((i % 100)) = 0 ] && mkdir -p "$1/$((i / 100))"
    printf 'text %d\n' "$i" >"$1/$((i / 100))/$i"
  done
}

# A scan of a folder into a file, which is to end with this line; its time in microseconds.
scan_into() { # FILE FOLDER LINE
  local begun line
  begun=$(date +%s%N)
  line=$("$program" scan -d "$1" "$2") || { say "the scan of $2 failed"; exit 1; }
  echo $((($(date +%s%N) - begun) / 1000))
  [ "$line" = "$3" ] || { say "the scan of $2 said: $line"; exit 1; }
}

added() { echo "scan: $1 files, $1 added, 0 replaced, 0 dropped, 0 kept, 0 executables, 0 debuginfo"; }
kept() { echo "scan: $1 files, 0 added, 0 replaced, 0 dropped, $1 kept, 0 executables, 0 debuginfo"; }

# The time of a first scan and that of a second one into the same file.
scan_twice() { # FILE FOLDER FILES
  rm -f "$1" "$1-wal"
  first=$(scan_into "$1" "$2" "$(added "$3")") || exit 1
  second=$(scan_into "$1" "$2" "$(kept "$3")") || exit 1
}

# Puts the rows of a store into a new file, and prints the time in microseconds.
put_by_python() { # STORE FILE
  rm -f "$2" "$2-wal" "$2-shm"
  python3 - "$1" "$2" <<'PYTHON'
import sqlite3, sys, time
rows = sqlite3.connect(sys.argv[1]).execute("SELECT path, body FROM kept ORDER BY path").fetchall()
db = sqlite3.connect(sys.argv[2], isolation_level=None)
db.execute("PRAGMA journal_mode=WAL")
db.execute("PRAGMA synchronous=FULL")
db.execute("CREATE TABLE IF NOT EXISTS kept(path TEXT PRIMARY KEY NOT NULL, body BLOB NOT NULL) STRICT")
begun = time.monotonic_ns()
for row in rows:
    db.execute("INSERT INTO kept(path, body) VALUES (?1, ?2) ON CONFLICT(path) DO UPDATE SET body = excluded.body", row)
print((time.monotonic_ns() - begun) // 1000)
PYTHON
}

make_tree "$work/tree" "$count"
scan_twice "$work/rows" "$work/tree" "$count"

ratios=()
for ((run = 1; run <= runs; run++)); do
  [ $((run % 2)) = 1 ] || python=$(put_by_python "$work/rows" "$work/python") || exit 1
  scan_twice "$work/store" "$work/tree" "$count"
  [ $((run % 2)) = 0 ] || python=$(put_by_python "$work/rows" "$work/python") || exit 1
  puts=$((first - second))
  ratios+=($((puts * 100 / python)))
  say "run $run: $((puts / count)) us a put, python $((python / count)) us, ratio ${ratios[-1]} of 100; a second scan $second us"
done
median=$(printf '%s\n' "${ratios[@]}" | sort -n | sed -n "$(((runs + 1) / 2))p")
say "the median of the ratios is $median of 100; the aim is 120"

before=0 grown=0
for count in 5000 20000; do
  make_tree "$work/$count" "$count"
  scan_twice "$work/store" "$work/$count" "$count"
  say "$count rows: a first scan $((first / count)) us a row, a second scan $((second * 1000 / count)) ns a row"
  [ "$before" = 0 ] || [ $((second * 1000 / count * 2)) -le $((before * 3)) ] || grown=1
  before=$((second * 1000 / count))
done
[ "$grown" = 0 ] || { say "the time of a row grew by more than half"; exit 1; }
