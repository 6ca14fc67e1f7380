#!/usr/bin/env bash
# How long a scan takes: generated trees of 1,000, 4,000 and 16,000 small files, scanned into a file once, with a commit of
# the store for each file, and then again, when each file is kept. The second scan's time is told by the file, beside
# `find DIR -type f -exec cat {} +`. What a scan of an empty folder takes is the start's, and would hide that the time of
# a file grows: it is taken off before a file's time is compared, which must not grow by more than a quarter from step to
# step. At last a folder of programs is scanned into a new file with one worker and with four, in turn, beside `find` and
# `cat` of it: a first scan has a commit of the store for each file, one after the other, so that four workers share the
# reading alone. It stands outside the gate, since the time of a busy machine says nothing.
#
# usage: bench/scan.sh [PROGRAM]      PROGRAM is ./dbgd of the repository's top unless given; FOLDER: of programs, /usr/bin
#                                     unless given
source "$(dirname -- "$(readlink -f -- "${BASH_SOURCE[0]}")")/../checks/lib/head.sh" || exit 1

# The least of nine runs, in microseconds.
least() { # COMMAND..
  local best=0 begun took run
  for run in 1 2 3 4 5 6 7 8 9; do
    begun=$(date +%s%N)
    "$@" >/dev/null || return 1
    took=$((($(date +%s%N) - begun) / 1000))
    [ "$best" = 0 ] || [ "$took" -lt "$best" ] && best=$took
  done
  echo "$best"
}

read_all() { find "$1" -type f -exec cat {} +; }

# Scans a folder into a store of its own. The first time the store is made.
scan_into() { "$program" scan -d "$1.db" "$1" || { say "the scan of $1 failed"; exit 1; }; }

# How long the first scan of a folder takes, in microseconds.
first_scan() { # DIR
  local begun
  begun=$(date +%s%N)
  scan_into "$1" >/dev/null || exit 1
  echo $((($(date +%s%N) - begun) / 1000))
}

mkdir "$work/empty"
first_scan "$work/empty" >/dev/null || exit 1
start=$(least scan_into "$work/empty") || exit 1
say "an empty folder: $start us"

before=0 grown=0
for count in 1000 4000 16000; do
  tree=$work/$count
  for ((i = 0; i < count; i++)); do
    [ $((i % 100)) = 0 ] && mkdir -p "$tree/$((i / 100))"
    printf 'text %d\n' "$i" >"$tree/$((i / 100))/$i"
  done
  first=$(first_scan "$tree") || exit 1
  scan=$(least scan_into "$tree") || exit 1
  read=$(least read_all "$tree")
  each=$(((scan - start) * 1000 / count))
  say "$(printf '%6d files: first scan %d us, second %d us, %d ns a file without the start, %d.%02d times find and cat' \
    "$count" "$first" "$scan" "$each" $((scan / read)) $((scan * 100 / read % 100)))"
  [ "$each" -gt 0 ] || { say "the files take no longer than the start"; exit 1; }
  [ "$before" = 0 ] || [ $((each * 4)) -le $((before * 5)) ] || grown=1
  before=$each
done
[ "$grown" = 0 ] || { say "the time of a file grew by more than a quarter"; exit 1; }

# How long a first scan of the folder takes with so many workers, in microseconds: the least of three runs in turn.
folder=${FOLDER:-/usr/bin}
one=0 four=0
for run in 1 2 3; do
  for workers in 1 4; do
    rm -f "$work/new.db" "$work/new.db-wal"
    begun=$(date +%s%N)
    "$program" scan -d "$work/new.db" -c "$workers" "$folder" >"$work/line.$workers" || { say "the scan of $folder failed"; exit 1; }
    took=$((($(date +%s%N) - begun) / 1000))
    case $workers in
      1) [ "$one" = 0 ] || [ "$took" -lt "$one" ] && one=$took ;;
      4) [ "$four" = 0 ] || [ "$took" -lt "$four" ] && four=$took ;;
    esac
  done
done
cmp -s "$work/line.1" "$work/line.4" || { say "one worker and four said different lines"; exit 1; }
read=$(least read_all "$folder")
say "$(cat "$work/line.4") ($folder)"
say "$(printf 'one worker %d us, four %d us (%d.%02d of one), find and cat %d us (four take %d.%02d times that)' \
  "$one" "$four" $((four / one)) $((four * 100 / one % 100)) "$read" $((four / read)) $((four * 100 / read % 100)))"
