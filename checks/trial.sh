#!/usr/bin/env bash
# Scans generated files with several numbers of workers, and compares the whole line with that of an independent program.
#
# usage: checks/trial.sh [PROGRAM]      PROGRAM is ./dbgd of the repository's top unless given
source "$(dirname -- "$(readlink -f -- "${BASH_SOURCE[0]}")")/lib/head.sh" || exit 1

# A trial of a seed, so many files and workers: its line, nothing else, and status 0.
compared=0
compare() { # SEED FILES WORKERS LINE
  "$program" trial "$1" "$2" "$3" >"$work/out" 2>"$work/err"
  local status=$?
  printf '%s\n' "$4" >"$work/wanted"
  compared=$((compared + 1))
  [ "$status" = 0 ] && [ ! -s "$work/err" ] && cmp -s "$work/out" "$work/wanted" ||
    differs "$1 $2 $3: wanted $4, got $(cat "$work/out" "$work/err"), status $status"
}

forty='trial: 40 files, 20 executables, 20 debuginfo, 20 sources, index 1d67394e737c8736f98a34978d6ca95b8ac131a37c52c0bbe7579f5a4188394b'
for workers in 1 2 3 8 64; do
  compare 7 40 "$workers" "$forty"
done

many='trial: 20000 files, 10000 executables, 10000 debuginfo, 10000 sources, index c2082ea32bbdd846d2f0794d8293dcce87f2ae8e83940f974d68dad592a04b7e'
for workers in 1 8; do
  compare 1 20000 "$workers" "$many"
done

# Words outside the rules.
for words in '' '7' '7 40' '7 40 1 1' '7 0 1' '7 100001 1' '7 40 0' '7 40 65' '+7 40 1' '18446744073709551616 40 1'; do
  # shellcheck disable=SC2086
  "$program" trial $words >"$work/out" 2>"$work/err"
  status=$?
  compared=$((compared + 1))
  [ "$status" = 2 ] && [ ! -s "$work/out" ] && [ "$(cut -c1-11 "$work/err")" = 'usage: dbgd' ] ||
    differs "trial $words: status $status"
done

say "$compared trials compared; $differing differ"
[ "$differing" = 0 ]
