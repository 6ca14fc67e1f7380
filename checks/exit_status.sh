#!/usr/bin/env bash
# Compares the exit status of the program, and each byte that it writes, with what is written of them: for each
# status that a line of words leads to, for an output that takes nothing, and for what this user may not read.
#
# usage: checks/exit_status.sh [PROGRAM]      PROGRAM is ./dbgd of the repository's top unless given
source "$(dirname -- "$(readlink -f -- "${BASH_SOURCE[0]}")")/lib/head.sh" || exit 1

usage='usage: dbgd ident FILE, sources FILE, section FILE NAME, query -d DB ID, scan -d DB DIR, serve -d DB DIR, trial SEED FILES WORKERS'
elf=checks/data/ppc32_big.elf
compared=0

# Runs a command line, and compares its ending with what is wanted.
ends() { # STATUS OUT ERR COMMAND..
  local wanted=$1 out=$2 err=$3 status what=${*:5}
  shift 3
  timeout 20 "$@" >"$work/out" 2>"$work/err" </dev/null
  status=$?
  judge "$wanted" "$status" "$out" "$err" "${what#*"$work/program "}"
}

# Compares an ending: its status, and what stands in the two files.
judge() { # WANTED STATUS OUT ERR WHAT
  compared=$((compared + 1))
  printf '%s' "$3" >"$work/wanted_out"
  printf '%s' "$4" >"$work/wanted_err"
  [ "$1" = "$2" ] && cmp -s "$work/out" "$work/wanted_out" && cmp -s "$work/err" "$work/wanted_err" ||
    differs "${5@Q}: wanted status $1, $(cat "$work/wanted_out" "$work/wanted_err"); got $2, $(cat "$work/out" "$work/err")"
}

# Words that can't be read.
for words in '' 'frobnicate' '--help ident' '-V --version' '--helping' 'ident' 'ident a b' 'sources' 'sources a b' 'section a' 'section a b c' 'scan' \
  'scan -d m usr' 'scan -d m /usr usr' 'scan /usr' 'scan -d m' 'scan -d m /usr -c 0' 'scan -d m -d m /usr' 'query' \
  'query -d m' 'query -d m 00f' 'query -d m -c 2 00ff' 'serve' 'serve -d m' 'serve -d m -p 0 /usr' 'serve -d m --sources usr /usr' 'serve -d m --upstream h /usr' 'serve -d m --upstream https://h /usr' 'trial' 'trial 7 40' 'trial 7 0 1' 'trial 7 40 65'; do
  # shellcheck disable=SC2086
  ends 2 '' "$usage"$'\n' "$program" $words
done
ends 2 '' "$usage"$'\n' "$program" ident $'a\xffb'
ends 2 '' "$usage"$'\n' "$program" $'ident\xff' a
for urls in '' 'http://a  http://b' 'http://a ' 'http://a b' 'http://u@a' 'http://a?q' 'http://a#f'; do
  ends 2 '' "$usage"$'\n' "$program" serve -d m --upstream "$urls" /usr
done

# Files that are read, and files that aren't there.
printf 'text\n' >"$work/text"
printf '\177ELF' >"$work/cut"
ln -s round "$work/round"
long=$work/$(printf 'n%.0s' {1..256})
ends 0 $'ff48388fa0754b33c7e420428c629e5074908cc7 both\n' '' "$program" ident "$elf"
ends 3 $'plain not-elf\n' '' "$program" ident "$work/text"
ends 3 $'plain bad-elf\n' '' "$program" ident "$work/cut"
ends 3 '' $'dbgd: plain not-elf\n' "$program" section "$work/text" .text
ends 3 '' $'dbgd: no section\n' "$program" section "$elf" .none
ends 0 $'/sample/start.c\n' '' "$program" sources "$elf"
ends 3 '' $'dbgd: plain not-elf\n' "$program" sources "$work/text"
for path in "$work/none" "$work" "$work/text/none" "$work/round" "$work/round/none" "$long" ''; do
  ends 3 '' "dbgd: gone $path"$'\n' "$program" ident "$path"
done
ends 3 '' "dbgd: gone $work/none"$'\n' "$program" sources "$work/none"
ends 3 '' "dbgd: gone $work/none"$'\n' "$program" scan -d "$work/store.db" "$work/none"
ends 3 '' $'dbgd: nothing found\n' "$program" query -d "$work/store.db" 00ff
for words in 'scan --version' 'scan -d m /usr -V'; do
  # shellcheck disable=SC2086
  ends 0 $'dbgd scan 0.1.0\n' '' "$program" $words
done
for word in --version -V; do
  ends 0 $'dbgd 0.1.0\n' '' "$program" "$word"
done
ends 0 "$("$program" --help)"$'\n' '' "$program" -h
mkdir "$work/one"
printf 'text\n' >"$work/one/text"
ends 0 $'scan: 1 files, 1 added, 0 replaced, 0 dropped, 0 kept, 0 executables, 0 debuginfo\n' '' \
  "$program" scan -c 2 "$work/one/" "-Fd$work/one.db" "$work/.//one"

# An output that takes nothing; where the standard error takes nothing either, the status says it all.
if [ -c /dev/full ]; then
  "$program" ident "$elf" >/dev/full 2>"$work/err" </dev/null
  status=$?
  : >"$work/out"
  judge 1 "$status" '' $'dbgd: fault output\n' 'ident >/dev/full'
  "$program" ident "$elf" >/dev/full 2>/dev/full </dev/null
  status=$?
  : >"$work/err"
  judge 1 "$status" '' '' 'ident >/dev/full 2>/dev/full'
  "$program" frobnicate >"$work/out" 2>/dev/full </dev/null
  judge 2 "$?" '' '' 'frobnicate 2>/dev/full'
else
  say "skipped: there is no /dev/full"
fi

# What a user may not read. The superuser may read all, so the program is run as another user then.
as_user=()
[ "$(id -u)" != 0 ] || as_user=(setpriv --reuid=65534 --regid=65534 --clear-groups)
own=$program
[ "$program" -ef dbgd ] && own=crates/dbgd/out/dbgd
install -m 755 -- "$own" "$work/program"
chmod 711 "$work"
mkdir -p "$work/tree/closed" "$work/tree/unsearched" "$work/alone"
mkdir -m 777 "$work/stores"
for folder in tree tree/closed tree/unsearched; do
  printf 'text\n' >"$work/$folder/text"
  chmod 644 "$work/$folder/text"
done
printf 'text\n' >"$work/tree/shut"
chmod 755 "$work/tree" "$work/alone"
chmod 0 "$work/tree/shut" "$work/tree/closed"
chmod 444 "$work/tree/unsearched"
run=("${as_user[@]}" "$work/program")
if ! "${as_user[@]}" test -x "$work/program" 2>/dev/null; then
  say "skipped: the program can't be run as another user"
elif "${as_user[@]}" test -r "$work/tree/shut"; then
  say "skipped: this user may read all"
else
  for path in closed closed/text unsearched unsearched/text shut; do
    ends 3 '' "dbgd: gone $work/tree/$path"$'\n' \
      "${run[@]}" scan -d "$work/stores/gone.db" "$work/tree/$path"
  done
  # Also behind a folder that may be read.
  ends 3 '' "dbgd: gone $work/tree/closed"$'\n' \
    "${run[@]}" scan -d "$work/stores/gone.db" "$work/alone" "$work/tree/closed"
  # What may not be read below a folder of the words ends nothing.
  ends 0 $'scan: 1 files, 1 added, 0 replaced, 0 dropped, 0 kept, 0 executables, 0 debuginfo\n' '' \
    "${run[@]}" scan -d "$work/stores/tree.db" "$work/tree"
  for path in shut closed/text unsearched/text; do
    ends 1 '' $'dbgd: fault file\n' "${run[@]}" ident "$work/tree/$path"
  done
fi
chmod 700 "$work/tree/closed" "$work/tree/unsearched"

say "$compared endings compared; $differing differ"
[ "$differing" = 0 ]
