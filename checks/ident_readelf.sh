#!/usr/bin/env bash
# Compares `ident` with binutils' readelf on some hundred files of this system, and asks it about damaged
# copies of a program, where only the answer's form is known.
#
# usage: checks/ident_readelf.sh [PROGRAM]      PROGRAM is ./dbgd of the repository's top unless given
#
# IDENT_FILES is the most files of one folder that are taken (120 unless set), spread over its listing. After
# IDENT_SECONDS (80 unless set) the rest is left out.
source "$(dirname -- "$(readlink -f -- "${BASH_SOURCE[0]}")")/lib/head.sh" || exit 1

most=${IDENT_FILES:-120}
seconds=${IDENT_SECONDS:-80}
command -v readelf >/dev/null || { say "skipped: there is no readelf"; exit 0; }

# Regular files below a folder that this user may read, none above 64 MiB, at most so many, spread evenly.
# A name with a tab or a line break is left out, since the lists below are lines with tabs.
choose() { # COUNT FOLDER DEPTH [FIND'S TESTS..]
  local count=$1 folder=$2 depth=$3
  shift 3
  [ -d "$folder" ] || { say "skipped: there is no folder $folder"; return 0; }
  find "$folder" -maxdepth "$depth" -type f -readable -size -65536k ! -name $'*[\t\n]*' "$@" 2>/dev/null |
    sort | awk -v most="$count" '
      { line[NR] = $0 }
      END {
        step = NR > most ? NR / most : 1
        for (i = 0; i < NR && i < most; i++) {
          at = 1 + int(i * step)
          if (at <= NR) print line[at]
        }
      }'
}

libraries=$(dirname "$(find /usr/lib /usr/lib64 -maxdepth 2 -name 'libc.so*' 2>/dev/null | head -n 1)")
{
  choose "$most" /usr/bin 1
  choose "$most" "$libraries" 1 -name '*.so*'
  choose 30 /usr/lib 6 -name '*.o'
  choose 30 /usr/lib/debug 5 -name '*.debug'
  choose 10 /usr/lib 4 -name '*.a'
  choose 10 /etc 1
} | awk '!seen[$0]++' >"$work/files"
mapfile -t files <"$work/files"
[ "${#files[@]}" -gt 1 ] || { say "skipped: no files were found"; exit 0; }

# What readelf says of each file, as lines: path, the wanted answer.
# readelf names a file in a line before its answer; in an archive it names the members, which are passed over.
readelf -hSnW -- "${files[@]}" 2>/dev/null | awk -v list="$work/files" '
  function hex_place(text) { return length(text) == 16 || length(text) == 8 ? text !~ /[^0-9a-f]/ : 0 }
  BEGIN {
    while ((getline line < list) > 0) { order[++count] = line; known[line] = 1 }
  }
  /^File: / { now = substr($0, 7); if (!(now in known)) now = ""; next }
  now == "" { next }
  /^ELF Header:/ { elf[now] = 1 }
  /^  Type:/ { core[now] = $2 == "CORE" }
  /^  Start of section headers:/ { table[now] = $5 }
  /^  Number of section headers:/ { counted[now] = NF > 5 ? substr($6, 2) + 0 : $5 + 0 }
  match($0, /Build ID: [0-9a-f]+/) {
    size = RLENGTH - 10
    if (!(now in id) && size >= 4 && size <= 128) id[now] = substr($0, RSTART + 10, size)
  }
  /^  \[ *[0-9]+\]/ {
    sub(/^  \[ *[0-9]+\] */, "")
    for (i = 2; i <= NF && !hex_place($i); i++) {}
    kind = $(i - 1)
    name = i > 2 ? $1 : ""
    flags = NF == i + 7 ? $(i + 4) : ""
    if (kind == "PROGBITS" && flags ~ /A/) code[now] = 1
    if (kind != "NULL" && kind != "NOBITS" && substr(name, 1, 7) == ".debug_") debug[now] = 1
  }
  function answer(path) {
    if (!elf[path]) return "plain not-elf"
    if (table[path] == 0 || counted[path] == 0) return "plain no-sections"
    if (core[path]) return "plain core"
    if (!(path in id)) return "plain no-build-id"
    if (code[path]) return id[path] (debug[path] ? " both" : " executable")
    return id[path] (debug[path] ? " debuginfo" : " none")
  }
  END {
    for (i = 1; i <= count; i++)
      printf "%s\t%s\n", order[i], answer(order[i])
  }' >"$work/wanted"

# Runs the program on a file: sets status, out (to its last byte) and err.
ask() {
  timeout 20 "$program" ident "$1" >"$work/out" 2>"$work/err" </dev/null
  status=$?
  IFS= read -r -d '' out <"$work/out"
  IFS= read -r -d '' err <"$work/err"
}

SECONDS=0 compared=0 identified=0 left_out=0
answers_else() { # PATH WANTED
  differs "$1: wanted $2, got status $status: ${out//$'\n'/ }${err//$'\n'/ }"
}

while IFS=$'\t' read -r path wanted; do
  [ "$SECONDS" -lt "$seconds" ] || { left_out=$((left_out + 1)); continue; }
  ask "$path"
  compared=$((compared + 1))
  case $wanted in
    plain*) good=3 ;;
    *) good=0 identified=$((identified + 1)) ;;
  esac
  [ "$status" = "$good" ] && [ "$out" = "$wanted"$'\n' ] || answers_else "$path" "$wanted"
done <"$work/wanted"

# Damaged copies: an answer in one line, whatever it is, and no other end.
damaged=0
form='^([0-9a-f]{4,128} (executable|debuginfo|both|none)|plain (not-elf|bad-elf|no-sections|core|no-build-id))$'
check_form() { # PATH
  [ "$SECONDS" -lt $((seconds + 30)) ] || { left_out=$((left_out + 1)); return 0; }
  ask "$1"
  damaged=$((damaged + 1))
  [[ $status = [03] && ${out%$'\n'} =~ $form && $out = *$'\n' && -z $err ]] || answers_else "$1" "an answer"
}
whole=$(awk -F '\t' '$2 ~ / executable$/ { print $1; exit }' "$work/wanted")
if [ -n "$whole" ]; then
  size=$(stat -c %s -- "$whole")
  for length in 0 3 4 7 51 52 63 64 65 1000 $((size / 2)) $((size - 64)) $((size - 1)); do
    head -c "$length" -- "$whole" >"$work/cut_at_$length"
    check_form "$work/cut_at_$length"
  done
  for place in 4 5 6 16 40 47 58 60 61 62 63; do
    for byte in 000 001 002 377; do
      cp -- "$whole" "$work/byte_$place"
      printf '%b' "\\0$byte" | dd of="$work/byte_$place" bs=1 seek="$place" conv=notrunc 2>/dev/null
      check_form "$work/byte_$place"
    done
  done
fi

[ "$left_out" = 0 ] || say "$left_out files left out after $seconds seconds"
say "$compared files compared with readelf, $identified of them with an id; $damaged damaged copies; $differing differ"
[ "$differing" = 0 ]
