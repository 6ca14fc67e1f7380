#!/usr/bin/env bash
# Files of more than 1 GiB, all of them sparse: what the parts that decide a file cover counts, and not its length. `ident` of
# files whose windows overlap, stand side by side, or hold a gibibyte of names; sources of one whose debug sections cover too
# much; files at the limit of length. Then files of 3 and 5 GiB are scanned and served, byte for byte, with the memory that one of
# a megabyte takes, and asked through a second server, which passes none of more than 1 GiB on.
#
# usage: checks/large_files.sh [PROGRAM]      PROGRAM is ./dbgd of the repository's top unless given
#
# It is cut off after LARGE_SECONDS (300 unless set), and fails then.
source "$(dirname -- "$(readlink -f -- "${BASH_SOURCE[0]}")")/lib/head.sh" || exit 1
source "$top/checks/lib/server.sh" || exit 1

for tool in python3 curl; do
  command -v "$tool" >/dev/null || { say "skipped: there is no $tool"; exit 0; }
done
end_after "${LARGE_SECONDS:-300}"
compared=0

# Compares two texts.
is() { # WHAT WANTED GOT
  compared=$((compared + 1))
  [ "$2" = "$3" ] || differs "$1: wanted $2, got $3"
}

# Writes a file of 64 bits and this length: code, a build-id of this byte repeated (none for `-`), the named sections with their
# types, places and lengths, and their names and table at the end. A type is notes (7) or contents (1).
cat >"$work/make.py" <<'PYTHON'
import struct, sys
path, size, byte, extents = sys.argv[1], int(sys.argv[2]), sys.argv[3], sys.argv[4:]
held = bytearray(64) + bytes(16)
sections = [(".text", 1, 2, 64, 16)]
if byte != "-":
    note = struct.pack("<III", 4, 20, 3) + b"GNU\0" + bytes.fromhex(byte) * 20
    sections.append((".note.gnu.build-id", 7, 2, len(held), len(note)))
    held += note
for extent in extents:
    name, kind, at, length = extent.split(":")
    sections.append((name, int(kind), 0, int(at), int(length)))
names, rows = bytearray(1), [bytes(64)]
room = next((length for name, _, _, _, length in sections if name == ".shstrtab"), 0)
for name, kind, flags, at, length in sections:
    if name != ".shstrtab":
        rows.append(struct.pack("<IIQQQQIIQQ", len(names), kind, flags, 0, at, length, 0, 0, 4, 0))
        names += name.encode() + b"\0"
where = size - 64 * (len(rows) + 1) - 4096
begin = next((at for name, _, _, at, _ in sections if name == ".shstrtab"), where)
rows.append(struct.pack("<IIQQQQIIQQ", 0, 3, 0, 0, begin, room or len(names), 0, 0, 1, 0))
table = size - 64 * len(rows)
held[:64] = b"\x7fELF\x02\x01\x01" + bytes(9) + struct.pack(
    "<HHIQQQIHHHHHH", 2, 62, 1, 0, 0, table, 0, 64, 0, 0, 64, len(rows), len(rows) - 1)
with open(path, "wb") as file:
    file.write(held)
    file.truncate(size)
    file.seek(begin)
    file.write(names)
    file.seek(table)
    file.write(b"".join(rows))
PYTHON
makes() { python3 "$work/make.py" "$@" || { say "no file $1"; exit 1; }; } # FILE SIZE BYTE SECTION..

gib=$((1 << 30)) mib=$((1 << 20))
truncate -s $((64 * gib)) "$work/zeros" 2>/dev/null || { say "skipped: no file of 64 GiB stands in $work"; exit 0; }

# What `ident` prints, and its status.
ident() { # FILE
  "$program" ident "$1" 2>&1 | head -c 300
  return "${PIPESTATUS[0]}"
}
says() { # WHAT STATUS TEXT FILE
  local got status
  got=$(ident "$4")
  status=$?
  is "$1" "$2 $3" "$status $got"
}

# The limit of a file's length.
says '64 GiB of zeros' 3 'plain not-elf' "$work/zeros"
truncate -s $((64 * gib + 1)) "$work/zeros"
says 'a byte more' 3 'plain too-large' "$work/zeros"
rm "$work/zeros"
id() { printf '%s' "$1$1$1$1$1$1$1$1$1$1$1$1$1$1$1$1$1$1$1$1"; } # BYTE
makes "$work/all" $((64 * gib)) a0
says 'a file of 64 GiB' 0 "$(id a0) executable" "$work/all"
makes "$work/all" $((64 * gib + 1)) a0
says 'a file of a byte more' 3 'plain too-large' "$work/all"
rm "$work/all"

# Windows: ranges that are the same are read once, and side by side they count twice. The first note of each of these sections
# passes its end, so that the section has no note.
passes_its_end() { # FILE PLACE..
  local file=$1 place
  shift
  for place in "$@"; do
    printf '\377\377\377\377' | dd of="$file" bs=1 seek="$place" conv=notrunc status=none || exit 1
  done
}
makes "$work/same" $((4 * gib)) - ".note.a:7:$gib:$((600 * mib))" ".note.b:7:$gib:$((600 * mib))"
passes_its_end "$work/same" "$gib"
says 'two sections of notes at one place' 3 'plain no-build-id' "$work/same"
makes "$work/beside" $((4 * gib)) - ".note.a:7:$gib:$((600 * mib))" ".note.b:7:$((2 * gib)):$((600 * mib))"
passes_its_end "$work/beside" "$gib" $((2 * gib))
says 'two sections of notes side by side' 3 'plain too-large' "$work/beside"
makes "$work/names" $((4 * gib)) b0 ".shstrtab:3:$gib:$gib"
says 'names of 1 GiB' 3 'plain too-large' "$work/names"
# Notes behind those with the build-id don't decide.
makes "$work/behind" $((4 * gib)) b1 ".note.a:7:$gib:$gib"
says 'notes of 1 GiB behind the build-id' 0 "$(id b1) executable" "$work/behind"
rm "$work/same" "$work/beside" "$work/names" "$work/behind"

# Parts: the identity stays where the debug sections cover too much, and no source is read.
makes "$work/parts" $((4 * gib)) c0 ".debug_info:1:$gib:$((600 * mib))" ".debug_line:1:$((2 * gib)):$((600 * mib))"
says 'debug sections of 600 MiB each' 0 "$(id c0) both" "$work/parts"
is 'their sources' '0 ' "$("$program" sources "$work/parts" >"$work/out" 2>&1; echo "$? $(head -c 100 "$work/out")")"
rm "$work/parts"

# Scanned and served: each byte, and with the memory that a file of a megabyte takes. A section of 3 GiB is want of memory, and the
# server goes on.
tree=$work/tree nothing=$work/nothing
mkdir "$tree" "$nothing"
makes "$tree/one" "$mib" d1
makes "$tree/three" $((3 * gib)) d3
makes "$tree/five" $((5 * gib)) d5 ".data.wide:1:4096:$((3 * gib))"
peak() { sed -n 's/^VmHWM:[^0-9]*\([0-9]*\) kB/\1/p' "/proc/$1/status"; } # PROCESS
status() { # URL OPTIONS..
  local url=$1
  shift
  curl -s -m 120 --noproxy '*' -g -o "$work/body" -w '%{http_code}' "$@" "$url"
}
start large -c 2 -t 0 "$tree" || exit 1
scanned 1
is 'the scan' 'scan: 3 files, 3 added, 0 replaced, 0 dropped, 0 kept, 3 executables, 0 debuginfo' "$(grep -m 1 '^scan: ' "$work/large.out")"
large=$server large_at=$at
is 'a file of 1 MiB' 200 "$(status "$large_at/buildid/$(id d1)/executable")"
before=$(peak "$large")
for name in three five; do
  byte=d${name/three/3} byte=${byte/five/5}
  size=$(stat -c %s "$tree/$name")
  url=$large_at/buildid/$(id "$byte")/executable
  is "$name: HEAD" "200 $size" "$(curl -s -m 120 --noproxy '*' -I -o /dev/null -w '%{http_code} %header{content-length}' "$url" | tr -d '\r')"
  is "$name: bytes" "$size" "$(curl -s -m 120 --noproxy '*' "$url" | tee >(cmp - "$tree/$name" >"$work/cmp" 2>&1) | wc -c)"
  sleep 0.1
  is "$name: the same" '' "$(cat "$work/cmp")"
done
after=$(peak "$large")
[ $((after - before)) -le 1024 ] || differs "two files of gibibytes took $((after - before)) kB more than one of a mebibyte"
is 'a section of 3 GiB' '507' "$(status "$large_at/buildid/$(id d5)/section/.data.wide")"
is 'a file behind it' 200 "$(status "$large_at/buildid/$(id d1)/executable")"

# Through a second server: a body of up to 1 GiB is passed on.
start front -c 2 -t 0 --upstream "$large_at" "$nothing" || exit 1
is 'a file of 1 MiB through a second server' 200 "$(status "$at/buildid/$(id d1)/executable")"
cmp -s "$tree/one" "$work/body" || differs 'a file of 1 MiB through a second server: other bytes'
is 'a file of 3 GiB through a second server' '502 upstream fault' \
  "$(status "$at/buildid/$(id d3)/executable") $(head -c 100 "$work/body")"
is 'the second server behind it' 200 "$(status "$at/buildid/$(id d1)/executable")"
stop "$server"
stop "$large"

say "$compared answers compared, $differing differ"
[ "$differing" = 0 ]
