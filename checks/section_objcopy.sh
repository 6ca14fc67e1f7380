#!/usr/bin/env bash
# Compares `section` with binutils on programs of this system, and both commands with readelf on the small
# programs of other architectures that lie in checks/data.
#
# usage: checks/section_objcopy.sh [PROGRAM]      PROGRAM is ./dbgd of the repository's top unless given
source "$(dirname -- "$(readlink -f -- "${BASH_SOURCE[0]}")")/lib/head.sh" || exit 1

command -v readelf >/dev/null || { say "skipped: there is no readelf"; exit 0; }
compared=0

# A section's bytes by readelf's place and size; fails where there is no such section with contents.
by_readelf() { # FILE NAME
  local place size
  read -r place size < <(readelf -SW -- "$1" 2>/dev/null | awk -v name="$2" '
    /^  \[ *[0-9]+\]/ {
      sub(/^  \[ *[0-9]+\] */, "")
      if ($1 == name && $2 != "NOBITS" && $2 != "NULL") { print $4, $5; exit }
    }') || return 1
  [ -n "${size:-}" ] || return 1
  tail -c +$((16#$place + 1)) -- "$1" | head -c $((16#$size)) >"$work/wanted"
}

# The same by objcopy, for files of its own architecture.
by_objcopy() { # FILE NAME
  objcopy --dump-section "$2=$work/dumped" -- "$1" /dev/null 2>/dev/null && [ -e "$work/dumped" ]
}

compare() { # FILE NAME
  local status
  timeout 20 "$program" section "$1" "$2" >"$work/out" 2>"$work/err" </dev/null
  status=$?
  compared=$((compared + 1))
  if by_readelf "$1" "$2"; then
    [ "$status" = 0 ] && [ ! -s "$work/err" ] && cmp -s "$work/out" "$work/wanted" || differs "$1 $2: not the bytes that readelf places (status $status)"
    rm -f "$work/dumped"
    if command -v objcopy >/dev/null && by_objcopy "$1" "$2"; then
      cmp -s "$work/out" "$work/dumped" || differs "$1 $2: not the bytes that objcopy dumps"
    fi
  else
    [ "$status" = 3 ] && [ ! -s "$work/out" ] && [ "$(cat "$work/err")" = "dbgd: no section" ] ||
      differs "$1 $2: wanted no section, got status $status"
  fi
}

# Programs of this system with an identity.
count=0
for file in /bin/ls /bin/bash /usr/bin/env /usr/bin/awk /usr/bin/objcopy /usr/bin/gdb /lib/x86_64-linux-gnu/libc.so.6; do
  file=$(readlink -f -- "$file") || continue
  [ -f "$file" ] && readelf -n -- "$file" 2>/dev/null | grep -q 'Build ID' || continue
  count=$((count + 1))
  for name in .text .interp .comment .rodata .bss .note.gnu.build-id .shstrtab .debug_info .none; do
    compare "$file" "$name"
  done
done
[ "$count" -gt 0 ] || say "skipped: no program of this system has a build-id"

# Programs of other architectures: 32-bit and big-endian ones among them.
for file in checks/data/*.elf; do
  id=$(readelf -n -- "$file" 2>/dev/null | awk '/Build ID:/ { print $3; exit }')
  case $file in
    *.debug.elf) class=debuginfo ;;
    *.stripped.elf) class=executable ;;
    *) class=both ;;
  esac
  compared=$((compared + 1))
  [ "$(timeout 20 "$program" ident "$file")" = "$id $class" ] || differs "$file: wanted $id $class"
  for name in .text .comment .bss .note.gnu.build-id .debug_info .debug_line .shstrtab .none; do
    compare "$file" "$name"
  done
done

say "$compared answers compared with binutils; $differing differ"
[ "$differing" = 0 ]
