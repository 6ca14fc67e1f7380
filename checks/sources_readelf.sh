#!/usr/bin/env bash
# Compares `sources`, path by path, with what readelf lists of the line tables of programs that are compiled here, in C and
# C++ and by each compiler that is there, with DWARF 2 to 5 of both formats, and of programs that `as -g` assembles.
#
# usage: checks/sources_readelf.sh [PROGRAM]      PROGRAM is ./dbgd of the repository's top unless given
source "$(dirname -- "$(readlink -f -- "${BASH_SOURCE[0]}")")/lib/head.sh" || exit 1

command -v readelf >/dev/null || { say "skipped: there is no readelf"; exit 0; }
compared=0 listed=0

# The canonical paths of all files of the line tables that readelf prints, each in the units that name its table.
by_readelf() { # FILE
  { readelf --debug-dump=info -- "$1"; readelf --debug-dump=rawline -- "$1"; } 2>/dev/null | awk '
    function number_of(word) { return word == "0" ? "0x0" : tolower(word) }
    function text(line) { sub(/^.*\): /, "", line); return line }
    function value(line) { sub(/^[^:]*: /, "", line); sub(/^\([^)]*\): /, "", line); return line }
    function canon(path,   pieces, count, i, kept, all) {
      count = split(path, pieces, "/")
      kept = 0
      for (i = 1; i <= count; i++) {
        if (pieces[i] == "" || pieces[i] == ".") continue
        if (pieces[i] == "..") { if (kept > 0) kept--; continue }
        all[++kept] = pieces[i]
      }
      if (kept == 0) return "/"
      path = ""
      for (i = 1; i <= kept; i++) path = path "/" all[i]
      return path
    }
    function behind(folder, path) {
      if (path ~ /^\//) return path
      return folder == "" ? "" : folder "/" path
    }
    # Version 5 lists directory 0; before it that is the unit'\''s own, and the first that is listed has the index 1.
    function finish(   unit, i, at, first, folder, path) {
      for (unit = 1; unit <= units[table]; unit++) {
        first = version == 5 && folders ? behind(home[table, unit], folder_at[0]) : home[table, unit]
        for (i = 0; i < files; i++) {
          at = version == 5 ? dir[i] : dir[i] - 1
          folder = dir[i] == 0 ? first : (at < folders ? behind(first, folder_at[at]) : "")
          path = behind(folder, file[i])
          if (path ~ /^\// && length(path) <= 4096) print canon(path)
        }
      }
      folders = files = 0
    }
    /DW_TAG_/ { place = ""; where = "" }
    /DW_AT_stmt_list/ { place = number_of($NF) }
    /DW_AT_comp_dir/ { where = value($0) }
    /DW_AT_stmt_list/ || /DW_AT_comp_dir/ { if (place != "" && where != "") { home[place, ++units[place]] = where; place = where = "" } }
    /^  Offset: / { finish(); table = number_of($2); part = "" }
    /^  DWARF Version:/ { version = $3 + 0 }
    /^ The Directory Table/ { part = "folders" }
    /^ The File Name Table/ { part = "files" }
    /^ Line Number Statements/ { part = "" }
    part != "" && /^  [0-9]+\t/ { count = split($0, fields, "\t"); name = version == 5 ? text($0) : fields[count] }
    part == "folders" && /^  [0-9]+\t/ { folder_at[folders++] = name }
    part == "files" && /^  [0-9]+\t/ { split(fields[2], number, " "); dir[files] = number[1] + 0; file[files++] = name }
    END { finish() }
  ' | sort -u
}

# What `sources` prints of a file is what was wanted.
wants() { # FILE WHAT
  local status
  timeout 60 "$program" sources "$1" >"$work/out" 2>"$work/err" </dev/null
  status=$?
  compared=$((compared + 1))
  listed=$((listed + $(wc -l <"$work/wanted")))
  [ "$status" = 0 ] && [ ! -s "$work/err" ] || { differs "$2: status $status, $(cat "$work/err")"; return; }
  cmp -s "$work/out" "$work/wanted" ||
    differs "$2: $(comm -3 "$work/wanted" "$work/out" | head -3 | tr '\n' ' ')"
}

same() { # FILE WHAT
  by_readelf "$1" >"$work/wanted"
  wants "$1" "$2"
}

none() { # FILE WHAT
  : >"$work/wanted"
  wants "$1" "$2"
}

# Two units in different folders, which share a header by two ways to it.
tree=$work/tree
mkdir -p "$tree/src/deep" "$tree/inc"
printf 'static inline int twice(int n) { return n + n; }\n' >"$tree/inc/util.h"
printf '#include "../../inc/util.h"\n#include <stddef.h>\nint part(int n) { return twice(n) + (int) sizeof(size_t); }\n' \
  >"$tree/src/deep/part.c"
printf '#include "util.h"\n#include <stdio.h>\nint part(int n);\nint main(void) { return printf("%%d", part(twice(2))); }\n' \
  >"$tree/src/main.c"
printf '#include <map>\n#include <string>\n#include "util.h"\nstruct Named { std::string name; };\nint part(int n) { std::map<int, Named> m; m[n] = Named(); return twice((int) m.size()); }\n' \
  >"$tree/src/deep/part.cc"
printf '#include "util.h"\n#include <vector>\nint part(int n);\nint main() { std::vector<int> v; v.push_back(part(1)); return twice(v[0]); }\n' \
  >"$tree/src/main.cc"

# A program in C or C++, compiled in a folder of the tree; false where the compiler doesn't take the words.
compile() { # COMPILER SUFFIX FOLDER WORDS..
  local compiler=$1 suffix=$2 folder=$3
  shift 3
  rm -f "$work/program"
  (cd -- "$tree/$folder" && "$compiler" -w -gdwarf-5 "$@" -I "$tree/inc" -Wl,--build-id=sha1 -o "$work/program" \
    "$(realpath --relative-to=. -- "$tree/src/main.$suffix")" "$(realpath --relative-to=. -- "$tree/src/deep/part.$suffix")") \
    >/dev/null 2>&1 || return 1
  find "$work" -name '*.dwo' -delete # else readelf reads them too
}

for compiler in gcc clang g++ clang++; do
  command -v "$compiler" >/dev/null || { say "skipped: there is no $compiler"; continue; }
  case $compiler in *++) suffix=cc ;; *) suffix=c ;; esac
  compile "$compiler" "$suffix" . || { say "skipped: $compiler makes no program with DWARF 5"; continue; }
  same "$work/program" "$compiler"
  [ -s "$work/wanted" ] || { say "readelf lists no path of a program of $compiler"; exit 1; }
  if command -v objcopy >/dev/null && objcopy --only-keep-debug "$work/program" "$work/companion" 2>/dev/null; then
    wants "$work/companion" "$compiler, the debug information alone"
    objcopy --strip-debug "$work/program" "$work/bare" 2>/dev/null && none "$work/bare" "$compiler, stripped"
  fi
  while read -r folder words; do
    # shellcheck disable=SC2086
    compile "$compiler" "$suffix" "$folder" $words || { say "skipped: $compiler doesn't take $words"; continue; }
    same "$work/program" "$compiler $words in $folder"
  done <<WORDS
src -I../inc
src/deep -I../../inc -O2
. -gdwarf64
. -fdebug-types-section
. -ffile-prefix-map=$work=/mapped
. -fdebug-prefix-map=$tree=.
src -fdebug-prefix-map=$tree=/a/b/..
. -gsplit-dwarf
. -O2 -flto
WORDS
  for version in 2 3 4 5; do
    for format in -gdwarf32 -gdwarf64; do
      compile "$compiler" "$suffix" src "-gdwarf-$version" "$format" -I../inc ||
        { say "skipped: $compiler doesn't take -gdwarf-$version with $format"; continue; }
      same "$work/program" "$compiler -gdwarf-$version $format"
      [ -s "$work/wanted" ] || { say "readelf lists no path of a program of $compiler -gdwarf-$version $format"; exit 1; }
    done
  done
  # Compressed debug sections and files that the linker has still to put together list no source.
  compile "$compiler" "$suffix" . -gz=zlib && readelf -SW "$work/program" | grep -q '\.debug_line.* C ' &&
    none "$work/program" "$compiler -gz=zlib"
  (cd -- "$tree" && "$compiler" -w -gdwarf-5 -I inc -Wl,-r -Wl,--build-id=sha1 -nostdlib -o "$work/object" "src/main.$suffix") \
    2>/dev/null && none "$work/object" "$compiler, relocatable"
done

# A unit of version 2 over a table of version 3, where no version is asked for.
printf '\t.globl _start\n_start:\n\tnop\n' >"$tree/src/start.s"
if command -v as >/dev/null && command -v ld >/dev/null; then
  for words in -g --gdwarf-2 --gdwarf-3 --gdwarf-4 --gdwarf-5; do
    (cd -- "$tree/src" && as "$words" -o "$work/start.o" start.s && ld --build-id=sha1 -o "$work/program" "$work/start.o") \
      >/dev/null 2>&1 || { say "skipped: as doesn't take $words"; continue; }
    same "$work/program" "as $words"
    [ -s "$work/wanted" ] || { say "readelf lists no path of a program of as $words"; exit 1; }
  done
else
  say "skipped: there is no as or no ld"
fi

say "$compared programs and $listed paths compared with readelf; $differing differ"
[ "$differing" = 0 ]
