#!/usr/bin/env bash
# Searches by the real program in folders of their own and on real servers: each file of checks/data by id and class, a section, again
# with no server, entries that were damaged, cut, exchanged or put in by hand, entries and folders that can't be read or written, an
# output that is closed, files at the limit, and searches that keep one name at once; a debuginfod as the server, and a source, each
# where it can be had. Ends within a minute where nothing else keeps the machine busy.
#
# usage: checks/find.sh [PROGRAM]      PROGRAM is ./dbgd of the repository's top unless given
#
# It is cut off after FIND_SECONDS (175 unless set), and fails then.
source "$(dirname -- "$(readlink -f -- "${BASH_SOURCE[0]}")")/lib/head.sh" || exit 1
source "$top/checks/lib/server.sh" || exit 1

end_after "${FIND_SECONDS:-175}"
compared=0

# Searches in a folder: the bytes are in `got`, the standard error in `err`, the status in `status`.
find_in() { # FOLDER URLS WORDS..
  local folder=$1 urls=$2
  shift 2
  "$program" find --cache "$folder" --upstream "$urls" "$@" >"$work/got" 2>"$work/err" </dev/null
  status=$?
}

# The search ends so: its status, what it says, and a file whose bytes it writes, if it writes any.
ends() { # WHAT STATUS ERR [FILE]
  compared=$((compared + 1))
  [ "$status" = "$2" ] || differs "$1: status $status, and not $2: $(cat "$work/err")"
  [ "$(cat "$work/err")" = "$3" ] || differs "$1: says $(cat "$work/err"), and not $3"
  cmp -s "${4:-/dev/null}" "$work/got" || differs "$1: $(stat -c %s "$work/got") other bytes"
}

# The first file by path that has an id and a class.
first_of() { # KIND ID
  local elf one kinds
  for elf in "$tree"/*; do
    read -r one kinds < <("$program" ident "$elf")
    [ "$one" = "$2" ] || continue
    [ "$kinds" = "$1" ] || [ "$kinds" = both ] || continue
    echo "$elf"
    return
  done
}

# A folder or an entry has this mode.
has_mode() { # PATH MODE
  compared=$((compared + 1))
  [ "$(stat -c %a "$1")" = "$2" ] || differs "$1 has the mode $(stat -c %a "$1")"
}

tree=$work/tree nothing=$work/nothing cache=$work/over/there/cache
mkdir "$tree" "$nothing"
cp checks/data/*.elf "$tree/"
id=c7cf087b5ca1b9c2642186834da2d47b6ff7c585 # aarch64_little.elf
file=$tree/aarch64_little.elf
entry=$cache/$id-executable
lost=http://127.0.0.1:1

start has -c 4 -t 0 "$tree" || exit 1
scanned 1
has=$server has_at=$at
start lacks -c 4 -t 0 "$nothing" || exit 1
scanned 1
lacks=$server lacks_at=$at

# Each file by its id and its classes, from a server, and then from the folder alone.
find_in "$cache" "$lacks_at" executable "$id"
ends 'nobody has it' 3 'dbgd: nothing found'
[ ! -e "$cache" ] || differs 'a search in vain makes its folder'
for elf in "$tree"/*; do
  read -r one _ < <("$program" ident "$elf")
  for kind in executable debuginfo; do
    wanted=$(first_of "$kind" "$one")
    find_in "$cache" "$has_at" "$kind" "$one"
    if [ -n "$wanted" ]; then
      ends "the $kind of $elf" 0 '' "$wanted"
      find_in "$cache" "$lost" "$kind" "$one"
      ends "the $kind of $elf again" 0 '' "$wanted"
      cmp -s "$wanted" "$cache/$one-$kind" || differs "$cache/$one-$kind has other bytes"
    else
      ends "no $kind of $elf" 3 'dbgd: nothing found'
      find_in "$cache" "$lost" "$kind" "$one"
      ends "no $kind of $elf again" 1 'dbgd: fault upstream'
    fi
  done
done
has_mode "$work/over/there" 700
has_mode "$cache" 700
has_mode "$entry" 400
find_in "$cache" "$lost" executable "${id^^}"
ends 'an id in upper case' 0 '' "$file"
if command -v readelf >/dev/null; then
  compared=$((compared + 1))
  readelf -n "$work/got" 2>/dev/null | grep -q "Build ID: $id" || differs "readelf finds another id"
fi
"$program" section "$file" .note.gnu.build-id >"$work/wanted"
find_in "$cache" "$lost" section "$id" .note.gnu.build-id
ends 'a section of the folder' 0 '' "$work/wanted"
find_in "$work/none" "$has_at" section "$id" .note.gnu.build-id
ends 'a section of a server' 0 '' "$work/wanted"
[ ! -e "$work/none" ] || differs 'a section is kept'
find_in "$cache" "$has_at" section "$id" .none/such
ends 'a section that is not there' 3 'dbgd: nothing found'
find_in "$cache" "$lost $lacks_at" executable 00ff00ff
ends 'one server is dead, one has nothing' 1 'dbgd: fault upstream'
find_in "$cache" "$lost $has_at" debuginfo 00ff00ff
ends 'nobody has the id' 1 'dbgd: fault upstream'

# Entries that were changed: each counts as none, and a server's answer takes its place.
damaged() { # WHAT (the entry was changed)
  find_in "$cache" "$lost" executable "$id"
  ends "$1, and no server" 1 'dbgd: fault upstream'
  find_in "$cache" "$lacks_at" executable "$id"
  ends "$1, and a server that lacks it" 3 'dbgd: nothing found'
  find_in "$cache" "$has_at" executable "$id"
  ends "$1, and a server that has it" 0 '' "$file"
  cmp -s "$file" "$entry" || differs "$1: the entry isn't mended"
}
place() { rm -rf "$entry" && cat >"$entry"; }
echo damaged | place
damaged 'an entry that is a text'
place </dev/null
damaged 'an empty entry'
head -c 500 "$file" | place
damaged 'an entry that is cut'
place <"$tree/i686_little.elf"
damaged 'an entry of another id'
for ((size = 0; size < 200; size += 7)); do
  head -c "$size" "$file" | place
  find_in "$cache" "$lacks_at" executable "$id"
  ends "an entry of $size bytes" 3 'dbgd: nothing found'
done
stripped=$tree/ppc32_big.stripped.elf
read -r bare kinds < <("$program" ident "$stripped")
[ "$kinds" = executable ] || differs "$stripped is $kinds"
rm -f "$cache/$bare-debuginfo"
cp "$stripped" "$cache/$bare-debuginfo"
find_in "$cache" "$lost" debuginfo "$bare"
ends 'an entry of the id without the class' 1 'dbgd: fault upstream'
place <"$file"
printf x >>"$entry"
cp "$entry" "$work/longer"
find_in "$cache" "$lost" executable "$id"
ends 'an entry with a byte more, which certifies' 0 '' "$work/longer"

# Entries and folders that can't be read.
rm -f "$entry"
mkdir "$entry"
find_in "$cache" "$lacks_at" executable "$id"
ends 'a folder in the place of an entry' 1 'dbgd: fault cache'
find_in "$cache" "$has_at" executable "$id"
ends 'a folder there, and a server that has it' 1 'dbgd: fault cache' "$file"
rmdir "$entry" || differs 'the folder in the place of an entry went'
ln -s "$file" "$entry"
find_in "$cache" "$lacks_at" executable "$id"
ends 'a link in the place of an entry' 1 'dbgd: fault cache'
find_in "$cache" "$has_at" executable "$id"
ends 'a link there, and a server that has it' 0 '' "$file"
[ -f "$entry" ] && [ ! -L "$entry" ] || differs 'the link in the place of an entry stands'
find_in "$file" "$has_at" executable "$id"
ends 'a file as the folder' 1 'dbgd: fault cache' "$file"
find_in "$file" "$lacks_at" executable "$id"
ends 'a file as the folder, and nobody has it' 1 'dbgd: fault cache'
find_in '' "$has_at" executable "$id"
ends 'a folder without a name' 1 'dbgd: fault cache' "$file"
if [ "$(id -u)" = 0 ]; then
  say 'a folder that may not be written: skipped for root'
else
  mkdir -m 500 "$work/shut"
  find_in "$work/shut" "$has_at" executable "$id"
  ends 'a folder that may not be written' 1 'dbgd: fault cache' "$file"
fi

# What a search that was killed leaves is in nobody's way; no name is left by one that ended.
rm -f "$entry"
: >"$cache/.$id-executable.1"
find_in "$cache" "$has_at" executable "$id"
ends 'a name of a dead search' 0 '' "$file"
rm -f "$cache/.$id-executable.1"
left=$(find "$cache" -name '.*' | head -n 3)
[ -z "$left" ] || differs "names are left: $left"

# Two at once keep one name, many times.
for ((turn = 0; turn < 100; turn++)); do
  rm -f "$entry"
  "$program" find --cache "$cache" --upstream "$has_at" executable "$id" >"$work/other" 2>"$work/other.err" </dev/null &
  other=$!
  find_in "$cache" "$has_at" executable "$id"
  ends 'one of two at once' 0 '' "$file"
  wait "$other" || differs "the other of two at once: status $?, $(cat "$work/other.err")"
  cmp -s "$file" "$work/other" || differs 'the other of two at once: other bytes'
  cmp -s "$file" "$entry" || differs 'the entry that two kept has other bytes'
done
left=$(find "$cache" -name '.*' | head -n 3)
[ -z "$left" ] || differs "names are left: $left"

# An entry of 2^30 bytes is found, one of a byte more isn't; a reader that goes away is a fault of the output.
rm -f "$entry"
cp "$file" "$entry"
truncate -s 1073741824 "$entry"
compared=$((compared + 1))
"$program" find --cache "$cache" --upstream "$lost" executable "$id" 2>"$work/err" </dev/null | cmp -s "$entry" - ||
  differs "an entry of 2^30 bytes: $(cat "$work/err")"
"$program" find --cache "$cache" --upstream "$lost" executable "$id" 2>"$work/err" </dev/null | head -c 1 >"$work/got"
status=${PIPESTATUS[0]}
head -c 1 "$file" >"$work/wanted"
ends 'a reader that goes away' 1 'dbgd: fault output' "$work/wanted"
truncate -s 1073741825 "$entry"
damaged 'an entry of a byte more'

# Words that can't be read.
for words in "debuginfo" "debuginfo 99b" "debuginfo 99be x" "symbols 99be" "source 99be" "source 99be a.c" "section 99be"; do
  # shellcheck disable=SC2086 # the words are apart
  find_in "$work/none" "$has_at" $words
  compared=$((compared + 1))
  [ "$status" = 2 ] && [ ! -s "$work/got" ] || differs "$words: status $status"
done
find_in "$work/none" 'ftp://a' debuginfo 99be
[ "$status" = 2 ] || differs "an address that is none: status $status"
find_in "$work/none" "$has_at" executable "$(printf '%02x' {1..65})"
[ "$status" = 2 ] || differs "an id of 65 bytes: status $status"
[ ! -e "$work/none" ] || differs 'words that can not be read make a folder'

# A source, which a server has.
compiles() {
  mkdir -p "$work/served" && printf 'int main(void) { return 0; }\n' >"$work/served/main.c" &&
    (cd "$work/served" && gcc -g -Wl,--build-id=sha1 -o tool main.c)
}
if command -v gcc >/dev/null && compiles 2>"$work/err"; then
  start sources -t 0 "$work/served" || exit 1
  scanned 1
  tool=$("$program" ident "$work/served/tool" | cut -d ' ' -f 1)
  find_in "$work/none" "$at" source "$tool" "$work/served/main.c"
  ends 'a source' 0 '' "$work/served/main.c"
  [ ! -e "$work/none" ] || differs 'a source is kept'
  stop "$server"
  find_in "$work/none" "$at" source "$tool" "$work/served/main.c"
  ends 'a source, and no server' 1 'dbgd: fault upstream'
else
  say 'a source: skipped, no program can be made'
fi

# A real debuginfod as the server.
if command -v debuginfod >/dev/null && command -v curl >/dev/null; then
  while :; do
    real_port=$((20000 + RANDOM % 12000))
    (: <>"/dev/tcp/127.0.0.1/$real_port") 2>/dev/null || break
  done
  env -u DEBUGINFOD_URLS HOME="$work" debuginfod -d "$work/real.db" -p "$real_port" -F "$tree" >"$work/real.out" 2>&1 </dev/null &
  real=$!
  children+=("$real")
  real_at=http://127.0.0.1:$real_port
  answers() { kill -0 "$real" && curl -s -f --noproxy '*' -o /dev/null "$real_at/buildid/$id/executable"; }
  if within 200 answers; then
    find_in "$work/real" "$real_at" executable "$id"
    ends 'debuginfod' 0 '' "$file"
    find_in "$work/real" "$real_at" debuginfo 00ff00ff
    ends 'debuginfod, a miss' 3 'dbgd: nothing found'
  else
    differs "debuginfod doesn't answer: $(tail -n 3 "$work/real.out")"
  fi
  kill "$real"
  wait "$real" 2>/dev/null
  forget "$real"
else
  say 'debuginfod: skipped, it is not installed'
fi
stop "$lacks"
stop "$has"

say "$compared answers compared; $differing differ"
[ "$differing" = 0 ]
