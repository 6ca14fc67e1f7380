#!/usr/bin/env bash
# Lets -I and -X select files, and compares what is scanned and served then: the lines of scans into one store, each by other
# patterns; the endings of lines whose patterns aren't taken; paths that hold each byte of ASCII, and letters beyond it; the calls that
# name a file, by strace; servers of one store, one after the other; and, for each of twenty patterns that mean the same to both,
# what is served beside a debuginfod over the same folders. A part is skipped where its tool isn't installed. Ends within two minutes
# where nothing else keeps the machine busy.
#
# usage: checks/select.sh [PROGRAM]      PROGRAM is ./dbgd of the repository's top unless given
#
# It is cut off after SELECT_SECONDS (175 unless set), and fails then. Where SELECT_MANY is set, 2^20 files are scanned, too, which
# takes some minutes and 4 GB of memory; SELECT_SECONDS is 1800 then, unless set.
source "$(dirname -- "$(readlink -f -- "${BASH_SOURCE[0]}")")/lib/head.sh" || exit 1
source "$top/checks/lib/server.sh" || exit 1

# The launcher would be asked some hundred times whether the program is built.
[ "$program" != "$top/dbgd" ] || program=$top/crates/dbgd/out/dbgd
many=${SELECT_MANY:-}
[ -n "$many" ] && seconds=1800 || seconds=175
end_after "${SELECT_SECONDS:-$seconds}"
usage='usage: dbgd ident FILE, sources FILE, section FILE NAME, query -d DB ID, scan -d DB DIR, serve -d DB DIR, trial SEED FILES WORKERS'
compared=0

# Says what was compared, and ends.
finish() { # [TEXT]
  say "$compared answers compared${1:+; $1}; $differing differ"
  [ "$differing" = 0 ]
  exit
}

# Compares two texts.
is() { # WHAT WANTED GOT
  compared=$((compared + 1))
  [ "$2" = "$3" ] || differs "$1: wanted ${2:0:300}, got ${3:0:300}"
}

# Runs words, and compares the status and all that is written.
ends() { # WHAT STATUS TEXT WORDS..
  local what=$1 wanted="$2 $3" status
  shift 3
  timeout 60 "$program" "$@" >"$work/out" 2>"$work/err" </dev/null
  status=$?
  is "$what" "$wanted" "$status $(cat "$work/out" "$work/err")"
}

# Scans into a store, and compares the line by its seven numbers: files, added, replaced, dropped, kept, executables, debuginfo.
scans() { # WHAT NUMBERS STORE WORDS..
  local line
  # shellcheck disable=SC2086
  printf -v line 'scan: %d files, %d added, %d replaced, %d dropped, %d kept, %d executables, %d debuginfo' $2
  ends "$1" 0 "$line" scan -d "$work/$3.db" "${@:4}"
}

# A store's files, as they stand.
state() { # STORE
  local file
  for file in "$work/$1.db" "$work/$1.db-wal"; do
    [ ! -e "$file" ] || { stat -c '%n %i %s %y' "$file"; cksum <"$file"; }
  done
}

# Ten files: five with code, and five with debug information. The patterns name a folder of the tree, so that they have no match in
# the path of the folder that this runs in.
own=$work/own
mkdir -p "$own"/{bin,debug,lib/latest,src/old}
cp checks/data/aarch64_little.elf "$own/bin/tool"
cp checks/data/ppc32_big.stripped.elf "$own/bin/tool.stripped"
cp checks/data/ppc32_big.debug.elf "$own/debug/tool.debug"
cp checks/data/i686_little.elf "$own/debug/other.debug"
cp checks/data/s390x_big.elf "$own/lib/libone.so.1.2"
cp checks/data/arm32_little.elf "$own/lib/libtwo.so"
for file in lib/latest/test src/main.c src/old/main.c src/old/notes; do printf 'text\n' >"$own/$file"; done

# One store, scanned by other patterns each time.
scans 'no pattern' '10 10 0 0 0 5 5' one "$own"
scans '-X' '8 0 0 2 8 4 3' one -X '\.debug$' "$own"
scans '-X again' '8 0 0 0 8 4 3' one --exclude '\.debug$' "$own"
scans '-I and -X' '3 2 0 7 1 2 3' one -I '/own/(bin|debug)/' -X '/own/.*stripped' "$own"
scans '-I and -X again' '3 0 0 0 3 2 3' one "$own" --exclude='/own/.*stripped' --include='/own/(bin|debug)/'
scans 'all others' '3 3 0 3 0 0 0' one -I '\.c$|/old/notes$' "$own"
scans 'an empty -X' '0 0 0 3 0 0 0' one -X '' "$own"
scans 'an empty -X again' '0 0 0 0 0 0 0' one --exclude= "$own"
scans 'an empty -I' '10 10 0 0 0 5 5' one -I '' "$own"
scans 'a part of a name' '9 0 0 1 9 5 5' one -X '/own/.*test' "$own"
scans 'what both match' '1 0 0 8 1 1 1' one -I '\.debug$' -X '/own/debug/tool' "$own"
scans "a folder's own path" '10 9 0 0 1 5 5' one -X '/old$|/own$' "$own"
scans 'below a folder' '2 0 0 8 2 0 0' one -I '^/.*/own/src/old/' "$own"
scans 'beginnings and ends of paths' '0 0 0 2 0 0 0' one -I '^own/|/own/src/$' "$own"
scans 'both cases' '2 2 0 0 0 2 1' one -I '(?i)/OWN/BIN/' "$own"
scans 'no pattern again' '10 8 0 0 2 5 5' one "$own"
printf 'more\n' >>"$own/src/main.c"
scans 'a file that is replaced' '2 0 1 8 1 0 0' one -I '/main\.c$' "$own"
rm "$own/src/old/notes"
scans 'a file that is gone' '9 7 0 0 2 5 5' one -X '\.none$' "$own"
scans 'folders and patterns' '1 0 0 8 1 0 0' one -X '\.c$' "$own/src" "$own/lib/latest"

# A word that is a file lists it where it is selected, and one that is gone is told whatever the patterns say.
scans 'a file that is selected' '3 3 0 1 0 2 1' one -I '/main\.c$|/bin/' "$own/src/main.c" "$own/bin"
scans 'a file that is not' '2 0 0 1 2 2 1' one -X '\.c$' "$own/src/main.c" "$own/bin"
ends 'a root that is gone' 3 "dbgd: gone $own/gone" scan -d "$work/one.db" -X 'gone$' "$own/gone" "$own"

# Patterns that begin as an option does.
mkdir "$work/dash"
: >"$work/dash/a-x"
: >"$work/dash/a=x"
scans '-X=-x' '1 1 0 0 0 0 0' dash -X='-x$' "$work/dash"
scans '--exclude=-x' '1 0 0 0 1 0 0' dash --exclude='-x$' "$work/dash"
scans '-X==x' '1 1 0 1 0 0 0' dash -X='=x$' "$work/dash"
scans '-I=-x' '1 0 0 0 1 0 0' dash -I='-x$' "$work/dash"
scans '-I =x' '1 1 0 1 0 0 0' dash -I '=x$' "$work/dash"

# Lines that are refused: neither is a store made, nor one that is there changed.
state one >"$work/before"
deep() { printf '%s/%s' "$(printf "$1%.0s" $(seq "$3"))" "$(printf "$2%.0s" $(seq "$3"))"; } # OPEN CLOSE COUNT
refused() { # WHAT WORDS..
  local what=$1
  shift
  ends "$what" 2 "$usage" scan -d "$work/none.db" "$@" "$own"
  is "$what, its store" '' "$(state none)"
  ends "$what, over a store" 2 "$usage" scan -d "$work/one.db" "$@" "$own"
}
refused 'an option twice' -I a -I b
refused 'an option twice, by its names' -X a --exclude a
refused 'an empty one twice' --exclude= -X ''
refused 'an option that looks like a value' -X -x
for pattern in '(' ')' '[' '[b-a]' '{' 'a{2' 'a{3,2}' 'a{,3}' '*a' 'a|*' '\' '\q' '\1' '(a)\1' '(?=a)' '(?<!a)b' '(?z)' '[][a]' '\p{Nobody}' $'\xff' \
  'a{1000}{1000}{1000}' '(a{1000}){1000}' 'a{1048576}' "$(deep '(' ')' 251)" "$(deep '[' ']' 251)"; do
  refused "-I ${pattern:0:40}" -I "$pattern"
  refused "-X ${pattern:0:40}" -I a -X "$pattern"
done
is 'a store behind refused lines' "$(cat "$work/before")" "$(state one)"
ends 'a value that is missing' 2 "$usage" scan -d "$work/none.db" "$own" -I
ends 'a pattern of a query' 2 "$usage" query -d "$work/one.db" -I a 00ff
ends 'a bad pattern and a root that is gone' 2 "$usage" scan -d "$work/none.db" -I '(' "$work/none"
ends 'a bad pattern and a store without its folder' 2 "$usage" scan -d "$work/none/none.db" -I '(' "$own"
ends 'a store without its folder' 1 'dbgd: fault store' scan -d "$work/none/none.db" -I a "$own"
is 'no store' '' "$(state none)"
for pair in '( )' '[ ]'; do
  scans "a pattern that nests 250 deep" '9 7 0 0 2 5 5' one -I "$(deep "${pair% *}" "${pair#* }" 250)" "$own"
  scans 'a few' '2 0 0 7 2 2 1' one -I '/own/bin/' "$own"
done

# A pattern of 1 MiB is too big, where the system hands it on; most systems refuse a word of more than 128 KiB. A literal of the
# length that is left is a pattern as each.
long=$(head -c 1048576 /dev/zero | tr '\0' a)
timeout 60 "$program" scan -d "$work/none.db" -X "$long" "$own" >"$work/out" 2>"$work/err" </dev/null
status=$?
case $status in
  126) ;;
  *) is 'a pattern of 1 MiB' "2 $usage" "$status $(cat "$work/out" "$work/err")" ;;
esac
is 'the store of a pattern of 1 MiB' '' "$(state none)"
scans 'a pattern of 130,000 bytes' '9 7 0 0 2 5 5' one -X "${long:0:130000}" "$own"
scans 'an alternative of 130,000 bytes' '7 0 0 2 7 3 4' one -X "${long:0:130000}|/own/bin/" "$own"

# Each byte of a path but a slash: a name of three bytes for each, and one with them all. Two of the short ones are included, each as
# it is written, with a backslash where it has a meaning, and one of these is excluded by its number.
if command -v sqlite3 >/dev/null; then
  kept() { sqlite3 "$work/$1.db" 'SELECT hex(path) FROM kept'; }
elif python3 -c 'import sqlite3' 2>/dev/null; then
  kept() { python3 -c 'import sqlite3, sys
for (path,) in sqlite3.connect(sys.argv[1]).execute("SELECT hex(path) FROM kept"): print(path)' "$work/$1.db"; }
else
  say 'which path is kept: not looked at, there is no sqlite3 and no python3 with it'
fi
spelled() { printf '%s' "$1" | od -An -tx1 -v | tr -d ' \n' | tr a-f A-F; } # TEXT

# A text as a pattern of itself, with a backslash before each sign that has a meaning.
write_out() { # TEXT (sets `written`)
  local at
  written=
  for ((at = 0; at < ${#1}; at++)); do
    case '\.+*?()|[]{}^$#&-~' in *"${1:at:1}"*) written+=\\ ;; esac
    written+=${1:at:1}
  done
}

bytes=$work/bytes
mkdir "$bytes"
hexes=() literals=() all='' numbers=''
for ((number = 1; number < 128; number++)); do
  [ "$number" != 47 ] || continue
  printf -v hex '%02x' "$number"
  printf -v byte "\\x$hex"
  : >"$bytes/x${byte}y"
  write_out "$byte"
  hexes+=("$hex") literals+=("$written")
  all+=$byte numbers+="\\x$hex"
done
: >"$bytes/$all"
prefix=$(spelled "$bytes/x") dropped=0
for ((at = 0; at < ${#hexes[@]}; at++)); do
  other=$(((at + 1) % ${#hexes[@]}))
  scans "the byte ${hexes[at]}" "1 1 0 $dropped 0 0 0" bytes -I "/x(?:${literals[at]}|${literals[other]})y\$" -X "/x\\x${hexes[other]}y\$" "$bytes"
  ! declare -F kept >/dev/null || is "the path with the byte ${hexes[at]}" "$prefix${hexes[at]^^}79" "$(kept bytes)"
  dropped=1
done
write_out "$bytes/$all"
scans 'each byte as it is written' '1 1 0 1 0 0 0' bytes -I "^$written\$" "$bytes"
scans 'each byte by its number' '1 0 0 0 1 0 0' bytes -I "/$numbers\$" "$bytes"
scans 'each byte in a class' '1 0 0 0 1 0 0' bytes -I '/[\x01-\x2e\x30-\x7f]{126}$' "$bytes"
scans 'all but that' '126 126 0 1 0 0 0' bytes -X "$written" "$bytes"
scans 'any but a line feed' '125 0 0 1 125 0 0' bytes -I '^.*$' "$bytes"
scans 'a line feed, too' '127 2 0 0 125 0 0' bytes -I '(?s)^.*$' "$bytes"
scans 'no line feed before the end' '1 0 0 126 1 0 0' bytes -I 'x\ny$' -X 'x$' "$bytes"

# Letters beyond ASCII count as one each. A name that isn't UTF-8 is passed over, whatever the patterns say.
letters=$work/letters
mkdir "$letters"
for name in é.elf É.txt ß 漢字 Ωmega $'e\xcc\x81' 😀 $'no\xff'; do : >"$letters/$name"; done
scans 'names in UTF-8' '7 7 0 0 0 0 0' letters -I '' "$letters"
scans 'one letter' '2 0 0 5 2 0 0' letters -I '/letters/.$' "$letters"
scans 'Greek letters' '1 1 0 2 0 0 0' letters -I '/\p{Greek}' "$letters"
scans 'a letter in both cases' '2 2 0 1 0 0 0' letters -I '(?i)/É' "$letters"
scans 'letters in a class' '1 0 0 1 1 0 0' letters -I '/[à-ü]' "$letters"
scans 'letters of words' '4 4 0 1 0 0 0' letters -I '/\w+$' "$letters"
scans 'letters that are not ASCII' '6 3 0 1 3 0 0' letters -I '/letters/[^[:ascii:]]' "$letters"
scans 'a letter by its number' '6 1 0 1 5 0 0' letters -X '\x{1F600}' "$letters"

# Calls that name a file: as its folder is read, one asks what kind of entry it is, which the system library's reading of a folder
# does for each. Behind that one, one that isn't selected is named by none, neither as its row is dropped nor later.
looks=$work/looks
mkdir -p "$looks"/{one,two}
for number in $(seq 1 20); do
  for folder in one two; do
    printf 'text\n' | tee "$looks/$folder/$number.kept" >"$looks/$folder/$number.left"
  done
done
looked() { # WORDS.. (how many calls look at one of the 80 files behind its kind; all that names files is in `calls`)
  strace -f -qq -e trace=%file -o "$work/calls" "$program" scan -d "$work/looks.db" "$@" "$looks" >"$work/out" 2>"$work/err"
  echo "$(($(grep -c -E "^[0-9]+ +[a-z0-9_]*stat[a-z0-9_]*\\([^\"]*\"$looks/[a-z]+/[0-9]+\\.(kept|left)\"" "$work/calls") - 80))"
}
if strace -f -qq -e trace=%file -o "$work/calls" true 2>/dev/null; then
  scans 'files that are looked at' '80 80 0 0 0 0 0' looks "$looks"
  without=$(looked)
  [ "$without" -ge 80 ] || differs "80 files were looked at by $without calls"
  looked -X '\.left$' >/dev/null
  is 'the scan that drops' 'scan: 40 files, 0 added, 0 replaced, 40 dropped, 40 kept, 0 executables, 0 debuginfo' "$(cat "$work/out" "$work/err")"
  is 'calls that name a file that is dropped' 40 "$(grep -c '\.left"' "$work/calls")"
  with=$(looked -X '\.left$')
  is 'looks at half of the files' "$without" "$((with * 2))"
  is 'calls that name a file that is left out' 40 "$(grep -c '\.left"' "$work/calls")"
  with=$(looked -I '/two/.*kept$')
  is 'looks at the quarter that is included' "$without" "$((with * 4))"
  is 'calls that name another file' 60 "$(grep -c -E '/looks/(one/[0-9]|two/[0-9]+\.left)' "$work/calls")"
else
  say 'calls are not counted: there is no strace, or it may not trace'
fi

# How many files a scan may list, of which those that aren't selected are none.
if [ -z "$many" ]; then
  say 'a scan of 2^20 files: skipped, it takes minutes (SELECT_MANY=1)'
elif ! command -v python3 >/dev/null; then
  say 'a scan of 2^20 files: skipped, there is no python3'
elif [ "$(awk '/^MemAvailable:/ { print int($2 / 1000000) }' /proc/meminfo)" -lt 6 ]; then
  say 'a scan of 2^20 files: skipped, it wants 6 GB of memory'
else
  wide=$(mktemp -d -p "$([ -w /dev/shm ] && echo /dev/shm || echo "$work")") || exit 1
  trap 'rm -rf "$wide"; end_children' EXIT
  mkdir "$wide/files"
  if python3 -c 'import os, sys
os.chdir(sys.argv[1])
for folder in range(1024):
    os.mkdir(f"{folder:04d}")
    for file in range(1024):
        os.close(os.open(f"{folder:04d}/{file:04d}", os.O_CREAT | os.O_WRONLY, 0o644))
open("0000/more.left", "w").close()' "$wide/files"; then
    timeout 1200 "$program" scan -d "$wide/all.db" "$wide/files" >"$work/out" 2>"$work/err"
    is 'a file more than a scan may list' '5 dbgd: limit files' "$? $(cat "$work/out" "$work/err")"
    timeout 1200 "$program" scan -d "$wide/all.db" -X '\.left$' "$wide/files" >"$work/out" 2>"$work/err"
    is 'as many as it may, and one that is left out' \
      '0 scan: 1048576 files, 1048576 added, 0 replaced, 0 dropped, 0 kept, 0 executables, 0 debuginfo' "$? $(cat "$work/out" "$work/err")"
  else
    say 'a scan of 2^20 files: skipped, there is no room for them'
  fi
  rm -rf "$wide"
fi

command -v curl >/dev/null || finish 'servers are skipped, there is no curl'
status_of() { curl -s -m 20 --noproxy '*' -g -o "$work/body" -w '%{http_code}' "$at$1"; } # TARGET
id=c7cf087b5ca1b9c2642186834da2d47b6ff7c585   # own/bin/tool
libid=3336adb54f4844a31233966b2381453f7ba76004 # own/lib/libone.so.1.2

# Servers of one store, one after the other: the second one's first scan drops what it doesn't select, before anything is answered.
start serve -t 0 "$own" || exit 1
scanned 1
is 'a server without patterns' 'scan: 9 files, 9 added, 0 replaced, 0 dropped, 0 kept, 5 executables, 5 debuginfo' "$(grep '^scan: ' "$work/serve.out")"
is 'a file of a server without patterns' '200 200' "$(status_of "/buildid/$id/executable") $(status_of "/buildid/$libid/executable")"
ends 'a bad pattern and a port that is taken' 1 'dbgd: fault door' serve -d "$work/none.db" -p "$port" -I '(' "$own"
ends 'an option twice and a port that is taken' 2 "$usage" serve -d "$work/none.db" -p "$port" -I a -I a "$own"
stop "$server"
start serve -t 1 -I '/own/(bin|lib)/' -X '\.so' "$own" || exit 1
scanned 1
is 'a server with other patterns' 'scan: 3 files, 0 added, 0 replaced, 6 dropped, 3 kept, 2 executables, 1 debuginfo' "$(grep -m 1 '^scan: ' "$work/serve.out")"
is 'a file that is left out' '200 404' "$(status_of "/buildid/$id/executable") $(status_of "/buildid/$libid/executable")"
# Each later scan goes by the same patterns.
cp "$own/lib/libone.so.1.2" "$own/lib/new.so"
cp "$own/debug/other.debug" "$own/lib/new"
within 100 grep -q '^scan: 4 files, 1 added, 0 replaced, 0 dropped, 3 kept, 3 executables, 2 debuginfo$' "$work/serve.out" ||
  differs "a later scan: $(tail -n 2 "$work/serve.out" "$work/serve.err")"
is 'a new file that is left out' 404 "$(status_of "/buildid/$libid/executable")"
stop "$server"
rm "$own"/lib/new*
for pattern in '(' 'a{1000}{1000}{1000}'; do
  for ((try = 0; try < 20; try++)); do
    port=$((20000 + RANDOM % 12000))
    timeout 20 "$program" serve -d "$work/none.db" -p "$port" -t 0 -X "$pattern" "$own" >"$work/out" 2>"$work/err" </dev/null
    status=$?
    [ "$(cat "$work/err")" = 'dbgd: fault door' ] || break
  done
  is "a server with the pattern $pattern" "2 $usage" "$status $(cat "$work/out" "$work/err")"
done
is 'no store of a server' '' "$(state none)"

# Beside debuginfod: programs with an id of their own each, some of them cut into what runs and its debug file.
for tool in gcc objcopy strip; do
  command -v "$tool" >/dev/null || finish "debuginfod is skipped, there is no $tool"
done
corpus=$work/corpus made=0
mkdir -p "$corpus"/usr/{bin,sbin,src,lib/debug/.build-id} "$corpus/opt/Vendor Name" "$corpus"/srv/{'[old]','a{2}',café} "$corpus"/home/{aab,aaab}
makes() { # PATH (sets `source`)
  made=$((made + 1))
  source=$corpus/usr/src/main$made.c
  printf 'int main(void) { return %d; }\n' "$made" >"$source"
  gcc -g -Wl,--build-id=sha1 -o "$corpus/$1" "$source" 2>"$work/err" || finish 'debuginfod is skipped, gcc makes no program'
}
cuts() { # PATH DEBUG-FILE
  makes "$1"
  objcopy --only-keep-debug "$corpus/$1" "$corpus/$2"
  strip "$corpus/$1"
}
cuts usr/bin/tool usr/lib/debug/tool.debug
cuts usr/lib/libtwo.so.2.13 usr/lib/debug/.build-id/two.debug
for path in usr/bin/tool-2.old usr/sbin/service usr/lib/libone.so.1 'opt/Vendor Name/app' 'opt/Vendor Name/app+beta' 'srv/[old]/notes' 'srv/a{2}/x~' \
  srv/café/tool home/aab/cc home/aaab/cc.7; do
  makes "$path"
done
while IFS= read -r -d '' file; do
  "$program" ident "$file"
done < <(find "$corpus" -type f ! -name '*.c' -print0) | cut -d ' ' -f 1 | sort -u >"$work/ids"
is 'ids of the corpus' 12 "$(wc -l <"$work/ids")"
files=$(find "$corpus" -type f | wc -l)

# Sources go by folders, whatever is left out.
start sources -t 0 -X '\.c$' "$corpus" || exit 1
scanned 1
one=$("$program" ident "$corpus/home/aaab/cc.7")
is 'a source that is left out' 200 "$(status_of "/buildid/${one% *}/source$source")"
cmp -s "$work/body" "$source" || differs 'a source that is left out: other bytes'
stop "$server"

command -v debuginfod >/dev/null || finish "debuginfod is skipped, it isn't installed"
unset DEBUGINFOD_URLS
export no_proxy='*'

# A debuginfod over the corpus, with a database of its own: sets `real` and `real_at`.
taken=' '
real() { # NAME WORDS..
  local real_port one=$1
  shift
  while :; do
    real_port=$((20000 + RANDOM % 12000))
    case $taken in *" $real_port "*) continue ;; esac
    (: <>"/dev/tcp/127.0.0.1/$real_port") 2>/dev/null || break
  done
  taken+="$real_port "
  HOME=$work DEBUGINFOD_CACHE_PATH=$work/cache.$one debuginfod -v -d "$work/$one.sqlite" -p "$real_port" -t 0 -g 0 -c 2 -r -F "$@" "$corpus" \
    >"$work/$one.log" 2>&1 </dev/null &
  real=$!
  children+=("$real")
  real_at=http://127.0.0.1:$real_port
}

# Whether its one scan is over.
through() { # SERVER
  curl -s -m 20 --noproxy '*' "$1/metrics" >"$work/metrics" && grep -q '^thread_work_total{role="traverse"} 1$' "$work/metrics" &&
    grep -q '^thread_work_pending{role="scan"} 0$' "$work/metrics" && grep -q '^thread_busy{role="scan"} 0$' "$work/metrics"
}

# Asks a server for each id in both ways: a line for each answer, and the sum of what came with 200.
answers() { # SERVER FILE
  local one kind number=0 status
  while read -r one; do
    for kind in executable debuginfo; do
      number=$((number + 1))
      printf 'url = "%s/buildid/%s/%s"\noutput = "%s.%d"\n' "$1" "$one" "$kind" "$2" "$number"
    done
  done <"$work/ids" >"$2.asked"
  curl -s -m 60 --noproxy '*' -w '%{http_code}\n' -K "$2.asked" >"$2.statuses"
  number=0
  while read -r status; do
    number=$((number + 1))
    [ "$status" = 200 ] && printf '%d %s %s\n' "$number" "$status" "$(cksum <"$2.$number")" || printf '%d %s\n' "$number" "$status"
    rm -f "$2.$number"
  done <"$2.statuses" >"$2"
}

# Patterns that mean the same to both: what each includes, and what each excludes.
same=('\.debug$' '/lib[a-z]+\.so(\.[0-9]+)*$' '/corpus/usr/s?bin/' '/corpus/home/a{2}b/' '/corpus/home/a{3,}b/' '/Vendor Name/app$'
  '\+beta$|~$' '/corpus/srv/.old[]]/' '/a\{2\}/' '/corpus/[^/]+/[^/]+/[^/]+$' '[^[:alpha:]]$' '/corpus/.*\<tool\>' '/café/'
  '/corpus/.*/\.[^/]*/' '/corpus/.*(o{2}|vice)' '(one|two)\.(so|debug)' '^/.*/corpus/opt/|/notes$' '/corpus/usr/([^/]*/)*debug/'
  '/corpus/(home|srv)/.*(^|/)[nx]' '/corpus/usr/lib/[[:lower:]]+\.so\.[[:digit:]]')
includes=() excludes=()
for pattern in "${same[@]}"; do
  includes+=("$pattern" '') excludes+=('' "$pattern")
done
includes+=('/corpus/usr/' 'debug|/app' '/tool' '[0-9]$' '/corpus/(opt|srv)/')
excludes+=('\.debug$' '\.build-id/|\+' '\<tool\>$' '/home/' '/corpus/srv/[^c]')
words_of() { # RUN (sets `words`)
  words=()
  [ -z "${includes[$1]}" ] || words+=(-I "${includes[$1]}")
  [ -z "${excludes[$1]}" ] || words+=(-X "${excludes[$1]}")
}

# Both servers' stores stay from run to run, by the option, so that rows come and go. A debuginfod begins anew each time: its groom
# removes only rows that -X matches and -I doesn't. Some begin together, since each waits a second first.
count=${#includes[@]} together=8
for ((first = 0; first < count; first += together)); do
  last=$((first + together < count ? first + together : count))
  reals=() reals_at=() listed=()
  for ((run = first; run < last; run++)); do
    words_of "$run"
    real "real$run" "${words[@]}"
    reals[run]=$real reals_at[run]=$real_at
  done
  for ((run = first; run < last; run++)); do
    words_of "$run"
    start "beside$((run % 2))" -t 0 "${words[@]}" "$corpus" || exit 1
    scanned 1
    answers "$at" "$work/own$run"
    listed[run]=$(sed -n 's/^scan: \([0-9]*\) files, .*/\1/p' "$work/$name.out")
    stop "$server"
  done
  for ((run = first; run < last; run++)); do
    words_of "$run"
    within 200 through "${reals_at[run]}" || differs "debuginfod ${words[*]} doesn't end its scan: $(tail -n 3 "$work/real$run.log")"
    answers "${reals_at[run]}" "$work/wanted"
    is "debuginfod ${words[*]}" "$(cat "$work/wanted")" "$(cat "$work/own$run")"
    grep -q ' 200 ' "$work/wanted" && grep -q ' 404$' "$work/wanted" || differs "${words[*]}: all is served, or nothing"
    # It says how many files it passed over.
    passed=$(sed -n 's/.* regex-skipped=\([0-9]*\).*/\1/p' "$work/real$run.log" | head -n 1)
    [ -z "$passed" ] || is "files of debuginfod ${words[*]}" "$((files - passed))" "${listed[run]}"
  done
  kill "${reals[@]}"
  for real in "${reals[@]}"; do
    wait "$real" 2>/dev/null
    forget "$real"
  done
  rm -f "$work"/real*
done
finish "$count of them beside debuginfod, by ${#same[@]} patterns"
